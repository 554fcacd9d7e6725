#!/usr/bin/env python3
"""Sheets of edition 1, read and built as 02 [2] says, and from them the requests of crates/build_table and its answers:

    tools/sheets.py > crates/build_table/stdin
    tools/sheets.py answers > crates/build_table/stdout

`answer` gives the number, or the image. It shares nothing with the proved code: a sheet's form is a pattern for each kind of line, and the
image is that of tools/layout.py. Every case also states by hand the number or the image's length, and some what the check says.
"""
import re
import struct
import sys

from images import SAMPLES
from layout import Internode, Leaf, build, tree_of
from requests import FROM, encode

NUMBER = rb"(0|[1-9][0-9]*)"
FIRST, STATION, LAST = (re.compile(line + NUMBER) for line in (rb"sheet 1 keys ", rb"(-|(?:[0-9a-f]{2})+) ", rb"end "))
LONGEST = 16_777_216


# ---- the reference

def read(sheet):
    """The (key, value) pairs, or 31 or 32."""
    *lines, behind = sheet.split(b"\n")
    if behind or len(lines) < 2:
        return 31
    first, last = FIRST.fullmatch(lines[0]), LAST.fullmatch(lines[-1])
    stations = [STATION.fullmatch(line) for line in lines[1:-1]]
    if not first or not last or not all(stations):
        return 31
    pairs = [(b"" if s[1] == b"-" else bytes.fromhex(s[1].decode()), int(s[2])) for s in stations]
    if int(first[1]) != len(pairs) or max(int(last[1]), *(value for _, value in pairs), 0) >= 1 << 64:
        return 31
    if any(len(key) > 256 for key, _ in pairs) or any(not a < b for (a, _), (b, _) in zip(pairs, pairs[1:])):
        return 32
    return pairs


def answer(sheet, room):
    """The number, or the image, for an output of so many bytes."""
    pairs = read(sheet)
    if isinstance(pairs, int):
        return pairs
    image = build(tree_of(dict(pairs)))
    return 33 if len(image) > min(room, LONGEST) else image


def counts(node, layer=0):
    """Leaves, value slots and sub-layers of a tree, which is one layer or no layer more."""
    parts = [(0, 0, layer)]
    if isinstance(node, Internode):
        parts += [counts(child) for child in node.children]
    else:
        parts += [(1, sum(slot.sub is None for slot in node.slots), 0)]
        parts += [counts(slot.sub, 1) for slot in node.slots if slot.sub is not None]
    return tuple(sum(column) for column in zip(*parts))


def written(pairs, end=0):
    """A sheet's text."""
    lines = ["sheet 1 keys %d" % len(pairs)] + ["%s %d" % (key.hex() or "-", value) for key, value in pairs] + ["end %d" % end]
    return "".join(line + "\n" for line in lines).encode()


def listed(pairs):
    """The sheet that the listing gives of the image: at its end the move total of 01."""
    leaves, slots, layers = counts(tree_of(dict(pairs)))
    return written(pairs, 2 + slots + leaves + 4 * layers)


# ---- crates/build_table: the requests and their answers

SHOWN = 1  # the form that prints an image's bytes and its sheet
MARK = b"\xa5"


def fnv(data):
    h = 0xCBF29CE484222325
    for byte in data:
        h = (h ^ byte) * 0x100000001B3 % (1 << 64)
    return h


def request(name, sheet, room, form=0):
    return encode(name, sheet, FROM, struct.pack("<I", room), form=form)


def told(name, sheet, room, form=0):
    """The lines of a request's answer."""
    result = answer(sheet, room)
    if isinstance(result, int):
        return b"%s %d 0 %016x\n" % (name.encode(), result, fnv(MARK * room))
    pairs = read(sheet)
    out = b"%s 0 %d %016x accepted %d %d %d\n" % (name.encode(), len(result), fnv(result + MARK * (room - len(result))), *counts(tree_of(dict(pairs))))
    return out + (result.hex().encode() + b"\n" + listed(pairs) if form == SHOWN else b"")


def numbered(keys, start=1):
    return [(key, start + i) for i, key in enumerate(keys)]


A = [(b"", 1), (b"a", 7), (b"ab", 9)]
B = [(b"entrance.1", 4), (b"entrance.2", 5)]
K8 = b"k" * 8


def out_of_form():
    """Each is 31: sheets that are in the form but for one thing."""
    yield "no-bytes", b""
    yield "newline-alone", b"\n"
    # the first line
    for name, first in {
        "first-edition-2": b"sheet 2 keys 0", "first-edition-01": b"sheet 01 keys 0", "first-edition-none": b"sheet keys 0", "first-word": b"sheets 1 keys 0",
        "first-capital": b"Sheet 1 keys 0", "first-space-before": b" sheet 1 keys 0", "first-space-behind": b"sheet 1 keys 0 ",
        "first-two-spaces": b"sheet 1 keys  0", "first-tab": b"sheet\t1 keys 0", "first-cr": b"sheet 1 keys 0\r", "first-count-00": b"sheet 1 keys 00",
        "first-count-none": b"sheet 1 keys ", "first-count-sign": b"sheet 1 keys +0", "first-count-word": b"sheet 1 keys -",
        "first-count-2^64": b"sheet 1 keys 18446744073709551616", "first-count-2^64-1": b"sheet 1 keys 18446744073709551615",
    }.items():
        yield name, first + b"\nend 0\n"
    yield "first-line-missing", b"61 1\nend 0\n"
    yield "first-line-alone", b"sheet 1 keys 0\n"
    yield "first-line-unended", b"sheet 1 keys 0"
    yield "first-line-empty", b"\nsheet 1 keys 0\nend 0\n"
    # a station's line
    for name, line in {
        "key-none": b" 1", "key-one-digit": b"6 1", "key-three-digits": b"616 1", "key-capital": b"6A 1", "key-no-hex": b"6g 1", "key-quoted": b'"a" 1', "key-0x": b"0x61 1",
        "key-two-dashes": b"-- 1", "key-dash-and-hex": b"-61 1", "key-hex-and-dash": b"61- 1", "key-space-before": b" 61 1", "key-bytes-apart": b"61 62 1",
        "value-none": b"61", "value-none-but-space": b"61 ", "value-01": b"61 01", "value-00": b"61 00", "value-two-spaces": b"61  1", "value-tab": b"61\t1",
        "value-space-behind": b"61 1 ", "value-cr": b"61 1\r", "value-zero-byte": b"61 1\0", "value-sign": b"61 +1", "value-negative": b"61 -1", "value-hex": b"61 a",
        "value-2^64": b"61 18446744073709551616", "value-20-digits": b"61 99999999999999999999", "value-21-digits": b"61 100000000000000000000",
        "value-and-remark": b"61 1 ;x", "line-empty": b"",
    }.items():
        yield name, b"sheet 1 keys 1\n" + line + b"\nend 0\n"
    # the last line
    for name, last in {
        "end-none": b"", "end-unended": b"end 0", "end-word-alone": b"end\n", "end-no-figure": b"end \n", "end-00": b"end 00\n", "end-capital": b"End 0\n",
        "end-two-spaces": b"end  0\n", "end-space-before": b" end 0\n", "end-space-behind": b"end 0 \n", "end-cr": b"end 0\r\n", "end-2^64": b"end 18446744073709551616\n",
        "end-byte-behind": b"end 0\nx", "end-newline-behind": b"end 0\n\n", "end-twice": b"end 0\nend 0\n", "end-before-station": b"end 0\n62 1\n",
    }.items():
        yield name, b"sheet 1 keys 1\n61 1\n" + last
    # the key count, also where only 32 stands before
    for name, count, lines in (
        ("count-more", 2, b"61 1\n"), ("count-less", 1, b"61 1\n62 1\n"), ("count-0-of-1", 0, b"61 1\n"), ("count-1-of-0", 1, b""),
        ("count-beats-equal", 3, b"61 1\n61 1\n"), ("count-beats-descending", 1, b"62 1\n61 1\n"), ("count-beats-257", 2, b"61" * 257 + b" 1\n"),
        ("form-beats-descending", 3, b"62 1\n61 1\n6A 1\n"),
    ):
        yield name, b"sheet 1 keys %d\n" % count + lines + b"end 0\n"
    yield "end-beats-descending", b"sheet 1 keys 2\n62 1\n61 1\nend 00\n"


def out_of_order():
    """Each is 32."""
    for name, *keys in (
        ("keys-equal", b"a", b"a"), ("keys-descend", b"b", b"a"), ("key-empty-behind", b"a", b""), ("key-empty-twice", b"", b""), ("key-shorter-behind", b"aa", b"a"),
        ("key-zero-byte-shorter", b"a\0", b"a"), ("keys-descend-7f-80", b"\x80", b"\x7f"), ("long-keys-equal", K8 + b"a", K8 + b"a"), ("long-keys-descend", K8 + b"b", K8 + b"a"),
        ("last-key-descends", b"a", b"b", b"d", b"c"), ("key-of-257", b"a" * 257), ("key-of-257-behind", b"a", b"b" * 257), ("key-of-300-descends", b"b", b"a" * 300),
    ):
        yield name, written(numbered(keys))


def of_two(n):
    """n keys of two bytes, with values of one digit."""
    return [(struct.pack(">H", i), i % 10) for i in range(n)]


def of_seven(n):
    return numbered([b"st%05d" % i for i in range(n)])


def zeros():
    """An ikey with ten slots, the most that one has, and then nine of another."""
    return numbered([bytes(n) for n in range(11)] + [b"b" + bytes(n) for n in (*range(8), 9)])


def images():
    """A name, the pairs, the image's length, and the check's three numbers."""
    yield "a", A, 440, (1, 3, 0)
    yield "b", B, 840, (2, 2, 1)
    yield "no-keys", [], 440, (1, 0, 0)
    yield "one-suffix", [(K8 + b"a", 3)], 448, (1, 1, 0)
    yield "one-layer", [(K8 + b"a", 3), (K8 + b"b", 4)], 840, (2, 2, 1)
    yield "empty-key-alone", [(b"", 5)], 440, (1, 1, 0)
    yield "largest-value", [(b"a", (1 << 64) - 1)], 440, (1, 1, 0)
    yield "inline-beside-suffix", numbered([K8, K8 + b"m", b"l"]), 448, (1, 3, 0)
    yield "inline-beside-layer", numbered([K8, K8 + b"m", K8 + b"n"]), 840, (2, 3, 1)
    yield "suffix-of-8", numbered([K8 + b"12345678"]), 448, (1, 1, 0)
    yield "suffix-of-9", numbered([K8 + b"123456789"]), 456, (1, 1, 0)
    yield "zeros", zeros(), 1504, (3, 20, 1)
    yield "zeros-and-a", numbered(sorted({b"a" * i + bytes(j) for i in range(20) for j in range(12)})), None, None
    yield "key-of-256", numbered([b"c" * 256]), 688, (1, 1, 0)
    yield "31-layers", numbered([b"c" * 256, b"c" * 249 + b"d"]), 12_840, (32, 2, 31)
    yield "layer-of-16", numbered([K8 + bytes([i]) for i in range(16)]), 1496, (3, 16, 1)
    yield "15-keys", of_seven(15), 440, (1, 15, 0)
    yield "16-keys", of_seven(16), 1096, (2, 16, 0)
    yield "240-keys", of_seven(240), 6696, (16, 240, 0)
    yield "241-keys", of_seven(241), 7608, (17, 241, 0)
    yield "3840-keys", of_two(3840), 106_792, (256, 3840, 0)
    yield "3841-keys", of_two(3841), 107_960, (257, 3841, 0)


def cases():
    """A request's name, sheet, room and form, and the number or the length that it must give."""
    for number, sheets in ((31, out_of_form()), (32, out_of_order())):
        for name, sheet in sheets:
            yield name, sheet, 1000, 0, number
    for number, sheet in ((31, b"sheet 1 keys 0\nend 00\n"), (32, written(numbered([b"b", b"a"])))):
        yield f"{number}-before-33", sheet, 0, 0, number
    for name, pairs, length, told_by_check in images():
        tree = tree_of(dict(pairs))
        length = length or len(build(tree))
        assert told_by_check in (None, counts(tree)), name
        yield name, written(pairs), length + 16, SHOWN if name in ("a", "b") else 0, length
        if len(pairs) <= 3:
            yield name + "-just-enough", written(pairs), length, 0, length
            yield name + "-one-byte-less", written(pairs), length - 1, 0, 33
            yield name + "-no-output", written(pairs), 0, 0, 33
        if len(pairs) <= 20:
            yield name + "-as-listed", listed(pairs), length, 0, length
    yield "end-figure-2^64-1", written(A, (1 << 64) - 1), 440, 0, 440


def main():
    if sys.argv[1:] not in ([], ["answers"]):
        sys.exit(__doc__)
    assert answer(written(A), 440) == SAMPLES["a"]() and answer(written(B), 840) == SAMPLES["b"]()
    for name, sheet, room, form, stated in cases():
        result = answer(sheet, room)
        assert stated == (result if isinstance(result, int) else len(result)), (name, stated)
        sys.stdout.buffer.write((told if sys.argv[1:] else request)(name, sheet, room, form))


if __name__ == "__main__":
    main()
