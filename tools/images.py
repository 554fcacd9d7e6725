#!/usr/bin/env python3
"""Writes the images that the repository's programs run on, from document 01's layout.

    tools/images.py table  > crates/check_table/stdin     requests to check named images, each in order or with one fault
    tools/images.py sample NAME > samples/NAME.img        one image by name (sample list: the names)

A fault is one change to the bytes that `build` gives. Nothing here checks an image: the answers that the table must give are written
by hand in crates/check_table/stdout.
"""
import struct
import sys

from layout import TOP, Internode, Leaf, Slot, build, ikey, tree_of
from requests import ABOVE, CHECK, request


# ---- trees in order

def tree_a():
    return Leaf(Slot(b"", 1), Slot(b"a", 7), Slot(b"ab", 9))


def tree_b():
    return Leaf(Slot(b"entrance", sub=Leaf(Slot(b".1", 4), Slot(b".2", 5))))


def one_dead():
    """P10's tree."""
    return Leaf(Slot(b"a", 1, live=False), Slot(b"b", 2))


def two_leaves():
    return Internode([ikey(b"m")], Leaf(Slot(b"a", 1), Slot(b"b", 2)), Leaf(Slot(b"m", 3), Slot(b"z", 4)))


def nested():
    """An internode over two, each over two leaves."""
    low = Internode([ikey(b"c")], Leaf(Slot(b"a", 1)), Leaf(Slot(b"d", 2)))
    high = Internode([ikey(b"t")], Leaf(Slot(b"n", 3)), Leaf(Slot(b"u", 4)))
    return Internode([ikey(b"m")], low, high)


def layers(n, bottom=None, byte=b"x"):
    """n layers below the root, each entered at eight times a byte, with one key at the bottom."""
    node = bottom or Leaf(Slot(b"k", 1))
    for _ in range(n):
        node = Leaf(Slot(byte * 8, sub=node))
    return node


def path(n):
    """n internodes of no key above one leaf."""
    node = Leaf(Slot(b"a", 1))
    for _ in range(n):
        node = Internode([], node)
    return node


def suffixed(n):
    return Leaf(Slot(b"12345678", 1, suffix=b"s" * n))


def many_names():
    """Some hundred names over several layers and leaves; one name begins many others."""
    names = [b""]
    for front in range(6):
        names.append(b"entrance.%d" % front)
        for i in range(20):
            names.append(b"entrance.%d.station.%02d" % (front, i))
    for front in range(12):
        names.append(b"gallery%d" % front)
        names.append(b"gallery%d.sump" % front)
    return tree_of({name: 100 + i for i, name in enumerate(sorted(names))})


# ---- one change to an image's bytes

def put(image, form, at, *values):
    b = bytearray(image)
    struct.pack_into(form, b, at, *values)
    return bytes(b)


def trailer(image, field, value):
    return put(image, "<Q", len(image) - 32 + 8 * field, value)


def changed(tree, form, where, value):
    """The image of a tree with one field of one record changed; `where` gives its offset from the tree."""
    image = build(tree)
    return put(image, form, where(tree), value)


def all_live(leaf):
    """The image of a root leaf with all sixteen bits of its live mask set."""
    return changed(leaf, "<H", in_leaf(4), 0xFFFF)


ROOT, COUNT, LENGTH, EDITION = range(4)
IDENTITY = 0xEDCBA98765432100


def in_leaf(offset):
    return lambda leaf: leaf.at + offset


def with_gap(tree, at, n=8):
    """n bytes put in at an offset, the length stated anew, and offsets left as they were."""
    image = build(tree)
    image = image[:at] + bytes(n) + image[at:]
    return trailer(image, LENGTH, len(image))


def table():
    a = build(tree_a())
    yield "tree-a", a
    yield "tree-b", build(tree_b())
    yield "empty-leaf", build(Leaf())
    # live and dead: neither a layer's bit counts, nor an unused slot's, nor bit 15
    yield "dead-slot", build(one_dead())
    yield "all-dead", build(Leaf(Slot(b"12345678", 1, suffix=b"s", live=False), Slot(b"a", 2, live=False)))
    yield "dead-in-layer", build(layers(1, one_dead()))
    yield "mask-ffff-of-layer", all_live(tree_b())
    yield "mask-ffff-of-leaf", all_live(tree_a())
    yield "two-leaves", build(two_leaves())
    yield "nested-internodes", build(nested())
    yield "internode-of-no-key", build(path(1))
    yield "empty-leaf-between", build(Internode([5, 9], Leaf(), Leaf(Slot(bytes(7) + b"\5", 1)), Leaf()))
    yield "empty-name-under-internode", build(Internode([ikey(b"m")], Leaf(Slot(b"", 1)), Leaf(Slot(b"m", 2))))
    yield "slots-permuted", build(Leaf(Slot(b"a", 1), Slot(b"b", 2), order=[14, 3, 0, 1, 2] + list(range(4, 14))))
    yield "ignored-version-bits", changed(tree_a(), "<I", in_leaf(0), 0xFFFFFFFF & ~0x20000007)
    yield "unread-bytes", put(put(a, "<Q", 0, TOP - 1), "<H", 8 + 6, 0xFFFF)
    yield "every-inline-length", build(Leaf(*[Slot(b"a" * n, n) for n in range(9)]))
    yield "inline-suffix-in-order", build(Leaf(Slot(b"aaaaaaaa", 1), Slot(b"aaaaaaaa", 2, suffix=b"b"), Slot(b"b", 3)))
    yield "inline-layer-in-order", build(Leaf(Slot(b"aaaaaaaa", 1), Slot(b"aaaaaaaa", sub=Leaf(Slot(b"b", 2)))))
    # the limits that 01 gives
    yield "suffix-248-in-root", build(suffixed(248))
    yield "suffix-249-in-root", build(suffixed(249))
    yield "suffix-240-at-depth-1", build(layers(1, suffixed(240)))
    yield "suffix-241-at-depth-1", build(layers(1, suffixed(241)))
    yield "layer-slot-at-depth-30", build(layers(31))
    yield "layer-slot-at-depth-31", build(layers(32))
    yield "twelve-internodes", build(path(12))
    yield "thirteenth-internode", build(path(13))
    # 1, 2
    yield "no-bytes", b""
    yield "length-432", a[:432]
    yield "length-444", a + bytes(4)
    yield "stated-length-differs", trailer(a, LENGTH, 448)
    yield "edition-0", trailer(a, EDITION, 0)
    yield "edition-2", trailer(a, EDITION, 2)
    # 3: on reaching a record
    yield "root-no-multiple-of-8", trailer(a, ROOT, 12)
    yield "root-below-8", trailer(a, ROOT, 0)
    yield "record-into-trailer", trailer(a, ROOT, 160)
    yield "root-past-image", trailer(a, ROOT, 1 << 40)
    yield "leaf-into-trailer", changed(two_leaves(), "<I", in_leaf(0), 1 << 31)
    yield "child-below-place", changed(two_leaves(), "<Q", in_leaf(128 + 8), 8)
    yield "child-no-multiple-of-8", changed(two_leaves(), "<Q", in_leaf(128 + 8), 410)
    # 3: suffixes, parts, the end
    yield "suffix-one-place-on", changed(suffixed(9), "<I", in_leaf(272), 16)
    yield "suffix-into-its-leaf", changed(suffixed(9), "<I", in_leaf(276), 25)
    yield "record-not-at-place", trailer(with_gap(tree_a(), 8), ROOT, 16)
    yield "gap-before-trailer", with_gap(tree_a(), 408)
    # 4
    for k in (0, 1, 2, 29):
        yield f"leaf-version-bit-{k}", changed(tree_a(), "<I", in_leaf(0), 1 << 31 | 1 << k)
    yield "internode-version-bit-0", changed(two_leaves(), "<I", in_leaf(0), 1)
    yield "internode-16-keys", changed(two_leaves(), "<B", in_leaf(4), 16)
    # 5
    yield "permutation-field-15", changed(tree_a(), "<Q", in_leaf(8), IDENTITY + 3 | 0xF << 60)
    yield "permutation-repeated-in-use", changed(tree_a(), "<Q", in_leaf(8), IDENTITY + 3 & ~(0xF << 8))
    yield "permutation-repeated-past-size", changed(tree_a(), "<Q", in_leaf(8), IDENTITY + 3 & ~(0xF << 60))
    # 6
    for keylenx in (9, 63, 65, 127):
        yield f"keylenx-{keylenx}", changed(tree_a(), "<B", in_leaf(136 + 2), keylenx)
    yield "keylenx-0-below-root", build(layers(1, Leaf(Slot(b"", 1))))
    yield "ikey-byte-past-end", changed(tree_a(), "<Q", in_leaf(16 + 8), ikey(b"a\0b"))
    yield "ikey-byte-of-empty-key", changed(tree_a(), "<Q", in_leaf(16), 1)
    # 7
    yield "suffix-empty", changed(suffixed(1), "<I", in_leaf(276), 0)
    yield "dead-suffix-empty", put(changed(suffixed(1), "<I", in_leaf(276), 0), "<H", 16 + 4, 0)
    # 8: separators
    yield "first-separator-0", changed(two_leaves(), "<Q", in_leaf(8), 0)
    yield "separators-equal", build(Internode([9, 9], Leaf(), Leaf(), Leaf()))
    yield "separators-descend", build(Internode([9, 8], Leaf(), Leaf(), Leaf()))
    yield "separator-at-upper-end", build(Internode([9], Internode([9], Leaf(), Leaf()), Leaf()))
    yield "separator-at-lower-end", build(Internode([9], Leaf(), Internode([9], Leaf(), Leaf())))
    # 8: slots
    yield "slots-descend", build(Leaf(Slot(b"b", 1), Slot(b"a", 2)))
    yield "slots-equal", build(Leaf(Slot(b"a", 1), Slot(b"a", 2)))
    yield "keylenx-descends", build(Leaf(Slot(b"a\0", 1), Slot(b"a", 2)))
    yield "suffix-and-layer-of-one-ikey", build(Leaf(Slot(b"aaaaaaaa", 1, suffix=b"b"), Slot(b"aaaaaaaa", sub=Leaf(Slot(b"c", 2)))))
    yield "two-layers-of-one-ikey", build(Leaf(Slot(b"aaaaaaaa", sub=Leaf(), keylenx=128), Slot(b"aaaaaaaa", sub=Leaf(), keylenx=129)))
    yield "slot-below-range", build(Internode([ikey(b"m")], Leaf(Slot(b"a", 1)), Leaf(Slot(b"c", 2))))
    yield "slot-at-upper-end", build(Internode([ikey(b"m")], Leaf(Slot(b"m", 1)), Leaf(Slot(b"n", 2))))
    # 9
    yield "next-not-this-leaf", changed(two_leaves(), "<Q", lambda t: t.children[0].at + 392, 8)
    yield "next-0-too-early", changed(two_leaves(), "<Q", lambda t: t.children[0].at + 392, 0)
    yield "last-next-not-0", changed(tree_a(), "<Q", in_leaf(392), 8)
    yield "last-next-of-sub-layer", changed(tree_b(), "<Q", lambda t: t.slots[0].sub.at + 392, 8)
    # 10
    yield "key-count-one-more", trailer(a, COUNT, 4)
    yield "key-count-with-dead", trailer(build(one_dead()), COUNT, 2)
    yield "key-deleted-not-counted-out", changed(tree_a(), "<H", in_leaf(4), 0b101)
    yield "key-count-with-layer", trailer(build(tree_b()), COUNT, 3)
    yield "key-count-by-mask", trailer(all_live(tree_b()), COUNT, 3)
    yield "key-count-0-of-live", trailer(a, COUNT, 0)
    # several faults: the first decides
    yield "edition-before-tree", trailer(trailer(a, EDITION, 3), ROOT, 12)
    yield "separators-before-children", trailer(put(changed(two_leaves(), "<Q", in_leaf(8), 0), "<I", 8, 1), COUNT, 9)
    yield "slot-before-next-slot", put(changed(tree_a(), "<B", in_leaf(136 + 1), 9), "<B", 8 + 136 + 2, 0)
    yield "order-before-suffix-place", put(build(Leaf(Slot(b"b", 1), Slot(b"aaaaaaaa", 2, suffix=b"b"))), "<I", 16 + 272 + 8, 16)


SAMPLES = {
    "a": lambda: build(tree_a()),
    "b": lambda: build(tree_b()),
    "cave": lambda: build(many_names()),
    "dead": lambda: build(Leaf(*[Slot(b"st%02d" % i, i, live=i % 3 != 1) for i in range(12)])),
    "damaged": lambda: changed(tree_b(), "<Q", lambda t: t.slots[0].sub.at + 392, 8),
}


def main():
    if sys.argv[1:] == ["table"]:
        for name, image in table():
            request(name, image, ABOVE, form=CHECK)
    elif sys.argv[1:] == ["sample", "list"]:
        print("\n".join(SAMPLES))
    elif len(sys.argv) == 3 and sys.argv[1] == "sample" and sys.argv[2] in SAMPLES:
        sys.stdout.buffer.write(SAMPLES[sys.argv[2]]())
    else:
        sys.exit(__doc__)


if __name__ == "__main__":
    main()
