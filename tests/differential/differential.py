#!/usr/bin/env python3
"""Holds the compiled port against the Rust's own scan.

    differential.py [--walks N] [--seed S] [--pack FILE]     compares N walks; FILE gets accepted images for guard.c
    differential.py --store crates/replay                    writes a stored list of 400 walks

Needs target/oracle/bin/oracle, the Rust's scan made runnable over images (oracle/build.sh), and target/bin/replay, the proved
program (`tools/program replay`). Both get the same images, accepted and damaged, cursors and bounds; every answer is compared: key,
value, moves, and the whole walk after each call (position, leaf, root, cursor, buffer, stack). One difference is due and no other:
a walk that hands out its included end is ended there, where the Rust moves on (`stopped`). Depth and count, which the Rust has not,
are worked out from its lines (`counted`). Accepted are the images that the port's check takes with the numbers that the builder
knows; over these the keys, their depths, and the layers that a long cursor leads into are held against the builder's own as well.
Up to eight bytes of cursor, above it, the Rust's loop makes the whole walk; else the Start moves are the oracle's, written by hand.
`run` does all of it.
"""
import argparse
import collections
import os
import random
import struct
import subprocess
import sys
import tempfile
import textwrap

TOP = os.path.dirname(os.path.dirname(os.path.dirname(os.path.abspath(__file__))))
sys.path.insert(0, os.path.join(TOP, "tools"))
import layout
import shapes
import trees
from requests import ABOVE, CHECK, FROM, INCLUDED, STATES, UNBOUNDED, encode

BATCH = 100                 # images for one run of the program
MOST = 64000                # the longest image, a little under what the program reads
SHORT, LONGEST = 8, 256     # the longest cursor that is in Retry where it is above, and the longest of all
PACKED, EACH = 400, 20      # images in a pack, or more where a shape has not so many in it
NAMES = 64                  # about so many keys of an image in a pack

Walk = collections.namedtuple("Walk", "image look mode cursor kind bound")      # look is None for a damaged image


class Oracle:
    def __init__(self):
        program = os.path.join(TOP, "target", "oracle", "bin", "oracle")
        self.process = subprocess.Popen([program], stdin=subprocess.PIPE, stdout=subprocess.PIPE, text=True)
        self.file = tempfile.NamedTemporaryFile(suffix=".img")
        self.image = None

    def walk(self, w):
        """The lines of one walk, a fault or a declined placing by its number alone; and what its Start moves came to, or None: how
        many layers they entered, and whether they stood at last. A walk over a damaged image may go round for ever, a key at a
        time: the program stops after as many keys as the image has bytes, and so does this."""
        if w.image is not self.image:
            self.image = w.image
            self.file.seek(0)
            self.file.truncate()
            self.file.write(w.image)
            self.file.flush()
        verb = "from" if w.mode == FROM else "walk"
        asked = f"{verb} {self.file.name} {w.cursor.hex() or '-'} {w.kind} {w.bound.hex() or '-'} {len(w.image)}\n"
        self.process.stdin.write(asked)
        self.process.stdin.flush()
        lines, start = [], None
        while line := self.process.stdout.readline().rstrip("\n"):
            if line.startswith("start"):
                _, _, layers, _, stood = line.split()
                start = int(layers), stood == "1"
            elif line.startswith(("fault", "error")):
                lines.append(" ".join(line.split()[:2]))
            elif not lines or not lines[-1].startswith(("fault", "error")):
                lines.append(line)
        if sum(line.startswith("key") for line in lines) == len(w.image):
            lines.pop()
        return lines, start


def request(i, form, w):
    return encode(f"w{i}", w.image, w.mode, w.cursor, w.kind, w.bound, form)


def port(form, walks):
    """What the port prints for each."""
    program = os.path.join(TOP, "target", "bin", "replay")
    requests = b"".join(request(i, form, w) for i, w in enumerate(walks))
    out = subprocess.run([program], input=requests, stdout=subprocess.PIPE, check=True).stdout.decode()
    return out.split("\n")[:-1] if form == CHECK else [part.split("\n") for part in out.split("\n\n")[:-1]]


def number_in(line, word):
    """The number behind a word in a key's line, or in a none's."""
    words = line.split()
    return int(words[words.index(word) + 1])


def moves_in(line):
    return number_in(line, "moves")


def stopped(w, lines):
    """The lines that are due, by the Rust's own; and what the Rust has behind the included end, or None where that is not out. 02
    [12]: "A walk that hands out the key exactly at its end is ended there; the next call answers none with zero moves." So the lines
    are the Rust's up to and with the first key that is the included bound; then come one none, with the walk as after that key, and
    the moves so far."""
    end = f"key {w.bound.hex() or '-'} "
    at = next((i for i, line in enumerate(lines, 1) if w.kind == INCLUDED and line.startswith(end)), None)
    if at is None:
        return lines, None
    walk = lines[at - 1][lines[at - 1].index(" pos "):]
    return lines[:at] + ["none moves 0" + walk, f"total {sum(map(moves_in, lines[:at]))}"], lines[at:]


def counted(lines):
    """The Rust's lines with the depth and the count behind the moves. 02 [13]: "The step's answer and the walk itself carry the depth
    at which the last key was found and how many have been handed out so far; depth is 0 and the count 0 before the first", and "a none
    gives both as they stand". A key's depth is the number of layers on the stack in its own line."""
    depth = count = 0
    out = []
    for line in lines:
        if line.startswith("key "):
            stack = line.split(" stack ")[1]
            depth = 0 if stack == "-" else len(stack.split(","))
            count += 1
        if line.startswith(("key ", "none ")):
            line = line.replace(" pos ", f" depth {depth} count {count} pos ")
        out.append(line)
    return out


def spared(behind):
    """The moves of the Rust's none behind the included end; 0 where it says anything else there."""
    return moves_in(behind[0]) if len(behind) == 2 and behind[0].startswith("none ") else 0


def damage(r, image):
    """Some bytes changed, anywhere before the trailer."""
    b = bytearray(image)
    for _ in range(r.randrange(1, 8)):
        at = r.randrange(8, len(b) - 32)
        b[at] = r.choice([0, 1, 8, 15, 64, 128, 255, r.randrange(256), b[at] ^ 1 << r.randrange(8)])
    return bytes(b)


def strike(r, image, look):
    """Some fields of records changed, or the trailer's root."""
    b = bytearray(image)
    for _ in range(r.randrange(1, 4)):
        record = r.choice(look.records)
        offset = r.choice([r.choice(look.records).at, r.choice(look.records).at, record.at, 0, 1, 8, 9, len(b) - 32,
                           8 * r.randrange(len(b) // 8), r.randrange(1 << 64)])
        i = r.randrange(15)
        if r.random() < 0.1:
            struct.pack_into("<Q", b, len(b) - 32, offset)
            continue
        at, form, value = r.choice([
            (0, "<I", record.version ^ 1 << r.randrange(32)),
            (4, "<H", r.randrange(1 << 16)),
            (8 + r.randrange(8), "<B", r.randrange(256)),
            (16 + 8 * i, "<Q", r.choice([0, layout.TOP - 1, r.randrange(layout.TOP)])),
            (136 + i, "<B", r.choice([0, 1, 7, 8, 9, 63, 64, 65, 127, 128, 255])),
            (152 + 8 * i, "<Q", offset),
            (272 + 8 * i, "<I", offset & 0xffffffff),
            (276 + 8 * i, "<I", r.choice([0, 1, 8, 247, 248, 249, 256, 257, len(b), r.randrange(1 << 32)])),
            (392, "<Q", offset),
        ] if isinstance(record, layout.Leaf) else [
            (0, "<I", record.version ^ 1 << r.randrange(32)),
            (4, "<B", r.choice([0, 1, 14, 15, 16, 255])),
            (8 + 8 * i, "<Q", r.choice([0, layout.TOP - 1, r.randrange(layout.TOP)])),
            (128 + 8 * i, "<Q", offset),
        ])
        struct.pack_into(form, b, record.at + at, value)
    return bytes(b)


def waylay(r, image, look, cursor):
    """Slots in the leaves that a cursor comes by changed: to its ikey; to a suffix, a layer or neither; to a slot of 15; or a
    suffix to one with which the key has 256 bytes, or 257."""
    b = bytearray(image)
    way = [(len(front), leaf) for front, leaf in look.places if leaf.slots and cursor.startswith(front)]
    met = [(off, leaf) for off, leaf in way if any(s.ikey == layout.ikey(cursor[off:]) for s in leaf.slots)]
    if not way:
        return strike(r, image, look)
    for _ in range(r.randrange(1, 5)):
        off, leaf = r.choice(met or way)
        ikey = layout.ikey(cursor[off:])
        here = [i for i, s in enumerate(leaf.slots) if s.ikey == ikey] or range(len(leaf.slots))
        i = r.choice(here)
        like = leaf.order[i]
        i = (i + r.choice([-1, 0, 0, 1])) % len(leaf.slots)
        slot = leaf.order[i]
        sort = r.choice(["ikey", "suffix", "length", "layer", "keylenx", "field", "live"])
        if sort in ("ikey", "suffix", "layer") and r.random() < 0.8:
            struct.pack_into("<Q", b, leaf.at + 16 + 8 * slot, ikey)
        if sort == "suffix":    # one that a slot has, or any bytes
            at, n = struct.unpack_from("<II", b, leaf.at + 272 + 8 * like)
            at, n = r.choice([(at, n), (at, n), (at, max(n - 1, 0)), (at, n + 1), (r.randrange(8, len(b)), r.randrange(40))])
            struct.pack_into("<II", b, leaf.at + 272 + 8 * slot, at, n & 0xffffffff)
            b[leaf.at + 136 + slot] = 64
        elif sort == "length":
            n = r.choice([0, 1, 8, r.randrange(260), 248 - off, 249 - off, 249 - off, len(b)])
            struct.pack_into("<I", b, leaf.at + 276 + 8 * like, n)
            if r.random() < 0.5:
                struct.pack_into("<I", b, leaf.at + 272 + 8 * like, r.randrange(8, len(b)))
                b[leaf.at + 136 + like] = 64
        elif sort == "layer":
            root = r.choice([leaf, r.choice(look.records), r.choice(look.records)]).at
            struct.pack_into("<Q", b, leaf.at + 152 + 8 * slot, root)
            b[leaf.at + 136 + slot] = r.choice([128, 200, 255])
        elif sort == "keylenx":
            b[leaf.at + 136 + r.choice([slot, like])] = r.choice([0, 8, 9, 63, 64, 65, 127, 128])
        elif sort == "field":
            perm = struct.unpack_from("<Q", b, leaf.at + 8)[0]
            put = r.choice([15, like, r.randrange(16)])
            struct.pack_into("<Q", b, leaf.at + 8, perm & ~(15 << 4 * i + 4) | put << 4 * i + 4)
        elif sort == "live":
            b[leaf.at + 4 + slot // 8] ^= 1 << slot % 8
    return bytes(b)


def near(r, keys):
    """A key, or one beside it."""
    k = r.choice(keys)
    return r.choice([k, k, k + b"\0", k[:-1], k[:-1] + bytes([r.randrange(256)])])[:256]


def long_cursor(r, keys, fronts):
    """A cursor past eight bytes: a key; one with a byte changed, some cut off or added; one that agrees for some layers and then
    parts; a layer's front with something behind it; any; a fifth of all filled up to 256 bytes."""
    k = r.choice(keys)
    at = r.choice([r.randrange(len(k) + 1), max(len(k) - 1, 0)])
    other = bytes([r.choice([r.randrange(256), (k[at] + r.choice([1, 255])) % 256])]) if at < len(k) else b"a"
    more = r.choice([trees.random_key(r, 256), trees.some(r, r.randrange(1, 10))])
    fill = r.choice([b"\0", b"a", b"\xff"])
    cursor = r.choice([k, k, k[:at] + other + k[at + 1:], k[:at], k + more, k + fill, k[:at - at % 8] + more,
                       k[:at - at % 8] + other + more, r.choice(fronts) + more, r.choice(fronts) + fill, more])
    if r.random() < 0.2:
        cursor = cursor.ljust(LONGEST, fill)
    return cursor.ljust(SHORT + 1, fill)[:LONGEST]


def walks_of(r, image, look):
    """Six walks: four over an accepted image, and two over damaged copies of it. Half of them past eight bytes of cursor."""
    keys = [k for k, _ in look.keys] or [b""]
    longer = [k for k in keys if len(k) > SHORT] or keys
    for sort in (None, None, None, None, r.choice(["bytes", "fields"]), r.choice(["bytes", "fields", "way", "way"])):
        if r.random() < 0.5:
            cursor, mode = long_cursor(r, longer, look.fronts or keys), r.choice([ABOVE, FROM])
        else:
            cursor = r.choice([b"", near(r, keys)[:8], r.choice(keys)[:r.randrange(9)], trees.random_key(r, 8)[:8]])
            mode = r.choice([ABOVE, ABOVE, ABOVE, FROM])
        longest = near(r, keys).ljust(256, r.choice([b"\0", b"a", b"\xff"]))
        bound = r.choice([near(r, keys), near(r, keys), trees.random_key(r, 20), b"", longest])
        target = (damage(r, image) if sort == "bytes" else strike(r, image, look) if sort == "fields"
                  else waylay(r, image, look, cursor) if sort == "way" else image)
        yield Walk(target, None if sort else look, mode, cursor, r.randrange(3), bound)


def due(w):
    """The keys that a walk over an accepted image hands out, by the builder's own list."""
    past = (lambda k: k >= w.cursor) if w.mode == FROM else (lambda k: k > w.cursor)
    inside = (lambda k: True, lambda k: k <= w.bound, lambda k: k < w.bound)[w.kind]
    return [k for k, live in w.look.keys if live and past(k) and inside(k)]


def led(w):
    """How many layers a cursor past eight bytes leads into over an accepted image, by the builder's own list."""
    return sum(len(w.cursor) > len(front) and w.cursor.startswith(front) for front in w.look.fronts)


def sorts(w, lines):
    """What a walk counts as, in the summary."""
    yield "accepted" if w.look else "damaged"
    yield ("above", "from")[w.mode]
    yield ("unbounded", "included", "excluded")[w.kind]
    if w.look:
        keys = {k for k, _ in w.look.keys}
        yield ("cursor empty" if w.cursor == b"" else "cursor is a key" if w.cursor in keys
               else "cursor begins a key" if any(k.startswith(w.cursor) for k in keys) else "cursor elsewhere")
        if w.kind:
            yield ("bound empty" if w.bound == b"" else "bound of 256 bytes" if len(w.bound) == 256
                   else "bound is a key" if w.bound in keys else "bound between keys")
    if any(" off 248 " in line for line in lines):
        yield "came to depth 31"
    if lines[-1].startswith("fault"):
        yield lines[-1]


class Comparison:
    def __init__(self):
        self.differ = self.keys = self.images = 0
        self.lengths, self.depths, self.cursors = set(), set(), set()
        self.shapes, self.sorts, self.packed = collections.Counter(), collections.Counter(), collections.Counter()
        self.modes, self.starts = collections.Counter(), collections.Counter()
        self.ends = collections.Counter()
        self.pack = []

    def differs(self, what, w):
        self.differ += 1
        if self.differ <= 5:
            name = os.path.join(TOP, "target", "differential", f"differs-{self.differ}.img")
            with open(name, "wb") as f:
                f.write(w.image)
            print(f"differs: image {name} mode {w.mode} cursor {w.cursor.hex() or '-'} kind {w.kind} bound {w.bound.hex() or '-'}")
            print(f"  {what}")

    def accepted(self, image, look):
        """An image that the check took."""
        self.images += 1
        self.shapes.update(look.shapes)
        wanted = [s for s in shapes.SHAPES if s in look.shapes and self.packed[s] < EACH]
        if len(image) < 20000 and (wanted or len(self.pack) < PACKED):
            self.packed.update(look.shapes)
            self.pack.append((image, look))

    def walk(self, w, got, lines, start):
        want, behind = stopped(w, lines)
        want = counted(want)
        keys = [line.split()[1] for line in want if line.startswith("key")]
        depths = [number_in(line, "depth") for line in want if line.startswith("key")]
        self.keys += len(keys)
        self.lengths.update(len(k.strip("-")) // 2 for k in keys)
        self.depths.update(depths)
        self.cursors.add(len(w.cursor))
        self.sorts.update(sorts(w, want))
        past = len(w.cursor) > SHORT
        self.modes[past, w.mode] += 1
        if past:
            layers, stood = start
            self.starts[w.mode, "no layer" if layers == 0 else "1" if layers == 1 else "2 to 30" if layers < 31 else "31"] += 1
            self.starts[w.mode, "fault"] += not stood
        if behind is not None:
            self.ends["accepted" if w.look else "damaged"] += 1
            self.ends["moves"] += spared(behind) if w.look else 0
        if got != want:
            a, b = next((a, b) for a, b in zip(want + [""], got + [""]) if a != b)
            self.differs(f"due  {a}\n  port {b}", w)
        elif w.look and behind is not None and spared(behind) == 0:
            self.differs(f"behind the included end the Rust has {behind}", w)
        elif w.look and keys != [k.hex() or "-" for k in due(w)]:
            self.differs("keys other than the builder's", w)
        elif w.look and depths != [w.look.depths[k] for k in due(w)]:
            self.differs("depths other than the builder's", w)
        elif w.look and past and start != (led(w), True):
            self.differs(f"Start led into {start}, and not {led(w)}", w)

    def summary(self, seed, count):
        print(f"comparison with the Rust, seed {seed}: {count} walks, {self.keys} keys, {self.differ} differ")
        lengths = sorted(self.lengths) or [0]
        cursors = sorted(self.cursors) or [0]
        depths = sorted(self.depths) or [0]
        print(f"  keys of {len(lengths)} different lengths, {lengths[0]} to {lengths[-1]} bytes, "
              f"found at {len(depths)} different depths, {depths[0]} to {depths[-1]}")
        print(f"  cursors of {len(cursors)} different lengths, {cursors[0]} to {cursors[-1]} bytes")
        print(f"  cursors up to eight bytes: above {self.modes[False, ABOVE]} (the Rust's loop alone), "
              f"from {self.modes[False, FROM]}")
        for mode, name in ((ABOVE, "above"), (FROM, "from")):
            into = ", ".join(f"{n}: {self.starts[mode, n]}" for n in ("no layer", "1", "2 to 30", "31"))
            print(f"  cursors past eight bytes: {name} {self.modes[True, mode]}; Start led into {into}; met a fault in "
                  f"{self.starts[mode, 'fault']}")
        print(f"  ended at the included end: {self.ends['accepted']} walks over accepted images, where the Rust makes "
              f"{self.ends['moves']} moves more, and {self.ends['damaged']} over damaged ones")
        walks = "walks: " + ", ".join(f"{name} {n}" for name, n in sorted(self.sorts.items()))
        print(textwrap.fill(walks, 120, initial_indent="  ", subsequent_indent="    "))
        print(f"  accepted images: {self.images}; of these with")
        for shape in shapes.SHAPES:
            print(f"    {shape:24}{self.shapes[shape]:>8}{'' if self.shapes[shape] else '   MISSING'}")
        print(f"  packed for guard.c: {len(self.pack)}, each shape in {min(self.packed[s] for s in shapes.SHAPES)} or more")


def compare(count, seed, pack):
    r = random.Random(seed)
    oracle, c, done = Oracle(), Comparison(), 0
    while done < count:
        drawn = []
        while len(drawn) < min(BATCH, -(-(count - done) // 6)):
            root = trees.tree(r)
            image = layout.build(root)
            if len(image) <= MOST:
                drawn.append(Walk(image, shapes.Look(root), ABOVE, b"", UNBOUNDED, b""))
        batch = []
        for i, (w, said) in enumerate(zip(drawn, port(CHECK, drawn), strict=True)):
            if said == f"w{i} accepted {w.look.leaves} {w.look.values} {w.look.layers}":
                c.accepted(w.image, w.look)
                batch += walks_of(r, w.image, w.look)
            else:
                c.differs(f"the check says {said}", w)
        if not batch:
            break
        batch = batch[:count - done]
        for w, got in zip(batch, port(STATES, batch), strict=True):
            c.walk(w, got, *oracle.walk(w))
        done += len(batch)
    if pack:
        with open(pack, "wb") as f:
            for image, look in c.pack:
                offsets = [n.at for n in look.records]
                keys = [k for k, _ in look.keys]
                names = keys[::-(-len(keys) // NAMES) or 1] + look.fronts or [b""]
                f.write(struct.pack(f"<QQQ{len(offsets)}Q", len(image), len(offsets), len(names), *offsets) + image)
                f.write(b"".join(struct.pack("<Q", len(k)) + k for k in names))
    c.summary(seed, done)
    return c.differ > 0 or not all(c.shapes[shape] for shape in shapes.SHAPES)


def common_walks(r, most):
    """Random walks over the common trees, two accepted to one damaged, above the cursor."""
    while True:
        keys = trees.random_keys(r)
        root = trees.random_tree(r, keys)
        image = layout.build(root)
        if len(image) > most:
            continue
        look, keys = shapes.Look(root), list(keys) or [b""]
        for damaged in (False, False, True):
            cursor = r.choice([b"", r.choice(keys)[:8], trees.random_key(r, 8)[:8]])
            bound = r.choice([r.choice(keys), trees.random_key(r, 20)])[:256]
            target = damage(r, image) if damaged else image
            yield Walk(target, None if damaged else look, ABOVE, cursor, r.choice([0, 0, 1, 2]), bound)


def store(folder):
    """400 walks over small images: 150 in one layer, 130 through layers, 90 that meet a fault, 30 damaged that do not, all by the
    Rust's own lines; those stored stop at the included end, and have depth and count."""
    oracle = Oracle()
    want = {"plain": 150, "layers": 130, "fault": 90, "damaged": 30}
    requests, answers = [], []
    for w in common_walks(random.Random(20261115), 3000):
        lines, _ = oracle.walk(w)
        if w.look:
            sort = "layers" if any(" off 0 " not in line for line in lines if " off " in line) else "plain"
        else:
            sort = "fault" if lines[-1].startswith("fault") else "damaged"
        if want[sort] == 0 or len(lines) > 40:
            continue
        want[sort] -= 1
        requests.append(request(len(requests), STATES, w))
        answers.append("\n".join(counted(stopped(w, lines)[0])) + "\n\n")
        if not any(want.values()):
            break
    with open(os.path.join(folder, "stdin"), "wb") as f:
        f.write(b"".join(requests))
    with open(os.path.join(folder, "stdout"), "w") as f:
        f.write("".join(answers))


def main():
    if os.environ.get("PYTHONHASHSEED") != "0":     # sets of keys are gone through in one order, so that a seed gives one run
        os.execve(sys.executable, [sys.executable] + sys.argv, dict(os.environ, PYTHONHASHSEED="0"))
    p = argparse.ArgumentParser(description=__doc__, formatter_class=argparse.RawDescriptionHelpFormatter)
    p.add_argument("--walks", type=int, default=10000)
    p.add_argument("--seed", type=int, default=1)
    p.add_argument("--pack")
    p.add_argument("--store")
    args = p.parse_args()
    if args.store:
        store(args.store)
    else:
        os.makedirs(os.path.join(TOP, "target", "differential"), exist_ok=True)
        sys.exit(compare(args.walks, args.seed, args.pack))


if __name__ == "__main__":
    main()
