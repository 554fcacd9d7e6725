#!/usr/bin/env python3
"""Makes the images that bench/run times, those that are not there yet, and prints their names:
    bench/make_images.py FOLDER [pages | stack | bound | rows | build]

Keys are random bytes, the same ones each time. Leaves are full, no slot is dead but in `dead-behind`, and internodes have sixteen children.
With `pages` the images are those for pages, whose names have 200 bytes; with `stack` the deepest that can be accepted, and one of short keys.
With `bound` a line has an image's name and its last live key in hex; with `rows` the files are names of one length in ascending order, and
a line has the file's name, the length, and in hex the name that three of four do not come after. With `build` there is a sheet beside each
image, and a line has the name and how many nanoseconds tools/sheets.py took to build the one from the other.
"""
import os
import random
import sys
import time

sys.path.insert(0, os.path.join(os.path.dirname(os.path.dirname(os.path.abspath(__file__))), "tools"))
from layout import Internode, Leaf, Slot, build, leaves, tree_of
from sheets import LONGEST, answer, written

SHORT = 440_000  # 28 bytes of image a key: below the 16 MiB that an image may have


def drawn(r, n, low, high):
    return (r.randbytes(r.randint(low, high)) for _ in range(n))


def prefixes(r, n):
    return list(drawn(r, n, 8, 8))


def layers(r):
    heads = prefixes(r, 100)
    return (r.choice(heads) + tail for tail in drawn(r, 30_000, 1, 8))


def threes(r):
    return (head + tail for head in prefixes(r, 10_000) for tail in drawn(r, 3, 1, 8))


def names(r, n, shared):
    """Names of 200 bytes in groups of about 100. All begin with `shared` bytes, a group with eight more: a layer for each eight of them
    stands above the names. With 0 bytes there are no groups, and every name is a suffix in the root."""
    if not shared:
        return drawn(r, n, 200, 200)
    front = r.randbytes(shared)
    heads = [front + head for head in prefixes(r, n // 100)]
    return (head + tail for head, tail in zip(r.choices(heads, k=n), drawn(r, n, 192 - shared, 192 - shared)))


IMAGES = {
    "short": lambda r: drawn(r, 30_000, 1, 8),
    "suffix": lambda r: drawn(r, 30_000, 9, 39),
    "layers": layers,
    "threes": threes,
    # one shape in three sizes
    "short-0.8MB": lambda r: drawn(r, SHORT // 16, 5, 8),
    "short-3MB": lambda r: drawn(r, SHORT // 4, 5, 8),
    "short-12MB": lambda r: drawn(r, SHORT, 5, 8),
}

# by the layers that a name lies under, and the number of names
PAGES = {
    "names-0-1k": lambda r: names(r, 1_000, 0),
    "names-0-30k": lambda r: names(r, 30_000, 0),
    "names-11-30k": lambda r: names(r, 30_000, 80),
    "names-21-1k": lambda r: names(r, 1_000, 160),
    "names-21-30k": lambda r: names(r, 30_000, 160),
}


def deepest():
    """31 layers below the root, and in each layer twelve internodes above its leaf."""
    node = None
    for _ in range(32):
        node = Leaf(Slot(b"k", 1)) if node is None else Leaf(Slot(b"x" * 8, sub=node))
        for _ in range(12):
            node = Internode([], node)
    return node


STACK = {"deepest": None, "short": IMAGES["short"]}


def sharing(r, n, shared, low, high):
    """Names that begin with the same bytes, and go on with so many more."""
    front = r.randbytes(shared)
    return (front + tail for tail in drawn(r, n, low, high))


# names that share their first thirty bytes, two shapes that the first table has, and one of these with dead keys behind the first LIVE
BOUND = {
    "thirty": lambda r: sharing(r, 30_000, 30, 1, 16),
    "suffix": IMAGES["suffix"],
    "short": IMAGES["short"],
    "dead-behind": IMAGES["short"],
}
LIVE = {"dead-behind": 2_000}

# by the bytes shared and the bytes in all
ROWS = [(30, 31), (30, 32), (30, 40), (200, 208), (0, 40), (0, 8), (0, 4)]


def groups(r, n):
    """Keys in groups of some 300 that share eight bytes: a layer for each."""
    heads = prefixes(r, max(n // 300, 1))
    return (r.choice(heads) + tail for tail in drawn(r, n, 1, 8))


def chains(r, n):
    """Pairs of keys that share 248 bytes, and nothing with other pairs: 31 layers below each."""
    return (head + b"c" * 240 + tail for head in prefixes(r, n // 2) for tail in (b"a", b"b"))


# the shapes that are built, by the keys of an image of some 12 MB
BUILD = {
    "short": (SHORT, lambda r, n: drawn(r, n, 5, 8)),
    "suffix": (250_000, lambda r, n: drawn(r, n, 9, 39)),
    "layers": (400_000, groups),
    "deep": (1_900, chains),
}


def longest(more):
    """Keys whose image has just 16,777,216 bytes, and so many more, up to 224."""
    pairs = (b"%08d" % i + b"c" * 240 + tail for i in range(1_349) for tail in (b"a", b"b"))
    return [*pairs, *(b"s%07d" % i + b"s" * (240 if i < 44 else 24 + more) for i in range(45))]


def sheet_of(folder, name, keys):
    r = random.Random(name)
    sheet = written(sorted((key, r.randrange(1 << 64)) for key in set(keys(r))))
    with open(os.path.join(folder, name + ".sheet"), "wb") as f:
        f.write(sheet)
    return sheet


def sheets(folder):
    """Each shape in three sizes, the longest image, and the sheet of one that would be too long, for which no line is printed."""
    asked = {f"build-{shape}-{most // part}": lambda r, n=most // part, keys=keys: keys(r, n) for shape, (most, keys) in BUILD.items() for part in (16, 4, 1)}
    for name, keys in {**asked, "build-longest-1": lambda r: longest(0)}.items():
        sheet = sheet_of(folder, name, keys)
        start = time.perf_counter_ns()
        image = answer(sheet, LONGEST)
        taken = time.perf_counter_ns() - start
        with open(os.path.join(folder, name + ".img"), "wb") as f:
            f.write(image)
        print(name, taken)
    assert len(image) == LONGEST
    assert answer(sheet_of(folder, "too-long", lambda r: longest(8)), 2 * LONGEST) == 33


def rows(folder):
    for shared, width in ROWS:
        name = f"{shared}-of-{width}"
        names = sorted(sharing(random.Random(name), 1_000, shared, width - shared, width - shared))
        with open(os.path.join(folder, name + ".rows"), "wb") as f:
            f.write(b"".join(names))
        print(name, width, names[750].hex())


def image_of(path, name, keys):
    """An image of the keys that are drawn for its name, written where it is not there yet; the live ones."""
    r = random.Random(name)
    pairs = {key: r.randrange(1 << 64) for key in keys(r)} if keys else {}
    live = sorted(pairs)[:LIVE.get(name)]
    if not os.path.exists(path):
        tree = tree_of(pairs) if keys else deepest()
        if name in LIVE:
            for slot in (slot for leaf in leaves(tree) for slot in leaf.slots):
                slot.live = slot.part <= live[-1]
        with open(path + ".part", "wb") as f:
            f.write(build(tree))
        os.rename(path + ".part", path)
    return live


def main():
    if sys.argv[2:] == ["rows"]:
        return rows(sys.argv[1])
    if sys.argv[2:] == ["build"]:
        return sheets(sys.argv[1])
    which = {(): IMAGES, ("pages",): PAGES, ("stack",): STACK, ("bound",): BOUND}.get(tuple(sys.argv[2:]))
    if len(sys.argv) < 2 or which is None:
        sys.exit(__doc__)
    for name, keys in which.items():
        path = os.path.join(sys.argv[1], name + ".img")
        if which is BOUND:
            print(name, max(image_of(path, name, keys)).hex())
        else:
            if not os.path.exists(path):
                image_of(path, name, keys)
            print(name)


if __name__ == "__main__":
    main()
