#!/usr/bin/env python3
"""Writes the requests that crates/walk_table runs, from document 01's surveyed examples, 02's short form, its included end, its bound
test and its depth and count, those of crates/records, from 02 [1], [12], [13] and of the C interface, those of crates/sheet_table, whose
answers are whole sheets, and those of crates/indented, whose answers are screens.

    tools/examples.py > crates/walk_table/stdin
    tools/examples.py records > crates/records/stdin
    tools/examples.py sheets > crates/sheet_table/stdin
    tools/examples.py indented > crates/indented/stdin

A request is a name, a form, the arguments of a placing and an image; for crates/records also what is altered of the walk's record.
The answers are written by hand in the stdout beside each: keys, values and numbers from 01's and 02's
words, the samples' keys counted in tools/images.py; moves where 01 gives them, and for 02 one Start for each layer, then as 01
counts, up to the included end and none behind it; depth and count, and comparisons counted, from 02's words. Nothing here works them
out.
"""
import sys

from images import COUNT, EDITION, IDENTITY, LENGTH, ROOT, SAMPLES
from images import changed, in_leaf, layers, nested, one_dead, suffixed, trailer, tree_a, tree_b, two_leaves
from layout import Internode, Leaf, Slot, build, ikey
from requests import ABOVE, BOUND, CHECK, EXCLUDED, FOREIGN, FROM, INCLUDED, LENT, MOVES, SHORT, STATES, TOTAL, UNBOUNDED, request

K8 = b"k" * 8


def internode_behind():
    """Two leaves, but the `next` of the first, which holds a and b, names their internode."""
    return changed(two_leaves(), "<Q", lambda t: t.children[0].at + 392, 808)


def one_suffix():
    """A key of eight bytes, the same with a suffix m, and one more."""
    return Leaf(Slot(K8, 1), Slot(K8, 2, suffix=b"m"), Slot(b"l", 3))


def alone():
    """The first key of B as a suffix."""
    return Leaf(Slot(b"entrance", 4, suffix=b".1"))


def at_depths():
    """Keys at the depths 0, 1, 2, 1 and 0, in their order."""
    below = Leaf(Slot(b".1", 2), Slot(b".2......", sub=Leaf(Slot(b"x", 3))), Slot(b".3", 4))
    return Leaf(Slot(b"a", 1), Slot(b"entrance", sub=below), Slot(b"z", 5))


def dead_below():
    """A key, and behind it a dead one in a layer."""
    return Leaf(Slot(b"a", 1), Slot(b"entrance", sub=Leaf(Slot(b".1", 2, live=False))))


def round_and_round():
    """A longer key before a shorter one of its ikey, in a leaf whose `next` is itself: they are handed out again and again."""
    return changed(Leaf(Slot(b"k" + bytes(4), 5), Slot(b"k" + bytes(2), 3)), "<Q", in_leaf(392), 8)


def surveyed():
    """P1 to P12."""
    a, b = build(tree_a()), build(tree_b())
    request("P1", a, ABOVE, form=MOVES)
    request("P2", a, FROM, form=MOVES)
    request("P3", a, ABOVE, b"a")
    request("P4", a, ABOVE, b"ab")
    request("P5", b, FROM, form=MOVES)
    request("P6", b, ABOVE, b"entrance")
    request("P7", b, FROM, kind=INCLUDED, bound=b"entrance.1", form=MOVES)
    request("P8", b, FROM, kind=EXCLUDED, bound=b"entrance.1")
    request("P9", build(Leaf(Slot(b"a", 1), Slot(b"a\0", 2))), ABOVE, b"a")
    request("P10", build(one_dead()), FROM)
    request("P11", build(Leaf()), ABOVE, form=MOVES)
    request("P12", a, ABOVE, b"a" * 257)


def placing():
    """The numbers of a placing, and which is tried first."""
    a = build(tree_a())
    request("bound-of-256", a, ABOVE, kind=INCLUDED, bound=b"\xff" * 256)
    request("bound-of-257", a, ABOVE, kind=INCLUDED, bound=b"\xff" * 257)
    request("unbounded-of-256", a, ABOVE, bound=bytes(256))
    request("unbounded-of-257", a, ABOVE, bound=bytes(257))
    request("cursor-of-8", a, ABOVE, b"a" * 8)
    request("kind-3", a, ABOVE, kind=3)
    request("no-bytes", b"", ABOVE)
    request("length-432", a[:432], ABOVE)
    request("length-444", a + bytes(4), ABOVE)
    request("stated-length-differs", trailer(a, LENGTH, 448), ABOVE)
    request("edition-2", trailer(a, EDITION, 2), ABOVE)
    faults = {"cursor": b"a" * 257, "kind": 3, "bound": bytes(257)}
    request("1-before-11", a[:432], ABOVE, **faults)
    request("2-before-11", trailer(a, EDITION, 2), ABOVE, **faults)
    request("11-before-12", a, ABOVE, **faults)
    request("12-before-13", a, ABOVE, kind=3, bound=bytes(257))


def short_form():
    """02 [6], "From now on it means from": over tree A the short form answers as P2; a key that equals the cursor is handed out, of up to
    eight bytes and past them; and its numbers are a placing's."""
    a, b = build(tree_a()), build(tree_b())
    request("short-form", a, SHORT, form=MOVES)
    request("short-form-a", a, SHORT, b"a")
    request("short-form-1", b, SHORT, b"entrance.1", kind=INCLUDED, bound=b"entrance.1")
    request("short-form-11", a, SHORT, b"a" * 257, kind=3, bound=bytes(257))
    request("short-form-12", a, SHORT, kind=3, bound=bytes(257))
    request("short-form-13", a, SHORT, bound=bytes(257))


def stepping():
    """A step lent another length gets 21 and changes nothing; and images that no check accepts, placed over all the same: 22 for what
    01 lists under it, once the walk comes there, and 23 where `next` leads an empty leaf to itself for ever."""
    a = build(tree_a())
    request("foreign-length", a, FROM, form=FOREIGN)
    request("lent-P2", a, FROM, form=LENT)
    request("lent-P5", build(tree_b()), FROM, form=LENT)
    request("lent-P8", build(tree_b()), FROM, kind=EXCLUDED, bound=b"entrance.1", form=LENT)
    request("root-0", trailer(a, ROOT, 0), FROM)
    request("root-no-multiple-of-8", trailer(a, ROOT, 12), FROM)
    request("version-bit-29", changed(tree_a(), "<I", in_leaf(0), 1 << 31 | 1 << 29), FROM)
    request("slot-15", changed(tree_a(), "<Q", in_leaf(8), IDENTITY + 3 | 0xF << 4), FROM)
    request("keylenx-9", changed(tree_a(), "<B", in_leaf(136 + 2), 9), ABOVE)
    request("next-names-internode", internode_behind(), FROM)
    request("child-not-below", changed(two_leaves(), "<Q", in_leaf(128 + 8), 808), FROM, b"z")
    request("next-is-itself", changed(Leaf(), "<Q", in_leaf(392), 8), ABOVE)


def at_end():
    """02 [12]: "A walk that hands out the key exactly at its end is ended there; the next call answers none with zero moves." """
    a, b = build(tree_a()), build(tree_b())

    def to(name, image, end, kind=INCLUDED, form=MOVES, mode=FROM, cursor=b""):
        request(name, image, mode, cursor, kind=kind, bound=end, form=form)

    to("end-empty", a, b"")
    to("end-ab", a, b"ab")
    to("end-aa-not-stored", a, b"aa")
    to("end-ab-excluded", a, b"ab", EXCLUDED)
    to("end-above", b, b"entrance.1", mode=ABOVE)
    to("end-above-itself", b, b"entrance.1", mode=ABOVE, cursor=b"entrance.1")
    to("lent-P7", b, b"entrance.1", form=LENT)
    to("end-foreign-length", b, b"entrance.1", form=FOREIGN)
    # a dead key ends no walk, whether a live one stands behind it or none
    to("end-dead", build(one_dead()), b"a")
    to("end-dead-last", build(Leaf(Slot(b"a", 1), Slot(b"b", 2, live=False))), b"b")
    # the last key of a layer, and of the deepest; of a leaf with another behind it, and with empty ones
    to("end-of-layer", b, b"entrance.2")
    to("end-at-depth-31", build(layers(31)), b"x" * 248 + b"k")
    to("end-of-leaf", build(two_leaves()), b"b")
    to("end-before-empty-leaves", build(Internode([ikey(b"b"), ikey(b"c")], Leaf(Slot(b"a", 1)), Leaf(), Leaf())), b"a")
    # a key with a suffix, the same without it, and the longest
    to("end-with-suffix", build(one_suffix()), K8 + b"m")
    to("end-before-suffix", build(one_suffix()), K8)
    to("end-of-256", build(suffixed(248)), b"12345678" + b"s" * 248)
    # "over any image": what stands behind the end is not read; without a bound it meets 22
    keylenx = changed(tree_a(), "<B", in_leaf(136 + 2), 9)
    for name, image, end in (("internode", internode_behind(), b"b"), ("keylenx-9", keylenx, b"a")):
        to("end-before-" + name, image, end)
        to("end-before-" + name + "-unbounded", image, b"", UNBOUNDED)
        to("end-before-" + name + "-check", image, b"", UNBOUNDED, CHECK)


def carried():
    """02 [13]: "The step's answer and the walk itself carry the depth at which the last key was found and how many have been handed out
    so far". The step by value; every line has the walk after it, and no name."""
    b = build(tree_b())
    request("depth-of-layer", b, FROM, form=STATES)
    request("depth-of-suffix", build(alone()), FROM, form=STATES)
    request("depth-no-key", build(tree_a()), ABOVE, b"ab", form=STATES)
    request("depth-0-1-2-1-0", build(at_depths()), FROM, form=STATES)
    request("depth-below-start", build(at_depths()), FROM, b"entrance.3", form=STATES)
    request("depth-above-start", build(at_depths()), ABOVE, b"entrance.3", form=STATES)
    request("depth-refused", b, FROM, kind=EXCLUDED, bound=b"entrance.1", form=STATES)
    request("depth-dead", build(dead_below()), FROM, form=STATES)
    request("count-at-end", b, FROM, kind=INCLUDED, bound=b"entrance.2", form=STATES)


# The numbers of a record that are altered below, by their index; HANDED is how many keys have been handed out.
IMAGE_LEN, LAYER_ROOT, LEAF, POSITION, OFFSET, LEN, IKEY, DEPTH, KIND, BOUND_LEN, STATE, MODE, LAST_DEPTH, HANDED, STACK = range(15)
START, RETRY, FIND_NEXT, ENDED = range(4)
BUFFER = 256


def resume(name, tree, mode, cursor, changes=None, **more):
    image = tree if isinstance(tree, bytes) else build(tree)
    request(name, image, mode, cursor, changes=changes or {}, **more)


def whole_names():
    """02 [1] over accepted images: cursors past eight bytes, and up to eight bytes nothing new."""
    b = tree_b()
    resume("resume-from", b, FROM, b"entrance.1")
    resume("resume-above", b, ABOVE, b"entrance.1")
    resume("resume-above-last", b, ABOVE, b"entrance.2")
    resume("resume-above-256", b, ABOVE, b"entrance" * 32)
    resume("resume-below-layer", b, FROM, b"entrancd" + b"\xff" * 9)
    resume("resume-past-all", b, FROM, b"entrancf" + b"x")
    resume("resume-inline-below", tree_a(), ABOVE, b"ab" + bytes(7))
    resume("eight-bytes", b, FROM, b"entrance")
    resume("nine-bytes", b, FROM, b"entrance\0")
    deep = layers(31, Leaf(Slot(b"x", 1), Slot(b"y", 2)), b"c")
    resume("deep-above", deep, ABOVE, b"c" * 248 + b"x")
    resume("deep-from-empty", deep, FROM, b"")
    resume("above-equal-behind-shorter", Leaf(Slot(b"a", 1), Slot(b"a\0", 2), Slot(b"b", 3)), ABOVE, b"a\0")
    # a layer behind inline slots of its ikey is entered
    zeros = b"ab" + bytes(6)
    resume("layer-behind-inline", Leaf(Slot(b"ab", 1), Slot(zeros, 2), Slot(zeros, sub=Leaf(Slot(b"x", 3)))), FROM, zeros + b"x")
    # a suffix below the cursor, equal to it, and above it; an inline key of the cursor's ikey is below it
    suffix = one_suffix()
    for mode, word in ((FROM, "from"), (ABOVE, "above")):
        resume(f"suffix-below-{word}", suffix, mode, K8 + b"n")
        resume(f"suffix-equal-{word}", suffix, mode, K8 + b"m")
        resume(f"suffix-over-{word}", suffix, mode, K8 + b"a")
        dead = Leaf(Slot(K8, 1, suffix=b"m", live=False), Slot(b"l", 2))
        resume(f"suffix-dead-{word}", dead, mode, K8 + b"m")
    # 01's example of what `find_initial` would do, and its like past eight bytes
    resume("not-by-ikey-above", Leaf(Slot(b"a\0", 1)), ABOVE, b"a")
    resume("not-by-ikey-from", Leaf(Slot(b"a", 1)), FROM, b"a\0")
    resume("not-by-ikey-long", Leaf(Slot(K8, 1)), FROM, K8 + b"\0")
    resume("cursor-of-256", tree_a(), FROM, b"a" * 256)
    resume("cursor-of-257", tree_a(), FROM, b"a" * 257)
    resume("11-first", tree_a(), FROM, b"a" * 257, kind=3, bound=bytes(257))


def whole_names_any_image():
    """02 [1] over images that the check declines: 22 where 02 puts it, and the walk as it came."""
    b = tree_b()
    resume("root-4", trailer(build(b), ROOT, 4), FROM, b"entrance.1")
    resume("layer-word-4", changed(b, "<Q", in_leaf(152), 4), FROM, b"entrance.1")
    resume("layer-is-itself", changed(b, "<Q", in_leaf(152), 408), FROM, b"entrance" * 32)
    resume("suffix-of-249", Leaf(Slot(K8, 1, suffix=b"s" * 249), Slot(b"l", 2)), FROM, K8 + b"t")
    resume("suffix-past-trailer", changed(Leaf(Slot(K8, 1, suffix=b"s"), Slot(b"l", 2)), "<I", in_leaf(272), 800), FROM, K8 + b"t")
    resume("two-suffixes", Leaf(Slot(K8, 1, suffix=b"a"), Slot(K8, 2, suffix=b"b"), Slot(b"z", 3)), ABOVE, K8 + b"b")
    both = Leaf(Slot(K8, 1, suffix=b"a"), Slot(K8, sub=Leaf(Slot(b"c", 2))))
    resume("layer-behind-suffix", both, FROM, K8 + b"b")
    # of slots out of order the first that is above the cursor is stood at, though its own key stands behind
    resume("higher-ikey-first", Leaf(Slot(b"z", 1), Slot(K8, 2, suffix=b"a")), FROM, K8 + b"a", kind=INCLUDED, bound=b"y")
    # an unlisted keylenx on a lower ikey, on the cursor's own (dead too), on a higher one
    resume("keylenx-9-lower", Leaf(Slot(b"a", 1, keylenx=9), Slot(b"z", 2)), FROM, K8 + b"t")
    resume("keylenx-9-equal", Leaf(Slot(K8, 1, keylenx=9), Slot(b"z", 2)), FROM, K8 + b"t")
    resume("keylenx-127-equal-dead", Leaf(Slot(K8, 1, keylenx=127, live=False), Slot(b"z", 2)), FROM, K8 + b"t")
    resume("keylenx-9-higher", Leaf(Slot(b"z", 1, keylenx=9)), FROM, K8 + b"t")
    # a slot of 15: where the search reads the field, and not behind the slot it stands at
    two = Leaf(Slot(b"y", 1), Slot(b"z", 2))
    resume("slot-15-read", changed(two, "<Q", in_leaf(8), IDENTITY + 2 | 0xF << 4), FROM, K8 + b"t")
    resume("slot-15-behind", changed(two, "<Q", in_leaf(8), IDENTITY + 2 | 0xF << 8), FROM, K8 + b"t")


def whole_names_altered():
    """02 [1] of walks that the caller altered."""
    a, b = tree_a(), tree_b()
    # what is past the cursor's length is not read, and the ikey of a layer that is entered is stored
    resume("byte-past-length", b, FROM, b"entrance.", {BUFFER + 9: 0xFF})
    resume("ikey-stored", b, FROM, b"entrance.1", {BUFFER + 0: ord("X")})
    # Start with at most eight bytes in the whole cursor goes by 01's rule in mode above too
    resume("start-above-short", a, ABOVE, b"a", {STATE: START})
    inner = Leaf(Slot(b"", 6), Slot(b"x", 7))
    tree = Leaf(Slot(b"entrance", sub=inner))
    image = build(tree)
    down = {LAYER_ROOT: inner.at, OFFSET: 8, LEN: 0, IKEY: 0, DEPTH: 1, STATE: START, STACK: tree.at, STACK + 1: tree.at}
    resume("start-above-whole-8", image, ABOVE, b"entrance", down)
    resume("start-above-whole-9", build(b), ABOVE, b"entrance",
           {LAYER_ROOT: 8, OFFSET: 8, LEN: 2, IKEY: ikey(b".1"), DEPTH: 1, STATE: START, STACK: 408, STACK + 1: 408,
            BUFFER + 8: ord("."), BUFFER + 9: ord("1")})
    # only Start reads the start mode
    resume("retry-of-from", a, FROM, b"a", {STATE: RETRY})
    resume("length-set-to-9", b, FROM, b"entrance", {LEN: 9})
    resume("mode-from-to-above", b, FROM, b"entrance.1", {MODE: 0})
    resume("mode-2", a, FROM, b"a", {MODE: 2})
    resume("mode-2-64", a, FROM, b"a", {MODE: 2**64 - 1})
    resume("length-257", a, FROM, b"a", {LEN: 257})


def at_end_records():
    """02 [12] over the C interface: each step with its moves, walks whose record the caller altered, and the tally."""
    a, b = tree_a(), tree_b()
    one = {"kind": INCLUDED, "bound": b"entrance.1"}
    resume("end-P7", b, FROM, b"", **one)
    resume("end-above-itself", b, ABOVE, b"entrance.1", **one)
    resume("end-ab", a, FROM, b"", kind=INCLUDED, bound=b"ab")
    resume("end-aa-not-stored", a, FROM, b"", kind=INCLUDED, bound=b"aa")
    resume("end-dead", Leaf(Slot(b"a", 1), Slot(b"b", 2, live=False), Slot(b"c", 3)), FROM, b"", kind=INCLUDED, bound=b"b")
    resume("end-with-suffix", one_suffix(), FROM, b"", kind=INCLUDED, bound=K8 + b"m")
    resume("end-of-leaf", two_leaves(), FROM, b"", kind=INCLUDED, bound=b"b")
    resume("end-before-internode", internode_behind(), FROM, b"", kind=INCLUDED, bound=b"b")
    resume("end-before-internode-unbounded", internode_behind(), FROM, b"")
    # the kind alone tells whether there is an included end, and the bound's length where it is
    resume("end-kind-1-to-0", b, FROM, b"", {KIND: UNBOUNDED}, **one)
    resume("end-kind-1-to-2", b, FROM, b"", {KIND: EXCLUDED}, **one)
    resume("end-kind-2-to-1", b, FROM, b"", {KIND: INCLUDED}, kind=EXCLUDED, bound=b"entrance.1")
    resume("end-kind-0-to-1", a, FROM, b"", {KIND: INCLUDED})
    resume("end-length-to-8", b, FROM, b"", {BOUND_LEN: 8}, **one)
    resume("end-length-to-11", b, FROM, b"", {BOUND_LEN: 11}, **one)
    resume("end-length-11-to-10", b, FROM, b"", {BOUND_LEN: 10}, kind=INCLUDED, bound=b"entrance.15")
    # a walk put right before its end
    resume("end-is-next", a, FROM, b"", {LEAF: 8, POSITION: 2, STATE: FIND_NEXT}, kind=INCLUDED, bound=b"ab")
    for name, tree, end in (("empty", a, b""), ("a", a, b"a"), ("aa-not-stored", a, b"aa"), ("of-layer", b, b"entrance.2"),
                            ("dead", one_dead(), b"a"), ("b", one_dead(), b"b")):
        resume("end-tally-" + name, tree, ABOVE, b"", kind=INCLUDED, bound=end, form=TOTAL)


def carried_records():
    """02 [13] over the C interface: "depth is 0 and the count 0 before the first", "a none gives both as they stand"."""
    a, b = tree_a(), tree_b()
    resume("depth-of-layer", b, FROM, b"")
    resume("depth-of-suffix", alone(), FROM, b"")
    resume("depth-no-key", a, ABOVE, b"ab")
    resume("depth-0-1-2-1-0", at_depths(), FROM, b"")
    resume("depth-31", layers(31), FROM, b"")
    # the depth is the key's: not that of the leaf where Start began, nor of the layer that it came to
    resume("depth-31-start", layers(31), FROM, b"x" * 248 + b"k")
    resume("depth-below-start", at_depths(), FROM, b"entrance.3")
    resume("depth-above-start", at_depths(), ABOVE, b"entrance.3")
    # a key that is refused and a dead one set nothing: in a layer, before any key is out, and behind one of the root
    resume("depth-refused", b, FROM, b"", kind=EXCLUDED, bound=b"entrance.1")
    resume("depth-refused-behind-a", at_depths(), FROM, b"", kind=EXCLUDED, bound=b"entrance.1")
    resume("depth-dead", dead_below(), ABOVE, b"a")
    resume("depth-dead-behind-a", dead_below(), FROM, b"")
    resume("count-dead", one_dead(), FROM, b"")
    resume("count-at-end", b, FROM, b"", kind=INCLUDED, bound=b"entrance.2")
    # a step that is declined leaves both in the record
    resume("count-declined-22", changed(b, "<Q", lambda t: t.slots[0].sub.at + 392, 12), FROM, b"")
    stand = {LAST_DEPTH: 7, HANDED: 5}
    resume("count-declined-23", changed(Leaf(), "<Q", in_leaf(392), 8), FROM, b"", stand)
    resume("count-declined-21", b, FROM, b"", {IMAGE_LEN: 440, **stand})


def carried_altered():
    """02 [13] of walks that the caller altered: "21 also covers a last depth over 31 or a count above the image's length." A has 440
    bytes, B 840."""
    a, b = tree_a(), tree_b()
    ended = {STATE: ENDED}
    third = {LEAF: 8, POSITION: 2, STATE: FIND_NEXT}    # of A: `ab` is next
    for name, more in (("", {}), ("-ended", ended), ("-find-next", third)):
        resume("depth-last-31" + name, a, FROM, b"a", {LAST_DEPTH: 31, **more})
        resume("depth-last-32" + name, a, FROM, b"a", {LAST_DEPTH: 32, **more})
        resume("depth-last-2-64" + name, a, FROM, b"a", {LAST_DEPTH: 2**64 - 1, **more})
        resume("count-439" + name, a, FROM, b"", {HANDED: 439, **more})
        resume("count-440" + name, a, FROM, b"", {HANDED: 440, **more})
        resume("count-441" + name, a, FROM, b"", {HANDED: 441, **more})
        resume("count-2-64" + name, a, FROM, b"", {HANDED: 2**64 - 1, **more})
    resume("count-441-of-840", b, FROM, b"", {HANDED: 441})
    resume("count-840-of-840", b, FROM, b"", {HANDED: 840})
    # a none gives both as they stand: of an ended walk, past the last key, and at a key that is refused, the first or the next
    stand = {LAST_DEPTH: 7, HANDED: 440}
    resume("count-stands-ended", a, FROM, b"", {**stand, **ended})
    resume("count-stands-none", a, ABOVE, b"ab", stand)
    resume("count-stands-refused", a, FROM, b"", stand, kind=EXCLUDED)
    resume("count-stands-refused-next", a, FROM, b"", {**stand, **third}, kind=EXCLUDED, bound=b"ab")
    # behind the included end a step says none where the count is the image's length, and 21 where it is one more
    resume("count-439-at-end", a, FROM, b"", {HANDED: 439}, kind=INCLUDED)
    resume("count-440-at-end", a, FROM, b"", {HANDED: 440}, kind=INCLUDED)
    resume("count-440-at-end-next", a, FROM, b"", {HANDED: 440, **third}, kind=INCLUDED, bound=b"ab")
    # a walk that hands out keys again and again
    resume("count-round-and-round", round_and_round(), FROM, b"", {HANDED: 439})
    resume("count-round-and-round-check", round_and_round(), FROM, b"", form=CHECK)


def over_c():
    """The check and the tally over the C interface, with the numbers of each and which is tried first."""
    a, b = build(tree_a()), build(tree_b())
    dead = build(one_dead())
    for name, image in (("a", a), ("b", b), ("dead", dead), ("dead-counted", trailer(dead, COUNT, 2)), ("no-bytes", b""),
                        ("length-432", a[:432]), ("edition-2", trailer(a, EDITION, 2)), ("root-0", trailer(a, ROOT, 0)),
                        ("keylenx-9", changed(tree_a(), "<B", in_leaf(136 + 2), 9))):
        resume("check-" + name, image, ABOVE, b"", form=CHECK)
        resume("tally-" + name, image, ABOVE, b"", form=TOTAL)
    resume("tally-above-a", a, ABOVE, b"a", form=TOTAL)
    resume("tally-above-1", b, ABOVE, b"entrance.1", form=TOTAL)
    resume("tally-included", b, ABOVE, b"", kind=INCLUDED, bound=b"entrance.1", form=TOTAL)
    resume("tally-excluded", b, ABOVE, b"", kind=EXCLUDED, bound=b"entrance.1", form=TOTAL)
    resume("tally-11", a, ABOVE, b"a" * 257, kind=3, bound=bytes(257), form=TOTAL)
    resume("tally-12", a, ABOVE, b"", kind=3, bound=bytes(257), form=TOTAL)
    resume("tally-13", a, ABOVE, b"", bound=bytes(257), form=TOTAL)
    resume("tally-3-before-11", trailer(a, ROOT, 0), ABOVE, b"a" * 257, form=TOTAL)


def whole():
    """The longest key, the deepest layer and the samples, each walked to its end."""
    request("suffix-of-248", build(suffixed(248)), FROM)
    request("31-layers", build(layers(31)), FROM, form=TOTAL)
    for name, image in SAMPLES.items():
        request("sample-" + name, image(), FROM, form=TOTAL)


def sheets():
    """Images whose sheets are printed: A, B with its layer, dead slots, several leaves, no keys, the longest line, and three that are
    declined: one that counts its dead keys, one damaged, one of no bytes."""
    for name in ("a", "b", "dead"):
        request(name, SAMPLES[name](), FROM)
    request("P10", build(one_dead()), FROM)
    request("P10-dead-counted", trailer(build(one_dead()), COUNT, 2), FROM)
    request("nested", build(nested()), FROM)
    request("no-keys", build(Leaf()), FROM)
    request("longest-line", build(Leaf(Slot(K8, 2**64 - 1, suffix=b"k" * 248))), FROM)
    request("damaged", SAMPLES["damaged"](), FROM)
    request("no-bytes", b"", FROM)


def indented():
    """02 [13], "The screen indents stations by layer": images without layers and with them, a dead key, the same key in a layer and as a
    suffix, keys of three depths in turn, the deepest layer, the sample cave, no keys, and one image that is declined."""
    request("a", build(tree_a()), FROM)
    request("b", build(tree_b()), FROM)
    request("P10", build(one_dead()), FROM)
    request("dead-below", build(dead_below()), FROM)
    request("alone", build(alone()), FROM)
    request("at-depths", build(at_depths()), FROM)
    request("31-layers", build(layers(31, Leaf(Slot(b"x", 1), Slot(b"y", 2)), b"c")), FROM)
    request("cave", SAMPLES["cave"](), FROM)
    request("no-keys", build(Leaf()), FROM)
    request("damaged", SAMPLES["damaged"](), FROM)


def bounds():
    """02 [12]: "The bound test shall tell inside, exactly at the included end, and past." 02 [4]: "one for each eight and each
    single byte through the first that differs". A key, and the bound's."""

    def test(name, key, bound, kind):
        request(name, b"", ABOVE, key, kind=kind, bound=bound, form=BOUND)

    def both(name, key, bound):
        """The two one way round, and the other."""
        test(name, key, bound, INCLUDED)
        test(name + "-turned", bound, key, INCLUDED)

    def equal(name, key):
        """The bound's own key, included and excluded."""
        test(name, key, key, INCLUDED)
        test(name + "-excluded", key, key, EXCLUDED)

    a = b"a"
    both("30-equal-then-x-y", a * 30 + b"x", a * 30 + b"y")
    both("30-equal-then-xz-yz", a * 30 + b"xz", a * 30 + b"yz")
    both("12-beside-16", a * 12, a * 16)
    both("255-beside-256", a * 255, a * 256)
    both("8-beside-9", a * 8, a * 9)
    both("none-beside-one", b"", a)
    both("none-beside-256", b"", a * 256)
    equal("256-equal", a * 256)
    equal("255-equal", a * 255)
    equal("8-equal", a * 8)
    equal("1-equal", a)
    equal("none-equal", b"")
    both("first-of-40-differs", b"a" + a * 39, b"b" + a * 39)
    both("first-of-7-differs", b"a" + a * 6, b"b" + a * 6)
    both("first-of-1-differs", b"a", b"b")
    both("last-of-8-differs", a * 7 + b"a", a * 7 + b"b")
    both("last-of-9-differs", a * 8 + b"a", a * 8 + b"b")
    both("last-of-16-differs", a * 15 + b"a", a * 15 + b"b")
    both("last-of-256-differs", a * 255 + b"a", a * 255 + b"b")
    both("00-to-ff-beside-ff-to-00", bytes(7) + b"\xff", b"\xff" + bytes(7))
    both("two-differ-in-8", b"ab" + a * 6, b"ba" + a * 6)
    both("7f-beside-80", b"\x7f", b"\x80")
    both("7f-beside-80-in-8", b"\x7f" * 8, b"\x80" + bytes(7))
    both("zero-byte-more", a * 3, a * 3 + b"\0")
    test("unbounded", b"b" * 256, a * 256, UNBOUNDED)
    test("unbounded-equal", a * 256, a * 256, UNBOUNDED)
    test("excluded-below", a * 30 + b"x", a * 30 + b"y", EXCLUDED)
    test("excluded-above", a * 30 + b"y", a * 30 + b"x", EXCLUDED)


def main():
    if sys.argv[1:] == []:
        surveyed()
        placing()
        short_form()
        stepping()
        at_end()
        whole()
        bounds()
        carried()
    elif sys.argv[1:] == ["records"]:
        whole_names()
        whole_names_any_image()
        whole_names_altered()
        at_end_records()
        carried_records()
        carried_altered()
        over_c()
    elif sys.argv[1:] == ["sheets"]:
        sheets()
    elif sys.argv[1:] == ["indented"]:
        indented()
    else:
        sys.exit(__doc__)


if __name__ == "__main__":
    main()
