"""Images in document 01's layout: a tree of Leaf and Internode records, and `build`, which writes its bytes.

Nothing here checks an image, so a tree may break any rule.
"""
import itertools
import struct

TOP = 1 << 64


def ikey(part):
    return int.from_bytes(part[:8].ljust(8, b"\0"), "big")


class Slot:
    """One used slot: `part` has the key's bytes in this layer, and `sub` is a sub-layer's root. A layer's live bit is clear if not
    asked for."""

    def __init__(self, part, value=0, suffix=b"", sub=None, keylenx=None, live=None):
        self.part, self.ikey, self.value, self.suffix, self.sub = part, ikey(part), value, suffix, sub
        self.live = sub is None if live is None else live
        if keylenx is not None:
            self.keylenx = keylenx
        elif sub is not None:
            self.keylenx = 128
        else:
            self.keylenx = 64 if suffix else len(part)


class Leaf:
    """Slots in key order; order[i] is the slot number of the i-th. `fill` makes the bytes that no one reads: zeros, or any."""

    def __init__(self, *slots, order=range(15), version=1 << 31, fill=bytes):
        assert len(slots) <= 15
        self.slots, self.order, self.version, self.fill = slots, list(order), version, fill


class Internode:
    def __init__(self, separators, *children, version=0, fill=bytes):
        assert len(children) == len(separators) + 1 <= 16
        self.separators, self.children, self.version, self.fill = separators, children, version, fill


def leaves(node):
    if isinstance(node, Leaf):
        return [node]
    return [leaf for child in node.children for leaf in leaves(child)]


def build(root):
    """The image of a tree, its records in post-order; every record gets its offset in `at`. The trailer counts the live value slots."""
    out = bytearray(8)
    count = 0

    def record(node):
        nonlocal count
        if isinstance(node, Internode):
            for child in node.children:
                record(child)
            b = bytearray(node.fill(256))
            struct.pack_into("<IB", b, 0, node.version, len(node.separators))
            struct.pack_into(f"<{len(node.separators)}Q", b, 8, *node.separators)
            struct.pack_into(f"<{len(node.children)}Q", b, 128, *[child.at for child in node.children])
        else:
            for slot in node.slots:
                if slot.sub is not None:
                    layer(slot.sub)
                    slot.value = slot.sub.at
                elif slot.keylenx == 64:
                    slot.suffix_at = len(out)
                    out.extend(slot.suffix + node.fill(-len(slot.suffix) % 8))
            b = bytearray(node.fill(400))
            mask = struct.unpack_from("<H", b, 4)[0]
            for s, slot in zip(node.order, node.slots):
                mask = mask & ~(1 << s) | slot.live << s
                struct.pack_into("<Q", b, 16 + 8 * s, slot.ikey)
                b[136 + s] = slot.keylenx
                struct.pack_into("<Q", b, 152 + 8 * s, slot.value)
                if slot.keylenx == 64:
                    struct.pack_into("<II", b, 272 + 8 * s, slot.suffix_at, len(slot.suffix))
                count += slot.sub is None and slot.live
            permutation = len(node.slots) + sum(s << 4 * i + 4 for i, s in enumerate(node.order))
            struct.pack_into("<IH", b, 0, node.version, mask)
            struct.pack_into("<Q", b, 8, permutation)
        node.at = len(out)
        out.extend(b)

    def layer(top):
        record(top)
        row = leaves(top)
        for this, behind in zip(row, row[1:] + [None]):
            struct.pack_into("<Q", out, this.at + 392, behind.at if behind else 0)

    layer(root)
    out += struct.pack("<QQQQ", root.at, count, len(out) + 32, 1)
    return bytes(out)


def by_ikey(pairs):
    """The (key, value) pairs in order: for each ikey those whose key has up to eight bytes, and those whose key has more."""
    for x, group in itertools.groupby(sorted(pairs), lambda pair: ikey(pair[0])):
        group = list(group)
        yield x, [pair for pair in group if len(pair[0]) <= 8], [pair for pair in group if len(pair[0]) > 8]


def tree_of(pairs):
    """A tree of {key: value}: whole ikey groups fill a leaf; one long key of an ikey is a suffix, more are a layer."""
    rows = [[]]
    for x, inline, longer in by_ikey(pairs.items()):
        group = [Slot(key, value) for key, value in inline]
        part = x.to_bytes(8, "big")
        if len(longer) == 1:
            key, value = longer[0]
            group.append(Slot(part, value, suffix=key[8:]))
        elif longer:
            group.append(Slot(part, sub=tree_of({key[8:]: value for key, value in longer})))
        if len(rows[-1]) + len(group) > 15:
            rows.append([])
        rows[-1] += group
    nodes = [(Leaf(*row), row[0].ikey if row else 0) for row in rows]
    while len(nodes) > 1:
        upper = []
        for i in range(0, len(nodes), 16):
            part = nodes[i:i + 16]
            upper.append((Internode([low for _, low in part[1:]], *[node for node, _ in part]), part[0][1]))
        nodes = upper
    return nodes[0][0]
