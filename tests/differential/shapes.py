"""The shapes that an accepted image may have, and a look at a tree that says which of them it has."""
from layout import Leaf
from trees import DEEPEST, TALLEST

# In the order of the summary.
KEYLENX = [f"keylenx {n}" for n in (*range(9), 64, 128, 129, 255)]
SHAPES = ["empty leaf", "full leaf of 15", "permuted slots", "dead slot", *KEYLENX, "layer at depth 31", "key of 0 bytes",
          "key of 256 bytes", "zero byte in a key", "twelve internodes deep", "internode of 15 keys"]


class Look:
    """What stands in a tree: its keys in order as (key, live), the depth of the layer in which each stands, its shapes, its records,
    for each sub-layer the bytes that lead into it, its leaves as (bytes that lead there, leaf), and the check's three numbers."""

    def __init__(self, root):
        self.keys, self.depths, self.shapes, self.records = [], {}, set(), []
        self.fronts, self.places = [], []
        self.leaves = self.values = self.layers = 0
        self.layer(root, b"", 0)

    def layer(self, node, front, height):
        self.records.append(node)
        if isinstance(node, Leaf):
            self.leaf(node, front, height)
            return
        self.mark("internode of 15 keys", len(node.separators) == 15)
        for child in node.children:
            self.layer(child, front, height + 1)

    def leaf(self, leaf, front, height):
        self.leaves += 1
        self.places.append((front, leaf))
        used = leaf.order[:len(leaf.slots)]
        self.mark("empty leaf", not used)
        self.mark("full leaf of 15", len(used) == 15)
        self.mark("permuted slots", used != sorted(used))
        self.mark("twelve internodes deep", height == TALLEST and front == b"")
        for s in leaf.slots:
            self.shapes.add(f"keylenx {s.keylenx}")
            if s.sub is not None:
                self.layers += 1
                self.fronts.append(front + s.part)
                self.layer(s.sub, front + s.part, 0)
            else:
                self.values += 1
                self.key(front + s.part + s.suffix, s.live, len(front))

    def key(self, key, live, offset):
        self.keys.append((key, live))
        self.depths[key] = offset // 8
        self.mark("dead slot", not live)
        self.mark("layer at depth 31", live and offset == 8 * DEEPEST)
        self.mark("key of 0 bytes", live and key == b"")
        self.mark("key of 256 bytes", live and len(key) == 256)
        self.mark("zero byte in a key", live and 0 in key)

    def mark(self, shape, there):
        if there:
            self.shapes.add(shape)
