"""Random trees, in order by construction: the common ones, and builders for what these seldom or never have."""
from layout import TOP, Internode, Leaf, Slot, by_ikey

DEEPEST = 31        # the last layer's depth
TALLEST = 12        # internodes on a path in a layer


def random_key(r, most):
    alphabet = r.choice([b"\0", b"\0a", b"\0ab\xff", b"ab", bytes(range(256))])
    n = r.choice([r.randrange(0, 10), r.randrange(0, 20), r.randrange(0, most + 1)])
    return bytes(r.choice(alphabet) for _ in range(n))


def random_keys(r):
    most = r.choice([9, 12, 20, 40, 256])
    keys = {random_key(r, most) for _ in range(r.choice([0, 1, 2, 3, 8, 20, 60, 200]))}
    for k in list(keys):
        for _ in range(r.randrange(3)):
            keys.add((k[: r.randrange(len(k) + 1)] + r.choice([b"", b"\0", b"a"]))[:256])
    return keys


def random_tree(r, keys):
    """A tree of these keys, some of them dead. Seven of ten such trees have any bits where nothing is asked of them."""
    pairs = [(k, (r.choice([0, 1, r.randrange(TOP), TOP - 1]), r.random() < 0.8)) for k in keys]
    noisy = r.random() >= 0.3
    fill = r.randbytes if noisy else bytes

    def version():
        return r.randrange(1 << 32) & ~(1 << 29 | 1 << 31 | 7) if noisy else 0

    def layer(pairs, depth):
        groups = []
        for ikey, inline, longer in by_ikey(pairs):
            slots = [Slot(k, value, live=live) for k, (value, live) in inline]
            part = ikey.to_bytes(8, "big")
            if len(longer) == 1 and r.random() < 0.7:
                k, (value, live) = longer[0]
                slots.append(Slot(part, value, k[8:], live=live))
            elif longer:
                sub = layer([(k[8:], held) for k, held in longer], depth + 1)
                slots.append(Slot(part, sub=sub, keylenx=r.choice([128, 129, 255]), live=r.random() < 0.5))
            elif depth < DEEPEST and r.random() < 0.03:
                slots.append(Slot(part, sub=layer([], depth + 1)))
            groups.append((ikey, slots))
        runs = cut(groups)
        seps = separators(runs)
        while seps is None:
            runs = [run for run in runs if run] or [[]]
            seps = separators(runs)
        return rise([leaf(run) for run in runs], seps, TALLEST)

    def cut(groups):
        """Leaves: runs of whole groups of at most 15 slots, now and then an empty one."""
        runs, run, size = [], [], 0
        full = r.choice([15, 15, r.randrange(1, 16)])
        for ikey, slots in groups:
            if run and (size + len(slots) > 15 or size >= full):
                runs.append(run)
                run, size = [], 0
                if r.random() < 0.05:
                    runs.append([])
            run.append((ikey, slots))
            size += len(slots)
        runs.append(run)
        if r.random() < 0.1:
            runs.append([])
        if r.random() < 0.1:
            runs.insert(0, [])
        return runs

    def separators(runs):
        """Between neighbouring leaves, strictly ascending, each leaf inside; None where there is no room for them."""
        # ahead[i]: the first ikey in or after run i; room[i]: how many separators from the one after run i on stand before it (empty
        # runs between).
        ahead, room = [TOP] * (len(runs) + 1), [0] * (len(runs) + 1)
        for i in range(len(runs) - 1, -1, -1):
            ahead[i] = runs[i][0][0] if runs[i] else ahead[i + 1]
            room[i] = 0 if runs[i] or i == len(runs) - 1 else room[i + 1] + 1
        seps, low = [], 0
        for i in range(len(runs) - 1):
            lo = max(low, runs[i][-1][0] if runs[i] else 0)
            hi = min(ahead[i + 1], TOP - 1) - room[i + 1]
            if lo + 1 > hi:
                return None
            low = r.choice([lo + 1, hi, r.randrange(lo + 1, hi + 1)])
            seps.append(low)
        return seps

    def leaf(run):
        order = list(range(15))
        r.shuffle(order)
        return Leaf(*[slot for _, slots in run for slot in slots], order=order, version=version() | 1 << 31, fill=fill)

    def rise(row, seps, left):
        """Internodes over a row of leaves, at most `left` on a path."""
        if len(row) == 1 and (left == 0 or r.random() < 0.9):
            return row[0]
        fan = r.choice([2, 3, 16])
        fan = max(fan, min(16, -(-len(row) // 16 ** (left - 1)))) if left > 1 else 16
        width = -(-len(row) // fan)
        cuts = list(range(0, len(row), width)) + [len(row)]
        children = [rise(row[a:b], seps[a:b - 1], left - 1) for a, b in zip(cuts, cuts[1:])]
        return Internode([seps[c - 1] for c in cuts[1:-1]], *children, version=version(), fill=fill)

    return layer(pairs, 0)


def some(r, n, alphabet=None):
    alphabet = alphabet or r.choice([b"\0", b"a", b"\0a", b"ab\xff", bytes(range(256))])
    return bytes(r.choice(alphabet) for _ in range(n))


def chain(r):
    """Layers down to the deepest, where keys of 249 to 256 bytes end; other keys end or part on the way."""
    way = some(r, 8 * DEEPEST)
    keys = {way + some(r, r.randrange(1, 9)) for _ in range(r.randrange(2, 12))} | {way + b"a", way + b"aaaaaaaa"}
    for _ in range(r.randrange(20)):
        keys.add((way[:r.randrange(len(way))] + some(r, r.choice([0, 1, 8, 9, 40])))[:256])
    return random_tree(r, keys)


def ends(r):
    """The shortest and the longest keys: those of 0, 1, 255 and 256 bytes, some with a common beginning."""
    keys = {b"", some(r, 256), some(r, 255), some(r, 1)}
    for k in list(keys):
        keys.add((k[:r.randrange(len(k) + 1)] + some(r, 256))[:256])
    return random_tree(r, keys)


def zeros(r):
    """Keys that part in trailing zero bytes alone, so that one ikey has slots of every length."""
    front = some(r, r.choice([0, 0, 1, 4, 16]))
    keys = {front + bytes(n) for n in (*range(9), r.randrange(9, 200))}
    return random_tree(r, keys | {some(r, r.randrange(12), b"\0a") for _ in range(r.randrange(20))})


def any_slot(r, ikey):
    """A slot of any sort with this ikey, in a root layer."""
    part = ikey.to_bytes(8, "big")
    value, live = r.randrange(TOP), r.random() < 0.8
    sort = r.randrange(6)
    if sort == 0:
        return Slot(part, value, some(r, r.choice([1, 7, 8, 9, 248])), live=live)
    if sort == 1:
        return Slot(part, sub=Leaf(Slot(b"s", value, live=live)), keylenx=r.randrange(128, 256), live=live)
    least = len(part.rstrip(b"\0"))
    return Slot(part[:r.randrange(least, 9)], value, live=live)


def tower(r):
    """A root layer with a leaf below twelve internodes; beside the way down leaves stand at every height."""
    def leaf(low, high):
        ikeys = {r.choice([low, high - 1, r.randrange(low, high)]) for _ in range(r.choice([0, 1, 3, 15]))}
        order = r.sample(range(15), 15)
        return Leaf(*[any_slot(r, ikey) for ikey in sorted(ikeys)], order=order)

    def part(low, high, height):
        if height == 0:
            return leaf(low, high)
        count = r.choice([0, 1, 1, 2, 15]) if height % 4 == 0 else r.choice([0, 1, 1, 2])
        seps = sorted({r.randrange(low + 1, high) for _ in range(count)}) if high - low > 1 else []
        cuts = [low, *seps, high]
        down = r.randrange(len(cuts) - 1)
        return Internode(seps, *[part(a, b, height - 1 if i == down else 0) for i, (a, b) in enumerate(zip(cuts, cuts[1:]))])

    return part(0, TOP, TALLEST)


def tree(r):
    """A common tree, or now and then one of the others."""
    builder = r.choice([chain, ends, zeros, tower] + 12 * [None])
    return builder(r) if builder else random_tree(r, random_keys(r))
