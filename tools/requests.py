"""Requests, as crates/requests reads them and crates/runner runs them."""
import struct
import sys

# Forms: every answer; all moves too; before each step one over a shorter image; the check first, and only the number of keys; the
# check alone; every step with the walk after it (for tests/differential); all moves too, by the lent form of the step; the bound test of
# the key in the cursor's place. Then start modes, which every request names (SHORT is the form without one), and kinds of bound.
KEYS, MOVES, FOREIGN, TOTAL, CHECK, STATES, LENT, BOUND = range(8)
ABOVE, FROM, SHORT = range(3)
UNBOUNDED, INCLUDED, EXCLUDED = range(3)


def encode(name, image, mode, cursor=b"", kind=UNBOUNDED, bound=b"", form=KEYS, changes=None):
    """A request's bytes. `changes` (for crates/records alone) gives numbers of the record by their index, and bytes of its buffer by
    256 plus theirs."""
    out = bytes([len(name)]) + name.encode() + bytes([form, mode, kind]) + struct.pack("<H", len(cursor)) + cursor
    out += struct.pack("<H", len(bound)) + bound + struct.pack("<I", len(image)) + image
    if changes is not None:
        changes = b"".join(struct.pack("<HQ", at, value) for at, value in changes.items())
        out += struct.pack("<H", len(changes)) + changes
    return out


def request(*args, **more):
    """Writes a request to standard output."""
    sys.stdout.buffer.write(encode(*args, **more))
