#!/usr/bin/env python3
"""Counts the places in crates/*/src that docs/DESIGN-PASS.md speaks of.

    python3 tools/forms.py [FOLDER] [--list]

FOLDER is a checkout (this one, if none is named). A line for each count: point, number, what is counted; with --list the
places under it.
"""
import collections
import os
import re
import sys

args = [a for a in sys.argv[1:] if a != "--list"]
show = "--list" in sys.argv
top = args[0] if args else os.path.join(os.path.dirname(os.path.abspath(__file__)), "..")

lines = []  # (crate, file, line number, text without its comment)
for crate in sorted(os.listdir(os.path.join(top, "crates"))):
    src = os.path.join(top, "crates", crate, "src")
    for base, _, names in sorted(os.walk(src)):
        for name in sorted(names):
            if name.endswith(".rt"):
                for i, text in enumerate(open(os.path.join(base, name), encoding="utf-8"), 1):
                    text = re.sub(r"(^|\s)//.*", "", text.rstrip("\n"))
                    lines.append((crate, crate + "/" + name, i, text))


def grep(pattern, keep=lambda text: True):
    found = []
    for _, name, i, text in lines:
        if re.search(pattern, text) and keep(text) and "ghost use" not in text:
            found.append((name, i, text.strip()))
    return found


def blocks(head):
    """Items that begin with a line like head: (place, lines of the item)."""
    out = []
    for k, (_, name, i, text) in enumerate(lines):
        if re.match(head, text):
            body = [text]
            for _, other, _, more in lines[k + 1:]:
                if other != name or more == "}":
                    break
                body.append(more)
            out.append(((name, i, text.strip()), body))
    return out


FAILS = r"\s+(Fault|Unreadable|Declined|Refused|Slow|Spent|End|Nothing|NoSuffix)\b"
failing = [at for at, body in blocks(r"\s*(pub )?enum ") if any(re.match(FAILS, b) for b in body[1:])]

structs = blocks(r"\s*(pub )?struct \w+.*\{")
beside = [at for at, body in structs if any(re.search(r": \[", b) for b in body) and any(re.search(r"\b(\w+_)?(len|n|leaves): usize", b) for b in body)]

clauses = collections.defaultdict(list)
for _, name, i, text in lines:
    m = re.match(r"\s*requires (\w+ )?\{ (.*) \}$", text)
    if m:
        clauses[m.group(2)].append((name, i, m.group(2)))
often = [x for xs in clauses.values() if len(xs) >= 3 for x in xs]

functions = collections.defaultdict(list)
for crate, name, i, text in lines:
    m = re.match(r"\s*(pub )?(extern \"C\" )?fn (\w+)", text)
    if m and m.group(3) != "main":
        functions[m.group(3)].append((name, i, m.group(3), crate))
again = [x[:3] for xs in functions.values() if len({x[3] for x in xs}) >= 2 for x in xs]

COUNTS = [
    ("1", "enums with a variant for a failure or for nothing", failing),
    ("1", "fields that are a flag or a number beside a value (found, more, fault, code, number)", grep(r"^\s*pub (found|more|fault|code|number): ")),
    ("1", "numbers for declines and failures, written out", grep(r"\b(Declined|Fault|stopped|declined)\(\d+|return (1|2|11|12|13|16|21|22|23|31|32|33);")),
    ("1", "kinds as numbers: parameters and fields `kind`, `form`, `mode` of type u8", grep(r"\b(kind|form|mode): u8")),
    ("2", "functions whose name stands in two crates or more", again),
    ("3", "loops by `while` or `loop`", grep(r"^\s*(while|loop)\b")),
    ("4", "arms that turn a variant into a constant", grep(r"=> (true|false|\d+),?$")),
    ("4", "fields written `x: x`", grep(r"\b(\w+): \1,$")),
    ("4", "own words for std's: wide, least, order_of, is_less, copy_in, copy_words, copy_bytes", grep(r"fn (wide|least|order_of|is_less|copy_in|copy_words|copy_bytes)\b")),
    ("5", "`requires` that stand in three functions or more, word for word", often),
    ("5", "functions that take an image and a leaf's place as two parameters", grep(r"image: &\[u8\], (leaf|at): (usize|u64)")),
    ("6", "structs with an array and a length beside", beside),
    ("7", "tests of a form or a mode", grep(r"\b(form|mode) (==|<|!=)")),
]

for point, what, found in COUNTS:
    print(f"{point}  {len(found):4}  {what}")
    if show:
        for name, i, text in found:
            print(f"         {name}:{i}: {text}")

answers = 0
for base, _, names in os.walk(os.path.join(top, "crates")):
    if "/proofs" in base and "/out/" not in base:
        for name in names:
            if name in ("Answers.antt", "Invariants.antt", "Proof.antt"):
                answers += sum(1 for _ in open(os.path.join(base, name), encoding="utf-8"))
print(f"8  {answers:4}  lines of answers and invariants")
