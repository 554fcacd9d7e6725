#!/usr/bin/env python3
"""Brings the repository's own definitions and lemmas to the spelling of today's Rattle, once, after /opt/rattle/port/port.py.

usage: python3 tools/respell.py LANDED      at the top of the repository

Words are in snake case: `byteOrder` is `byte_order`, `pairsK` is `pairs_k`. In a lemma's name a dash joins two names, and a plain word
hangs on by `_`: `be-digits`, `bytes_more`. A name keeps its dashes where it would fall together with another. A prime is `'`.
Functions of src/, types, modules, exported names and strings keep theirs. LANDED is the commit whose names port.py has turned in part:
documents and must-fail edits, which port.py leaves, take those names too. It prints what it renames to tools/respelled.tsv."""
import collections, glob, re, subprocess, sys

IDENT = r"[^\W\d][\w'′₀-₉·-]*"
TOKEN = re.compile(IDENT)
DECL = re.compile(r"^\s*(?:unfoldable\s+|abbrev\s+|pattern\s+|pub\s+)*(" + IDENT + r")(?:\s[^:=\n]*)?\s*:(?!=)")
RULES = re.compile(r"^\s*(?:pub\s+)?ruleset\s+(" + IDENT + ")")
WORDS = set("""le lt eq ne mem add sub mul div mod pow suc zero one append cons nil take drop set map length replicate get_or paste min max
ltb leb eqb true false not and or min iff refl pick bool_byte flatten""".split())


def antt(root="."):
    return sorted(glob.glob(f"{root}/crates/*/specs/**/*.antt", recursive=True) + glob.glob(f"{root}/crates/*/proofs/**/*.antt", recursive=True))


def declared(texts):
    names, specs, fields = set(), set(), set()
    for path, text in texts:
        record = False
        for line in text.splitlines():
            if line.lstrip().startswith("--"):
                continue
            if re.match(r"\s*(pub )?(record|data) ", line):
                record = True
            elif line and not line[0].isspace():
                record = False
            for m in (DECL.match(line), RULES.match(line)):
                if m and (not path.endswith(("Proof.antt", "Answers.antt")) or "-" not in m.group(1) or m.group(1).endswith("-spec")):
                    names.add(m.group(1))
                    if record:
                        fields.add(m.group(1))
                    if "/specs/" in path:
                        specs.add(m.group(1))
    return names, specs, fields


def snake(name):
    if not name[0].islower():
        return name
    name = re.sub(r"(?<=[a-z0-9])(?=[A-Z])", "_", name)
    return name.lower() if re.fullmatch(r"[\x00-\x7f]*", name) else name


def dashes(name, known):
    head, *rest = name.split("-")
    for word in rest:
        head += ("-" if word in known or word.isdigit() or not word else "_") + word
    return head


def renames(names, specs):
    known = WORDS | {snake(n) for n in specs if "-" not in n}
    new = {n: dashes(snake(n), known) if not n.endswith("-spec") else n[:-5].replace("-", "_") + "_spec" for n in names}
    taken = collections.Counter(new.values())
    out, lemmas = {}, {}
    for n, m in sorted(new.items()):
        if n != m and n[0].islower():
            if m in names or taken[m] > 1:
                # a lemma that would have its function's name ends in `_lem`
                if "-" in n and m + "_lem" not in names:
                    m += "_lem"
                elif m in names and n in specs and m not in specs:
                    lemmas[m] = m + "_lem"
                elif m in names or sum("-" not in k for k in new if new[k] == m) > 1:
                    print("kept:", n, "beside", [k for k in new if new[k] == m])
                    continue
            out[n] = m
    return out, lemmas


def replace(text, table, after_dot=lambda t: True):
    def one(m):
        t = m.group(0)
        if m.start() and text[m.start() - 1] == "." and not after_dot(t):
            return t
        return table.get(t, t)
    return TOKEN.sub(one, text)


def rt(text, table):
    """Clauses, ghost lines and comments of a source file."""
    out, depth = [], 0
    for line in text.splitlines(keepends=True):
        ghost = re.match(r"\s*(ghost |requires|ensures|invariant|//)", line) or depth > 0
        if ghost and not line.lstrip().startswith("//"):
            depth += line.count("{") - line.count("}")
            line = replace(line, table)
        elif ghost:
            line = re.sub(r"`[^`]*`", lambda m: replace(m.group(0), table), line)
        else:
            depth = 0
        out.append(line)
    return "".join(out)


def main():
    landed = sys.argv[1]
    texts = [(p, open(p, encoding="utf-8").read()) for p in antt()]
    names, specs, fields = declared(texts)
    table, lemmas = renames(names, specs)
    listed = subprocess.run(["git", "ls-tree", "-r", "--name-only", landed], capture_output=True, text=True, check=True).stdout.split()
    old = [(p, subprocess.run(["git", "show", f"{landed}:{p}"], capture_output=True, text=True, check=True).stdout)
           for p in listed if p.endswith(".antt")]
    before = declared(old)[0]
    for path, text in texts:
        for t in TOKEN.findall(text):
            if re.fullmatch(r"[a-z][a-z0-9]*[A-Z][A-Za-z0-9]*", t) and t != "getD":
                table.setdefault(t, snake(t))
    turned = dict(table)
    for n in sorted(before - names):
        for m in (snake(n), n.replace("-", "_"), snake(n).replace("-", "_")):
            if m in names:
                turned[n] = table.get(m, m)
                break
    for path, text in texts:
        own = (lambda t: t in fields or "-" not in t) if path.endswith(("Proof.antt", "Answers.antt")) else (lambda t: True)
        here = {**table, **lemmas} if "/proofs/" in path else table
        new = replace(text, here, lambda t: own(t) and t not in lemmas).replace("′", "'")
        if new != text:
            open(path, "w", encoding="utf-8").write(new)
    for path in sorted(glob.glob("crates/*/src/**/*.rt", recursive=True)):
        text = open(path, encoding="utf-8").read()
        new = rt(text, table).replace("′", "'").replace("self.entry.", "self.")
        if new != text:
            open(path, "w", encoding="utf-8").write(new)
    for path in sorted(glob.glob("crates/*/must-fail/*.edit")):
        text = open(path, encoding="utf-8").read()
        new = replace(text, turned).replace("′", "'")
        if new != text:
            open(path, "w", encoding="utf-8").write(new)
    for path in ["README.md", "docs/MAP.md", "docs/DECISIONS.md", "docs/HACKING.md", "docs/DIFFERENCES.md"]:
        text = open(path, encoding="utf-8").read()
        new = re.sub(r"`[^`\n]*`", lambda m: replace(m.group(0), turned), text)
        if new != text:
            open(path, "w", encoding="utf-8").write(new)
    with open("tools/respelled.tsv", "w", encoding="utf-8") as f:
        for n, m in sorted(turned.items()):
            f.write(f"{n}\t{m}\n")
    print(len(table), "names respelled;", len(turned), "with those that port.py turned")


main()
