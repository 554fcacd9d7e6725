#!/usr/bin/env python3
"""Takes the library's operators from where they stand: a file that had them of base's Kit imports them of Rattle.std.specs.Prelude.

usage: python3 tools/from_prelude.py PRELUDE.antt      at the top of the repository; PRELUDE.antt is the kit's rattle/std/specs/Prelude.antt

`rt ci` refuses an operator of the library under a path of the repository's own."""
import glob, re, sys

symbols = {w for w in re.findall(r"[^\s{},]+", open(sys.argv[1], encoding="utf-8").read()) if "◌" in w}
LINE = re.compile(r"(?m)^(ghost )?use Rattle\.base\.specs\.Kit\.\{([^}]*)\}(;?)\n")
paths = glob.glob("crates/*/src/**/*.rt", recursive=True) + glob.glob("crates/*/specs/**/*.antt", recursive=True) + glob.glob("crates/*/proofs/**/*.antt", recursive=True)
for path in sorted(paths):
    text = open(path, encoding="utf-8").read()

    def one(m):
        names = [w.strip() for w in m.group(2).split(",") if w.strip()]
        ours = [w for w in names if w not in symbols]
        theirs = [w for w in names if w in symbols]
        head, end = (m.group(1) or "") + "use ", m.group(3) + "\n"
        out = head + "Rattle.std.specs.Prelude.{" + ", ".join(theirs) + "}" + end if theirs else ""
        return out + (head + "Rattle.base.specs.Kit.{" + ", ".join(ours) + "}" + end if ours else "")
    new = LINE.sub(one, text)
    if new != text:
        open(path, "w", encoding="utf-8").write(new)
