#!/usr/bin/env python3
"""Mends what spell_names.py and turn_goals.py leave in .antt files: a library's name renamed before `as`, a field of a generated record that has
the name of a lemma, `well-formed`, and a place that a `let` binds by a row of `.before`, whose steps are fields of `c` itself today.

usage: python3 tools/mend_turned.py     at the top of the repository; a second run changes nothing
"""

import glob
import re

INVERSE = {}
for line in open("tools/spelled.tsv", encoding="utf-8"):
    a, b = line.rstrip("\n").split("\t")
    INVERSE.setdefault(b, []).append(a)
CRATES = {p.split("/")[1] for p in glob.glob("crates/*/src")}
W = r"[^\s(){};,@\"«»\[\]\\.]+"

FIELDS = set()
ALL = [f for f in glob.glob("crates/*/**/*.antt", recursive=True) if "/out/" not in f]
for f in ALL:
    for m in re.finditer(r"(?m)^\s+pub (" + W + r")[^\n]*?:\s", open(f, encoding="utf-8").read()):
        FIELDS.add(m.group(1))


def lets(text):
    """`let a = c.before.before in .. a.requires` is `c.requires`."""
    parts = re.split(r"(?m)(?=^\S)", text)
    out = []
    for part in parts:
        while True:
            m = re.search(r"\blet (" + W + r") = c(?:\.before)+ in[ \n]*", part)
            if not m:
                break
            v = m.group(1)
            rest = part[m.end() :]
            rest = re.sub(r"(?<![\w.'₀-₉-])" + re.escape(v) + r"\.", "c.", rest)
            bare = re.search(r"(?<![\w.'₀-₉-])" + re.escape(v) + r"(?![\w.'₀-₉-])", rest)
            part = part[: m.start()] + (f"let {v} = c in " if bare else "") + rest
            if bare:
                break
        out.append(part)
    return "".join(out)


for f in ALL:
    text = begin = open(f, encoding="utf-8").read()

    def uses(m):
        own = re.match(r"Rattle\.(\w+)", m.group(2))
        if own and own.group(1) in CRATES and ".contracts" not in m.group(2):
            return m.group(0)
        names = [re.sub(r"^(" + W + r")( as )", lambda k: INVERSE.get(k.group(1), [k.group(1)])[0] + k.group(2), n.strip()) for n in m.group(3).split(",")]
        return f"{m.group(1)}{m.group(2)}.{{{', '.join(names)}}}"

    text = re.sub(r"(?m)^(\s*(?:pub )?use )([^\s{]+?)\.\{([^}]*)\}", uses, text)
    if f.endswith("Proof.antt"):
        text = text.replace(".well-formed", ".well_formed")
        text = re.sub(
            r"(?<=\.)(" + W + r")_(lem|of|is)(?!" + W + ")",
            lambda m: m.group(1) if m.group(0) in INVERSE and m.group(0) not in FIELDS else m.group(0),
            text,
        )
        text = lets(text)
    if text != begin:
        with open(f, "w", encoding="utf-8") as out:
            out.write(text)
        print(f)
