#!/usr/bin/env python3
"""Spells the repository's own definitions, fields and lemmas as today's Rattle does: words in snake case, no dash inside a name.

usage: python3 tools/spell_names.py [--dry]     at the top of the repository, once, right after port.py

    dealRefusal, front-copied, getD-mapped  ->  deal_refusal_of (there is a function deal_refusal), front_copied, get_or_mapped

A name is turned where the repository declares it in specs/ or proofs/, in every file that has it from there: .antt, .rt, .edit, and in backticks
in comments. A token that a file has from the library stays. Names of src/, strings, inputs and outputs stay. The crate csv becomes csv_fields,
since the kit has a library of that name. With --dry it prints the names that would fall together, and writes nothing.
"""

import collections
import os
import re
import subprocess
import sys

W = r"[^\s(){}.;,@\"«»\[\]\\|`]+"
TOKEN = re.compile(W)
HEAD = re.compile(r"^\s*(?:(?:abbrev|unfoldable|opaque|pub|ruleset|data|record)\s+)*(" + W + r")(?:\s+(?:" + W + r"|\([^()]*\)|\{[^{}]*\}))*\s*:(?:\s|$)")
RULES = re.compile(r"^\s*(?:pub\s+)?ruleset\s+(" + W + ")")
USE = re.compile(r"^\s*(?:pub )?(?:ghost )?use\s+([^\s{;]+?)\.?(?:\{([^}]*)\}|\s+use\s+.*)?;?\s*$")
OLD = "csv"
NEW = "csv_fields"
# Where two names would fall together, or a name would meet one that stands already.
CHOSEN = {"masksAAt": "masks_a_at", "masksBAt": "masks_b_at", "lastRow": "last_row_at", "valueAt-zero": "value_at_zero_of", "value-at-zero": "value_at_zero"}


def files(ends):
    for top in ("crates",):
        for folder, dirs, names in os.walk(top):
            dirs[:] = sorted(d for d in dirs if d not in ("out", ".git"))
            for f in sorted(names):
                if f.endswith(ends):
                    yield os.path.join(folder, f)


def read(path):
    with open(path, encoding="utf-8") as f:
        return f.read()


def snake(name):
    """The name in snake case, or None where it stays. A definition that meets a name of src/ gets `_of`; a lemma that meets its definition `_lem`, a field `_is`."""
    if not re.match(r"^[a-zα-ω+]", name) or name.startswith(("invariant-", "decreases-")):
        return None
    it = name.replace("getD", "get_or")
    it = re.sub(r"(?<=[A-Za-z0-9_'₀-₉ᴱα-ω])-(?=[A-Za-z0-9_'₀-₉ᴱα-ω])", "_", it)
    it = re.sub(r"(?<=[a-z0-9'])([A-Z])", lambda m: "_" + m.group(1), it)
    it = re.sub(r"[A-Z]+", lambda m: m.group(0).lower(), it)
    return it if it != name else None


def declared():
    names = {}
    for path in files(".antt"):
        for line in read(path).split("\n"):
            if line.lstrip().startswith("--") or not line.strip():
                continue
            for m in (HEAD.match(line), RULES.match(line)):
                if m and m.group(1) not in ("let", "λ", "in", "where", "module", "use", "elim"):
                    field = re.match(r"^\s+pub\s", line) is not None
                    names[m.group(1)] = (names.get(m.group(1), (0, 0))[0] + 1, field or names.get(m.group(1), (0, 0))[1])
    return names


def foreign(text):
    """The names that a file has from the library."""
    out = set()
    for line in text.split("\n"):
        m = USE.match(line)
        if m and m.group(2):
            mod = m.group(1)
            own = re.match(r"Rattle\.(\w+)\.", mod + ".")
            if not own or own.group(1) not in CRATES or ".contracts" in mod or ".declared" in mod:
                out |= {part for w in m.group(2).split(",") for part in w.strip().split(" as ")}
    return out


def aliases(text):
    """The names under which a file has the library's modules: what follows one and a dot stays."""
    out = []
    for mod, name in re.findall(r"(?m)^\s*(?:ghost )?use ([\w.+']+) as ([^\s;]+)", text):
        own = re.match(r"Rattle\.(\w+)\.", mod)
        if not own or own.group(1) not in CRATES:
            out.append(name + ".")
    return tuple(out)


CRATES = {c for c in os.listdir("crates") if os.path.isdir(os.path.join("crates", c, "src"))}


def turn_tokens(text, names, keep, comments):
    stay = ("tie.", "goal.", "Met.", "Statement.") + aliases(text)

    def word(m):
        t = m.group(0)
        before = text_here[: m.start()]
        if t in keep or t not in names or before.endswith(stay):
            return t
        return names[t]

    out = []
    for line in text.split("\n"):
        text_here = line
        at = line.find(comments) if comments else -1
        if at < 0:
            out.append(TOKEN.sub(word, line))
            continue
        code, note = line[:at], line[at:]
        text_here = code
        code = TOKEN.sub(word, code)

        def quoted(m):
            nonlocal text_here
            text_here = m.group(0)
            return TOKEN.sub(word, m.group(0))

        out.append(code + re.sub(r"`[^`]*`", quoted, note))
    return "\n".join(out)


def crate_name(text):
    text = re.sub(r"\bRattle\.csv\.", f"Rattle.{NEW}.", text)
    return re.sub(r"(?<![\w.])csv::", f"{NEW}::", text)


def turn_edit(text, names):
    out = []
    for line in text.split("\n"):
        if line.startswith(("old: ", "new: ")):
            out.append(line[:5] + turn_tokens(line[5:], names, set(), None))
        else:
            out.append(re.sub(r"`[^`]*`", lambda m: turn_tokens(m.group(0), names, set(), None), line))
    return "\n".join(out)


def main():
    dry = "--dry" in sys.argv
    names = declared()
    turned = {n: s for n in names for s in [snake(n)] if s}
    present = collections.Counter()
    for path in files((".antt", ".rt")):
        present.update(set(TOKEN.findall(read(path))))
    by_new = collections.defaultdict(list)
    for n, s in turned.items():
        by_new[s].append(n)
    clash = {s: ns for s, ns in by_new.items() if len(ns) > 1 or s in present}
    for s in sorted(clash):
        if dry:
            print("together:", s, clash[s], "stands" if s in present else "")
        for n in clash[s]:
            if "-" in n:
                turned[n] = s + ("_is" if names[n][1] else "_lem")
            elif s in present:
                turned[n] = s + "_of"
    for n, s in CHOSEN.items():
        turned[n] = s
    twice = collections.Counter(turned.values())
    bad = [(n, s) for n, s in turned.items() if twice[s] > 1 or s in present]
    for n, s in bad:
        print("still:", n, s)
    print(len(turned), "names")
    if dry:
        return
    for path in files((".antt", ".rt")):
        text = read(path)
        new = crate_name(turn_tokens(text, turned, foreign(text), "//" if path.endswith(".rt") else "--"))
        if new != text:
            with open(path, "w", encoding="utf-8") as f:
                f.write(new)
    for path in files(".edit"):
        text = read(path)
        new = crate_name(turn_edit(text, turned))
        if new != text:
            with open(path, "w", encoding="utf-8") as f:
                f.write(new)
    text = read("crates.txt")
    with open("crates.txt", "w", encoding="utf-8") as f:
        f.write("\n".join(l if l.startswith("#") else re.sub(r"(?<![\w])csv(?![\w])", NEW, l) for l in text.split("\n")))
    subprocess.run(["git", "mv", "crates/" + OLD, "crates/" + NEW], check=True)
    with open("tools/spelled.tsv", "w", encoding="utf-8") as f:
        f.writelines(f"{n}\t{s}\n" for n, s in sorted(turned.items()))


if __name__ == "__main__":
    main()
