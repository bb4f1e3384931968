#!/usr/bin/env python3
"""Brings the must-fail edits of the landed text over to today's spelling: the same edits, each under its name.

usage: python3 tools/turn_edits.py WORK [EDIT..]    at the top of the repository; WORK is a folder for copies of the landed text

The edits are put into copies of the landed text, as many at once as touch no neighbouring lines, and the copies go through port.py and
tools/spell_names.py, as the repository did. Where a copy then differs from the repository's own turned text, an edit stood: the lines that differ
become its `old:` and `new:`, if the repository today still has those lines. What an edit needs from the library goes into the import that
stands there. The edits of tools/edits_by_hand.txt are left as they are. Printed: the edits that it could not bring over.
"""

import collections
import difflib
import json
import os
import re
import subprocess
import sys

WORK = sys.argv[1] if len(sys.argv) > 1 else ""
with open("docs/PORT.md", encoding="utf-8") as it:
    LANDED, TURNED = [it.readline().strip() for _ in range(2)]
TOKEN = re.compile(r"[^\s(){}.;,@\"«»\[\]\\|`]+")
BY_HAND = "tools/edits_by_hand.txt"


def git(*words, where="."):
    r = subprocess.run(["git", *words], cwd=where, capture_output=True)
    return r.stdout.decode() if r.returncode == 0 else None


def read(path):
    if not os.path.exists(path):
        return None
    with open(path, encoding="utf-8") as f:
        return f.read()


def write(path, text):
    with open(path, "w", encoding="utf-8") as f:
        f.write(text)


def parse(text):
    """The pairs of an edit: file, old, new."""
    file, old, pairs = None, None, []
    for line in text.split("\n"):
        if line.startswith("file: "):
            file = line[6:].strip()
        elif line.startswith("old: "):
            old = line[5:]
        elif line.startswith("new:"):
            pairs.append((file, old, line[5:]))
    return pairs


def today(path):
    return path.replace("crates/csv/", "crates/csv_fields/")


def batches():
    """The edits of the landed text, in batches: within one, no two touch lines beside one another."""
    names = [n for n in git("ls-tree", "-r", "--name-only", LANDED, "crates").split("\n") if n.endswith(".edit")]
    texts, edits, taken, out = {}, {}, [], []
    for name in sorted(names):
        edits[name] = git("show", f"{LANDED}:{name}")
        spots, here = set(), {}
        for file, old, new in parse(edits[name]):
            path = "/".join(name.split("/")[:2]) + "/" + file
            if path not in texts:
                texts[path] = git("show", f"{LANDED}:{path}")
            text = here.get(path, texts[path])
            assert text.count(old) == 1, (name, old)
            spots.add((path, text[: text.index(old)].count("\n")))
            here[path] = text.replace(old, new)
        wide = {(p, k + d) for p, k in spots for d in (-1, 0, 1)}
        b = next((b for b, s in enumerate(taken) if not wide & s), len(taken))
        if b == len(taken):
            taken.append(set())
            out.append([])
        taken[b] |= spots
        out[b].append(name)
    return out, edits


def make(b, names, edits):
    """The copy of a batch, turned; and where each pair stood."""
    root = os.path.join(os.path.abspath(WORK), f"b{b}")
    if os.path.exists(root + ".done"):
        return root, json.loads(read(root + ".json"))
    subprocess.run(["git", "clone", "-q", ".", root], check=True)
    git("checkout", "-q", "-b", "turn", LANDED, where=root)
    spots = []
    for name in names:
        for j, (file, old, new) in enumerate(parse(edits[name])):
            path = "/".join(name.split("/")[:2]) + "/" + file
            text = read(os.path.join(root, path))
            assert text.count(old) == 1, (name, old)
            spots.append((name, j, path, text[: text.index(old)].count("\n")))
            write(os.path.join(root, path), text.replace(old, new))
    write(root + ".json", json.dumps(spots))
    commit = ["-c", "user.name=turn", "-c", "user.email=turn@here", "commit", "-qm", "turn"]
    git("add", "-A", where=root)
    git(*commit, where=root)
    port = f"import sys; sys.dont_write_bytecode = True; sys.path.insert(0, '/opt/rattle/port'); import port; port.SAID = {root + '.said'!r}; sys.exit(port.turn({root!r}))"
    subprocess.run([sys.executable, "-c", port], cwd=root, check=True)
    spell(root)
    return root, spots


def spell(root):
    commit = ["-c", "user.name=turn", "-c", "user.email=turn@here", "commit", "-qm", "turn"]
    git("add", "-A", where=root)
    git(*commit, where=root)
    os.makedirs(os.path.join(root, "tools"), exist_ok=True)
    write(root + ".spell.py", git("show", TURNED + ":tools/spell_names.py"))
    subprocess.run([sys.executable, root + ".spell.py"], cwd=root, check=True, stdout=subprocess.DEVNULL)
    write(root + ".done", "")


def squash(line):
    """A line without what the turn changed in it: dashes, blanks and brackets."""
    return re.sub(r"[^0-9a-zA-Zα-ωΑ-Ω∷≡≢≤<×→+*=|&!']", "", line).replace("rowAt", "rowat").lower()


def line_map(a, b):
    """For each line of a, its line in b."""
    out = {}
    sa, sb = [squash(x) for x in a], [squash(x) for x in b]
    for tag, i1, i2, j1, j2 in difflib.SequenceMatcher(None, sa, sb, autojunk=False).get_opcodes():
        if tag == "equal":
            for k in range(i2 - i1):
                out[i1 + k] = j1 + k
        else:
            free = list(range(j1, j2))
            for i in range(i1, i2):
                best = max(free, key=lambda j: difflib.SequenceMatcher(None, sa[i], sb[j]).ratio(), default=None)
                if best is not None and difflib.SequenceMatcher(None, sa[i], sb[best]).ratio() > 0.5:
                    out[i] = best
                    free = [j for j in free if j > best]
                else:
                    out[i] = j1
    return out


def imports(lines):
    """Words in scope by imports: word -> its line."""
    out, k = {}, 0
    while k < len(lines):
        m = re.match(r"^\s*(?:pub )?(?:ghost )?use\s+\S*\{", lines[k])
        if m:
            whole, k2 = lines[k], k
            while "}" not in whole:
                k2 += 1
                whole += " " + lines[k2].strip()
            for w in whole[whole.index("{") + 1 : whole.rindex("}")].split(","):
                out[w.strip().split(" as ")[-1]] = whole
            k = k2
        k += 1
    return out


def is_use(line):
    return re.match(r"^\s*(?:pub )?(?:ghost )?use\s", line) is not None


def fragment(text, old, new, line, piece):
    """A piece of the line old, of whole words, that stands once in text, and its turned form: about what the piece of the landed line was."""
    p = len(os.path.commonprefix([old, new]))
    s = len(os.path.commonprefix([old[p:][::-1], new[p:][::-1]]))
    ends = [i for i in range(1, len(old)) if (old[i] == " ") != (old[i - 1] == " ")]
    start = line.index(piece) if piece in line else 0
    before = len(squash(line[:start]))
    behind = len(squash(line[start + len(piece) :])) if piece in line else 0
    if piece.startswith(" ") or not line[:start].strip():
        before = -1
    los = [0] + [i for i in ends if old[i] != " " and i <= p]
    his = [len(old)] + [i for i in ends if old[i - 1] != " " and i >= len(old) - s]
    lo = 0 if before < 0 else min(los, key=lambda i: (abs(len(squash(old[:i])) - before), -i))
    hi = min(his, key=lambda i: (abs(len(squash(old[i:])) - behind), -i))
    if lo == 0 and before >= 0 and len(old) > len(old.lstrip()):
        lo = len(old) - len(old.lstrip())
    while text.count(old[lo:hi]) != 1:
        if lo == 0 and hi == len(old):
            return None
        if hi < len(old):
            hi = min((i for i in his if i > hi), default=len(old))
        else:
            lo = max((i for i in los if i < lo), default=0)
    return old[lo:hi], new[lo : len(new) - (len(old) - hi)]


def joined(lines):
    """Lines of code as one."""
    text = lines[0].rstrip() + "".join(" " + l.strip() for l in lines[1:] if l.strip())
    return re.sub(r",(?= \})", "", re.sub(r",? \)", ")", re.sub(r"\( ", "(", text))) if len(lines) > 1 else text


def squeezed(path, text):
    """Code without what the layout adds; other files stay."""
    return re.sub(r",([)}\]])", r"\1", re.sub(r"\s+", "", text)) if path.endswith(".rt") else text


def balance(text):
    return tuple(text.count(a) - text.count(b) for a, b in ("()", "{}", "[]"))


def main():
    want = sys.argv[2:]
    hand = set((read(BY_HAND) or "").split())
    groups, edits = batches()
    left = collections.defaultdict(list)
    made = {}
    for b, names in enumerate(groups):
        root, spots = make(b, names, edits)
        by_file = collections.defaultdict(list)
        for name, j, path, k in spots:
            by_file[path].append((k, name, j))
        for path, stand in by_file.items():
            there = today(path)
            landed = git("show", f"{LANDED}:{path}").split("\n")
            turned = git("show", f"{TURNED}:{there}")
            other = read(os.path.join(root, there))
            now = read(there)
            if now is None:
                for _, name, _ in stand:
                    left[name].append(f"{there} is gone")
                continue
            a, c = turned.split("\n"), other.split("\n")
            at = line_map(landed, a)
            stand = sorted(stand)
            hunks = [(i1, i2, j1, j2) for tag, i1, i2, j1, j2 in difflib.SequenceMatcher(None, a, c, autojunk=False).get_opcodes() if tag != "equal"]
            mine = collections.defaultdict(list)
            for i1, i2, j1, j2 in hunks:
                lines = a[i1:i2] + c[j1:j2]
                if lines and all(is_use(l) or not l.strip() or l.strip() in ("};",) for l in lines):
                    continue
                near = min(stand, key=lambda s: min(abs(at[s[0]] - i) for i in range(i1, max(i2, i1 + 1))))
                mine[near[1:]].append((i1, i2, j1, j2))
            for k, name, j in stand:
                file, old, new = parse(edits[name])[j]
                got = mine.get((name, j))
                if not got and (is_use(landed[k]) or landed[k].startswith("--") and is_use(new)):
                    continue
                if not got and any(i1 <= at[k] < i2 or i1 <= at[k] + 1 < i2 for m, hs in mine.items() if m[0] == name for i1, i2, _, _ in hs):
                    continue
                if not got:
                    left[name].append(f"pair {j} left no trace: {new.strip()[:60]}")
                    continue
                for i1, i2, j1, j2 in got:
                    if i1 == i2 and there.endswith(".rt"):
                        # Lines that are only put in go to the line where the edit stood.
                        if at[k] < i1:
                            i1, j1 = i1 - 1, j1 - 1
                        else:
                            i2, j2 = i2 + 1, j2 + 1
                    made.setdefault(name, []).append((j, file, there, a[i1:i2], c[j1:j2], (at[k] - i1, landed[k], old)))
            had, has, today_has = imports(a), imports(c), imports(now.split("\n"))
            for name in {n for _, n, _ in stand}:
                words = set()
                for _, _, p, _, c_lines, _ in made.get(name, []):
                    if p == there:
                        words |= {w for l in c_lines if not is_use(l) for w in re.findall(r"[^\s(){}.;,@\"«»\[\]\\`]+", l)}
                need = []
                given = imports([l for _, _, p, _, c_lines, _ in made.get(name, []) if p == there for l in c_lines if is_use(l)])
                for w, line in has.items():
                    if w in given:
                        continue
                    op = re.fullmatch(r"◌(.+)◌", w)
                    if w not in today_has and (w in words or op and op.group(1) in words):
                        need.append((w, line))
                if need:
                    swaps = {c[j1]: a[i1] for i1, i2, j1, j2 in hunks if i2 - i1 == j2 - j1 == 1 and is_use(a[i1]) and is_use(c[j1])}
                    made.setdefault(name, []).append((-1, path[len("/".join(path.split("/")[:2])) + 1 :], there, need, [], swaps))
    done = kept = 0
    for name in sorted(edits):
        base = "/".join(today(name).split("/")[:2])
        if today(name) in hand or (want and os.path.basename(name) not in want and os.path.basename(name)[:-5] not in want):
            continue
        stood = git("show", f"{TURNED}:{today(name)}")
        comment = stood.split("\n")[0]
        if left.get(name):
            continue
        pairs, here, aim = [], {}, {}
        order = [file for file, _, _ in parse(edits[name])]
        for j, file, path, a, c, whole in made.get(name, []):
            text = aim.setdefault(path, read(path))
            if j != -1 and text.count("\n".join([""] + a + [""])) == 1:
                aim[path] = text.replace("\n".join([""] + a + [""]), "\n".join([""] + c + [""]))
            else:
                aim = None
                break
        same = {}
        for file, o, n in parse(stood):
            path = base + "/" + file
            text = same.setdefault(path, read(path))
            same[path] = text.replace(o, n) if text is not None and text.count(o) == 1 else ""
        if aim and {p: squeezed(p, t) for p, t in same.items()} == {p: squeezed(p, t) for p, t in aim.items()}:
            write(today(name), stood)
            kept += 1
            continue
        for j, file, path, a, c, whole in sorted(made.get(name, []), key=lambda m: (order.index(m[1]), m[0])):
            text = here.setdefault(path, read(path))
            if j == -1:
                for w, line in a:
                    from_ = re.search(r"use\s+([^\s{]+)\{", line).group(1)
                    m = [l for l in text.split("\n") if is_use(l) and f"use {from_}{{" in l and l.rstrip().endswith(("}", "};"))]
                    if m:
                        o, n = m[0], m[0].replace("{", "{" + w + ", ", 1)
                        line_before = next((p for p in pairs if p[0] == file and p[2] == o), None)
                        here[path] = text = text.replace(o, n)
                        if line_before:
                            line_before[2] = n
                        else:
                            pairs.append([file, o, n])
                    elif line in whole and whole[line] in text.split("\n"):
                        pairs.append([file, whole[line], line])
                        here[path] = text = text.replace(whole[line], line)
                    else:
                        left[name].append(f"no line to import {w} from {from_}")
                continue
            if len(a) != len(c):
                if path.endswith(".rt") and len(a) >= 1 and len(c) >= 1 and not any("//" in l for l in c[:-1]):
                    if len(a) == 1:
                        c = [joined(c)]
                    else:
                        left[name].append(f"{len(a)} lines become {len(c)}: {a[0].strip()[:50]}")
                        continue
                else:
                    left[name].append(f"{len(a)} lines become {len(c)}: {(a or c)[0].strip()[:50]}")
                    continue
            for i, (o, n) in enumerate(zip(a, c)):
                if o == n:
                    continue
                if o not in text.split("\n"):
                    left[name].append(f"{path} has no more: {o.strip()[:80]}")
                    continue
                f = fragment(text, o, n, *(whole[1:] if i == whole[0] else (o, o)))
                stands = parse(stood)[j]
                if text.count(stands[1]) == 1 and o.replace(stands[1], stands[2]) == n:
                    f = stands[1:]
                if f is None:
                    left[name].append(f"{path} has it twice: {o.strip()[:80]}")
                    continue
                pairs.append([file, *f])
                here[path] = text = text.replace(f[0], f[1])
        if not pairs and not left.get(name):
            left[name].append("nothing differs")
        if left.get(name):
            continue
        if {p: t for p, t in same.items() if t != read(p)} == {p: t for p, t in here.items() if t != read(p)}:
            write(today(name), stood)
            kept += 1
            continue
        out, last = [comment], None
        for file, o, n in pairs:
            if file != last:
                out.append("file: " + file)
                last = file
            out += ["old: " + o, "new: " + n]
        write(today(name), "\n".join(out) + "\n")
        done += 1
    print(done, "brought over,", kept, "as they stood,", len(hand), "by hand,", sum(today(n) not in hand for n in left), "left")
    for name in sorted(left):
        if today(name) not in hand:
            print("left:", name, "|", " | ".join(left[name]))


if __name__ == "__main__":
    main()
