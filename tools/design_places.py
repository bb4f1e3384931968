#!/usr/bin/env python3
"""Counts the places of docs/DESIGN-PASS.md in the sources of a commit, or of the tree as it stands:

    python3 tools/design_places.py [COMMIT] [--list N]

A line a point; with --list N the places of point N. Crates that only state and prove have no code and count as nothing."""
import collections
import re
import subprocess
import sys

args = [a for a in sys.argv[1:] if not a.startswith("--") and not a.isdigit()]
commit = args[0] if args else None
listed = int(sys.argv[sys.argv.index("--list") + 1]) if "--list" in sys.argv else None


def run(*command):
    return subprocess.run(command, capture_output=True, text=True, check=True).stdout


def files():
    names = run("git", "ls-tree", "-r", "--name-only", commit) if commit else run("git", "ls-files")
    return names.split("\n")


def read(name):
    return run("git", "show", f"{commit}:{name}") if commit else open(name).read()


NAMES = files()
SOURCES = {n: read(n) for n in NAMES if re.fullmatch(r"crates/\w+/src/[\w/]+\.rt", n)}
places = collections.defaultdict(list)


def lines(number, pattern, unless=None):
    for name, text in SOURCES.items():
        for at, line in enumerate(text.split("\n"), 1):
            if re.search(pattern, line) and not (unless and re.search(unless, line)):
                places[number].append(f"{name}:{at}: {line.strip()}")


# 1: a refusal, a mark or a kind as a number; a flag beside a value; enums of the shape of Option.
lines(1, r"^(pub |    pub )?(extern \"C\" )?fn .*-> u8$|^\) -> u8$", r"no_mangle")
lines(1, r"\b(refusal|mark|need|kind|one|two|three): u8\b")
lines(1, r"^    (pub )?(agree|whole|failed|ended|rising|out|begun|unread|unwritten|taken): bool,")
for name, text in SOURCES.items():
    for enum in re.finditer(r"enum (\w+)[^{]*\{((?:[^{}]|\{[^{}]*\})*)\n\}", text):
        variants = re.findall(r"^    (\w+)( \{|\()?", enum.group(2), re.M)
        if len(variants) == 2 and sorted(bool(payload) for _, payload in variants) == [False, True]:
            places[1].append(f"{name}: enum {enum.group(1)}")

# 2: functions of a crate whose bodies are alike but for numbers, types, constants and names of functions.
FUNCTION = re.compile(r"^( *)(?:pub )?(?:extern \"C\" )?fn (\w+)(.*?)\n\1\{\n(.*?)\n\1\}$", re.M | re.S)
alike = collections.defaultdict(list)
for name, text in SOURCES.items():
    for function in FUNCTION.finditer(text):
        body = re.sub(r"//.*", "", function.group(4))
        body = re.sub(r"\b[A-Z][A-Z_0-9]+\b|\b\d\w*\b|\bu\d+\b|\busize\b|b'.{1,2}'", "#", body)
        body = re.sub(r"(\w+::)+\w+|\b\w+(?=\()", "f", body)
        body = re.sub(r"\s+", " ", body)
        if len(body) > 40:
            alike[body].append(f"{name}: {function.group(2)}")
for group in alike.values():
    if len(group) > 1:
        places[2].append(" = ".join(group))

# 3: loops that count an index.
lines(3, r"^ *for \w+ in [^{]*\.\.")
lines(3, r"^ *(while |(let \w+ = )?loop \{)")

# 4: a copy, a conversion or a comparison written as a function or a loop.
for name, text in SOURCES.items():
    for function in FUNCTION.finditer(text):
        body = function.group(4).strip()
        if re.fullmatch(r"\w+ as \w+", body) or re.fullmatch(r"if (\w+) < (\w+) \{ \2 \} else \{ \1 \}", body):
            places[4].append(f"{name}: {function.group(2)}")
        if re.search(r"for (\w+) in 0\.\.(\w+)\.len\(\) \{\s*\w+\[\1\] = (\2\[\1\]|0);\s*\}", body):
            places[4].append(f"{name}: {function.group(2)}")
lines(4, r"^impl .*\b(PartialEq|Eq|Ord|Clone|From|TryFrom|Display)\b.* for")

# 5: four or more parameters in a row that three functions or more have; facts in the `requires` of three functions or more of a crate.
groups = collections.defaultdict(set)
facts = collections.defaultdict(set)
for name, text in SOURCES.items():
    crate = name.split("/")[1]
    for function in FUNCTION.finditer(text):
        head = function.group(3)
        parameters = re.findall(r"(\w+): [^,()]+", head.split("->")[0].split("requires")[0])
        for k in range(len(parameters) - 3):
            groups[crate, tuple(parameters[k : k + 4])].add(function.group(2))
        clause = re.search(r"requires \{(.*?)\}\n", head, re.S)
        for fact in re.split(r" × ", re.sub(r"\s+", " ", clause.group(1))) if clause else []:
            facts[crate, fact.strip()].add(function.group(2))
for (crate, group), functions in groups.items():
    if len(functions) > 2:
        places[5].append(f"{crate}: {', '.join(group)}: {len(functions)} functions")
for (crate, fact), functions in facts.items():
    if len(functions) > 2:
        places[5].append(f"{crate}: {fact}: {len(functions)} functions")

# 6: an array or a list with its length or its place beside it.
lines(6, r"^    (pub )?(count|products|len|at|end): usize,")

# 7: a match on a letter or a kind that chooses a step.
lines(7, r"^ *match (letter|kind|form|order\.letter)\b")

# 8: proof files of functions.
for name in NAMES:
    if re.fullmatch(r"crates/\w+/proofs/(\w+/)+(Proof|Answers|Invariants)\.antt", name):
        places[8].append(name)

for number in range(1, 9):
    print(f"{number}: {len(places[number])}")
    if number == listed:
        print("\n".join("  " + place for place in places[number]))
