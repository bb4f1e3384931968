#!/usr/bin/env python3
"""Prints what docs/DESIGN-PASS.md has of the public functions and the definitions that changed since a commit, old (-) and new (+):

    python3 tools/design_changes.py COMMIT

By /opt/rattle/port/contracts.py, over a checkout of the commit in a folder of its own. Private functions are left out."""
import json
import os
import re
import subprocess
import sys
import tempfile


def run(*command):
    return subprocess.run(command, capture_output=True, text=True, check=True).stdout


def clause(kind, pair):
    name, text = pair
    return f"{kind} {name + ' ' if name else ''}{{ {text} }}"


def public(name, text):
    """Whether a function stands in the text with `pub`."""
    return re.search(rf"\bpub (extern \"C\" )?fn {re.escape(name)}\b", text) is not None


with tempfile.TemporaryDirectory() as folder:
    old = os.path.join(folder, "old")
    run("git", "clone", "-q", ".", old)
    run("git", "-C", old, "checkout", "-q", sys.argv[1])
    listed = json.loads(run("python3", "/opt/rattle/port/contracts.py", old, ".", "--json"))

    def is_public(place):
        crate, path, *words = place.split()
        for root in (old, "."):
            name = os.path.join(root, "crates", crate, path)
            if os.path.exists(name) and public(words[-1], open(name).read()):
                return True
        return False

    print("```")
    signatures = {place: (a, b) for place, a, b in listed["signatures changed"]}
    contracts = {place: rest for place, *rest in listed["contracts changed"]}
    for place in sorted(set(signatures) | set(contracts)):
        if not is_public(place):
            continue
        print(place)
        if place in signatures:
            print(f"    - {signatures[place][0]}\n    + {signatures[place][1]}")
        if place in contracts:
            old_requires, old_ensures, new_requires, new_ensures = contracts[place]
            for kind, before, after in (("requires", old_requires, new_requires), ("ensures", old_ensures, new_ensures)):
                for pair in before:
                    if pair not in after:
                        print(f"    - {clause(kind, pair)}")
                for pair in after:
                    if pair not in before:
                        print(f"    + {clause(kind, pair)}")
    print("gone")
    for text in listed["functions not found again"]:
        place = text.split(" (")[0]
        if is_public(place):
            print(f"    - {place}")
    print("```\n\n```")
    for crate, name, before, after in listed["definitions"]["changed"]:
        print(f"{crate} {name}")
        for text in before:
            print(f"    - {text}")
        for text in after:
            print(f"    + {text}")
    print("gone")
    for crate, name in listed["definitions"]["gone"]:
        print(f"    - {crate} {name}")
    print("```")
