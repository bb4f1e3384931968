#!/usr/bin/env python3
"""Writes today's names of goals, loops and steps into the proofs of functions that go through `Tie`.

usage: python3 tools/turn_goals.py NAME..     at the top of the repository, once for each crate, after port.py and spell_names.py

    tie.Need-loop-preserved, tie.invariant-loop, c.before.before.if1.true  ->  tie.Need-loop-i-preserved, tie.invariant-loop-i, c.if-n-gt3.true

The names are those that `rt check --generated DIR --old-names` lists of the crate, whose sources have to compile and whose libraries have to stand.
"""

import glob
import json
import os
import re
import shutil
import subprocess
import sys
import tempfile

LANDED = "ea444d54722b6359d5dafcf6bb51c29979c030d7"
W = r"[^\s(){};,@\"«»\[\]\\.]+"
NEED = re.compile(r"(?<=tie\.)Need-(" + W + ")")


def landed(path):
    old = path.replace("crates/csv_fields/", "crates/csv/").replace("+read_behind_read_fields", "+read-behind-read-fields")
    for p in (old, path):
        r = subprocess.run(["git", "show", f"{LANDED}:{p}"], capture_output=True, text=True)
        if r.returncode == 0:
            return r.stdout
    return None


def names(crate):
    out = tempfile.mkdtemp()
    shutil.rmtree(out)
    said = subprocess.run(["rt", "check", "--generated", out, "--old-names"], cwd=f"crates/{crate}", capture_output=True, text=True)
    try:
        with open(os.path.join(out, "names.json"), encoding="utf-8") as f:
            return json.load(f)
    except OSError:
        print(said.stdout[-2000:], said.stderr[-2000:])
        raise SystemExit(f"{crate}: no names")


def plain(name):
    return re.sub(r"[-_]", "", name)


def news(path, text, of):
    """`c.write.new.1.1.0` is `c.write.new.out`: what a `&mut` argument holds after a call goes by its name."""
    callee = {pair[1]: whom for _, _, pair, whom, *_ in of["places"] if whom}
    parts = re.split(r"(?m)(?=^\S)", text)
    for i, part in enumerate(parts):
        bound = dict(re.findall(r"\blet (" + W + r") = c\.(" + W + r") in", part))

        def named(m):
            step = bound.get(m.group(1), m.group(1))
            params = of["params"].get(callee.get(step, ""))
            k = m.group(3).count("1")
            if not params or k >= len(params):
                print(f"{path}: {m.group(0)} of {step} {callee.get(step)} {params}")
                return m.group(0)
            return f"{m.group(1)}.{m.group(2)}.{params[k]}"

        parts[i] = re.sub(r"(" + W + r")\.(new|auto)((?:\.1)*)\.0(?![\w])", named, part)
    return "".join(parts)


def turn(path, of, whole=True):
    with open(path, encoding="utf-8") as f:
        text = f.read()
    begin = text
    if not whole:
        text = news(path, text, of)
        if text != begin:
            with open(path, "w", encoding="utf-8") as f:
                f.write(text)
        return text != begin
    old = landed(path)
    needs = {}
    for was, now in of["needs"]:
        needs.setdefault(plain(was), now)
    was = re.findall(r"tie\.Need-(" + W + ")", old or "")
    here = NEED.findall(text)
    by_place = iter(was) if len(was) == len(here) else None
    if by_place is None and here:
        print(f"{path}: {len(here)} goals named, {len(was)} before")

    now_all = {n for _, n in of["needs"]}

    def need(m):
        x = next(by_place) if by_place else m.group(1)
        now = needs.get(plain(x)) or needs.get(plain(m.group(1)))
        if now:
            return "Need-" + now
        if m.group(1) not in now_all:
            print(f"{path}: no goal for {x}; there are {of['needs']} settled {of['settled']}")
        return m.group(0)

    text = NEED.sub(need, text)
    for (loop, now), *_ in of["loops"]:
        for kind in ("invariant", "decreases"):
            text = re.sub(rf"(?<![\w-]){kind}-{re.escape(loop)}(?![\w-])", f"{kind}-{now}", text)
    steps = {}
    for _, _, pair, *_ in of["places"]:
        if pair[0]:
            steps.setdefault(plain(pair[0]), []).append(pair[1])

    def path_of(m):
        head, hops, step = m.group(1), m.group(2), m.group(3)
        # A step that had the name of a lemma was respelled with it.
        now = sorted(set(steps.get(plain(step)) or steps.get(plain(re.sub(r"_(lem|of|is)$", "", step)), [])))
        if len(now) == 1:
            return f"{head}.{now[0]}"
        if len(now) > 1:
            print(f"{path}: {m.group(0)} is one of {now}")
        if step in ("args", "requires", "ranges") and hops:
            return f"{head}.{step}"
        return m.group(0)

    text = re.sub(r"(?<![\w.])([cw])((?:\.before)*)\.(" + W + ")", lambda m: m.group(0) if m.group(3) == "before" else path_of(m), text)
    text = news(path, text, of)
    if text != begin:
        with open(path, "w", encoding="utf-8") as f:
            f.write(text)
        return True
    return False


def main():
    whole = sys.argv[1] != "--news"
    for crate in sys.argv[1 if whole else 2 :]:
        count = 0
        for module, of in names(crate).items():
            if ".Lts" not in module or not isinstance(of, dict):
                continue
            at = module.split(".", 1)[1].rsplit(".Lts", 1)[0].replace(".", "/")
            path = f"crates/{crate}/proofs/{at}/Proof.antt"
            if os.path.exists(path):
                count += turn(path, of, whole)
        print(f"{crate}: {count} files")


if __name__ == "__main__":
    main()
