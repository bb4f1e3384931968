#!/usr/bin/env python3
"""Turns the names in backquotes on the pages to today's spelling: those of tools/spelled.tsv, those that port.py turned, and the crate csv.

usage: python3 tools/turn_pages.py     at the top of the repository, right after spell_names.py

docs/history and docs/requests stay as they were written.
"""

import glob
import re

WORD = re.compile(r"[^\s(){}.;,@\"«»\[\]\\|`:/]+")
# Names that are words of the library too, which port.py turned before spell_names.py read them.
TURNED = """
    _when_ _⊕_ _⊗_ aNumber alike-is allFrom at-each bitAt blockOf both-true by-call callAt counts-each eitherOf ended-is entryOf fieldAt fieldOf
    fieldsAt fieldsOf fit-of formOf half-of headOf inSet kept-new lineAt lineOf linesOf never-here no-lines noRow none-seen one-number open-none
    orElse orderAt partOf pointOf pointsOf post-in record-is rest-of rowLine rowLines rowOf sameList sharedAll startOf startsWith stateOf step-cut
    step-keeps sumAt sumOf takes-first valueAt whole-is withRow withSum answerOf linesFrom rowAt noBlock shapeOf markOf byKind
    rowIn listsOf nextOf allRows last-line
""".split()
# What a page says of names by their ends.
ENDS = {"..Tests": ".._tests", "..Refusal": ".._refusal", "..Checks": ".._checks", "..Table": ".._table"}


def snake(name):
    """As `rowOf` is `row_of`, `takes-first` is `takes_first` and `_when_` is `◌when◌`."""
    if name.startswith("_"):
        return name.replace("_", "◌")
    return re.sub(r"(?<=[a-z])([A-Z])", lambda m: "_" + m.group(1).lower(), name.replace("-", "_"))


def spelled():
    with open("tools/spelled.tsv", encoding="utf-8") as lines:
        names = dict(line.rstrip("\n").split("\t") for line in lines)
    return {**{name: snake(name) for name in TURNED}, **names}


def turned(page, names):
    def code(found):
        text = found.group(0)
        if text[1:-1] in ENDS:
            return f"`{ENDS[text[1:-1]]}`"
        text = re.sub(r"(?<![\w./])csv(?=::|/|`)|(?<=crates/)csv(?=[/`])", "csv_fields", text)
        return WORD.sub(lambda word: names.get(word.group(0), word.group(0)), text)

    # A piece of code can go over a line's end, but not over an empty line; blocks of code stay.
    return re.sub(r"(?m)^```[\s\S]*?^```|`[^`]+`", lambda found: found.group(0) if found.group(0).startswith("```") else code(found), page)


def main():
    names = spelled()
    for path in ["README.md", "CONTRIBUTING.md", "CHANGES.md", "rust/README.md", *sorted(glob.glob("docs/*.md"))]:
        with open(path, encoding="utf-8") as file:
            page = file.read()
        new = turned(page, names)
        if new != page:
            with open(path, "w", encoding="utf-8") as file:
                file.write(new)
            print(path)


if __name__ == "__main__":
    main()
