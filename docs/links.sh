#!/usr/bin/env bash
# Checks the links of README.md and docs/*.md: each leads to a file, and each name that a link's text has stands there. In
# docs/THEOREMS.md the clauses of a row must stand in its function's file too. Prints a line for each that doesn't.
set -u
cd "$(dirname "${BASH_SOURCE[0]}")/.." || exit 1
exec python3 - << 'PYTHON'
import pathlib
import re
import sys

LINK = re.compile(r"\[([^\]]*)\]\(([^)#:]+)\)")
NAME = re.compile(r"`([^`]+)`")


def missing(path, names):
    """The names that don't stand in a file as words; of `Type::call` the call is looked for."""
    text = path.read_text() + path.stem
    words = [name.split("::")[-1] for name in names if "/" not in name]
    return [word for word in words if not re.search(r"(?<!\w)" + re.escape(word) + r"(?!\w)", text)]


def faults(page):
    """What is wrong with the links of a page."""
    for number, line in enumerate(page.read_text().splitlines(), 1):
        for label, target in LINK.findall(line):
            path = page.parent / target
            names = NAME.findall(label)
            if page.name == "THEOREMS.md" and line.startswith("| ["):
                names += NAME.findall(line.split(" | ")[1])
            if not path.is_file():
                yield f"{page}:{number}: no file {target}"
            elif path.suffix in (".rt", ".antt"):
                yield from (f"{page}:{number}: no {name} in {target}" for name in missing(path, names))


found = [fault for page in [pathlib.Path("README.md"), *sorted(pathlib.Path("docs").glob("*.md"))] for fault in faults(page)]
print("\n".join(found), end="\n" if found else "")
sys.exit(bool(found))
PYTHON
