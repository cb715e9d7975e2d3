#!/usr/bin/env python3
"""Shows that the program ends in a defined way whatever bytes it is given: each text of examples/, and each that is named as
a word, is cut at each of its bytes, and each of its bytes is replaced by each of twenty hostile ones. A text that ends in
.edits or is called stdin is a script over the other files of its folder, any other a file beside them.

Each run must end by itself with the status 0 and whole blocks, 1 and whole blocks of which one is refused or stopped, or 3 and
one line. Prints how many runs each text took, how many had each status, and each run that ended otherwise; such a run is a
fault, and the script's status is 1 then. PLAI names another program than ./plai. It takes some minutes.
"""
import collections
import pathlib
import sys
import tempfile

from running import TOP, fault, run

HOSTILE = bytes([0, 9, 10, 13, 27, 127, 128, 195, 255]) + b"'\"`\\%(]{|.0"
BESIDE = {"sort.pl": ["lists.pl"], "lists.pl": ["sort.pl"], "sort.edits": ["sort.pl", "lists.pl"]}


def is_script(path):
    return path.suffix == ".edits" or path.name == "stdin"


def files_beside(path):
    """The files that a text is read with: those of examples/ as they belong together, of other folders all."""
    if path.parent == TOP / "examples":
        return [path.parent / name for name in BESIDE.get(path.name, [])]
    return sorted(it for it in path.parent.glob("*.pl") if it != path)


def changed(text):
    """The text cut at each byte, and with each byte replaced."""
    for at in range(len(text)):
        yield f"cut at {at}", text[:at]
        for byte in HOSTILE:
            yield f"byte {byte} at {at}", text[:at] + bytes([byte]) + text[at + 1 :]


def attempt(path, text, folder):
    """A run in which the text stands in the place of the path's."""
    beside = [str(it) for it in files_beside(path)]
    if is_script(path):
        return run(["--", *beside], text)
    own = folder / path.name
    own.write_bytes(text)
    return run(["--", str(own), *beside])


def attack(path, folder):
    """The faults of a text's changes."""
    statuses, found = collections.Counter(), []
    for change, text in changed(path.read_bytes()):
        ended = attempt(path, text, folder)
        statuses[ended.status] += 1
        why = fault(ended)
        if why:
            found.append(f"{path}: {change}: {why}")
    said = ", ".join(f"{count} of status {status}" for status, count in sorted(statuses.items()))
    print(f"{path.name}: {sum(statuses.values())} runs: {said}", *found, sep="\n", flush=True)
    return len(found)


def main():
    examples = sorted([*(TOP / "examples").glob("*.pl"), *(TOP / "examples").glob("*.edits")])
    paths = [pathlib.Path(word).resolve() for word in sys.argv[1:]] or examples
    with tempfile.TemporaryDirectory() as folder:
        faults = sum(attack(path, pathlib.Path(folder)) for path in paths)
    print(f"{faults} faults")
    return int(faults > 0)


if __name__ == "__main__":
    sys.exit(main())
