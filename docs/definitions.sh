#!/usr/bin/env bash
# Prints docs/DEFINITIONS.md from the headers of the pages themselves: `docs/definitions.sh > docs/DEFINITIONS.md` makes
# it anew. The crates stand in the order of crates.txt, each with the first sentence of its root file; a crate without
# pages is left out. A row is a page of specs/ and its header comment. A page is inner where no clause of a public
# function, trait or type reaches it, by the words that it imports.
set -u
cd "$(dirname "${BASH_SOURCE[0]}")/.." || exit 1
exec python3 - << 'PYTHON'
import pathlib
import re

IMPORT = re.compile(r"^\s*(?:pub |ghost )?use Rattle\.(\w+)\.specs\.([\w.]+?)\.\{([^}]*)\}", re.M)
FUNCTION = re.compile(r"^( *)(pub )?(?:ghost |plain |const )*fn (\w+)")
HEADER = re.compile(r"^(pub |)(trait|impl|struct|enum)\b(.*)$")


def crates():
    """The names of the crates, in order."""
    lines = pathlib.Path("crates.txt").read_text().splitlines()
    return [line.split(":")[0].split()[0] for line in lines if ":" in line and not line.startswith("#")]


def comment(path, mark):
    """The comment at the head of a file, as one paragraph."""
    words = []
    for line in path.read_text().splitlines():
        if not line.startswith(mark) or line.strip() == mark:
            break
        words.append(line[len(mark):].strip())
    return " ".join(words)


def root(crate):
    """The root file of a crate."""
    library = pathlib.Path("crates", crate, "src", "lib.rt")
    return library if library.exists() else library.with_name("main.rt")


def title(crate):
    """The first sentence of a crate's root file."""
    return re.split(r"(?<=[^A-Z\d])[.:] (?=[A-Z])|\.$", comment(root(crate), "//!"))[0]


def pages(crate):
    """The pages of a crate, by name."""
    found = sorted(pathlib.Path("crates", crate, "specs").glob("*.antt"))
    return [path for path in found if path.stem not in ("Lib", "formers")]


def imports(text):
    """What a file imports of pages: each word with its page."""
    for crate, page, words in IMPORT.findall(text):
        for word in words.split(","):
            yield word.split(" as ")[-1].strip(), (crate, page)


def has_word(text, word):
    """Whether a text has a word, which may be an operator with places."""
    parts = [re.escape(part) for part in word.split("◌") if part]
    return any(re.search(r"(?<![\w.])" + part + r"(?![\w])", text) for part in parts)


def public_text(crate):
    """The clauses of what a crate gives away: of its functions, traits and types."""
    head = root(crate).read_text()
    names = set(re.findall(r"\w+", " ".join(re.findall(r"pub use ([^;]*);", head))))
    names |= set(re.findall(r"^pub (?:fn|trait|struct|enum) (\w+)", head, re.M))
    for path in sorted(pathlib.Path("crates", crate, "src").glob("*.rt")):
        yield path.read_text(), "\n".join(clauses(path.read_text().splitlines(), names))


def clauses(lines, names):
    """The lines of a file that stand between the head and the body of a public function, or in a public type."""
    outer, inside, kind = False, False, ""
    for line in lines:
        header = HEADER.match(line)
        function = FUNCTION.match(line)
        if header:
            kind = header[2] if " for " not in header[3] else "trait"
            outer = bool(set(re.findall(r"\w+", header[3])) & names)
            inside = False
        if function:
            inside = function[3] in names if not function[1] else outer and (bool(function[2]) or kind == "trait")
        if inside or (outer and not function and kind in ("struct", "enum", "trait")) or re.match(r" *ghost ", line):
            if not line.startswith("ghost use") and not line.startswith("    ghost use"):
                yield line
        if line.strip() == "{" or (function and line.endswith("{")) or line.rstrip().endswith(";"):
            inside = False


def reached():
    """The pages that public clauses reach."""
    todo = []
    for crate in crates():
        for text, public in public_text(crate):
            todo += [page for word, page in imports(text) if has_word(public, word)]
    found = set()
    while todo:
        page = todo.pop()
        path = pathlib.Path("crates", page[0], "specs", page[1] + ".antt")
        if page not in found and path.exists():
            found.add(page)
            todo += [below for _, below in imports(path.read_text())]
    return found


def main():
    outer = reached()
    print("# Definitions")
    print()
    print("Every contract cites definitions that stand in `specs/` of some crate, one page for an idea. These are the pages,"
          " lowest crates first. Pages marked *inner* are cited by private functions only. `docs/definitions.sh` makes this"
          " page of their own headers; what is proved with them is in [THEOREMS.md](THEOREMS.md).")
    for crate in crates():
        if not pages(crate):
            continue
        print(f"\n## `{crate}`\n\n{title(crate)}.\n\n| Page | What it defines |\n|---|---|")
        for path in pages(crate):
            mark = "" if (crate, path.stem) in outer else "*inner:* "
            print(f"| [`{path.stem}`](../{path}) | {mark}{comment(path, '--').replace('|', chr(92) + '|')} |")


main()
PYTHON
