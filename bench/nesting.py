#!/usr/bin/env python3
"""Shows what the limits of sizes and depths cost, and that each is met where it is said to be: terms of 2,000 levels and one
more, of functors, lists, operators; round brackets, which add no level; files of 4,194,304 bytes that are one token, one term,
one comment or many; scripts of 16,777,216 bytes; 64 files; and one byte, one file or one level more than each limit.

Each shape that has several sizes shows how time and memory grow. The words choose shapes by the beginnings of their names;
without words it tries all. Prints for each run its bytes, status, seconds of the processor and megabytes, and how these grew
beside the bytes; a run that doesn't end as it must is a fault, and the script's status is 1 then. No run gets more than 6,000
megabytes. A run whose memory is less than some 20 megabytes is shown with those of this script. PLAI names another program than ./plai.
"""
import itertools
import pathlib
import sys
import tempfile
import typing

from running import measured

FILE, SCRIPT, HEAD = 4_194_304, 16_777_216, b":- module(m, []).\n"


class Shape(typing.NamedTuple):
    """A text of some size, and how its run ends: the status, and how the last line but `end` begins."""

    name: str
    text: typing.Callable[[int], typing.Iterable[bytes]]
    sizes: list
    status: int
    line: bytes
    is_script: bool = False
    files: int = 1


def padded(size, head, start, each, end):
    """A text of so many bytes that begins and ends so; between stands what is repeated, cut off, and layout where it must be."""
    room = size - len(head) - len(start) - len(end)
    count, rest = divmod(room, len(each))
    yield head + b" " * rest + start
    yield from itertools.repeat(each * 4096, count // 4096)
    yield each * (count % 4096) + end


def in_file(start, each, end):
    return lambda size: padded(size, HEAD, start, each, end)


def in_script(start, each, end):
    return lambda size: padded(size, b"", start, each, end)


def nested(start, opened, inner, closed, end=b"."):
    """A term of the module behind its head, nested so often."""
    return lambda levels: [HEAD, start, opened * levels, inner, closed * levels, end]


def deep(name, start, opened, inner, closed, most):
    """The deepest term that is read, and one level more."""
    text = nested(start, opened, inner, closed)
    return [
        Shape(name, text, [most], 0, b"edit 0"),
        Shape(f"{name}, one more", text, [most + 1], 1 + 2, b"refused"),
    ]


DEPTHS = [
    *deep("functors", b"", b"f(", b"a", b")", 1999),
    *deep("lists in lists", b"", b"[", b"", b"]", 2000),
    *deep("a list of items", b"[a", b",a", b"]", b"", 1998),
    *deep("prefix operators", b"", b"\\ ", b"a", b"", 1999),
    *deep("infix operators to the left", b"a", b"+a", b"", b"", 1999),
    *deep("infix operators to the right", b"a", b"^a", b"", b"", 1999),
    Shape("round brackets", nested(b"p(", b"(", b"a", b")", b")."), [25_000, 100_000, 2_000_000], 0, b"edit 0"),
    Shape("round brackets that stay open", nested(b"p(", b"(", b"a", b"", b"."), [100_000, 4_000_000], 3, b"refused"),
    Shape("lists that stay open", nested(b"p(", b"[", b"a", b"", b"."), [100_000, 4_000_000], 3, b"refused"),
    Shape("functors that stay open", nested(b"p(", b"f(", b"a", b"", b"."), [100_000, 2_000_000], 3, b"refused"),
    Shape("functors far too deep", nested(b"p(", b"f(", b"a", b")", b")."), [100_000, 1_000_000], 3, b"refused"),
    Shape("prefix operators far too deep", nested(b"p(", b"- ", b"a", b"", b")."), [100_000, 2_000_000], 3, b"refused"),
]

SIZES = [FILE // 16, FILE // 4, FILE]
FILES = [
    Shape("one name", in_file(b"", b"a", b"."), SIZES, 0, b"edit 0"),
    Shape("one quoted name", in_file(b"'", b"\\n", b"'."), SIZES, 0, b"edit 0"),
    Shape("one name of symbols", in_file(b"", b"+", b"(a)."), SIZES, 0, b"edit 0"),
    Shape("one variable", in_file(b"p(", b"X", b")."), SIZES, 0, b"edit 0"),
    Shape("one number", in_file(b"p(", b"9", b")."), SIZES, 3, b"refused"),
    Shape("one number of zeros", in_file(b"p(", b"0", b")."), SIZES, 0, b"edit 0"),
    Shape("one string", in_file(b'p("', b"x", b'").'), SIZES, 3, b"refused"),
    Shape("an open quote", in_file(b"p('", b"x", b""), SIZES, 3, b"refused"),
    Shape("one wide term", in_file(b"p(f(a", b",a", b"))."), SIZES, 3, b"refused"),
    Shape("one list", in_file(b"p([a", b",a", b"])."), SIZES, 3, b"refused"),
    Shape("one body", in_file(b"p :- a", b",a", b"."), SIZES, 3, b"refused"),
    Shape("operators to the left", in_file(b"p(a", b"+a", b")."), SIZES, 3, b"refused"),
    Shape("operators to the right", in_file(b"p(a", b"^a", b")."), SIZES, 3, b"refused"),
    Shape("many variables", in_file(b"p([_", b",_", b"])."), SIZES, 3, b"refused"),
    Shape("one comment of a line", in_file(b"%", b"x", b"\n"), SIZES, 0, b"edit 0"),
    Shape("one comment", in_file(b"/*", b"*", b"*/"), SIZES, 0, b"edit 0"),
    Shape("an open comment", in_file(b"/*", b"*", b""), SIZES, 3, b"refused"),
    Shape("many comments", in_file(b"", b"/**/", b""), SIZES, 0, b"edit 0"),
    Shape("layout", in_file(b"", b"\n", b""), SIZES, 0, b"edit 0"),
    Shape("many full stops", in_file(b"", b" .", b""), SIZES, 3, b"refused"),
    Shape("one byte more in a file", in_file(b"", b"\n", b""), [FILE + 1], 4, b""),
]

LENGTHS = [SCRIPT // 16, SCRIPT // 4, SCRIPT]
SCRIPTS = [
    Shape("a script of layout", in_script(b"", b"\n", b""), LENGTHS, 0, b"edit 0", True),
    Shape("a script of one comment", in_script(b"/*", b"*", b"*/"), LENGTHS, 0, b"edit 0", True),
    Shape("a script of one name", in_script(b"", b"a", b"."), LENGTHS, 1, b"refused bad_edit", True),
    Shape("a script of an open quote", in_script(b"'", b"a", b""), LENGTHS, 3, b"refused", True),
    Shape("a script of one list", in_script(b"[a", b",a", b"]."), LENGTHS, 1, b"refused too_deep", True),
    Shape("a script of one edit", in_script(b"add(m,p(f(a", b",a", b")))."), LENGTHS, 1, b"refused term_arity", True),
    Shape("a script of small terms", in_script(b"", b"a.\n", b""), [SCRIPT // 64, SCRIPT // 16], 1, b"refused bad_edit", True),
    Shape("one byte more in a script", in_script(b"", b"\n", b""), [SCRIPT + 1], 4, b"", True),
]

COUNTS = [
    Shape("whole files of one comment", in_file(b"/*", b"*", b"*/"), [FILE], 0, b"edit 0", files=count) for count in (4, 16, 64)
]
MORE = [
    Shape("whole files of names", in_file(b"", b"a", b"."), [FILE], 0, b"edit 0", files=64),
    Shape("one file more", in_file(b"", b"\n", b""), [100], 4, b"", files=65),
]


def write(path, pieces):
    with open(path, "wb") as out:
        for piece in pieces:
            out.write(piece)
    return path.stat().st_size


def attempt(shape, size, folder):
    """How the run of a shape of this size ended, its bytes, and whether it ended as it must."""
    names = [folder / f"{number}.pl" for number in range(shape.files)]
    script, output, empty = folder / "script", folder / "output", [HEAD]
    write(script, shape.text(size) if shape.is_script else [])
    for number, name in enumerate(names):
        head = [b":- module(m%d, []).\n" % number]
        write(name, empty if shape.is_script else text_of(shape, size, head) if number else shape.text(size))
    bytes_given = sum(it.stat().st_size for it in [*names, script])
    ran = measured(["--", *map(str, names)], script, output)
    with open(output, "rb") as out:
        out.seek(max(0, output.stat().st_size - 200))
        lines = [line for line in out.read().split(b"\n") if line not in (b"", b"end")]
    last = lines[-1] if lines else b""
    return ran, bytes_given, ran.status == shape.status and last.startswith(shape.line), last


def text_of(shape, size, head):
    """The text with another module's head of another length, and so much less of layout or what is repeated."""
    yield from head
    skipped = len(HEAD)
    for piece in shape.text(size - len(head[0]) + len(HEAD)):
        yield piece[skipped:]
        skipped = 0


def show(shape, size, before, folder):
    """Tries a size and prints its line; gives what the next is compared with, and whether it was a fault."""
    ran, given, is_right, last = attempt(shape, size, folder)
    growth = ""
    if before:
        past, less = before
        growth = f"; {given / less:.1f} times the bytes, {ran.seconds / max(past.seconds, 0.001):.1f} the time, {ran.megabytes / past.megabytes:.1f} the memory"
    wrong = "" if is_right else f"; a FAULT: {last[:60]!r}"
    print(f"{shape.name}: {given} bytes, status {ran.status}, {ran.seconds:.2f} s, {ran.megabytes} MB{growth}{wrong}", flush=True)
    return (ran, given), not is_right


def main():
    shapes = [it for it in [*DEPTHS, *FILES, *SCRIPTS, *COUNTS, *MORE] if it.name.startswith(tuple(sys.argv[1:] or [""]))]
    faults = 0
    with tempfile.TemporaryDirectory() as folder:
        for shape in shapes:
            before = None
            for size in shape.sizes:
                before, is_fault = show(shape, size, before, pathlib.Path(folder))
                faults += is_fault
    print(f"{faults} faults")
    return int(faults > 0)


if __name__ == "__main__":
    sys.exit(main())
