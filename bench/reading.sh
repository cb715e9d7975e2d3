#!/usr/bin/env bash
# Measures how fast plai reads and loads, and how much memory that takes: files of facts, of ordinary clauses, of strings, of lists
# nested to the limit, of round brackets, of operators, of facts of one predicate and of different ones, of entries, of checks,
# several files that import from one another, and 16 and 64 files of strings, each as long as a file may be. Each shape has two
# sizes, so that growth shows. Only the entries are analysed, and no clause belongs to them, so that reading and loading is nearly
# all the work. The words are shapes; where there are none it measures all. Prints milliseconds, bytes per second, and bytes of
# memory per byte of text.
set -eu
here=$(cd "$(dirname "$0")/.." && pwd)
plai=${PLAI:-$here/plai}
folder=$(mktemp -d)
trap 'rm -rf "$folder"' EXIT
[ $# -gt 0 ] || set -- facts clauses strings lists brackets operators predicate predicates entries checks imports files

python3 - "$folder" "$@" <<'PYTHON'
import os, sys

folder, wanted = sys.argv[1], sys.argv[2:]
head = ":- module(m, [])."

CLAUSES = [
    "app{}([], L, L).",
    "app{}([H|T], L, [H|R]) :- app{}(T, L, R).",
    "rev{}([H|T], R) :- rev{}(T, S), app{}(S, [H], R).",
    "part{}([X|Xs], P, [X|L], G) :- X =< P, part{}(Xs, P, L, G).",
    "sum{}([X|Xs], A, S) :- B is A + X, sum{}(Xs, B, S).",
]


def write(shape, size, files):
    if shape not in wanted:
        return
    os.makedirs(f"{folder}/{shape}/{size}")
    for name, lines in files.items():
        with open(f"{folder}/{shape}/{size}/{name}.pl", "w") as out:
            out.write("\n".join(lines) + "\n")


# files of a number of bytes
shapes = {
    "facts": lambda i: f"edge(node_{i:06d}, [a, B{i}|Rest], f(X, \"ab\", Rest), {i}).",
    "clauses": lambda i: CLAUSES[i % 5].replace("{}", str(i // 5)),
    "strings": lambda i: "s(\"" + "x" * 1900 + "\").",
    "lists": lambda i: "l(" + "[" * 1900 + "]" * 1900 + ").",
    "brackets": lambda i: "b(" + "(" * 100000 + "a" + ")" * 100000 + ").",
    "operators": lambda i: "o(X) :- " + ", ".join("p(X)" for _ in range(300)) + ".",
}
for shape, line in shapes.items():
    for size in (1_000_000, 4_000_000) if shape in wanted else ():
        lines, length, i = [head], 20, 0
        while True:
            item = line(i)
            if length + len(item) + 1 > size or i >= 65_000:
                break
            lines.append(item)
            length += len(item) + 1
            i += 1
        write(shape, size, {"a": lines})

# files of a number of items
for size in (16_000, 64_000):
    write("predicates", size, {"a": [head] + [f"p{i}(a)." for i in range(size)]})
    write("predicate", size, {"a": [head] + [f"p({i})." for i in range(size)]})
    write("entries", size, {"a": [head] + [f":- entry p(X) : ground(X)." for _ in range(size)]})
    write("checks", size, {"a": [head] + [f":- check success p(X) : ground(X) => int(X)." for _ in range(size)]})

# a file that imports all that 10 or 40 others export, 1,990 predicates each, with as many facts as fit
for count in (10, 40):
    files = {"a": [head] + [f":- use_module(x{i})." for i in range(count)] + [f"f{i}(a)." for i in range(1500 * count)]}
    for i in range(count):
        files[f"x{i:02d}"] = [f":- module(x{i}, [" + ",".join(f"q{i}_{k}/1" for k in range(1990)) + "])."]
    write("imports", count, files)

# files as long as one may be, with fewer items together than a program may have
fact = "s(" + ", ".join(["\"" + "x" * 1900 + "\""] * 3) + ")."
for count in (16, 64):
    write("files", count, {f"s{i:02d}": [f":- module(s{i}, [])."] + [fact] * (4_194_000 // (len(fact) + 1)) for i in range(count)})
PYTHON

for shape in "$@"; do
  for size in $(ls "$folder/$shape" | sort -n); do
    bytes=$(cat "$folder/$shape/$size"/*.pl | wc -c)
    read -r status ms peak <<< "$(python3 - "$plai" "$folder/$shape/$size"/*.pl <<'PYTHON'
import subprocess, sys, time

# the greatest size of the program's memory, read while it runs, since the one that the system counts has this script's in it
with subprocess.Popen(sys.argv[1:], stdin=subprocess.DEVNULL, stdout=subprocess.DEVNULL) as program:
    before, peak = time.monotonic(), 0
    while program.poll() is None:
        try:
            for line in open(f"/proc/{program.pid}/status"):
                if line.startswith("VmHWM"):
                    peak = int(line.split()[1]) * 1024
        except (FileNotFoundError, ProcessLookupError):
            pass
        time.sleep(0.001)
    print(program.returncode, round((time.monotonic() - before) * 1000), peak)
PYTHON
)"
    echo "$shape $size: $bytes bytes, status $status, $ms ms, $((bytes * 1000 / (ms + 1))) bytes per second, $((peak / bytes)) bytes of memory per byte"
  done
done
