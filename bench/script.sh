#!/usr/bin/env bash
# Measures edits of a script on programs of 100, 1,000 and 10,000 clauses, in two shapes: so many predicates of one clause each, and
# one predicate of so many facts. Their entry reaches one more predicate of one clause, and none of these. Each time is that of one of
# 200 edits: of a run with the edits less a run with none, the shortest of three.
#   refused   `all` of a clause for a predicate of its own and of an edit that is refused: reading and applying, no analysis
#   largest   the same with a clause for the largest predicate
#   accepted  a clause for a predicate that no entry reaches, a quiet edit: reading, applying, and a look at each row's clauses
#   changed   in turn a clause added to the largest predicate and its first one taken away, as `accepted`
# Prints how many times each grew from the line before of the same shape, where that was at least 1 us. PLAI names another program than ./plai.
set -eu
here=$(cd "$(dirname "$0")/.." && pwd)
plai=${PLAI:-$here/plai}
folder=$(mktemp -d)
trap 'rm -rf "$folder"' EXIT
edits=200

python3 - "$folder" "$edits" <<'PYTHON'
import sys

folder, edits = sys.argv[1], int(sys.argv[2])


def write(name, lines):
    with open(f"{folder}/{name}", "w") as out:
        out.write("\n".join([*lines, ""]))


HEAD = [":- module(m, []).", ":- entry start(X) : ground(X).", "start(X) :- X = a."]

for size in (100, 1000, 10000):
    write(f"predicates_{size}.pl", HEAD + [f"p{i}(X, f(X, Y)) :- p{(i + 1) % size}(Y, X), X = g(Y)." for i in range(size)])
    write(f"facts_{size}.pl", HEAD + [f"p0(k{i}, f({i}, Y), g(Y))." for i in range(size)])

REFUSED = "del(m, none/0, 1)"
for shape, largest, key in (("predicates", "p0(X, f(X, X))", "p0/2"), ("facts", "p0(k, X, X)", "p0/3")):
    write(f"{shape}.none", [])
    write(f"{shape}.refused", [f"all([add(m, own(f(X), X)), {REFUSED}])."] * edits)
    write(f"{shape}.largest", [f"all([add(m, {largest}), {REFUSED}])."] * edits)
    write(f"{shape}.accepted", ["add(m, own(f(X), X))."] * edits)
    write(f"{shape}.changed", [f"add(m, {largest}).", f"del(m, {key}, 1)."] * (edits // 2))
PYTHON

# Sets `best` to the shortest of three runs with the program and the script, in microseconds.
measure() {
  best=0
  local before status time
  for _ in 1 2 3; do
    status=0
    before=$(date +%s%N)
    timeout 300 "$plai" "$1" < "$2" > "$folder/out" || status=$?
    time=$((($(date +%s%N) - before) / 1000))
    [ "$status" -le 1 ] || { echo "status $status of ${2##*/} on ${1##*/}" >&2; exit 1; }
    if [ "$best" -eq 0 ] || [ "$time" -lt "$best" ]; then best=$time; fi
  done
}

"$plai" "$here/examples/app.pl" < /dev/null > "$folder/out"
for shape in predicates facts; do
  declare -A last=([refused]=0 [largest]=0 [accepted]=0 [changed]=0)
  for size in 100 1000 10000; do
    file=$folder/${shape}_$size.pl
    measure "$file" "$folder/$shape.none"
    none=$best
    line="$shape $size: loaded and analysed in $((none / 1000)).$((none / 100 % 10)) ms"
    for kind in refused largest accepted changed; do
      measure "$file" "$folder/$shape.$kind"
      each=$(((best - none) * 10 / edits))
      [ "$each" -gt 0 ] || each=1
      line="$line; $kind $((each / 10)).$((each % 10)) us"
      [ "${last[$kind]}" -lt 10 ] || line="$line, $((each / last[$kind])).$((each * 10 / last[$kind] % 10)) times"
      last[$kind]=$each
    done
    echo "$line"
  done
done
