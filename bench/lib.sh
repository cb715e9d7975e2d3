# For scripts that measure analyses, which source it: `plai` is the program, which PLAI may name, else ./plai; `folder` is one for
# files, removed at the end; `measure` runs the program once and prints a line. Python finds modules.py there.
set -eu
here=$(cd "$(dirname "${BASH_SOURCE[0]}")/.." && pwd)
plai=${PLAI:-$here/plai}
folder=$(mktemp -d)
trap 'rm -rf "$folder"' EXIT
export PYTHONPATH=$here/bench PYTHONDONTWRITEBYTECODE=1

# The time of the line before of the same shape, in units of 10 microseconds, or 0.
last=0

# measure LABEL FILE WORD..: the status, the rows, the bytes printed and the time of the analysis of the file under these words, and
# how many times the time grew from the line before, where `last` was not put to 0 in between.
measure() {
  local label=$1 file=$2 before time rows growth= status=0
  shift 2
  before=$(date +%s%N)
  timeout 300 "$plai" "$@" "$file" < /dev/null > "$folder/out" || status=$?
  time=$((($(date +%s%N) - before) / 10000))
  rows=$(grep -c '^row ' "$folder/out" || true)
  [ "$last" -eq 0 ] || growth=", $((time / last)).$((time * 10 / last % 10)) times"
  echo "$label: status $status, $rows rows, $(stat -c %s "$folder/out") bytes, $((time / 100)).$((time / 10 % 10)) ms$growth"
  last=$time
}

# The program is built before, and in memory.
"$plai" "$here/examples/app.pl" < /dev/null > "$folder/out"
