#!/usr/bin/env bash
# Runs plai on each example and compares what it prints and its status with what stands here and beside the example. The
# gate does the same with the copies in crates/plai_examples/data, which are compared here with these. It fails too where
# docs/DEFINITIONS.md is not what docs/definitions.sh makes, or a link of the documents leads nowhere.
set -u
cd "$(dirname "${BASH_SOURCE[0]}")" || exit 1
failed=0

# what is printed, the status, the script, and the words
check() {
  local table=$1 wanted=$2 script=$3 status
  shift 3
  ../plai "$@" < "$script" | cmp -s - "$table"
  status=("${PIPESTATUS[@]}")
  if [ "${status[0]}" -ne "$wanted" ]; then
    echo "status ${status[0]}, not $wanted: $table"
    failed=1
  elif [ "${status[1]}" -ne 0 ]; then
    echo "differs: $table"
    failed=1
  else
    echo "ok $table"
  fi
}

check app.table 0 /dev/null app.pl
check deriv.table 0 /dev/null deriv.pl
check fact.table 0 /dev/null fact.pl
check len.table 0 /dev/null len.pl
check never.table 0 /dev/null never.pl
check sort.table 0 /dev/null sort.pl lists.pl
check rows.table 1 /dev/null --rows 2 sort.pl lists.pl
check findall.table 3 /dev/null findall.pl
check edits.table 1 sort.edits sort.pl lists.pl
check made.table 0 /dev/null --make 50

for file in *.pl *.table *.edits; do
  if ! cmp -s "$file" "../crates/plai_examples/data/$file"; then
    echo "another copy: $file"
    failed=1
  fi
done
if ! ../docs/definitions.sh | cmp -s - ../docs/DEFINITIONS.md; then
  echo "docs/DEFINITIONS.md has drifted: make it anew with docs/definitions.sh > docs/DEFINITIONS.md"
  failed=1
fi
../docs/links.sh || failed=1
exit $failed
