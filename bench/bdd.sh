#!/usr/bin/env bash
# Builds the program of times of decision diagrams and runs it at three sizes, so that growth shows: equivalences of a slot with
# thirty others, conjunctions of 50, 100 and 200 of them and their projections, wide diagrams of pairs of slots, and counts by a
# modulus, on which walks without a memory of what they have shown would not end.
set -eu
cd "$(dirname "$0")/../crates/plai_bdd_times"
rt run -- 50 > /dev/null
for size in 50 100 200; do
  echo "size $size"
  ./out/plai_bdd_times "$size" times
  echo
done
