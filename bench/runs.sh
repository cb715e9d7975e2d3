#!/usr/bin/env bash
# Builds the program of times of runs and runs it at three sizes for each predicate, so that growth shows: a loop that counts,
# naive reverse of lists of numbers, and calls whose answer is a term as deep as there are calls. What it prints is how many
# steps there were and how long they took.
set -eu
cd "$(dirname "$0")/../crates/plai_run_times"
rt run -- 10 > /dev/null
for size in 10000 50000 250000; do ./out/plai_run_times "$size" loop times; done
for size in 80 160 320; do ./out/plai_run_times "$size" reverse times; done
for size in 100 200 400; do ./out/plai_run_times "$size" deep times; done
