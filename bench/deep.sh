#!/usr/bin/env bash
# Builds the program of deep terms and runs it on terms a million levels deep, under the stack that a program has, 8 megabytes:
# they are made by unification, copied, printed and let go of, and builtins are asked what they mean of them. Two shapes are
# nested by an argument that isn't the only one.
set -eu
cd "$(dirname "$0")/../crates/plai_deep_terms"
rt run > /dev/null
ulimit -s 8192
time ./out/plai_deep_terms 20
