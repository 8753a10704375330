#!/bin/sh
# Compares the proved programs bench and reload with the second program, on random scripts and policy files:
#     tests/compare.sh [OPTIONS]        by default --seed 1 --scripts 20 --files 800
# First builds the second program and runs its own tests. Fails at any difference, and if an answer that the paper lists never
# came up. The long comparison: tests/compare.sh --seed 1 --lines 200000 --files 5000
set -u
cd "$(dirname "$0")/.." || exit 1

mkdir -p target || exit 1
if [ ! -x target/second ] || [ -n "$(find second/src -newer target/second)" ]; then
    rustc -O --edition 2021 -D warnings -o target/second second/src/main.rs || exit 1
fi
target/second selftest || exit 1

for program in bench reload; do
    [ -x crates/$program/out/$program ] || { echo "compare: there is no crates/$program/out/$program"; exit 1; }
done
[ $# -gt 0 ] || set -- --seed 1 --scripts 20 --files 800
exec target/second compare "$@" --bench crates/bench/out/bench --reload crates/reload/out/reload
