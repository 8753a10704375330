#!/bin/sh
# Runs each script of examples/ and compares what the program bench prints with the .expected file beside it; and two scripts made
# here, one of 32,768 bytes and one of a byte more.
set -u
cd "$(dirname "$0")/.." || exit 1

[ -x crates/bench/out/bench ] || { echo "examples: there is no crates/bench/out/bench"; exit 1; }
room=$(mktemp -d) || exit 1
trap 'rm -rf "$room"' EXIT

compare() { # NAME SCRIPT EXPECTED COMMAND..
    name=$1 script=$2 expected=$3
    shift 3
    "$@" <"$script" >"$room/printed" || { echo "examples: $name failed"; exit 1; }
    cmp -s "$expected" "$room/printed" || {
        echo "examples: $name prints otherwise:"
        diff "$expected" "$room/printed" | head -n 10
        exit 1
    }
    echo "examples: $name prints what it must"
}

for script in examples/*.script; do
    expected=${script%.script}.expected
    [ -f "$expected" ] || { echo "examples: there is no $expected"; exit 1; }
    compare "$script" "$script" "$expected" crates/bench/out/bench
done

# 32,768 bytes of empty lines are 32,768 lines; a byte more is a script that is not of the form.
head -c 32768 /dev/zero | tr '\0' '\n' >"$room/longest"
{ head -c 65536 /dev/zero | tr '\0' 'x' | sed 's/xx/14\n/g' | head -n 32768; echo "total 0 32768"; } >"$room/longest.expected"
compare "the longest script" "$room/longest" "$room/longest.expected" crates/bench/out/bench
{ cat "$room/longest"; echo; } >"$room/longer"
printf '14\ntotal 0 1\n' >"$room/longer.expected"
compare "a script of a byte more" "$room/longer" "$room/longer.expected" crates/bench/out/bench
