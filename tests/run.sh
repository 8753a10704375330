#!/bin/sh
# ./run --unproved prints what the proved program prints, and says on standard error that nothing is proved by it; its status is the program's.
set -u
cd "$(dirname "$0")/.." || exit 1
room=$(mktemp -d) || exit 1
trap 'rm -rf "$room"' EXIT

fail() {
    echo "run: $*"
    exit 1
}

./run --unproved bench <examples/paper.script >"$room/printed" 2>"$room/said" || fail "--unproved bench fails: $(cat "$room/said")"
cmp -s "$room/printed" examples/paper.expected || fail "--unproved bench prints otherwise"
grep -q 'nothing is proved' "$room/said" || fail "--unproved bench does not say that nothing is proved"
./run --unproved desk tests/files/example.bin "$room/saved" <crates/desk/stdin >"$room/printed" 2>"$room/said" || fail "--unproved desk fails: $(cat "$room/said")"
cmp -s "$room/printed" crates/desk/stdout || fail "--unproved desk prints otherwise"
./run desk "$room/saved" <examples/empty.script >"$room/printed" 2>"$room/said" || fail "what --unproved desk saved does not load: $(cat "$room/said")"
./run --unproved --to "$room/bench" bench <examples/paper.script >"$room/printed" 2>/dev/null || fail "--unproved --to fails"
{ [ -x "$room/bench" ] && [ ! -s "$room/printed" ]; } || fail "--unproved --to leaves no program, or runs it"
./run --unproved --to "$room/no/folder" bench 2>/dev/null && fail "--unproved --to a folder that is not there ends with 0"
./run 2>/dev/null && fail "./run with no program ends with 0"
./run --unproved bench <"$room" >"$room/printed" 2>/dev/null && fail "--unproved bench, a folder as input, ends with 0"
./run --unproved nobody 2>/dev/null && fail "./run with no such program ends with 0"
echo "run: --unproved prints what the proved programs print, and says that nothing is proved"
