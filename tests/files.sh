#!/bin/sh
# Loads each stored policy file by the program `reload` and compares the answer and, after a 0, the bytes that it saves again.
set -u
cd -- "$(dirname -- "$0")/.." || exit 1
reload=crates/reload/out/reload
[ -x "$reload" ] || { echo "files: there is no $reload"; exit 1; }
out=$(mktemp) && want=$(mktemp) || exit 1
trap 'rm -f "$out" "$want"' EXIT
for answer in tests/files/*.answer; do
    [ -f "${answer%.answer}.bin" ] || { echo "files: there is no file for $answer"; exit 1; }
done
n=0
for file in tests/files/*.bin; do
    answer=${file%.bin}.answer
    [ -s "$answer" ] || { echo "files: there is no answer for $file"; exit 1; }
    cp "$answer" "$want" || exit 1
    [ "$(cat "$answer")" != 0 ] || cat "$file" >>"$want"
    $reload <"$file" >"$out" || { echo "files: reload failed on $file"; exit 1; }
    cmp -s "$out" "$want" || { echo "files: $file: the answer is $(head -n 1 "$out") and not $(cat "$answer"), or the bytes differ"; exit 1; }
    n=$((n + 1))
done
[ "$n" -gt 0 ] || { echo "files: there are no stored files"; exit 1; }
echo "files: $n files answered as they should"
