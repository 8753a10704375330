#!/bin/sh
# A program that cannot read all of its input answers nothing, and one that cannot write all of its output says so: each says it on standard error, and
# ./run ends with another status than 0. An input that comes in parts is read whole. A stack of 256 KB is enough for every program.
set -u
cd "$(dirname "$0")/.." || exit 1
room=$(mktemp -d) || exit 1
trap 'rm -rf "$room"' EXIT

fail() {
    echo "failing-io: $*"
    exit 1
}

for program in bench reload speed; do
    [ -x "crates/$program/out/$program" ] || fail "there is no crates/$program/out/$program"
done

# SAYS WHAT: the program said something on standard error, and nothing but that.
says() {
    [ -s "$room/said" ] || fail "$1: nothing is said on standard error"
    [ ! -s "$room/printed" ] || fail "$1: something is printed"
    echo "failing-io: $1: $(cat "$room/said")"
}

for program in bench reload speed; do
    case $program in
    bench) input=examples/paper.script ;;
    reload) input=tests/files/example.bin ;;
    speed) input=crates/speed/stdin ;;
    esac

    crates/$program/out/$program <"$room" >"$room/printed" 2>"$room/said"
    says "$program, a directory as input"
    crates/$program/out/$program <&- >"$room/printed" 2>"$room/said"
    says "$program, a closed input"
    : >"$room/printed"
    crates/$program/out/$program <"$input" >/dev/full 2>"$room/said"
    says "$program, a full output"
    crates/$program/out/$program <"$input" >&- 2>"$room/said"
    says "$program, a closed output"
    crates/$program/out/$program <"$input" >"$room/printed" 2>"$room/said" || fail "$program fails on $input"
    [ ! -s "$room/said" ] || fail "$program says something where nothing failed: $(cat "$room/said")"

    ./run $program <"$room" >/dev/null 2>&1 && fail "./run $program, a directory as input, ends with 0"
    ./run $program <"$input" >/dev/full 2>/dev/null && fail "./run $program, a full output, ends with 0"
    ./run $program <"$input" >&- 2>/dev/null && fail "./run $program, a closed output, ends with 0"
    ./run $program <"$input" >"$room/run" 2>/dev/null || fail "./run $program fails on $input"
    cmp -s "$room/run" "$room/printed" || fail "./run $program prints something else than $program"
    echo "failing-io: ./run $program ends with another status than 0 where it fails"
done

# An input that comes in parts.
{
    head -c 50 examples/tour.script
    sleep 0.2
    tail -c +51 examples/tour.script
} | crates/bench/out/bench >"$room/printed" || fail "bench fails on an input that comes in parts"
cmp -s examples/tour.expected "$room/printed" || fail "bench does not read an input that comes in parts"

# A small stack: every example, every stored policy file, and the measuring program on its own input.
stack() { # WHAT INPUT EXPECTED PROGRAM..
    what=$1 input=$2 expected=$3
    shift 3
    # shellcheck disable=SC3045
    (ulimit -S -s 256 && exec "$@" <"$input") >"$room/printed" 2>"$room/said" || fail "$what: fails with a stack of 256 KB"
    cmp -s "$expected" "$room/printed" || fail "$what: prints otherwise with a stack of 256 KB"
}
for script in examples/*.script; do
    stack "bench on $script" "$script" "${script%.script}.expected" crates/bench/out/bench
done
for file in tests/files/*.bin; do
    crates/reload/out/reload <"$file" >"$room/expected" || fail "reload fails on $file"
    stack "reload on $file" "$file" "$room/expected" crates/reload/out/reload
done
stack "speed" crates/speed/stdin crates/speed/stdout crates/speed/out/speed
echo "failing-io: a stack of 256 KB is enough"
