#!/bin/sh
# The C library that ./library has written: the header against the functions; the hosts of examples/ and the programs of tests/library/, compiled with every
# warning an error, compared with the program bench on the examples and on random scripts, and with the stored policy files; random states.
# Where the compiler has them, the programs also run with its checks of addresses and of undefined behaviour.
# The archive is for x86-64: elsewhere the header alone is compared.
set -u
cd "$(dirname "$0")/.." || exit 1
room=$(mktemp -d) || exit 1
trap 'rm -rf "$room"' EXIT

fail() {
    echo "library: $*"
    exit 1
}

made=target/library
if [ "$(uname -m)" != x86_64 ]; then
    python3 tests/library/header.py || exit 1
    echo "library: PASSED OVER: the archive is for x86-64, and this processor is $(uname -m), so no host was built"
    exit 0
fi
[ -f $made/libmarruskil.a ] || fail "there is no $made/libmarruskil.a: ./library writes it"
cmp -s include/marruskil.h $made/marruskil.h || fail "$made/marruskil.h is not include/marruskil.h"
[ -x crates/bench/out/bench ] || fail "there is no crates/bench/out/bench"

# What the archive defines for others is what the header declares, and it needs nothing but what every C library has.
defined=$(nm -g --defined-only $made/libmarruskil.a | awk '$2 == "T" { print $3 }')
# shellcheck disable=SC2086
python3 tests/library/header.py $defined || exit 1
needed=$(nm -g --undefined-only $made/libmarruskil.a | awk '$1 == "U" { print $2 }' | grep -v -x -e memcpy -e memset -e memmove -e memcmp -e bcmp)
[ -z "$needed" ] || fail "the archive needs $needed"

# Builds $room/NAME.
build() { # NAME LANGUAGE SOURCE COMPILER..
    name=$1 language=$2 source=$3
    shift 3
    "$@" -Wall -Wextra -Werror -pedantic -I $made -o "$room/$name" -x "$language" "$source" -x none $made/libmarruskil.a || fail "$source does not compile ($*)"
}
checks='-g -fsanitize=address,undefined -fno-sanitize-recover=all'
echo 'int main(void) { return 0; }' >"$room/try.c"
# shellcheck disable=SC2086
if cc $checks -o "$room/try" "$room/try.c" 2>/dev/null && "$room/try" 2>/dev/null; then checked=yes
else checked=no; echo "library: PASSED OVER: the compiler has no checks of addresses and undefined behaviour"; fi
for source in examples/*.c tests/library/*.c; do
    program=$(basename "$source" .c)
    build "$program" c "$source" cc -O2 -std=c99
    build "$program.cpp" c++ "$source" c++ -std=c++11
    # shellcheck disable=SC2086
    [ $checked = no ] || build "$program.checked" c "$source" cc -O1 -std=c99 $checks
done
kinds="$room/host $room/script $room/script.cpp"
[ $checked = no ] || kinds="$kinds $room/script.checked"

# Compares what a command prints with a file.
prints() { # WHAT INPUT EXPECTED COMMAND..
    what=$1 input=$2 expected=$3
    shift 3
    "$@" <"$input" >"$room/printed" || fail "$1 failed on $what"
    cmp -s "$expected" "$room/printed" || {
        echo "library: $(basename "$1") prints otherwise on $what:"
        diff -a "$expected" "$room/printed" | head -n 10
        exit 1
    }
}

compare() { # WHAT SCRIPT
    crates/bench/out/bench <"$2" >"$room/expected" || fail "bench failed on $1"
    for kind in $kinds; do prints "$1" "$2" "$room/expected" "$kind"; done
    lines=$((lines + $(wc -l <"$room/expected") - 1))
}
lines=0
for script in examples/*.script; do
    compare "$script" "$script"
    cmp -s "${script%.script}.expected" "$room/expected" || fail "bench prints otherwise on $script"
done
echo "library: the hosts print what bench prints on the examples ($lines lines)"
lines=0
for seed in 1 2 3 4 5 6; do
    python3 tests/library/lines.py $seed >"$room/script.txt" || fail "no random script is made"
    compare "the random script $seed" "$room/script.txt"
done
[ "$lines" -ge 8000 ] || fail "the random scripts have $lines lines only"
echo "library: the hosts print what bench prints on random scripts ($lines lines)"

# A stack of 128 KB is enough.
(ulimit -S -s 128 && env -i "$room/script" <"$room/script.txt" >"$room/printed" && env -i "$room/random" 100 >/dev/null) || fail "a stack of 128 KB is not enough"
cmp -s "$room/expected" "$room/printed" || fail "with a stack of 128 KB something else is printed"

for program in release release.cpp; do prints "the afternoon" /dev/null examples/release.expected "$room/$program"; done
echo "library: the release stops when the role is taken away"

files=0
for file in tests/files/*.bin; do
    answer=${file%.bin}.answer
    cp "$answer" "$room/expected"
    [ "$(cat "$answer")" != 0 ] || cat "$file" >>"$room/expected"
    prints "$file" "$file" "$room/expected" "$room/file"
    files=$((files + 1))
done
[ "$files" -gt 0 ] || fail "there are no stored files"
echo "library: $files policy files are loaded and saved as they should"

"$room/random" >"$room/printed" || fail "random states"
echo "library: random states: $(cat "$room/printed")"
[ $checked = no ] || "$room/random.checked" 300 >/dev/null || fail "random states, with the compiler's checks"
