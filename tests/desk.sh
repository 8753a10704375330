#!/usr/bin/env bash
# The desk: a policy saved, loaded again and gone on with is the same as one script; a file that does not load is answered alone; what cannot be read,
# printed or saved is said, and what stood under the name is then as it was; and a desk that is killed at any moment leaves the old file or the new one,
# whole.
set -u
CDPATH='' cd -- "$(dirname -- "$0")/.." || exit 1
room=$(mktemp -d) || exit 1
trap 'rm -rf "$room"' EXIT

fail() {
    echo "desk: $*"
    exit 1
}

for program in bench desk reload; do
    [ -x "crates/$program/out/$program" ] || fail "there is no crates/$program/out/$program"
done
desk() { crates/desk/out/desk "$@"; }

# ---- a script in two parts, with the policy saved between them, is the script in one

for script in examples/story.script examples/tour.script; do
    lines=$(wc -l <"$script")
    crates/bench/out/bench <"$script" | head -n "$lines" >"$room/whole" || fail "bench fails on $script"
    # (printed to a file: a pipe that is closed after the answers would end the desk at its total, before it saves)
    desk - "$room/end" <"$script" >"$room/printed" 2>&1 || fail "from no policy the desk fails on $script"
    head -n "$lines" "$room/printed" | cmp -s - "$room/whole" || fail "from no policy the desk prints otherwise than the bench: $script"
    for at in 1 7 12 $((lines / 2)) $((lines - 1)); do
        head -n "$at" "$script" | desk '' "$room/half" >"$room/printed" 2>"$room/said" || fail "the first $at lines of $script fail"
        head -n "$at" "$room/printed" >"$room/joined"
        tail -n "+$((at + 1))" "$script" | desk "$room/half" "$room/new" >"$room/printed" 2>>"$room/said" || fail "the lines after $at of $script fail"
        head -n "$((lines - at))" "$room/printed" >>"$room/joined"
        cmp -s "$room/joined" "$room/whole" || fail "$script cut after line $at is answered otherwise"
        cmp -s "$room/new" "$room/end" || fail "$script cut after line $at is saved otherwise"
        [ ! -s "$room/said" ] || fail "$script cut after line $at: $(cat "$room/said")"
    done
    { echo 0; cat "$room/end"; } | cmp -s - <(crates/reload/out/reload <"$room/end") || fail "what was saved does not load as itself: $script"
done
echo "desk: two scripts cut at five places each: answered and saved as in one piece"

# ---- a file that does not load

answers=
for file in tests/files/*.bin; do
    answer=$(cat "${file%.bin}.answer")
    echo old >"$room/kept"
    desk "$file" "$room/kept" <examples/paper.script >"$room/printed" 2>"$room/said"
    if [ "$answer" = 0 ]; then
        [ ! -s "$room/said" ] || fail "$file loads, and the desk says $(cat "$room/said")"
        continue
    fi
    [ "$(cat "$room/printed")" = "$answer" ] || fail "$file: the desk prints $(head -n 1 "$room/printed") and not $answer alone"
    [ -s "$room/said" ] || fail "$file does not load, and nothing is said"
    [ "$(cat "$room/kept")" = old ] || fail "$file does not load, and something is saved"
    case " $answers " in *" $answer "*) ;; *) answers="$answers $answer" ;; esac
done
for answer in 14 6 7 9 10 11; do
    case " $answers " in *" $answer "*) ;; *) fail "no stored file is answered $answer" ;; esac
done
echo "desk: files that do not load print their number alone:$answers"

# ---- what cannot be read, printed or saved

# FAILS WHAT: something was said, nothing was saved, and no file was left beside.
fails() {
    [ -s "$room/said" ] || fail "$1: nothing is said on standard error"
    [ "$(cat "$room/kept")" = old ] || fail "$1: what stood there is changed"
    [ -z "$(find "$room" -name '*.part-*')" ] || fail "$1: a file is left beside"
    echo "desk: $1: $(head -n 1 "$room/said" | sed "s,$room,FOLDER,")"
}
run() { "$@" <examples/paper.script >"$room/printed" 2>"$room/said"; }

run desk "$room/none" "$room/kept"
fails "a policy file that is not there"
run desk "$room" "$room/kept"
fails "a folder as the policy file"
desk - "$room/kept" <"$room" >"$room/printed" 2>"$room/said"
fails "a script that cannot be read"
desk - "$room/kept" <examples/paper.script >/dev/full 2>"$room/said"
fails "a full output"
desk - "$room/kept" <examples/paper.script >&- 2>"$room/said"
fails "a closed output"
run desk - "$room/none/new"
fails "a folder that is not there"
run desk - /proc/new
fails "a folder that takes no file"
run desk - "$room/$(printf '%0300d' 0)"
fails "a name that is too long"
run desk - "$room/$(printf '%05000d' 0)"
fails "a name that is longer than any path"
grep -q "the name to save under: File name too long" "$room/said" || fail "a name that is longer than any path: something else is said"
run desk "$room/$(printf '%05000d' 0)" "$room/kept"
fails "a policy file's name that is longer than any path"
run desk "$room/$(printf 'a\377')" "$room/kept"
fails "a policy file's name that is no text"
run desk - "$room/$(printf 'a\377')"
fails "a name that is no text"
grep -q "the name to save under: it is no text" "$room/said" || fail "a name that is no text: something else is said"
run desk - "$room/kept" more
fails "three arguments"
mkdir "$room/folder"
run desk - "$room/folder"
fails "a folder under the name"
run desk
fails "no argument"
(trap '' XFSZ && ulimit -f 0 && desk - "$room/kept" <examples/paper.script 2>&1 >/dev/null) | cat >"$room/said"
fails "a limit on the size of a file"
# A full disk, where a small one can be had.
if mkdir "$room/disk" && mount -t tmpfs -o size=16k,mode=777 none "$room/disk" 2>/dev/null; then
    echo old >"$room/disk/kept"
    head -c 65536 /dev/zero >"$room/disk/filler" 2>/dev/null
    run desk tests/files/full.bin "$room/disk/kept"
    same=$(cat "$room/disk/kept") left=$(find "$room/disk" -name '*.part-*')
    umount "$room/disk"
    [ "$same" = old ] && [ -z "$left" ] && [ -s "$room/said" ] || fail "a full disk: what stood there is changed, or a file is left, or nothing is said"
    fails "a full disk"
else
    echo "desk: a full disk is not tried: no small one can be had here"
fi
./run desk "$room/none" <examples/paper.script >/dev/null 2>&1 && fail "./run desk, a file that is not there, ends with 0"
./run desk - "$room/none/new" <examples/paper.script >/dev/null 2>&1 && fail "./run desk, a folder that is not there, ends with 0"
./run desk tests/files/circle.bin <examples/paper.script >/dev/null 2>&1 && fail "./run desk, a file that does not load, ends with 0"
./run desk - /dev/null <examples/paper.script >/dev/null 2>&1 && fail "./run desk saves as /dev/null"
[ -c /dev/null ] || fail "./run desk took the place of /dev/null"
./run desk - "$room/new" <examples/paper.script >/dev/null 2>"$room/said" || fail "./run desk fails: $(cat "$room/said")"

# A small stack, with the largest policy.
(ulimit -S -s 256 && desk tests/files/full.bin "$room/new" </dev/null) >/dev/null 2>"$room/said" && cmp -s "$room/new" tests/files/full.bin || fail "a stack of 256 KB is too small"
(ulimit -S -s 256 && desk - "$room/new" <examples/tour.script) 2>"$room/said" | cmp -s - examples/tour.expected || fail "a stack of 256 KB is too small for examples/tour.script"

# ---- killed at any moment

# The old file is small and the new one large, so that a torn file would be neither.
desk - "$room/old" </dev/null >/dev/null || fail "cannot save an empty policy"
cp tests/files/full.bin "$room/full"
mkdir "$room/at"
cp "$room/old" "$room/at/policy"
old=0 new=0 moments=0 length=1000000
for _ in 1 2 3 4 5; do
    begun=$(date +%s%N)
    desk "$room/full" "$room/at/policy" </dev/null >/dev/null || fail "cannot save the full policy"
    took=$((($(date +%s%N) - begun) / 1000))
    [ "$took" -ge "$length" ] || length=$took
done
cmp -s "$room/full" "$room/at/policy" || fail "the full policy is saved otherwise"
# A pipe that nobody writes to: to wait for it starts no program.
mkfifo "$room/never" && exec 9<>"$room/never" || fail "cannot make a pipe"
for k in $(seq 0 239); do
    cp "$room/old" "$room/at/policy"
    delay=$((length * k / 200))
    crates/desk/out/desk "$room/full" "$room/at/policy" </dev/null >/dev/null 2>&1 &
    pid=$!
    [ "$delay" -eq 0 ] || read -r -t "$(printf "%d.%06d" $((delay / 1000000)) $((delay % 1000000)))" -u 9
    kill -KILL "$pid" 2>/dev/null
    wait "$pid" 2>/dev/null
    moments=$((moments + 1))
    if cmp -s "$room/at/policy" "$room/old"; then old=$((old + 1))
    elif cmp -s "$room/at/policy" "$room/full"; then new=$((new + 1))
    else fail "killed after $delay microseconds, a torn file is left"; fi
done
left=$(find "$room/at" -name 'policy.part-*' | wc -l)
[ "$(find "$room/at" -type f | wc -l)" -eq $((left + 1)) ] || fail "another file is left than policy.part-.."
[ "$old" -gt 0 ] && [ "$new" -gt 0 ] || fail "of $moments moments none was before the new name was given, or none after it"
# Where the system calls can be traced, killed at each of them in turn.
if command -v strace >/dev/null && strace -qq -o "$room/calls" crates/desk/out/desk "$room/full" "$room/at/policy" </dev/null >/dev/null 2>&1; then
    calls=0
    while read -r call when; do
        cp "$room/old" "$room/at/policy"
        { strace -qq -o /dev/null -e "inject=$call:signal=KILL:when=$when" crates/desk/out/desk "$room/full" "$room/at/policy" </dev/null >/dev/null 2>&1; } 2>/dev/null
        cmp -s "$room/at/policy" "$room/old" || cmp -s "$room/at/policy" "$room/full" || fail "killed at its $call number $when, a torn file is left"
        calls=$((calls + 1))
    done < <(sed -n 's/^\([a-z0-9_]*\)(.*/\1/p' "$room/calls" | grep -v -e '^exit' -e '^execve' | awk '{ print $1, ++seen[$1] }')
    echo "desk: killed at each of $calls system calls: the old file or the new one, whole"
fi

echo "desk: killed at $moments moments: $old times the old file, $new times the new one, whole; $left times a file policy.part-.. was left beside"
