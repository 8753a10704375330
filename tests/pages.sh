#!/bin/sh
# What the pages for people say is what the sources say and what the program prints: docs/COMMANDS.md, docs/ANSWERS.md, docs/STORY.md, the
# first script of README.md, and the texts beside examples/ (tests/pages.py says what is compared).
set -u
cd "$(dirname "$0")/.." || exit 1

if [ -x crates/bench/out/bench ]; then
    python3 tests/pages.py crates/bench/out/bench
else
    echo "pages: there is no crates/bench/out/bench, so the second program answers"
    room=$(mktemp -d) || exit 1
    trap 'rm -rf "$room"' EXIT
    rustc -O --edition 2021 -o "$room/second" second/src/main.rs || exit 1
    python3 tests/pages.py "$room/second" script
fi
