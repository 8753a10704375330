#!/bin/sh
# Every public function of every library has its lines in crates/unique: what tests/unique.py writes from the sources is there.
cd "$(dirname "$0")/.." || exit 1
exec python3 tests/unique.py
