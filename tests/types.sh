#!/bin/sh
# "A session number given where a role belongs must be caught when the program is built": tests/types.py tries such slips in every public function.
cd "$(dirname "$0")/.." || exit 1
exec python3 tests/types.py
