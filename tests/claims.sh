#!/usr/bin/env bash
# The claims that docs/PROMISES.md names are the lines of the record Claims in crates/claims/specs/Claims.antt, and the other way round. That each of
# these lines is proved is the prover's: crates/claims does not check otherwise.
set -euo pipefail
CDPATH='' cd -- "$(dirname -- "${BASH_SOURCE[0]}")/.."

# the lines of the record, and the last column of the page's tables that have a claim
stated=$(sed -n '/^pub record Claims /,$p' crates/claims/specs/Claims.antt | sed -n 's/^  pub \([a-z0-9_]*\) : .*/\1/p' | sort -u)
named=$(awk -F'|' '
    /^\|/ && $(NF - 1) ~ /^ *claim *$/ { claims = 1; next }
    !/^\|/ { claims = 0 }
    claims { print $(NF - 1) }' docs/PROMISES.md | grep -o '`[^`]*`' | tr -d '`' | sort -u)
[ -n "$stated" ] && [ -n "$named" ]
failed=0
while read -r claim; do
    [ -z "$claim" ] || { echo "claims: docs/PROMISES.md names $claim, and crates/claims does not state it"; failed=1; }
done < <(comm -13 <(echo "$stated") <(echo "$named"))
while read -r claim; do
    [ -z "$claim" ] || { echo "claims: crates/claims states $claim, and docs/PROMISES.md does not name it"; failed=1; }
done < <(comm -23 <(echo "$stated") <(echo "$named"))
[ "$failed" -eq 0 ]
echo "claims: $(echo "$stated" | wc -l) claims, each stated and named"
