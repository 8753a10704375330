#!/usr/bin/env bash
# Every file and every name that docs/PROMISES.md, docs/HOW-TO-READ.md and docs/LAYOUT.md cite is there.
set -euo pipefail
CDPATH='' cd -- "$(dirname -- "${BASH_SOURCE[0]}")/.."

words=$(mktemp)
trap 'rm -f "$words"' EXIT
# Every word of the sources, once: a lemma's name may have dashes in it.
{
    cat crates/*/src/*.rt crates/*/specs/*.antt crates/*/specs/*/*.antt crates/*/proofs/*.antt | tr -c "A-Za-z0-9_'-" '\n'
    ls crates
} | sort -u >"$words"

# Every line of every record in specs/, after the record's name.
lines=$(mktemp)
trap 'rm -f "$words" "$lines"' EXIT
cat crates/*/specs/*.antt crates/*/specs/*/*.antt | awk '
    /^pub record / { name = $3; next }
    /^[^ ]/ { name = "" }
    name != "" && $1 == "pub" && $3 == ":" { print name, $2 }' | sort -u >"$lines"

missing=0
cited=0
check() { # DOC NAME
    cited=$((cited + 1))
    # a line of a record, as Shape.users: the record has it; a line alone, as .users: there is one
    case $2 in
    [A-Z]*' .'[a-z]* | [A-Z]*[a-z0-9].[a-z]*)
        if [[ $2 = *' .'* ]] || grep -q -- "^${2%%.*} " "$lines"; then
            grep -qxF -- "$(sed 's/ \{0,1\}\./ /' <<<"$2")" "$lines" && return
            echo "docs: $1 cites $2, and no record in specs/ has this line"
            missing=1
            return
        fi
        ;;
    .*) grep -q -- " ${2#.}\$" "$lines" && return ;;
    esac
    # a name with a part left open, as X_listed
    case $2 in X_*) grep -q -- "${2#X}\$" "$words" && return ;; esac
    grep -qxF -- "$2" "$words" && return
    for at in "$2" "crates/$2" "crates/*/$2" "crates/*/specs/$2" "examples/$2"; do
        for end in "" .antt .rt; do
            compgen -G "$at$end" >/dev/null && return
        done
    done
    echo "docs: $1 cites $2, which is not there"
    missing=1
}

for doc in docs/PROMISES.md docs/HOW-TO-READ.md docs/LAYOUT.md docs/MISTAKES.md; do
    while read -r name; do
        check "$doc" "$name"
    done < <(sed '/^```/,/^```/d' "$doc" | grep -o '`[^`]*`' | tr -d '`' | grep -e '^[^ ]*$' -e '^[A-Z][A-Za-z0-9]* \.[a-zA-Z0-9_-]*$' | sort -u)
done
# docs/LAYOUT.md has every crate, in its picture and in its tables.
picture=$(sed -n '/^```/,/^```/p' docs/LAYOUT.md)
tables=$(sed '/^```/,/^```/d' docs/LAYOUT.md)
for crate in crates/*/; do
    name=$(basename "$crate")
    grep -qw -- "$name" <<<"$picture" || [ "$name" = speed ] || { echo "docs: docs/LAYOUT.md has no $name in its picture"; missing=1; }
    grep -q -- "\`$name\`" <<<"$tables" || { echo "docs: docs/LAYOUT.md does not say what $name holds"; missing=1; }
done

# What must be believed: the lines of the files in the table of docs/HOW-TO-READ.md that state something (no comment, no `use`, no empty line) are no
# more than the page says.
files=$(sed -n '/^## What must be believed/,/^What may be skipped/p' docs/HOW-TO-READ.md | grep '^|' | cut -d'|' -f2 | grep -o '`[^`]*`' | tr -d '`')
believed=0
for file in $files; do
    believed=$((believed + $(awk '/^use / { inside = /{[^}]*$/; next } inside { inside = !/}/; next } !/^ *(--.*)?$/ { n++ } END { print n + 0 }' "crates/$file.antt")))
done
# And none of them rests on a file of specs/ that the page neither lists nor says may be skipped. (What src/ declares is read there.)
named=$(sed -n '/^## What must be believed/,/^## /p' docs/HOW-TO-READ.md | grep -o '`[a-z]*/specs/[A-Za-z0-9/]*`' | tr -d '`' | sort -u)
for file in $files; do
    below=$(sed -n 's/^\(pub \)*use Rattle\.\([a-z0-9_]*\)\.specs\.\([A-Za-z0-9.]*\).*/\2\/specs\/\3/p' "crates/$file.antt" | sed 's/\.$//; s/\./\//g' | sed '/specs\/declared/d' | sort -u)
    for other in $below; do
        # (what the toolchain's own library says is no file of the project)
        [ -d "crates/${other%%/*}" ] || continue
        grep -qx -e "$other" -e "${other%/*}" <<<"$named" || { echo "docs: $file rests on $other, of which docs/HOW-TO-READ.md says nothing"; missing=1; }
    done
done
most=$(sed -n 's/.* they are \([0-9,]*\) lines at most.*/\1/p' docs/HOW-TO-READ.md | tr -d ,)
[ -n "$most" ] && [ "$believed" -gt 0 ]
if [ "$believed" -gt "$most" ]; then
    echo "docs: docs/HOW-TO-READ.md says that $most lines must be believed, and there are $believed"
    missing=1
fi

[ "$missing" -eq 0 ]
echo "docs: $believed lines must be believed, at most $most"
echo "docs: $cited citations, all there"
