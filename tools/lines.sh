#!/bin/sh
# Lines of code, specs and proofs, and must-fail edits, of each listed crate, as a table.
set -eu
cd "$(dirname "$0")/.."
# lines FOLDER PATTERN
lines() {
    if [ -d "$1" ]; then find "$1" -name "$2" -exec cat {} + | wc -l; else echo 0; fi
}
echo '| crate | code | specs | proofs | must-fail edits |'
echo '|---|---|---|---|---|'
sed 's/[ :].*//' crates.txt | while read -r name; do
    crate=crates/$name
    edits=0
    if [ -d "$crate/must-fail" ]; then edits=$(find "$crate/must-fail" -name '*.edit' | wc -l); fi
    echo "$name $(lines "$crate/src" '*.rt') $(lines "$crate/specs" '*.antt') $(lines "$crate/proofs" '*.antt') $edits"
done | awk '{ printf "| `%s` | %d | %d | %d | %d |\n", $1, $2, $3, $4, $5; c += $2; s += $3; p += $4; e += $5 }
    END { printf "| together | %d | %d | %d | %d |\n", c, s, p, e }'
