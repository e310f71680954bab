#!/usr/bin/env bash
# progress.sh: reads what `rt ci` prints, as it comes, and says how far it is: the seconds since it began, crates and edits of all. What says only
# that one more thing is proved, was long to check or was read from the library is left out; every other line is passed on as it is.
set -euo pipefail
cd "$(dirname "$0")/.."
crates=$(grep -c '^[^#]*:' crates.txt)
edits=$(find crates -path '*/must-fail/*.edit' -not -path '*/out/*' | wc -l)
crate=0 edit=0
passing='^(fn|struct|enum|const|static|trait|impl|mod) .*: proved$|^(logic|library|statements|crate|axioms) |^logic=proved |^linked |^== '
passing+='|^empty contracts: 0 found|^note: no function with a body|: note: large solution: '

say() { printf '[%4d s] %s\n' "$SECONDS" "$*"; }

say "to prove: $crates crates; to be refused: $edits edits"
while IFS= read -r line || [[ -n $line ]]; do
    if [[ $line =~ ^rt:\ ([a-z_0-9]+\ (proved$|NOT\ PROVED|is\ kept).*)$ ]]; then
        say "$((++crate)) of $crates crates: ${BASH_REMATCH[1]}"
    elif [[ $line =~ ^rt:\ must-fail\ (.*)$ ]]; then
        say "$((++edit)) of $edits edits: ${BASH_REMATCH[1]}"
    elif [[ ! $line =~ $passing ]]; then
        printf '%s\n' "$line"
    fi
done
