#!/usr/bin/env bash
# figures.sh [COMMIT]: prints the row of figures that docs/landings/README.md has for each landing, of the files as they are or of a commit. Lines
# are counted without blank ones and without those that hold a comment alone.
set -euo pipefail
export LC_ALL=C
cd "$(dirname "$0")/.."
if (($#)); then
    room=$(mktemp -d)
    trap 'rm -rf "$room"' EXIT
    git archive "$1" | tar -x -C "$room"
    cd "$room"
fi

# Lines of the folders of that name in every crate.
lines() { find crates -path "crates/*/$1/*" -not -path '*/out/*' -type f \( -name '*.rt' -o -name '*.antt' \) -exec cat {} + | grep -Evc '^[[:space:]]*($|//|--)'; }

# With a comma between thousands.
set_apart() { sed -E ':a; s/([0-9])([0-9]{3})($|,)/\1,\2\3/; ta' <<<"$1"; }

row="|"
for count in "$(lines specs)" "$(lines src)" "$(lines proofs)" "$(grep -c '^[^#]*:' crates.txt)" "$(find crates -path 'crates/*/must-fail/*.edit' -not -path '*/out/*' | wc -l)"; do
    row+=" $(set_apart "$count") |"
done
echo "$row $(sed -n 's/^The gate .*: \([0-9,]*\) s\.$/\1/p' docs/CHECK-TIMES.md) |"
