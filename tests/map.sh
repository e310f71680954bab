#!/usr/bin/env bash
# Holds the map of the house, docs/map.svg, against crates.txt: it is what tests/map.awk draws (`make map`), and every crate is on it.
set -euo pipefail
export LC_ALL=C
cd "$(dirname "$0")/.."
bad=0
for crate in crates/*/; do
    crate=$(basename "$crate")
    grep -Eq "^$crate( staticlib)?:" crates.txt || { bad=1 && echo "map: crates/$crate is not in crates.txt"; }
done
awk -f tests/map.awk crates.txt | cmp - docs/map.svg || { bad=1 && echo 'map: docs/map.svg is not what crates.txt gives: make map'; }
echo "map: $(grep -Ec '^[a-z_]+( staticlib)?:' crates.txt) crates in $(grep -c '^## ' crates.txt) groups"
((bad == 0))
