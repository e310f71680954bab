#!/usr/bin/env bash
# picture.sh PICTURE READER [RUN..]: runs the program PICTURE on sheets, and the READER (tests/picture.c) on what it writes; RUN runs both.
set -euo pipefail
picture=$1 reader=$2
shift 2
run=("$@")
cd "$(dirname "$0")/.."
room=$(mktemp -d)
trap 'rm -rf "$room"' EXIT
count=0 bad=0

# Holds the SVG $3 of frame $2 of the sheet $1 against the reference.
hold() {
    count=$((count + 1))
    "${run[@]}" "$reader" "$@" || { bad=$((bad + 1)) && echo "picture: wrong: $*"; }
}

# Draws frame $2 of the sheet $1, with $3 as the argument where it is no plain number, and holds it.
try() {
    "${run[@]}" "$picture" "${3-$2}" <"$1" >"$room/svg" || true
    hold "$1" "$2" "$room/svg"
}

"${run[@]}" "$reader" "$room"
for sheet in "$room"/*.sheet examples/*.sheet; do
    for number in 0 1 7 255; do try "$sheet" "$number"; done
done

# Refused: sheets that are empty, of another version, cut short, without a bit, with a logarithm of 5 or the most uplink codes that a
# form can have, of eight slots of 1.28 Mcps; frame numbers that are none.
printf '' >"$room/1" && try "$room/1" 0
printf '\x20\x10\x00\x06\x00\x00\x04' >"$room/2" && try "$room/2" 0
printf '\x10\x00\x00\x06\x00' >"$room/3" && try "$room/3" 0
printf '\x10\x10\x00\x06\x00\x00' >"$room/4" && try "$room/4" 256
printf '\x10\x10\x00\x06\x00\x00\x00' >"$room/5" && try "$room/5" 0
printf '\x10\x10\x00\x00\x00\x00\x04' >"$room/8" && try "$room/8" 0
printf '\x10\x18\x00\x06\x00\x0a\x00\x80' >"$room/13" && try "$room/13" 0
{ printf '\x17\xfa' && printf '\x3f\xff\x00%.0s' {1..16} && printf '\xff%.0s' {1..457} && printf '\xf0'; } >"$room/508" && try "$room/508" 0
{ printf '\x10\x84\x00\x06\x00' && printf '\x00\x04%.0s' {1..8}; } >"$room/14" && try "$room/14" 0
for argument in 256 1000 100000000000000000000 -1 7x ''; do try examples/example.sheet 256 "$argument"; done

# Without an argument it is frame 0. The picture of docs/ and the program's own case are what they say.
"${run[@]}" "$picture" <examples/picture.sheet >"$room/svg" && hold examples/picture.sheet 0 "$room/svg"
"${run[@]}" "$picture" 7 <examples/picture.sheet | cmp - docs/picture.svg || bad=$((bad + 1))
hold examples/picture.sheet 7 docs/picture.svg
hold crates/picture/stdin "$(cat crates/picture/args)" crates/picture/stdout

echo "picture: $count pictures, $bad wrong"
((bad == 0 && count > 0))
