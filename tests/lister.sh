#!/usr/bin/env bash
# lister.sh FILE COMMAND..: runs the sheet lister COMMAND on each case of lister.cases, and on each of FILE, outside vectors that are
# passed over where they are not there; compares what it prints, byte by byte.
set -euo pipefail
cases=$(dirname "$0")/lister.cases
outside=$1
shift
room=$(mktemp -d)
trap 'rm -rf "$room"' EXIT
count=0 bad=0 line=0 name='' hex=''

# Appends words of hex digits, each HEX or HEX*N, to $hex.
add_hex() {
    local word times i
    for word; do
        times=1
        [[ $word != *'*'* ]] || times=${word#*'*'}
        for ((i = 0; i < times; i++)); do hex+=${word%%'*'*}; done
    done
}

# Runs the case that was read, if there is one; the arguments are the lister's command.
run_case() {
    local status=0
    [[ -n $name ]] || return 0
    count=$((count + 1))
    printf '%b' "$(sed 's/../\\x&/g' <<<"$hex")" >"$room/input"
    # In two pieces, as a pipe may give it. The lister may close its end before all is written.
    { head -c 1 && sleep 0.01 && cat 2>/dev/null || true; } <"$room/input" | "$@" >"$room/output" || status=$?
    # A status from 126 on says that it could not be run, or died by a signal.
    if ((status >= 126)) || ! cmp -s "$room/output" "$room/expected"; then
        bad=$((bad + 1))
        printf 'lister: wrong, with status %d: %s\n' "$status" "$name"
        diff -a --label expected --label printed -u "$room/expected" "$room/output" || true
    fi
}

set -f # the * of HEX*N names no files
while read -r mark text; do
    case $mark in
    '=') run_case "$@" && name=$text hex='' && : >"$room/expected" ;;
    '<') add_hex $text ;;
    '>') printf '%s\n' "$text" >>"$room/expected" ;;
    '' | '#'*) ;;
    *) echo "lister: what is '$mark $text' in $cases?" && exit 2 ;;
    esac
done <"$cases"
run_case "$@"

# Lines `HEX => LINE / LINE ..`; no input is `-`.
if [[ -f $outside ]]; then
    while read -r hex mark text; do
        [[ $mark = '=>' ]] || { echo "lister: what is '$hex $mark $text' in $outside?" && exit 2; }
        name="line $((++line)) of $outside"
        hex=${hex#-}
        sed 's| / |\n|g' <<<"$text" >"$room/expected"
        run_case "$@"
    done <"$outside"
else
    echo "lister: $outside is not there: skipped"
fi
echo "lister: $count cases, $bad wrong"
((bad == 0 && count > 0))
