#!/usr/bin/env bash
# Holds what docs/PROMISES.md and docs/READING.md cite against the sources. Every file that they name is there; every name in backquotes
# that follows a file of crates/, within its cell of a table or its line, is defined in that file; every must-fail edit, `crate/edit`, is
# there. PROMISES.md has a section for each call of the header, with its four rows, and cites every must-fail edit of the repository. The
# functions that crate ummervia_c exports are the calls of the header, and each has the head, with the clauses, that the function of that name has
# in crate ummervia, whose contract the pages cite; the names in them are brought from the same places.
set -euo pipefail
export LC_ALL=C
cd "$(dirname "$0")/.."
room=$(mktemp -d)
trap 'rm -rf "$room"' EXIT
bad=0

wrong() { echo "promises: $*" && bad=$((bad + 1)); }

# PAPER: prints `file PATH`, `name PATH NAME`, `edit CRATE/EDIT` and `bare WORD` (a file without its path), one a line, in order.
cited() {
    awk '{
        gsub(/\\[|]/, " "); n = split($0, cell, "|")
        for (i = 1; i <= n; i++) {
            file = ""; text = cell[i]
            while (match(text, /`[^`]*`|[A-Za-z0-9_.-]+[A-Za-z0-9_\/.-]*/)) {
                word = substr(text, RSTART, RLENGTH); text = substr(text, RSTART + RLENGTH); sub(/[.]$/, "", word)
                if (word ~ /^`[A-Za-z0-9_-]+`$/) { gsub(/`/, "", word); if (file != "") print "name", file, word; continue }
                gsub(/`/, "", word)
                if (word ~ /^(crates\/)?[a-z_]+\/(src|specs|proofs)\/.*[.](antt|rt)$/) {
                    sub(/^crates\//, "", word); file = "crates/" word; print "file", file
                } else if (word ~ /^(crates|docs|tests|include|examples)\/.*[.][a-z]+$/) { file = ""; print "file", word }
                else if (word ~ /[.](antt|rt)$/) print "bare", word
                else if (word ~ /^[a-z_]+\/[a-z0-9_]+$/) print "edit", word
            }
        }
    }' "$1"
}

for paper in docs/PROMISES.md docs/READING.md; do
    cited "$paper" | sort -u >"$room/cited"
    while read -r kind what name; do
        case $kind in
        file) [[ -f $what ]] || wrong "$paper names $what, which is not there" ;;
        bare) wrong "$paper names $what without its path" ;;
        edit) [[ ! -d crates/${what%/*} || -f crates/${what%/*}/must-fail/${what#*/}.edit || -d crates/$what ]] || wrong "$paper: no edit $what" ;;
        name) [[ ! -f $what ]] || grep -Eq "^ *((abbrev|unfoldable|record|data|pub|extern \"C\"|fn|struct|enum|const) )*$name( .*)?( :|\(|<| \{|:)" "$what" ||
            wrong "$paper: $what does not define $name" ;;
        esac
    done <"$room/cited"
    echo "promises: $paper cites $(grep -c ^name "$room/cited" || true) names and $(grep -c ^edit "$room/cited" || true) edits"
done

cited docs/PROMISES.md | sed -n 's/^edit //p' | sort -u >"$room/tried"
find crates -path '*/must-fail/*.edit' -not -path '*/out/*' | sed 's|^crates/||; s|/must-fail/|/|; s|\.edit$||' | sort >"$room/edits"
for edit in $(comm -13 "$room/tried" "$room/edits"); do wrong "docs/PROMISES.md does not cite $edit"; done

for call in $(sed -n 's/^uint32_t \(umv_[a-z_]*\)(.*/\1/p' include/ummervia.h); do
    rows=$(awk -v "call=\`$call\`" '/^#/ { on = /^## / && index($0, call) } on && /^[|] (contract|unique|refusals|shut out) [|]/' docs/PROMISES.md | wc -l)
    ((rows == 4)) || wrong "docs/PROMISES.md has $rows rows of four for $call"
done
# FILE..: prints the heads of the functions umv_*, from the name to the body, each on a line, however they are laid out; brought: `PATH NAME` of what their clauses may name.
heads() {
    awk '/fn umv_[a-z_]*\(/ { sub(/.*fn /, ""); on = 1 } /^[{]/ && on { gsub(/ +/, " ", head); gsub(/,? [)]/, ")", head); gsub(/[(] /, "(", head); print head; on = 0; head = "" } on { head = head " " $0 }' "$@" | sort
}
brought() {
    awk '/^ghost use / { n = split($0, word, /[ ,{};]+/); for (i = 4; i < n; i++) print word[3], word[i] }' "$@" | sort -u
}
own=(crates/ummervia/src/exports.rt crates/ummervia/src/exports_home.rt) exported=crates/ummervia_c/src/lib.rt
heads "${own[@]}" >"$room/own"
heads "$exported" >"$room/exported"
diff -U 0 --label 'crate ummervia' --label 'crate ummervia_c' "$room/own" "$room/exported" || wrong 'crate ummervia_c exports other heads than those of crate ummervia'
for name in $(comm -13 <(brought "${own[@]}") <(brought "$exported") | tr ' ' :); do wrong "crate ummervia has not the name of crate ummervia_c $name"; done
calls=$(sed -n 's/^uint32_t \(umv_[a-z_]*\)(.*/\1/p' include/ummervia.h | sort)
[[ $(sed -n 's/^ \(umv_[a-z_]*\)(.*/\1/p' "$room/exported" | sort) == "$calls" ]] || wrong 'crate ummervia_c has other calls than the header'
[[ $(grep -A 1 -Fx '#[unsafe(no_mangle)]' "$exported" | sed -n 's/^pub extern "C" fn \(umv_[a-z_]*\)(.*/\1/p' | sort) == "$calls" ]] ||
    wrong 'crate ummervia_c exports other calls than the header has'
echo "promises: crate ummervia_c exports $(wc -w <<<"$calls") calls"
((bad == 0))
