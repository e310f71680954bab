#!/usr/bin/env bash
# Holds docs/READING.md against the sources: its path must name every definition that the contracts of the public calls rest on, each
# under its file, and no other; its second list every definition that a theorem pins, with what only such definitions rest on; its third what
# the theorems of the demands, of C-20 and of stored sheets say besides. No two files of specs/ may define one name.
#
# The set is derived so. It begins with the calls: what crates/ummervia/src/lib.rt passes on (`pub use`), the functions umv_* of that crate,
# which crate ummervia_c exports to C under the same heads (tests/promises.sh), and list_sheet. What a call rests on is what the words of its head name, from `fn` to the body; what a definition rests
# on is what its words name. A word names what its own file defines, or what a `use` line of that file brings: definitions of specs/,
# and structs, enums and constants of src/. What comes from crates that are not in this repository is the toolchain's. A definition that
# the paper says is pinned is not looked into: in its place stand the statements of the theorems that pin it.
set -euo pipefail
export LC_ALL=C
cd "$(dirname "$0")/.."
paper=docs/READING.md
room=$(mktemp -d)
trap 'rm -rf "$room"' EXIT

# The pins of the paper: `file name file theorem`, one a line.
pins() {
    awk '/^## / { on = $0 == "## Pinned by theorems" } !on || !/^[|] crates/ { next } {
        split($0, cell, "|"); split(cell[2], of, /[ `]+/); n = split(cell[4], word, /[ `,;]+/)
        for (i = 1; i <= n; i++) if (word[i] ~ /^crates/) file = word[i]; else if (word[i] != "") print of[2], of[3], file, word[i]
    }' "$paper"
}

# Prints `path file name lines`, or `pinned ..` or `demands ..`, for each thing; MISSING for a name that a file brings and nobody defines, a
# theorem that is not there, or a call with a `requires`.
derive() {
    find crates \( -path '*/src/*.rt' -o -path '*/specs/*.antt' -o -path 'crates/*/proofs/*.antt' -not -name Proof.antt -not -name Answers.antt -not -name Invariants.antt \) -not -path '*/out/*' | sort | PINS=$(pins) xargs awk '
    function source(crate, modules) { return "crates/" crate "/src/" (modules == "" ? "lib" : modules) ".rt" }

    # use Rattle.crate.specs.Module.{a, b}; ..Module as M; ..specs.declared.module.Type.{..}, with or without .TheVariants; ..proofs.Module.{..}
    function bring_specs(text,    crate, path, words, n, i, type, kind) {
        sub(/^.*use Rattle[.]/, "", text)
        crate = text; sub(/[.;].*/, "", crate)
        kind = text ~ /^[^.]*[.]proofs[.]/ ? "proofs" : "specs"
        path = text; sub("^[^.]*[.]" kind "[.]", "", path); words = path
        if (sub(/.* as /, "", words)) {
            sub(/ as .*/, "", path); gsub(/\./, "/", path)
            module[FILENAME, words] = "crates/" crate "/" kind "/" path ".antt"
            return
        }
        gsub(/.*\{|\}.*/, "", words); n = split(words, names, /[ ,]+/)
        sub(/\.\{.*/, "", path); sub(/\.TheVariants$/, "", path); gsub(/\./, "/", path)
        type = ""
        if (sub(/^declared\//, "", path)) { type = path; sub(/.*\//, "", type); if (!sub(/\/[^\/]*$/, "", path)) path = "" }
        for (i = 1; i <= n; i++) brought[FILENAME, names[i]] = \
            type != "" ? source(crate, path) " " type : "crates/" crate "/" kind "/" path ".antt " names[i]
    }

    # crate::module::NAME, othercrate::module::NAME or module::NAME: its file and its name
    function used(text,    n, i, crate, modules) {
        n = split(text, part, /::/)
        split(FILENAME, at, "/"); crate = at[2]; i = 1
        if (part[1] == "crate") i = 2
        else if (!(source(crate, part[1]) in here)) { crate = part[1]; i = 2 }
        for (modules = ""; i < n; i++) modules = modules (modules == "" ? "" : "/") part[i]
        return source(crate, modules) " " part[n]
    }

    BEGIN { for (i = 1; i < ARGC; i++) { here[ARGV[i]] = 1; split(ARGV[i], at, "/"); ours[at[2]] = 1 } }
    FNR == 1 { item = ""; params = ""; antt = FILENAME ~ /antt$/; law = FILENAME ~ /\/proofs\//; split("", head); opening = -1 }
    antt { sub(/--.*/, "") }
    !antt { sub(/\/\/.*/, "") }
    !antt && (more != "" || /^(pub |ghost )?use /) {
        more = more $0
        if (more !~ /;/) next
        $0 = more; more = ""
    }
    /^ *(ghost )?use Rattle[.]/ { bring_specs($0); next }
    !antt && /^(pub )?use / {
        path = $0; gsub(/^.*use |;.*/, "", path); base = path; n = 1; names[1] = ""
        if (sub(/[{].*/, "", base)) { gsub(/.*[{]|[}].*/, "", path); n = split(path, names, /[ ,]+/) }
        for (i = 1; i <= n; i++) if (base !~ /::$/ || names[i] != "") {
            thing = used(base names[i]); split(thing, pair, " ")
            if (pair[2] ~ /^[A-Z]/) brought[FILENAME, pair[2]] = thing
            else if ($1 == "pub" && FILENAME == "crates/ummervia/src/lib.rt") calls[thing] = 1
        }
    }
    /^(pub |ghost )?use / { next }
    # of a law its statement is read, with the parameters of the modules around it: from its signature to the line of its proof
    law && NF {
        match($0, /^ */); depth = RLENGTH
        if ($1 == "module") { for (i in head) if (i + 0 >= depth) delete head[i]; head[depth] = $0; opening = /where$/ ? -1 : depth; item = ""; next }
        if (opening >= 0) { head[opening] = head[opening] " " $0; if (/where$/) opening = -1; next }
        if ($1 == "pub" && $3 == ":" || /^(pub )?record / || $1 == "abbrev") {
            for (i = 1; $i ~ /^(abbrev|pub|record)$/; i++) { }
            name = $i; item = FILENAME " " name; body[item] = ""; for (i in head) if (i + 0 < depth) body[item] = body[item] " " head[i]
        } else if ($1 == "unfolding" || $1 == name && $2 != ":") item = ""
    }
    antt && /^module / { params = $0; item = ""; next }
    antt && !law && (/^ *(abbrev|unfoldable) / || /^ *pub (record|data) / || /^pub [^ ]+ :/) {
        for (i = 1; $i ~ /^(abbrev|unfoldable|pub|record|data)$/; i++) { }
        item = FILENAME " " $i; body[item] = params
    }
    !antt && /^pub (struct|enum|const|fn|extern) / {
        match($0, /(struct|enum|const|fn) [A-Za-z_0-9]+/); name = substr($0, RSTART, RLENGTH); sub(/.* /, "", name)
        item = FILENAME " " name
        if (/^pub fn umv_/ && FILENAME ~ /^crates\/ummervia\//) calls[item] = 1
    }
    !antt && /^[{]/ { item = "" }
    item != "" && NF { body[item] = body[item] " " $0; lines[item]++ }
    !antt && (/^}/ || /;$/) { item = "" }

    function reach(thing,    i, theorem) {
        if (thing in reached) return
        reached[thing] = 1
        if (!(thing in lines)) { split(thing, at, "/"); if (at[2] in ours) print "MISSING", thing; return }
        if (kind == "path" && thing in pinned) {
            n = split(pinned[thing], theorem, "\n")
            for (i = 1; i < n; i++) reach(theorem[i])
            return
        }
        queue[++last] = thing; which[thing] = kind
    }

    # what the things from k on rest on
    function follow(    pair, text, n, i, dot, word, h) {
        for (; k <= last; k++) {
            split(queue[k], pair, " "); text = body[queue[k]]
            gsub(/[][(){};:,<>&]|«|»/, " ", text); n = split(text, word, " ")
            for (i = 1; i <= n; i++) {
                dot = index(word[i], "."); h = substr(word[i], 1, dot - 1)
                if ((pair[1] " " word[i]) in lines) reach(pair[1] " " word[i])
                else if ((pair[1], word[i]) in brought) reach(brought[pair[1], word[i]])
                else if (dot > 1 && (pair[1], h) in module) reach(module[pair[1], h] " " substr(word[i], dot + 1))
                else if (dot > 1 && (pair[1] " " h) in lines) reach(pair[1] " " h)
                else if (dot > 1 && (pair[1], h) in brought) reach(brought[pair[1], h])
            }
        }
    }
    END {
        n = split(ENVIRON["PINS"], pin, "\n")
        for (i = 1; i <= n; i++) { split(pin[i], at, " "); thing = at[1] " " at[2]; pinned[thing] = pinned[thing] at[3] " " at[4] "\n" }
        calls["crates/listing/src/lib.rt list_sheet"] = 1
        kind = "path"; k = 1
        for (thing in calls) { reach(thing); if (body[thing] ~ /requires/) print "MISSING a contract without requires:", thing }
        follow()
        kind = "pinned"
        for (thing in pinned) { if (!(thing in reached)) print "MISSING a call that rests on", thing; delete reached[thing]; reach(thing) }
        follow()
        kind = "demands"
        for (thing in lines) if (thing ~ /^crates\/demands\/proofs\/(Demand[1-3]|Thinned|Stored)[.]antt /) reach(thing)
        follow()
        for (k = 1; k <= last; k++) print which[queue[k]], queue[k], lines[queue[k]]
        for (thing in lines) if (thing ~ /\/specs\//) {
            split(thing, pair, " ")
            if (pair[2] in meaning) print "MISSING one meaning of", pair[2] ":", meaning[pair[2]], pair[1]
            meaning[pair[2]] = pair[1]
        }
    }' | sort
}

# The lists of the paper, as derive prints them. On the path and in the third list a heading of the fourth order is a file, and the first
# cell of a row has names; in the second list the first two cells of a row have files, each before its names.
told() {
    awk '/^## / { on = $0 == "## The path" ? "path" : $0 == "## The demands besides" ? "demands" : $0 == "## Pinned by theorems" } /^#### / { file = $2 }
    on ~ /^[a-z]/ && /^[|] `/ { split($0, cell, "|"); n = split(cell[2], name, "`"); for (i = 2; i <= n; i += 2) print on, file, name[i] }
    on == 1 && /^[|] crates/ {
        split($0, cell, "|"); n = split(cell[2] " " cell[3], word, /[ `,;]+/)
        for (i = 1; i <= n; i++) if (word[i] ~ /^crates/) file = word[i]; else if (word[i] != "" && word[i] != "-") print "pinned", file, word[i]
    }' "$paper" | sort
}

derive >"$room/set"
cut -d ' ' -f 1-3 "$room/set" >"$room/due"
told >"$room/told"
count=$(grep -c '^path ' "$room/due")
echo "reading: $count things, $(awk '/^path/ { n += $4 } END { print n }' "$room/set") lines, $(grep -Ec '^path crates/(demands/|counters/specs/Promised)' "$room/due") of them of demand 1;" \
    "$(grep -c '^pinned ' "$room/due") pinned, $(grep -c '^demands ' "$room/due") of demands 2 and 3, of C-20 and of stored sheets besides, $(uniq -d "$room/told" | wc -l) named twice"
if grep MISSING "$room/set"; then exit 1; fi
diff --label sources --label "$paper" -U 0 "$room/due" "$room/told"
grep -q "$count things" "$paper" || { echo "reading: $paper says another number" && exit 1; }
