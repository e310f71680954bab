# Draws the map of the house, an SVG, from crates.txt. A group is a card, and stands on the cards below; in it a crate stands right of
# those that it uses. What another use already brings is not drawn: a use within the group is an arrow, others are said in the crate's box.

function fail(text) { print "map: " text > "/dev/stderr"; failed = 1 }
function least(a, b) { return a < b ? a : b }
function most(a, b) { return a > b ? a : b }
function plain(text) { gsub(/&/, "\\&amp;", text); gsub(/</, "\\&lt;", text); return text }

/^## / { title[++groups] = substr($0, 4); purpose = ""; next }
/^#/ { purpose = substr($0, 3); next }
NF {
    name = $1; sub(/:$/, "", name); sub(/ staticlib:/, ":")
    if (!groups) fail(name " is in no group")
    if (purpose == "") fail("no line above " name " says what it is for")
    if (length(purpose) > 64) fail("what is said of " name " has more than 64 letters")
    crate[++crates] = name; group[crates] = groups; what[crates] = purpose; purpose = ""
    for (i = 2; i <= NF; i++) used[crates, $i] = 1
}

# By number, of crates ("c") and of groups ("g"); what has no number is of the toolchain.
function number_uses(    a, b) {
    for (a = 1; a <= crates; a++) for (b = 1; b <= crates; b++) {
        if (!((a, crate[b]) in used)) continue
        if (b >= a) fail(crate[a] " uses " crate[b] ", which does not stand before it")
        uses["c", a, b] = 1
        if (group[a] != group[b]) uses["g", group[a], group[b]] = 1
    }
}

# a uses b, directly or through others
function rests(of, a, b,    k) {
    if ((of, a, b) in known) return known[of, a, b]
    known[of, a, b] = (of, a, b) in uses
    for (k = b + 1; k < a && !known[of, a, b]; k++) if ((of, a, k) in uses && rests(of, k, b)) known[of, a, b] = 1
    return known[of, a, b]
}

# a uses b, and nothing else that a uses does
function direct(of, a, b,    k) {
    if (!((of, a, b) in uses)) return 0
    for (k = b + 1; k < a; k++) if ((of, a, k) in uses && rests(of, k, b)) return 0
    return 1
}

# Puts words of text on lines of at most `room` letters: line[a, 1], ..
function wrap(a, text, room, mark,    n, i, word, now) {
    n = split(text, word, " "); now = word[1]
    for (i = 2; i <= n; i++) {
        if (length(now " " word[i]) <= room) { now = now " " word[i]; continue }
        line[a, ++lines[a]] = now; kind[a, lines[a]] = mark; now = word[i]
    }
    line[a, ++lines[a]] = now; kind[a, lines[a]] = mark
}

# The column of each crate in its card, and what it uses of other cards.
function arrange(    a, b, g) {
    for (a = 1; a <= crates; a++) {
        g = group[a]; column[a] = 1; others[a] = ""
        for (b = 1; b < a; b++) {
            if (!direct("c", a, b)) continue
            if (group[b] == g) column[a] = most(column[a], column[b] + 1)
            else others[a] = others[a] (others[a] == "" ? "over " : ", ") crate[b]
        }
        columns[g] = most(columns[g], column[a])
    }
}

# Cards of at most four columns together stand beside each other.
function pack(    g, have) {
    for (g = 1; g <= groups; g++) {
        if (g == 1 || have + columns[g] > 4) { bands++; have = 0 }
        have += columns[g]; band[g] = bands; across[bands] = have; cards[bands]++
    }
}

# Where everything stands, the first band at the bottom.
function place(    a, b, g, x, y, last) {
    for (b = 1; b <= bands; b++) box[b] = int((WIDE - (cards[b] - 1) * BESIDE - cards[b] * 2 * EDGE - (across[b] - cards[b]) * GAP) / across[b])
    for (a = 1; a <= crates; a++) {
        b = band[group[a]]
        wrap(a, what[a], int((box[b] - 20) / 6.3), "p")
        if (others[a] != "") wrap(a, others[a], int((box[b] - 20) / 6.3), "o")
        high[a] = 30 + 15 * lines[a]
        from[a] = stack[group[a], column[a]] + 0
        stack[group[a], column[a]] = from[a] + high[a] + ROW
        deep[b] = most(deep[b], from[a] + high[a])
    }
    y = HEAD
    for (b = bands; b >= 1; b--) {
        top[b] = y; height[b] = 34 + deep[b] + EDGE
        y += height[b] + BETWEEN; x = MARGIN
        for (g = 1; g <= groups; g++) {
            if (band[g] != b) continue
            left[g] = x; width[g] = columns[g] * (box[b] + GAP) - GAP + 2 * EDGE
            x += width[g] + BESIDE; last = g
        }
        width[last] = MARGIN + WIDE - left[last]
    }
    whole = y - BETWEEN + MARGIN
    for (a = 1; a <= crates; a++) {
        g = group[a]; b = band[g]
        at[a] = left[g] + EDGE + (column[a] - 1) * (box[b] + GAP)
        # a column stands in the middle of its card
        up[a] = top[b] + 34 + int((deep[b] - stack[g, column[a]] + ROW) / 2) + from[a]
    }
}

function draw_card(g,    b) {
    b = band[g]
    printf "<g class=\"g%d\"><rect class=\"card\" x=\"%d\" y=\"%d\" width=\"%d\" height=\"%d\" rx=\"10\"/>", g, left[g], top[b], width[g], height[b]
    printf "<text class=\"head\" x=\"%d\" y=\"%d\">%s</text></g>\n", left[g] + EDGE, top[b] + 22, plain(title[g])
}

# From a card to one that it stands on: down, or to the left in one band.
function draw_standing(g, h,    x, y) {
    if (band[g] == band[h]) {
        y = top[band[g]] + 17
        printf "<path class=\"thick\" d=\"M%d %dH%d\"/>\n", left[g] - 2, y, left[h] + width[h] + 7
        return
    }
    x = int((most(left[g], left[h]) + least(left[g] + width[g], left[h] + width[h])) / 2)
    printf "<path class=\"thick\" d=\"M%d %dV%d\"/>\n", x, top[band[g]] + height[band[g]] + 2, top[band[h]] - 7
}

function draw_arrow(a, b,    x, y, u, v) {
    x = at[a]; y = up[a] + high[a] / 2; u = at[b] + box[band[group[b]]]; v = up[b] + high[b] / 2
    printf "<path class=\"thin\" d=\"M%d %dC%d %d %d %d %d %d\"/>\n", x, y, x - GAP / 2, y, u + GAP / 2 + 6, v, u + 6, v
}

function draw_box(a,    b, i) {
    b = band[group[a]]
    printf "<g class=\"g%d\"><rect class=\"box\" x=\"%d\" y=\"%d\" width=\"%d\" height=\"%d\" rx=\"6\"/>", group[a], at[a], up[a], box[b], high[a]
    printf "<text class=\"name\" x=\"%d\" y=\"%d\">%s</text>", at[a] + 10, up[a] + 20, crate[a]
    for (i = 1; i <= lines[a]; i++) printf "<text class=\"%s\" x=\"%d\" y=\"%d\">%s</text>", kind[a, i], at[a] + 10, up[a] + 22 + 15 * i, plain(line[a, i])
    print "</g>"
}

# Of each group: the card, its edge, the words.
function style(    tint, edge, words, g, i) {
    split("#f1efe8 #e9f1fb #e8f6ee #fdf1e0 #fbe9ec #f1ebfa #e6f4f5", tint, " ")
    split("#b9b3a0 #9dbbe0 #94c9a8 #e0b878 #e0a0ab #b9a3dc #8fc4c9", edge, " ")
    split("#5d573f #234f86 #1f6b3d #84560a #93283c #5a3a93 #165e66", words, " ")
    print "<style>text{font:12px system-ui,'Segoe UI','Helvetica Neue',Arial,sans-serif;fill:#333}"
    print ".head{font-size:14px;font-weight:700}.name{font:700 14px ui-monospace,'DejaVu Sans Mono',Menlo,Consolas,monospace}"
    print ".o{fill:#6b6b6b;font-style:italic}.box{fill:#fff}.thin,.thick{fill:none;stroke:#777;stroke-width:1.3;marker-end:url(#tip)}.thick{stroke-width:2.6;marker-end:url(#big)}"
    for (g = 1; g <= groups; g++) {
        i = (g - 1) % 7 + 1
        printf ".g%d .card{fill:%s}.g%d rect{stroke:%s}.g%d .head,.g%d .name{fill:%s}\n", g, tint[i], g, edge[i], g, g, words[i]
    }
    print "</style>"
}

END {
    number_uses()
    if (failed) exit 1
    WIDE = 940; MARGIN = 24; HEAD = 64; EDGE = 14; GAP = 40; ROW = 12; BESIDE = 32; BETWEEN = 28
    arrange(); pack(); place()
    printf "<svg xmlns=\"http://www.w3.org/2000/svg\" viewBox=\"0 0 %d %d\" width=\"%d\" height=\"%d\">\n", WIDE + 2 * MARGIN, whole, WIDE + 2 * MARGIN, whole
    print "<title>A map of the house: " crates " crates in " groups " groups</title>"
    style()
    print "<defs><marker id=\"tip\" viewBox=\"0 0 8 8\" refX=\"2\" refY=\"4\" markerWidth=\"6\" markerHeight=\"6\" orient=\"auto\"><path d=\"M0 0L8 4L0 8z\" fill=\"#777\"/></marker>"
    print "<marker id=\"big\" viewBox=\"0 0 8 8\" refX=\"2\" refY=\"4\" markerWidth=\"4\" markerHeight=\"4\" orient=\"auto\"><path d=\"M0 0L8 4L0 8z\" fill=\"#777\"/></marker></defs>"
    printf "<rect x=\"1\" y=\"1\" width=\"%d\" height=\"%d\" rx=\"14\" fill=\"#fff\" stroke=\"#ccc\"/>\n", WIDE + 2 * MARGIN - 2, whole - 2
    printf "<text x=\"%d\" y=\"30\" style=\"font-weight:700\">A card stands on the cards below it.</text>", MARGIN
    printf "<text x=\"%d\" y=\"48\">An arrow leads from a crate to one that it uses; 'over' names what it uses of other cards. What a crate uses through these is left out.</text>\n", MARGIN
    for (g = 1; g <= groups; g++) draw_card(g)
    for (g = 1; g <= groups; g++) for (h = 1; h < g; h++) if (direct("g", g, h)) draw_standing(g, h)
    for (a = 1; a <= crates; a++) for (b = 1; b < a; b++) if (group[a] == group[b] && direct("c", a, b)) draw_arrow(a, b)
    for (a = 1; a <= crates; a++) draw_box(a)
    print "</svg>"
}
