# The picture of the layers and of the proof of demand 3:  awk -f docs/picture.awk crates.txt >docs/picture.svg
# An arrow between crates is a dependency that crates.txt has, left out where a longer way leads there too.
# Boxes have room for wide fonts. `at` places a crate: its band, its column, and two lines on what it is.

function at(crate, band, column, line, more) {
    row[crate] = band
    col[crate] = column
    about[crate] = line
    rest[crate] = more
    crates[++placed] = crate
}

# An arrow that passes other bands goes down a lane between their boxes.
function lane(from, to, column) { by[from, to] = column }

function x(column) { return 250 + 260 * column }
function y(band) { return 20 + 112 * band }

function text(px, py, kind, words) {
    printf "<text x=\"%d\" y=\"%d\" class=\"%s\">%s</text>\n", px, py, kind, words
}

function line(path) { printf "<path d=\"%s\"/>\n", path }

# Does a way of dependencies lead from one crate to another?
function leads(from, to,    i, n, part) {
    if (from == to) return 1
    n = split(uses[from], part, " ")
    for (i = 1; i <= n; i++) if (leads(part[i], to)) return 1
    return 0
}

# Does a box stand between two of its band? An arrow goes over it.
function between(from, to,    k, c) {
    for (k = 1; k <= placed; k++) {
        c = crates[k]
        if (row[c] == row[from] && (col[c] - col[from]) * (col[c] - col[to]) < 0) return 1
    }
    return 0
}

function arrow(from, to,    fx, tx, fy, ty, side, lx) {
    if (row[from] == row[to] && between(from, to)) {
        fx = x(col[from]) + (col[from] < col[to] ? 60 : -60)
        tx = x(col[to]) - (col[from] < col[to] ? 60 : -60)
        fy = y(row[from]) + 16
        line(sprintf("M %d %d C %d %d %d %d %d %d", fx, fy, fx, fy - 16, tx, fy - 16, tx, fy - 2))
        return
    }
    if (row[from] == row[to]) {
        side = col[from] < col[to] ? 1 : -1
        fy = y(row[from]) + 51
        line(sprintf("M %d %d L %d %d", x(col[from]) + side * 105, fy, x(col[to]) - side * 109, fy))
        return
    }
    fx = x(col[from]) + 12 * (outs[from]++ - 1)
    tx = x(col[to]) + 16 * (ins[to]++ - 1)
    fy = y(row[from]) + 84
    ty = y(row[to]) + 14
    if ((from, to) in by) {
        lx = x(by[from, to])
        line(sprintf("M %d %d C %d %d %d %d %d %d", fx, fy, fx, fy + 40, lx, fy, lx, fy + 50) \
            sprintf(" L %d %d C %d %d %d %d %d %d", lx, ty - 50, lx, ty, tx, ty - 40, tx, ty))
    } else {
        line(sprintf("M %d %d C %d %d %d %d %d %d", fx, fy, fx, fy + 22, tx, ty - 22, tx, ty))
    }
}

function fact(name, px, py, wide, words,    i, n, part) {
    n = split(words, part, "/")
    printf "<rect x=\"%d\" y=\"%d\" width=\"%d\" height=\"%d\" class=\"fact\"/>\n", px, py, wide, 34 + 17 * n
    text(px + wide / 2, py + 22, "name", name)
    for (i = 1; i <= n; i++) text(px + wide / 2, py + 24 + 17 * i, i == n ? "where" : "about", part[i])
}

BEGIN {
    at("rehearse", 0, 0, "the program", "")
    at("routes", 0, 1, "the program", "")
    at("exports", 0, 2, "a static library", "for Rust or C")
    at("rewrite", 0, 3, "the program", "")
    at("unhex", 0, 4, "the program", "")
    at("small_areas", 1, 0, "C1 to C13 agree", "with the definitions")
    at("report", 1, 1, "the text for a file", "is one definition")
    at("rewriting", 1, 2, "stored files without", "their dead links")
    at("text", 1, 3, "words and numbers", "in a lent buffer")
    at("hexadecimal", 1, 4, "hexadecimal", "to bytes")
    at("tlv", 2, 0, "entries of TLV 22,", "one after another")
    at("isis", 2, 1, "areas from IS-IS", "")
    at("prepare", 2, 2, "Read, and then Plan", "")
    at("bench_file", 2, 3, "Read is its definition", "on all bytes")
    at("loop_free", 3, 3, "demand 3", "(no code)")
    at("convergence", 3, 4, "theorems rise and fall", "(no code)")
    at("in_place", 4, 0, "changes a lent record", "as Step does")
    at("steps", 4, 1, "Step is the machine", "of 01")
    at("machine", 4, 2, "definitions of Step,", "what calls keep")
    at("needs", 4, 3, "how many calls", "a change takes")
    at("sheet", 4, 4, "the running sheet,", "and following it")
    at("changes", 5, 0, "what a change list", "says")
    at("plan", 5, 2, "Plan: refusals, record", "and tables")
    at("order", 5, 3, "waiting, telling", "and due")
    at("ranks", 5, 4, "chains of waiting", "")
    at("paths", 6, 0, "Paths: distances and", "next hops of an area")
    at("search", 6, 2, "the rows of", "one source")
    at("trees", 6, 3, "one tree", "per destination")
    at("topology", 6, 4, "least sums over walks,", "every next hop")
    at("entries", 7, 2, "links and changes,", "five bytes each")
    at("area", 7, 3, "limits, refusals,", "tables")
    at("sets", 7, 4, "router sets", "as numbers")
    lane("report", "in_place", 0.5)
    lane("report", "sheet", 3.5)
    lane("exports", "isis", 1.5)
    lane("tlv", "area", 1.48)
    lane("prepare", "plan", 1.56)
    lane("convergence", "topology", 4.52)
    lane("bench_file", "entries", 2.5)
    lane("bench_file", "sets", 4.56)
    lane("changes", "entries", 1)
    bands = split("programs,and a library/texts/file/why no loop/steps/plan/paths/vocabulary", band, "/")
}

{ sub(/#.*/, "") }

/:/ {
    name = $1
    sub(/:$/, "", name)
    if (!(name in row)) next
    uses[name] = ""
    for (i = 2; i <= NF; i++) if ($i in row) uses[name] = uses[name] " " $i
}

END {
    print "<svg xmlns=\"http://www.w3.org/2000/svg\" viewBox=\"0 0 1450 1740\" font-family=\"sans-serif\">"
    print "<style>"
    print "text { text-anchor: middle; fill: #1c2733 } .name { font-size: 16px; font-weight: bold }"
    print ".about { font-size: 13px } .where { font-size: 13px; font-style: italic }"
    print ".band { font-size: 16px; text-anchor: start } .note { font-size: 15px; text-anchor: start }"
    print "rect.fact, rect.crate { fill: white; stroke: #445566; stroke-width: 1.3 }"
    print "rect.main { stroke-width: 3 } path { fill: none; stroke: #5b6f84; stroke-width: 1.6; marker-end: url(#tip) }"
    print "</style>"
    print "<defs><marker id=\"tip\" markerWidth=\"8\" markerHeight=\"8\" refX=\"6\" refY=\"3\" orient=\"auto\">" \
        "<path d=\"M 0 0 L 7 3 L 0 6 z\" style=\"fill: #5b6f84; stroke: none; marker-end: none\"/></marker></defs>"
    print "<rect width=\"1450\" height=\"1740\" fill=\"white\"/>"
    for (b = 1; b <= bands; b++) {
        printf "<rect x=\"10\" y=\"%d\" width=\"1430\" height=\"108\" fill=\"%s\"/>\n", y(b - 1) - 2,
            b == 4 ? "#f7f0e2" : b % 2 ? "#eef2f7" : "#e2eaf3"
        n = split(band[b], part, ",")
        for (i = 1; i <= n; i++) text(22, y(b - 1) + 34 + 20 * i, "band", part[i])
    }
    for (k = 1; k <= placed; k++) {
        n = split(uses[crates[k]], used, " ")
        for (i = 1; i <= n; i++) {
            longer = 0
            for (j = 1; j <= n; j++) if (j != i && leads(used[j], used[i])) longer = 1
            if (!longer) arrow(crates[k], used[i])
        }
    }
    for (k = 1; k <= placed; k++) {
        c = crates[k]
        printf "<rect x=\"%d\" y=\"%d\" width=\"210\" height=\"70\" rx=\"8\" class=\"crate%s\"/>\n", x(col[c]) - 105,
            y(row[c]) + 16, c == "loop_free" ? " main" : ""
        text(x(col[c]), y(row[c]) + (rest[c] == "" ? 46 : 38), "name", c)
        text(x(col[c]), y(row[c]) + (rest[c] == "" ? 66 : 57), "about", about[c])
        text(x(col[c]), y(row[c]) + 75, "about", rest[c])
    }
    proof()
    print "</svg>"
}

# The proof of demand 3: an arrow leads from a fact to what it proves.
function proof() {
    text(22, 950, "note", "The proof of demand 3. An arrow leads from a fact to what it proves;" \
        " in italics its crate and file.")
    fact("next_nearer", 990, 970, 430, "A next hop is nearer to the destination./topology: NextHopLaws")
    fact("distance_walk, distance_le", 30, 1080, 430, "Some walk has the distance as its sum,/" \
        "and no walk has a smaller one./topology: DistanceLaws")
    fact("same_next, toward_root", 510, 1080, 430, "A router with no shortest path through the root keeps/" \
        "its next hops; a next hop with one leads to the root./convergence: ThroughRoot")
    fact("separation", 990, 1080, 430, "Pointers never lead from the smaller metrics alone/" \
        "to the larger ones alone./convergence: Separation")
    fact("no_router_twice", 990, 1230, 430, "Round a loop the distance to the destination/" \
        "would fall all the way./convergence: NoLoop")
    fact("arrival", 510, 1230, 430, "A walk can go on to the destination,/" \
        "with at most n − 1 links in all./convergence: Arrival")
    fact("rise, fall", 30, 1230, 430, "Both hold while routers write in order/of waiting./convergence: ConvergenceLaws")
    fact("plan_elsewhere, waits_rise, waits_fall", 510, 1380, 430, "Metrics differ at links of the root only;/" \
        "waiting follows the next hops to it./plan: FreshLaws, WaitingLaws")
    fact("run_kept", 990, 1380, 430, "Whom a router no longer waits for is done; who has written/" \
        "waits for none; who is done wrote all that is due./machine: MoveLaws, RunLaws")
    fact("loop_free", 30, 1510, 910, "For every input that Plan accepts and every list of calls:" \
        " no walk along the pointers meets a router twice,/and every walk from a router that reaches d" \
        " before and after the change can be prolonged to d./" \
        "loop_free: LoopFreeLaws")
    fact("filled_old_hops, filled_new_hops, run_bit", 990, 1640, 430, "The tables that Plan leaves hold the" \
        " next hops,/and a written set what was written./plan: FilledLaws; machine: RunLaws")
    fact("handed_back_free", 30, 1640, 910, "The same, with pointers and distances read off the tables" \
        " that Plan leaves,/of every record that comes after Plan's by calls of the code./" \
        "loop_free: HandedBackLaws")
    line("M 1205 1038 L 1205 1076")
    line("M 460 1122 L 506 1122")
    line("M 940 1122 L 986 1122")
    line("M 1205 1165 L 1205 1226")
    line("M 1050 1165 C 1050 1205 880 1190 880 1226")
    line("M 990 1272 L 944 1272")
    line("M 1205 1315 C 1205 1360 290 1335 290 1319")
    line("M 510 1272 L 464 1272")
    line("M 245 1315 L 245 1506")
    line("M 725 1465 L 725 1506")
    line("M 1205 1465 C 1205 1550 1000 1550 944 1550")
    line("M 485 1595 L 485 1636")
    line("M 990 1682 L 944 1682")
}
