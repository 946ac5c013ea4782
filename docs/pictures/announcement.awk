# One announcement on its way through the units: from a run file and what the run program prints for it.
# A unit sends what it holds, so the script follows what each unit holds and has sent, as sets of signers. It complains of a row that hands over
# a bundle that no unit has sent, of a count that is not the size of the set, and of an answer that is not the quorum's: a picture shows nothing that
# did not happen.

function complain(row, words) {
    print "docs/pictures/announcement: line " row ": " words | "cat 1>&2"
    bad = 1
    exit 1
}

# A set of units is a string with a 1 for each member and a 0 for each other unit. Four units are the last digit of a row's signers.
function set_of(digits,    set, u) {
    if (digits !~ /^000000000000000/) return "others"
    for (u = 0; u < n; u++) set = set int((index("0123456789abcdef", substr(digits, 16, 1)) - 1) / substr("1248", u + 1, 1)) % 2
    return set
}

function union(a, b,    set, u) {
    for (u = 1; u <= n; u++) set = set (substr(a, u, 1) + substr(b, u, 1) > 0)
    return set
}

function size(set) { return gsub(/1/, "", set) }

function alone(member,    set, u) {
    for (u = 0; u < n; u++) set = set (u == member)
    return set
}

# ---- the run file, and after it what was printed

FNR == 1 { file++ }

file == 1 && FNR == 2 {
    n = $1; t = $2; d = $3; q = $5
    if (n != 4) complain(0, "the picture is of four units")
    for (u = 0; u < n; u++) held[u] = "0000"
}

file == 1 && FNR > 3 {
    rows++
    act[rows] = $1; unit[rows] = $2
    slot[rows] = $3 "/" $4
    body[rows] = $6 "" # two long numbers may be equal where the digits are not
    given[rows] = $1 == "A" ? alone($2) : set_of($5)
}

file == 2 && FNR > 1 && FNR <= rows + 1 { follow(FNR - 1, $4, $5, $6) }

file == 2 && FNR == rows + 3 { outcome = $3 " of " n " units have delivered: " $4 " percent" }

# one row: who sent what it hands over, and what its unit holds afterwards
function follow(row, said, number, count,    u) {
    u = unit[row]
    answer[row] = said
    reason[row] = number
    if ($1 != row || $2 != act[row] || $3 != u) complain(row, "this is not what is printed for the row")
    if (act[row] == "A" ? row != 1 : slot[row] != unit[1] "/0" || body[row] != body[1]) complain(row, "the picture is of one announcement, the first row's")
    if (act[row] == "B" && !(given[row] in sender)) complain(row, "no unit has sent this bundle")
    if (act[row] == "B") from[row] = sender[given[row]]
    if (act[row] == "B" && unit[from[row]] == u) complain(row, "there is no arrow from a unit to itself")
    before[row] = held[u]
    if (said != "refused") held[u] = union(union(held[u], given[row]), alone(u))
    if (said != "refused" && size(held[u]) != count) complain(row, "the unit holds " size(held[u]) " signatures")
    if (said != "refused" && (count >= q) != (said == "delivered")) complain(row, count " signatures are " (count >= q ? "" : "not ") "a quorum of " q)
    after[row] = held[u]
    # where two units send the same bytes the first is drawn
    if (sends(said) && !(held[u] in sender)) sender[held[u]] = row
}

# ---- the drawing

function column(u) { return 104 + 160 * u }

function level(row) { return 108 + 56 * row }

function lifelines(    u, row, bottom) {
    bottom = level(rows) + 34
    for (u = 0; u < n; u++) {
        line(column(u), 118, column(u), bottom, "kept", 1)
        text(column(u), 110, "unit " u, "text-anchor=\"middle\" font-size=\"15\" font-weight=\"bold\"")
    }
    for (row = 1; row <= rows; row++) if (answer[row] == "delivered") line(column(unit[row]), level(row), column(unit[row]), bottom, "delivered", 5)
}

# from the side of the box where it was sent to the side of the box where it is taken, the head just outside
function flight(row,    sent, way) {
    sent = from[row]
    way = unit[row] > unit[sent] ? 1 : -1
    arrow(column(unit[sent]) + 54 * way, level(sent) + 4, column(unit[row]) - 58 * way, level(row) - 4, answer[row])
}

function signatures(x, y, set,    u, has) {
    for (u = 0; u < n; u++) {
        has = substr(set, u + 1, 1) == 1
        printf "<rect x=\"%d\" y=\"%d\" width=\"18\" height=\"16\" fill=\"%s\" stroke=\"%s\"/>\n", x + 23 * u, y, (has ? ink : "#ffffff"), grey
        if (has) text(x + 23 * u + 9, y + 13, u, "text-anchor=\"middle\" fill=\"#ffffff\" font-weight=\"bold\"")
    }
}

function station(row,    x, y, said) {
    x = column(unit[row]) - 54
    y = level(row)
    said = answer[row]
    box(x, y - 22, 108, 44, fill[said], colour[said], edge(said))
    text(x + 8, y - 6, said (reason[row] ? " " reason[row] : ""), "font-weight=\"bold\" fill=\"" colour[said] "\"")
    if (sends(said)) waves(x + 94, y - 10, said)
    signatures(x + 10, y + 1, after[row])
}

function came(row,    earlier) {
    if (act[row] == "A") return "unit " unit[row] " announces a body"
    for (earlier = 1; earlier < row; earlier++) if (unit[earlier] == unit[row] && given[earlier] == given[row]) return "the same bundle again"
    return "what unit " unit[from[row]] " sent in line " from[row]
}

function did(row,    said) {
    said = answer[row]
    if (said == "announced") return "signs it and sends it"
    if (said == "signed") return "new here: signs, sends on"
    if (said == "kept") return (before[row] == after[row] ? "nothing new" : size(after[row]) " signatures") ", sends nothing"
    if (said == "delivered" && size(before[row]) == 0) return "signs, that makes " size(after[row]) ": delivers"
    if (said == "delivered") return size(after[row]) " signatures: delivers, sends"
    return reason[row] == 22 ? "has delivered it already" : "refuses by " reason[row]
}

function remarks(row) {
    text(36, level(row) + 5, row, "text-anchor=\"end\" fill=\"" grey "\"")
    text(672, level(row) - 4, came(row))
    text(672, level(row) + 13, did(row))
}

function legend(y) {
    text(20, y, outcome ".", "font-weight=\"bold\"")
    text(330, y, "What has not arrived by now is still on its way.")
    signatures(20, y + 14, "1010")
    text(120, y + 27, "who has signed what the unit holds: units 0 and 2")
    waves(60, y + 48, "signed")
    text(120, y + 53, "the unit sends what it holds, once, to all")
    arrow(474, y + 22, 512, y + 22, "signed")
    text(524, y + 27, "a bundle with the signers of the box it leaves")
    line(474, y + 48, 510, y + 48, "delivered", 5)
    text(524, y + 53, "the unit has delivered")
    arrow(20, y + 74, 56, y + 74, "kept")
    arrow(68, y + 74, 104, y + 74, "delivered")
    text(120, y + 79, "an arrow has the colour of the answer it gets")
    box(474, y + 66, 36, 16, fill["refused"], colour["refused"], edge("refused"))
    text(524, y + 79, "a refusing unit keeps what it held; its line has count 0")
}

END {
    if (!bad && !outcome) complain(rows, "after it the last rows are missing")
    if (bad) exit 1
    begin(900, level(rows) + 156, "One announcement on its way through four units", describe())
    text(20, 56, "Units " n ", faults " t ", losses " d ": " q " signatures deliver. Here no unit is faulty." \
        " Time goes down, by the lines that the run program prints.")
    lifelines()
    for (row = 2; row <= rows; row++) flight(row)
    for (row = 1; row <= rows; row++) station(row)
    for (row = 1; row <= rows; row++) remarks(row)
    legend(level(rows) + 62)
    print "</svg>"
}

# the picture for those who do not see it
function describe(    row, all) {
    for (row = 1; row <= rows; row++) all = all "Line " row ", unit " unit[row] ": " came(row) "; " did(row) ". "
    return all outcome "."
}
