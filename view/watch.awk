# Follows the log of a search, from standard input, and keeps of it only the nodes that have a side without an end. So it needs little
# memory, and has at any time the best policy of the log. It writes two files, whose names it is given:
#   state=FILE   nodes with an end, policies, depth of the deepest node, bytes, the number of the node of the last policy (empty where there
#                is none), and 1 where the log has its last line
#   point=FILE   each cell that was narrowed on the way to the last policy, with its value there, and a last line `end`
# With copy=1 it prints the whole nodes; where the log was cut short, it then prints `n` and `o` for each side without a node, which no
# reader needs to tell apart.
#
# A log has the letter `n` only at the begin of a node and in its last line, so a record is a node.

BEGIN { RS = "n" }

{
    now = $0
    bytes += length(now) + 1
    if (whole) whole = whole "n" now
    else if (NR > 2) {
        $0 = before
        take()
        if ($NF == "e") whole = "n" now
    } else if (NR == 2 && copy) printf "%s", before
    before = now
    if (bytes > told) {
        told = bytes + 65536
        tell()
    }
}

END {
    if (!whole && NR > 1 && before ~ /\n([fx] [^\n]*|v)\n$/) {
        $0 = before
        take()
    }
    if (copy && whole) printf "%s", whole
    if (copy && !whole) for (side = 2 * splits + 1 - nodes; side > 0; side--) print "n\no"
    bytes -= NR > 0
    tell()
}

# Takes a node: its record.
function take(   last, parent) {
    if (copy) printf "n%s", $0
    last = $NF == "e" ? NF - 1 : NF
    if ($last == "o") return
    parent = $2
    depth[$1] = parent == "r" ? 0 : depth[parent] + 1
    if (depth[$1] > deepest) deepest = depth[$1]
    nodes++
    if ($(last - 2) == "x") {
        splits++
        record[$1] = $0
        up[$1] = parent
        return
    }
    if ($last == "v") keep_way($1, parent, $3)
    delete depth[$1]
    leave(parent)
}

# Forgets each node above whose two sides have ended.
function leave(node,   above) {
    while (node != "r" && ++ended[node] == 2) {
        above = up[node]
        delete record[node]
        delete up[node]
        delete depth[node]
        delete ended[node]
        node = above
    }
}

# Keeps the records from the node of a policy up to the root, and which side of its parent each is.
function keep_way(node, parent, side,   header) {
    policies++
    best = node
    way[ways = 1] = $0
    side_of[1] = side
    while (parent != "r") {
        way[++ways] = record[parent]
        split(record[parent], header, " ")
        parent = header[2]
        side_of[ways] = header[3]
    }
    fresh = 1
}

# Writes the files.
function tell() {
    printf "%.0f %.0f %.0f %.0f %s %s\n", nodes, policies, deepest, bytes, best == "" ? "-" : best, whole ? 1 : 0 > state
    close(state)
    if (fresh) write_point()
    fresh = 0
}

# Writes the value of each cell that the steps and splits of the way narrowed: at its node each cell has one value left.
function write_point(   i, j, lines, line, part, count, cell) {
    split("", value)
    for (i = 1; i <= ways; i++) {
        lines = split(way[i], line, "\n")
        for (j = lines; j > 1; j--) {
            count = split(line[j], part, " ")
            if (part[1] == "s" && !((part[count - 2]) in value)) value[part[count - 2]] = part[count]
            if (part[1] == "x" && i > 1 && !(part[2] in value)) value[part[2]] = side_of[i - 1] == "l" ? part[3] : sprintf("%.0f", part[3] + 1)
        }
    }
    printf "" > point
    for (cell in value) print cell, value[cell] > point
    print "end" > point
    close(point)
}
