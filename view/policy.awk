# Prints the policy of a point of a search, by a policy of the same declarations that stands for its form. awk is given these files, each
# after the word for it:
#   role=text MODEL role=point POINT role=count FORM role=print FORM
# POINT has cells with their values, as watch.awk writes them. FORM has the answer to the text without objective and constraints, in which
# each decision has the least value of its domain: a cell that no search narrowed has no other one. A cell's number goes by the decisions in
# text order, for an array by its indices, and then by the histories; that is the order in which the form prints the nodes of a stage.
#
# With role=cut MODEL alone it prints the text without objective and constraints.

# The text, line by line, without comments; names of decisions in text order.

role == "text" || role == "cut" {
    code = without_comments($0)
    if (over) next
    if (match(" " code " ", /[^A-Za-z0-9_](maximize|minimize|subject)[^A-Za-z0-9_]/)) {
        over = 1
        code = substr(code, 1, RSTART - 1)
    }
    if (role == "cut") {
        print code
        if (over) print "subject to { }"
        next
    }
    gsub(/[^A-Za-z0-9_]+/, " ", code)
    words = split(code, word, " ")
    for (i = 1; i <= words; i++) {
        if (one == "dvar" && two == "int" && !(word[i] in rank)) rank[word[i]] = ++ranks
        one = two
        two = word[i]
    }
}

function without_comments(line,   code, place) {
    while (line != "") {
        if (in_comment) {
            place = index(line, "*/")
            if (!place) return code
            line = substr(line, place + 2)
            in_comment = 0
            code = code " "
        }
        if (!match(line, /\/\/|\/\*/)) return code line
        code = code substr(line, 1, RSTART - 1)
        if (substr(line, RSTART, 2) == "//") return code
        line = substr(line, RSTART + 2)
        in_comment = 1
    }
    return code
}

role == "point" && NF == 2 { value[$1] = $2 }

# The form: a record is what stands after a `{`, and one with `decide` is a node.

role == "count" && FNR == 1 { order_ready = 0 }
role == "count" && /^"decide":/ {
    entries = entries_of()
    for (i = 1; i <= entries; i++) {
        key = key_of(entry[i])
        if (!(key in cells)) {
            name = substr(key, 1, index(key, "\"") - 1)
            listed[name, ++members[name]] = key
        }
        cells[key]++
    }
}

role == "print" && !order_ready { number_cells() }
role == "print" && /^"decide":/ {
    entries = entries_of()
    text = ""
    for (i = 1; i <= entries; i++) {
        key = key_of(entry[i])
        cell = first[key] + seen[key]++
        text = text (i > 1 ? ",[\"" : "[\"") key "," (cell in value ? value[cell] : value_of(entry[i])) "]"
    }
    $0 = "\"decide\":[" text substr($0, length("\"decide\":[") + list_length + 1)
}
role == "print" && /^"answer":/ { next }
role == "print" && FNR > 1 {
    sub(/,"value":"[^"]*"}\n?$/, "")
    printf "{%s", $0
}

# Splits the decisions of a record; each entry begins with its name.
function entries_of(   list) {
    list = substr($0, length("\"decide\":[") + 1)
    list_length = index(list, "],\"next\":") - 1
    list = substr(list, 1, list_length)
    if (list == "") return 0
    return split(substr(list, 3, length(list) - 3), entry, /\],\["/)
}
function value_of(text) {
    sub(/.*,/, "", text)
    return text
}
function key_of(text) {
    sub(/,[^,]*$/, "", text)
    return text
}

# Gives each decision the number of its first cell.
function number_cells(   name, i, r, number, of_rank) {
    order_ready = 1
    for (name in members) {
        if (!(name in rank)) exit failed = 1
        of_rank[rank[name]] = name
    }
    for (r = 1; r <= ranks; r++) if (r in of_rank) {
        name = of_rank[r]
        sort_members(name)
        for (i = 1; i <= members[name]; i++) {
            first[listed[name, i]] = number + 0
            number += cells[listed[name, i]]
        }
    }
}

# Sorts the members of an array by their indices; where that takes too long, no policy is printed.
function sort_members(name,   i, j, held) {
    for (i = 2; i <= members[name]; i++) {
        held = listed[name, i]
        for (j = i - 1; j > 0 && is_before(held, listed[name, j]); j--) {
            listed[name, j + 1] = listed[name, j]
            if (++moves > 200000) exit failed = 1
        }
        listed[name, j + 1] = held
    }
}
function is_before(a, b,   i, count, of_a, of_b) {
    count = split(substr(a, index(a, "[") + 1), of_a, ",")
    split(substr(b, index(b, "[") + 1), of_b, ",")
    for (i = 1; i <= count; i++) if (of_a[i] + 0 != of_b[i] + 0) return of_a[i] + 0 < of_b[i] + 0
    return 0
}

END { exit failed }
