# Prints an answer of `sopl` as an indented list: of a policy what is decided, and below it, for each case, what was seen, how likely that
# is, and what is decided then; of a tree its scenarios with their weights. awk is given these files, each behind the word for it:
#   role=answer ANSWER role=tree TREE role=table ANSWER
# where ANSWER has the answer, and TREE that of `sopl tree` to the same text; where that is empty nothing is told of how likely a case is.
#
# A record is what stands behind a `{`: a node of the policy begins with "decide", and the way to a node, or a scenario, with "seen".

BEGIN {
    RS = "{"
    width = 100
}

# How deep a record stands: so many braces are open before its end.
FNR == 1 { open = 0 }
FNR > 1 {
    depth = open + 1
    open = depth - gsub(/[}]/, "}")
}

# All that was seen before a node, as the policy or the scenarios have it.
/^"seen":/ { path[depth] = joined(path[depth - 2], listed("seen")) }
/^"decide":/ { path[depth] = depth > 2 ? path[depth - 1] : "" }

# The answer's numbers, and the cases that its policy tells apart, each by how many values were seen there.

role == "answer" {
    if (/^"answer":/) {
        answer = text_of("answer")
        bound = text_of("bound")
    }
    if (/"value":"/) value = text_of("value")
}
role == "answer" && /^"decide":/ {
    wanted[path[depth]]
    lengths[split(path[depth], entry, /\],\["/)]
}

# The weight of each such case, summed up over the scenarios.

role == "tree" && /^"answer":"tree"/ { weight_of[""] = text_of("den") }
role == "tree" && /^"seen":/ { add_weight(listed("seen"), text_of("weight")) }

function add_weight(seen, weight,   i, count, case_seen) {
    count = split(seen, entry, /\],\["/)
    for (i = 1; i <= count; i++) {
        case_seen = joined(case_seen, entry[i])
        if (i in lengths && case_seen in wanted) weight_of[case_seen] += weight
    }
}

# The list.

role == "table" && /^"answer":/ { show_head() }
role == "table" && /^"seen":/ && answer == "tree" { show_scenario(phrase(listed("seen")), text_of("weight")) }
role == "table" && /^"decide":/ { show_node(path[depth], depth > 2 ? path[depth - 2] : "", depth - 2) }

function show_head(   count) {
    if (answer == "infeasible") print "infeasible: there is no policy; --why tells what stands against one"
    if (answer == "optimal") print "optimal: the value is " number(value) ", and no policy has a better one"
    if (answer == "bounded" && value == "") print "bounded: no policy was found so far; none has a value better than " number(bound)
    if (answer == "bounded" && value != "")
        print "bounded: the best policy so far has the value " number(value) ", and none has a value better than " number(bound)
    if (answer == "tree") {
        den = text_of("den")
        print "scenarios, each by what is seen in it; all weigh " den
    }
}

function show_scenario(seen, weight) { wrap((seen == "" ? "nothing is seen" : seen) ": weight " weight " (" share(weight, den) ")", 2) }

# A node: what was seen behind the one before it, how likely that is there and in all, and what is decided.
function show_node(seen, before, indent,   words, chance) {
    words = "decide "
    if (indent > 0) {
        chance = share(weight_of[seen], weight_of[before])
        if (chance != "" && before != "") chance = chance ", " share(weight_of[seen], weight_of[""]) " of all"
        words = phrase(substr(seen, before == "" ? 1 : length(before) + 5))
        words = (words == "" ? "then" : "if " words (chance == "" ? "" : " (" chance ")") ",") " decide "
    }
    wrap(words (listed("decide") == "" ? "nothing" : phrase(listed("decide"))), indent)
}

# Prints words, on lines of the width where they have spaces for it, the later ones further in.
function wrap(words, indent,   hang, room, at) {
    hang = indent
    while (1) {
        room = width - hang > 40 ? width - hang : 40
        if (length(words) <= room) break
        for (at = room + 1; at > 1 && substr(words, at, 1) != " "; at--) ;
        if (at == 1) break
        print spaces(hang) substr(words, 1, at - 1)
        words = substr(words, at + 1)
        hang = indent + 4
    }
    print spaces(hang) words
}
function spaces(count) { return sprintf("%" count "s", "") }

# What a record has under a name: a list of instances with their values, without the brackets around all of them; a text.
function listed(name,   from) {
    from = index($0, "\"" name "\":[[\"")
    if (from == 0) return ""
    from += length(name) + 6
    return substr($0, from, index($0, "]],\"") - from)
}
function text_of(name) {
    if (!match($0, "\"" name "\":\"[^\"]*\"")) return ""
    return substr($0, RSTART + length(name) + 4, RLENGTH - length(name) - 5)
}
# Two such lists as one.
function joined(list, other) { return list == "" ? other : other == "" ? list : list "],[\"" other }

# Such a list in words: `x = 1; y[2][1..3] = 0, 4, 1`, where indices that follow each other stand as a range.
function phrase(list,   count, i, part, first, name, index_before, values, said) {
    count = split(list, entry, /\],\["/)
    for (i = 1; i <= count; i++) {
        split(entry[i], part, /",\[|\],/)
        if (match(part[2], /-?[0-9]+$/)) {
            part[1] = part[1] "[" substr(part[2], 1, RSTART - 1)
            gsub(/,/, "][", part[1])
            part[2] = substr(part[2], RSTART)
        }
        if (i > 1 && part[1] == name && part[2] != "" && part[2] == index_before + 1) values = values ", " part[3]
        else {
            said = said closed(name, first, index_before, values)
            name = part[1]
            first = part[2]
            values = part[3]
        }
        index_before = part[2]
    }
    said = said closed(name, first, index_before, values)
    return substr(said, 3)
}
# The instances of a name from one last index to another, with their values, behind `; `.
function closed(name, first, last, values) {
    if (name == "") return ""
    return "; " name (first == "" ? "" : (first == last ? first : first ".." last) "]") " = " values
}

# A fraction with what it is worth; a part of a whole in per cent, where both are known.
function number(fraction,   part, decimal, error) {
    split(fraction, part, "/")
    decimal = sprintf("%.10g", part[1] / part[2])
    error = decimal * part[2] - part[1]
    return fraction (error * error <= 1e-26 * part[1] * part[1] ? " = " : ", about ") decimal
}
function share(part, of) { return part == "" || of + 0 == 0 ? "" : sprintf("%.4g %%", 100 * part / of) }
