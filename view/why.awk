# Tells what closed the boxes of a search, by its log: each reason with how many boxes it closed, the line of the text, and the scenario in
# which that was so most often; and what took most values away. It stands behind text.awk, with these files, each behind the word for it:
#   role=text MODEL role=tree TREE role=log LOG
# where the log is read from standard input for the name `-`. Where MODEL is empty the numbers of constraints are told alone.

BEGIN { most_told = 5 }

role == "log" && $1 == "n" { boxes++ }
role == "log" && $1 == "x" { splits++ }
role == "log" && $1 == "v" { found++ }
role == "log" && $1 == "o" { left++ }
role == "log" && $1 == "s" {
    steps++
    add_reason(takes, take_places, $2, $3, $4)
}
role == "log" && $1 == "f" {
    closings++
    add_reason(closes, close_places, $2, $3, $4)
}

# Counts a reason, `h I`, `c J`, `u` or `b`, and the scenarios that it names.
function add_reason(times, places, kind, first, second,   reason) {
    reason = kind ~ /[hc]/ ? kind " " first : kind
    times[reason]++
    if (kind ~ /[hu]/) places[reason, kind == "h" ? second : first]++
}

END {
    if (boxes == 0) exit
    learn_plain()
    left_over = boxes == 1 && !steps ? "whatever is decided" : "for all values that are left"
    print name ": the search has " amount(boxes, "box", "boxes") ends() (closings ? ":" : "")
    tell(closes, close_places)
    if (!steps) exit
    is_step = 1
    print "  values were taken away in " amount(steps, "step", "steps") ":"
    tell(takes, take_places)
}

function amount(number, one, more) { return number " " (number == 1 ? one : more) }

# How the boxes ended.
function ends() {
    if (boxes == closings) return ", with all policies, and it was closed"
    return (splits ? "; " amount(splits, "was", "were") " split in two" : "") \
        (found ? "; " amount(found, "had", "had") " one policy left, better than those before" : "") \
        (left ? "; " amount(left, "was", "were") " left when the search ended" : "") \
        (closings ? "; " amount(closings, "was", "were") " closed" : "")
}

# The reasons that come most often.
function tell(times, places,   told, reason, most) {
    for (told = 0; told < most_told; told++) {
        most = ""
        for (reason in times) if (most == "" || times[reason] > times[most] || (times[reason] == times[most] && reason < most)) most = reason
        if (most == "") return
        tell_reason(most, times[most], place(places, most, times[most]))
        delete times[most]
    }
}

# A reason: for how many boxes or steps it was one, what it says, the scenario in which it was one most often, and its line.
function tell_reason(reason, number, where_most,   part, at) {
    split(reason, part, " ")
    turn = ""
    if (lines && part[1] == "u") at = objective_at()
    if (lines && part[1] ~ /[hc]/) at = instance_at(part[1] == "c", part[2])
    print "  " (is_step ? amount(number, "step", "steps") ": else " : amount(number, "box", "boxes") ": ") meaning(part[1], part[2]) where_most
    if (at) print "      " name ":" line[at] ": " source[line[at]]
}
function meaning(kind, number) {
    if (kind == "h") return "hard constraint " number turn (is_step ? " would be false" : " is false " left_over)
    if (kind == "c") return "chance constraint " number turn (is_step ? " would be true too seldom" : " is true too seldom " left_over)
    if (kind == "u")
        return is_step ? "the objective would have no value" : "the objective has no value " left_over ", for an index outside its array perhaps"
    return is_step ? "no policy would be better than the best one found" : "no policy that is left is better than the best one found"
}

# The scenario that a reason names most often, of equal ones the first, and in how many boxes or steps, where that is not all; or how many
# scenarios there are, where each is named once.
function place(places, reason, number,   key, part, most, best) {
    for (key in places) {
        split(key, part, SUBSEP)
        if (part[1] == reason && (places[key] > most || (places[key] == most && part[2] + 0 < best))) {
            most = places[key]
            best = part[2] + 0
        }
    }
    if (!most || scenarios == 1) return ""
    if (most == 1 && number > 1) return ", in " number " scenarios"
    return (most < number ? ", " most " of " number " times" : ",") (scenarios ? seen_in(best) : " in scenario " best)
}
