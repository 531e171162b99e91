# Says in plain words what a text has where an answer of `sopl` points: what is awaited at a refused place, which declaration passes a
# limit, which constraint nobody can meet. Only what is known is said. The sentences are a table of docs/FORMATS.md.
#
# It stands with text.awk, values.awk and warnings.awk, and reads these files in turn, each after the word that says what it is, the last two
# where the answer is infeasible:
#   role=rows docs/FORMATS.md role=text MODEL role=log LOG role=tree TREE
# and with `code` (of the refusal or limit, or `infeasible`, or `warning` where a text is answered), `at` (the offset of a refusal) and `name`
# (of the model's file).

# The rows of the table for the code.

role == "rows" && /^## / { in_rows = ($0 == "## What `./sopl` says beside an answer") }
role == "rows" && in_rows && /^[|] [0-9a-z]/ {
    gsub(/\\[|]/, "\001")
    split($0, cell, / *[|] */)
    if (cell[2] != code) next
    rows++
    for (part = 3; part <= 6; part++) {
        gsub("\001", "|", cell[part])
        row[rows, part] = cell[part]
    }
}

# The first node of the log: the scenarios by whose constraints values were taken away, and what closed it.

role == "log" && closed == "" {
    if ($1 == "s") {
        steps++
        if ($2 == "h") narrows[$4]
    } else if ($1 == "f") {
        closed = $2
        instance = closed == "u" ? 0 : $3
        where = closed == "u" ? $3 : $4
    } else if ($1 == "x" || $1 == "v") closed = "later"
}

END {
    if (code == "infeasible") explain_infeasible()
    else if (code == "warning") warn()
    else if (at == "") explain_limit()
    else explain_refusal()
}

# A sentence with the words of the text at its marks.
function say(sentence) {
    sentence = filled(sentence, "{at}", this)
    sentence = filled(sentence, "{before}", previous)
    print filled(sentence, "{where}", seen)
}
function filled(sentence, mark, words,   place) {
    place = index(sentence, mark)
    return place ? substr(sentence, 1, place - 1) words filled(substr(sentence, place + length(mark)), mark, words) : sentence
}

# What is around a refused place.

function explain_refusal(   found, declared, i) {
    for (found = 1; found <= count && start[found] < at; found++) ;
    if (found > count) add_token(in_comment && comment == at ? "comment" : "end", "", at)
    this = token[found]
    previous = token[found - 1]
    look_around(found)
    declared = kind[found] == "name" ? declaration_of(this, found) : 0
    if (declared && line[declared] != line[found] && code > 105 && code < 110) show_line(line[declared])
    if (declared && token[declared - 1] != "int") there["range"]
    if (code == 113) find_index(found)
    for (i = 1; i <= rows; i++) if (is_in(row[i, 3], around) && is_in(row[i, 4], before) && is_in(row[i, 5], there)) {
        say(row[i, 6])
        return
    }
}

# Whether a cell is empty, or one of its words is in a set.
function is_in(cell, set,   parts, word, i) {
    parts = split(cell, word, " ")
    for (i = 1; i <= parts; i++) if (word[i] in set) return 1
    return parts == 0
}

# Puts the words that a place has into `around`, `before` and `there`: of what it is a part, the token before it, and itself.
function look_around(place,   i, depth, opener, head, side, section, threshold, group) {
    section = "declarations"
    for (i = 1; i < place; i++) {
        group = ""
        if (head == "") head = token[i]
        if (depth == 0 && token[i] ~ /^(minimize|maximize)$/) section = "objective"
        if (depth == 0 && token[i] == "subject") section = "constraints"
        if (depth == 0 && token[i] ~ /^(in|=)$/) side = token[i] == "=" ? "value" : "domain"
        if (token[i] ~ /^[({]$/) opener[++depth] = (kind[i - 1] ~ /^(name|keyword)$/ || token[i - 1] == "=" ? token[i - 1] : "") token[i]
        else if (token[i] == "[") opener[++depth] = "["
        else if (token[i] ~ /^[])}]$/ && depth > 0) {
            group = opener[depth--] ".." token[i]
            if (group == "prob(..)") threshold = 1
            if (depth == 0 && group == "to{..}") section = "nothing"
        } else if (token[i] == ";") {
            threshold = 0
            if (depth == 0) head = side = ""
            if (depth == 0 && section == "objective") section = "behind"
        }
    }
    around[section]
    around["`" head "`"]
    around[side]
    if (depth > 0) around["`" opener[depth] "`"]
    if (opener[depth] ~ /[[(]$/) around["bracket"]
    if (threshold) around["threshold"]
    before[place == 1 ? "start" : kind[place - 1]]
    before["`" token[place - 1] "`"]
    before["`" group "`"]
    if (kind[place - 1] ~ /^(name|number)$/ || token[place - 1] ~ /^[])}]$/) before["operand"]
    if (place == 1 || line[place] != line[place - 1]) before["line"]
    there["`" token[place] "`"]
    there[kind[place]]
    if (start[place] == 0 && token[place] ~ /^[\357\376\377]/) there["mark"]
    if (token[place] ~ /^([eE]|_[0-9])[0-9_]*$/ && kind[place - 1] == "number" && start[place] == start[place - 1] + length(token[place - 1])) there["digits"]
}

# The token that declares a name and stands before another one, or 0.
function declaration_of(wanted, before_token,   i) {
    for (i = 2; i < before_token; i++)
        if (token[i] == wanted && (token[i - 1] ~ /^(int|range)$/ || (token[i - 1] == "}" && token[i - 2] == "int"))) return i
    return 0
}

# Finds for which index of its array a value or weight is refused, where an index decides that and it is plain.
function find_index(found,   number, turn, turns, i) {
    learn_declarations()
    for (number = 1; number < declarations && declaration_end[number] < found; number++) ;
    turns = split(bind_dimensions(number), turn, ";")
    for (i = 1; i <= turns && turn[1] != "?"; i++) {
        use(turn[i])
        if (!is_wrong_at(number, found)) continue
        there["index"]
        previous = worth
        seen = "for " turn[i]
        return
    }
}
# Whether the value that begins at a token is an earlier one of its distribution, or the weight is below 1; `worth` is what it is.
function is_wrong_at(number, found,   i, values) {
    for (i = after_word(number, "{"); i < declaration_end[number] && token[i - 1] != "}"; i = reading + 1) {
        worth = value_here(i)
        if (is_unknown) return 0
        if (i == found) return worth in values
        values[worth]
        i = reading + 1
        worth = value_here(i)
        if (is_unknown) return 0
        if (i == found) return worth < 1
    }
    return 0
}

# What a limit is about.

function explain_limit() {
    learn_plain()
    if (code == 203) show_domain()
    else if (code == 208) show_range()
    else if (code == 201 || code == 202) show_lines("stoch")
    else if (code == 204) show_lines("dvar")
    else if (code == 205 || code == 206 || code == 209) show_longest()
    else if (code == 207) show_lines("[*]")
    if (rows) say(row[1, 6])
}
function show_size(i, words, size, what) {
    show_line(line[i])
    printf "%s %.0f %s\n", words, size, what
}
# The first decision whose domain is plainly too wide.
function show_domain(   i, domain) {
    for (i = 1; i <= count; i++) if (token[i] == "dvar") {
        for (domain = i + 3; token[domain] == "["; domain = behind) dimension_size(domain)
        if (token[domain] == "in" && range_size(domain + 1) > 65536) {
            show_size(i, "the domain of `" token[i + 2] "` has", range_size(domain + 1), "values")
            return
        }
    }
}
# The first range, other than a domain, that is plainly too wide.
function show_range(   i, is_domain) {
    for (i = 2; i <= count; i++) {
        if (token[i - 1] == ";") is_domain = 0
        if (token[i - 1] == "dvar") is_domain = 1
        if (token[i - 1] !~ /^(=|in|\[)$/ || token[i] == "[" || (is_domain && token[i - 1] == "in" && token[i - 3] != "[")) continue
        if (kind[i] != "name" && range_size(i) > 65536) {
            show_size(i, "this range has", range_size(i), "elements")
            return
        }
    }
}
# The lines that have a token of a kind, each once, six at most; products count from the objective on.
function show_lines(word,   i, shown, last_shown, is_late) {
    for (i = 1; i <= count; i++) {
        if (token[i] ~ /^(minimize|maximize|subject)$/) is_late = 1
        if (token[i] !~ "^(" word ")$" || line[i] == last_shown || (word == "[*]" && !is_late)) continue
        if (++shown > 6) {
            print name ": .."
            return
        }
        last_shown = line[i]
        show_line(line[i])
    }
}
# The line in which an array, a `sum` or a `forall` goes over the most values, as far as that is plain.
function show_longest(   i, j, size, most, best) {
    for (i = 1; i <= count; i++) {
        size = 0
        if (token[i] ~ /^(forall|sum|all)$/) size = binders_size(i + 1)
        else if (token[i - 1] == "int" && token[i + 1] == "[") {
            size = 1
            for (j = i + 1; token[j] == "["; j = behind) size *= dimension_size(j)
        }
        if (size > most) {
            most = size
            best = i
        }
    }
    if (!best) return
    if (kind[best] == "name") show_size(best, "`" token[best] "` has", most, "elements")
    else show_size(best, "`" token[best] "` goes over", most, "values")
}
# Which constraint an infeasible text fails by, and in which scenario.

function explain_infeasible(   i, other) {
    learn_plain()
    if (closed == "u") show_line(line[objective_at()])
    else if (closed == "h" || closed == "c") {
        i = instance_at(closed == "c", instance)
        if (i) show_line(line[i])
        else print name ": the constraint with the number " instance " in text order, where the first has 0 and each value of a `forall` counts"
    }
    seen = seen_in(where)
    if (closed == "h") {
        for (other in narrows) if (other != where) closed = "scenarios"
        if (closed == "h") closed = steps ? "constraints" : "alone"
    }
    for (i = 1; i <= rows; i++) if (row[i, 5] == "`" closed "`") say(row[i, 6])
    if (find_outside()) for (i = 1; i <= rows; i++) if (row[i, 5] == "`outside`") say(row[i, 6])
}

# Finds in what closed the first box an element whose array has no such index, whatever is decided and seen: what is written, its index, and
# for which values of the names that are bound there.
function find_outside(   i, from, number, turn, bindings) {
    learn_declarations()
    if (closed == "later") return 0
    from = closed == "u" ? objective_at() : instance_at(closed == "c", instance)
    if (!from) return 0
    for (i = 1; closed != "u" && i <= foralls; i++) {
        split(bind_binders(bindings, around_instance[i] + 1), turn, ";")
        bindings = turn[turn_of[i]]
    }
    for (i = from; i < count && token[i] != ";"; i++) ;
    return is_outside(from, i - 1, bindings)
}
# Whether an element between two tokens is outside of its array for one of some bindings.
function is_outside(from, to, bindings,   i, last, wider) {
    for (i = from; i <= to; i++) {
        if (token[i] ~ /^(sum|all)$/) {
            wider = bind_binders(bindings, i + 1)
            last = end_of_product(after_bracket(i + 1), to)
            if (wider != "?" && is_outside(after_bracket(i + 1), last, wider)) return 1
            i = last
        } else if (token[i + 1] == "[" && declaration[token[i]] && lacks_index(i, declaration[token[i]], bindings)) return 1
    }
    return 0
}
# The last token of the product that begins at a token.
function end_of_product(from, to,   i) {
    for (i = from; i <= to; i++) {
        if (token[i] ~ /^[])},;]$/ || (i > from && token[i] ~ /^([+-]|==|!=|<|<=|>|>=|=>|&&|[|][|])$/ && token[i - 1] !~ /^([*]|div|mod|-)$/)) break
        if (token[i] ~ /^[[({]$/) i = after_bracket(i) - 1
    }
    return i - 1
}
# Whether an index of the element at a token is none of its array for one of some bindings.
function lacks_index(i, number, bindings,   dimension, from, last, turn, turns, j, value, values) {
    turns = split(bindings, turn, ";")
    if (turns == 0) turns = 1
    dimension = name_at[number] + 1
    for (from = i + 1; token[from] == "[" && token[dimension] == "["; from = last + 2) {
        values = range_values(token[dimension + 2] == "in" ? dimension + 3 : dimension + 1) " "
        last = after_bracket(from) - 2
        for (j = 1; j <= turns && values != "? "; j++) {
            use(turn[j])
            value = value_between(from + 1, last)
            if (is_unknown) break
            if (index(values, " " value " ")) continue
            seen = named_in(turn[j], from, last)
            previous = value
            for (last += 1; token[last + 1] == "["; last = after_bracket(last + 1) - 1) ;
            this = words_of(i, last)
            return 1
        }
        dimension = after_bracket(dimension)
    }
    return 0
}
# Of a binding what the names have that stand between two tokens, as ` where i = 3`.
function named_in(binding, from, to,   parts, part, pair, i, j, said) {
    parts = split(binding, part, ", ")
    for (i = 1; i <= parts; i++) {
        split(part[i], pair, " = ")
        for (j = from; j <= to && token[j] != pair[1]; j++) ;
        if (j <= to) said = said (said == "" ? " where " : ", ") part[i]
    }
    return said
}
