# Warns of what a text may not mean, though it is answered: a decision whose stage may be forgotten, a decision or chance that nothing uses,
# weights that are nearly per cent, and a decision of a later stage before one of an earlier stage. It stands with text.awk,
# values.awk and explain.awk, which calls it for the `code` `warning`; the sentences are rows of the tables that explain.awk reads.

BEGIN { most_warnings = 10 }

function warn(   number) {
    learn_declarations()
    learn_stages()
    learn_uses()
    for (number = 1; number <= declarations && warnings <= most_warnings; number++) {
        if (declares[number] !~ /^(dvar|stoch)$/) continue
        if (!is_used(number)) say_warning(number, declares[number] == "dvar" ? "unused" : "unseen", "", "")
        else if (declares[number] == "stoch") warn_of_weights(number)
        else {
            if (lacks_stage(number)) warn_of_stage(number)
            warn_of_order(number)
        }
    }
}

# The row for a warning, with the line of a declaration; its marks are the declared name and two words more. Ten warnings are enough.
function say_warning(number, what, second, third,   i) {
    if (++warnings > most_warnings) {
        print name ": .."
        return
    }
    this = token[name_at[number]]
    previous = second
    seen = third
    for (i = 1; i <= rows; i++) if (row[i, 5] == "`" what "`") {
        printf "%s:%d: warning: ", name, line[name_at[number]]
        say(row[i, 6])
    }
}

# Whether the name stands anywhere after its declaration.
function is_used(number) { return last_use[token[name_at[number]]] > declaration_end[number] }

# Stages.

# The least and the greatest stage of each decision, where they are plain, and whether the text writes stages of decisions: all of them but
# one, or a `stage 1`.
function learn_stages(   number, i) {
    for (number = 1; number <= declarations; number++) {
        if (declares[number] != "dvar") continue
        decisions++
        i = after_word(number, "stage")
        if (i) staged++
        if (i && token[i] == "1" && token[i + 1] == ";") has_first = 1
        keep_stages(number, i)
    }
}
function keep_stages(number, i,   bindings, turn, turns, stage) {
    bindings = i ? bind_dimensions(number) : ""
    if (bindings == "?") return
    turns = split(bindings, turn, ";")
    for (turns = turns ? turns : 1; turns > 0; turns--) {
        use(turn[turns])
        stage = i ? value_between(i, declaration_end[number] - 1) : 1
        if (i && is_unknown) {
            delete least[number]
            return
        }
        if (!(number in least) || stage < least[number]) least[number] = stage
        if (!(number in greatest) || stage > greatest[number]) greatest[number] = stage
    }
}
function lacks_stage(number) {
    return !after_word(number, "stage") && staged && (staged == decisions - 1 || has_first)
}

# Warns of a decision without a stage that stands with chance: where it may follow what is seen, its stage is forgotten.
function warn_of_stage(number,   decision) {
    decision = token[name_at[number]]
    if (decision in meets) say_warning(number, "unstaged", meets[decision], meets_in[decision])
}

# Warns of a decision that is declared before one of an earlier stage, so that the search begins with it.
function warn_of_order(number,   other) {
    for (other = number + 1; other <= declarations; other++) {
        if (!(number in least) || !(other in least)) continue
        if (least[number] + greatest[number] > least[other] + greatest[other] && least[number] >= least[other] && greatest[number] >= greatest[other]) {
            say_warning(number, "late", token[name_at[other]], stages_of(number))
            return
        }
    }
}
function stages_of(number) {
    return least[number] == greatest[number] ? "stage " least[number] : "stages " least[number] " to " greatest[number]
}

# Where names are used, and which decisions stand with chance.

# Keeps of each name the last token that is this name, and of each decision the chance that it first stands with, in one constraint or in one
# term of the objective, and the line.
function learn_uses(   i, from) {
    for (i = 1; i <= count; i++) if (kind[i] == "name") last_use[token[i]] = i
    for (i = declaration_end[declarations] + 1; i <= count && token[i] != "subject"; i++) if (token[i] ~ /^(expected|worst)$/) {
        add_terms(i + 2, after_bracket(i + 1) - 2)
        break
    }
    while (i <= count && token[i] != "{") i++
    for (from = ++i; i <= count; i++) if (token[i] ~ /^[;{}]$/) {
        if (token[i] == ";") add_piece(from, i - 1)
        from = i + 1
    }
}
function add_piece(from, to,   i, chance) {
    for (i = from; i <= to && !chance; i++) if (kind[i] == "name" && declares[declaration[token[i]]] == "stoch") chance = token[i]
    for (i = from; i <= to && chance; i++) if (kind[i] == "name" && declares[declaration[token[i]]] == "dvar" && !(token[i] in meets)) {
        meets[token[i]] = chance
        meets_in[token[i]] = line[i]
    }
}
# The terms of the sum that stands between two tokens, those of the sums in its brackets too.
function add_terms(from, to,   i, first) {
    first = from
    for (i = from; i <= to; i++) {
        if (token[i] ~ /^[[({]$/) i = after_bracket(i) - 1
        else if (i > first && token[i] ~ /^[+-]$/ && token[i - 1] !~ /^([*]|div|mod)$/) {
            add_term(first, i - 1)
            first = i + 1
        }
    }
    add_term(first, to)
}
function add_term(from, to) {
    while (token[from] ~ /^[+-]$/) from++
    if (token[from] == "sum") add_term(after_bracket(from + 1), to)
    else if (token[from] == "(" && after_bracket(from) == to + 1 && is_sum(from + 1, to - 1)) add_terms(from + 1, to - 1)
    else add_piece(from, to)
}
# Whether what stands between two tokens is no condition.
function is_sum(from, to,   i) {
    for (i = from; i <= to; i++) {
        if (token[i] ~ /^[[({]$/) i = after_bracket(i) - 1
        else if (token[i] ~ /^(==|!=|<|<=|>|>=|=>|&&|[|][|]|!)$/) return 0
    }
    return 1
}

# Warns of weights that sum to a number between 80 and 120 but not to 100, of the first index for which they do.
function warn_of_weights(number,   i, bindings, turn, turns, all) {
    bindings = bind_dimensions(number)
    if (bindings == "?") return
    turns = split(bindings, turn, ";")
    if (turns == 0) turns = 1
    for (i = 1; i <= turns; i++) {
        use(turn[i])
        all = weights_of(number)
        if (all >= 80 && all <= 120 && all != 100) {
            say_warning(number, "weights", all, turn[i] == "" ? "" : " for " turn[i])
            return
        }
    }
}
# The sum of the weights of two values or more, or 0 where that is not plain.
function weights_of(number,   i, all, parts) {
    for (i = after_word(number, "{"); i < declaration_end[number] && token[i - 1] != "}"; i = reading + 1) {
        value_here(i)
        if (is_unknown || token[reading] != ":") return 0
        all += value_here(reading + 1)
        if (is_unknown) return 0
        parts++
    }
    return parts > 1 ? all : 0
}
