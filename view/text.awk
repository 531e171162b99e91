# A text of `sopl` as tokens, with what of it stands plainly there: numbers, sizes, which line an instance of a constraint is of; and its
# scenarios, as people name them. It follows printable.awk, and other scripts of this folder follow it; with these files, each behind the word for it:
#   role=text MODEL role=tree TREE
# where TREE has the answer of `sopl tree MODEL`, and `name` is what the text's file is called.

BEGIN {
    words = "int range dvar stoch stage in subject to forall sum all prob expected worst minimize maximize allDifferent cumulative div mod min max abs"
    words = split(words, list, " ")
    for (i = 1; i <= words; i++) keyword[list[i]]
}

# The text as tokens, each with its offset and line.

role == "text" {
    lines++
    source[lines] = printable($0)
    read_tokens($0, bytes)
    bytes += length($0) + 1
}

function read_tokens(text, offset,   done, piece, form) {
    while (done < length(text)) {
        piece = substr(text, done + 1, 1024)
        if (in_comment) {
            in_comment = !match(piece, /[*]\//)
            done += in_comment ? (length(piece) > 1 ? length(piece) - 1 : 1) : RSTART + 1
        } else if (match(piece, /^[ \t\r]+/)) done += RLENGTH
        else if (piece ~ /^\/\//) return
        else if (piece ~ /^\/[*]/) {
            in_comment = 1
            comment = offset + done
            done += 2
        } else {
            form = form_of(piece)
            add_token(form, substr(piece, 1, RLENGTH), offset + done)
            done += RLENGTH
        }
    }
}

# The kind of the token that a piece of text begins with; RLENGTH is its length.
function form_of(piece) {
    if (match(piece, /^[A-Za-z_][A-Za-z0-9_]*/)) return substr(piece, 1, RLENGTH) in keyword ? "keyword" : "name"
    if (match(piece, /^[0-9]+/)) return "number"
    if (match(piece, /^([.][.]|==|!=|<=|>=|=>|&&|[|][|]|[];,:()[{}=<>!+*\/-])/)) return "symbol"
    RLENGTH = 1
    return "byte"
}

function add_token(form, text, offset) {
    count++
    kind[count] = form
    token[count] = text
    start[count] = offset
    line[count] = lines
}

# A line of the text, as people find it.
function show_line(number) { print name ":" number ": " source[number] }

# Numbers that stand plainly in the text: literals, such with a sign, and constants that are one of these.

function learn_plain(   i) {
    for (i = 1; i <= count; i++) {
        if (token[i] == "int" && token[i + 2] == "=" && is_plain(i + 3, last_of(i + 3))) constant[token[i + 1]] = plain(i + 3, last_of(i + 3))
        if (token[i] == "range" && token[i + 2] == "=" && range_size(i + 3) >= 0) size_of[token[i + 1]] = range_size(i + 3)
        if (token[i] == "int" && token[i - 1] == "{" && token[i + 3] == "=") learn_set(token[i + 2], i + 5)
    }
}
# The last token of the number that begins at a token.
function last_of(i) {
    while (i < count && token[i + 1] !~ /^([];,)}]|[.][.]|stage)$/) i++
    return i
}
function is_plain(from, to) {
    if (token[from] == "-") from++
    return from == to && (kind[to] == "number" || token[to] in constant)
}
function plain(from, to,   size) {
    size = kind[to] == "number" ? token[to] + 0 : constant[token[to]]
    return from < to ? -size : size
}
# How many numbers the range has that begins at a token, or -1 where that is not plain.
function range_size(i,   middle, last, size) {
    if (token[i] in size_of) return size_of[token[i]]
    middle = last_of(i) + 1
    last = last_of(middle + 1)
    if (token[middle] != ".." || !is_plain(i, middle - 1) || !is_plain(middle + 1, last)) return -1
    size = plain(middle + 1, last) - plain(i, middle - 1) + 1
    return size > 0 ? size : 0
}
function learn_set(set, i,   last, seen_before, size) {
    for (; i <= count && token[i] != "}"; i = token[last + 1] == "," ? last + 2 : last + 1) {
        last = last_of(i)
        if (!is_plain(i, last)) return
        size += !(plain(i, last) in seen_before)
        seen_before[plain(i, last)]
    }
    size_of[set] = size + 0
}

# How many values the dimension has that begins at a `[`, or 0 where that is not plain; `behind` is the token behind it.
function dimension_size(i,   size) {
    size = range_size(token[i + 2] == "in" ? i + 3 : i + 1)
    for (behind = i + 1; behind <= count && token[behind] != "]"; behind++) ;
    behind++
    return size < 0 ? 0 : size
}
# How many values binders have together that begin at a `(`, or -1 where that is not plain; `behind` is the token behind them.
function binders_size(i,   size, depth) {
    for (size = 1; i <= count; i++) {
        if (token[i] ~ /^[[(]$/) depth++
        if (token[i] ~ /^[])]$/ && --depth == 0) break
        if (token[i] == "in" && size >= 0) size = range_size(i + 1) < 0 ? -1 : size * range_size(i + 1)
    }
    behind = i + 1
    return size
}

# Which constraint an instance is of.

# How many instances there are in the constraint that begins at a token, of chance constraints where `chances` is 1 and else of hard ones,
# or -1 where that is not plain; `behind` is the token behind it.
function instances(i,   size, inner) {
    if (token[i] == "forall") {
        size = binders_size(i + 1)
        inner = instances(behind)
        return size * inner == 0 ? 0 : size < 0 || inner < 0 ? -1 : size * inner
    }
    if (token[i] == "{") {
        for (behind = i + 1; behind <= count && token[behind] != "}"; ) {
            inner = instances(behind)
            size = size < 0 || inner < 0 ? -1 : size + inner
        }
        behind++
        return size + 0
    }
    inner = (token[i] == "prob") == (chances + 0)
    while (i <= count && token[i] != ";") i++
    behind = i + 1
    return inner
}
# The token at which an instance's condition begins, in the constraint that begins at a token, or 0 where that is not plain; the number
# is -1 where it is not known.
function condition_at(i, number,   size, item, binders) {
    if (token[i] == "forall") {
        binders = binders_size(i + 1)
        item = behind
        size = instances(item)
        if (number >= 0 && size > 0 && binders > 0) {
            turn = turn " (turn " int(number / size) + 1 " of " binders " of its `forall`)"
            around_instance[++foralls] = i
            turn_of[foralls] = int(number / size) + 1
        }
        return condition_at(item, number >= 0 && size > 0 ? number % size : -1)
    }
    if (token[i] != "{") return i
    for (item = i + 1; item <= count && token[item] != "}"; item = behind) {
        size = instances(item)
        if (number < 0 || size < 0) return token[behind] == "}" ? condition_at(item, number) : 0
        if (number < size) return condition_at(item, number)
        number -= size
    }
    return 0
}

# The token at which the instance with a number begins, of chance constraints where `is_chance` is 1 and else of hard ones, or 0; `turn` says
# for which values of a `forall` it stands, where one is before it, and `turn_of` has the number of the turn for each `forall` of the list
# `around_instance`, which counts `foralls`.
function instance_at(is_chance, number,   i) {
    chances = is_chance
    turn = ""
    foralls = 0
    for (i = 1; i < count && token[i] != "subject"; i++) ;
    return condition_at(i + 2, number)
}
# The token at which the objective begins.
function objective_at(   i) {
    for (i = 1; i < count && token[i] !~ /^(minimize|maximize)$/; i++) ;
    return i
}

# The scenarios of the text.

role == "tree" { scenarios = split($0, scenario, /[{]"seen":/) - 1 }

# A scenario by what is seen in it, as ` where d = 1, e[2] = 3`.
function seen_in(number,   text, part, places, said) {
    if (number >= scenarios) return ""
    text = scenario[number + 2]
    sub(/,"weight".*/, "", text)
    while (match(text, /\["[A-Za-z0-9_]+",\[[^]]*\],-?[0-9]+\]/)) {
        split(substr(text, RSTART + 2, RLENGTH - 3), part, /",\[|\],/)
        text = substr(text, RSTART + RLENGTH)
        places = part[2] == "" ? "" : "[" part[2] "]"
        gsub(/,/, "][", places)
        said = said (said == "" ? " where " : ", ") part[1] places " = " part[3]
    }
    return said
}
