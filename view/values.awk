# What a text of `sopl` declares, and what its constant expressions are worth, as far as both stand plainly in the text: literals, constants,
# their arrays, bound names, and `+ - * div mod min max abs` and comparisons of these. It is given to awk after text.awk, and reads no file.

BEGIN {
    most_listed = 4096
    most_looked_up = 100000
}

# The declarations.

# Numbers the declarations of the text, and keeps of each the token of its name, what it declares (`int`, `range`, `set`, `dvar` or `stoch`)
# and the `;` that ends it; `declaration` has the number for a name. The values of ranges and sets are listed.
function learn_declarations(   i) {
    for (i = 1; i <= count && token[i] !~ /^(minimize|maximize|subject)$/; i = declaration_end[declarations] + 1) {
        if (token[i] == "{") declare(i + 3, "set")
        else if (token[i] ~ /^(dvar|stoch)$/) declare(i + 2, token[i])
        else declare(i + 1, token[i])
    }
}
function declare(i, what) {
    declarations++
    declaration[token[i]] = declarations
    name_at[declarations] = i
    declares[declarations] = what
    if (what == "range") keep_elements(token[i], range_values(i + 2))
    if (what == "set") keep_elements(token[i], set_values(i + 3))
    while (i < count && token[i] != ";") i++
    declaration_end[declarations] = i
}
function keep_elements(range, values) { if (values != "?") elements[range] = values }

# The token after a word in a declaration, or 0 where the word is not there.
function after_word(number, word,   i) {
    for (i = name_at[number] + 1; i < declaration_end[number]; i++) if (token[i] == word) return i + 1
    return 0
}

# The token after the bracket that is open at a token.
function after_bracket(i,   depth) {
    for (; i <= count; i++) {
        if (token[i] ~ /^[[({]$/) depth++
        if (token[i] ~ /^[])}]$/ && --depth == 0) return i + 1
    }
    return i
}

# The tokens from one to another as they stand in the text, with one space for all that is between two of them.
function words_of(from, to,   i, said) {
    for (i = from; i <= to; i++) said = said (i > from && start[i] > start[i - 1] + length(token[i - 1]) ? " " : "") token[i]
    return said
}

# Ranges and sets, as a list of numbers with a space before each, or `?` where that is not plain or too long.

# The numbers of the range that begins at a token, as `R` or `1..n`; `range_end` is the token after it.
function range_values(i,   low, high, values) {
    range_end = i + 1
    if (kind[i] == "name" && token[i] in elements) return elements[token[i]]
    low = value_here(i)
    if (token[reading] != "..") return "?"
    reading++
    high = sum_here()
    range_end = reading
    if (is_unknown || high - low >= most_listed) return "?"
    for (; low <= high; low++) values = values " " low
    return values
}
# The elements, in ascending order, of the set whose first one begins at a token.
function set_values(i,   found, value, sorted, size, values, j) {
    for (; i <= count && token[i] != "}"; i = token[reading] == "," ? reading + 1 : reading) {
        value = value_here(i)
        if (is_unknown || token[reading] !~ /^[,}]$/ || size >= most_listed) return "?"
        if (value in found) continue
        found[value]
        for (j = size++; j > 0 && sorted[j] > value; j--) sorted[j + 1] = sorted[j]
        sorted[j + 1] = value
    }
    for (j = 1; j <= size; j++) values = values " " sorted[j]
    return values
}

# Bindings: a list of bindings, with `;` between them, has for each turn the values of its names, as `i = 1, j = 3`. It is `?` where it is
# not plain or too long, and the one binding of no name is the list ``.

# The bindings of a list, each with each number of a range for a name.
function bind(bindings, name, range,   turn, turns, values, number, sizes, i, wider, listed) {
    turns = split(bindings, turn, ";")
    if (turns == 0) turns = 1
    for (i = 1; i <= turns; i++) {
        use(turn[i])
        sizes = range_values(range)
        if (sizes == "?") return "?"
        sizes = split(sizes, values, " ")
        listed += sizes
        if (listed > most_listed) return "?"
        for (number = 1; number <= sizes; number++) wider = wider ";" turn[i] (turn[i] == "" ? "" : ", ") name " = " values[number]
    }
    return wider == "" ? "?" : substr(wider, 2)
}
# Gives the names of a binding their values, and no other name one.
function use(binding,   parts, part, pair, i) {
    split("", bound)
    parts = split(binding, part, ", ")
    for (i = 1; i <= parts; i++) {
        split(part[i], pair, " = ")
        bound[pair[1]] = pair[2] + 0
    }
}
# The bindings of a list, each with all values of the binders that begin at a `(`.
function bind_binders(bindings, i,   last) {
    last = after_bracket(i) - 1
    for (i++; i < last && bindings != "?"; i = range_end + 1) bindings = bind(bindings, token[i], i + 2)
    return bindings
}
# The bindings of the names that stand in the brackets of a declaration.
function bind_dimensions(number,   i, bindings) {
    for (i = name_at[number] + 1; token[i] == "[" && bindings != "?"; i = after_bracket(i)) if (token[i + 2] == "in") bindings = bind(bindings, token[i + 1], i + 3)
    return bindings
}

# Values.

# The value of the expression that begins at a token; `is_unknown` where it is not plain, and else `reading` is the token after it.
function value_here(i) {
    reading = i
    is_unknown = 0
    return sum_here()
}
# The value of the tokens from one to another, where they are a plain expression.
function value_between(from, to,   value) {
    value = value_here(from)
    if (reading != to + 1) is_unknown = 1
    return value
}
function comparison_here(   left, right, sign) {
    left = sum_here()
    sign = token[reading]
    if (sign !~ /^(==|!=|<|<=|>|>=)$/) return left
    reading++
    right = sum_here()
    return sign == "==" ? left == right : sign == "!=" ? left != right : sign == "<" ? left < right : sign == "<=" ? left <= right : sign == ">" ? left > right : left >= right
}
function sum_here(   value, sign) {
    value = product_here()
    while (!is_unknown && token[reading] ~ /^[+-]$/) {
        sign = token[reading++] "1"
        value += sign * product_here()
    }
    return value
}
function product_here(   value, sign, right) {
    value = factor_here()
    while (!is_unknown && token[reading] ~ /^([*]|div|mod)$/) {
        sign = token[reading++]
        right = factor_here()
        if (sign == "*") value *= right
        else if (right == 0) is_unknown = 1
        else value = sign == "div" ? int(value / right) : value - right * int(value / right)
    }
    return value
}
function factor_here(   i, value) {
    i = reading++
    if (token[i] == "-") return -factor_here()
    if (kind[i] == "number") return token[i] + 0
    if (token[i] == "(") {
        value = comparison_here()
        if (token[reading++] != ")") is_unknown = 1
        return value
    }
    if (token[i] ~ /^(abs|min|max)$/ && token[reading] == "(") return least_or_greatest(token[i])
    if (kind[i] == "name" && token[i] in bound && token[reading] != "[") return bound[token[i]]
    if (kind[i] == "name" && declares[declaration[token[i]]] == "int") return element_here(i, declaration[token[i]])
    is_unknown = 1
    return 0
}
function least_or_greatest(what,   value, next_value) {
    reading++
    value = sum_here()
    while (!is_unknown && token[reading] == ",") {
        reading++
        next_value = sum_here()
        if (what == "min" ? next_value < value : next_value > value) value = next_value
    }
    if (token[reading++] != ")") is_unknown = 1
    return what == "abs" && value < 0 ? -value : value
}

# The value of a constant at the indices that are read.
function element_here(i, number,   indices, value, later, formula) {
    while (!is_unknown && token[reading] == "[") {
        reading++
        indices = indices " " sum_here()
        if (token[reading++] != "]") is_unknown = 1
    }
    if (++looked_up > most_looked_up) is_unknown = 1
    if (is_unknown) return 0
    formula = after_word(number, "=")
    if (token[formula] == "[") {
        if (!(number in is_kept)) keep_parts(number, formula)
        if (!((number, indices) in element)) is_unknown = 1
        return element[number, indices] + 0
    }
    if (++depth_of_constants > 20) is_unknown = 1
    later = reading
    value = is_unknown ? 0 : formula_value(number, indices, formula)
    reading = later
    depth_of_constants--
    return value
}
# The value of a formula where the names in the brackets of its declaration have these indices.
function formula_value(number, indices, formula,   kept, name, index_of, places, i, value) {
    for (name in bound) kept[name] = bound[name]
    split("", bound)
    split(indices, index_of, " ")
    for (i = name_at[number] + 1; token[i] == "["; i = after_bracket(i)) {
        places++
        if (token[i + 2] == "in") bound[token[i + 1]] = index_of[places] + 0
    }
    value = value_between(formula, declaration_end[number] - 1)
    split("", bound)
    for (name in kept) bound[name] = kept[name]
    return value
}
# Keeps the parts of an array of constants by their indices.
function keep_parts(number, formula,   kept_reading, kept_unknown, places, i, from, value) {
    is_kept[number]
    kept_reading = reading
    kept_unknown = is_unknown
    places = places_of(number)
    for (i = formula; places != "?" && i < declaration_end[number]; i++) {
        if (token[i] ~ /^[][,]$/) continue
        value = value_here(i)
        if (is_unknown || token[reading] !~ /^[],]$/) break
        from = index(places, ";")
        element[number, substr(places, 1, from - 1)] = value
        places = substr(places, from + 1)
        i = reading
    }
    reading = kept_reading
    is_unknown = kept_unknown
}
# The indices of an array in ascending order, each with a `;` after it, as ` 1 2;`.
function places_of(number,   i, places, wider, place_list, value_list, values, size, sizes, j, k) {
    places = ";"
    for (i = name_at[number] + 1; token[i] == "["; i = after_bracket(i)) {
        values = range_values(token[i + 2] == "in" ? i + 3 : i + 1)
        if (values == "?") return "?"
        size = split(places, place_list, ";") - 1
        sizes = split(values, value_list, " ")
        if (size * sizes > most_listed) return "?"
        wider = ""
        for (j = 1; j <= size; j++) for (k = 1; k <= sizes; k++) wider = wider place_list[j] " " value_list[k] ";"
        places = wider
    }
    return places
}
