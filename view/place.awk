# Shows a place of a text: its line and column, what is wrong there, and the line with a caret below the place. It follows printable.awk, and
# reads the text, with `at` (the offset of the place), `name` (of the text) and `what` (is wrong).

{ last = $0; number = NR; from = begin; begin += length($0) + 1 }
begin > at { shown = 1; exit }
END {
    if (NR == 0) number = 1
    else if (!shown) from = begin - length(last) - 1
    column = at - from
    printf "%s:%d:%d: %s\n%s\n", name, number, column + 1, what, printable(last)
    before = substr(last, 1, column)
    gsub(/[^\t]/, " ", before)
    print before "^"
}
