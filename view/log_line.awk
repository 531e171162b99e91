# Shows a line of a log: where it is, its first 200 bytes, and, where it is not right, the rule for such a line by the table of FORMATS. Where
# the log has no such line, that is said. It follows printable.awk, with these files, each after the word for it:
#   role=log LOG role=rules docs/FORMATS.md
# and with `number` (of the line), `node` (in which it is not right, or empty) and `told` in the environment (the words before all this).

role == "log" && FNR == number {
    text = printable(substr($0, 1, 200))
    sub(/\r$/, "")
    kind = $1 == "s" ? "s .. " $(NF - 1) : $1 != "end" ? $1 : $2 == "bounded" && $3 == "none" ? "end bounded none" : "end " $2
    where = node == "" ? "" : $1 == "end" ? ", behind " node " nodes" : ", in node " node
}
role == "log" { lines = FNR; next }
/^##/ { in_rules = ($0 == "### When a log is right") }
node != "" && in_rules && index($0, "| `" kind "` | ") == 1 {
    rule = $0
    sub(/^[^|]*[|][^|]*[|] /, "", rule)
    sub(/ [|]$/, "", rule)
}
END {
    print ENVIRON["told"] where
    print lines < number ? "(the log ends behind line " lines + 0 ")" : text
    if (rule != "") print "`" kind "` is right where " rule
}
