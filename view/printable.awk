# A line as it is shown: without the carriage return of CRLF, and with a `?` for each character that a terminal obeys. Other scripts of this
# folder follow it.
function printable(text) {
    sub(/\r$/, "", text)
    gsub(/[\001-\010\013-\037\177]|\302[\200-\237]/, "?", text)
    return text
}
