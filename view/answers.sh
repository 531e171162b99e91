# What is told beside an answer of `sopl`, for the scripts that run it: `./sopl` of the repository and bin/sopl of an installed copy.
#
# A script that reads this file sets `program` to the program, `views` to the folder of this file, and `formats` to the file FORMATS.md, whose
# tables are told from; has its words answered by `answer_words` of words.sh, which calls the script's own `run_words`, which calls `run`; and
# calls `drop_notes` when it ends.
. "$views/words.sh"
. "$views/watch.sh"

# The folder of an answer that is told in words, and the processes of a run that can be stopped: none of them outlives the script.
notes=
running=
timer=
watcher=
drop_notes() {
    kill_program
    [ -z "$timer" ] || kill -TERM $timer 2>/dev/null
    [ -z "$watcher" ] || kill -KILL $watcher 2>/dev/null
    [ -z "$reader" ] || end_reading
    rm -rf ${notes:+"$notes"}
}

# Ends where what the script's words ask for cannot be done here.
fit_files() {
    [ -z "$why" ] || [ "$1" = check ] || no_log "$@" ||
        fail 2 "--why has a log of its own: leave --log out, or run 'solve --log FILE MODEL', and then '--why check MODEL FILE'"
    [ -z "$page" ] || can_write "$page" || fail 70 "the page $page cannot be written"
    [ -z "$page" ] || command -v python3 >/dev/null || fail 127 '--page asks for python3, which is not on this machine'
    [ -z "$seconds$gap" ] || can_read_again "$@" ||
        fail 70 '--seconds and --gap read the model and the log once more: each has to be a file, and no pipe or device'
    [ -z "$stats" ] || is_file_log "$@" || fail 70 '-s and --stats read the log: it has to be a file, and no pipe or device'
}

# The value of an option in the words; empty where it does not stand there.
option_of() {
    wanted=$1
    shift
    while [ "$#" -gt 0 ]; do
        case $1 in
            "$wanted="*)
                printf '%s\n' "${1#"$wanted="}"
                return
                ;;
            "$wanted")
                printf '%s\n' "$2"
                return
                ;;
        esac
        shift
    done
}

# Whether an option stands in the words.
has_option() {
    wanted=$1
    shift
    for word do
        case $word in
            "$wanted" | "$wanted="*) return 0 ;;
        esac
    done
    return 1
}

# The file of the log, where the words name one, and whether they name none.
log_of() {
    option_of --log "$@"
}
no_log() {
    ! has_option --log "$@"
}
can_read_again() {
    for file in "$(file_at 1 "$@")" "$(log_of "$@")"; do
        [ ! -e "$file" ] || [ -f "$file" ] || [ -d "$file" ] || return 1
    done
}
can_write() {
    case $1 in
        -*) return 1 ;;
    esac
    if [ -e "$1" ]; then [ -w "$1" ] && [ ! -d "$1" ]; else [ -w "$(dirname "$1")" ]; fi
}

# Whether anything is told beside the answer.
is_told() {
    [ -n "$table$page$why$seconds$gap$stats" ] || explains
}

# Whether the script may say anything on its own: a wrong word, a file that cannot be read, what ended a search.
speaks() {
    [ "${SOPL_EXPLAIN:-1}" = 1 ]
}

# Whether answers are told in words.
explains() {
    [ "$SOPL_EXPLAIN" = 1 ] || { [ -z "$SOPL_EXPLAIN" ] && { [ -n "$table$page$why" ] || [ -t 2 ]; }; }
}

# The member of an answer that is a number, or a text of digits.
member() {
    printf '%s\n' "$2" | sed -n "s/.*\"$1\":\"\{0,1\}\([0-9]*\).*/\1/p"
}

# What a code means: the first table of FORMATS.md that has a line for it.
meaning() {
    awk -F ' *[|] *' -v code="$1" '$2 == code { print $3; exit }' "$formats"
}

# The file that stands at this place, 1 or 2, behind the command: of the words that are neither an option nor its value.
file_at() {
    behind=$1
    [ "$#" -le 1 ] || shift
    shift
    while [ "$#" -gt 0 ]; do
        case $1 in
            --*=*) ;;
            --*) [ "$#" -eq 1 ] || shift ;;
            *)
                [ "$behind" -gt 1 ] || { printf '%s\n' "$1"; return; }
                behind=1
                ;;
        esac
        shift
    done
}

# The path of a file that the words name: one that no command takes for an option, and awk not for an assignment.
path_of() {
    case $1 in
        /*) printf '%s\n' "$1" ;;
        *) printf '%s\n' "./$1" ;;
    esac
}

# Whether the text has at most 64 KiB: a longer one is no beginner's, and takes awk long.
is_short() {
    [ "$(wc -c <"$file")" -le 65536 ]
}

# What is told of a line of the log, with its text and its rule. What comes by a pipe cannot be read once more.
show_line() {
    log=$(file_at 2 "$@")
    told="$log:$at: $said"
    log=$(path_of "$log")
    if [ ! -f "$log" ]; then
        echo "$told${node:+, node $node}"
        return
    fi
    told=$told LC_ALL=C awk -v number="$at" -v node="$node" -f "$views/printable.awk" -f "$views/log_line.awk" role=log "$log" role=rules "$formats"
}

# What fails under a policy that does not satisfy.
show_failing() {
    case $(printf '%s\n' "$1" | sed -n 's/.*"what":"\([a-z]*\)".*/\1/p') in
        hard) echo "hard constraint $(member instance "$1") is false in scenario $(member scenario "$1")" ;;
        chance)
            sum=$(printf '%s\n' "$1" | sed -n 's/.*"sum":"\([0-9]*\)\/\([0-9]*\)".*/\1 of \2/p')
            echo "the scenarios in which chance constraint $(member instance "$1") is true weigh $sum, which is too little"
            ;;
        objective) echo "the objective has no value in scenario $(member scenario "$1")" ;;
    esac
}

# The line and column of a place in the text, what is wrong there, and the line with a caret below the place.
show_place() {
    LC_ALL=C awk -v at="$1" -v name="$model" -v what="$2" -f "$views/printable.awk" -f "$views/place.awk" "$file"
}

# Says what stands in the text where an answer points: its code and place, or what log and tree an infeasible text has.
advise() {
    is_short || return 0
    LC_ALL=C awk -v code="$1" -v at="$2" -v name="$model" -f "$views/printable.awk" -f "$views/text.awk" -f "$views/values.awk" -f "$views/warnings.awk" -f "$views/explain.awk" \
        role=rows "$formats" role=text "$file" ${3:+role=log "$3" role=tree "$4"}
}

# Says of an infeasible text what closed the first box of its search, which the log of a search of one node has.
explain_infeasible() {
    "$program" solve --budget 1 --log "$notes/root" "$file" >/dev/null 2>&1
    keep_tree
    echo "$model: under no policy all constraints hold and the objective has a value (infeasible)"
    advise infeasible '' "$notes/root" "$notes/tree"
}

# Tells an answer in words: its status, its text, and the words of the command line.
explain() {
    status=$1
    answer=$2
    shift 2
    code=$(member code "$answer")
    at=$(member at "$answer")
    case $status in
        0) [ "$answer" != '{"answer":"infeasible"}' ] || [ -z "$is_file" ] || explain_infeasible ;;
        1)
            if [ "$1" = eval ]; then
                echo "$(file_at 2 "$@"): $(show_failing "$answer") (each counted from 0: constraints in text order, scenarios as 'tree' lists them)"
                return
            fi
            at=$(member line "$answer")
            node=$(member node "$answer")
            said='this line is not right'
            show_line "$@"
            ;;
        2) explain_usage "$@" ;;
        3)
            if [ -n "$is_file" ]; then
                show_place "$at" "$(meaning "$code") ($code)"
                advise "$code" "$at"
            else
                echo "$model: at byte $at: $(meaning "$code") ($code)"
            fi
            ;;
        4)
            echo "$model: $(member counted "$answer") where $(member limit "$answer") is the limit: $(meaning "$code") ($code)"
            [ -z "$is_file" ] || advise "$code" ''
            ;;
        6) explain_read_fault "$@" ;;
        7 | 8) echo "sopl: $(meaning "$status")" ;;
        9)
            node=
            said="$(meaning "$code") ($code)"
            if [ "$1" = eval ]; then echo "$(file_at 2 "$@"): at $at: $said"; else show_line "$@"; fi
            ;;
    esac
}

# Sets `model` to the model's name, `file` to that which stands for it where a command reads it, and `is_file` where it can be read once
# more: what comes by a pipe cannot.
take_model() {
    model=$(file_at 1 "$@")
    file=$(path_of "$model")
    [ -f "$file" ] && is_file=1 || is_file=
}

# Keeps the scenarios of the model, as `tree` prints them, where they can be had.
keep_tree() {
    [ -e "$notes/tree" ] || { [ -n "$is_file" ] && "$program" tree "$file" >"$notes/tree" 2>/dev/null; } || : >"$notes/tree"
}

# The policy of an answer, or the scenarios, as an indented list.
show_table() {
    [ "$command" = solve ] || : >"$notes/tree"
    keep_tree
    LC_ALL=C awk -f "$views/table.awk" role=answer "$notes/answer" role=tree "$notes/tree" role=table "$notes/answer"
}

# The policy of an answer as a page for a browser.
write_page() {
    keep_tree
    python3 "$views/page.py" "$page" "$model" "${is_file:+$file}" "$notes/answer" "$notes/tree" && echo "sopl: the page is $page"
}

# What the nodes of a log were closed by. Of a text above 64 KiB no lines are told.
count_reasons() {
    text=$file
    [ -n "$is_file" ] && is_short || text=/dev/null
    LC_ALL=C awk -v name="$model" -f "$views/printable.awk" -f "$views/text.awk" -f "$views/why.awk" role=text "$text" role=tree "$notes/tree" role=log "$1"
}

# What closed the nodes of the search, or of the log that was checked.
show_why() {
    if [ "$command" = solve ]; then
        cat "$notes/why"
        return
    fi
    keep_tree
    log=$(path_of "$(file_at 2 "$@")")
    [ ! -f "$log" ] || count_reasons "$log"
}

# Whether this status is told even where answers are not told in words: a wrong word, and a file that cannot be read.
is_spoken() {
    case $1 in
        2 | 6) speaks ;;
        *) false ;;
    esac
}

# Tells an answer in the ways that are asked for: its status, and the words of the program.
tell() {
    status=$1
    shift
    if explains || is_spoken "$status"; then explain "$status" "$(head -c 1000 "$notes/answer" 2>/dev/null)" "$@"; fi
    case $status in
        0) ;;
        5) say_ended "$@" ;;
        *) return ;;
    esac
    [ -z "$table" ] || show_table
    [ -z "$page" ] || write_page
    [ -z "$why" ] || show_why "$@"
    [ -z "$stats" ] || show_stats "$status"
    [ "$command" != solve ] || [ -n "$quiet" ] || [ -z "$is_file" ] || ! explains || advise warning ''
}

# Runs the program and tells its answer. A search is watched even where nothing is told of it, so that a signal that ends it leaves its best
# policy; its answer goes to standard output at once then (`is_direct`).
run() {
    command=$1
    is_direct=
    is_made=1
    take_model "$@"
    if ! is_told; then
        is_direct=1
        is_made=
        [ "$command" = solve ] && [ -n "$is_file" ] && is_file_log "$@" && notes=$(mktemp -d 2>/dev/null) || command=
    else
        notes=$(mktemp -d) || exit 70
    fi
    if [ "$command" = solve ] && is_file_log "$@"; then run_search "$@"; else run_simply "$@"; fi
    # Where standard output fails here, that is the program's status for it.
    [ -z "$is_made" ] || cat "$notes/answer" || return 7
    tell "$status" "$@" >&2
    return "$status"
}

# Runs the program so that it ends with this script, and sets `status`.
run_simply() {
    exec 5<&0
    if [ -n "$is_direct" ]; then exec 6>&1; else exec 6>"$notes/answer"; fi
    "$program" "$@" <&5 >&6 5<&- 6>&- &
    running=$!
    wait "$running"
    status=$?
    running=
    exec 5<&- 6>&-
}

# Whether the log of the words, where there is one, is a file, or can become one.
is_file_log() {
    set -- "$(log_of "$@")"
    [ -z "$1" ] || [ ! -e "$1" ] || [ -f "$1" ]
}
