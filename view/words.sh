# The words of the command line, for the scripts that run `sopl`: which of them are the script's own, the help, and what is said of a word
# that is not of the form.
#
# A script that reads this file sets `program`, `views` and `formats` as answers.sh asks for them, and has three functions: `do_alone`, on the
# words of a call without a command (`--build`, `--install`, `--test`); `show_version`; and `run_words`, on the words of the program.

# Makes the streams safe. A file that may not grow is then one that cannot be written, and no end by a signal. A file that is opened never
# takes the place of an input or output that is closed.
guard_streams() {
    trap '' XFSZ
    { true 3<&0; } 2>/dev/null || exec </dev/null
    { true 3>&1; } 2>/dev/null || exec >/dev/full
}

# Ends with a status that is none of the program's, or with 2, and the program's answer to it, where the words are not of the form.
fail() {
    echo "sopl: $2" >&2
    [ "$1" -ne 2 ] || echo '{"answer":"usage"}'
    exit "$1"
}

# What the script's words say; each is empty where its word does not stand.
table=
page=
why=
seconds=
gap=
stats=
quiet=
help=
version=
alone=

# The script's words that stand beside a command.
free_words='--table --page --why --seconds --gap --stats --quiet --help --version -s -h'

# Sets what the script's words say, and `marks`: a letter for each word, `h` where it is handed on to the program, `t` where it is taken.
# The word after an option of the program is its value, and is handed on with it; so is all that follows a `--`.
read_words() {
    marks=
    while [ "$#" -gt 0 ]; do
        mark=t
        case $1 in
            --)
                for word do marks=${marks}h; done
                return
                ;;
            --table) table=1 ;;
            --why) why=1 ;;
            --quiet) quiet=1 ;;
            -s) stats=text ;;
            -h | --help) help=1 ;;
            --version) version=1 ;;
            --page=* | --seconds=* | --gap=* | --stats=*) take_value "${1%%=*}" "${1#*=}" ;;
            --page | --seconds | --gap | --stats)
                take_value "$1" "$2"
                marks=${marks}t
                shift
                ;;
            --build | --install | --test)
                [ -z "$marks" ] || fail 2 "$1 is the first word of its call, without a command"
                alone=$1
                return
                ;;
            --*=*) mark=h ;;
            --*)
                mark=h
                [ "$#" -eq 1 ] || { marks=${marks}h; shift; }
                ;;
            *) mark=h ;;
        esac
        marks=$marks$mark
        shift
    done
}

# Keeps the value of a word of the script, or ends where it is none.
take_value() {
    case $1 in
        --page)
            [ -n "$2" ] || fail 2 'after --page stands the FILE that the page goes to'
            page=$2
            ;;
        --seconds) take_seconds "$2" ;;
        --gap) take_gap "$2" ;;
        --stats)
            [ "$2" = json ] || fail 2 "after --stats stands json${2:+, and not '$2'}; -s prints the same as a list"
            stats=json
            ;;
    esac
}
take_seconds() {
    case $1 in
        '' | *[!0-9]* | ??????????*) seconds=0 ;;
        *) seconds=$1 ;;
    esac
    [ "$seconds" -gt 0 ] || fail 2 "after --seconds stands N, a whole number from 1 to 999999999${1:+, and not '$1'}"
}
take_gap() {
    case $1 in
        *[!0-9.]* | *.*.* | ??????????*) gap= ;;
        *[0-9]*) gap=$1 ;;
    esac
    [ -n "$gap" ] || fail 2 "after --gap stands P, a number of per cent of at most nine characters, as 5 or 0.5${1:+, and not '$1'}"
}

# Answers the words of a call: by what a word that stands without a command does, the help, the version, or a run of the program.
answer_words() {
    read_words "$@"
    if [ -n "$alone" ]; then
        do_alone "$@"
        exit
    fi
    for word do
        shift
        case $marks in
            h*) set -- "$@" "$word" ;;
        esac
        marks=${marks#?}
    done
    if [ -n "$help" ]; then
        show_help "$@"
        exit
    fi
    if [ -n "$version" ]; then
        show_version
        exit
    fi
    fit_words "$@"
    run_words "$@"
}

# The help: a part of help.txt, for all words or for the command that stands first.
show_help() {
    [ "$#" -eq 0 ] || [ -n "$(form_of "$1")" ] || fail 2 "$(unknown_command "$1")"
    awk -v part="${1:-sopl}" '/^= / { shown = ($2 == part); next } shown' "$views/help.txt"
}

# Ends where a word of the script does not go with the command. Where no command stands first, the program answers that.
fit_words() {
    [ -n "$table$page$why$seconds$gap$stats" ] && [ -n "$(form_of "$1")" ] || return 0
    fit "$table" --table "$1" solve tree
    fit "$page" --page "$1" solve
    fit "$why" --why "$1" solve check
    fit "$seconds" --seconds "$1" solve
    fit "$gap" --gap "$1" solve
    fit "$stats" '-s or --stats' "$1" solve
    fit_files "$@"
}
fit() {
    value=$1
    name=$2
    command=$3
    shift 3
    fitting=
    for each do
        [ -n "$value" ] && [ "$each" != "$command" ] || return 0
        fitting="$fitting${fitting:+ or }'$each'"
    done
    fail 2 "$name goes with $fitting, and not with '$command'"
}

# Words that are not of the form.

# The form of a command's words, by the first table of FORMATS.md; nothing where there is no such command.
form_of() {
    name=$1 awk -F ' *[|] *' '
        /^##/ { in_words = ($0 == "## Words") }
        in_words && $2 ~ /^`[a-z]/ && index($2, "`" ENVIRON["name"] " ") == 1 { gsub(/`/, "", $2); print $2; exit }' "$formats"
}

# The names of the commands, by the same table.
commands() {
    awk -F ' *[|] *' '
        /^##/ { in_words = ($0 == "## Words") }
        in_words && $2 ~ /^`[a-z]+ / { split(substr($2, 2), part, " "); printf "%s ", part[1] }' "$formats"
}

# What the form names as the value of an option: `N` for `--budget`.
value_name() {
    printf '%s\n' "$1" | tr -d '[]' | name=$2 awk '{ for (i = 2; i < NF; i++) if ($i == ENVIRON["name"]) { print $(i + 1); exit } }'
}

# The word of the form that stands at this place, from 1, of those that are neither an option nor its value.
place_name() {
    printf '%s\n' "$1" | sed 's/\[[^]]*\]//g' | awk -v place="$2" '{ print $(place + 1) }'
}

# The options of a form.
options_of() {
    printf '%s\n' "$1" | tr -d '[]' | awk '{ for (i = 2; i < NF; i++) if ($i ~ /^--/) printf "%s ", $i }'
}

# The word as it is shown: without control characters.
shown() {
    printf '%s' "'$1'" | tr -d '\000-\037\177'
}

# Says which of the words after the first is the nearest to the first one; all of them, where none is near. Some words that other solvers know
# have a near one by their meaning.
nearest() {
    wanted=$1
    case $wanted in
        --time* | --limit | --deadline) wanted=--seconds ;;
        --node* | --nodes) wanted=--budget ;;
        --thread* | --worker* | -p) wanted=--seats ;;
        --stat*) wanted=--stats ;;
        --quit | --silent) wanted=--quiet ;;
        --options | -help | help) wanted=--help ;;
        -version | version | -v | -V) wanted=--version ;;
    esac
    shift
    wanted=$wanted candidates="$*" awk '
        function least(a, b) { return a < b ? a : b }
        function distance(a, b,   i, j, before, old) {
            for (j = 0; j <= length(b); j++) row[j] = j
            for (i = 1; i <= length(a); i++) {
                before = row[0]
                row[0] = i
                for (j = 1; j <= length(b); j++) {
                    old = row[j]
                    row[j] = least(least(row[j], row[j - 1]) + 1, before + (substr(a, i, 1) != substr(b, j, 1)))
                    before = old
                }
            }
            return row[length(b)]
        }
        BEGIN {
            wanted = substr(ENVIRON["wanted"], 1, 40)
            count = split(ENVIRON["candidates"], word, " ")
            best = length(wanted)
            for (i = 1; i <= count; i++) if (wanted != "" && (now = distance(wanted, word[i])) < best) {
                best = now
                found = word[i]
            }
            for (i = 1; i <= count; i++) all = all (i == 1 ? "" : i == count ? " and " : ", ") word[i]
            print found != "" && 2 * best <= length(wanted) ? "is \047" found "\047 meant?" : "there are " all
        }'
}

# Says that a word which stands first is no command.
unknown_command() {
    if [ -f "$1" ]; then
        echo "$(shown "$1") is a file, and no command: is 'solve $1' meant?" | tr -d '\000-\037\177'
    else
        echo "$(shown "$1") is no command: $(nearest "${1%%=*}" $(commands) $free_words --build --install --test)"
    fi
}

# Says which word is the first that is not of the form, and the nearest that would do; nothing where there is none.
wrong_word() {
    [ "$#" -gt 0 ] || { echo "no command stands there: $(nearest '' $(commands))"; return; }
    form=$(form_of "$1")
    [ -n "$form" ] || { unknown_command "$1"; return; }
    command=$1
    names=' '
    places=0
    shift
    while [ "$#" -gt 0 ]; do
        case $1 in
            -*) wrong=$(wrong_option "$@") ;;
            *)
                places=$((places + 1))
                wrong=$(wrong_place "$1")
                ;;
        esac
        [ -z "$wrong" ] || { printf '%s\n' "$wrong"; return; }
        case $1 in
            -*=*) names="$names${1%%=*} " ;;
            -*)
                names="$names$1 "
                shift
                ;;
        esac
        shift
    done
    wanted=$(place_name "$form" "$((places + 1))")
    [ -z "$wanted" ] || echo "$wanted is missing"
}

# Says what is wrong with the option that stands first, or with its value: it is none of the form's, stands twice, or has another value.
wrong_option() {
    [ "$1" != -- ] || { echo "'--' is no word of sopl: leave it out"; return; }
    name=${1%%=*}
    wanted=$(value_name "$form" "$name")
    [ -n "$wanted" ] || {
        echo "$(shown "$name") is no option of '$command': $(nearest "$name" $(options_of "$form") $free_words)"
        return
    }
    case $names in
        *" $name "*) echo "$name stands twice"; return ;;
    esac
    case $1 in
        *=*) value=${1#*=} ;;
        *)
            [ "$#" -gt 1 ] || { echo "after $name stands $wanted, and there is no word"; return; }
            value=$2
            ;;
    esac
    is_value "$wanted" "$value" || echo "after $name stands $wanted, $(rule_of "$wanted"), and not $(shown "$value")$(value_meant "$wanted" "$value")"
}

# Says what is wrong with the word at this place, of those that are neither an option nor its value.
wrong_place() {
    wanted=$(place_name "$form" "$places")
    [ -n "$wanted" ] || { echo "$(shown "$1") is a word too many for '$command'"; return; }
    is_value "$wanted" "$1" || echo "$wanted is $(rule_of "$wanted"), and not $(shown "$1")"
}

# What a value of this name is.
rule_of() {
    case $1 in
        N) echo 'a whole number from 1 to 4294967295 in at most ten digits' ;;
        COUNT) echo 'a whole number from 1 to 64' ;;
        SEED) echo 'a whole number from 0 to 2147483647' ;;
        STAGES) echo 'a whole number from 1 to 9' ;;
        NAME) echo 'lower, widest or failing' ;;
        *) echo 'a name that is not empty and does not begin with -' ;;
    esac
}
is_value() {
    case $2 in
        '' | -*) return 1 ;;
    esac
    case $1 in
        N) is_between "$2" 1 4294967295 ;;
        COUNT) is_between "$2" 1 64 ;;
        SEED) is_between "$2" 0 2147483647 ;;
        STAGES) is_between "$2" 1 9 ;;
        NAME)
            case $2 in
                lower | widest | failing) ;;
                *) false ;;
            esac
            ;;
    esac
}
is_between() {
    case $1 in
        *[!0-9]* | ???????????*) false ;;
        *) [ "$1" -ge "$2" ] && [ "$1" -le "$3" ] ;;
    esac
}
value_meant() {
    [ "$1" != NAME ] || echo ": $(nearest "$2" lower widest failing)"
}

# Says what is wrong with the words that the program answers `usage`, and where the form is shown.
explain_usage() {
    echo "sopl: $(wrong_word "$@")"
    form=$(form_of "$1")
    if [ -n "$form" ]; then
        echo "sopl: the words are '$form'; 'sopl --help $1' says more"
    else
        echo "sopl: 'sopl --help' shows all words"
    fi
}

# Files that cannot be read.

# Why a file cannot be read.
cause_of() {
    if [ -d "$1" ]; then
        echo 'it is a folder'
    elif [ -L "$1" ] && [ ! -e "$1" ]; then
        echo 'it is a symbolic link to no file'
    elif [ ! -e "$1" ]; then
        if [ -d "$(dirname "$1")" ]; then echo 'there is no such file'; else echo "there is no folder $(dirname "$1")"; fi
    elif [ ! -r "$1" ]; then
        echo 'this user may not read it'
    fi
}

# Says which file of the words could not be read, and why: the model where that has a cause, else the second file.
explain_read_fault() {
    for place in 1 2; do
        name=$(file_at "$place" "$@")
        cause=$(cause_of "$name")
        [ -z "$name" ] || [ -z "$cause" ] || break
    done
    if [ -n "$cause" ]; then
        echo "sopl: $(meaning 6): $name: $cause"
    else
        echo "sopl: $(meaning 6): $(file_at 1 "$@"): a read of it failed, or of a file after it"
    fi
}
