# Shared by checks of this folder. A check reads this file first; it then stands in an empty folder, which is removed at its end.
#
#   top      the folder of the repository
#   scratch  the empty folder; `./sopl` keeps its temporary files below it, in `kept`
#   status   0, and 1 once something is wrong; each check ends with `exit "$status"`
top=$(cd "$(dirname "$0")/.." && pwd) || exit 1
scratch=$(mktemp -d) || exit 1
trap 'rm -rf "$scratch"' EXIT
trap 'exit 1' INT TERM HUP
status=0
sopl=$top/sopl
cd "$scratch" || exit 1
mkdir kept
TMPDIR=$scratch/kept
export TMPDIR
unset SOPL_EXPLAIN

# Reports what is wrong.
miss() {
    echo ".ci/${0##*/}: $*" >&2
    status=1
}

# Runs `$sopl`: the answer goes to `answer`, the messages beside it to `told`, the exit status to `ended`.
run() {
    "$sopl" "$@" >answer 2>said
    ended=$?
    grep -v '^sopl: this program is not proved' said >told
}

# Runs `$sopl` with messages for a person.
explain() {
    SOPL_EXPLAIN=1
    export SOPL_EXPLAIN
    run "$@"
    unset SOPL_EXPLAIN
}

# Checks the exit status and the answer of the last run.
ends() {
    [ "$ended" -eq "$2" ] && [ "$(cat answer)" = "$3" ] || miss "$1: status $ended, answered $(head -c 500 answer); messages: $(cat told)"
}

# Checks that the messages of the last run are the lines on standard input.
tells() {
    cat >wanted
    cmp -s wanted told || miss "$1: messages: $(cat told)"
}

# Checks that the messages of the last run contain some words.
names() {
    grep -qF -- "$2" told || miss "$1: messages: $(cat told)"
}

# Checks that a document has all lines of a file, one after the other.
shows() {
    sed 's/^    //' "$1" >lines
    awk '
        FNR == NR { row[++rows] = $0; next }
        { for (start in begun) if ($0 == row[FNR - start + 1]) { if (FNR - start + 1 == rows) shown = 1 } else delete begun[start] }
        $0 == row[1] { begun[FNR] }
        END { exit !shown }' "$2" lines || miss "$1 does not show the lines of $2: $(cat "$2")"
}

# Makes an installed copy in a folder. Its program is a stand-in: the script on standard input.
install_stand_in() {
    mkdir -p "$1/bin" "$1/lib/sopl" "$1/share/doc/sopl"
    cp "$top/view/"* "$1/lib/sopl"
    cp "$top/docs/FORMATS.md" "$1/share/doc/sopl"
    cp "$top/view/installed.sh" "$1/bin/sopl"
    cat >"$1/lib/sopl/sopl"
    chmod +x "$1/bin/sopl" "$1/lib/sopl/sopl"
}
