#!/bin/sh
# Runs the installed `sopl` on the words given: standard output and exit status are the program's. This is bin/sopl of the folder in which
# `./sopl --install` has put it; the program, and what tells its answers, stand in lib/sopl, and the tables of FORMATS.md in share/doc/sopl.
# Words of the script's own, as `--table`, tell more of the answer on standard error: `sopl --help` and the manual page have them.
top=$(cd "$(dirname "$(readlink -f "$0")")/.." && pwd) || exit 70
views=$top/lib/sopl
program=$views/sopl
formats=$top/share/doc/sopl/FORMATS.md
[ -r "$views/answers.sh" ] || { echo "sopl: there is no file $views/answers.sh" >&2; exit 70; }
. "$views/answers.sh"
guard_streams
trap drop_notes EXIT
trap 'exit 130' INT
trap 'exit 143' TERM HUP

# An installed copy has no sources, so it builds, installs and tests nothing.
do_alone() {
    fail 2 "$1 is for ./sopl of a checkout, which has the sources"
}

# Prints the commit from which the copy was installed.
show_version() {
    echo "sopl, commit $(cat "$views/COMMIT"): the program is proved"
}

run_words() {
    run "$@"
    exit
}

answer_words "$@"
