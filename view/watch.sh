# A search that is watched while it runs: what is seen of it, what ends it, and the best policy that its log has when it is ended. answers.sh
# reads this file.
#
# Without `--log` the program writes its log into a pipe, and watch.awk keeps of it what it needs, so a search of hours fills no disk. With
# `--log FILE` the program writes its file itself.

log=
is_piped=
reader=
measure=
stopped=
ended_by=
last_budget=0
gap_value=
gap_bound=

# The greatest budget there is, and that of the program where no words say one.
most_budget=4294967295
usual_budget=1000000

# The time in milliseconds; whole seconds of them where `date` knows no parts.
now() {
    time=$(date +%s%3N)
    case $time in
        *[!0-9]*) time=$(date +%s)000 ;;
    esac
    echo "$time"
}

# The log.

# Of the last bytes of the log, as many as are given: how many nodes there are up to the last one with a policy, and how many are whole; 0
# where there is none. Numbers of nodes ascend. A line that is cut off at its begin is left out, and so is one that the full stop changes.
read_end() {
    { tail -c "$1" "$log" 2>/dev/null; echo .; } | LC_ALL=C awk '
        NR == 1 { next }
        /^n [0-9]+ (r|[0-9]+ [lh])$/ { node = $2 + 1 }
        node && /^([fx] .*[0-9b]|v)$/ { whole = node }
        node && $0 == "v" { found = node }
        END { printf "%.0f %.0f\n", found, whole }'
}

# Whether the program has begun the log: else an older one may stand there.
is_begun() {
    [ -n "$(find "$log" -newer "$notes/begun" 2>/dev/null)" ]
}

# Sets `found` and `whole` as `read_end` tells them, by no more of the log's end than it takes to see a policy.
read_log() {
    found=0
    whole=0
    is_begun || return 0
    size=65536
    bytes=$(wc -c <"$log")
    while :; do
        counts=$(read_end "$size")
        found=${counts% *}
        whole=${counts#* }
        [ "$found" -eq 0 ] && [ "$size" -lt "$bytes" ] || return 0
        size=$((16 * size))
    done
}

# Reads a log from standard input, and leaves its state and the point of its best policy in a folder.
follow() {
    LC_ALL=C awk -v state="$1/state" -v point="$1/point" -v copy="$2" -f "$views/watch.awk"
}

# Has the log followed while the program writes it, into a pipe of which both ends are open before either is used, so that nobody waits for
# the other to open it. Once the program has ended and this script's own end is closed, the log ends. What is left of it is read in any
# case, so that the program can write it, and no signal ends the reader before the program.
begin_reading() {
    rm -f "$log" "$notes/state" "$notes/point"
    mkfifo "$log" || return
    exec 3<>"$log" 4<"$log"
    exec 3>"$log"
    (
        trap '' INT TERM HUP
        exec <&4 3>&- 4<&- 5<&- 6>&- >/dev/null
        if [ -n "$why" ]; then
            follow "$notes" 1 | count_reasons - >"$notes/why"
        else
            follow "$notes"
        fi
        cat >/dev/null
    ) 2>/dev/null &
    reader=$!
    exec 4<&-
}
end_reading() {
    exec 3>&-
    while kill -0 "$reader" 2>/dev/null; do wait "$reader"; done
    reader=
}

# Sets `nodes`, `policies`, `deepest`, `bytes`, `best` and `is_whole` by the state of the log in a folder; they stay where there is none yet.
read_state() {
    { read -r new_nodes new_policies new_deepest new_bytes new_best new_whole <"$1/state"; } 2>/dev/null && [ -n "$new_whole" ] || return 0
    nodes=$new_nodes
    policies=$new_policies
    deepest=$new_deepest
    bytes=$new_bytes
    best=$new_best
    is_whole=$new_whole
}

# Sets them by a log that is a file, once the program has written what it wrote.
read_state_of_file() {
    [ -n "$is_piped" ] || ! is_begun || follow "$notes" <"$log" 2>/dev/null
    nodes=0
    policies=0
    deepest=0
    bytes=0
    best=-
    is_whole=0
    read_state "$notes"
}

# The policy of the log.

# Prints the policy of the point in a folder: the form of policies is what the program answers to the text without objective and constraints.
policy_of() {
    [ "$(tail -n 1 "$1/point" 2>/dev/null)" = end ] || return
    if [ ! -e "$notes/form" ]; then
        LC_ALL=C awk -f "$views/policy.awk" role=cut "$file" >"$notes/declarations" &&
            "$program" solve "$notes/declarations" >"$1/new_form" 2>/dev/null && mv "$1/new_form" "$notes/form" || return
    fi
    LC_ALL=C awk -f "$views/policy.awk" role=text "$file" role=point "$1/point" role=count RS='{' "$notes/form" role=print "$notes/form" >"$1/policy"
}

# Prints the value of that policy: what the program says of it by the text alone. Where it does not satisfy, or is none of the model, the log
# was misread, and there is none.
value_of_policy() {
    policy_of "$1" && { printf '{"policy":'; cat "$1/policy"; printf '}\n'; } >"$1/asked" &&
        "$program" eval "$file" "$1/asked" 2>/dev/null | sed -n 's/.*"answer":"satisfied".*"value":"\([^"]*\)".*/\1/p' | grep .
}

# The member of the answer in a file that is a fraction.
fraction() {
    tail -c 1000 "$2" | sed -n "s/.*\"$1\":\"\([^\"]*\)\".*/\1/p" | grep . || head -c 1000 "$2" | sed -n "s/.*\"$1\":\"\([^\"]*\)\".*/\1/p"
}

# A bound: that of the last answer of a search to a gap, else that of the first node.
bound_of_text() {
    if [ -e "$notes/last" ]; then
        fraction bound "$notes/last"
        return
    fi
    "$program" solve --budget 1 "$file" >"$notes/first" 2>/dev/null
    fraction bound "$notes/first" | grep . || fraction value "$notes/first"
}

# Makes the answer of the best policy of the log, of which the program has told the value, and of a bound that the program has told. Where
# both are equal the policy is optimal.
answer_of_log() {
    [ "$best" != - ] && [ -n "$is_file" ] && value=$(value_of_policy "$notes") && bound=$(bound_of_text) && [ -n "$bound" ] || return
    {
        if [ "$value" = "$bound" ]; then printf '{"answer":"optimal","policy":'; else printf '{"answer":"bounded","bound":"%s","policy":' "$bound"; fi
        cat "$notes/policy"
        printf ',"value":"%s"}\n' "$value"
    } >"$notes/read"
    if [ "$value" = "$bound" ]; then read_status=0; else read_status=5; fi
}

# What runs beside the program.

# Kills the program. Where its memory is measured, what was started is not the program itself, whose number stands in a file soon after.
kill_program() {
    [ -n "$running" ] || return 0
    target=$running
    if [ -n "$measure" ]; then
        for try in 1 2 3 4 5 6 7 8 9 10; do
            [ ! -s "$notes/number" ] || break
            sleep 0.05
        done
        target=$(cat "$notes/number" 2>/dev/null || echo "$running")
    fi
    kill -KILL "$target" 2>/dev/null
}

# Ends the program, for a signal.
stop() {
    stopped=$1
    interrupted=1
    kill_program
}

# Ends the program after as many seconds as are given. What sleeps holds nothing open, and does not outlive its end.
watch_time() {
    sleeper=
    trap 'kill "$sleeper" 2>/dev/null; exit' TERM
    sleep "$1" &
    sleeper=$!
    wait "$sleeper"
    : >"$notes/late"
    kill_program
}

# Tells once a second how far the search came: its nodes, its best value, the bound of the last run, and its seconds.
watch() {
    seen=$notes/seen
    mkdir -p "$seen"
    nodes=0
    policies=0
    told_policies=0
    best_value=${gap_value:-none}
    [ -n "$is_piped" ] || begin_feeding
    while sleep 1; do
        see_state
        if [ "$policies" -ne "$told_policies" ] && [ -n "$is_file" ]; then
            told_policies=$policies
            best_value=$(value_of_policy "$seen") || best_value='not read'
        fi
        line="$nodes nodes, best $best_value${gap_bound:+, bound $gap_bound}, $((($(now) - begun) / 1000)) s"
        printf '\r%-78s' "$line" >&2
    done
}

# Has a log that is a file followed beside the program: what is new in it goes through a pipe.
begin_feeding() {
    fed=0
    rm -f "$seen/feed" "$seen/state" "$seen/point"
    mkfifo "$seen/feed" || return
    follow "$seen" <"$seen/feed" >/dev/null 2>&1 &
    echo "$!" >"$seen/feeder"
    exec 7>"$seen/feed"
}
feed() {
    is_begun || return 0
    size=$(wc -c <"$log")
    [ "$size" -gt "$fed" ] || return 0
    tail -c "+$((fed + 1))" "$log" | head -c "$((size - fed))" >&7
    fed=$size
}

# Ends what is told of a run.
end_watching() {
    [ -n "$watcher" ] || return 0
    { kill -KILL "$watcher" $(cat "$notes/seen/feeder"); wait "$watcher"; } 2>/dev/null
    rm -f "$notes/seen/feeder"
    printf '\r%78s\r' '' >&2
}

# Sees the state of the log: what its reader wrote, once what is new in a file has gone there.
see_state() {
    if [ -n "$is_piped" ]; then
        cp "$notes/point" "$seen/point" 2>/dev/null
        read_state "$notes"
    else
        feed
        read_state "$seen"
    fi
}

# Sets `measure` to what measures the memory of the program, where statistics are asked for and something is there that does.
find_measure() {
    measure=
    [ -n "$stats" ] || return 0
    if [ -x /usr/bin/time ]; then measure=time; elif command -v python3 >/dev/null; then measure=python3; fi
}

# Runs the program on words, with its memory measured.
run_measured() {
    rm -f "$notes/number"
    [ -z "$measure" ] || set -- sh -c 'echo "$$" >"$0"; exec "$@"' "$notes/number" "$program" "$@"
    case $measure in
        time) exec /usr/bin/time -q -o "$notes/memory" -f %M "$@" ;;
        python3)
            exec python3 -c '
import resource, subprocess, sys
status = subprocess.call(sys.argv[2:])
open(sys.argv[1], "w").write("%d\n" % resource.getrusage(resource.RUSAGE_CHILDREN).ru_maxrss)
sys.exit(status if status >= 0 else 128 - status)' "$notes/memory" "$@"
            ;;
        *) exec "$program" "$@" ;;
    esac
}

# Runs the program on words and sets `status`. It ends at `limit` seconds, where that is not empty. A `wait` that a signal ends is begun
# again, and says 127 where the program had ended before.
run_watched() {
    status=127
    rm -f "$notes/late"
    if [ -n "$is_piped" ]; then
        begin_reading || fail 70 'a pipe for the log cannot be made'
        command=$1
        shift
        set -- "$command" --log "$log" "$@"
    elif [ -e "$log" ]; then
        touch -r "$log" "$notes/begun"
    else
        touch -t 200001010000 "$notes/begun"
    fi
    run_measured "$@" <&5 >&6 3>&- 5<&- 6>&- &
    running=$!
    [ -z "$stopped" ] || kill_program
    timer=
    watcher=
    if [ -n "$limit" ]; then
        watch_time "$limit" >/dev/null 2>&1 3>&- 5<&- 6>&- &
        timer=$!
    fi
    if [ -t 2 ] && speaks; then
        watch >/dev/null 3>&- 5<&- 6>&- &
        watcher=$!
    fi
    while :; do
        interrupted=
        wait "$running" 2>/dev/null
        ended=$?
        [ "$ended" -eq 127 ] || status=$ended
        [ -n "$interrupted" ] || break
    done
    running=
    [ -z "$timer" ] || { kill -TERM "$timer"; wait "$timer"; } 2>/dev/null
    end_watching
    timer=
    watcher=
    [ -z "$is_piped" ] || end_reading
}

# Whether the run was ended, by its seconds or by a signal.
was_ended() {
    [ "$status" -gt 128 ] && { [ -n "$stopped" ] || [ -e "$notes/late" ]; }
}

# Calls the function of the first word on the words after the second, with that one as their budget in place of their own.
with_budget() {
    next=$1
    budget=$2
    shift 2
    is_budget=
    for word do
        shift
        [ -z "$is_budget" ] || { is_budget=; continue; }
        case $word in
            --budget) is_budget=1 ;;
            --budget=*) ;;
            *) set -- "$@" "$word" ;;
        esac
    done
    "$next" "$@" --budget "$budget"
}

# What is done where a search was ended.

# Runs the same search in as many seconds as `limit` says, or empty, with a budget in place of that of the words, which is not smaller; of the
# budget is told what is said.
run_bounded() {
    budget=$1
    what=$2
    shift 2
    say "the search was ended; it runs again with --budget $budget, $what, which takes as long again at most, and answers; what its last nodes found may be missing"
    stopped=
    exec 6>"$notes/answer"
    with_budget run_watched "$budget" "$@"
}

# Says something on standard error, where the script may.
say() {
    ! speaks || echo "sopl: $*" >&2
}

# Runs a search that was ended once more, up to what its log has; where it has no node yet, the first one has a bound, if it is not too long.
run_again() {
    if [ -z "$is_piped" ]; then
        read_log
    else
        whole=$nodes
        found=0
        [ "$best" = - ] || found=$((best + 1))
    fi
    limit=
    if [ "$found" -gt 0 ]; then
        run_bounded "$found" 'up to the last node with a policy' "$@"
    elif [ "$whole" -gt 0 ]; then
        run_bounded "$whole" 'all nodes of its log, none with a policy' "$@"
    else
        limit=$seconds
        run_bounded 1 'since its log had no node yet' "$@"
        ! was_ended || fail 70 'nothing is known yet: the first node takes more seconds than that'
    fi
}

# Answers a search that was ended: by the last answer of a search to a gap, where the run after it came no further; else by the best policy
# that its log has; else, or where the words keep a log, by a second run, which ends with a whole log. A search that only a signal ends, and
# that has no policy yet, has no answer, and so has one that was printing it.
answer_ended() {
    signal=$stopped
    if [ -n "$signal" ]; then ended_by=signal; else ended_by=seconds; fi
    trap 'exit 130' INT
    trap 'exit 143' TERM
    read_state_of_file
    [ -z "$is_direct" ] || [ "$is_whole" -eq 0 ] || exit "$signal"
    is_read=
    if [ -e "$notes/last" ] && [ "$nodes" -le "$last_budget" ]; then
        cp "$notes/last" "$notes/read"
        read_status=5
        is_read="the answer is that of the run with --budget $last_budget; the next one came no further"
    elif answer_of_log; then
        is_read="the answer is the best policy of the log, that of node $best of $nodes; what was found since is lost, as the program writes its log in pieces of 65536 bytes"
    fi
    if [ -n "$is_read" ] && [ -n "$is_piped" ]; then
        say "$is_read"
        take_read
        return
    fi
    if [ -z "$is_read$seconds" ] && [ "$best" = - ]; then
        say "a signal ended the search; no policy was found in the $nodes nodes of its log, so there is no answer"
        exit "$signal"
    fi
    stopped=
    trap 'stop 130' INT
    trap 'stop 143' TERM
    run_again "$@"
    is_made=1
    was_ended || return 0
    [ -n "$is_read" ] || exit "$stopped"
    say "that run was ended too, so the log is not whole; $is_read"
    take_read
}
take_read() {
    cp "$notes/read" "$notes/answer"
    status=$read_status
    is_made=1
}

# A search to a gap.

# Whether value and bound of the last answer are within the per cent that are asked for, of the value.
is_near() {
    gap_value=$(fraction value "$notes/last")
    gap_bound=$(fraction bound "$notes/last")
    [ -n "$gap_value" ] && awk -v value="${gap_value%/*}" -v bound="${gap_bound%/*}" -v gap="$gap" '
        function size(a) { return a < 0 ? -a : a }
        BEGIN { exit !(100 * size(bound - value) <= gap * size(value)) }'
}

# Runs a search with budgets that double, up to that of the words, until its answer is no bound, or one that is near.
run_to_gap() {
    most=$(option_of --budget "$@")
    case $most in
        '' | *[!0-9]* | ???????????*) most=${seconds:+$most_budget} ;;
    esac
    most=${most:-$usual_budget}
    next_budget=256
    while :; do
        [ "$next_budget" -lt "$most" ] || next_budget=$most
        exec 6>"$notes/answer"
        [ -z "$seconds" ] || limit=$(left_seconds)
        with_budget run_watched "$next_budget" "$@"
        ! was_ended && [ "$status" -eq 5 ] || return 0
        cp "$notes/answer" "$notes/last"
        last_budget=$next_budget
        if is_near; then
            ended_by=gap
            return
        fi
        [ "$next_budget" -lt "$most" ] || return 0
        next_budget=$((2 * next_budget))
    done
}

# The seconds that are left of those that the search may take, at least a hundredth.
left_seconds() {
    awk -v seconds="$seconds" -v passed="$(($(now) - begun))" 'BEGIN { left = seconds - passed / 1000; printf "%.3f\n", left < 0.01 ? 0.01 : left }'
}

# The whole of a search.

# Runs a search so that it can be watched and ended, and sets `status`. Where the answer went to standard output already, `is_made` is empty.
run_search() {
    begun=$(now)
    is_made=
    log=$(log_of "$@")
    if no_log "$@"; then
        log=$notes/log
        is_piped=1
        [ -z "$why" ] || keep_tree
    fi
    log=$(path_of "$log")
    limit=$seconds
    find_measure
    exec 5<&0
    if [ -n "$is_direct" ]; then exec 6>&1; else exec 6>"$notes/answer"; fi
    trap 'stop 130' INT
    trap 'stop 143' TERM
    if [ -n "$gap" ] && is_of_form "$@"; then
        run_to_gap "$@"
    elif [ -n "$seconds" ] && ! has_option --budget "$@"; then
        with_budget run_watched "$most_budget" "$@"
    else
        run_watched "$@"
    fi
    if was_ended; then answer_ended "$@"; else [ -n "$is_direct" ] || is_made=1; fi
    trap 'exit 130' INT
    trap 'exit 143' TERM
    exec 5<&- 6>&-
    search_time=$(($(now) - begun))
}

# Whether the words are of the form: the budget of others is not replaced, so that the program refuses them.
is_of_form() {
    [ -z "$(wrong_word "$@")" ]
}

# What is said of a search.

# Says of a bounded answer what ended the search: its budget, its seconds, a signal, or its gap.
say_ended() {
    case $ended_by in
        seconds) say "--seconds $seconds ended the search" ;;
        signal) say "a signal ended the search" ;;
        gap) say "--gap $gap ended the search after $last_budget nodes: value and bound are within $gap per cent" ;;
        *)
            spent=$(option_of --budget "$@")
            [ "$last_budget" -eq 0 ] || spent=$last_budget
            say "the budget of ${spent:-$usual_budget} nodes ended the search: --budget N allows more, up to $most_budget"
            ;;
    esac
}

# Prints statistics of the search, as a list or as one JSON object.
show_stats() {
    [ "$ended_by" = signal ] || [ "$ended_by" = seconds ] || read_state_of_file
    memory=$(cat "$notes/memory" 2>/dev/null)
    case $memory in
        '' | *[!0-9]*) memory= ;;
    esac
    [ -n "$ended_by" ] || if [ "$1" -eq 5 ]; then ended_by=budget; else ended_by=itself; fi
    if [ "$stats" = json ]; then
        printf '{"bytes_of_log":%s,"deepest_node":%s,"ended_by":"%s","nodes":%s,"peak_memory":%s,"policies_found":%s,"seconds":%s}\n' \
            "$bytes" "$deepest" "$ended_by" "$nodes" "$(if [ -n "$memory" ]; then echo "$((memory * 1024))"; else echo null; fi)" "$policies" "$(in_seconds)"
        return
    fi
    echo "nodes: $nodes"
    echo "policies found: $policies"
    echo "deepest node: $deepest"
    echo "seconds: $(in_seconds)"
    if [ -n "$memory" ]; then echo "peak memory: $memory KiB"; else echo 'peak memory: not measured, which asks for /usr/bin/time or python3'; fi
    echo "bytes of log: $bytes"
}
in_seconds() {
    awk -v time="$search_time" 'BEGIN { printf "%.3f\n", time / 1000 }'
}
