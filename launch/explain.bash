# shellcheck shell=bash disable=SC2034,SC2154 # the parts set variables for one another
# What a status comes from, on standard error. To be read after watch.bash and words.bash.

# tell_end: tells it. A call that succeeded takes no part of this.
tell_end() {
    case $status in
    6) say "the report could not be written" ;;
    8) say "want of memory${memory:+ within the $memory MB of --memory}; nothing was written" ;;
    9) say "the system did not give the words" ;;
    126 | 127)
        say "the program could not be run (status $status)"
        status=70
        ;;
    *) [ "$status" -le 128 ] || say "the program was ended by signal $((status - 128))" ;;
    esac
    case $status:${words[0]-} in
    [3457]:* | 1:check | 2:search | 2:never | 2:never-search | [12]:plan | [12]:plan-all | 124:plan | 124:plan-all) explain ;;
    esac
    if [ "$status" = 7 ] && [ -t 2 ]; then
        if is_command "${words[0]-}"; then tell_help "${words[0]}" "$called " >&2; else tell_words >&2; fi
    fi
}

# explain: runs explain.py, which reads the files. It ends with this process.
explain() {
    local kept=$status
    if ! command -v python3 >/dev/null; then
        say "what this comes from is told where there is python3"
        return
    fi
    find_commands
    trap end_by_signal INT QUIT TERM HUP
    hand_on
    DOKYREVA_COMMANDS=$commands DOKYREVA_CALLED=$called DOKYREVA_REPORT=${room:+"$room/report"} DOKYREVA_WARNED=$warned \
        DOKYREVA_ALL=$all_faults "${tie[@]}" python3 "$root/launch/explain.py" "$status" "$SECONDS" "${words[@]}" </dev/null >/dev/null &
    running=$!
    wait_for_program
    status=$kept
}
