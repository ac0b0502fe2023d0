# shellcheck shell=bash disable=SC2034,SC2154 # the parts set variables for one another
# Runs of a program, that end with their caller. To be read by scripts that have set root.

running='' watcher='' timer='' room='' leftover='' late=no terminal=''

# end_by_signal: ends all that runs, removes what is half made, and ends with 130.
end_by_signal() {
    trap '' INT QUIT TERM HUP
    [ -z "$running" ] || kill -KILL "$running" 2>/dev/null
    tell_known
    stop_all
    exit 130
}

# stop_all: nothing that was started runs on, and no file is left.
stop_all() {
    [ -z "$running$watcher$timer$leftover$room" ] || end_all
}

# end_all: the same, where there is something.
end_all() {
    local process
    for process in $running $watcher $timer; do
        kill -KILL "$process"
    done
    # shellcheck disable=SC2086 # numbers, or nothing
    [ -z "$running$watcher$timer" ] || wait $running $watcher $timer
    running='' watcher='' timer=''
    [ -z "$leftover" ] || drop_fresh "$leftover"
    [ -z "$room" ] || rm -rf -- "$room"
} 2>/dev/null

# hand_on: what scripts that are started are told of the call, and tie, the words that bind them to this process.
hand_on() {
    tie=()
    [ "${tied-}" != yes ] || tie=(setpriv --pdeathsig KILL)
    export DOKYREVA_PROGRAM=$program DOKYREVA_TIED=${tied-} DOKYREVA_MEMORY=${memory-}
}

# start_program WORD..: starts the program in the background, with this process's standard input, within the memory that was
# asked for. The limit is on data, and not on the address space: within that the main stack could not grow, and a run that had
# memory left would end by a signal. Where the system can do that, it ends with this process, whatever ends that.
start_program() {
    hand_on
    if [ -n "$memory" ]; then
        # Where the system allows less, that is what there is.
        (ulimit -d $((memory * 1024)) 2>/dev/null; exec "${tie[@]}" "$program" "$@") <&0 &
    else
        "${tie[@]}" "$program" "$@" <&0 &
    fi
    running=$!
}

# run_program WORD..: sets status to that of the program. Where standard error is a terminal it shows there what the run uses.
run_program() {
    trap end_by_signal INT QUIT TERM HUP
    start_program "$@"
    [ ! -t 2 ] || watch_program "$@"
    wait_for_program
    if [ -n "$watcher" ]; then
        { kill -KILL "$watcher"; wait "$watcher"; } 2>/dev/null
        watcher=''
        printf '\033[K' >&2
    fi
}

# watch_program WORD..: shows on the terminal what the run uses, and what is known so far. Where the search is bounded by the clock
# or in its memory, no second one runs beside it.
watch_program() {
    local scouts=no
    command -v python3 >/dev/null && open_room || return 0
    [ -n "$terminal" ] || exec {terminal}>&2
    [[ $1 != plan && $1 != plan-all || $tied != yes || -n $memory$seconds ]] || scouts=yes
    "${tie[@]}" python3 "$root/launch/progress.py" "$running" "$room" "$scouts" "$@" </dev/null >/dev/null &
    watcher=$!
}

# open_room: a folder for reports that are not shown yet.
open_room() {
    [ -z "$room" ] || return 0
    trap end_by_signal INT QUIT TERM HUP
    room=$(mktemp -d) && return
    say "there is no folder for a report: $TMPDIR cannot be written"
    status=6
    return 1
}

# tell_known: what was known of a search that is interrupted on a terminal. Standard error may be turned away where a trap begins.
tell_known() {
    local known=''
    [ -n "$terminal" ] || return 0
    printf '\033[K' >&"$terminal"
    [[ ${words[0]-} == plan || ${words[0]-} == plan-all ]] || return 0
    [ ! -r "$room/known" ] || read -r known <"$room/known"
    say "${known:+known so far: }${known:-nothing is known so far}" 2>&"$terminal"
} 2>/dev/null

# wait_for_program: sets status. The signal of the timer interrupts the first wait, and is no end.
wait_for_program() {
    local before
    while :; do
        before=$late
        wait "$running"
        status=$?
        [ "$before" = "$late" ] && break
    done 2>/dev/null
    running=''
}
