# shellcheck shell=dash disable=SC2034,SC2154 # the parts set variables for one another
# A call of the planner, to be read by ./plan and ./dokyreva, which have set root and the words. Where the words are for a program
# alone, that program was seen whole before, and standard error is no terminal, it is run from here; all else, and what its
# status comes from where something has to be told, is for launch/main.bash.
case $root in
/*) ;;
*) root=$PWD/${root#./} ;;
esac
root=${root%/.}
. "$root/launch/ready.sh"

# is_plain WORD..: the words are for a program alone, and by is which.
is_plain() {
    [ $# -gt 0 ] && [ ! -t 2 ] || return
    case " $* " in
    *' --help '* | *' -h '* | *' --memory'* | *' --seconds'* | *' --plan-file'* | *' --all-faults '* | *' --timed '*) return 1 ;;
    esac
    is_command "$1" || return
    case $by in
    *_prog) ;;
    *) return 1 ;;
    esac
}

# is_ready: sets program to the one that is by, and tied.
is_ready() {
    local cache
    find_cache
    set -- "$root/out" ${cache:+"$cache/dokyreva"}
    known_sources "$@" && seen_release "$by" "$@"
}

# can_hand_on: standard input is open, and no other file has the number 9, by which it is handed to the program.
can_hand_on() {
    { :; } 2>/dev/null 9<&0 || return
    # (the status of a redirection that fails is not turned by ! in bash)
    if { :; } 2>/dev/null <&9; then return 1; fi
}

# run_ready WORD..: runs the program with this process's standard input, and sets status. It ends with this process.
run_ready() {
    local tie=''
    [ "$tied" != yes ] || tie='setpriv --pdeathsig KILL'
    trap end_ready INT QUIT TERM HUP
    # A background command has nothing on standard input but what is handed to it by another number.
    exec 9<&0
    # shellcheck disable=SC2086 # words, or nothing
    $tie "$program" "$@" <&9 9<&- &
    wait "$!" 2>/dev/null
    status=$?
    trap - INT QUIT TERM HUP
    exec 9<&-
}

# end_ready: ends the program, and this process with 130. A signal may come before the shell has gone on from its start, but not
# before the shell knows its number.
end_ready() {
    trap '' INT QUIT TERM HUP
    if [ -n "$!" ]; then
        kill -KILL "$!"
        wait "$!"
    fi 2>/dev/null
    exit 130
}

# find_uptime: sets uptime to the seconds since the machine was started.
find_uptime() {
    uptime=0
    [ ! -r /proc/uptime ] || read -r uptime _ </proc/uptime
    uptime=${uptime%%.*}
}

# What ended is told to main.bash as STATUS:SECONDS, with the seconds that the run took.
ended=''
if is_plain "$@" && is_ready && can_hand_on; then
    keep_tables
    find_uptime
    begun=$uptime
    echo 'dokyreva: this is the proved program of the release' >&2
    run_ready "$@"
    case $status:$1 in
    1:check | [12]:plan | [12]:plan-all) ;;
    [012]:*) exit "$status" ;;
    esac
    find_uptime
    ended=$status:$((uptime - begun))
fi
# Options of bash that the environment hands on change no script here.
exec env -u SHELLOPTS -u BASHOPTS bash "$root/launch/main.bash" "$root" "$ended" "$@"
