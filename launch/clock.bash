# shellcheck shell=bash disable=SC2034,SC2154 # the parts set variables for one another
# Runs that are bounded by the clock, and reports that are kept before they are shown. To be read after watch.bash.

# start_timer SECONDS: after so many seconds late is set and the program is ended.
start_timer() {
    use nap
    trap 'late=yes; [ -z "$running" ] || kill -KILL "$running" 2>/dev/null' ALRM
    (
        trap - INT QUIT TERM HUP ALRM
        for ((k = 0; k < $1; k++)); do
            nap 1
            is_child_of $$ || exit
        done
        kill -ALRM $$
    ) </dev/null >/dev/null 2>&1 &
    timer=$!
}

# is_child_of PROCESS: it has started this one, and is still there: its number may be that of another one later.
is_child_of() {
    local stat
    read -r stat <"/proc/$BASHPID/stat"
    stat=${stat##*) }
    read -r _ stat _ <<<"$stat"
    [ "$stat" = "$1" ]
}

# split_budget WORD..: sets budget to the words' own one, or to nothing, and rest to the words without it. Where it stands twice,
# which the program does not take, nothing is split.
split_budget() {
    local given=("$@")
    budget='' rest=()
    while [ $# -gt 0 ]; do
        case $1 in
        --) break ;;
        --budget | --budget=*)
            if [ -n "$budget" ]; then
                budget='' rest=("${given[@]}") twice=yes
                return
            fi
            case $1 in
            --budget) budget=${2-} && shift ;;
            *) budget=${1#*=} ;;
            esac
            ;;
        *) rest+=("$1") ;;
        esac
        [ $# = 0 ] || shift
    done
    rest+=("$@")
}

# budgets_to LAST: sets steps to the growing budgets of which the last one is LAST.
budgets_to() {
    local next
    steps=()
    for next in 250 1000 4000 16000 64000 256000; do
        [ "$next" -ge "$1" ] || steps+=("$next")
    done
    steps+=("$1")
}

# budgets_for WORD..: sets steps to the budgets that are asked for in turn, and rest to the words beside them. Without a
# budget among the words, the clock alone ends the search.
budgets_for() {
    local budget twice=no
    split_budget "$@"
    if [[ $twice == yes || " $(options_of "$1") " != *' --budget '* ]]; then
        steps=('')
    elif [[ ${budget:=1000000} =~ ^[0-9]{1,7}$ ]]; then
        budgets_to "$((10#$budget))"
    else
        steps=("$budget")
    fi
}

# run_by_clock WORD..: asks for growing budgets, so that what a shorter search has found is not lost: the report of a greater
# budget is the same as far as the shorter one went. Shows the last report that ended. Sets status, 124 where time was short.
run_by_clock() {
    local rest steps next ended='' whole=no
    open_room || return
    budgets_for "$@"
    start_timer "$seconds"
    for next in "${steps[@]}"; do
        run_program "${rest[0]}" ${next:+"--budget=$next"} "${rest[@]:1}" >"$room/next"
        [[ $late == no || $status -lt 128 ]] || break
        if [ -n "$ended" ] && [[ $status == 8 || $status -ge 126 ]]; then
            say "a search with --budget $next ends with status $status"
            status=2 whole=yes
            break
        fi
        mv -f -- "$room/next" "$room/report"
        ended=$next
        if [ "$next" = "${steps[-1]}" ] || ! is_unfinished; then
            whole=yes
            break
        fi
        [ "$late" = no ] || break
    done
    end_timer
    tell_clock "$ended"
    [ ! -f "$room/report" ] || show_report
}

# is_unfinished: a greater budget may tell more. Of several problems one may be refused while the budget of another is spent.
is_unfinished() {
    [ "$status" = 2 ] || grep -q '^; unfinished' "$room/report"
}

# tell_clock BUDGET: what the report stands for that is shown. Sets status where time was short.
tell_clock() {
    if [ "$whole" = no ]; then
        status=124
        if [ -f "$room/report" ]; then
            say "$seconds seconds are over: this is the report of a search with --budget $1, the greatest that ended"
        else
            say "$seconds seconds are over, and no search has ended by then"
        fi
    elif [ -n "$1" ] && [ "$status" -le 4 ]; then
        say "this is the report of a search with --budget $1"
    fi
}

end_timer() {
    { kill -KILL "$timer"; wait "$timer"; } 2>/dev/null
    timer=''
    trap - ALRM
}

# show_report: what the program wrote, on standard output. Where it cannot be written there status is 6.
show_report() {
    cat -- "$room/report" 2>/dev/null || status=6
}

# run_kept WORD..: runs the program, and shows its report, which stays in the room.
run_kept() {
    open_room || return
    run_program "$@" >"$room/report"
    show_report
}
