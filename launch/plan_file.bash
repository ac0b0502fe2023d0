# shellcheck shell=bash disable=SC2034,SC2154 # the parts set variables for one another
# The file of --plan-file: which files are left alone, and how it is written. To be read after own.bash, watch.bash and fresh.bash.

# see_plan_file WORD..: ends with 7 where it is a file that the words name, by whatever name, or one that is no plan file.
see_plan_file() {
    local word
    [ -e "$plan_file" ] || return 0
    for word; do
        [[ ! $plan_file -ef $word ]] || refuse_own "--plan-file names $word, which is to be read: it stays as it is"
    done
    is_plan_file "$plan_file" || refuse_own "$plan_file is no plan file (calls and comments alone): it stays as it is"
}

# is_plan_file FILE: each line has calls, and a comment or none.
is_plan_file() {
    LC_ALL=C grep -a -q -v -E '^[[:space:]]*(\([[:space:]]*[^();[:space:]][^();]*\)[[:space:]]*)*(;.*)?$' -- "$1" 2>/dev/null
    [ $? = 1 ]
}

# are_taken WORD..: whether the program takes these words: it is asked with files that cannot be there in the place of theirs.
are_taken() {
    local asked=("${1-}")
    shift
    while [ $# -gt 0 ]; do
        case $1 in
        --) break ;;
        --*=*) asked+=("$1") ;;
        --?*) asked+=("${@:1:2}") && { [ $# = 1 ] || shift; } ;;
        *) asked+=("/dev/null/$1") ;;
        esac
        shift
    done
    [ $# = 0 ] || asked+=(-- "${@:2}")
    "$program" "${asked[@]}" >/dev/null 2>&1 </dev/null
    [ $? = 5 ]
}

# begin_plan_file WORD..: where the words are taken, no plan of an earlier run is left, and a new one can be written there.
begin_plan_file() {
    if ! are_taken "$@"; then
        plan_file=''
        return
    fi
    trap end_by_signal INT QUIT TERM HUP
    leftover=${plan_file%"${plan_file##*/}"}.dokyreva
    fresh "$leftover" && rm -f -- "$plan_file" 2>/dev/null && return
    say "the plan cannot be written to $plan_file"
    stop_all
    exit 6
}

# end_plan_file: after status 0 the calls of the report, whole, else nothing. From here on the run is at its end, and no signal
# changes what it comes to.
end_plan_file() {
    trap '' INT QUIT TERM HUP
    if [ "$status" = 0 ]; then
        if ! { grep '^(' "$room/report" || [ $? = 1 ]; } >"$made" 2>/dev/null || ! put_fresh "$made" "$plan_file"; then
            say "the plan could not be written to $plan_file"
            status=6
        fi
    fi
    drop_fresh "$leftover"
    leftover=''
}
