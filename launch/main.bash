# shellcheck shell=bash disable=SC2034,SC2154 # the parts of launch/ set variables for one another
# main.bash ROOT ENDED WORD..: answers the words of a call of the planner; ENDED is nothing, or STATUS:SECONDS of the program that
# has run on them already.
# What the environment may have set otherwise, also that functions within one another are left out.
set +efC -u
unset -v FUNCNEST
shopt -s nullglob

root=$1 ended=$2
shift 2

say() {
    printf 'dokyreva: %s\n' "$*" >&2
}

. "$root/launch/places.bash"
use programs commands watch

# run_words: runs the program on the words.
run_words() {
    [ -z "$plan_file$seconds" ] || use clock words
    [ -z "$plan_file" ] || begin_plan_file "${words[@]}"
    if [ -n "$seconds" ]; then
        run_by_clock "${words[@]}"
    elif [ -n "$plan_file" ]; then
        run_kept "${words[@]}"
    else
        run_program "${words[@]}"
    fi
    [ -z "$plan_file" ] || end_plan_file
}

# warn: on a terminal, what is odd in the files, before a plan is searched.
warn() {
    local files
    [ -t 2 ] && [[ ${words[0]-} == plan || ${words[0]-} == plan-all ]] || return
    files_of "${words[@]:1}"
    [ "${#files[@]}" = 2 ] || return
    warned=yes
    DOKYREVA_PROGRAM=$program timeout --foreground 5 "$root/launch/lint.py" --quiet "${files[@]}" >&2 2>/dev/null </dev/null
}

by=''
case ${1-} in
help | --help | -h | --version)
    find_places
    use words
    if [ "$1" = --version ] && [ $# = 1 ]; then
        tell_version
        exit 0
    elif [ $# = 1 ]; then
        tell_words
        exit 0
    elif [ "$1" = help ] && [ $# = 2 ] && is_command "$2"; then
        tell_help "$2" "$called "
        exit 0
    fi
    ;;
*)
    if is_command "${1-}" && asks_help "${@:2}"; then
        use words
        tell_help "$1" "$called "
        exit 0
    fi
    ;;
esac
find_places
by=${by:-plan_prog}
if [[ $by != *_prog ]]; then
    find_or_build plan_prog || exit
    DOKYREVA_COMMAND=$1 DOKYREVA_PROGRAM=$program exec "$root/$by" "${@:2}"
fi
words=("$@") memory='' seconds='' plan_file='' all_faults='' timed='' warned=''
if [[ " $*" =~ \ --(memory|seconds|plan-file|all-faults|timed) ]]; then
    use own fresh plan_file
    take_own "$@"
    [ -z "$plan_file" ] || see_plan_file "${words[@]}"
    [ -z "$timed" ] || { use timed && take_timed; }
fi
find_or_build "${by:-plan_prog}" || exit
SECONDS=0
if [ -n "$ended" ]; then
    status=${ended%:*} SECONDS=${ended#*:}
else
    say "this is $what"
    warn
    run_words
fi
if [ "$status" != 0 ]; then
    use words explain
    tell_end
fi
stop_all
exit "$status"
