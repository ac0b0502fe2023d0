# shellcheck shell=bash disable=SC2034,SC2154 # the parts set variables for one another
# Finds the programs for launch/solve, and runs it. To be read by ./solve, ./plan-by and ./never-by, which have set root.
. "$root/launch/places.bash"
use programs commands

# run_driver TOOL WORD..: becomes the driver with these words.
run_driver() {
    local tool=$1 planner judge others cache=(-B)
    shift
    if [[ ${1-} == --help || ${1-} == -h ]]; then
        use words
        tell_help "$tool" "${called%dokyreva}"
        exit 0
    fi
    command -v python3 >/dev/null || { say "there is no command python3: the package python3 has it"; exit 70; }
    find_places
    take_programs "$tool"
    find_cache_of_python
    exec python3 -I -S "${cache[@]}" "$root/launch/solve/__main__.py" "$tool" "$root" "planner=$planner" "judge=$judge" "${others[@]}" -- "$@"
}

# take_programs TOOL: sets planner and judge to programs, or to nothing where there is none, and others to a line WORD=PROGRAM for each word
# of a program that may be there. ./solve needs the planner, ./plan-by the judge; ./never-by needs never, and says itself where there is none.
take_programs() {
    local word named wanted=plan_prog
    local -A found=()
    [ "$1" != plan-by ] || wanted=judge_prog
    [ "$1" != never-by ] || wanted=
    [ -n "${SOLVE_PLANNER+named}" ] || take_program plan_prog "$wanted" || exit
    [ -n "${SOLVE_JUDGE+named}" ] || take_program judge_prog "$wanted" || exit
    planner=${SOLVE_PLANNER-${found[plan_prog]}} judge=${SOLVE_JUDGE-${found[judge_prog]}} others=()
    for word in search never never-search system never-formula; do
        named=SOLVE_NEVER
        [ "$word" != search ] || named=SOLVE_SEARCH
        if [ -n "${!named+named}" ]; then
            others+=("$word=${!named}")
        elif is_command "$word" && [[ $by == *_prog ]]; then
            [ -n "${found[$by]+seen}" ] || take_program "$by" ''
            others+=("$word=${found[$by]}")
        fi
    done
}

# take_program NAME WANTED: sets found[NAME] to its path, or to nothing; it is built where it is the wanted one and nothing else is there.
take_program() {
    found[$1]=
    is_there "$1" || return 0
    if [ "$1" = "$2" ]; then
        find_or_build "$1" || return
        say "this is $what"
    else
        find_program "$1" || return 0
    fi
    found[$1]=$program
}

# find_cache_of_python: where Python keeps what it has compiled: in a place of this user, or nowhere.
find_cache_of_python() {
    local place
    use keep
    for place in "${places[@]}"; do
        if make_place "$place"; then
            cache=(-X "pycache_prefix=$place/python")
            return
        fi
    done
}
