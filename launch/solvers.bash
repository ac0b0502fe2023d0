# shellcheck shell=bash disable=SC2034,SC2154 # the parts set variables for one another
# SAT solvers: which are there, and how each is called. To be read by ./plan-by and ./spread.

# find_solver: sets way (lrat: it writes LRAT itself; drat: drat-trim makes that of its proof) and words, how the solver of
# this name is called before the names of formula and proof. Ends with 70 where it is not there.
find_solver() {
    case $solver in
    cadical)
        has_command cadical 'the package cadical has it'
        words=(cadical -q --no-binary) way=drat
        ! is_cadical_with_lrat || { words+=(--lrat) && way=lrat; }
        ;;
    kissat)
        has_command kissat 'the package kissat has it (Debian 13)'
        words=(kissat -q --no-binary) way=drat
        ! kissat --help 2>/dev/null | grep -q -e --factor || words+=(--factor=false)
        ;;
    drat:?*)
        read -r -a words <<<"${solver#drat:}"
        has_command "${words[0]}" "$solver names it"
        way=drat
        ;;
    *) usage "the solver is cadical, kissat or drat:WORDS" ;;
    esac
    [ "$way" = lrat ] || has_command drat-trim "the package drat-trim has it (Debian 13); cadical from 1.7 on needs none"
}

# add_seed: the words of the solver with the seed; where it takes none, SEED among them stands for it.
add_seed() {
    case $solver in
    cadical | kissat) words+=("--seed=$seed") ;;
    *) words=("${words[@]//SEED/$seed}") ;;
    esac
}

# has_command NAME WHERE
has_command() {
    command -v -- "$1" >/dev/null || wrong "there is no command $1: $2"
}

# is_cadical_with_lrat: it is 1.7 or later.
is_cadical_with_lrat() {
    local version major minor
    version=$(cadical --version 2>/dev/null)
    IFS=. read -r major minor _ <<<"$version"
    [[ $major =~ ^[0-9]+$ && $minor =~ ^[0-9]+$ ]] && [ $((major * 1000 + minor)) -ge 1007 ]
}

# solve FORMULA PROOF: runs the solver for as long as it may, with its lines on standard output. PROOF is where its LRAT goes.
# Ends with 10 where it says that there is a model, 20 where there is none.
solve() {
    local ended
    if [ "$way" = lrat ]; then
        timeout --foreground -k 5 "$seconds" "${words[@]}" "$1" "$2"
        return
    fi
    timeout --foreground -k 5 "$seconds" "${words[@]}" "$1" "$1.drat"
    ended=$?
    [ "$ended" != 20 ] || drat-trim "$1" "$1.drat" -L "$2" -t "$((seconds * 10))" >/dev/null 2>&1
    rm -f -- "$1.drat"
    return "$ended"
} 2>/dev/null </dev/null
