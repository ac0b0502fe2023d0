# shellcheck shell=bash disable=SC2034,SC2154 # the parts set variables for one another
# The options of the launcher itself, which the program does not take. To be read after words.bash.

# take_own WORD..: sets words to those that are for the program, and memory, seconds, plan_file, all_faults and timed. Ends with 7
# where one of its own is not as it has to be.
take_own() {
    words=() memory='' seconds='' plan_file='' all_faults='' timed=''
    while [ $# -gt 0 ]; do
        if is_of_program "${1%%=*}"; then
            words+=("$1")
            shift
            continue
        fi
        case $1 in
        --) break ;;
        --memory | --seconds | --plan-file)
            [ $# -ge 2 ] || refuse_own "$1 has no value"
            set_own "$1" "$2"
            shift
            ;;
        --all-faults) all_faults=yes ;;
        --timed) timed=yes ;;
        --memory=* | --seconds=* | --plan-file=*) set_own "${1%%=*}" "${1#*=}" ;;
        *) words+=("$1") ;;
        esac
        shift
    done
    words+=("$@")
    check_own "${words[0]-}"
}

# is_of_program WORD: it is an option that the command's program takes itself: it stands in a row of the command's own help.
is_of_program() {
    [ "$1" = --memory ] && is_command "${words[0]-}" && grep -q -e "^$1 " "$root/launch/help/${words[0]}.txt"
}

set_own() {
    case $1 in
    --memory)
        take_count "$memory" "$2" "$1" megabytes
        memory=$2
        ;;
    --seconds)
        take_count "$seconds" "$2" "$1" seconds
        seconds=$2
        ;;
    --plan-file)
        [ -z "$plan_file" ] && [ -n "$2" ] || refuse_own "--plan-file takes the name of a file once"
        plan_file=$2
        [ ! -e "$2" ] || { [ -f "$2" ] && [[ $2 != /dev/* && $2 != /proc/* ]]; } || refuse_own "$2 is no file"
        [ ! -L "$plan_file" ] || plan_file=$(readlink -f -- "$plan_file") || refuse_own "$2 is no file"
        ;;
    esac
}

# take_count BEFORE WORD OPTION UNITS: ends with 7 where the option stood before, or the word is none of the numbers that may stand.
take_count() {
    local name least most
    while read -r name least _ most _; do
        [ "$name" != "$3" ] || break
    done <"$root/launch/help/options.txt"
    [[ -z $1 && $2 =~ ^[1-9][0-9]{0,8}$ ]] && [ "$2" -ge "$least" ] && [ "$2" -le "$most" ] && return
    refuse_own "$3 takes $4 once, $least to $most, and not '$2'"
}

refuse_own() {
    say "$*"
    exit 7
}

# check_own COMMAND: it takes those of the launcher's own options that stand among the words.
check_own() {
    local taken
    [ -n "$memory$seconds$plan_file$all_faults$timed" ] && is_command "$1" || return 0
    use words
    taken=" $(options_of "$1") "
    [[ -z $memory || $taken == *' --memory '* ]] || refuse_own "$1 takes no option --memory"
    [[ -z $seconds || $taken == *' --seconds '* ]] || refuse_own "$1 takes no option --seconds"
    [[ -z $plan_file || $taken == *' --plan-file '* ]] || refuse_own "$1 takes no option --plan-file"
    [[ -z $all_faults || $taken == *' --all-faults '* ]] || refuse_own "$1 takes no option --all-faults"
    [[ -z $timed || $taken == *' --timed '* ]] || refuse_own "$1 takes no option --timed"
}
