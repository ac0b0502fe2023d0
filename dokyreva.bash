# Completion for bash: . dokyreva.bash, then the Tab key after ./dokyreva, ./plan, ./plan-by, ./never-by, ./spread or ./plan-view, or after
# these names without their folder. What is completed stands in launch/help.

_dokyreva_help=$(readlink -f -- "${BASH_SOURCE[0]}")
_dokyreva_help=${_dokyreva_help%/*}/launch/help

# _dokyreva_options COMMAND: the options of a command, as they stand in its help.
_dokyreva_options() {
    local line
    [ -f "$_dokyreva_help/$1.txt" ] || return
    while read -r line; do
        case $line in
        'Options: '*) printf '%s ' "${line#Options: }" ;;
        --*) printf '%s ' "${line%% *}" ;;
        esac
    done <"$_dokyreva_help/$1.txt"
}

# _dokyreva_values COMMAND OPTION: what may stand for an option: values, FILE or FOLDER, - where it takes none, or nothing.
_dokyreva_values() {
    awk -F '  +' -v name="$2" '
        $1 == name {
            if ($2 ~ /^(FILE|FOLDER|-)$/) print $2; else if ($4 != "-") print $4
            exit
        }' "$_dokyreva_help/$1.txt" "$_dokyreva_help/options.txt"
}

# _dokyreva_there NAME: whether there is a program of this name, or a script with this path.
_dokyreva_there() {
    local root=$_dokyreva_help/../..
    [[ $1 == plan_prog || -d $root/crates/$1 || -f $root/release/$1.gz || -f $root/release/$1 || -f $root/$1 ]]
}

# _dokyreva_commands: the commands that there are here.
_dokyreva_commands() {
    local name by needs
    while read -r name by needs; do
        _dokyreva_there "$by" && _dokyreva_there "${needs:-plan_prog}" && printf '%s ' "$name"
    done <"$_dokyreva_help/commands.txt"
    echo help
}

# _dokyreva_words WORDS..: completes the last word from a list.
_dokyreva_words() {
    mapfile -t COMPREPLY < <(compgen -W "$*" -- "${COMP_WORDS[COMP_CWORD]}")
}

_dokyreva() {
    local word=${COMP_WORDS[COMP_CWORD]} before=${COMP_WORDS[COMP_CWORD - 1]} place=$COMP_CWORD command values=''
    command=${COMP_WORDS[0]##*/}
    if [ "$command" = dokyreva ]; then
        command=${COMP_WORDS[1]-} place=$((place - 1))
    fi
    if [ "$place" = 0 ]; then
        _dokyreva_words "$(_dokyreva_commands)"
        return
    fi
    [[ $before != --* ]] || values=$(_dokyreva_values "$command" "$before")
    if [ "$command" = help ]; then
        _dokyreva_words "$(_dokyreva_commands)"
    elif [ "$command" = gen ] && [ "$place" = 1 ]; then
        _dokyreva_words corridor gripper
    elif [ "$command" = plan-by ] && [ "$place" = 1 ]; then
        _dokyreva_words cadical kissat drat:
    elif [ "$command" = never-by ] && [ "$place" = 1 ]; then
        _dokyreva_words glpk abc never-search all
    elif [ "$values" = FOLDER ]; then
        mapfile -t COMPREPLY < <(compgen -d -- "$word")
    elif [[ $before == --* && $before != --help && $values != FILE && $values != - ]]; then
        _dokyreva_words "$values"
    elif [[ $word == -* ]]; then
        _dokyreva_words "$(_dokyreva_options "$command") --help"
    else
        mapfile -t COMPREPLY < <(compgen -f -- "$word")
    fi
}

complete -o filenames -F _dokyreva dokyreva ./dokyreva plan ./plan plan-by ./plan-by never-by ./never-by spread ./spread plan-view ./plan-view
