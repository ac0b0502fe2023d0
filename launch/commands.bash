# shellcheck shell=bash disable=SC2034,SC2154 # the parts set variables for one another
# The commands. To be read by scripts that have set root.

# called: how a command is called here.
called=dokyreva
[ ! -d "$root/crates" ] || called=./dokyreva

# files_of WORD..: sets files to the words of a command that are no options.
files_of() {
    files=()
    while [ $# -gt 0 ]; do
        case $1 in
        --) break ;;
        --*=*) ;;
        --?*) [ $# = 1 ] || shift ;;
        *) files+=("$1") ;;
        esac
        shift
    done
    files+=("${@:2}")
}

# asks_help WORD..: whether help is asked for among the words.
asks_help() {
    local word
    for word; do
        case $word in
        --) return 1 ;;
        --help | -h) return 0 ;;
        esac
    done
    return 1
}
