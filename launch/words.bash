# shellcheck shell=bash disable=SC2034,SC2154 # the parts set variables for one another
# The words that are taken, for those who ask and for those who miss one; all of it stands in launch/help: in NAME.txt a
# command's synopsis, its summary, and what is to be said of it, with rows for options of its own and a line with the names of
# those that stand in options.txt. To be read by scripts that have set root, after commands.bash.

# find_commands: sets commands to all that are answered here.
find_commands() {
    local name by needs
    commands=''
    while read -r name by needs; do
        is_there "$by" && is_there "${needs:-plan_prog}" && commands+=" $name"
    done <"$root/launch/help/commands.txt"
    commands=${commands# }
}

# options_of COMMAND: the options that it takes; all that there are where it is no command.
options_of() {
    local line taken=''
    if [ ! -f "$root/launch/help/$1.txt" ]; then
        cut -d ' ' -f 1 "$root/launch/help/options.txt" | paste -sd ' '
        return
    fi
    while read -r line; do
        case $line in
        'Options: '*) taken+=" ${line#Options: }" ;;
        --*) taken+=" ${line%% *}" ;;
        esac
    done <"$root/launch/help/$1.txt"
    echo "${taken# }"
}

# tell_options NAME..: rows of options, as a table.
tell_options() {
    awk -F '  +' -v names=" $* " '
        index(names, " " $1 " ") {
            printf "  %-13s %-20s %-9s %s\n", $1, $2 == "-" ? "" : $2, $3 == "-" ? "" : "(" $3 ")", $5
        }' "$root/launch/help/options.txt"
}

# tell_help COMMAND CALLED: the help of a command, with what stands before its name where it is called.
tell_help() {
    local names
    awk -F '  +' -v called="$2" '
        NR == 1 { gsub(/ [|] /, "&" called); print "usage: " called $0; next }
        /^Options: / { next }
        /^--/ { printf "  %-13s %-20s %-17s %s\n", $1, $2 == "-" ? "" : $2, $3 == "-" ? "" : "(" $3 ")", $5; next }
        { print }' "$root/launch/help/$1.txt"
    names=$(sed -n 's/^Options: //p' "$root/launch/help/$1.txt")
    if [ -n "$names" ]; then
        echo 'Options, with what may stand for each and its default'
        # shellcheck disable=SC2086 # names are words
        tell_options $names
    fi
}

# tell_words: all commands, options and statuses.
tell_words() {
    local name
    find_commands
    echo "$called COMMAND WORD..; $called COMMAND --help tells more of one"
    for name in $commands; do
        { IFS= read -r synopsis && IFS= read -r summary; } <"$root/launch/help/$name.txt"
        [ "${#synopsis}" -le 45 ] || synopsis=${synopsis%% \[--*}
        printf '  %-45s %s\n' "$synopsis" "$summary"
    done
    echo "Options, with what may stand for each and its default"
    # shellcheck disable=SC2046 # names are words
    tell_options $(options_of '')
    echo "Statuses"
    awk -F '  +' '{ printf "  %-4s %s\n", $1, $2 }' "$root/launch/help/statuses.txt"
}

# tell_version: what stands here, with the toolchain that it was proved with.
tell_version() {
    local number='' described=''
    [ ! -r "$root/VERSION" ] || read -r number <"$root/VERSION"
    [ ! -e "$root/.git" ] || described=$(git -C "$root" describe --always --dirty 2>/dev/null)
    echo "dokyreva${number:+ $number}${described:+ ($described)}"
    if [ -d "$root/crates" ]; then
        use keep sources
        look_through
        echo "sources $sources"
    elif [ -r "$root/release/SOURCES" ]; then
        echo "sources $(<"$root/release/SOURCES")"
    fi
    [ ! -r "$root/release/TOOLCHAIN" ] || echo "the release was proved with $(<"$root/release/TOOLCHAIN")"
}
