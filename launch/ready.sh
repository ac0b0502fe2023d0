# shellcheck shell=dash disable=SC2034,SC2154 # the parts set variables for one another
# Which program answers a command, as far as it can be told without a process: what was seen and kept by an earlier call. To be
# read by scripts that have set root. It is plain sh, since the start of bash takes longer than many a plan: a call of which
# nothing has to be told is made by ready.sh and start.sh alone, and all other parts are read by bash.
#
# PROGRAM.seen has a line with the sum for each machine on which this was seen (another may have an older C library), and the
# time stamp of the program itself: where they differ by anything, all is looked at again. The bytes themselves are compared
# with the sum of the release at each call.

# is_command WORD: it is one, and by is set to what answers it, else to nothing. launch/help/commands.txt has each with what
# answers it: a program by its name, or a script by its path, and a program that the script needs. A program that is not there
# answers nothing.
is_command() {
    local name needs
    while read -r name by needs; do
        [ "$name" = "$1" ] && is_there "$by" && is_there "${needs:-plan_prog}" && return
    done <"$root/launch/help/commands.txt"
    return 1
}

# is_there ANSWERER
is_there() {
    case $1 in
    plan_prog) ;;
    *_prog) [ -d "$root/crates/$1" ] || [ -f "$root/release/$1.gz" ] || [ -f "$root/release/$1" ] ;;
    *) [ -f "$root/$1" ] ;;
    esac
}

# find_cache: sets cache to the folder for what this user keeps, or to nothing. One that is told without a / at its front is none.
find_cache() {
    case ${XDG_CACHE_HOME-} in
    /*) cache=$XDG_CACHE_HOME ;;
    *) cache=${HOME:+$HOME/.cache} ;;
    esac
}

# is_own FOLDER: nobody else can put files there: it is that of this checkout, or one of this user, where all may write with
# leave for this user alone.
is_own() {
    [ "$1" != "$root/out" ] || return 0
    # shellcheck disable=SC3067 # dash and bash have it
    [ -d "$1" ] && [ ! -L "$1" ] && [ -O "$1" ] || return
    case $1 in
    "${TMPDIR:-/tmp}"/* | /tmp/*) [ "$(stat -c %a -- "$1" 2>/dev/null)" = 700 ] ;;
    esac
}

# mangled PATH: sets name to one that a file may have, of its last letters.
mangled() {
    local rest=$1
    name=''
    while :; do
        case $rest in
        */*) name=$name${rest%%/*}% rest=${rest#*/} ;;
        *) break ;;
        esac
    done
    name=$name$rest
    while [ "${#name}" -gt 200 ]; do name=${name#?}; done
}

# known_sources PLACE..: sets sources to the SHA-256 of the sources as one of the places keeps it; to nothing where there are
# none. It is no longer known where git has changed its index, or git or an editor a folder of the program's sources, since it
# was kept: a look at every file would take longer than a short run. What is written into a file in its place, in no other way,
# is seen by look_through alone.
known_sources() {
    local place stamp
    sources=''
    [ -d "$root/crates" ] || return 0
    for place; do
        stamp_of "$place"
        is_own "$place" && read_stamp "$place" && same_folders "$place/$stamp" && return
    done
    return 1
}

# stamp_of PLACE: sets stamp to the name of the file in which a place keeps the sum: the user's own places are of many checkouts.
stamp_of() {
    local name=sources
    [ "$1" = "$root/out" ] || mangled "$root"
    stamp=$name.sum
}

# read_stamp PLACE: sets sources to what was kept there of this checkout.
read_stamp() {
    local of
    [ -r "$1/$stamp" ] && { read -r sources && IFS= read -r of; } <"$1/$stamp" || return
    [ "$1" = "$root/out" ] || [ "$of" = "$root" ]
}

# same_folders STAMP: no folder of the program's sources is newer than it, nor crates.txt, nor the index of git.
same_folders() {
    local it
    for it in "$root/crates.txt" "$root/.git/index" "$root/crates" "$root"/crates/*/src "$root"/crates/*/specs; do
        # shellcheck disable=SC3013 # dash and bash have it
        ! [ "$it" -nt "$1" ] || return
    done
}

# seen_release NAME PLACE..: sets program to that of the release, which was seen whole on this machine. The first place is out/
# of this checkout.
seen_release() {
    local folder program_name=$1
    kept_sum "$1" && is_of_release || return
    shift
    for folder in "$root/release" "$@"; do
        case $folder in
        "$root/release") ;;
        "$root/out") folder=$folder/release ;;
        *) is_own "$folder" && folder=$folder/$kept || continue ;;
        esac
        program=$folder/$program_name
        [ -f "$program" ] && [ -x "$program" ] && has_answered "$program" "$kept" "$@" && has_sum "$program" "$program_name" &&
            return
    done
    return 1
}

# has_sum PROGRAM NAME: its bytes are those of the release as they are now, by the sum that takes less time where both are told.
has_sum() {
    local sum name due=$kept by=sha256sum
    if [ -r "$root/release/BLAKE2b" ] && command -v b2sum >/dev/null; then
        while read -r sum name; do
            [ "$name" != "$2" ] || due=$sum by=b2sum
        done <"$root/release/BLAKE2b"
    fi
    sum=$($by <"$1" 2>/dev/null)
    [ "${sum%% *}" = "$due" ]
}

# kept_sum NAME: sets kept to the SHA-256 of a program of the release. The file has a line for each, the sum and the name; a sum
# alone is that of plan_prog.
kept_sum() {
    local sum name
    [ -r "$root/release/SHA256" ] || return
    while read -r sum name; do
        if [ "${name:-plan_prog}" = "$1" ]; then
            kept=$sum
            return
        fi
    done <"$root/release/SHA256"
    return 1
}

# is_of_release: the sources are those of the release. Without a folder of crates there is nothing that could be other.
is_of_release() {
    local of=''
    [ -n "$sources" ] || [ -d "$root/crates" ] || return 0
    [ -r "$root/release/SOURCES" ] && read -r of <"$root/release/SOURCES" && [ "$of" = "$sources" ]
}

# has_answered PROGRAM SUM PLACE..: it was seen with this sum, on this machine, and was not changed since. Sets tied to whether
# it can be bound to the life of its caller.
has_answered() {
    local place name program=$1 sum=$2
    shift 2
    was_seen "$program" "$program.seen" "$sum" && return
    mangled "$program"
    for place; do
        [ "$place" != "$root/out" ] && is_own "$place" && was_seen "$program" "$place/$name.seen" "$sum" && return
    done
    return 1
}

# was_seen PROGRAM FILE SUM: the file says so.
was_seen() {
    local sum on
    # shellcheck disable=SC3013 # dash and bash have it
    [ -r "$2" ] && ! [ "$1" -nt "$2" ] && ! [ "$1" -ot "$2" ] || return
    find_machine
    while read -r tied sum on; do
        [ "$sum $on" != "$3 $machine" ] || return 0
    done <"$2"
    return 1
}

# find_machine: sets machine to the name of this machine and what its system calls itself: a container may have the name of the
# machine that it runs on, and a job of a cluster the variables of the one where it was asked for.
find_machine() {
    local line
    machine=''
    [ ! -r /proc/sys/kernel/hostname ] || read -r machine </proc/sys/kernel/hostname
    # shellcheck disable=SC3028 # bash sets it; elsewhere it may be in the environment
    machine=${machine:-${HOSTNAME:-nameless}}
    [ -r /etc/os-release ] || return 0
    for _ in 1 2 3; do
        if read -r line; then machine="$machine $line"; fi
    done </etc/os-release
}

# keep_tables: what the program gives back it may use again, and large tables are given back exactly: less time is spent in the
# system, and less memory held, than by the rules that glibc goes by itself. Whoever has set such rules keeps them.
keep_tables() {
    [ -z "${MALLOC_TRIM_THRESHOLD_-}${MALLOC_MMAP_THRESHOLD_-}${GLIBC_TUNABLES-}" ] || return 0
    export MALLOC_TRIM_THRESHOLD_=268435456 MALLOC_MMAP_THRESHOLD_=524288
}
