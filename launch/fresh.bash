# shellcheck shell=bash disable=SC2034,SC2154 # the parts set variables for one another
# Files that are made anew: never one that is there, and never through a link that somebody has put there. To be read by scripts,
# and by their copies in a folder of results.

# What the environment may have set otherwise: that > writes no file that is there.
set +C

# fresh FILE: sets made to the name of a new file beside it, which is empty and which nobody else has made. It begins with the
# name FILE.PID, by which a process finds its own.
fresh() {
    made=$(mktemp -- "$1.$$.XXXXXX" 2>/dev/null)
}

# put_fresh FROM TO: puts such a file in its place, whole or not at all, with the leave that new files have.
put_fresh() {
    chmod -- =rw "$1" && mv -f -T -- "$1" "$2" && return
    rm -f -- "$1"
    return 1
} 2>/dev/null

# drop_fresh FILE..: takes away what this process has begun beside files and has not put in their place.
drop_fresh() {
    local file
    for file; do
        rm -f -- "$file.$$".??????
    done
}
