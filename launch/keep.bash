# shellcheck shell=bash disable=SC2034,SC2154 # the parts set variables for one another
# What is kept from call to call, and where. To be read after places.bash.
use fresh

# sum_of FILE: its SHA-256.
sum_of() {
    sha256sum <"$1" | cut -d ' ' -f 1
}

# make_place FOLDER: it is there and can be written.
make_place() {
    if [ "$1" = "$root/out" ]; then
        mkdir -p -- "$1" 2>/dev/null
    else
        (umask 077 && mkdir -p -- "$1") 2>/dev/null
    fi
    is_own "$1" && [ -w "$1" ]
}

# keep_line PLACE NAME LINE..: keeps lines in a file of a place, whole or not at all.
keep_line() {
    local made
    make_place "$1" || return
    fresh "$1/$2" || return
    if printf '%s\n' "${@:3}" >"$made"; then
        put_fresh "$made" "$1/$2"
        return
    fi 2>/dev/null
    rm -f -- "$made"
    return 1
}
