# shellcheck shell=bash disable=SC2034,SC2154 # the parts set variables for one another
# Programs that are unpacked, or looked at anew. To be read after programs.bash and keep.bash.

# is_same PROGRAM SUM: whether its bytes have this sum; else why is set.
is_same() {
    [ "$(sum_of "$1")" = "$2" ] && return
    why="$1 has not the SHA-256 that is kept: it is not run"
    return 1
}

# look_at PROGRAM SUM: whether its bytes have this sum and it answers here; else why is set. Sets tied.
look_at() {
    is_same "$1" "$2" && answers "$1" || return
    note_answered "$1" "$2"
    return 0
}

# note_answered PROGRAM SUM: keeps that it was seen to answer, beside it or in a place of this user.
note_answered() {
    local place name
    note_seen "$1" "$1.seen" "$2" && return
    mangled "$1"
    for place in "${places[@]:1}"; do
        make_place "$place" && note_seen "$1" "$place/$name.seen" "$2" && return
    done
}

# note_seen PROGRAM FILE SUM: adds a line; a file that is of another program, or that many machines have filled, is begun anew.
note_seen() {
    local lines=() made
    find_machine
    [[ ! -r $2 || $1 -nt $2 || $1 -ot $2 ]] || mapfile -t lines <"$2"
    [ "${#lines[@]}" -lt 64 ] || lines=()
    fresh "$2" || return
    if printf '%s\n' "${lines[@]}" "$tied $3 $machine" >"$made" && touch -r "$1" -- "$made"; then
        put_fresh "$made" "$2"
        return
    fi
    rm -f -- "$made"
    return 1
} 2>/dev/null

# answers PROGRAM: called without words it says that words are missing. Sets tied; else why is what the system says of it.
answers() {
    local said status
    said=$(LC_ALL=C "$1" 2>&1 </dev/null)
    status=$?
    case $status:$said in
    7:*'; usage: '*)
        setpriv --pdeathsig KILL "$1" >/dev/null 2>&1 </dev/null
        [ $? = 7 ] && tied=yes || tied=no
        return 0
        ;;
    *GLIBC_*'not found'*)
        said=${said#*GLIBC_}
        why="this system's C library is older than ${said%%[!0-9.]*}, which the program needs: it is not run"
        ;;
    126:*'ermission denied'*) why="$1 stands where no program may be executed" ;;
    126:*) why="the program is for 64-bit Linux on x86-64, and is not run here" ;;
    127:*) why="this system lacks the C library that the program needs (glibc on x86-64): it is not run" ;;
    *) why="the program does not answer as it should (status $status): it is not run" ;;
    esac
    return 1
}

# unpack_release NAME: unpacks the release where it can be put, and sets program. Where that cannot be, why is set.
unpack_release() {
    local place folder
    is_sound "$1" || return
    for place in "${places[@]}"; do
        folder=$place/$kept
        [ "$place" != "$root/out" ] || folder=$place/release
        why="no folder can be written to unpack the program: ${places[*]}"
        program=$folder/$1
        make_place "$place" && make_place "$folder" && unpack "$1" "$folder" || continue
        is_whole "$program" "$kept" && return
        [[ $why == *'no program may be executed' ]] || return
    done
    return 1
}

# is_sound NAME: what is packed in the release has the sum that is told.
is_sound() {
    [ "$(gzip -dc -- "$root/release/$1.gz" 2>/dev/null | sha256sum)" = "$kept  -" ] && return
    why="release/$1.gz is not what release/SHA256 tells: it is not run"
    return 1
}

# unpack NAME FOLDER: whole or not at all.
unpack() {
    local made
    fresh "$2/$1" || return
    if gzip -dc -- "$root/release/$1.gz" >"$made" && [ "$(sum_of "$made")" = "$kept" ] && chmod -- 755 "$made" &&
        mv -f -T -- "$made" "$2/$1"; then
        return
    fi
    rm -f -- "$made"
    return 1
} 2>/dev/null
