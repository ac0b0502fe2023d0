# shellcheck shell=bash disable=SC2034,SC2154 # the parts set variables for one another
# The programs that may be run, by their names (plan_prog, judge_prog, search_prog): that of the release, the one that was proved here, and a
# quick build, which is not proved. A program is run only whose bytes have the SHA-256 that is kept, and that was seen to answer
# on this machine. To be read by scripts that have set root, after places.bash.

# find_program NAME: sets program to the first that may be run, and what to what it is; else why.
find_program() {
    why=''
    find_sources
    what='the proved program of the release'
    find_release "$1" && return
    use keep sources
    program=$root/out/proved/$1 what='the proved program'
    is_current "$program" && return
    program=$root/out/quick/$1 what='the quick program, of which nothing was proved; ./plan-build makes the proved one'
    is_current "$program"
}

# find_or_build NAME: the same, with a quick build where nothing else is there. Says what stands in the way, and ends then.
find_or_build() {
    find_program "$1" && return
    use quick
    build_program "$1"
}

# find_sources: sets sources to the SHA-256 of the sources; to nothing where there are none.
find_sources() {
    known_sources "${places[@]}" && return
    use keep sources
    look_through
}

# find_release NAME: sets program to that of the release, which is unpacked where it is not there yet. Where that cannot be, why
# is set.
find_release() {
    local folder
    seen_release "$1" "${places[@]}" && return
    kept_sum "$1" && is_of_release || return
    for folder in "$root/release" "$root/out/release" "${places[@]:1}"; do
        [[ $folder == "$root"/* ]] || { is_own "$folder" && folder=$folder/$kept; } || continue
        program=$folder/$1
        is_whole "$program" "$kept" && return
    done
    [ -f "$root/release/$1.gz" ] || return
    use keep unpack
    unpack_release "$1"
}

# is_whole PROGRAM SUM: its bytes have this sum, and it answers here; where that is not so, why is set.
is_whole() {
    [[ -f $1 && -n $2 ]] || return
    why="$1 stands where no program may be executed"
    [ -x "$1" ] || return
    use keep unpack
    if has_answered "$1" "$2" "${places[@]}"; then is_same "$1" "$2"; else look_at "$1" "$2"; fi
}
