# shellcheck shell=bash disable=SC2034,SC2154 # the parts set variables for one another
# What the programs are made of, and the stamps of what was made of it. To be read by scripts that have set root, after
# places.bash, keep.bash and programs.bash.

# program_names: the programs that there are sources of.
program_names() {
    local name
    for name in plan_prog judge_prog search_prog; do
        [ ! -d "$root/crates/$name" ] || echo "$name"
    done
}

# sources_sum: the SHA-256 of crates.txt and of all that stands in the src, specs and proofs of crates, with its names.
sources_sum() (
    cd -- "$root" || exit
    { printf '%s\0' crates.txt && find crates/*/src crates/*/specs crates/*/proofs -type f -print0 | LC_ALL=C sort -z; } |
        xargs -0 sha256sum | sha256sum | cut -d ' ' -f 1
)

# look_through: sets sources, as the files are now, and keeps it.
look_through() {
    local place stamp begun=${EPOCHREALTIME:-$(date +%s)}
    sources=$(sources_sum)
    for place in "${places[@]}"; do
        stamp_of "$place"
        if keep_line "$place" "$stamp" "$sources" "$root"; then
            touch -d "@${begun/,/.}" -- "$place/$stamp"
            return
        fi
    done
}

# is_current PROGRAM: it was made of the sources as they are, and is whole. Beside it stand the sums of both.
is_current() {
    local of='' sum=''
    [ -x "$1" ] && [ -r "$1.sources" ] && [ -r "$1.sha256" ] || return
    read -r of <"$1.sources"
    read -r sum <"$1.sha256"
    [ -n "$of" ] && [ "$of" = "$sources" ] && is_whole "$1" "$sum"
}

# put_program FROM TO SUM: puts a program in its place, whole or not at all, with the sum of what it was made of and its own.
put_program() {
    local made new=() part
    mkdir -p -- "${2%/*}" || return
    for part in '' .sha256 .sources; do
        fresh "$2$part" && new+=("$made") || break
    done
    if [ "${#new[@]}" = 3 ] && cat -- "$1" >"${new[0]}" && sum_of "${new[0]}" >"${new[1]}" &&
        printf '%s\n' "$3" >"${new[2]}" && rm -f -- "$2.sources" && chmod -- 755 "${new[0]}" && mv -f -T -- "${new[0]}" "$2" &&
        put_fresh "${new[1]}" "$2.sha256" && put_fresh "${new[2]}" "$2.sources"; then
        return
    fi
    [ "${#new[@]}" = 0 ] || rm -f -- "${new[@]}"
    return 1
}
