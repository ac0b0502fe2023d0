# shellcheck shell=bash disable=SC2034,SC2154 # the parts set variables for one another
# The option --timed of check: a plan with times, as VAL writes it. To be read after watch.bash.

# take_timed: puts a copy of the plan in the place of it, in which blanks stand for times and durations. Ends with 3 where the
# times are not in order: the calls are executed in the order of the lines.
take_timed() {
    local files late
    files_of "${words[@]:1}"
    [[ ${#files[@]} = 3 && ${words[-1]} = "${files[2]}" && -f ${files[2]} && -r ${files[2]} ]] || return 0
    open_room || exit 6
    if ! late=$(LC_ALL=C awk -f "$root/launch/timed.awk" <"${files[2]}" 2>&1 >"$room/timed"); then
        printf '%s:%s:1: syntax: the time of this call is before that of one above it\n' "${files[2]}" "$late" >&2
        stop_all
        exit 3
    fi
    [ "$(tail -c 1 -- "${files[2]}" | wc -l)" = 1 ] || truncate -s -1 -- "$room/timed"
    export DOKYREVA_TIMED=${files[2]}
    words[-1]=$room/timed
}
