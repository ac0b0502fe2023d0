# A plan as VAL writes it, `TIME: (CALL) [DURATION]`, a call a line, with blanks for times and durations, so that all else keeps its
# place: awk -f timed.awk, in the C locale. Ends with 1 where a time is less than one before it: its line is written to standard error.

# blank TEXT START LENGTH: a text with blanks in the place of a part.
function blank(text, start, many,  gap) {
    gap = sprintf("%" many "s", "")
    return substr(text, 1, start - 1) gap substr(text, start + many)
}

{
    line = $0
    if (match(line, /^[ \t]*[0-9]+(\.[0-9]*)?[ \t]*:/)) {
        time = substr(line, 1, RLENGTH - 1) + 0
        if (time < last && !late) late = NR
        last = time
        line = blank(line, 1, RLENGTH)
    }
    rest = line
    sub(/;.*/, "", rest)
    if (match(rest, /\[[ \t]*[0-9]+(\.[0-9]*)?[ \t]*\][ \t\r]*$/)) {
        line = blank(line, RSTART, index(substr(rest, RSTART), "]"))
    }
    print line
}

END {
    if (late) {
        print late > "/dev/stderr"
        exit 1
    }
}
