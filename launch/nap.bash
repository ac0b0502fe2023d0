# shellcheck shell=bash disable=SC2034,SC2154 # the parts set variables for one another
# Waiting without a process. To be read by scripts, and by their copies in a folder of results.

# nap SECONDS: waits without a process of its own, which would be left over.
nap() {
    [ -n "${still-}" ] || exec {still}<> <(:)
    read -r -t "$1" -u "$still" _
}

# end_nap: the first thing that a trap does. One that comes while nap waits runs inside of its read, and where the time of that
# read is over bash leaves the trap's commands at the next thing that they read. Another read takes its place.
end_nap() {
    nap 0.01
}
