# shellcheck shell=bash disable=SC2034,SC2154 # the parts set variables for one another
# Where files may be kept: in out/ of this checkout, else in a folder of the user's own. To be read by scripts that have set
# root. A start in bash reads places, programs, commands and watch; what it seldom needs stands in other parts, which are read
# then.
set +C
. "$root/launch/ready.sh"

# use PART..: reads parts of the launcher.
use() {
    local part
    for part; do . "$root/launch/$part.bash"; done
}

# find_places: sets places to the folders in which something may be kept, TMPDIR to a folder that is there, and how programs
# keep their memory.
find_places() {
    local cache
    find_cache
    temporary=${TMPDIR:-/tmp}
    [[ -d $temporary && -w $temporary ]] || temporary=/tmp
    export TMPDIR=$temporary
    keep_tables
    places=("$root/out" ${cache:+"$cache/dokyreva"} "$temporary/dokyreva-$EUID")
}
