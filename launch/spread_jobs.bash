# shellcheck shell=bash disable=SC2034,SC2154 # the parts set variables for one another
# One horizon of a spread search, and what a job does with several. Read by ./spread, and by its copy in a folder of results.
#
# FOLDER/task has the domain, the problem, the planner, these scripts, their SHA-256 and the settings; FOLDER/h/N has what is
# known of horizon N: `result` (word, conflicts, seconds, megabytes, where, files with their sums), and a certificate, plan or
# report, or a solver's proof; or `lost`, why there is none yet. FOLDER/bounds has the least horizon with a plan and the
# greatest that is refuted: all that a job has to look at while it runs. Each file is written beside its place and then
# renamed, the result last.

running='' group='' tie=() parent='' solvers='' seeds=1 engines=() solves=no runs=planner

# read_settings FOLDER: sets first, last, budget, memory, minutes, and solvers and seeds.
read_settings() {
    local line
    while read -r line; do
        [[ ! $line =~ ^(first|last|budget|memory|minutes|seeds)=([0-9]+)$ ]] ||
            printf -v "${BASH_REMATCH[1]}" %s "${BASH_REMATCH[2]}"
        [[ $line != solvers=* ]] || solvers=${line#solvers=}
        [ "$line" != solves=yes ] || solves=yes
    done <"$1/task/settings"
}

# keep_file FROM TO: puts a file that was made by fresh in its place, whole or not at all.
keep_file() {
    sync -- "$1" 2>/dev/null
    put_fresh "$1" "$2"
}

# keep_text FILE: puts what it reads into a file, whole or not at all.
keep_text() {
    local made
    fresh "$1" || return
    if cat >"$made"; then
        keep_file "$made" "$1"
        return
    fi
    rm -f -- "$made"
    return 1
} 2>/dev/null

# has_result FOLDER N
has_result() {
    [ -f "$1/h/$2/result" ]
}

# field_of FILE NAME: sets field to the first value of this name, or to nothing.
field_of() {
    local line
    field=''
    [ -r "$1" ] || return
    while read -r line; do
        if [[ $line == "$2="* ]]; then
            field=${line#*=}
            return
        fi
    done <"$1"
    return 1
}

# read_bounds FOLDER: sets least_plan and most_refuted, 256 and -1 where there is none.
read_bounds() {
    least_plan='' most_refuted=''
    [ ! -r "$1/bounds" ] || read -r least_plan most_refuted <"$1/bounds"
    [[ $least_plan =~ ^[0-9]{1,3}$ ]] || least_plan=256
    [[ $most_refuted =~ ^(-1|[0-9]{1,3})$ ]] || most_refuted=-1
}

# widen_bounds N WORD: takes a result into them.
widen_bounds() {
    case $2 in
    plan) [ "$1" -ge "$least_plan" ] || least_plan=$1 ;;
    refuted) [ "$1" -le "$most_refuted" ] || most_refuted=$1 ;;
    esac
}

# keep_bounds FOLDER
keep_bounds() {
    local made
    fresh "$1/bounds" && printf '%s %s\n' "$least_plan" "$most_refuted" >"$made" && put_fresh "$made" "$1/bounds"
} 2>/dev/null

# is_needless FOLDER N: a lower horizon has a plan, or a higher one is refuted, so this one cannot change the answer.
is_needless() {
    [ "$solves" = no ] || ! is_answered "$1" || return 0
    [[ $2 != any-* ]] || return
    read_bounds "$1"
    [ "$2" -gt "$least_plan" ] || [ "$2" -lt "$most_refuted" ]
}

# is_unchanged FOLDER: what the jobs work on is what the driver put there.
is_unchanged() {
    (cd -- "$1/task" && sha256sum --quiet --strict -c SHA256SUMS) >/dev/null 2>&1
}

# lose FOLDER N WHY: why there is no result yet.
lose() {
    keep_text "$1/h/$2/lost" <<<"$3"
}

# peak PROCESS: sets megabytes to what it has used at most so far.
peak() {
    local name value
    while read -r name value _; do
        if [ "$name" = VmHWM: ]; then
            value=$(((value + 1023) / 1024))
            [ "$value" -le "$megabytes" ] || megabytes=$value
            return
        fi
    done <"/proc/$1/status"
} 2>/dev/null

# is_orphan: the driver that has started this job is gone.
is_orphan() {
    local stat
    [ -n "$parent" ] || return
    read -r stat <"/proc/$$/stat"
    stat=${stat##*) }
    stat=${stat#* }
    [ "${stat%% *}" != "$parent" ]
} 2>/dev/null

# stop_run: ends the planner that runs, and removes what this process has half made.
stop_run() {
    [ -z "$group" ] || kill -KILL -- "-$group"
    [ -z "$running" ] || { kill -KILL "$running"; wait "$running"; }
    [ -z "${work-}" ] || rm -rf -- "$work"
    running='' group=''
    rm -f -- "$1"/{h/*/,task/,jobs/,}*".$$".??????
} 2>/dev/null

# run_planner FOLDER N OUT WORD..: runs the planner within the limits, and ends it where the horizon has become needless or
# the driver is gone. Sets status, seconds and megabytes; status 14 is want of time, 15 that it was needless. A look at how
# things stand takes no process and one small file.
run_planner() {
    local folder=$1 n=$2 out=$3 ended=0 limit=$((memory * 1024 * 95 / 100)) until=$((minutes * 60 - 5)) begun=$SECONDS pause=0.02
    shift 3
    (ulimit -d "$limit"; exec "${tie[@]}" "$folder/task/$runs" "$@") >"$out" 2>/dev/null </dev/null 9>&- &
    running=$!
    megabytes=0
    while kill -0 "$running" 2>/dev/null; do
        peak "$running"
        if [ $((SECONDS - begun)) -ge "$until" ]; then
            ended=14
        elif is_needless "$folder" "$n" || is_orphan; then
            ended=15
        fi
        if [ "$ended" != 0 ]; then
            kill -KILL "$running" 2>/dev/null
            break
        fi
        nap "$pause"
        [ $((SECONDS - begun)) -lt 1 ] || pause=0.2
    done
    wait "$running" 2>/dev/null
    status=$?
    running=''
    seconds=$((SECONDS - begun))
    [ "$ended" = 0 ] || status=$ended
}

# put_result FOLDER N WORD CONFLICTS FILE..: the files are in their places.
put_result() {
    local at=$1/h/$2 file
    {
        printf 'horizon=%s\nword=%s\nconflicts=%s\nbudget=%s\n' "$2" "$3" "$4" "$budget"
        printf 'seconds=%s\nmegabytes=%s\nwhere=%s\n' "$seconds" "$megabytes" "$(uname -n)${SLURM_JOB_ID:+ job $SLURM_JOB_ID}"
        for file in "${@:5}"; do
            printf 'file=%s %s\n' "$file" "$(sha256sum <"$at/$file" | cut -d ' ' -f 1)"
        done
    } | keep_text "$at/result" && rm -f -- "$at/lost" || return
    case $3 in
    found | none) : >>"$1/answered" ;;
    plan) [ "$solves" = no ] || : >>"$1/answered" ;;
    esac
    [[ $2 != any-* ]] || return 0
    read_bounds "$1"
    widen_bounds "$2" "$3"
    keep_bounds "$1"
    return 0
}

# conflicts_told FILE N WORD: the conflicts that a report tells of a horizon.
conflicts_told() {
    sed -n "s/^; horizon $2 $3 conflicts //p" "$1" | head -n 1
}

# run_plan FOLDER N WORD STATUS FILE: the report of the planner on this horizon alone.
run_plan() {
    local made
    fresh "$1/h/$2/out" || return
    run_planner "$1" "$2" "$made" plan "$1/task/domain" "$1/task/problem" --alg c --start "$2" --max-horizon "$2" \
        --width 1 --budget "$budget"
    [ "$status" = "$4" ] && [ -n "$(conflicts_told "$made" "$2" "$3")" ] && keep_file "$made" "$1/h/$2/$5"
}

# run_horizon FOLDER N [BUDGET]: nothing where it is needless or done. With a budget of its own an open horizon is no result.
# Where the task is refused, refusal is the line that says so.
run_horizon() {
    local folder=$1 n=$2 look=${3-} at=$1/h/$2 made out
    mkdir -p -- "$at"
    has_result "$folder" "$n" || is_needless "$folder" "$n" && return
    is_unchanged "$folder" || { lose "$folder" "$n" 'a file of the task was changed'; return; }
    fresh "$at/out" || { lose "$folder" "$n" 'the result could not be kept' || unkept=70; return; }
    out=$made
    run_planner "$folder" "$n" "$out" prove "$folder/task/domain" "$folder/task/problem" "$n" --budget "${look:-$budget}"
    case $status in
    0)
        keep_file "$out" "$at/certificate" &&
            put_result "$folder" "$n" refuted "$(grep -c '^learn' "$at/certificate")" certificate
        ;;
    1) run_plan "$folder" "$n" plan 0 plan && put_result "$folder" "$n" plan "$(conflicts_told "$at/plan" "$n" plan)" plan ;;
    2) [ -n "$look" ] || put_result "$folder" "$n" open "$(conflicts_told "$out" "$n" open)" ;;
    4) run_limit "$folder" "$n" "$out" ;;
    8) lose "$folder" "$n" memory ;;
    14) lose "$folder" "$n" time ;;
    15) ;;
    3 | 5 | 7)
        read -r refusal <"$out"
        lose "$folder" "$n" "refused: $refusal"
        ;;
    6) lose "$folder" "$n" 'the disk has no room' ;;
    *) lose "$folder" "$n" "the planner ended with status $status" ;;
    esac || lose "$folder" "$n" 'the result could not be kept' || unkept=70
    rm -f -- "$at"/*."$$".??????
}

# run_limit FOLDER N OUT: past a limit. Where it is the length of the certificate the horizon is refuted, and a report tells so.
run_limit() {
    local at=$1/h/$2
    if grep -q '^; limit file proof$' "$3"; then
        run_plan "$1" "$2" refuted 1 report && put_result "$1" "$2" reported "$(conflicts_told "$at/report" "$2" refuted)" report
    elif grep -q '^; limit literals' "$3"; then
        put_result "$1" "$2" limit 0
    else
        read -r refusal <"$3"
        lose "$1" "$2" "${refusal#; }"
    fi
}

# begin_runs: a planner ends with the process that runs it, where the system can do that.
begin_runs() {
    tie=(setpriv --pdeathsig KILL)
    "${tie[@]}" true 2>/dev/null || tie=()
}

# run_horizons FOLDER UNIT..: one after another, a horizon, or a horizon with a solver and a seed. Status 70 where not even why
# there is no result could be written.
run_horizons() {
    local folder=$1 it n solver seed
    [ -n "${SLURM_JOB_ID-}" ] || parent=$PPID
    trap 'trap "" INT QUIT TERM HUP; end_nap; stop_run "$folder"; exit 130' INT QUIT TERM HUP
    begin_runs
    read_settings "$folder"
    for it in "${@:2}"; do
        read -r n seed solver <<<"$it"
        if [[ $n == any-* ]]; then
            run_any "$folder" "$n"
        elif [ -z "$seed" ]; then
            run_horizon "$folder" "$n"
        else
            run_unit "$folder" "$n" "$solver" "$seed"
        fi
    done
    return "${unkept:-0}"
}

# run_chunk FOLDER K: the horizons of a job.
run_chunk() {
    local list
    mapfile -t list <"$1/jobs/$2"
    run_horizons "$1" "${list[@]}"
}
