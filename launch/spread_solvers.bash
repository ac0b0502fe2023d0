# shellcheck shell=bash disable=SC2034,SC2154 # the parts set variables for one another
# Horizons that SAT solvers search: what a job of ./spread --solver does. Read after spread_jobs.bash and solvers.bash, by
# ./spread and by its copy in a folder of results.
#
# A unit is a horizon, a solver and a seed. FOLDER/h/N has, where `judge` has accepted a proof, the proof as
# proof.SOLVER.SEED.gz; where a unit had no answer in its time, open.SOLVER.SEED with the minutes.

# unit_name SOLVER SEED: sets unit to what files of it are called.
unit_name() {
    unit=${1//[^A-Za-z0-9]/_}.$2
}

# was_open FOLDER N SOLVER SEED: it had no answer in as much time.
was_open() {
    local unit spent=''
    unit_name "$3" "$4"
    { read -r spent <"$1/h/$2/open.$unit"; } 2>/dev/null
    [ "${spent:-0}" -ge "$minutes" ]
}

# run_unit FOLDER N SOLVER SEED: nothing where it is needless or done.
run_unit() {
    local folder=$1 n=$2 solver=$3 seed=$4 at=$1/h/$2 unit work ended=''
    local seconds=$((minutes * 60 - 5))
    unit_name "$3" "$4"
    mkdir -p -- "$at"
    has_result "$folder" "$n" || is_needless "$folder" "$n" || was_open "$@" && return
    is_unchanged "$folder" || { lose "$folder" "$n" 'a file of the task was changed'; return; }
    (find_solver) 2>/dev/null || { lose "$folder" "$n" "$(uname -n) has no solver $solver"; return; }
    find_solver
    add_seed
    work=$(mktemp -d) || { lose "$folder" "$n" 'there is no folder for a formula'; return; }
    if write_formula; then
        search_within
        take_unit || lose "$folder" "$n" 'the result could not be kept' || unkept=70
    fi
    rm -rf -- "$work"
    rm -f -- "$at"/*."$$".??????
}

# write_formula: the formula of the horizon. What stands in the way is kept.
write_formula() {
    local ended line
    "$folder/task/judge" formula "$folder/task/domain" "$folder/task/problem" "$n" >"$work/cnf" 2>/dev/null </dev/null
    ended=$?
    [ "$ended" != 0 ] || return 0
    read -r line <"$work/cnf"
    seconds=0 megabytes=0
    case $ended:$line in
    4:'; limit literals'*) put_result "$folder" "$n" limit 0 ;;
    8:*) lose "$folder" "$n" memory ;;
    *) lose "$folder" "$n" "the formula is refused: $line" ;;
    esac
    return 1
}

# search_within: runs the solver, and the judge behind it, in a group of their own, and ends them where the horizon is
# settled, the time is over or the driver is gone, and a solver that goes on for three seconds after its proof was judged. Sets ended
# to the solver's status, or to nothing.
search_within() {
    local begun=$SECONDS late=0
    set -m
    (search) >/dev/null 2>&1 </dev/null 9>&- &
    running=$!
    set +m
    group=$running
    while kill -0 "$running" 2>/dev/null; do
        [ $((SECONDS - begun)) -lt $((minutes * 60)) ] && ! has_result "$folder" "$n" && ! is_needless "$folder" "$n" &&
            ! is_orphan && [ "$late" -lt 15 ] || break
        [ ! -s "$work/judge" ] || late=$((late + 1))
        nap 0.2
    done
    { kill -KILL -- "-$group"; wait "$running"; } 2>/dev/null
    running='' group=''
    [ ! -s "$work/ended" ] || read -r ended <"$work/ended"
    seconds=$((SECONDS - begun)) megabytes=0
}

# search: within the memory, and files of a quarter of the disk's room. Leaves in the work folder `ended`, the solver's status, and what
# it was: `out`, or `judge` with `judged` and the proof.
search() {
    local status free
    end_orphans "$$" &
    ulimit -v "$((memory * 1024 * 95 / 100))"
    free=$(df -Pk -- "$work" 2>/dev/null | awk 'NR == 2 { print $4 }')
    [ -z "$free" ] || ulimit -f "$((free / 4))"
    solve "$work/cnf" >(judge_and_keep) >"$work/out"
    status=$?
    while [ "$status" = 20 ] && [ ! -s "$work/judge" ]; do nap 0.02; done
    echo "$status" >"$work/ended.part" && mv -f -- "$work/ended.part" "$work/ended"
}

# end_orphans JOB: ends this group once the job is gone: one that was killed could not do so itself.
end_orphans() {
    while kill -0 "$1" 2>/dev/null; do nap 0.5; done
    kill -KILL 0
}

# judge_and_keep: the proof that comes in, judged while it is written, and kept.
judge_and_keep() {
    local pipe=$work/pipe
    mkfifo -- "$pipe"
    gzip -1c <"$pipe" >"$work/proof.gz" &
    tee -- "$pipe" | "$folder/task/judge" judge "$folder/task/domain" "$folder/task/problem" "$n" - >"$work/judged"
    local judged=${PIPESTATUS[1]}
    wait
    echo "$judged" >"$work/judge"
}

# take_unit: what the judge has accepted is the result; all else is no answer.
take_unit() {
    local told=''
    has_result "$folder" "$n" && return
    case $ended in
    20)
        { read -r told <"$work/judged"; } 2>/dev/null
        if [ "$(cat -- "$work/judge")" = 0 ] && [[ $told =~ ^'; refuted horizon '$n' entries '([0-9]+)$ ]]; then
            keep_text "$at/proof.$unit.gz" <"$work/proof.gz" &&
                put_result "$folder" "$n" refuted "${BASH_REMATCH[1]}" "proof.$unit.gz"
            return
        fi
        ;;
    10)
        if "$folder/task/judge" model "$folder/task/domain" "$folder/task/problem" "$n" "$work/out" \
            >"$work/plan" 2>/dev/null </dev/null; then
            keep_text "$at/plan.$unit" <"$work/plan" && put_result "$folder" "$n" plan 0 "plan.$unit"
            return
        fi
        ;;
    esac
    is_needless "$folder" "$n" || is_orphan || keep_text "$at/open.$unit" <<<"$minutes"
}

# need_judge: sets judge to the program of this checkout that judges.
need_judge() {
    local planner=$program
    [ -z "$judge" ] || return 0
    judge=${PLAN_BY_JUDGE-}
    [ -z "$judge" ] || return 0
    find_or_build judge_prog || exit
    judge=$program program=$planner
}

# proof_fault FOLDER N PROOF: has the judge of this checkout read a proof. Sets fault where it does not accept it.
proof_fault() {
    local said
    need_judge
    said=$(gzip -dc -- "$1/h/$2/$3" 2>/dev/null | "$judge" judge "$1/task/domain" "$1/task/problem" "$2" - 2>/dev/null)
    [[ $said =~ ^'; refuted horizon '$2' entries '[0-9]+$ ]] ||
        fault="the proof of horizon $2 is not accepted: ${said:-no answer}"
}
