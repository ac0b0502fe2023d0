# shellcheck shell=bash disable=SC2034,SC2154 # the parts set variables for one another
# A folder of results, and how its horizons are run: side by side on this machine, or as an array of jobs of Slurm.

job=''

# begin_folder: makes the folder, or sees that it is of the same files; one driver at a time. With a greater budget, what is open
# is asked for again.
begin_folder() {
    mkdir -p -- "$folder/task" "$folder/h" "$folder/jobs" || wrong "the folder $folder cannot be made"
    folder=$(readlink -f -- "$folder")
    exec 9>>"$folder/lock" || wrong "the folder $folder cannot be written"
    flock -n 9 || wrong "another call works on $folder"
    if [ -f "$folder/task/SHA256SUMS" ]; then
        is_of_task domain "$domain" && is_of_task problem "$problem" ||
            wrong "the domain or the problem is another than that with which $folder was begun: take another folder"
        if { [ -n "$judge" ] && [ ! -f "$folder/task/judge" ]; } || { [ -n "$searcher" ] && [ ! -f "$folder/task/searcher" ]; } ||
            { [ -n "$never" ] && [ ! -f "$folder/task/never" ]; }; then
            put_task || wrong "the folder $folder cannot be filled"
        elif ! is_unchanged "$folder"; then
            say "a file in $folder/task was changed: all are put there anew"
            put_task || wrong "the folder $folder cannot be filled"
        fi
        reopen
    else
        put_task || wrong "the folder $folder cannot be filled"
    fi
    printf 'first=%s\nlast=%s\nbudget=%s\nmemory=%s\nminutes=%s\nsolvers=%s\nseeds=%s\nsolves=%s\n' "$first" "$last" "$budget" "$memory" \
        "$minutes" "$solvers" "$seeds" "$solves" | keep_text "$folder/task/settings" ||
        wrong "the folder $folder cannot be filled"
}

# reopen: what a smaller budget has left open is no result any more.
reopen() {
    local at
    field_of "$folder/task/settings" budget
    [ "${field:-0}" -le "$budget" ] || wrong "$folder was begun with the greater budget $field"
    for at in "$folder"/h/*/result; do
        field_of "$at" word && [ "$field" = open ] && field_of "$at" budget && [ "${field:-0}" -lt "$budget" ] || continue
        rm -f -- "$at"
    done
}

# is_of_task NAME FILE: a file has the sum that the folder was begun with.
is_of_task() {
    grep -q -x -F "$(sha256sum <"$2" | cut -d ' ' -f 1)  $1" "$folder/task/SHA256SUMS"
}

# put_task: what the jobs work on. The sums land last.
put_task() {
    local part
    put_copy "$domain" domain && put_copy "$problem" problem && put_copy "$program" planner && put_copy "$self" spread || return
    [ -z "$judge" ] || put_copy "$judge" judge || return
    [ -z "$searcher" ] || put_copy "$searcher" searcher || return
    [ -z "$never" ] || put_copy "$never" never || return
    for part in spread_jobs spread_any spread_solvers solvers nap fresh; do
        put_copy "$root/launch/$part.bash" "$part.bash" || return
    done
    (set -o pipefail; cd -- "$folder/task" && sha256sum domain problem planner spread ./*.bash ${judge:+judge} ${searcher:+searcher} ${never:+never} |
        keep_text "$folder/task/SHA256SUMS")
}

# put_copy FILE NAME: what the jobs run or read, under a name of its own.
put_copy() {
    keep_text "$folder/task/$2" <"$1" && { [[ ! $2 =~ ^(planner|judge|searcher|never)$ ]] || chmod -- +x "$folder/task/$2"; }
}

# note_results: the bounds, as all results give them; sets known by horizon to its word. What is known already is not read again.
note_results() {
    local n
    read_bounds "$folder"
    for ((n = first; n <= last; n++)); do
        if [ -z "${known[n]-}" ] && field_of "$folder/h/$n/result" word; then
            known[n]=$field
        fi
        widen_bounds "$n" "${known[n]-}"
    done
    keep_bounds "$folder"
}

# begin_bounds: those of the results that are there now.
begin_bounds() {
    known=()
    rm -f -- "$folder/bounds" "$folder/answered"
    [ "$solves" = no ] || ! grep -q -s -x -E 'word=(found|none|plan)' "$folder"/h/*/result /dev/null || : >>"$folder/answered"
    note_results
}

# look_first: what falls with few conflicts, from the lowest horizon on, in this process; it ends with the first that stays open.
# A task that is refused is refused at every horizon: it is told once, and the call ends.
look_first() {
    local n
    begin_runs
    for ((n = first; n <= last; n++)); do
        refusal=''
        has_result "$folder" "$n" || run_horizon "$folder" "$n" "$((budget < 1000 ? budget : 1000))"
        [ -z "$refusal" ] || end_refused "$status"
        has_result "$folder" "$n" || is_needless "$folder" "$n" || break
        note_results
        tell_progress 0
    done
    note_results
}

# end_refused STATUS: tells why the task is not taken, and ends.
end_refused() {
    clear_progress
    say "$refusal"
    "$root/launch/tell.py" prove "$refusal" "domain=$domain" "problem=$problem"
    exit "$1"
}

# left_over: sets wanted to the horizons that have no result and may change the answer; where solvers search, each with each
# seed and solver, the first of them for all horizons first.
left_over() {
    local n seed solver
    wanted=()
    for n in "${engines[@]}"; do
        has_result "$folder" "any-$n" || is_needless "$folder" "any-$n" || wanted+=("any-$n")
    done
    for ((seed = 1; seed <= seeds; seed++)); do
        while read -r -d , solver; do
            for ((n = first; n <= last; n++)); do
                has_result "$folder" "$n" || is_needless "$folder" "$n" || add_unit
            done
        done <<<"$solvers,"
    done
}

# add_unit: one of wanted.
add_unit() {
    if [ -z "$solver" ]; then
        wanted+=("$n")
    elif ! was_open "$folder" "$n" "$solver" "$seed"; then
        wanted+=("$n $seed $solver")
    fi
}

# tell_progress RUNNING: on a terminal, one line that is written over.
tell_progress() {
    local n open=0 reported=0 refuted=$((most_refuted < first ? 0 : most_refuted - first + 1))
    [ -t 2 ] || return 0
    for ((n = first; n <= last; n++)); do
        case ${known[n]-} in
        open | limit) open=$((open + 1)) ;;
        reported) reported=$((reported + 1)) ;;
        esac
    done
    [ "$reported" = 0 ] || open="$reported reported, $open"
    printf '\033[Khorizons %s to %s: %s refuted, %s open, %s running%s; %s s\r' "$first" "$last" "$refuted" "$open" "$1" \
        "$([ "$least_plan" -gt "$last" ] || echo ", a plan of $least_plan steps")" "$SECONDS" >&2
}

clear_progress() {
    [ ! -t 2 ] || printf '\033[K' >&2
}

# stop_spread: ends all jobs, leaves nothing half made, and ends with 130.
stop_spread() {
    trap '' INT QUIT TERM HUP
    end_nap
    clear_progress
    [ -z "$job" ] || scancel "$job" 2>/dev/null
    [ -z "$running" ] || kill -KILL "$running" 2>/dev/null
    end_children
    running=''
    stop_run "$folder"
    exit 130
}

# end_children: asks the jobs of this process to end, again where one was still being started, and ends them at last.
end_children() {
    local children tries
    for tries in {1..30}; do
        mapfile -t children < <(jobs -pr)
        [ "${#children[@]}" -gt 0 ] || break
        kill "-$([ "$tries" -lt 30 ] && echo TERM || echo KILL)" "${children[@]}"
        nap 0.1
    done
    wait
} 2>/dev/null

# run_engine: runs what is left.
run_engine() {
    left_over
    [ "${#wanted[@]}" -gt 0 ] || return 0
    "run_$engine"
    note_results
    clear_progress
}

# run_local: as many side by side as was asked for.
run_local() {
    local n side=0
    for n in "${wanted[@]}"; do
        ! has_result "$folder" "${n%% *}" && ! is_needless "$folder" "${n%% *}" || continue
        if [ "$side" -ge "$side_by_side" ]; then
            wait -n || unkept=70
            note_results
        else
            side=$((side + 1))
        fi
        bash "$folder/task/spread" --horizons-of "$folder" "$n" 9>&- &
        tell_progress "$side"
    done
    while [ "$side" -gt 0 ]; do
        wait -n || unkept=70
        side=$((side - 1))
        note_results
        tell_progress "$side"
    done
}

# quoted WORD: as one word of sh.
quoted() {
    printf "'%s'" "${1//\'/\'\\\'\'}"
}

# run_slurm: an array of jobs, a horizon each; what can no longer change the answer is taken out of the queue.
run_slurm() {
    command -v sbatch >/dev/null || wrong "there is no command sbatch"
    if [ -f "$folder/jobs/id" ] && squeue -h -j "$(cat "$folder/jobs/id")" 2>/dev/null | grep -q .; then
        job=$(cat "$folder/jobs/id")
        say "job $job of an earlier call goes on"
    else
        submit
    fi
    if [ "$waits" = yes ]; then
        wait_slurm
        tell_failed
    fi
    job=''
}

# submit: sets job.
submit() {
    local k said
    rm -f -- "$folder"/jobs/[0-9]*
    for k in "${!wanted[@]}"; do
        keep_text "$folder/jobs/$k" <<<"${wanted[k]}" || wrong "the folder $folder cannot be filled"
    done
    # shellcheck disable=SC2086 # the words for sbatch are several
    said=$(sbatch --parsable --job-name=spread --array="0-$k%$side_by_side" --mem="${memory}M" --time="$minutes" --requeue \
        --output="${folder//%/%%}/jobs/%A_%a.out" $sbatch_words \
        --wrap "exec bash $(quoted "$folder/task/spread") --chunk-of $(quoted "$folder") \$SLURM_ARRAY_TASK_ID") ||
        wrong "sbatch refuses the jobs"
    job=${said%%;*}
    keep_text "$folder/jobs/id" <<<"$job"
    say "job $job with ${#wanted[@]} $([ -z "$solvers" ] && echo horizons || echo 'tasks, each a horizon, a solver and a seed')"
}

# wait_slurm: waits until no task of the job is left. Slurm is asked every 5 seconds in the first minute, then every 30.
wait_slurm() {
    local begun=$SECONDS asked=0 tasks=() side=0 tries=0
    while :; do
        if [ $((SECONDS - asked)) -ge $((SECONDS - begun < 60 ? 5 : 30)) ] || [ "$asked" = 0 ]; then
            asked=$SECONDS
            ask_slurm || return 0
            drop_needless
        fi
        nap 1
        note_results
        tell_progress "$side"
    done
}

# ask_slurm: sets tasks to those that are left, and side to how many run; status 1 where none is left. An error other than
# that the job is gone is asked again.
ask_slurm() {
    local said task state
    if said=$(squeue -r -h -j "$job" -o '%K %t' 2>&1); then
        tries=0 tasks=() side=0
        while read -r task state; do
            [ -z "$task" ] || tasks+=("$task")
            [ "$state" != R ] || side=$((side + 1))
        done <<<"$said"
        [ "${#tasks[@]}" -gt 0 ]
    elif [[ $said == *'Invalid job id'* ]]; then
        return 1
    else
        tries=$((tries + 1))
        [ "$tries" -lt 12 ] || wrong "squeue does not answer: $said"
    fi
}

# drop_needless: takes out of the queue what can no longer change the answer.
drop_needless() {
    local task n gone=()
    for task in "${tasks[@]}"; do
        { read -r n _ <"$folder/jobs/$task"; } 2>/dev/null || continue
        ! has_result "$folder" "$n" && ! is_needless "$folder" "$n" || gone+=("${job}_$task")
    done
    [ "${#gone[@]}" = 0 ] || scancel "${gone[@]}" 2>/dev/null
}

# tell_failed: what jobs have written that left no result, and no word why.
tell_failed() {
    local at n task
    for at in "$folder"/jobs/*.out; do
        task=${at##*_} task=${task%.out}
        if [ ! -s "$at" ]; then
            rm -f -- "$at"
        elif { read -r n _ <"$folder/jobs/$task"; } 2>/dev/null && ! has_result "$folder" "$n" &&
            ! is_needless "$folder" "$n"; then
            say "the job of horizon $n has left no result, and wrote ($at):"
            tail -n 5 -- "$at" | sed 's/^/  /' >&2
        fi
    done
}
