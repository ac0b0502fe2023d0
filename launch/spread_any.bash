# shellcheck shell=bash disable=SC2034,SC2154 # the parts set variables for one another
# Engines that look for an answer of any length: what a job of ./spread --solve does beside horizons, and how it is joined. Read after
# spread_jobs.bash, by ./spread and by its copy in a folder of results.
#
# A unit is any-ENGINE; FOLDER/h/any-ENGINE has its result, whose word is found (with the file plan), none (with the file certificate,
# or report where the engine writes none) or nothing. FOLDER/answered is there where a job has an answer: all others may end. What it
# stands for is judged where it is joined.

# any_engines: those that are here.
any_engines() {
    echo plan
    [ -z "$searcher" ] || printf '%s\n' search-greedy search-least
    [ -z "$never" ] || ! is_command never-search && [ -z "${SPREAD_NEVER-}" ] || echo never
}

# take_engines: sets searcher and never to programs, or to nothing, and engines to those that are asked for.
take_engines() {
    local planner=$program
    searcher='' never=''
    [ "$solves" = yes ] || return 0
    use driver
    searcher=${SPREAD_SEARCH-$(program_for search)}
    never=${SPREAD_NEVER-$(program_for never)}
    program=$planner
    mapfile -t engines < <(any_engines)
}

# is_answered FOLDER: there is an answer of any length.
is_answered() {
    [ -f "$1/answered" ]
}

# run_any FOLDER UNIT: runs the engine; nothing where it is needless or done.
run_any() {
    local folder=$1 n=$2 engine=${2#any-} at=$1/h/$2 made out
    mkdir -p -- "$at"
    has_result "$folder" "$n" || is_answered "$folder" && return
    is_unchanged "$folder" || { lose "$folder" "$n" 'a file of the task was changed'; return; }
    fresh "$at/out" || { lose "$folder" "$n" 'the result could not be kept' || unkept=70; return; }
    out=$made
    run_engine_of "$engine"
    case $engine:$status in
    *:0 | never:1) take_any ;;
    plan:1 | *:2) put_result "$folder" "$n" nothing 0 ;;
    search-*:1) keep_file "$out" "$at/report" && put_result "$folder" "$n" none 0 report ;;
    *:8) lose "$folder" "$n" memory ;;
    *:14) lose "$folder" "$n" time ;;
    *:15) ;;
    *) lose "$folder" "$n" "the engine ended with status $status" ;;
    esac || lose "$folder" "$n" 'the result could not be kept' || unkept=70
    rm -f -- "$at"/*."$$".??????
}

# run_engine_of ENGINE: sets status.
run_engine_of() {
    local task=$folder/task
    case $1 in
    plan) run_planner "$folder" "$n" "$out" plan "$task/domain" "$task/problem" --alg c --max-horizon 255 --budget "$budget" --workers 1 ;;
    search-*) runs=searcher run_planner "$folder" "$n" "$out" search "$task/domain" "$task/problem" --how "${1#search-}" \
        --memory "$((memory * 3 / 4))" ;;
    never) runs=never run_planner "$folder" "$n" "$out" never-search "$task/domain" "$task/problem" ;;
    esac
}

# take_any: what an engine has found: a plan, or a certificate that there is none.
take_any() {
    if grep -q '^; plan of ' "$out"; then
        keep_file "$out" "$at/plan" && put_result "$folder" "$n" found 0 plan
    elif [ "$engine" = never ]; then
        keep_file "$out" "$at/certificate" && put_result "$folder" "$n" none 0 certificate
    else
        lose "$folder" "$n" 'the engine has found neither a plan nor that there is none'
    fi
}

# any_fault FOLDER: judges what engines have found. Sets any_plan to a plan that was checked, any_none to a certificate that was
# judged, any_told to the unit of an engine that says without one that there is no plan; fault and bad as answer_fault does.
any_fault() {
    local at n said task=$1/task
    any_plan='' any_none='' any_told=''
    for at in "$1"/h/any-*/result; do
        n=${at%/result} n=${n##*/}
        field_of "$at" word
        case $field in
        found)
            said=$("$program" check "$task/domain" "$task/problem" "$1/h/$n/plan" 2>/dev/null) && any_plan=h/$n/plan && continue
            fault="the plan of $n does not reach the goal: ${said:-no answer}" bad=$n
            return
            ;;
        none)
            [ -f "$1/h/$n/certificate" ] || { any_told=$n; continue; }
            said=''
            [ -z "$never" ] || said=$("$never" never "$task/domain" "$task/problem" "$1/h/$n/certificate" 2>/dev/null)
            [[ $said == '; no plan of any length'* ]] && any_none=h/$n/certificate && continue
            fault="the certificate of $n is not accepted: ${said:-no answer}" bad=$n
            return
            ;;
        esac
    done
}

# tell_any: the sentences that follow. Sets ends where there is an answer.
tell_any() {
    if [ -n "$any_plan" ]; then
        echo "A plan of $(grep -c '^(' "$1/$any_plan") actions, which was checked: $any_plan"
        ends=0
    elif [ -n "$any_none" ]; then
        echo "There is no plan of any length: the certificate was judged: $any_none"
        ends=1
    elif [ -n "$any_told" ]; then
        echo "Reported, and not known: a job of ${any_told#any-} says that there is no plan of any length (dokyreva search tells it here)."
    fi
}
