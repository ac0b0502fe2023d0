# shellcheck shell=bash disable=SC2034,SC2154 # the parts set variables for one another
# What the results of a folder come to. Nothing that a job wrote is taken on trust: sums are compared, the certificate and the
# plan on which the answer rests are checked by the program of this checkout, and only then is anything said. What a job reports
# without a certificate is told as such, and decides nothing.

# value_of FILE NAME
value_of() {
    local field
    field_of "$1" "$2"
    printf '%s\n' "$field"
}

# read_result FOLDER N: sets word for the horizon, of a result that has the form and the files that it names.
read_result() {
    local at=$1/h/$2 name sum
    word=missing
    [ -f "$at/result" ] || return 0
    word=$(value_of "$at/result" word)
    [[ $word =~ ^(refuted|reported|plan|open|limit|found|none|nothing)$ ]] || wrong "$at/result is not what a job writes"
    [ "$(value_of "$at/result" horizon)" = "$2" ] || wrong "$at/result is of another horizon"
    [[ $word == open || $word == limit || $word == nothing ]] || grep -q '^file=' "$at/result" || wrong "$at/result names no file"
    while read -r name sum; do
        [ "$(sha256sum <"$at/$name" 2>/dev/null)" = "$sum  -" ] || wrong "$at/$name is not the file that its result names"
    done < <(sed -n 's/^file=//p' "$at/result")
}

# read_results FOLDER: sets words by horizon, the greatest refuted one with a certificate and with a report alone, and the least
# one with a plan; -1 where there is none.
read_results() {
    local n
    words=() certified=-1 reported=-1 found=-1
    for ((n = first; n <= last; n++)); do
        read_result "$1" "$n"
        words[n]=$word
        case $word in
        refuted) certified=$n ;;
        reported) reported=$n ;;
        plan) [ "$found" -ge 0 ] || found=$n ;;
        esac
    done
}

# answer_fault FOLDER: checks the certificate and the plan on which the answer rests. Sets fault to what is wrong, or to nothing,
# and bad to the horizon.
answer_fault() {
    local said task=$1/task
    fault='' bad=-1
    any_fault "$1"
    [ -z "$fault" ] || return
    if [ "$certified" -ge 0 ] && field_of "$1/h/$certified/result" file && [[ $field == proof.* ]]; then
        proof_fault "$1" "$certified" "${field% *}"
        bad=$certified
        [ -z "$fault" ] || return
    elif [ "$certified" -ge 0 ]; then
        said=$("$program" verify "$task/domain" "$task/problem" "$1/h/$certified/certificate" 2>/dev/null)
        if ! [[ $said =~ ^'; accepted horizon '$certified' entries '[0-9]+$ ]]; then
            fault="the certificate of horizon $certified is not accepted: ${said:-no answer}" bad=$certified
            return
        fi
    fi
    if [ "$found" -ge 0 ]; then
        field_of "$1/h/$found/result" file
        if ! said=$("$program" check "$task/domain" "$task/problem" "$1/h/$found/${field% *}" 2>/dev/null); then
            fault="the plan of horizon $found does not reach the goal: ${said:-no answer}" bad=$found
        elif [ "$certified" -ge "$found" ]; then
            fault="horizon $certified is refuted, and horizon $found has a plan" bad=$certified
        fi
    fi
}

# set_aside FOLDER N WHY: a result that is not to be trusted, so that its horizon is run again.
set_aside() {
    say "$3: it is set aside, and the horizon is run again"
    mv -f -- "$1/h/$2/result" "$1/h/$2/result.bad"
    rm -f -- "$1/answered"
}

# mend_results FOLDER: sets aside each result that has not the form or the files that it names.
mend_results() {
    local at n why
    for at in "$1"/h/*/result; do
        n=$(basename -- "$(dirname -- "$at")")
        why=$(read_result "$1" "$n" 2>&1) || set_aside "$1" "$n" "${why#spread: }"
    done
}

# mend_answer FOLDER: runs again what the answer rests on and does not stand. What is still wrong then is told by the join.
mend_answer() {
    mend_results "$1"
    begin_bounds
    run_engine
    read_results "$1"
    answer_fault "$1"
    [ -z "$fault" ] && return
    set_aside "$1" "$bad" "$fault"
    begin_bounds
    run_engine
}

# is_settled N: what is known of other horizons decides of this one.
is_settled() {
    [ "$found" -ge 0 ] && [ "$1" -gt "$found" ] || [ "$1" -lt "$certified" ]
}

# tell_table FOLDER
tell_table() {
    local n at lost
    printf '%-8s %-9s %10s %8s %7s  %s\n' horizon answer conflicts seconds MB where
    for ((n = first; n <= last; n++)); do
        at=$1/h/$n/result lost=$(cat -- "$1/h/$n/lost" 2>/dev/null)
        if [ "${words[n]}" != missing ]; then
            printf '%-8s %-9s %10s %8s %7s  %s\n' "$n" "${words[n]}" "$(value_of "$at" conflicts)" "$(value_of "$at" seconds)" \
                "$(value_of "$at" megabytes)" "$(value_of "$at" where)"
        elif is_settled "$n"; then
            printf '%-8s %-9s\n' "$n" needless
        elif compgen -G "$1/h/$n/open.*" >/dev/null; then
            printf '%-8s %-9s\n' "$n" open
        elif [ -n "$lost" ]; then
            printf '%-8s %-9s %10s %8s %7s  %s\n' "$n" lost '' '' '' "$lost"
        else
            printf '%-8s %-9s\n' "$n" missing
        fi
    done
}

# tell_answer FOLDER: the sentences that follow. Sets ends.
tell_answer() {
    local from
    if [ "$found" -ge 0 ]; then
        field_of "$1/h/$found/result" file
        echo "A plan of $found steps, which was checked: h/$found/${field% *}"
        ends=0
    elif [ "$certified" = "$last" ]; then
        echo "Every horizon up to $last is refuted."
        ends=1
    else
        from=$((certified + 1 > first ? certified + 1 : first))
        if [ "$from" = "$last" ]; then
            echo "Horizon $last is not decided."
        else
            echo "Horizons $from to $last are not all decided."
        fi
        ends=2
    fi
    if [ "$certified" -ge 0 ]; then
        field_of "$1/h/$certified/result" file
        [[ $field == proof.* ]] && field=proof || field=certificate
        echo "No plan of at most $certified actions: the $field of horizon $certified was checked," \
            "and one is enough for all below it."
    fi
    if [ "$reported" -gt "$certified" ]; then
        echo "Reported, and not known: a job says that horizon $reported is refuted, without a certificate, which would be too long."
    fi
    if [ "$found" -gt 0 ] && [ "$certified" = $((found - 1)) ]; then
        echo "$found is the least number of steps."
    fi
    [ "$ends" = 0 ] || tell_any "$1"
}

# lost_status FOLDER: where horizons that matter were lost, why: 8 for memory, 14 for time, 70 for all else; otherwise nothing.
lost_status() {
    local n why
    for ((n = first; n <= last; n++)); do
        [ "${words[n]}" = missing ] && [ -f "$1/h/$n/lost" ] && ! is_settled "$n" || continue
        why=$(cat -- "$1/h/$n/lost")
        case $why in
        memory) echo 8 ;;
        time) echo 14 ;;
        *) echo 70 ;;
        esac
    done | sort -rn | head -n 1
}

# as_json NAME VALUE..: an object, whose numbers are numbers.
as_json() {
    local sep='{'
    while [ $# -ge 2 ]; do
        if [[ $2 =~ ^(0|-?[1-9][0-9]*)$ ]]; then
            printf '%s"%s": %s' "$sep" "$1" "$2"
        else
            printf '%s"%s": "%s"' "$sep" "$1" "${2//[\"\\]/_}"
        fi
        sep=', '
        shift 2
    done
    printf '}\n'
}

# put_properties FOLDER: a properties.json for each horizon and one for all.
put_properties() {
    local n at
    for ((n = first; n <= last; n++)); do
        at=$1/h/$n
        [ -f "$at/result" ] || continue
        as_json horizon "$n" word "${words[n]}" conflicts "$(value_of "$at/result" conflicts)" \
            budget "$(value_of "$at/result" budget)" seconds "$(value_of "$at/result" seconds)" \
            megabytes "$(value_of "$at/result" megabytes)" | keep_text "$at/properties.json" || return
    done
    as_json first "$first" last "$last" budget "$budget" plan "$found" certified "$certified" \
        reported "$reported" status "$ends" | keep_text "$1/properties.json"
}

# join_results FOLDER: ends with the status of the answer.
join_results() {
    local folder lost
    folder=$(readlink -f -- "$1") && [ -f "$folder/task/SHA256SUMS" ] || wrong "$1 is no folder of results"
    is_unchanged "$folder" || wrong "a file in $folder/task was changed"
    read_settings "$folder"
    is_number "$first" 0 255 && is_number "$last" "$first" 255 || wrong "$folder/task/settings is not what a driver writes"
    read_results "$folder"
    answer_fault "$folder"
    [ -z "$fault" ] || wrong "$fault"
    tell_table "$folder"
    tell_answer "$folder"
    if [ "$ends" = 2 ]; then
        lost=$(lost_status "$folder")
        ends=${lost:-${unkept:-2}}
        [ -n "$lost" ] || [ "$ends" = 2 ] || say "a job failed, and could not write why: is the disk full?"
    fi
    put_properties "$folder" 2>/dev/null || say "the properties could not be written"
    exit "$ends"
}
