# shellcheck shell=bash
# Runs parts: how each ended, its time and what it printed last. For all.sh and everything.sh.
#
# A part is right (status 0), wrong (1) or NOT RUN (2: something that it needs is missing, which it says). Parts whose
# names match the expression WITHOUT, of the environment, are NOT RUN either. Those that take one processor run side by
# side, as many as there are processors; any other one waits for all before it, and runs alone.

part_names=() part_commands=() part_ends=() wrong_ends=() beside=()
right=0 wrong=0 not_run=0 at_once=$(nproc)
logs=${CHECK_LOGS:-}

# part NAME COMMAND ..: a part to run, alone
part() {
    part_names+=("$1")
    if [[ -n ${WITHOUT:-} && $1 =~ $WITHOUT ]]; then
        part_commands+=("left_out")
    else
        shift
        part_commands+=("$(printf '%q ' "$@")")
    fi
}

# part_beside NAME COMMAND ..: a part that may run at the same time as others of this kind
part_beside() {
    beside[${#part_names[@]}]=beside
    part "$@"
}

left_out() {
    echo "left out by WITHOUT='$WITHOUT'" >&2
    return 2
}

# last FILE ..: the last line that isn't empty, and of a counter that goes back the last count
last() {
    cat "$@" 2> /dev/null | tail -c 600 | tr '\r' '\n' | grep -v '^ *$' | tail -n 1 | cut -c 1-200
}

# show: what runs, for how long, and what it printed last; on a terminal one part each second, else each part each minute
show() {
    local index line
    [ $((SECONDS - shown)) -ge "$([ -t 2 ] && echo 1 || echo 60)" ] || return 0
    shown=$SECONDS
    for index in "${!groups[@]}"; do
        line=$(printf '[%d/%d] %5d s  %s goes on: %s' $((index + 1)) ${#part_names[@]} $((SECONDS - begun[index])) \
            "${part_names[index]}" "$(last "$(log_of "$index").err" "$(log_of "$index").out")")
        if [ -t 2 ]; then
            printf '\r\033[K%.130s' "$line" >&2
            return
        fi
        echo "$line"
    done
}

# judge INDEX STATUS SECONDS LOG: notes and prints how a part ended
judge() {
    local index=$1 status=$2 seconds=$3 log=$4 result what
    case $status in
        0) result=right right=$((right + 1)) ;;
        2) result="NOT RUN" not_run=$((not_run + 1)) ;;
        *) result=WRONG wrong=$((wrong + 1)) ;;
    esac
    what=$(last "$log.out")
    if [ -z "$what" ] || [ "$status" = 2 ]; then what=$(last "$log.out" "$log.err"); fi
    part_ends[index]=$(printf '%-7s %5d s  %s: %s' "$result" "$seconds" "${part_names[index]}" "$what")
    [ ! -t 2 ] || printf '\r\033[K' >&2
    echo "[$((index + 1))/${#part_names[@]}] ${part_ends[index]}"
    [ "$result" != WRONG ] || wrong_part "${part_names[index]}" "$log"
    [ "$result" != "NOT RUN" ] || cat "$log.out" "$log.err" | tail -n 100 | grep -vxF -e "$what" | sed 's/^/    /'
}

# printed FILE LINES: the last lines of a file as a terminal shows them, without what a counter wrote over
printed() {
    sed 's/.*\r//' "$1" | grep -v '^ *$' | tail -n "$2" | sed 's/^/    /'
}

# wrong_part NAME LOG: shows what a wrong part printed, and notes the end of it for the verdict
wrong_part() {
    printed "$2.err" 100
    printed "$2.out" 100
    wrong_ends+=("$1:"$'\n'"$( (printed "$2.err" 4 && printed "$2.out" 10) | cut -c 1-160)")
}

# log_of INDEX: the files of a part, without their endings
log_of() {
    printf '%s/%02d' "$logs" "$(($1 + 1))"
}

# begin_part INDEX: runs its command in a process group of its own, which leaves its status and its seconds
begin_part() {
    local log
    log=$(log_of "$1")
    rm -f "$log.end"
    : > "$log.out"
    : > "$log.err"
    [ -t 2 ] || echo "[$(($1 + 1))/${#part_names[@]}] runs: ${part_names[$1]}"
    set -m
    begun[$1]=$SECONDS
    {
        status=0
        eval "${part_commands[$1]}" > "$log.out" 2> "$log.err" || status=$?
        echo "$status $((SECONDS - begun[$1]))" > "$log.end"
    } < /dev/null &
    groups[$1]=$!
    set +m
}

# end_part INDEX: judges a part that has ended
end_part() {
    local log status=1 seconds=0
    log=$(log_of "$1")
    wait "${groups[$1]}"
    unset "groups[$1]"
    [ ! -e "$log.end" ] || read -r status seconds < "$log.end"
    judge "$1" "$status" "$seconds" "$log"
}

# until_fewer COUNT: waits until fewer than COUNT parts run
until_fewer() {
    local index
    while [ "${#groups[@]}" -ge "$1" ]; do
        for index in "${!groups[@]}"; do
            kill -0 "${groups[index]}" 2> /dev/null || end_part "$index"
        done
        [ "${#groups[@]}" -lt "$1" ] || sleep 0.2
        show
    done
}

# stop_parts: ends all that was begun
stop_parts() {
    local group
    for group in "${groups[@]}"; do
        kill -KILL -- "-$group" 2> /dev/null
    done
    # shellcheck disable=SC2046
    kill -KILL $(jobs -p) 2> /dev/null
}

# run_parts: runs all parts, and prints a line for each and one verdict. Ends with 0, 1 if one is wrong, else 2
run_parts() {
    local index temporary='' groups=() begun=() shown=$SECONDS
    if [ -z "$logs" ]; then
        logs=$(mktemp -d)
        temporary=$logs
    fi
    # A job that is begun and ended at once may still have the traps of this shell.
    # shellcheck disable=SC2064
    trap "[ \$BASHPID != $$ ] || { stop_parts; rm -rf '$temporary'; }" EXIT
    trap '[ "$BASHPID" != $$ ] || { echo "stopped: not all parts were run"; exit 130; }' INT TERM
    for index in "${!part_names[@]}"; do
        if [ -n "${beside[index]:-}" ]; then
            until_fewer "$at_once"
            begin_part "$index"
        else
            until_fewer 1
            begin_part "$index"
            until_fewer 1
        fi
    done
    until_fewer 1
    verdict
}

verdict() {
    echo
    printf '%s\n' "${part_ends[@]}"
    [ ${#wrong_ends[@]} = 0 ] || printf '\n%s\n' "${wrong_ends[@]}"
    echo
    if [ "$wrong$not_run" = 00 ]; then
        echo "All ${#part_names[@]} parts are right ($SECONDS s)."
    else
        echo "Of ${#part_names[@]} parts $right are right, $wrong are wrong and $not_run were not run ($SECONDS s)."
    fi
    [ "$wrong" = 0 ] || return 1
    [ "$not_run" = 0 ] || return 2
}
