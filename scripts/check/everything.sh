#!/usr/bin/env bash
# Runs all that has to hold before a change goes in: the gate, and all other tests of the repository. `make check` runs it.
# usage: scripts/check/everything.sh [--all-of-it]
# --all-of-it: what can't be run counts as wrong.
# The gate leaves its programs, tests and libraries in this checkout, and the other parts take them. Where the gate is
# left out, what they need is proved first.
# What each part prints is in out/checks, also while it runs. Ends with 0; with 1 if a part is wrong; with 2 if one could
# not be run.
set -u
strict=${1:-}
if [ $# -gt 1 ] || [ "${1:---all-of-it}" != --all-of-it ]; then
    echo "usage: scripts/check/everything.sh [--all-of-it]" >&2
    exit 2
fi
cd "$(dirname "$0")" || exit 2
export LC_ALL=C PYTHONDONTWRITEBYTECODE=1
top=$(realpath ../..)
program=$top/crates/baliseplan/out/baliseplan
words=$(printf '%q' "$program") # for scripts that take a program with words of its own
kept=$top/out/checks/differences
CHECK_LOGS=$top/out/checks
rm -rf "$CHECK_LOGS"
mkdir -p "$CHECK_LOGS"
. ./parts.sh
. ./program_parts.sh

with_kit() {
    command -v rt > /dev/null || {
        echo "missing: rt, of a Rattle kit (README.md)" >&2
        return 2
    }
    "$@"
}

gate_began=$CHECK_LOGS/gate-began
gate() {
    : > "$gate_began"
    env -C "$top" RT_JOBS="${RT_JOBS:-$(nproc)}" rt ci
}

libraries_of_gate() {
    if [ -e "$gate_began" ]; then
        python3 after_gate.py "$gate_began"
    else
        echo "no gate in this run"
    fi
}

# of_gate FILE ..: whether the gate of this run made these files
of_gate() {
    local file
    [ -e "$gate_began" ] || return 1
    for file in "$@"; do
        [ "$top/crates/$file" -nt "$gate_began" ] || return 1
    done
    echo "as the gate built it"
}

# make ends with 2 where something fails, which would read as NOT RUN.
built_programs() {
    of_gate baliseplan/out/baliseplan balisefields/out/balisefields balisefacts/out/balisefacts ||
        make --no-print-directory -C "$top" program fields facts || return 1
}

# The tests of memory as programs
memory_tests() {
    local crate
    for crate in balise_index_tests balise_telegram_tests balise_plan_tests balise_history_tests; do
        of_gate "$crate/out/${crate}_tests" || (cd "$top/crates/$crate" && rt test) || return 1
    done
}

# A function is read whole before it is run. So the file may change while it runs, which takes long.
main() {
    part "gate: rt ci" with_kit gate
    part "libraries of the gate" with_kit libraries_of_gate
    part "programs" with_kit built_programs
    part "tests of memory" with_kit memory_tests
    quick_parts
    of_program "desk" bash desk.sh "$program" --quick
    # Further tests of the repository, a line each:
    #     part NAME COMMAND ..
    # or, where it needs Python packages of Debian,
    #     part NAME with_modules "MODULE .." PYTHON -m pytest -q FOLDER

    run_parts
    status=$?
    if [ -n "$strict" ]; then
        wrong=$((wrong + not_run)) not_run=0
    fi
    if [ "$not_run" = 0 ]; then
        echo "$right passed, $wrong failed"
    else
        echo "$right passed, $wrong failed, $not_run skipped"
    fi
    [ "$wrong" = 0 ] || exit 1
    exit "$status"
}

main
