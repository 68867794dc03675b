#!/usr/bin/env bash
# Runs all checks of a built program, and prints a line for each: how it ended, its time and what it saw.
# usage: scripts/check/all.sh PROGRAM [--quick]
# They use all processors that they may (taskset gives them fewer). --quick tries less of the same: README.md has what,
# and how long it takes. Random inputs that differ are kept in ./differences.
# Ends with 0; with 1 if a check is wrong, after what it printed; with 2 if one could not be run, and why.
set -u
if [ $# = 0 ] || [ $# -gt 2 ] || [ "${2:---quick}" != --quick ]; then
    echo "usage: scripts/check/all.sh PROGRAM [--quick]" >&2
    exit 2
fi
if [ ! -f "$1" ] || [ ! -x "$1" ]; then
    echo "all.sh: $1 is no program that can be run" >&2
    exit 2
fi
program=$(realpath "$1")
words=$(printf '%q' "$program") # for scripts that take a program with words of its own
kept=$PWD/differences
quick=${2:-}
cd "$(dirname "$0")" || exit 2
export LC_ALL=C PYTHONDONTWRITEBYTECODE=1
. ./parts.sh
. ./program_parts.sh

# A function is read whole before it is run. So the file may change while it runs, which takes long.
main() {
    if [ -n "$quick" ]; then quick_parts; else all_parts; fi
    run_parts
    exit
}

main
