#!/usr/bin/env bash
# Runs the program on small inputs, and compares exit status and standard error: scripts/check/statuses.sh PROGRAM.
# The runs are in statuses.bats. Ends with 0; with 1 if one is wrong; with 2 if PROGRAM or a tool is missing.
set -eu
if [ $# != 1 ] || [ ! -f "$1" ] || [ ! -x "$1" ]; then
    echo "usage: scripts/check/statuses.sh PROGRAM" >&2
    exit 2
fi
PROGRAM=$(realpath "$1")
cd "$(dirname "$0")"
python3 runs.py bats || exit 2
export PROGRAM
if bats --tap statuses.bats; then
    echo "statuses: $(bats --count statuses.bats) tests, all are right"
else
    exit 1
fi
