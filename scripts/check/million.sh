#!/usr/bin/env bash
# Gives a program 1,000,000 commands that are accepted and some more, and compares all that it prints with the reference.
# usage: scripts/check/million.sh PROGRAM
# Ends with 0; with 1 if something differs; with 2 if there is no such program or a tool is missing.
set -eu
if [ $# != 1 ] || [ ! -f "$1" ] || [ ! -x "$1" ]; then
    echo "usage: scripts/check/million.sh PROGRAM" >&2
    exit 2
fi
program=$(realpath "$1")
cd "$(dirname "$0")"
python3 runs.py cmp || exit 2
folder=$(mktemp -d)
trap 'rm -rf "$folder"' EXIT
export PYTHONDONTWRITEBYTECODE=1

{
    printf 'plan 1\ngroup\na1007f80a0327fffffffffffffffffffffffffffffffffffffffc0\nedits\n'
    yes $'seth 5.100 0 M_DUP 1\nundo' | head -n 999999
    # The millionth, and then 28 for each command that is well-formed, also for one that is refused anyway.
    printf 'no command\nredo 1\nseth 5.100 0 M_DUP 9\nseth 5.100 0 M_DUP 2\n'
    printf 'undo\nredo\nstrike 7\nturn 5.100\ndrop 9.9\nadd 0\n'
} > "$folder/in"
due=0 status=0
python3 ../../reference/baliseplan.py --journal < "$folder/in" > "$folder/due" || due=$?
timeout -s KILL "${CHECK_SECONDS:-120}" "$program" --journal < "$folder/in" > "$folder/out" 2> "$folder/error" || status=$?
worn=$(grep -c '^refused 28 Worn$' "$folder/due" || true)
if [ "$due" != 1 ] || [ "$worn" = 0 ]; then
    echo "million: the reference ends with $due, and refuses $worn commands by 28"
    exit 1
fi
if [ "$status" != "$due" ] || [ -s "$folder/error" ] || ! cmp "$folder/due" "$folder/out"; then
    diff "$folder/due" "$folder/out" | head -n 20
    echo "million: the output, the status or standard error differs (status $status, and the reference has $due)"
    exit 1
fi
echo "million: $(wc -l < "$folder/out") lines of output, none differs; $worn commands refused by 28"
