#!/usr/bin/env bash
# Runs each ordered pair of the commands of reference/pairs.py, and compares all that is printed with the reference.
# usage: scripts/check/pairs.sh PROGRAM [COUNT], which takes the first COUNT of the commands alone
# Ends with 0; with 1 if something differs, which it shows; with 2 if there is no such program or a tool is missing.
set -eu
if [ $# = 0 ] || [ $# -gt 2 ] || [ ! -f "$1" ] || [ ! -x "$1" ]; then
    echo "usage: scripts/check/pairs.sh PROGRAM [COUNT]" >&2
    exit 2
fi
program=$(realpath "$1")
count=("${@:2}")
cd "$(dirname "$0")"
python3 runs.py diff || exit 2
cd ../../reference
folder=$(mktemp -d)
trap 'rm -rf "$folder"' EXIT
export PYTHONDONTWRITEBYTECODE=1

python3 pairs.py "${count[@]}" > "$folder/in"
due=0
python3 baliseplan.py --journal < "$folder/in" > "$folder/due" 2> "$folder/due.error" || due=$?
if [ "$due" != 1 ]; then
    echo "pairs: the reference ends with $due: $(cat "$folder/due.error")" >&2
    exit 2
fi
status=0
timeout -s KILL "${CHECK_SECONDS:-120}" "$program" --journal < "$folder/in" > "$folder/out" 2> "$folder/error" || status=$?
diff --label "the reference" --label "the program" -u "$folder/due" "$folder/out" > "$folder/differences" || true
head -q -n 40 "$folder/differences" "$folder/error"
if [ "$status" != "$due" ] || [ -s "$folder/differences" ] || [ -s "$folder/error" ]; then
    echo "pairs: the output, the status or standard error differs (status $status, and the reference has $due)"
    exit 1
fi
echo "pairs: $(wc -l < "$folder/out") lines of output, none differs"
