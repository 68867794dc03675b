#!/usr/bin/env bash
# Checks the types of the Python scripts here, in scripts/dist/ and in reference/, and the scripts of the shell:
# scripts/check/types.sh.
# Ends with 0; with 1 if something is wrong; with 2 if a tool is missing.
set -eu
cd "$(dirname "$0")"
python3 runs.py shellcheck || exit 2
python=$(bash python.sh mypy pytest hypothesis) || exit 2
failed=0
mypy=("$python" -m mypy --strict --cache-dir "$(mktemp -d)")
env -C ../../reference "${mypy[@]}" . || failed=1
# Two modules have the name baliseplan: the reference, and the one that these scripts import.
callers=(library_runs.py library_fields.py library_facts.py)
mapfile -t scripts < <(printf '%s\n' *.py | grep -vxF "$(printf '%s\n' "${callers[@]}")")
MYPYPATH=../../reference:../dist "${mypy[@]}" "${scripts[@]}" ../bench/hostile_loads.py || failed=1
MYPYPATH=../../examples/python:../../reference "${mypy[@]}" "${callers[@]}" || failed=1
# What all.sh and everything.sh share is set in one file and used in another.
shellcheck -x -P SCRIPTDIR -S warning -e SC2034,SC2154 ./*.sh ./*.bats ../setup.sh ../dist/*.sh ../dist/plandesk || failed=1
[ "$failed" = 0 ] && echo "types: no fault in reference/, scripts/check/ and scripts/dist/"
exit "$failed"
