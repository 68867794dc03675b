#!/usr/bin/env bash
# Runs all checks of the desk, and prints a line for each.
# usage: scripts/check/desk.sh PROGRAM [--quick | --week]
# --quick tries less of the same. --week does a week's work alone, for the self-test of the checks.
# Ends with 0; with 1 if a check failed, after what it printed; with 2 if none failed and some could not run, each with a
# line `NOT RUN: PACKAGE is missing`.
set -u
if [ $# = 0 ] || [ $# -gt 2 ] || [[ ! ${2:---quick} =~ ^--(quick|week)$ ]] || [ ! -x "$1" ]; then
    echo "usage: scripts/check/desk.sh PROGRAM [--quick | --week]" >&2
    exit 2
fi
program=$(realpath "$1")
mode=${2:-}
seconds=$((${CHECK_SECONDS:-120} * 20))
cd "$(dirname "$0")/../.." || exit 2
folder=$(mktemp -d)
trap 'rm -rf "$folder"' EXIT
export BALISEPLAN=$program PYTHONDONTWRITEBYTECODE=1 LC_ALL=C.UTF-8
if [ "$mode" = --quick ]; then export PLANDESK_RANDOM=24 PLANDESK_PAIRS=50 PLANDESK_KILLS=20; fi
failed=0 lacking=0

# check NAME COMMAND ..: runs it, and shows what it printed where it fails
check() {
    local name=$1 since=$SECONDS
    shift
    if "$@" > "$folder/log" 2>&1; then
        printf 'ok      %-36s %4d s  %s\n' "$name" $((SECONDS - since)) "$(tail -n 1 "$folder/log" | cut -c1-100)"
    else
        failed=1
        printf 'FAILED  %-36s %4d s\n' "$name" $((SECONDS - since))
        tail -n 80 "$folder/log"
    fi
}

# needs PACKAGE COMMAND ..: whether the command succeeds; else a line says what is missing
needs() {
    local package=$1
    shift
    "$@" > /dev/null 2>&1 && return 0
    echo "NOT RUN: $package is missing"
    lacking=1
    return 1
}

# The first python3 may be one that doesn't see Debian's packages.
python=python3
for each in /usr/bin/python3 python3; do
    if "$each" -c 'import click, jinja2, rich' 2> /dev/null; then python=$each && break; fi
done
has() { "$python" -c "import $1"; }
test_types() {
    (cd desk/tests && MYPYPATH=..:../../reference "$python" -m mypy --strict --cache-dir "$folder/mypy_tests" conftest.py test_*.py)
}
tests() { env -C desk timeout "$seconds" "$python" -m pytest -q -p no:cacheprovider "$@"; }

needed=0
for each in click jinja2 rich pytest; do needs "python3-$each" has "$each" || needed=1; done
if [ "$mode" != --week ] && needs mypy has mypy; then
    check "types of the package" env -C desk "$python" -m mypy --cache-dir "$folder/mypy"
    check "types of the tests" test_types
fi
if [ $needed = 0 ] && [ "$mode" = --week ]; then
    check "the week" tests -x tests/test_work.py
elif [ $needed = 0 ]; then
    check "the week, messages and statuses" tests tests/test_work.py tests/test_messages.py tests/test_look.py
    check "the same words as the page" tests tests/test_words.py
    check "help, manual, completion" tests tests/test_start.py
    check "stops, full disks, two at once" tests tests/test_folder.py
    check "killed in a loop" tests tests/test_kill.py
    check "deliveries" tests tests/test_verify.py
    check "wrong engines are found" tests tests/test_wrong_engine.py
    check "what depends on what" tests tests/test_depend.py
    check "where tags are" tests tests/test_tags.py
    check "fields and faults of digits" tests tests/test_fields.py tests/test_faults.py
    check "a wrong or missing balisefields" tests tests/test_wrong_fields.py
    check "random sessions and pairs" tests tests/test_random.py
    browsers=1
    for each in chromium chromedriver; do
        needs "${each/chromedriver/chromium-driver}" command -v "$each" || browsers=0
    done
    needs python3-selenium has selenium || browsers=0
    if [ $browsers = 1 ]; then check "the report in Chromium" tests tests/test_report.py; fi
fi
[ $failed = 0 ] || exit 1
[ $lacking = 0 ] || exit 2
