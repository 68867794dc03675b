#!/usr/bin/env bash
# Runs all checks of the page, and prints a line for each.
# usage: scripts/check/page.sh PROGRAM [--quick]
# Some ten minutes on four idle processors; --quick tries less of the same, in some four.
# Ends with 0; with 1 if a check failed, after what it printed; with 2 if none failed and some could not run, each with a
# line `NOT RUN: PACKAGE is missing`. Pictures are left in page/out/shots.
set -u
if [ $# = 0 ] || [ $# -gt 2 ] || [ "${2:---quick}" != --quick ] || [ ! -x "$1" ]; then
    echo "usage: scripts/check/page.sh PROGRAM [--quick]" >&2
    exit 2
fi
program=$(realpath "$1")
quick=${2:-}
cd "$(dirname "$0")/../.." || exit 2
folder=$(mktemp -d)
trap 'rm -rf "$folder"' EXIT
export BALISEPLAN=$program PYTHONDONTWRITEBYTECODE=1 LC_ALL=C.UTF-8
failed=0 lacking=0

# check NAME COMMAND ..: runs it, and shows what it printed where it fails
check() {
    local name=$1 since=$SECONDS
    shift
    if "$@" > "$folder/log" 2>&1; then
        printf 'ok      %-34s %4d s  %s\n' "$name" $((SECONDS - since)) "$(tail -n 1 "$folder/log" | cut -c1-110)"
    else
        failed=1
        printf 'FAILED  %-34s %4d s\n' "$name" $((SECONDS - since))
        tail -n 60 "$folder/log"
    fi
}

# needs PACKAGE COMMAND ..: whether the command succeeds; else a line says what is missing
needs() {
    local package=$1
    shift
    "$@" > /dev/null 2>&1 && return 0
    echo "NOT RUN: $package is missing"
    lacking=1
    return 1
}

# The first python3 may be one that doesn't see Debian's packages.
python=python3
for each in /usr/bin/python3 python3; do
    if "$each" -c 'import selenium' 2> /dev/null; then python=$each && break; fi
done

same_page() { node page/build.mjs "$folder/page.html" && cmp "$folder/page.html" page/baliseplan.html; }
same_engine() {
    page/engine/build.sh "$folder/engine.wasm" && node page/build.mjs --engine "$folder/engine.wasm" "$folder/built.html" &&
        cmp "$folder/built.html" page/baliseplan.html
}
node_tests() { node --test page/test/*.test.mjs > "$folder/tests"; local status=$?; grep -E '^not ok|^# pass' "$folder/tests"; return $status; }

if needs nodejs node -e 'process.exit(parseInt(process.versions.node) < 18 ? 1 : 0)'; then
    check "the stored page is of the sources" same_page
    check "modules, sessions, checker" node_tests
    check "engine beside the program" node page/check/compare_engine.mjs "$program" "$([ -n "$quick" ] && echo 500 || echo 20000)"
fi
if needs node-typescript command -v tsc; then check "types of the modules" tsc -p page/jsconfig.json; fi
if needs mypy command -v mypy; then check "types of the scripts" mypy --config-file page/check/mypy.ini page/check/*.py; fi
if needs "a Rattle kit" command -v rt && needs "the proved library (make library)" test -d crates/balise_c/out && needs binaryen command -v wasm-opt; then
    check "the stored engine is of the crates" same_engine
fi
if needs chromium command -v chromium && needs chromium-driver command -v chromedriver && needs python3-selenium "$python" -c 'import selenium'; then
    flows=(edit files check week look)
    [ -n "$quick" ] || flows+=(large)
    for each in "${flows[@]}"; do check "flows in Chromium: $each" "$python" page/check/flows.py "$each"; done
    check "contrast, names, sizes, headings" "$python" page/check/audit.py
    if needs firefox-esr command -v firefox-esr; then check "engine in both browsers" "$python" page/check/engine_in_browsers.py "$program"; fi
    check "wrong pages are found" "$python" page/check/wrong_pages.py "$program" ${quick:+"$quick"}
fi
[ $failed = 0 ] || exit 1
[ $lacking = 0 ] || exit 2
