#!/usr/bin/env bash
# Builds the library and its callers in C, Python and Rust, runs their tests, installs it, and compares what the callers
# print with a program.
# usage: scripts/check/library.sh PROGRAM [COUNT] [--built]
# The examples and rows are compared with each set of flags, COUNT damaged ones (2,000) with one set each,
# and COUNT random inputs with their own. Facts are compared with the program balisefacts, where it was built, on the same
# examples and rows with each way to ask, and a quarter of COUNT damaged and random inputs each; else with the reference,
# on a tenth of that. Fields are compared with the program balisefields, where it was built, on the
# examples of docs/FIELDS.md, a quarter of COUNT random inputs each way, and a quarter of COUNT damaged ones; else with
# the reference, on a tenth of that. With --built what stands in out/ is checked, and no kit is needed.
# Ends with 0; with 1 if something doesn't build, differs or fails, which it shows; with 2 if PROGRAM or a tool is
# missing.
set -eu

missing() {
    echo "library.sh: $*" >&2
    exit 2
}

usage="usage: scripts/check/library.sh PROGRAM [COUNT] [--built]"
make_library=(make shared) count=2000
[ $# -gt 0 ] || missing "$usage"
if [ ! -f "$1" ] || [ ! -x "$1" ]; then missing "$1 is no program that can be run"; fi
program=$(realpath "$1")
for word in "${@:2}"; do
    case $word in
        --built) make_library=(true) ;;
        *[!0-9]*) missing "$usage" ;;
        *) count=$word ;;
    esac
done
cd "$(dirname "$0")"
python3 runs.py ar cargo cc c++ make objcopy pkg-config valgrind || exit 2
[ "${make_library[0]}" = true ] || command -v rt > /dev/null || missing "missing: rt, of a Rattle kit (README.md)"
python=$(bash python.sh mypy pytest) || exit 2

cd ../..
of_fields=crates/balisefields/out/balisefields fields_count=$((count / 4))
if [ ! -x "$of_fields" ]; then
    of_fields="$(printf %q "$python") reference/balisefields.py" fields_count=$((count / 40))
fi
of_facts=crates/balisefacts/out/balisefacts facts_count=$((count / 4))
if [ ! -x "$of_facts" ]; then
    of_facts="$(printf %q "$python") reference/balisefacts.py" facts_count=$((count / 40))
fi
folder=$(mktemp -d)
trap 'rm -rf "$folder"' EXIT
export LC_ALL=C PYTHONDONTWRITEBYTECODE=1 CARGO_NET_OFFLINE=true CARGO_TARGET_DIR=$folder/cargo
unset BALISEPLAN_LIB BALISEPLAN_LIBRARY
failed=0

# build WHAT COMMAND ..: shows what the command printed only if it fails
build() {
    local what=$1
    shift
    "$@" > "$folder/log" 2>&1 || { cat "$folder/log"; echo "$what doesn't build"; exit 1; }
}

# passes WHAT COMMAND ..
passes() {
    local what=$1
    shift
    "$@" > "$folder/log" 2>&1 || { cat "$folder/log"; echo "$what failed"; failed=1; }
}

# checks WHAT COMMAND ..: as passes, but shows the last line that was printed too. What can't be run is missing.
checks() {
    local what=$1 status=0
    shift
    "$@" > "$folder/log" 2>&1 || status=$?
    [ "$status" = 0 ] || cat "$folder/log"
    [ "$status" != 2 ] || missing "$what can't be run"
    [ "$status" = 0 ] || { echo "$what failed"; failed=1; }
    tail -n 1 "$folder/log"
}

build "the library" "${make_library[@]}"
checks "the numbers of the library" "$python" scripts/check/library_numbers.py
checks "changed numbers of the library" "$python" scripts/check/library_numbers.py --planted

# C: an optimised build, one that inlines nothing, and the header in C++ from the oldest to the newest.
strict=(-pedantic -Wall -Wextra -Werror)
flags=(-Iinclude out/libbaliseplan.a)
for caller in run facts fields calls; do
    build "examples/c/$caller.c" \
        cc -std=c99 -O2 "${strict[@]}" "examples/c/$caller.c" "${flags[@]}" -o "$folder/$caller"
done
build "examples/c/calls.c without inlining" cc -std=c17 -O0 "${strict[@]}" examples/c/calls.c "${flags[@]}" \
    -o "$folder/calls0"
printf '#include "baliseplan.h"\nint main() { return baliseplan_abi() != BALISEPLAN_ABI; }\n' > "$folder/abi.cc"
for standard in c++98 c++20; do
    build "the header in C++" c++ -std=$standard "${strict[@]}" "$folder/abi.cc" "${flags[@]}" -o "$folder/abi"
    passes "the version of the interface" "$folder/abi"
done
build "the allocations that are refused" cc -std=c99 -D_GNU_SOURCE -O2 "${strict[@]}" scripts/check/library_heap.c \
    "${flags[@]}" -Wl,--wrap=malloc,--wrap=calloc,--wrap=realloc,--wrap=free -o "$folder/heap"
build "examples/rust" cargo build -q --release --manifest-path examples/rust/Cargo.toml

passes "examples/c/calls.c" "$folder/calls" 10000
passes "examples/c/calls.c without inlining" "$folder/calls0"
# turns COUNT: an input with an output that is longer than the first room of an allocated one
turns() {
    cat examples/line.base
    echo edits
    yes 'turn 5.300' | head -n "$1"
}
turns 300 > "$folder/long.plan"
turns 60 > "$folder/long_facts.plan" # facts grow with the square of the edits
refuse_each() { passes "$1 with each allocation refused" "$folder/heap" "$@"; }
for plan in examples/*.plan; do
    for set in 0 15 facts; do
        refuse_each "$plan" "$set"
    done
done
refuse_each "$folder/long.plan" 0
refuse_each "$folder/long.plan" 15
refuse_each "$folder/long_facts.plan" facts
# Telegrams and packets, sound and damaged, and empty lines, which are explained as more than the first room too.
for seed in {1..10}; do
    "$python" reference/random_fields.py "$seed" >> "$folder/digits"
    "$python" reference/random_fields.py "$seed" --damaged >> "$folder/digits"
    "$python" reference/random_fields.py "$seed" --spell >> "$folder/fields_given"
    "$python" reference/random_fields.py "$seed" --spell --damaged >> "$folder/fields_given"
done
yes '' | head -n 2000 >> "$folder/digits"
refuse_each "$folder/digits" explain
refuse_each "$folder/fields_given" spell
passes "examples/c/calls.c under valgrind" valgrind -q --error-exitcode=9 --leak-check=full --show-leak-kinds=all \
    "$folder/calls0" 10000
tests=(-m pytest -q -p no:cacheprovider)
checks "examples/python" env -C examples/python "$python" "${tests[@]}"
passes "the types of examples/python" env -C examples/python "$python" -m mypy --strict --cache-dir="$folder" .
passes "examples/rust" cargo test -q --manifest-path examples/rust/Cargo.toml
passes "the types of examples" "$python" -m mypy --strict --cache-dir="$folder" examples/*.py
checks "what is installed" scripts/check/library_install.sh "$program"
checks "the comparison with the program" "$python" scripts/check/library_runs.py "$count" "$program" \
    "$folder/run" "$folder/cargo/release/baliseplan"

checks "the comparison with a program for facts" "$python" scripts/check/library_facts.py "$facts_count" \
    "$of_facts" "$folder/facts" "$folder/cargo/release/balisefacts"

checks "the comparison with a program for fields" "$python" scripts/check/library_fields.py "$fields_count" \
    "$of_fields" "$folder/fields" "$folder/cargo/release/balisefields"

# finds WRONG CALLER SCRIPT PROGRAM: the comparison itself, with a caller that drops a line or always ends with 77
finds() {
    local status=0
    case $1 in
        drops) printf '#!/bin/sh\n"%s" "$@" > "$0.out" 2> /dev/null\nstatus=$?\nsed 1d "$0.out"\nexit $status\n' "$2" ;;
        ends) printf '#!/bin/sh\nexit 77\n' ;;
    esac > "$folder/$1"
    chmod +x "$folder/$1"
    "$python" "scripts/check/$3" --first 40 0 "$4" "$folder/$1" > "$folder/log" 2>&1 || status=$?
    if [ "$status" != 1 ] || ! tail -n 1 "$folder/log" | grep -q differing; then
        cat "$folder/log"
        echo "$3 doesn't find a caller that is wrong ($1)"
        failed=1
    fi
}
for wrong in drops ends; do
    finds "$wrong" "$folder/run" library_runs.py "$program"
    finds "$wrong" "$folder/facts" library_facts.py "$of_facts"
    finds "$wrong" "$folder/fields" library_fields.py "$of_fields"
done

[ "$failed" = 0 ] && echo "the library and its callers in C, Python and Rust are right"
exit "$failed"
