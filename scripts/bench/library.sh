#!/usr/bin/env bash
# Times a call of the library beside starting the program: scripts/bench/library.sh PROGRAM LIBRARY. LIBRARY is what
# `make library` makes, out/libbaliseplan.a. Ten groups with ten commands, a plan of 64 MiB, and a hundred random
# telegrams and packets as digits and as fields; processor time, the least of five rounds, in microseconds. Then the
# stack that a call takes.
set -eu
if [ $# != 2 ] || [ ! -x "$1" ] || [ ! -f "$2" ]; then
    echo "usage: scripts/bench/library.sh PROGRAM LIBRARY (make library makes out/libbaliseplan.a)" >&2
    exit 2
fi
program=$(realpath "$1")
library=$(realpath "$2")
cd "$(dirname "$0")"

folder=$(mktemp -d)
trap 'rm -rf "$folder"' EXIT
cc -O2 -I../../include -o "$folder/calls" library_calls.c "$library"
cc -O2 -I../../include -o "$folder/stack" library_stack.c "$library"

# started FILE COUNT: microseconds for one start of the program
started() {
    python3 - "$program" "$1" "$2" <<'MEASURE'
import os, subprocess, sys
program, path, count = sys.argv[1], sys.argv[2], int(sys.argv[3])
least = 1e9
for _ in range(5):
    before = os.times()
    for _ in range(count):
        with open(path, "rb") as text:
            subprocess.run([program], stdin=text, stdout=subprocess.DEVNULL)
    after = os.times()
    took = after.children_user + after.children_system - before.children_user - before.children_system
    least = min(least, took / count)
print(f"{least * 1e6:.1f}")
MEASURE
}

python3 make_load.py plan 10 | sed '/^edits$/,$d' > "$folder/small"
first=$(python3 make_load.py commands 1 | sed -n '/^edits$/{n;p;}')
{ cat "$folder/small"; echo edits; for _ in 1 2 3 4 5 6 7 8 9 10; do echo "$first"; done; } > "$folder/ten"
python3 make_load.py plan 590000 > "$folder/large"
echo "ten groups and ten commands: a call $("$folder/calls" "$folder/ten" 2000), a start $(started "$folder/ten" 200)"
echo "facts of these ten: a call $("$folder/calls" "$folder/ten" 2000 facts)"
echo "a plan of 590,000 groups: a call $("$folder/calls" "$folder/large" 1), a start $(started "$folder/large" 1)"
reference=../../reference
for seed in {1..100}; do python3 $reference/random_fields.py "$seed"; done > "$folder/digits"
python3 $reference/balisefields.py < "$folder/digits" > "$folder/fields"
for seed in {1..100}; do python3 $reference/random_fields.py "$seed" --damaged; done > "$folder/damaged"
for seed in {1..100}; do python3 $reference/random_fields.py "$seed" --damaged --spell; done > "$folder/damaged_fields"
echo "a hundred telegrams and packets: explained $("$folder/calls" "$folder/digits" 500 explain)," \
    "and turned back $("$folder/calls" "$folder/fields" 500 spell)"
python3 make_load.py commands 2000 > "$folder/commands"
python3 make_load.py plan 20000 > "$folder/plan"
{ cat "$folder/small"; echo edits; head -c 4097 /dev/zero | tr '\0' x; } > "$folder/long"
echo "the stack of a call: $("$folder/stack" ../../examples/*.plan "$folder/commands" "$folder/plan" "$folder/long" \
    "$folder/digits" "$folder/fields" "$folder/damaged" "$folder/damaged_fields")"
