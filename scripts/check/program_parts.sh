# shellcheck shell=bash
# The checks of a built program, as parts. For all.sh and everything.sh, which are in this folder.

examples=../../examples
rows=../../checks/rows
reference=../../reference
fields=../../crates/balisefields/out/balisefields
facts=../../crates/balisefacts/out/balisefacts

# with_modules MODULES COMMAND ..: runs a command with a Python that has the modules, as the word PYTHON of the command
with_modules() {
    local python given=() word
    # shellcheck disable=SC2086
    python=$(bash python.sh $1) || return 2
    shift
    for word in "$@"; do
        given+=("${word/#PYTHON/$python}")
    done
    "${given[@]}"
}

# of_program NAME COMMAND ..: a part that runs the program, on one processor
of_program() {
    local name=$1
    shift
    part_beside "$name" with_built "$program" "$@"
}

# of_built PROGRAM NAME COMMAND ..: a part that runs a program of the repository, on all processors
of_built() {
    local built=$1 name=$2
    shift 2
    part "$name" with_built "$built" "$@"
}

with_built() {
    if [ ! -x "$1" ]; then
        echo "missing: $1 (make builds it)" >&2
        return 2
    fi
    shift
    "$@"
}

# random SIZE TO: compares on the random inputs of the seeds from 1
random() {
    of_built "$program" "random inputs, $1" python3 "$reference/compare.py" "$words" 1 "$2" \
        --size "$1" -j "$(nproc)" --keep "$kept"
}

# What needs no program: the pages, the reference, and the checks themselves.
parts_of_repository() {
    part_beside "links and words of the pages" python3 pages.py
    part_beside "traces from rules to calls and tests" python3 traces.py
    part_beside "mutations beside the gate still fit" python3 more_mutations.py --look
    part_beside "tests of the traces" with_modules "pytest" PYTHON -m pytest -q -p no:cacheprovider test_traces.py
    part_beside "layout of the manual" bash manual.sh
    part_beside "table of the variables" python3 ../tables/variables.py --check
    part_beside "tests of the reference" env -C "$reference" python3 -m unittest -q test_reference
    part_beside "laws of the reference" with_modules "pytest hypothesis" PYTHON -m pytest -q -p no:cacheprovider "$reference/test_laws.py"
    part_beside "tests of the reference for fields" env -C "$reference" python3 -m unittest -q test_fields test_spelling
    part_beside "tests of the reference for facts" env -C "$reference" python3 -m unittest -q test_facts
    part_beside "worked rows by the reference" python3 examples.py "python3 $reference/baliseplan.py" rows
    part_beside "faults planted in the reference" python3 planted.py
    part_beside "faults planted in the reference for fields" python3 planted_fields.py
    part_beside "faults planted in the reference for facts" python3 planted_facts.py
    part_beside "types of the scripts" bash types.sh
    part_beside "growths of memory in tests" python3 test_growths.py
}

# What runs the program, and is the same in both sizes
parts_of_program() {
    of_program "library and its callers" bash library.sh "$program"
    of_program "self-test of the checks" python3 selftest.py "$program"
    of_program "examples, guide, formats, manual and rows" python3 examples.py "$words"
    of_program "exit statuses" bash statuses.sh "$program"
    of_program "pairs of commands" bash pairs.sh "$program"
    of_program "a million commands" bash million.sh "$program"
    of_program "no growth" python3 no_growth.py "$program"
}

# parts_of_fields TO: compares the program for fields on random items of the seeds from 1.
parts_of_fields() {
    local kind words
    for kind in sound damaged; do
        words=(python3 "$reference/compare_fields.py" "$fields" 1 "$1" -j "$(nproc)")
        [ "$kind" = sound ] || words+=(--damaged)
        of_built "$fields" "random telegrams and packets explained and spelled, $kind" "${words[@]}"
    done
}

# parts_of_facts SMALL MEDIUM: compares the program for facts on the random inputs of the seeds from 1.
parts_of_facts() {
    local size
    for size in "small $1" "medium $2"; do
        of_built "$facts" "facts of random inputs, ${size% *}" python3 "$reference/compare_facts.py" "$facts" 1 "${size#* }" \
            --size "${size% *}" -j "$(nproc)" --keep "$kept"
    done
}

# sizes LOAD ..: the only part that times what it runs, so it runs alone
sizes() {
    of_built "$program" "sizes" python3 ../bench/hostile_loads.py "$program" "$@"
}

part_of_page() {
    of_program "page" bash page.sh "$program"
}

# What takes longest comes first. The random inputs run alone, so the page comes after the library, which it builds its
# engine of.
quick_parts() {
    parts_of_program
    parts_of_repository
    random small 20000
    random medium 400
    parts_of_fields 5000
    parts_of_facts 2000 50
    sizes groups-of-eight telegrams-without-end lines-of-telegrams nothing-to-undo drops-of-the-first
    part_of_page
    of_program "damage" python3 damage_inputs.py "$program" "$examples/turned_group.plan" "$examples/journal_read.plan"
    of_program "failing reads and writes" python3 fail_devices.py "$program" "$examples"
    of_program "refused growths" python3 refuse_growths.py "$program" "$examples" "$rows" --own-flags
}

all_parts() {
    parts_of_program
    parts_of_repository
    random small 100000
    random medium 5000
    parts_of_fields 100000
    parts_of_facts 20000 1000
    sizes
    part_of_page
    of_program "damage" python3 damage_inputs.py "$program" "$examples" "$rows"
    of_program "failing reads and writes" python3 fail_devices.py "$program" "$examples" "$rows"
    of_program "refused growths" python3 refuse_growths.py "$program" "$examples" "$rows"
}
