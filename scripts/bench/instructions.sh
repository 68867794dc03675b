#!/usr/bin/env bash
# Counts the instructions that the program takes for a command, by callgrind: scripts/bench/instructions.sh [OTHER].
# They are those of a run with 20,000 commands, less those of a run with none. Another program that reads the same text
# may be named.
set -eu
other=${1:+$(realpath "$1")}
cd "$(dirname "$0")/../.."

program=$PWD/crates/baliseplan/out/baliseplan
mkdir -p crates/baliseplan/out
(cd crates/baliseplan && rt run < stdin > out/run.stdout 2> out/run.log)

folder=$(mktemp -d)
trap 'rm -rf "$folder"' EXIT

# instructions PROGRAM NAME COUNT
instructions() {
    python3 scripts/bench/make_load.py "$2" "$3" > "$folder/input"
    valgrind --tool=callgrind --callgrind-out-file=/dev/null "$1" < "$folder/input" 2>&1 > /dev/null | sed -n 's/.*Collected : //p'
}

# command PROGRAM NAME
command() {
    echo $((($(instructions "$1" "$2" 20000) - $(instructions "$1" "$2" 0)) / 20000))
}

for name in commands sets redo mixed; do
    line="$name: $(command "$program" "$name")"
    [ -z "$other" ] || line="$line; the other $(command "$other" "$name")"
    echo "$line"
done
