#!/usr/bin/env bash
# Times a whole plan: its groups are read, held with the indexes of identities and of names, and printed again.
# Another program that reads and prints a plan may be named: it is timed in the same run.
set -eu
other=${1:+$(realpath "$1")}
cd "$(dirname "$0")/../.."

program=$PWD/crates/balise_bench/out/balise_bench
mkdir -p crates/balise_bench/out
(cd crates/balise_bench && rt run -- digits < stdin > out/digits.stdout 2> out/digits.log)

folder=$(mktemp -d)
trap 'rm -rf "$folder"' EXIT
for groups in 592568 10000; do
    python3 scripts/bench/make_plan.py "$groups" > "$folder/input"
    grep -vx edits "$folder/input" > "$folder/plan"

    # Of each program in turn the least processor time of five runs, and the most memory that it held.
    python3 - "$folder" "$program" "$other" "$groups" <<'MEASURE'
import filecmp, os, subprocess, sys
folder, program, other, groups = sys.argv[1:]
runs = {"plans": [program, "plans"]}
if other:
    runs["other"] = [other]
times, most = {name: [] for name in runs}, dict.fromkeys(runs, 0)
for _ in range(5):
    for name, words in runs.items():
        with open(f"{folder}/input", "rb") as text, open(f"{folder}/output", "wb") as out:
            run = subprocess.Popen(words, stdin=text, stdout=out)
            _, status, usage = os.wait4(run.pid, 0)
        if status != 0 or not filecmp.cmp(f"{folder}/output", f"{folder}/plan", shallow=False):
            sys.exit(f"{name}: the output is wrong")
        times[name].append(usage.ru_utime + usage.ru_stime)
        most[name] = max(most[name], usage.ru_maxrss * 1024)
print(f"{groups} groups")
for name in runs:
    beside = ""
    if other:
        beside = f", beside the other {min(times[name]) / min(times['other']):.2f} and {most[name] / most['other']:.2f}"
    print(f"{name}: {min(times[name]):.3f} s, {most[name] / 1e6:.1f} MB{beside}")
MEASURE
done
