#!/usr/bin/env bash
# Times the holding of a whole plan: all its telegrams are read, held at once as their bits, and printed again.
# Another program that reads and prints a plan may be named: it is timed in the same run.
set -eu
other=${1:+$(realpath "$1")}
cd "$(dirname "$0")/../.."

program=$PWD/crates/balise_bench/out/balise_bench
mkdir -p crates/balise_bench/out
(cd crates/balise_bench && rt run -- digits < stdin > out/digits.stdout 2> out/digits.log)

folder=$(mktemp -d)
trap 'rm -rf "$folder"' EXIT
export LC_ALL=C
python3 scripts/bench/make_plan.py 592568 > "$folder/input"
telegrams='.{54}|.{208}'
{ grep -vxE "$telegrams" "$folder/input"; grep -xE "$telegrams" "$folder/input"; } > "$folder/sorted"
grep -vx edits "$folder/input" > "$folder/plan"

# Of each program in turn the least processor time of five runs, and the most memory that it held.
python3 - "$folder" "$program" "$other" <<'MEASURE'
import filecmp, os, subprocess, sys
folder, program, other = sys.argv[1:]
runs = {"packed": ([program, "telegrams"], "sorted")}
if other:
    runs["other"] = ([other], "plan")
times, most = {form: [] for form in runs}, dict.fromkeys(runs, 0)
for _ in range(5):
    for form, (words, wanted) in runs.items():
        with open(f"{folder}/input", "rb") as text, open(f"{folder}/output", "wb") as out:
            run = subprocess.Popen(words, stdin=text, stdout=out)
            _, status, usage = os.wait4(run.pid, 0)
        if status != 0 or not filecmp.cmp(f"{folder}/output", f"{folder}/{wanted}", shallow=False):
            sys.exit(f"{form}: the output is wrong")
        times[form].append(usage.ru_utime + usage.ru_stime)
        most[form] = max(most[form], usage.ru_maxrss * 1024)
with open(f"{folder}/plan", "rb") as text:
    count = sum(len(line) > 50 for line in text)
print(f"{count} telegrams")
for form in runs:
    beside = ""
    if other:
        beside = f", beside the other {min(times[form]) / min(times['other']):.2f} and {most[form] / most['other']:.2f}"
    print(f"{form}: {min(times[form]):.3f} s, {most[form] / 1e6:.1f} MB, {most[form] / count:.0f} bytes a telegram{beside}")
MEASURE
