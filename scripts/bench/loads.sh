#!/usr/bin/env bash
# Times the program on one load after another: scripts/bench/loads.sh [OTHER]. Another program that reads the same text
# may be named: it is timed in turn, and the outputs are compared. Processor time, the least of eight runs, and memory,
# of one run more. Debian's package time measures that: a run that Python starts counts at least what Python holds.
set -eu
other=${1:+$(realpath "$1")}
cd "$(dirname "$0")/../.."

program=$PWD/crates/baliseplan/out/baliseplan
mkdir -p crates/baliseplan/out
(cd crates/baliseplan && rt run < stdin > out/run.stdout 2> out/run.log)

folder=$(mktemp -d)
trap 'rm -rf "$folder"' EXIT

# load NAME COUNT [FLAG ..]
load() {
    local name=$1 count=$2
    shift 2
    python3 scripts/bench/make_load.py "$name" "$count" > "$folder/input"
    python3 - "$folder" "$program" "$other" "$name $count $*" "$@" <<'MEASURE'
import filecmp, os, subprocess, sys
folder, program, other, title, *flags = sys.argv[1:]
runs = {"program": program}
if other:
    runs["other"] = other
times, most = {name: [] for name in runs}, {}
for _ in range(8):
    for name, path in runs.items():
        with open(f"{folder}/input", "rb") as text, open(f"{folder}/{name}", "wb") as out:
            run = subprocess.Popen([path, *flags], stdin=text, stdout=out)
            _, _, usage = os.wait4(run.pid, 0)
        times[name].append(usage.ru_utime + usage.ru_stime)
for name, path in runs.items():
    measure = ["/usr/bin/time", "-q", "-f", "%M", "-o", f"{folder}/memory", path, *flags]
    with open(f"{folder}/input", "rb") as text, open(f"{folder}/{name}", "wb") as out:
        subprocess.run(measure, stdin=text, stdout=out)
    with open(f"{folder}/memory") as memory:
        most[name] = int(memory.read()) * 1024
line = f"{title}: {min(times['program']):.3f} s, {most['program'] / 1000000:.1f} MB"
if other:
    ratio = min(times["program"]) / min(times["other"]), most["program"] / most["other"]
    same = "the same output" if filecmp.cmp(f"{folder}/program", f"{folder}/other", shallow=False) else "ANOTHER OUTPUT"
    line += f"; beside the other {ratio[0]:.2f} and {ratio[1]:.2f}, {same}"
print(line, flush=True)
MEASURE
}

load plan 590000
load plan 100000 --json
load commands 1000000
load mixed 1000000
load redo 900000
load strikes 100000
load neighbours 2000
load renumber 200000
load turn 400000
load drops 20000
load scattered 20000
load journal 1000000 --journal
