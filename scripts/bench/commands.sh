#!/usr/bin/env bash
# Times 1,000,000 commands, a header's field set and taken back in turn, over a plan of one telegram.
# Another program that reads the same text may be named: it is timed in the same run.
set -eu
other=${1:+$(realpath "$1")}
cd "$(dirname "$0")/../.."

program=$PWD/crates/baliseplan/out/baliseplan
mkdir -p crates/baliseplan/out
(cd crates/baliseplan && rt run < stdin > out/run.stdout 2> out/run.log)

folder=$(mktemp -d)
trap 'rm -rf "$folder"' EXIT
python3 - > "$folder/input" <<'INPUT'
print("plan 1\ngroup\na1007f80a03250900f82" + "ff" * 16 + "c0\nedits")
for _ in range(500_000):
    print("seth 5.100 0 M_MCOUNT 7\nundo")
INPUT

# The least processor time of five runs, and the most memory that was held when all but the end was read.
measure() {
    python3 - "$1" "$folder/input" "$folder/output" <<'MEASURE'
import resource, subprocess, sys
program, source, target = sys.argv[1:]
text = open(source, "rb").read()
times, most = [], 0
for _ in range(5):
    before = resource.getrusage(resource.RUSAGE_CHILDREN)
    with open(source, "rb") as text_file, open(target, "wb") as out:
        subprocess.run([program], stdin=text_file, stdout=out, check=True)
    after = resource.getrusage(resource.RUSAGE_CHILDREN)
    times.append(after.ru_utime + after.ru_stime - before.ru_utime - before.ru_stime)
with subprocess.Popen([program], stdin=subprocess.PIPE, stdout=subprocess.DEVNULL) as run:
    run.stdin.write(text)
    run.stdin.flush()
    for line in open(f"/proc/{run.pid}/status"):
        if line.startswith("VmHWM"):
            most = int(line.split()[1])
    run.stdin.close()
print(f"{min(times):.3f} s, {most} KiB")
MEASURE
}

echo "program: $(measure "$program")"
if [ -n "$other" ]; then
    mv "$folder/output" "$folder/first"
    echo "other:   $(measure "$other")"
    cmp "$folder/first" "$folder/output"
fi
