#!/usr/bin/env bash
# Times the reading and printing of telegrams in digits beside Python's bytes.fromhex and hex, over the same text.
set -eu
cd "$(dirname "$0")/../.."

program=$PWD/crates/balise_bench/out/balise_bench
mkdir -p crates/balise_bench/out
(cd crates/balise_bench && rt run -- digits < stdin > out/digits.stdout 2> out/digits.log)

folder=$(mktemp -d)
trap 'rm -r "$folder"' EXIT
python3 scripts/bench/make_digits.py 210 1000000 > "$folder/1,000,000 of 210 bits"
python3 scripts/bench/make_digits.py 830 200000 > "$folder/200,000 of 830 bits"

python='
import sys
for line in sys.stdin:
    sys.stdout.write(bytes.fromhex(line).hex() + "\n")
'
TIMEFORMAT='%U + %S s'
for input in "$folder"/*; do
    echo "$(basename "$input")"
    for _ in 1 2 3; do
        echo -n "  program  "
        time "$program" digits < "$input" > "$folder/printed"
        cmp "$input" "$folder/printed"
        echo -n "  python   "
        time python3 -c "$python" < "$input" > "$folder/printed"
        cmp "$input" "$folder/printed"
    done
    rm "$folder/printed"
done
