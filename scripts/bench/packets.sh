#!/usr/bin/env bash
# Times the reading, setting and writing of packets, a million of each kind.
set -eu
cd "$(dirname "$0")/../.."

program=$PWD/crates/balise_bench/out/balise_bench
mkdir -p crates/balise_bench/out
(cd crates/balise_bench && rt run -- digits < stdin > out/digits.stdout 2> out/digits.log)

for _ in 1 2 3; do
    "$program" packets
done
