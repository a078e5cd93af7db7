#!/bin/bash
# Times the pool of messages and both forms of the skips at several sizes, in nanoseconds of processor time. Run `rt run` in
# crates/benchmarks first, which builds the program.
set -eu
cd "$(dirname "$0")/.."

. bench/timing.sh
program=crates/benchmarks/out/benchmarks

echo "pool: remove, look up, add; ns a round"
for held in 10 1000 100000; do
    echo "  $held held: $(show "$(a_round 4000000 $program pool $held)" 1)"
done
echo "skips: ns a skip (ring, set)"
for window in 2 16 64 1000; do
    rounds=$((20000000 / window))
    ring=$(a_round $rounds $program skips 0 $window)
    set=$(a_round $rounds $program skips 1 $window)
    echo "  $window out of order: $(show "$ring" $window) $(show "$set" $window)"
done
