#!/bin/bash
# Times the reading and the writing of a schedule's text with as many events as there may be, in milliseconds of processor time. Run
# `rt run` in crates/benchmarks first, which builds the program.
set -eu
cd "$(dirname "$0")/.."
. bench/timing.sh

events=4194304
program=crates/benchmarks/out/benchmarks
echo "reading $events events: $(show "$(a_round 20 $program schedule 0 $events)" 1000000) ms"
echo "writing them:           $(show "$(a_round 20 $program schedule 1 $events)" 1000000) ms"
