#!/bin/bash
# Times loads that hit, loads that miss, and four stores with a roll back, in both forms of a cache's frames and at two sizes, in
# nanoseconds of processor time. Run `rt run` in crates/benchmarks first, which builds the program.
set -eu
cd "$(dirname "$0")/.."
. bench/timing.sh

# both_forms ROUNDS ROUNDS_OF_THE_LIST WHAT SETS WAYS
both_forms() {
    local program=crates/benchmarks/out/benchmarks
    echo "$(show "$(a_round "$1" $program cache 0 "$3" "$4" "$5")" 1) $(show "$(a_round "$2" $program cache 1 "$3" "$4" "$5")" 1)"
}

for size in "16 2" "1024 16"; do
    set -- $size
    frames=$(($1 * $2))
    echo "$1 sets of $2 ways; ns a round (by set, as a list)"
    echo "  a load that hits:           $(both_forms 20000000 $((64000000 / frames)) 0 "$1" "$2")"
    echo "  a load that misses:         $(both_forms 20000000 $((64000000 / frames)) 1 "$1" "$2")"
    echo "  four stores and a roll back: $(both_forms 4000000 $((16000000 / frames)) 2 "$1" "$2")"
done
