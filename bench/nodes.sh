#!/bin/bash
# Times a core and a directory by themselves, in nanoseconds of processor time, and measures their states. Run `rt run` in
# crates/benchmarks first, which builds the program. It needs GNU time at /usr/bin/time for the states alone.
set -eu
cd "$(dirname "$0")/.."
. bench/timing.sh
program=crates/benchmarks/out/benchmarks

# a_part ROUNDS PARTS WORK LINES SETS WAYS: one of that many parts of a round
a_part() { show "$(a_round "$1" $program nodes "$3" "$4" "$5" "$6" 1048576)" "$2"; }

# peak_kib WORK NUMBER: the most memory of a run that starts so many nodes
peak_kib() { { /usr/bin/time -f %M $program nodes "$1" 10 1024 16 16777216 "$2" >/dev/null; } 2>&1; }

# a_state WORK SOME MORE: the memory that the start of one node touches, from runs that start so many
a_state() {
    local some more
    some=$(peak_kib "$1" "$2")
    more=$(peak_kib "$1" "$3")
    awk "BEGIN { printf \"%.2f\", ($more - $some) / ($3 - $2) / 1024 }"
}

for size in "64 4" "1024 16"; do
    set -- $size
    echo "a core with $1 sets of $2 ways; ns"
    echo "  an addition, in a loop of 32:                    $(a_part 4000 3405 arithmetic 0 "$@")"
    echo "  a load that hits, in the same loop:              $(a_part 4000 3405 loads 0 "$@")"
    echo "  a store that hits, likewise:                     $(a_part 4000 3405 stores 0 "$@")"
    echo "  a miss, its fill, the load and its invalidation: $(a_part 1000000 1 miss 0 "$@")"
    echo "  a transaction that stores to 1 line:             $(a_part 400000 1 commit 1 "$@")"
    echo "  to 10 lines:                                     $(a_part 100000 1 commit 10 "$@")"
    echo "  to 100 lines:                                    $(a_part 20000 1 commit 100 "$@")"
    echo "  a load and stores to 10 lines, rolled back:      $(a_part 200000 1 roll-back 10 "$@")"
done
echo "a directory; ns a message"
echo "  a hot line of 64 cores, 130 messages a commit:   $(a_part 200000 130 hot 0 64 4)"
echo "  a line of one core, 3 messages a commit:         $(a_part 4000000 3 quiet 0 64 4)"
echo "states, with 16 MiB of RAM; MiB"
echo "  a core with 1024 sets of 16 ways:                $(a_state start-cores 32 64)"
echo "  a directory with all lines at home:              $(a_state start-dirs 2 6)"
