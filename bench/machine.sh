#!/bin/bash
# Times the machine of many cores: for each workload, size and cache the millions of events in a second of processor time, the least
# of three runs. Run `rt run` in crates/benchmarks first, which builds the program. Where PEER names another simulator of the same
# rules, with the command `trial --cores C --dirs D --sets S --ways W --seed N --steps K KIND NUMBER`, its time for the same events is
# taken in turns with ours and printed too, as a multiple of ours; both have to end each run alike. It makes each run in a process of
# its own, so for this multiple what the starts take is left out on both sides, and the system's time counts, which the kernel can't
# tell from the program's where a process is short.
set -eu
PEER=${PEER:+$(readlink -f -- "$PEER")}
cd "$(dirname "$0")/.."
. bench/timing.sh
program=crates/benchmarks/out/benchmarks

# ours STEPS TIMES KIND SIZES..; theirs likewise, where the status 1 is that of a run that isn't done
ours() { $program machine "$3" 2047 "$4" "$5" "$6" "$7" "$1" 1 "$2"; }
theirs() {
    local k
    for ((k = 0; k < $2; k++)); do
        "$PEER" trial --cores "$4" --dirs "$5" --sets "$6" --ways "$7" --seed 1 --steps "$1" "$3" 2047 || [ $? = 1 ]
    done
}

# all_us PROGRAM ARGS..: the processor time of one run with the system's, in microseconds
all_us() {
    local TIMEFORMAT='%3U %3S'
    { time "$@" >/dev/null; } 2>&1 | awk '{ printf "%.0f", ($1 + $2) * 1000000 }'
}

# least SOME OTHER: the smaller of two numbers, where there are two
least() { if [ -z "$1" ] || [ "$2" -lt "$1" ]; then echo "$2"; else echo "$1"; fi; }

# of_peer NAME: what stands behind this name in a text of PEER
of_peer() { awk -v name="$1" '$1 == name { print $2 }'; }

# agreed LINE STEPS KIND SIZES..: that PEER's run ends as this line of ours says
agreed() {
    local line=$1 steps=$2 text
    shift 2
    text=$(theirs "$steps" 1 "$@")
    text="$1 $(of_peer events <<<"$text") $(of_peer end <<<"$text") $(of_peer commits <<<"$text")"
    if [ "$text" != "$line" ]; then
        echo "$*: ours ends as '$line', PEER's as '$text'" >&2
        return 1
    fi
}

# a_multiple STEPS TIMES KIND SIZES..: PEER's time as a multiple of ours
a_multiple() {
    local steps=$1 times=$2 mine='' my_start='' other='' other_start=''
    shift 2
    for _ in 1 2 3; do
        mine=$(least "$mine" "$(all_us ours "$steps" "$times" "$@")")
        other=$(least "$other" "$(all_us theirs "$steps" "$times" "$@")")
        my_start=$(least "$my_start" "$(all_us ours 0 "$times" "$@")")
        other_start=$(least "$other_start" "$(all_us theirs 0 "$times" "$@")")
    done
    awk "BEGIN { printf \"x%.2f\", ($other - $other_start) / ($mine - $my_start) }"
}

# a_cell STEPS TIMES KIND SIZES..: the millions of events a second, and PEER's time
a_cell() {
    local steps=$1 times=$2 line best=''
    shift 2
    line=$(ours "$steps" 1 "$@")
    for _ in 1 2 3; do
        best=$(least "$best" "$(user_us ours "$steps" "$times" "$@")")
    done
    awk "BEGIN { printf \"%5.2f \", $(cut -d ' ' -f 2 <<<"$line") * $times / $best }"
    [ -z "$PEER" ] || { agreed "$line" "$steps" "$@" && a_multiple "$steps" "$times" "$@"; }
}

# a_row STEPS TIMES CORES DIRS SETS WAYS: the four workloads on such a machine
a_row() {
    local steps=$1 times=$2 cell row kind
    shift 2
    row=$(printf '%5d %5d %5d %5d' "$@")
    for kind in counters transfers stencil sharing; do
        cell=$(a_cell "$steps" "$times" "$kind" "$@")
        row+=$(printf '   %-12s' "$cell")
    done
    echo "$row"
}

echo "cores  dirs  sets  ways   counters       transfers      stencil        sharing"
for cache in "16 2" "1024 16"; do
    read -r sets ways <<<"$cache"
    # Runs of 1 and 2 cores are done before that many events, and are made the more often.
    a_row 500000 40 1 1 "$sets" "$ways"
    a_row 500000 15 2 2 "$sets" "$ways"
    a_row 500000 2 16 16 "$sets" "$ways"
    a_row 500000 2 64 64 "$sets" "$ways"
done
