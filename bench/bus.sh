#!/bin/bash
# Times the machine with one bus beside that with directories: the millions of events in a second of processor time, the least of five
# runs of each in turns, less that of a run without events. Each core of `apart` adds 1 to a word of its own, one transaction after another;
# those of `shared` add to one word. An event is another thing on each machine, so the last column says how many times as long the bus
# takes for a commit. TCC names the program to run; without it, it is the one in release/.
set -eu
program=$(readlink -f -- "${TCC:-$(dirname "$0")/../release/tcc-x86_64-linux}")
. "$(dirname "$0")/timing.sh"
steps=${STEPS:-500000}
room=$(mktemp -d)
trap 'rm -rf "$room"' EXIT
cd "$room"

# slli x7, x10, 5; lui x6, 0x80000; add x6, x6, x7; lw x5, 64(x6); addi x5, x5, 1; sw x5, 64(x6); ecall; jal x0, -16
printf '\x93\x13\x55\x00\x37\x03\x00\x80\x33\x03\x73\x00\x83\x22\x03\x04\x93\x82\x12\x00\x23\x20\x53\x04\x73\x00\x00\x00\x6f\xf0\x1f\xff' >apart
# lui x6, 0x80000; and from the load on as before
printf '\x37\x03\x00\x80\x83\x22\x03\x04\x93\x82\x12\x00\x23\x20\x53\x04\x73\x00\x00\x00\x6f\xf0\x1f\xff' >shared

# stopped WORDS..: a run that isn't done ends with status 1
stopped() { "$program" "$@" || [ $? = 1 ]; }

# least SOME OTHER: the smaller of two numbers, where there are two
least() { if [ -z "$1" ] || [ "$2" -lt "$1" ]; then echo "$2"; else echo "$1"; fi; }

# a_row IMAGE CORES DIRS: both machines with this program
a_row() {
    local image=$1 ours= start= other= other_start= our_commits other_commits
    local run="run --raw --cores $2 --dirs $3" bus="bus --raw --cores $2"
    our_commits=$(stopped $run --steps "$steps" "$image" | grep -c '^commit ' || true)
    other_commits=$(stopped $bus --steps "$steps" "$image" | grep -c '^commit ' || true)
    for _ in 1 2 3 4 5; do
        ours=$(least "$ours" "$(user_us stopped $run --steps "$steps" "$image")")
        other=$(least "$other" "$(user_us stopped $bus --steps "$steps" "$image")")
        start=$(least "$start" "$(user_us stopped $run --steps 0 "$image")")
        other_start=$(least "$other_start" "$(user_us stopped $bus --steps 0 "$image")")
    done
    printf '%-7s %5d %5d ' "$image" "$2" "$3"
    awk -v steps="$steps" -v ours=$((ours - start)) -v other=$((other - other_start)) -v mine="$our_commits" -v others="$other_commits" \
        'BEGIN { printf "%8.2f %8.2f %8d %8d", steps / ours, steps / other, mine, others
            if (mine && others) printf "   x%.2f", other / others / (ours / mine)
            print "" }'
}

echo "$steps events; millions of events a second, and commits"
printf '%-7s %5s %5s %8s %8s %8s %8s   %s\n' program cores dirs run bus run bus "a commit"
for image in apart shared; do
    a_row "$image" 1 1
    a_row "$image" 4 4
    a_row "$image" 16 16
    a_row "$image" 64 64
done
