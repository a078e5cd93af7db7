#!/bin/bash
# Times runs on host threads beside the run by a seed of the same program, in seconds that pass, the least of several: a seeded run with a
# record; runs of 1, 2 and 4 threads, one event a turn, and of 4 threads with up to 64; and the replay of what the last of them recorded,
# which is a part of each run of threads. The programs have no end: each core adds 1 to a word of its own, one transaction after another,
# of 5 instructions (often) or of 400 (long). Beside each time stand millions of events a second, and the most memory that the run had.
#
#   bench/threads.sh [CORESxDIRS]...     the machines (1x1 4x2 16x4 16x16 64x64)
#
# TCC names the program to run; without it, it is the one in release/. STEPS is the number of events (1000000), TIMES how often each
# command is run (5).
set -eu
program=$(readlink -f -- "${TCC:-$(dirname "$0")/../release/tcc-x86_64-linux}")
steps=${STEPS:-1000000}
times=${TIMES:-5}
room=$(mktemp -d)
trap 'rm -rf "$room"' EXIT
cd "$room"

# slli x7, x10, 5; lui x6, 0x80000; add x6, x6, x7; lw x5, 64(x6); addi x5, x5, 1; sw x5, 64(x6); ecall; jal x0, -16
printf '\x93\x13\x55\x00\x37\x03\x00\x80\x33\x03\x73\x00\x83\x22\x03\x04\x93\x82\x12\x00\x23\x20\x53\x04\x73\x00\x00\x00\x6f\xf0\x1f\xff' >often
# slli x7, x10, 5; lui x6, 0x80000; add x6, x6, x7; lw x5, 64(x6); li x8, 197; addi x8, x8, -1; bne x8, x0, -4; addi x5, x5, 1;
# sw x5, 64(x6); ecall; jal x0, -28
printf '\x93\x13\x55\x00\x37\x03\x00\x80\x33\x03\x73\x00\x83\x22\x03\x04\x13\x04\x50\x0c\x13\x04\xf4\xff\xe3\x1e\x04\xfe\x93\x82\x12\x00' >long
printf '\x23\x20\x53\x04\x73\x00\x00\x00\x6f\xf0\x5f\xfe' >>long

# a_row NAME WORDS..: one command, which ends with status 1
a_row() {
    local name=$1 best= each now memory
    shift
    for ((each = 0; each < times; each++)); do
        /usr/bin/env python3 - "$program" "$@" >now <<'P'
import os, resource, subprocess, sys, time
start = time.monotonic()
with open(os.devnull, "w") as nothing:
    status = subprocess.run(sys.argv[1:], stdout=nothing).returncode
passed = time.monotonic() - start
assert status == 1, status
print(int(passed * 1e6), resource.getrusage(resource.RUSAGE_CHILDREN).ru_maxrss // 1024)
P
        read -r now memory <now
        if [ -z "$best" ] || [ "$now" -lt "$best" ]; then best=$now; fi
    done
    printf '%-10s %8.2f %8.2f %8d\n' "$name" "$(awk "BEGIN { print $best / 1e6 }")" "$(awk "BEGIN { print $steps / $best }")" "$memory"
}

# a_table CORES DIRS PROGRAM: the rows of one machine
a_table() {
    local machine="--cores $1 --dirs $2" threads
    echo "$1 cores, $2 directories, $steps events, $3"
    printf '%-10s %8s %8s %8s\n' run seconds Mevents megabytes
    a_row seed run --raw $machine --steps "$steps" --record schedule "$3"
    for threads in 1 2 4; do
        a_row "$threads" run --raw $machine --threads "$threads" --steps "$steps" --record schedule "$3"
    done
    a_row 4x64 run --raw $machine --threads 4 --batch 64 --steps "$steps" --record schedule "$3"
    a_row replay replay --raw $machine schedule "$3"
}

for size in "${@:-1x1 4x2 16x4 16x16 64x64}"; do
    for each in $size; do
        a_table "${each%x*}" "${each#*x}" often
        a_table "${each%x*}" "${each#*x}" long
    done
done
