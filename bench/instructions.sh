#!/bin/bash
# Counts the machine instructions of an event: for each row those of a run less those of its start, which has no event, over the number
# of events. Valgrind counts them (Debian's package of this name, which nothing else here needs); the numbers are the same from run to
# run, however busy the computer is. Where PEER names another simulator with the same command line, its numbers stand beside ours, with
# how many times its number ours is, and both have to print the same texts. TCC names the program; without it, it is the one in release/.
#
#   bench/instructions.sh [GROUP]...     GROUP: often own trials lines starts hot bus record look (without one, all)
#
# STEPS is the most events of a run (200000), LINES the sizes of a transaction in lines (1000 4000 16000 64000).
set -eu
program=$(readlink -f -- "${TCC:-$(dirname "$0")/../release/tcc-x86_64-linux}")
peer=${PEER:+$(readlink -f -- "$PEER")}
steps=${STEPS:-200000}
lines=${LINES:-1000 4000 16000 64000}
counters=$(readlink -f -- "$(dirname "$0")/../examples/workloads/counters.bin")
room=$(mktemp -d)
trap 'rm -rf "$room"' EXIT
cd "$room"

# image NAME WORD..: a program, given by its instructions in hexadecimal
image() {
    local name=$1 word
    shift
    for word; do
        printf "\\x${word:6:2}\\x${word:4:2}\\x${word:2:2}\\x${word:0:2}"
    done >"$name"
}

# number N: the two instructions that put N into x8 (lui, addi)
number() { printf '%08x %08x' $((((($1 + 2048) >> 12) << 12) | 0x437)) $((((($1 & 4095) << 20) | 0x40413))); }

# Each core adds 1 to a word of its own: slli x7, x10, 5; lui x6, 0x80000; add x6, x6, x7; lw x5, 64(x6); addi x5, x5, 1;
# sw x5, 64(x6); ecall; jal x0, -16
image often 00551393 80000337 00730333 04032283 00128293 04532023 00000073 ff1ff06f
# Each core adds 1 to 256 words of its own in a transaction: slli x7, x10, 10; lui x6, 0x80001; add x6, x6, x7; li x8, 256; mv x9, x6;
# lw x5, 0(x9); addi x5, x5, 1; sw x5, 0(x9); addi x9, x9, 4; addi x8, x8, -1; bne x8, x0, -20; ecall; jal x0, -36
image own 00a51393 80001337 00730333 10000413 000304b3 0004a283 00128293 0054a023 00448493 fff40413 fe0416e3 00000073 fddff06f
# All cores load one word, and core 0 stores it: lui x6, 0x80001; lw x5, 0(x6); bne x10, x0, 12; addi x5, x5, 1; sw x5, 0(x6); ecall;
# jal x0, -20
image sharers 80001337 00032283 00051663 00128293 00532023 00000073 fedff06f
# Each core stores to two lines of its own, in transactions of their own: slli x7, x10, 6; lui x6, 0x80001; add x6, x6, x7;
# sw x5, 0(x6); ecall; sw x5, 32(x6); ecall; addi x5, x5, 1; jal x0, -20
image storm 00651393 80001337 00730333 00532023 00000073 02532023 00000073 00128293 fedff06f
# Each core stores to 32 lines of its own in a transaction, which on 64 cores are 2,048 Marks: slli x7, x10, 10; lui x6, 0x80001;
# add x6, x6, x7; li x8, 32; mv x9, x6; sw x8, 0(x9); addi x9, x9, 32; addi x8, x8, -1; bne x8, x0, -12; ecall; jal x0, -28
image waiting 00a51393 80001337 00730333 02000413 000304b3 0084a023 02048493 fff40413 fe041ae3 00000073 fe5ff06f
for count in $lines; do
    # Each core stores to so many lines of its own in one transaction, and halts: slli x9, x8, 5; mul x7, x9, x10; lui x6, 0x80001;
    # add x6, x6, x7; sw x8, 0(x6); addi x6, x6, 32; addi x8, x8, -1; bne x8, x0, -12; li x17, 93; ecall
    image "lines.$count" $(number "$count") 00541493 02a383b3 80001337 00730333 00832023 02030313 fff40413 fe041ae3 05d00893 00000073
    # Core 0 does so after it has loaded a word that core 1 stores meanwhile: lui x6, 0x80001; bne x10, x0, 32; lw x5, 0(x6);
    # addi x6, x6, 32; sw x8, 0(x6); addi x8, x8, -1; bne x8, x0, -12; li x17, 93; ecall; (core 1) addi x8, x8, -1; bne x8, x0, -4;
    # sw x10, 0(x6); li x17, 93; ecall
    image "back.$count" $(number "$count") 80001337 02051063 00032283 02030313 00832023 fff40413 fe041ae3 05d00893 00000073 \
        fff40413 fe041ee3 00a32023 05d00893 00000073
done

# counted TEXT WORDS..: the instructions of a command, whose text goes to a file
counted() {
    local text=$1 status=0
    shift
    valgrind --tool=cachegrind --cache-sim=no --cachegrind-out-file=/dev/null "$@" >"$text" 2>log || status=$?
    if [ $status -gt 1 ]; then
        cat log >&2
        return 1
    fi
    sed -n 's/.*I *refs: *//p' log | tr -d ,
}

# an_event PROGRAM TEXT STEPS WORDS..: the instructions of an event, in tenths
an_event() {
    local which=$1 text=$2 most=$3 whole start events
    shift 3
    whole=$(counted "$text" "$which" "$1" --steps "$most" "${@:2}")
    start=$(counted start "$which" "$1" --steps 0 "${@:2}")
    events=$(awk '$1 == "events" { print $2 }' "$text")
    echo $(((whole - start) * 10 / (events > 0 ? events : 1)))
}

# a_line NAME OURS [THEIRS]: a line of the table, of numbers in tenths
a_line() { awk -v name="$1" -v ours="$2" -v theirs="${3:-}" 'BEGIN {
    printf "%-44s %10.1f", name, ours / 10
    if (theirs) printf " %10.1f  x%.2f", theirs / 10, ours / theirs
    print "" }'; }

# agree NAME: that both programs printed the same
agree() {
    cmp -s ours theirs && return
    echo "$1: the texts differ" >&2
    return 1
}

# a_row NAME STEPS WORDS..: the instructions of an event of a run
a_row() {
    local name=$1 ours theirs=
    shift
    ours=$(an_event "$program" ours "$@")
    if [ -n "$peer" ]; then
        theirs=$(an_event "$peer" theirs "$@")
        agree "$name"
    fi
    a_line "$name" "$ours" "$theirs"
}

# a_whole NAME WORDS..: the thousands of instructions of a command, whole
a_whole() {
    local name=$1 ours theirs=
    shift
    ours=$(($(counted ours "$program" "$@") / 100))
    if [ -n "$peer" ]; then
        theirs=$(($(counted theirs "$peer" "$@") / 100))
        agree "$name"
    fi
    a_line "$name, thousands in all" "$ours" "$theirs"
}

# nodes NAME: a program that never ends, on machines of five sizes
nodes() {
    local size
    for size in 1 2 4 16 64; do
        a_row "$1, $size x $size" "$steps" run --raw --ram 131072 --cores $size --dirs $size "$1"
    done
}

often() { nodes often; }
own() { nodes own; }

trials() {
    local kind size cache sets ways
    for size in 16 64; do
        for cache in "16 2" "1024 16"; do
            read -r sets ways <<<"$cache"
            for kind in counters transfers stencil sharing; do
                a_row "$kind, $size x $size, $sets x $ways frames" "$steps" \
                    trial --cores $size --dirs $size --sets "$sets" --ways "$ways" --seed 1 $kind 2047
            done
        done
    done
}

# Transactions over many lines, which overflow the cache, in no more memory than they need: what isn't as it was is looked for in all of it.
lines() {
    local count dirs cache sets ways
    for dirs in 1 64; do
        for cache in "1 1" "16 2"; do
            read -r sets ways <<<"$cache"
            for count in $lines; do
                a_row "$count lines, $dirs directories, $sets x $ways" 4194304 \
                    run --raw --ram $((4096 + 32 * count)) --dirs $dirs --sets "$sets" --ways "$ways" "lines.$count"
            done
        done
    done
    for count in $lines; do
        a_row "$count lines on each of 4 cores" 4194304 run --raw --ram $((4096 + 128 * count)) --cores 4 "lines.$count"
        a_row "$count lines, rolled back midway" 4194304 run --raw --ram $((4128 + 32 * count)) --cores 2 "back.$count"
    done
}

hot() {
    a_row "64 sharers of a hot line" "$steps" run --raw --cores 64 --dirs 64 sharers
    a_row "evictions, 16 x 16, 1 x 1 frames" "$steps" run --raw --cores 16 --dirs 16 --sets 1 --ways 1 storm
    a_row "2048 Marks wait at 1 directory" "$steps" run --raw --ram 131072 --cores 64 --sets 1024 --ways 16 waiting
}

# The start of a big machine, and a run of it that stops early.
starts() {
    local big="--raw --ram 16777216 --cores 64 --dirs 64"
    a_whole "64 x 64, 16 MiB, no event" run $big --steps 0 often
    a_whole "64 x 64, 16 MiB, $steps events" run $big --steps "$steps" often
}

bus() {
    local size
    for size in 1 16 64; do
        a_row "bus, often, $size cores" "$steps" bus --raw --ram 131072 --cores $size often
    done
}

record() {
    local machine="--raw --cores 16 --dirs 16"
    a_row "recorded, 16 x 16" "$steps" run $machine --record record often
    "$program" run $machine --steps "$steps" --record schedule often >report || [ $? = 1 ]
    a_whole "replay of $steps events" replay $machine schedule often
}

# A run that is looked at: in sums, as a trace, and with what each event changed of the state.
look() {
    local size cores dirs sets ways machine words
    for size in "16 16 16 2" "64 64 16 2" "8 4 1024 16"; do
        read -r cores dirs sets ways <<<"$size"
        machine="--raw --cores $cores --dirs $dirs --sets $sets --ways $ways"
        for words in run count trace "trace --states"; do
            a_row "$words, $cores x $dirs, $sets x $ways frames" "$steps" $words $machine "$counters"
        done
    done
}

printf '%-44s %10s' "instructions an event" ours
[ -z "$peer" ] || printf ' %10s' theirs
echo
for group in "${@:-often own trials lines starts hot bus record look}"; do
    for name in $group; do
        case $name in
            often | own | trials | lines | starts | hot | bus | record | look) $name ;;
            *) echo "there is no group '$name'" >&2 && exit 2 ;;
        esac
    done
done
