# What the benchmarks share: the processor time of a round of a program whose last argument is the number of rounds.

# user_us PROGRAM ARGS..: the processor time of one run, in microseconds
user_us() {
    local TIMEFORMAT=%3U seconds
    seconds=$({ time "$@" >/dev/null; } 2>&1)
    echo $((10#${seconds/./} * 1000))
}

# a_round MANY PROGRAM ARGS..: the time of MANY rounds less that of a tenth of them, the least of five, a round; in picoseconds
a_round() {
    local many=$1 best=-1 long short each
    shift
    for _ in 1 2 3 4 5; do
        long=$(user_us "$@" "$many")
        short=$(user_us "$@" $((many / 10)))
        each=$(((long - short) * 1000000 / (many - many / 10)))
        if [ $best -lt 0 ] || [ $each -lt $best ]; then best=$each; fi
    done
    echo $best
}

# show PICOSECONDS PARTS: nanoseconds for one of that many parts
show() { awk "BEGIN { printf \"%.1f\", $1 / 1000 / $2 }"; }
