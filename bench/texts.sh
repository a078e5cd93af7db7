#!/bin/bash
# Times the commands with as many events as a schedule may have, in seconds of processor time, the least of five: a run, a run that
# records, the replay of its schedule, and `serial` of its report. Each is done for a program without end that adds 1 to a word, in a
# transaction each time, and for one that adds in a single transaction, of which a report says nothing. What a text costs is then the
# difference from one column, or from one row, to the next. TCC names the program to run; without it, it is the one in release/.
set -eu
program=$(readlink -f -- "${TCC:-$(dirname "$0")/../release/tcc-x86_64-linux}")
. "$(dirname "$0")/timing.sh"
room=$(mktemp -d)
trap 'rm -rf "$room"' EXIT
cd "$room"

# lui x6, 0x80000; lw x5, 64(x6); addi x5, x5, 1; sw x5, 64(x6); ecall; jal x0, -16; and the same with a nop in place of the ecall
printf '\x37\x03\x00\x80\x83\x22\x03\x04\x93\x82\x12\x00\x23\x20\x53\x04\x73\x00\x00\x00\x6f\xf0\x1f\xff' >often
printf '\x37\x03\x00\x80\x83\x22\x03\x04\x93\x82\x12\x00\x23\x20\x53\x04\x13\x00\x00\x00\x6f\xf0\x1f\xff' >never

# stopped WORDS..: a run that isn't done ends with status 1
stopped() { "$program" "$@" || [ $? = 1 ]; }

# seconds COMMAND..: its processor time, the least of five
seconds() {
    local best=-1 now
    for _ in 1 2 3 4 5; do
        now=$(user_us "$@")
        if [ "$best" -lt 0 ] || [ "$now" -lt "$best" ]; then best=$now; fi
    done
    awk "BEGIN { printf \"%.2f\", $best / 1000000 }"
}

# a_row IMAGE WORDS..: the four commands on the machine of these words
a_row() {
    local image=$1
    shift
    stopped run "$@" --raw --steps 4194304 --record schedule "$image" >report
    printf '%-6s %-20s %9.1f %9.1f %7s %7s %7s %7s\n' "$image" "$*" \
        "$(stat -c %s report | awk '{ print $1 / 1e6 }')" "$(stat -c %s schedule | awk '{ print $1 / 1e6 }')" \
        "$(seconds stopped run "$@" --raw --steps 4194304 "$image")" \
        "$(seconds stopped run "$@" --raw --steps 4194304 --record record "$image")" \
        "$(seconds stopped replay "$@" --raw schedule "$image")" \
        "$(seconds stopped serial "$@" --raw report "$image")"
}

echo "4194304 events; megabytes of the report and the schedule, and seconds"
printf '%-6s %-20s %9s %9s %7s %7s %7s %7s\n' commit machine report schedule run record replay serial
for image in often never; do
    a_row "$image" --cores 1 --dirs 1
    a_row "$image" --cores 16 --dirs 16
done
