#!/usr/bin/env bash
# How much longer a run takes by the launcher than by the program itself: the median of 100 runs of examples/first.bin each, in turns, in
# milliseconds that pass. Fails where it is more than 10. To be run on a quiet machine. LAUNCHER names another launcher than ./tcc.
set -eu
here=$(dirname -- "$(readlink -f -- "$0")")
launcher=${LAUNCHER:-$here/../tcc}
export TCC_HINTS=0
program=$("$launcher" --where)
words=(run --raw "$here/../examples/first.bin")

# passed COMMAND WORD..: the microseconds that pass in a run
passed() {
    local begin=${EPOCHREALTIME/./}
    "$@" >/dev/null
    echo $((${EPOCHREALTIME/./} - begin))
}

median() { sort -n | sed -n 50p; }

"$launcher" "${words[@]}" >/dev/null
for _ in {1..100}; do
    alone+=("$(passed "$program" "${words[@]}")")
    launched+=("$(passed "$launcher" "${words[@]}")")
done
alone=$(printf '%s\n' "${alone[@]}" | median)
launched=$(printf '%s\n' "${launched[@]}" | median)
awk -v alone="$alone" -v launched="$launched" 'BEGIN {
    printf "program %.1f ms, launcher %.1f ms: %.1f ms more\n", alone / 1000, launched / 1000, (launched - alone) / 1000
    exit launched - alone > 10000
}'
