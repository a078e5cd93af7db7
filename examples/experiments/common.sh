# The runs and the pictures of docs/EXPERIMENTS.md, for `make` and `check`.
here=$(dirname -- "$(readlink -f -- "${BASH_SOURCE[0]}")")
TCC=$(readlink -f -- "${TCC:-$here/../../tcc}")
export TCC
machine=(--ram 131072 --seeds 1..5)
large=(--sets 64 --ways 4)
both=(reserve-1 kmeans-1 maze maze-copy) # those that run on one bus too
programs=(reserve-1 reserve-4 reserve-16 kmeans-1 kmeans-4 kmeans-16 maze maze-copy)

sweep() { python3 "$here/../../share/sweep/sweep.py" "$@"; }
plot() { python3 "$here/../../share/sweep/plot.py" "$@"; }

# runs_of KIND: the options of a kind of sweep
runs_of() {
    case $1 in
    cores) echo "${machine[@]}" "${large[@]}" --cores 1,2,4,8,16 --dirs 4 ;;
    dirs) echo "${machine[@]}" "${large[@]}" --cores 8 --dirs 1,2,4,8,16 ;;
    sets) echo "${machine[@]}" --cores 8 --dirs 4 --sets 1,2,4,8,16,32,64 --ways 1 ;;
    esac
}

# kinds_of PROGRAM: the kinds of its sweeps
kinds_of() {
    case $1 in
    *-4 | *-16) echo cores ;;
    maze*) echo cores sets ;;
    *) echo cores dirs sets ;;
    esac
}

# picture NAME X Y FILE..: draws rows as the picture NAME.svg
picture() {
    plot --svg --x "$2" --y "$3" --by file --over seed --log -o "$pictures/$1.svg" "${@:4}"
}

# Draws all pictures into the folder `pictures`, from the rows in the folder `rows`.
draw() (
    cd -- "$rows" || exit
    picture lost cores lost/instructions cores/{reserve-1,kmeans-1,maze,maze-copy}.csv &&
        picture grain-reserve cores lost/instructions cores/reserve-{1,4,16}.csv &&
        picture grain-kmeans cores lost/instructions cores/kmeans-{1,4,16}.csv &&
        picture messages dirs messages/attempts_committed dirs/{reserve-1,kmeans-1}.csv &&
        picture misses sets misses/instructions sets/{reserve-1,kmeans-1,maze,maze-copy}.csv &&
        picture small sets lost/instructions sets/{reserve-1,kmeans-1,maze,maze-copy}.csv &&
        python3 "$here/spans.py" draw "$rows/spans.csv" "$pictures/span.svg" &&
        python3 "$here/buses.py" draw "$rows/bus.csv" instructions_lost/instructions_executed "$pictures/bus-lost.svg" &&
        python3 "$here/buses.py" draw "$rows/bus.csv" attempts_committed "$pictures/bus-commits.svg"
)
