# Completion of bash for hoopoelarder. Made by share/make.
_hoopoelarder() {
    local word=${COMP_WORDS[COMP_CWORD]} before=${COMP_WORDS[COMP_CWORD - 1]}
    COMPREPLY=()
    if [ "$COMP_CWORD" = 1 ]; then
        mapfile -t COMPREPLY < <(compgen -W "run phases replay why serial trial bus trace count state outcomes follow help cc look step sweep plot --help --version --where" -- "$word")
        return
    fi
    case "${COMP_WORDS[1]} $before" in
    *" --cores" | *" --dirs" | *" --sets" | *" --ways" | *" --ram" | *" --base" | *" --steps" | *" --steps" | *" --seed" | *" --from" | *" --to" | *" --events" | *" --every" | "outcomes --states" | *" --longest" | *" --threads" | *" --batch")
        return
        ;;
    *" --tell")
        mapfile -t COMPREPLY < <(compgen -W "consoles memory all" -- "$word")
        return
        ;;
    esac
    case $word in
    -*)
        case ${COMP_WORDS[1]} in
        run) mapfile -t COMPREPLY < <(compgen -W "--cores --dirs --sets --ways --ram --base --raw --steps --seed --record --threads --batch --help" -- "$word") ;;
        phases) mapfile -t COMPREPLY < <(compgen -W "--cores --dirs --sets --ways --ram --base --raw --steps --seed --record --help" -- "$word") ;;
        replay) mapfile -t COMPREPLY < <(compgen -W "--cores --dirs --sets --ways --ram --base --raw --help" -- "$word") ;;
        why) mapfile -t COMPREPLY < <(compgen -W "--cores --dirs --sets --ways --ram --base --raw --help" -- "$word") ;;
        serial) mapfile -t COMPREPLY < <(compgen -W "--cores --dirs --sets --ways --ram --base --raw --help" -- "$word") ;;
        trial) mapfile -t COMPREPLY < <(compgen -W "--cores --dirs --sets --ways --steps --seed --help" -- "$word") ;;
        bus) mapfile -t COMPREPLY < <(compgen -W "--cores --sets --ways --ram --base --raw --steps --seed --help" -- "$word") ;;
        trace) mapfile -t COMPREPLY < <(compgen -W "--cores --dirs --sets --ways --ram --base --raw --steps --seed --schedule --resume --bus --from --to --states --help" -- "$word") ;;
        count) mapfile -t COMPREPLY < <(compgen -W "--cores --dirs --sets --ways --ram --base --raw --steps --seed --schedule --resume --checkpoint --bus --csv --every --consoles --help" -- "$word") ;;
        state) mapfile -t COMPREPLY < <(compgen -W "--cores --dirs --sets --ways --ram --base --raw --steps --seed --schedule --resume --bus --events --help" -- "$word") ;;
        outcomes) mapfile -t COMPREPLY < <(compgen -W "--cores --ram --base --raw --states --longest --tell --help" -- "$word") ;;
        follow) mapfile -t COMPREPLY < <(compgen -W "--cores --dirs --sets --ways --ram --base --raw --record --help" -- "$word") ;;
        esac
        return
        ;;
    esac
    case ${COMP_WORDS[1]} in
    help) mapfile -t COMPREPLY < <(compgen -W "run phases replay why serial trial bus trace count state outcomes follow" -- "$word") ;;
    trial) mapfile -t COMPREPLY < <(compgen -W "counters transfers stencil sharing" -- "$word") ;;
    *) mapfile -t COMPREPLY < <(compgen -f -- "$word") ;;
    esac
}
complete -o filenames -F _hoopoelarder hoopoelarder
