#compdef hoopoelarder
# Completion of zsh for hoopoelarder. Made by share/make.
_hoopoelarder() {
    local -a commands
    commands=(
        'run:runs programs, and prints a report'
        'phases:runs programs so that earlier phases commit first, and prints the phases and a report'
        'replay:runs a recorded schedule whole, and prints its report'
        'why:runs a schedule, and prints which messages wait then, and for what'
        'serial:runs a report's transactions one after another, without caches'
        'trial:runs a workload, and prints a summary'
        'bus:runs programs on a machine with one bus and no directories, and prints a report'
        'trace:prints what each event of a run did'
        'count:prints how often what happened in a run'
        'state:prints the state after a run, or after its first events'
        'outcomes:lists all results that a program can have'
        'follow:runs programs so that a list's transactions commit in its order'
        'help:prints a page of usage'
        'cc:compiles C for the machine'
        'look:shows what happened in a run'
        'step:walks through a run in the terminal'
        'sweep:counts runs of all combinations of options'
        'plot:draws curves from what sweep counted'
    )
    if ((CURRENT == 2)); then
        _describe command commands
        return
    fi
    case $words[2] in
    run)
        _arguments \
            '--cores[the number of cores\: 1 to 64 (1)]:N:' \
            '--dirs[the number of directories\: 1 to 64 (1)]:N:' \
            '--sets[how many sets a cache has\: a power of two from 1 to 1024 (16)]:N:' \
            '--ways[how many ways a set has\: 1 to 16 (2)]:N:' \
            '--ram[the bytes of memory\: a multiple of 32 from 32 to 16777216 (65536)]:N:' \
            '--base[the address of the first one\: a multiple of 32, with base + RAM at most 2^32 (0x80000000)]:N:' \
            '--raw[the images are raw; without it they are ELF files]' \
            '--steps[the largest number of events\: 0 to 4194304 (1000000)]:N:' \
            '--seed[what the choice of events begins with\: 0 to 18446744073709551615 (0)]:N:' \
            '--record[the file to which the schedule is written when the run has ended]:NAME:_files' \
            '--threads[so many host threads act on the machine at once\: 1 to 16, only with --record]:N:' \
            '--batch[a thread takes at most so many events of a node in one turn\: 1 to 1024, only with --threads (1)]:N:' \
            '1:command:' '*:file:_files'
        ;;
    phases)
        _arguments \
            '--cores[the number of cores\: 1 to 64 (1)]:N:' \
            '--dirs[the number of directories\: 1 to 64 (1)]:N:' \
            '--sets[how many sets a cache has\: a power of two from 1 to 1024 (16)]:N:' \
            '--ways[how many ways a set has\: 1 to 16 (2)]:N:' \
            '--ram[the bytes of memory\: a multiple of 32 from 32 to 16777216 (65536)]:N:' \
            '--base[the address of the first one\: a multiple of 32, with base + RAM at most 2^32 (0x80000000)]:N:' \
            '--raw[the images are raw; without it they are ELF files]' \
            '--steps[the largest number of events\: 0 to 4194304 (1000000)]:N:' \
            '--seed[what the choice of events begins with\: 0 to 18446744073709551615 (0)]:N:' \
            '--record[the file to which the schedule is written when the run has ended]:NAME:_files' \
            '1:command:' '*:file:_files'
        ;;
    replay)
        _arguments \
            '--cores[the number of cores\: 1 to 64 (1)]:N:' \
            '--dirs[the number of directories\: 1 to 64 (1)]:N:' \
            '--sets[how many sets a cache has\: a power of two from 1 to 1024 (16)]:N:' \
            '--ways[how many ways a set has\: 1 to 16 (2)]:N:' \
            '--ram[the bytes of memory\: a multiple of 32 from 32 to 16777216 (65536)]:N:' \
            '--base[the address of the first one\: a multiple of 32, with base + RAM at most 2^32 (0x80000000)]:N:' \
            '--raw[the images are raw; without it they are ELF files]' \
            '1:command:' '*:file:_files'
        ;;
    why)
        _arguments \
            '--cores[the number of cores\: 1 to 64 (1)]:N:' \
            '--dirs[the number of directories\: 1 to 64 (1)]:N:' \
            '--sets[how many sets a cache has\: a power of two from 1 to 1024 (16)]:N:' \
            '--ways[how many ways a set has\: 1 to 16 (2)]:N:' \
            '--ram[the bytes of memory\: a multiple of 32 from 32 to 16777216 (65536)]:N:' \
            '--base[the address of the first one\: a multiple of 32, with base + RAM at most 2^32 (0x80000000)]:N:' \
            '--raw[the images are raw; without it they are ELF files]' \
            '1:command:' '*:file:_files'
        ;;
    serial)
        _arguments \
            '--cores[the number of cores\: 1 to 64 (1)]:N:' \
            '--dirs[the number of directories\: 1 to 64 (1)]:N:' \
            '--sets[how many sets a cache has\: a power of two from 1 to 1024 (16)]:N:' \
            '--ways[how many ways a set has\: 1 to 16 (2)]:N:' \
            '--ram[the bytes of memory\: a multiple of 32 from 32 to 16777216 (65536)]:N:' \
            '--base[the address of the first one\: a multiple of 32, with base + RAM at most 2^32 (0x80000000)]:N:' \
            '--raw[the images are raw; without it they are ELF files]' \
            '1:command:' '*:file:_files'
        ;;
    trial)
        _arguments \
            '--cores[the number of cores\: 1 to 64 (1)]:N:' \
            '--dirs[the number of directories\: 1 to 64 (1)]:N:' \
            '--sets[how many sets a cache has\: a power of two from 1 to 1024 (16)]:N:' \
            '--ways[how many ways a set has\: 1 to 16 (2)]:N:' \
            '--steps[the largest number of events\: 0 to 4194304 (1000000)]:N:' \
            '--seed[what the choice of events begins with\: 0 to 18446744073709551615 (0)]:N:' \
            '1:command:' '2:kind:(counters transfers stencil sharing)' '3:number:'
        ;;
    bus)
        _arguments \
            '--cores[the number of cores\: 1 to 64 (1)]:N:' \
            '--sets[how many sets a cache has\: a power of two from 1 to 1024 (16)]:N:' \
            '--ways[how many ways a set has\: 1 to 16 (2)]:N:' \
            '--ram[the bytes of memory\: a multiple of 32 from 32 to 16777216 (65536)]:N:' \
            '--base[the address of the first one\: a multiple of 32, with base + RAM at most 2^32 (0x80000000)]:N:' \
            '--raw[the images are raw; without it they are ELF files]' \
            '--steps[the largest number of events\: 0 to 4194304 (1000000)]:N:' \
            '--seed[what the choice of events begins with\: 0 to 18446744073709551615 (0)]:N:' \
            '1:command:' '*:file:_files'
        ;;
    trace)
        _arguments \
            '--cores[the number of cores\: 1 to 64 (1)]:N:' \
            '--dirs[the number of directories\: 1 to 64 (1)]:N:' \
            '--sets[how many sets a cache has\: a power of two from 1 to 1024 (16)]:N:' \
            '--ways[how many ways a set has\: 1 to 16 (2)]:N:' \
            '--ram[the bytes of memory\: a multiple of 32 from 32 to 16777216 (65536)]:N:' \
            '--base[the address of the first one\: a multiple of 32, with base + RAM at most 2^32 (0x80000000)]:N:' \
            '--raw[the images are raw; without it they are ELF files]' \
            '--steps[the largest number of events\: 0 to 4194304 (1000000)]:N:' \
            '--seed[what the choice of events begins with\: 0 to 18446744073709551615 (0)]:N:' \
            '--schedule[the run is that of this schedule; then there is neither --steps, --seed nor --bus]:NAME:_files' \
            '--resume[the run goes on from this checkpoint; then there is neither --seed, --schedule nor --bus]:NAME:_files' \
            '--bus[the run is that of the machine with one bus; then there is no --dirs]' \
            '--from[events before this one aren'\''t printed; the first one that is taken counts as 0\: 0 to 4194304 (0)]:N:' \
            '--to[at most so many events are taken\: 0 to 4194304 (4194304)]:N:' \
            '--states[the state at the beginning is printed too, and what each event changed of it]' \
            '1:command:' '*:file:_files'
        ;;
    count)
        _arguments \
            '--cores[the number of cores\: 1 to 64 (1)]:N:' \
            '--dirs[the number of directories\: 1 to 64 (1)]:N:' \
            '--sets[how many sets a cache has\: a power of two from 1 to 1024 (16)]:N:' \
            '--ways[how many ways a set has\: 1 to 16 (2)]:N:' \
            '--ram[the bytes of memory\: a multiple of 32 from 32 to 16777216 (65536)]:N:' \
            '--base[the address of the first one\: a multiple of 32, with base + RAM at most 2^32 (0x80000000)]:N:' \
            '--raw[the images are raw; without it they are ELF files]' \
            '--steps[the largest number of events\: 0 to 4194304 with --bus, and else 0 to 1099511627776 (1000000)]:N:' \
            '--seed[what the choice of events begins with\: 0 to 18446744073709551615 (0)]:N:' \
            '--schedule[the run is that of this schedule; then there is neither --steps, --seed nor --bus]:NAME:_files' \
            '--resume[the run goes on from this checkpoint; then there is neither --seed, --schedule nor --bus]:NAME:_files' \
            '--checkpoint[the file to which the run is written at its end; then there is neither --schedule nor --bus]:NAME:_files' \
            '--bus[the run is that of the machine with one bus; then there is no --dirs]' \
            '--csv[only the totals are printed, as two rows for a table]' \
            '--every[a row of totals after every N events, and at the end\: 1 to 1099511627776, not with --bus]:N:' \
            '--consoles[what the cores print comes first, as it is committed; then there is neither --schedule, --bus nor --every]' \
            '1:command:' '*:file:_files'
        ;;
    state)
        _arguments \
            '--cores[the number of cores\: 1 to 64 (1)]:N:' \
            '--dirs[the number of directories\: 1 to 64 (1)]:N:' \
            '--sets[how many sets a cache has\: a power of two from 1 to 1024 (16)]:N:' \
            '--ways[how many ways a set has\: 1 to 16 (2)]:N:' \
            '--ram[the bytes of memory\: a multiple of 32 from 32 to 16777216 (65536)]:N:' \
            '--base[the address of the first one\: a multiple of 32, with base + RAM at most 2^32 (0x80000000)]:N:' \
            '--raw[the images are raw; without it they are ELF files]' \
            '--steps[the largest number of events\: 0 to 4194304 (1000000)]:N:' \
            '--seed[what the choice of events begins with\: 0 to 18446744073709551615 (0)]:N:' \
            '--schedule[the run is that of this schedule; then there is neither --steps, --seed nor --bus]:NAME:_files' \
            '--resume[the run goes on from this checkpoint; then there is neither --seed, --schedule nor --bus]:NAME:_files' \
            '--bus[the run is that of the machine with one bus; then there is no --dirs]' \
            '--events[at most so many events are taken\: 0 to 4194304 (4194304)]:N:' \
            '1:command:' '*:file:_files'
        ;;
    outcomes)
        _arguments \
            '--cores[the number of cores\: 1 to 64 (1)]:N:' \
            '--ram[the bytes of memory\: a multiple of 32 from 32 to 16777216 (65536)]:N:' \
            '--base[the address of the first one\: a multiple of 32, with base + RAM at most 2^32 (0x80000000)]:N:' \
            '--raw[the images are raw; without it they are ELF files]' \
            '--states[at most so many states are found\: 1 to 4194304 (1000000)]:N:' \
            '--longest[the largest number of instructions of a transaction\: 1 to 4194304 (100000)]:N:' \
            '--tell[what makes two results different\: consoles, memory or all (consoles)]:WHAT:(consoles memory all)' \
            '1:command:' '*:file:_files'
        ;;
    follow)
        _arguments \
            '--cores[the number of cores\: 1 to 64 (1)]:N:' \
            '--dirs[the number of directories\: 1 to 64 (1)]:N:' \
            '--sets[how many sets a cache has\: a power of two from 1 to 1024 (16)]:N:' \
            '--ways[how many ways a set has\: 1 to 16 (2)]:N:' \
            '--ram[the bytes of memory\: a multiple of 32 from 32 to 16777216 (65536)]:N:' \
            '--base[the address of the first one\: a multiple of 32, with base + RAM at most 2^32 (0x80000000)]:N:' \
            '--raw[the images are raw; without it they are ELF files]' \
            '--record[the file to which the schedule is written when the run has ended]:NAME:_files' \
            '1:command:' '*:file:_files'
        ;;
    help) _describe command commands ;;
    *) _files ;;
    esac
}
_hoopoelarder "$@"
