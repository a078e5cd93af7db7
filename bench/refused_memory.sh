#!/bin/bash
# Refuses one request for memory of a command, the first, then the second and so on, until the command makes fewer, and looks at how each of
# these calls ends: as when nothing is refused, or with status 7, the line `tcc: memory` and nothing on standard output, or of what is
# written while a run or a search goes on (a trace, rows, consoles, a table of outcomes) a first part. Of a run on host threads, whose
# schedule isn't the same each time, the replay of the record has to print the same bytes. It also looks at the files that each call opens:
# those that the command names, in order, each once and no other, or the first of them; and at a record or a checkpoint, which after status
# 7 is as it was or whole. Needs a C compiler: the requests go to `malloc`, `realloc` and `open`, and a small library before the C library's
# counts and refuses them. TCC names the program to run. With --short it refuses the first forty requests of each command, and then one of
# seventeen.
set -eu
short=${1:-}
here=$(dirname "$(readlink -f "$0")")
program=$(readlink -f -- "${TCC:-$here/../release/tcc-x86_64-linux}")
room=$(mktemp -d)
trap 'rm -rf "$room"' EXIT
cd "$room"

cat >refuse.c <<'C'
#define _GNU_SOURCE
#include <dlfcn.h>
#include <fcntl.h>
#include <stdarg.h>
#include <stdatomic.h>
#include <stdio.h>
#include <stdlib.h>
#include <sys/syscall.h>
#include <unistd.h>

static atomic_long asked, refused;
static void *(*real_malloc)(size_t);
static void *(*real_realloc)(void *, size_t);
static int (*real_open)(const char *, int, ...);

__attribute__((constructor)) static void begin(void) {
    const char *number = getenv("REFUSED");
    real_malloc = dlsym(RTLD_NEXT, "malloc");
    real_realloc = dlsym(RTLD_NEXT, "realloc");
    real_open = dlsym(RTLD_NEXT, "open");
    atomic_store(&asked, 0);
    atomic_store(&refused, number ? atol(number) : 0);
}

/* tells how many requests there were, however the program ends */
__attribute__((destructor)) static void end(void) {
    FILE *file = fopen("asked", "w");
    if (file) {
        fprintf(file, "%ld\n", atomic_load(&asked));
        fclose(file);
    }
}

void _exit(int status) {
    atomic_store(&refused, 0);
    end();
    syscall(SYS_exit_group, status);
    __builtin_unreachable();
}

void *malloc(size_t size) {
    if (!real_malloc)
        real_malloc = dlsym(RTLD_NEXT, "malloc");
    return atomic_fetch_add(&asked, 1) + 1 == atomic_load(&refused) ? NULL : real_malloc(size);
}

void *realloc(void *old, size_t size) {
    if (!real_realloc)
        real_realloc = dlsym(RTLD_NEXT, "realloc");
    return atomic_fetch_add(&asked, 1) + 1 == atomic_load(&refused) ? NULL : real_realloc(old, size);
}

/* writes down what is opened, to read or to write */
int open(const char *path, int flags, ...) {
    va_list rest;
    va_start(rest, flags);
    int mode = flags & O_CREAT ? va_arg(rest, int) : 0;
    va_end(rest);
    int list = real_open("opened", O_WRONLY | O_APPEND | O_CREAT, 0666);
    if (list >= 0) {
        dprintf(list, "%c %s\n", (flags & O_ACCMODE) == O_RDONLY ? 'r' : 'w', path);
        close(list);
    }
    return real_open(path, flags, mode);
}
C
cc -O1 -shared -fPIC -o refuse.so refuse.c -ldl

# each core adds 1 to one word, a hundred times, and halts; the image of two stores to two lines in a cache of one frame; and each core
# prints 250 bytes in each transaction, without end
words() { for word in "$@"; do printf "\\x${word:6:2}\\x${word:4:2}\\x${word:2:2}\\x${word:0:2}"; done; }
words 80000337 06400393 04032283 00128293 04532023 00000073 fff38393 fe0396e3 05d00893 00000073 >count
words 80000337 04b32023 06b32023 04b32023 05d00893 00000073 >spill
words 00000013 00100893 $(printf '00000073 %.0s' {1..250}) 00000893 00000073 c0dff06f >tell

# call NUMBER WORDS..: the command with its request of that number refused; gives its status
call() {
    local number=$1 status=0
    shift
    : >opened
    REFUSED=$number LD_PRELOAD=$room/refuse.so "$program" "$@" >output 2>error || status=$?
    echo "$status"
}

failed=0
complain() {
    echo "refused_memory: $*" >&2
    failed=1
}

# opened_in_order FILES [COUNT]: whether what was opened are these files, in order; or so many of them, the first
opened_in_order() {
    printf '%s' "${1:+$1$'\n'}" | head -n "${2:-99}" | cmp -s - opened
}

# the record is as it was before the call, or that of a run
sound() {
    [ -z "$1" ] || [ "$(cat "$1")" = old ] || cmp -s "$1" whole \
        || { [ "$2" = replayed ] && "$program" replay --raw --cores 2 "$1" count >again; }
}

# what was written before the refusal: nothing, or of what is written in pieces a first part, and not all
begun() {
    local written
    written=$(stat -c %s output)
    [ "$written" = 0 ] || {
        [[ "$* " =~ ^(trace|outcomes|count.*\ --(every|consoles))\  ]] &&
            [ "$written" -lt "$(stat -c %s wanted)" ] && cmp -s -n "$written" output wanted
    }
}

# each_refused CHECK FILES WORDS..: the command, which opens these files, with each of its requests refused, one by one
each_refused() {
    local check=$1 files=$2 number=0 refusals=0 status wanted record
    shift 2
    record=$(sed -n 's/^w //p' <<<"$files")
    wanted=$(call 0 "$@")
    cp output wanted
    [ -z "$record" ] || cp "$record" whole
    opened_in_order "$files" || complain "$*: opens other files: $(cat opened)"
    asked=0
    while [ "$number" -le "$asked" ]; do
        if [ "$short" = --short ] && [ "$number" -ge 40 ]; then number=$((number + 17)); else number=$((number + 1)); fi
        [ -z "$record" ] || echo old >"$record"
        status=$(call "$number" "$@")
        asked=$(cat asked)
        opened_in_order "$files" "$(wc -l <opened)" || complain "request $number of $*: opens other files: $(cat opened)"
        if [ "$status" = 7 ]; then
            refusals=$((refusals + 1))
            begun "$@" && [ "$(cat error)" = "tcc: memory" ] || complain "request $number of $*: what is written isn't a refusal's"
            sound "$record" "$check" || complain "request $number of $*: the record is neither as it was nor whole"
        elif [ "$status" = "$wanted" ]; then
            [ ! -s error ] || complain "request $number of $*: $(cat error)"
            "$check" || complain "request $number of $*: another text"
        else
            complain "request $number of $*: status $status"
        fi
    done
    printf '%6d requests, %6d refusals: %s\n' "$asked" "$refusals" "$*"
}

# the text is that of the call of which nothing was refused, and so is the record
same() { cmp -s output wanted && { [ -z "$record" ] || cmp -s "$record" whole; }; }

# the replay of what was recorded prints the same
replayed() { cp output first && "$program" replay --raw --cores 2 schedule count >again && cmp -s first again; }

each_refused same "r count" run --raw count
each_refused same $'r spill\nw schedule' run --raw --sets 1 --ways 1 --record schedule spill
each_refused same $'r schedule\nr spill' replay --raw --sets 1 --ways 1 schedule spill
cp wanted report
each_refused same $'r report\nr spill' serial --raw --sets 1 --ways 1 report spill
each_refused same $'r schedule\nr spill' why --raw --sets 1 --ways 1 schedule spill
each_refused same $'r count\nw ordered' phases --raw --cores 2 --record ordered count
each_refused same "" trial --cores 2 --seed 1 counters 5
for look in "trace --states" trace count state "trace --bus" "count --every 200" "count --bus --csv" "state --bus"; do
    read -ra look <<<"$look"
    each_refused same "r count" "${look[@]}" --raw --cores 2 --steps 900 count
done
each_refused same $'r count\nw checkpoint' count --raw --cores 2 --steps 500 --checkpoint checkpoint count
each_refused same $'r checkpoint\nr count\nw further' count --raw --cores 2 --resume checkpoint --steps 400 --checkpoint further count
rows="--every 100 --raw --cores 2"
each_refused same $'r count\nw checkpoint' count $rows --steps 500 --checkpoint checkpoint count
each_refused same $'r checkpoint\nr count\nw further' count $rows --resume checkpoint --steps 400 --checkpoint further count
each_refused same $'r checkpoint\nr count' state --raw --cores 2 --resume checkpoint --steps 400 count
# two pieces are written, and some of the requests come between them
each_refused same $'r checkpoint\nr count' trace --raw --cores 2 --resume checkpoint --steps 1000 count
each_refused same $'r tell\nw told' count --consoles --raw --cores 2 --steps 1000 --checkpoint told tell
each_refused same $'r told\nr tell' count --consoles --raw --cores 2 --resume told --steps 40000 tell
each_refused same $'r schedule\nr spill' trace --raw --sets 1 --ways 1 --schedule schedule spill
each_refused same "r count" outcomes --raw --tell all count
each_refused same "r count" outcomes --raw --cores 2 --states 300 count
each_refused same "r count" bus --raw --cores 2 --seed 1 count
each_refused same "r spill" bus --raw --cores 2 --sets 1 --ways 1 spill
each_refused same "r $here/../examples/bank.elf" run --cores 2 --seed 7 "$here/../examples/bank.elf"
each_refused replayed $'r count\nw schedule' run --raw --threads 4 --cores 2 --record schedule count
exit "$failed"
