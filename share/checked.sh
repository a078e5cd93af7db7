# What the launcher keeps of a check: that a program is of the sources, as they are now. Sourced with `root` set.

installed=$root/tcc-x86_64-linux
released=$root/release/tcc-x86_64-linux
built=$root/crates/tcc/out/tcc

# state FILE..: the name of the computer, and the state of each source and of these files; any change of one of them changes this text. It ends
# the shell that it is called in, so it is called in a pipe or in $( ).
state() {
    cd -- "$root" || exit
    read -r host </proc/sys/kernel/hostname
    echo "$host"
    exec find crates/*/src crates.txt release/manifest.sh "$@" -printf '%i %s %C@ %p\n'
}

# find_checked: whether a program was found to be of these sources, and nothing has changed since; it is `program` then
find_checked() {
    if [ -x "$installed" ]; then
        program=$installed
    elif [ -f "$root/release/checked" ]; then
        program=$released
        state release/manifest release/tcc-x86_64-linux | cmp -s - "$root/release/checked"
    else
        program=$built
        [ -f "$built.checked" ] && state crates/tcc/out/tcc crates/tcc/out/tcc.manifest | cmp -s - "$built.checked"
    fi
}
