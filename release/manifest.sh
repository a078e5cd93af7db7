# What the launcher, `renew` and `check` share: the manifest of a program, three lines that name the kit, the sources and the program.
# Sourced with `root` set to the top of the repository.

released=$root/release/tcc-x86_64-linux

# lines_of NAME: the lines of crates.txt for the crates that NAME stands on, each after those that it stands on itself, and NAME's last
lines_of() {
    awk -v top="$1" '
        /^[^#]*:/ { colon = index($0, ":"); split(substr($0, 1, colon - 1), words, " "); below[words[1]] = substr($0, colon + 1); line[words[1]] = $0 }
        function visit(name, parts, count, i) {
            if (!(name in below) || name in seen) return
            seen[name] = 1
            count = split(below[name], parts, " ")
            for (i = 1; i <= count; i++) visit(parts[i])
            print line[name]
        }
        END { visit(top) }' "$root/crates.txt"
}

# crates_of NAME: these crates' names
crates_of() { lines_of "$1" | sed 's/[ :].*//'; }

# The checksum of what the bytes of the program depend on beside the kit: its crates' lines of crates.txt and their .rt files.
sources_sum() (
    cd -- "$root" || exit
    export LC_ALL=C
    mapfile -t names < <(crates_of tcc)
    folders=("${names[@]/#/crates/}")
    {
        lines_of tcc
        find "${folders[@]/%//src}" -type f -name '*.rt' -print0 | sort -z | xargs -0 sha256sum
    } | checksum
)

# The checksum of standard input.
checksum() { sha256sum | cut -d ' ' -f 1; }

# The kit on the path, as `rt version` names it; nothing where there is none.
kit() {
    local rt
    rt=$(command -v rt) || return 0
    cat -- "$(dirname -- "$(readlink -f -- "$rt")")/../KIT-ID" 2>/dev/null || rt version
}

# manifest PROGRAM KIT: the manifest of that program, if that kit built it of these sources
manifest() { printf 'kit %s\nsources %s\nprogram %s\n' "$2" "$(sources_sum)" "$(checksum <"$1")"; }

# kit_of MANIFEST: the kit that the manifest names
kit_of() { sed -n 's/^kit //p' "$1"; }

# is_of_sources PROGRAM MANIFEST: whether that file is the manifest of that program, of these sources, whichever kit built it
is_of_sources() {
    [ -x "$1" ] && [ -f "$2" ] || return
    [ "$(manifest "$1" "$(kit_of "$2")")" = "$(cat -- "$2")" ]
}
