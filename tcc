#!/bin/sh
# Runs the simulator from any folder: ./tcc run [OPTION]... IMAGE...
#
# What runs is the proved program in release/, where that is of these sources and runs on this computer. Else it is crates/tcc/out/tcc,
# which is proved and built first where it isn't of these sources. Whether it is, takes a tenth of a second to find out; so what was found
# is kept in release/checked with the state of each source (its inode, size and time of change), and here that is all that is looked at.
# Words, file names, standard streams and exit status are the program's own. What else the launcher does (pages of usage, hints, records
# and checkpoints that are whole or not there, the settings of a schedule or a checkpoint) is in share/launch.

link=$0
[ ! -h "$link" ] || link=$(readlink -f -- "$link")
root=${link%/*}
[ "$root" != "$link" ] || root=.

# launch WORD..: the long way
launch() { exec bash -- "$root/share/launch" "$0" "$@"; }

. "$root/share/checked.sh"

case ${1-} in
run | phases | serial | trial | bus | trace | count | state | outcomes | follow) ;;
*) launch "$@" ;;
esac
for word; do
    case $word in
    --) break ;;
    -h | --help | --record | --record=* | --schedule | --schedule=*) launch "$@" ;;
    --checkpoint | --checkpoint=* | --resume | --resume=*) launch "$@" ;;
    esac
done
case ${TCC_HINTS-} in
0) ;;
1) launch "$@" ;;
*) [ ! -t 2 ] || launch "$@" ;;
esac
find_checked || launch "$@"
trap '' XFSZ # a write beyond the limit of a file's size fails, and doesn't end the program
exec "$program" "$@"
