#!/bin/sh
# Runs abuf with the words and the standard input given, before any of it is proved:
#
#     (cd examples && ../tools/unproved.sh render --size 320x240 < films.obj) > films.pam
#
# The toolchain compiles all crates anew, which takes about a minute, and the program stops where it sees an index out of range, an
# overflow or a broken precondition. The bytes are those of the proved program, which ../abuf builds; this is for a first look, and
# for trying a change before its proof. The libraries (*.mtl) and paths (*.path) of the current folder are there for the program; it
# reads no other files.
set -u
if [ "${1:-}" = --help ]; then
    sed -n '2,/^set/s/^# \{0,1\}//p' "$0"
    exit 0
fi
top=$(cd "$(dirname "$0")/.." && pwd) || exit 1
here=$(pwd)
words=$#
for file in *.mtl *.path; do
    [ -f "$file" ] && set -- "$@" --data "$file=$here/$file"
done
# The words of the program come last.
set -- "$@" --
while [ "$words" -gt 0 ]; do
    word=$1
    shift
    set -- "$@" "$word"
    words=$((words - 1))
done
echo "abuf: compiling the program, unproved; this takes about a minute" >&2
cd "$top/crates/abuf" && exec rt try "$@"
