#!/bin/sh
# Draws a piece of a path.
#
#     draw_piece.sh PIECE.path SCENE.obj WORDS..
#
# runs 'abuf sequence PIECE.path WORDS..' over the scene, in the folder where it is started. PIECE.pam is there only once it is
# whole: the images go into another file first, which gets this name if abuf ends in status 0. A piece that has its PIECE.pam is
# left alone. So all pieces may be run again at any time, and those alone are drawn that are missing.
#
# Statuses 6 to 8, and the end by a signal, may come from the machine: then the piece is drawn again, up to TRIES times in all (3).
# The others come from the words, the path or the scene, and would come again. The status is that of the last run, and the text of
# abuf goes to standard error with the name of the piece. ABUF is the program (abuf).
set -u
if [ $# -lt 2 ]; then
    echo "draw_piece.sh PIECE.path SCENE.obj WORDS.." >&2
    exit 2
fi
piece=$1
scene=$2
shift 2
images=${piece%.path}.pam
part=$images.$(uname -n).$$
trap 'rm -f "$part"' EXIT
trap 'exit 130' INT TERM HUP

[ -e "$images" ] && exit 0
left=${TRIES:-3}
while :; do
    text=$("${ABUF:-abuf}" sequence "$piece" "$@" <"$scene" 2>&1 >"$part")
    status=$?
    if [ $status -eq 0 ] && ! mv "$part" "$images"; then
        status=7
    fi
    [ $status -eq 0 ] && exit 0
    echo "$piece: status $status, $text" >&2
    left=$((left - 1))
    case $status in
    [123459] | 126 | 127) exit $status ;;
    esac
    [ $left -gt 0 ] || exit $status
done
