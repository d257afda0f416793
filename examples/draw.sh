#!/bin/sh
# Draws an example by the command in the comment at the head of its scene or path.
#
#     draw.sh [--unproved | --abuf PATH] NAME [FOLDER]
#
#     examples/draw.sh --unproved lantern
#
# NAME is that of a scene (lantern, panes, films, cube, crossing), or of one of its pictures (crossing-8, lantern-turning). The picture
# is written as NAME.png into the folder, which is the current one if it isn't given; without Python as NAME.pam. The command is
# printed. The program is that of --abuf, or of the variable ABUF, or ./abuf of this checkout, which proves and builds it the first
# time. --unproved takes the unproved program, which compiles in about a minute. The status is that of the program, or 2 if
# something is missing.
set -u
top=$(cd "$(dirname "$0")/.." && pwd) || exit 2

fail() {
    echo "draw.sh: $1" >&2
    exit 2
}

program=${ABUF:-$top/abuf}
name=
folder=
while [ $# -gt 0 ]; do
    case $1 in
    --help)
        sed -n '2,/^set/s/^# \{0,1\}//p' "$0"
        exit 0
        ;;
    --unproved) program=$top/tools/unproved.sh ;;
    --abuf)
        [ $# -gt 1 ] || fail "--abuf needs the path of a program"
        program=$2
        shift
        ;;
    --abuf=*) program=${1#--abuf=} ;;
    -*) fail "there is no option $1; --help tells those that there are" ;;
    *)
        if [ -z "$name" ]; then
            name=$1
        elif [ -z "$folder" ]; then
            folder=$1
        else
            fail "one example is drawn at a time, into one folder"
        fi
        ;;
    esac
    shift
done
names=$(cd "$top/examples" && grep -l '^# abuf ' ./*.obj ./*.path | sed 's/^\.\///; s/\.[a-z]*$//' | sort -u | tr '\n' ' ')
[ -n "$name" ] || fail "which example? There are ${names% }"
folder=${folder:-.}
[ -d "$folder" ] || fail "there is no folder $folder"
folder=$(cd "$folder" && pwd)
case $program in /*) ;; */*) program=$(pwd)/$program ;; esac
command -v "$program" >/dev/null || fail "there is no program $program"
cd "$top/examples" || exit 2

# draw FILE COMMAND: draws one picture, if the name is that of its file or its own.
draw() {
    file=$1
    command=$2
    words=${command#abuf }
    picture=${file%.*}
    times=1
    scene=$file
    case $words in *" > "*)
        picture=${words##* > }
        picture=${picture%.pam}
        words=${words% > *}
        ;;
    esac
    case $words in *" | pamenlarge "*)
        times=${words##* }
        words=${words% | pamenlarge *}
        ;;
    esac
    case $words in *" < "*)
        scene=${words##* < }
        words=${words% < *}
        ;;
    esac
    [ "$name" = "$picture" ] || [ "$name.obj" = "$file" ] || return 0
    found=1
    echo "$command"
    # The words of a command are apart by single spaces, and none has a quote.
    # shellcheck disable=SC2086
    "$program" $words <"$scene" >"$work" || exit
    if command -v python3 >/dev/null; then
        python3 "$top/tools/apng.py" --enlarge "$times" <"$work" >"$folder/$picture.png" || exit 2
        echo "written: $picture.png"
    else
        cp "$work" "$folder/$picture.pam" || exit 2
        echo "written: $picture.pam; with Python it would be a PNG"
    fi
}

found=0
work=$(mktemp) || exit 2
list=$(mktemp) || exit 2
trap 'rm -f "$work" "$list"' EXIT
trap 'exit 130' INT TERM HUP
grep -H '^# abuf ' ./*.obj ./*.path | sed 's/^\.\///; s/:# /\t/' >"$list"
while IFS="$(printf '\t')" read -r file command; do
    draw "$file" "$command" </dev/null
done <"$list"
[ $found -eq 1 ] || fail "no example $name; there are ${names% }"
