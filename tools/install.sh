#!/bin/sh
# Installs abuf with its manual page and completions for bash, zsh and fish, removes it again, or makes a package of it.
#
#     install.sh [--abuf PATH] [PREFIX]               install below PREFIX, which is /usr/local if it isn't given
#     install.sh --uninstall [PREFIX]                 remove what was installed there
#     install.sh --deb [--abuf PATH] [FOLDER]         write abuf_VERSION_ARCHITECTURE.deb, into this folder or another
#
#     sudo tools/install.sh
#     tools/install.sh --deb /tmp && sudo apt install /tmp/abuf_1.0.0_amd64.deb
#
# The program is that of --abuf, or of the variable ABUF, or the proved one of this checkout. Where that isn't built from the sources
# that are here, ./abuf builds it first. DESTDIR, if it is set, stands before every path. What is installed starts the program with
# the tunables of the C library that ./abuf has. The status is 0, or 2 where something is missing.
set -eu
top=$(cd "$(dirname "$0")/.." && pwd)

fail() {
    echo "install.sh: $1" >&2
    exit 2
}

usage() {
    sed -n '2,/^set/s/^# \{0,1\}//p' "$0"
    exit "$1"
}

task=install
program=${ABUF:-}
target=
while [ $# -gt 0 ]; do
    case $1 in
    --help) usage 0 ;;
    --uninstall) task=uninstall ;;
    --deb) task=deb ;;
    --abuf)
        [ $# -gt 1 ] || fail "--abuf needs the path of a program"
        program=$2
        shift
        ;;
    --abuf=*) program=${1#--abuf=} ;;
    -*) fail "there is no option $1; --help tells those that there are" ;;
    *)
        [ -z "$target" ] || fail "one folder is enough: $target or $1"
        target=$1
        ;;
    esac
    shift
done

# The files below a prefix, where the shells and man look for them.
files() {
    printf '%s\n' bin/abuf libexec/abuf share/man/man1/abuf.1 share/bash-completion/completions/abuf "$zsh/_abuf" \
        share/fish/vendor_completions.d/abuf.fish
}

find_program() {
    if [ -z "$program" ]; then
        program=$top/crates/abuf/out/abuf
        "$top/abuf" demo 1 --size 1x1 >/dev/null || fail "./abuf didn't build the program"
    fi
    if [ ! -f "$program" ] || [ ! -x "$program" ]; then
        fail "there is no program $program; ./abuf builds it"
    fi
}

# put MODE FILE PLACE: copies a file.
put() {
    mkdir -p "$(dirname "$3")" || fail "$(dirname "$3") can't be made; a prefix such as \$HOME/.local needs no rights"
    if ! { cp "$2" "$3.new" && chmod "$1" "$3.new" && mv -f "$3.new" "$3"; }; then
        fail "$3 can't be written; a prefix such as \$HOME/.local needs no rights"
    fi
}

# The tunables with which ./abuf starts the program.
tunables() {
    sed -n 's/.*GLIBC_TUNABLES=\([^}"]\{1,\}\).*/\1/p' "$top/abuf" | head -n 1
}

# install_below ROOT PREFIX: the files, of which bin/abuf names the program by its place below the prefix.
install_below() {
    wrapper=$(mktemp)
    cat >"$wrapper" <<END
#!/bin/sh
# Starts abuf, and asks the C library to take memory as suits it. What the user has set stands.
: "\${GLIBC_TUNABLES=$(tunables)}"
export GLIBC_TUNABLES
exec "$2/libexec/abuf" "\$@"
END
    put 755 "$program" "$1$2/libexec/abuf"
    put 755 "$wrapper" "$1$2/bin/abuf"
    rm -f "$wrapper"
    put 644 "$top/docs/abuf.1" "$1$2/share/man/man1/abuf.1"
    put 644 "$top/tools/completions/abuf.bash" "$1$2/share/bash-completion/completions/abuf"
    put 644 "$top/tools/completions/_abuf" "$1$2/$zsh/_abuf"
    put 644 "$top/tools/completions/abuf.fish" "$1$2/share/fish/vendor_completions.d/abuf.fish"
}

# Lets whatis and apropos know of the page, where it lies in one of man's own folders.
index_manual() {
    command -v mandb >/dev/null && [ -z "${DESTDIR:-}" ] && [ -w "$1/share/man" ] || return 0
    case :$(manpath -q): in *:"$1/share/man":*) mandb --quiet "$1/share/man" >/dev/null 2>&1 || : ;; esac
}

version() {
    sed -n 's/^## \([0-9][0-9.]*\),.*/\1/p' "$top/CHANGELOG.md" | head -n 1
}

make_package() {
    command -v dpkg-deb >/dev/null || fail "dpkg-deb isn't there: install Debian's package dpkg"
    architecture=$(dpkg --print-architecture)
    # The C library that the program needs is the latest of those whose functions it uses.
    library=$(grep -ao 'GLIBC_2\.[0-9]*' "$program" | sort -uV | tail -n 1)
    [ -n "$library" ] || fail "$program isn't linked with the C library"
    package=$1/abuf_$(version)_$architecture.deb
    tree=$(mktemp -d)
    trap 'rm -rf "$tree"' EXIT
    install_below "$tree" /usr
    gzip -9n "$tree/usr/share/man/man1/abuf.1"
    mkdir -p "$tree/usr/share/doc/abuf" "$tree/DEBIAN"
    cp "$top/docs/FORMATS.md" "$top/docs/VIEWING.md" "$tree/usr/share/doc/abuf"
    gzip -9nc "$top/CHANGELOG.md" >"$tree/usr/share/doc/abuf/CHANGELOG.md.gz"
    find "$tree" -type d -exec chmod 755 {} +
    find "$tree/usr/share" -type f -exec chmod 644 {} +
    cat >"$tree/DEBIAN/control" <<END
Package: abuf
Version: $(version)
Architecture: $architecture
Maintainer: ${DEBFULLNAME:-the maintainers of abuf} <${DEBEMAIL:-abuf@localhost}>
Installed-Size: $(du -sk "$tree/usr" | cut -f 1)
Depends: libc6 (>= ${library#GLIBC_})
Suggests: netpbm
Section: graphics
Priority: optional
Description: exact renderer of transparent scenes
 abuf reads Wavefront OBJ with MTL libraries and writes Netpbm PAM images. Every
 pixel keeps a list of all its fragments, which are ordered by their depth in
 each sample, so that overlapping and crossing panes of glass come out right
 without sorting. An image has the same bytes on every machine and for every
 number of threads.
END
    (cd "$tree" && find usr -type f -exec md5sum {} +) >"$tree/DEBIAN/md5sums"
    dpkg-deb --root-owner-group --build "$tree" "$package" >/dev/null || fail "dpkg-deb made no package"
    echo "written: $package"
}

prefix=${target:-/usr/local}
prefix=${prefix%/}
root=${DESTDIR:-}
case $task in
install)
    case $prefix in /*) ;; *) prefix=$(pwd)/$prefix ;; esac
    zsh=share/zsh/site-functions
    find_program
    install_below "$root" "$prefix"
    index_manual "$prefix"
    for file in $(files); do
        echo "installed: $prefix/$file"
    done
    ;;
uninstall)
    case $prefix in /*) ;; *) prefix=$(pwd)/$prefix ;; esac
    zsh=share/zsh/site-functions
    for file in $(files); do
        if [ -e "$root$prefix/$file" ]; then
            rm -f "$root$prefix/$file" || fail "$prefix/$file can't be removed"
            echo "removed: $prefix/$file"
        fi
    done
    index_manual "$prefix"
    ;;
deb)
    zsh=share/zsh/vendor-completions
    find_program
    folder=${target:-.}
    [ -d "$folder" ] || fail "there is no folder $folder"
    make_package "$folder"
    ;;
esac
