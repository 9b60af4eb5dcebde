#!/bin/sh
# Puts the built lpmtool, its manual page and its completions under a folder, with the library for C programs where that
# is built, or takes them away again:
#
#     tools/install.sh [--prefix DIR] [--uninstall]
#
# DIR is /usr/local where it isn't given. DESTDIR of the environment stands before it, as packages want it. Folders that
# aren't there are made and noted, so that --uninstall takes away those that are empty by then, and no others. For a DIR
# of one's own zsh wants DIR/share/zsh/site-functions in its fpath.
set -eu
umask 022

top=$(CDPATH='' cd -- "$(dirname -- "$0")/.." && pwd)
program=crates/lpmtool/out/lpmtool
notes=share/lpmtool/folders
usage="usage: tools/install.sh [--prefix DIR] [--uninstall]"
# each file in the repository, its mode, and its place under DIR
files="$program 755 bin/lpmtool
docs/man/lpmtool.1 644 share/man/man1/lpmtool.1
tools/completions/lpmtool.bash 644 share/bash-completion/completions/lpmtool
tools/completions/_lpmtool 644 share/zsh/site-functions/_lpmtool
tools/completions/lpmtool.fish 644 share/fish/vendor_completions.d/lpmtool.fish"
archive=c/out/libsaxiko.a
library="$archive 644 lib/libsaxiko.a
c/saxiko.h 644 include/saxiko.h
c/saxiko_rte_lpm.h 644 include/saxiko_rte_lpm.h
c/out/saxiko.pc 644 lib/pkgconfig/saxiko.pc
docs/man/saxiko.3 644 share/man/man3/saxiko.3"

refuse() {
    printf '%s\n' "$@" >&2
    exit 2
}

# Makes a folder under the root, and before it those above it. Notes the new ones, the deepest first.
make_folder() {
    [ ! -d "$root/$1" ] || return 0
    case $1 in
        */*) make_folder "${1%/*}" ;;
    esac
    mkdir "$root/$1"
    made="$1
$made"
}

# Puts a file in place at once, also where an older one runs.
put() {
    cp "$top/$1" "$root/$3.new"
    chmod "$2" "$root/$3.new"
    mv -f "$root/$3.new" "$root/$3"
}

# What pkg-config is told of the library.
describe() {
    version=$(sed -n 's/^#define SAXIKO_VERSION "\(.*\)"$/\1/p' "$top/c/saxiko.h")
    sed "s|@PREFIX@|$prefix|; s|@VERSION@|$version|" "$top/c/saxiko.pc.in" > "$top/c/out/saxiko.pc"
}

install_all() {
    if [ ! -f "$top/$program" ]; then
        printf '%s\n' "$program isn't there: lpmtool isn't built. With the kit's rt on the path, from the top:" \
            "    cd crates/lpmtool && rt run -- --help" >&2
        exit 1
    fi
    if [ -f "$top/$archive" ]; then
        describe
        files="$files
$library"
    else
        echo "$archive isn't there, so the library for C programs isn't installed: tools/build_c.py makes it"
    fi
    mkdir -p "$root"
    made=""
    for place in "$notes" $(printf '%s\n' "$files" | sed 's/.* //'); do
        make_folder "${place%/*}"
    done
    if [ -f "$root/$notes" ]; then
        made="$made$(cat "$root/$notes")
"
    fi
    printf '%s' "$made" > "$root/$notes"
    while read -r source mode place; do
        put "$source" "$mode" "$place"
    done << END
$files
END
    echo "lpmtool is installed under $root"
    case "${DESTDIR:-}:$PATH:" in
        :*":$prefix/bin:"* | [!:]*) ;;
        *) echo "$prefix/bin isn't on the path" ;;
    esac
}

uninstall_all() {
    for place in $(printf '%s\n' "$files" "$library" | sed 's/.* //'); do
        rm -f "$root/$place"
    done
    if [ -f "$root/$notes" ]; then
        made=$(cat "$root/$notes")
        rm -f "$root/$notes"
        for folder in $made; do
            rmdir "$root/$folder" 2> /dev/null || true
        done
    fi
    echo "lpmtool is no longer under $root"
}

prefix=/usr/local
job=install_all
while [ $# -gt 0 ]; do
    case $1 in
        --prefix)
            [ $# -ge 2 ] || refuse "--prefix wants a folder" "$usage"
            prefix=$2
            shift
            ;;
        --prefix=*) prefix=${1#*=} ;;
        --uninstall) job=uninstall_all ;;
        -h | --help)
            echo "$usage"
            exit 0
            ;;
        *) refuse "unknown: $1" "$usage" ;;
    esac
    shift
done
case $prefix in
    "") refuse "--prefix wants a folder" "$usage" ;;
    /*) ;;
    *) prefix=$PWD/$prefix ;;
esac
prefix=${prefix%/}
root=${DESTDIR:-}$prefix
$job
