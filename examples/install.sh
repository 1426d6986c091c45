#!/bin/sh
# Installs s6_tree below PREFIX: the program, entry.sh, the manual pages and the completion for bash and zsh.
#
#   PREFIX=/usr/local sh examples/install.sh
#
# In the environment:
#   S6_TREE   the program; crates/s6_tree/out/s6_tree where nothing is said
#   PREFIX    where it will be found: /usr/local where nothing is said
#   DESTDIR   a folder that stands for / while a package is made: files go to DESTDIR/PREFIX
#
# Each line on standard output is a file that was installed.
PREFIX=${PREFIX:-/usr/local}
here=$(CDPATH='' cd -- "$(dirname -- "$0")/.." && pwd) || exit 111
PROGRAM=${S6_TREE:-$here/crates/s6_tree/out/s6_tree}

fail() {
    echo "install.sh: $1" >&2
    exit 111
}

case $PREFIX in
/*) ;;
*) fail "PREFIX is no absolute path: $PREFIX" ;;
esac
[ -f "$PROGRAM" ] && [ -x "$PROGRAM" ] || fail "no program at $PROGRAM: set S6_TREE, or build it (README, \"A first look, and two commands\")"
"$PROGRAM" --version >/dev/null || fail "$PROGRAM doesn't run here"

# put MODE FILE PLACE: a new file, renamed into place. So a program that runs keeps its old file.
put() {
    place=$DESTDIR$PREFIX/$3
    mkdir -p "$(dirname -- "$place")" && cp -- "$2" "$place.new.$$" && chmod "$1" "$place.new.$$" && mv -f -- "$place.new.$$" "$place" || {
        rm -f -- "$place.new.$$"
        fail "can't install $place"
    }
    echo "$place"
}

umask 022
put 755 "$PROGRAM" bin/s6_tree
put 755 "$here/examples/container/entry.sh" libexec/s6_tree/entry.sh
for page in "$here"/docs/man/*.1; do
    put 644 "$page" "share/man/man1/${page##*/}"
done
put 644 "$here/docs/completion/s6_tree.bash" share/bash-completion/completions/s6_tree
put 644 "$here/docs/completion/_s6_tree" share/zsh/site-functions/_s6_tree

# What it needs where it is to run.
{
    echo "install.sh: needs Linux on x86-64, a mounted /proc, /bin/sh with kill, and for entry.sh a sleep that takes fractions"
    libc=$(readelf -V "$PROGRAM" 2>/dev/null | grep -o 'GLIBC_[0-9.]*' | sort -uV | tail -n 1)
    if [ -n "$libc" ]; then
        echo "install.sh: needs the GNU C library, version ${libc#GLIBC_} or newer: musl, as in Alpine, won't do"
    else
        echo "install.sh: what it links: $(ldd "$PROGRAM" 2>&1 | tr -s '\t\n' '  ')"
    fi
} >&2
