#!/bin/sh
# A first look, in two to three minutes: builds s6_tree without any proof, unoptimised and with checks, and runs the tree of examples/services
# on a socket, until it is told to end: by Ctrl-C, or by `s6_tree svscanctl SOCKET -t`.
#
#   examples/look.sh [SOCKET [RECORD]]
#
# The program stays as crates/s6_tree/out/s6_tree, until examples/start.sh proves it and builds it anew. One that was proved is left as it is.
cd "$(dirname "$0")/.." || exit 111
PROGRAM=$PWD/crates/s6_tree/out/s6_tree
SOCKET=${1:-/tmp/s6_tree.socket}
RECORD=${2:-/tmp/s6_tree.record}
folder=
try=

fail() {
    echo "look: $1" >&2
    exit 111
}

# Ends what builds, and leaves no file of it.
leave() {
    [ -z "$try" ] || kill "$try" 2>/dev/null
    [ -z "$folder" ] || rm -rf "$folder" "$PROGRAM.$$"
}

# Whether the program is there, and no source has changed since.
is_built() {
    [ -x "$PROGRAM" ] && [ -z "$(find crates.txt crates/*/src -newer "$PROGRAM" | head -n 1)" ]
}

# The program that was built and serves on this socket: the word before `svscan` in the words of its process, whose last is the socket.
program_of() {
    for place in /proc/[0-9]*; do
        words=$(tr '\0' '\n' 2>/dev/null <"$place/cmdline") || continue
        case $words in
        *"/program
svscan
"*"
$1") echo "$words" | sed -n '/^svscan$/{x;p;q;};h' && return ;;
        esac
    done
}

# `rt try` builds a program, and removes it when it has ended. So it runs a tree of no services, from which the program is copied.
build() {
    folder=$(mktemp -d) || fail "no folder for what is built"
    trap leave EXIT
    trap 'exit 130' INT TERM
    mkdir "$folder/services" && mkdir -p "${PROGRAM%/*}" || fail "no folder for what is built"
    (cd crates/s6_tree && exec rt try --steps 1 --seconds 600 -- svscan "$folder/services" "$folder/socket") >"$folder/log" 2>&1 &
    try=$!
    while [ ! -S "$folder/socket" ]; do
        kill -0 "$try" 2>/dev/null || {
            cat "$folder/log" >&2
            fail "not built"
        }
        sleep 0.2
    done
    built=$(program_of "$folder/socket")
    [ -n "$built" ] && cp "$built" "$PROGRAM.$$" && mv "$PROGRAM.$$" "$PROGRAM" || fail "no program that was built"
    "$PROGRAM" svscanctl "$folder/socket" -t
    wait "$try"
    try=
    rm -rf "$folder"
    trap - EXIT INT TERM
}

if [ -e "$PROGRAM.stamp" ]; then
    fail "a program that was proved is there: sh examples/start.sh runs it"
fi
echo "look: nothing is proved: s6_tree is only built, which takes two to three minutes" >&2
is_built || build
echo "svscan: examples/services on $SOCKET, recorded in $RECORD" >&2
S6_TREE=$PROGRAM
export S6_TREE
sh examples/container/entry.sh examples/services "$SOCKET" "$RECORD" &
entry=$!
trap 'kill -TERM "$entry" 2>/dev/null' INT TERM
# A signal ends a wait early.
while :; do
    wait "$entry"
    status=$?
    kill -0 "$entry" 2>/dev/null || break
done
echo "look: nothing of this was proved: sh examples/start.sh proves the program" >&2
exit "$status"
