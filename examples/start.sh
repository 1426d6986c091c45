#!/bin/sh
# Proves and builds s6_tree, where that isn't done yet, and runs the tree of examples/services on a socket, until it is told to end:
# by Ctrl-C, or by `s6_tree svscanctl SOCKET -t`.
#
#   examples/start.sh [SOCKET [RECORD]]
#
# With S6_TREE in the environment that program is run, and nothing is proved. What the tree did is recorded:
# `s6_tree replay --check < RECORD` once it has ended.
cd "$(dirname "$0")/.." || exit 111
if [ -z "$S6_TREE" ]; then
    python3 tools/prove.py s6_tree || exit
    S6_TREE=$PWD/crates/s6_tree/out/s6_tree
fi
SOCKET=${1:-/tmp/s6_tree.socket}
RECORD=${2:-/tmp/s6_tree.record}
export S6_TREE
echo "svscan: examples/services on $SOCKET, recorded in $RECORD" >&2
exec sh examples/container/entry.sh examples/services "$SOCKET" "$RECORD"
