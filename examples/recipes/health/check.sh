#!/bin/sh
# check.sh NAME..: 0 if all these services are ready, or will be within two seconds; else 1. For HEALTHCHECK and other probes.
"${S6_TREE:-s6_tree}" svwait "${SOCKET:-/run/s6_tree.sock}" -U -t 2000 "$@" || exit 1
