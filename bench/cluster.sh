#!/bin/sh
# Tries a cluster of drives that `pinkctl cluster` makes, and replicas of the module redis/pink.so: primaries are killed and replaced,
# failovers are planned, copies and moves of slots are broken off; after each the drives of every pair are compared and every answered
# change is looked for. It needs Debian's redis-server and redis-tools, gcc and make, and ends with a line where they are missing.
# It is not part of the gate.
#
#   bench/cluster.sh [KILLS [PART..]]     20 kills and 20 planned failovers by default; the parts pairs, moves, steps, planned, kills
#                                run at once, or those that are named; PINK_TEST_PORT is the first of 50 ports, 7600 by default
set -eu
top=$(CDPATH='' cd -- "$(dirname -- "$0")/.." && pwd)
exec python3 "$top/bench/cluster.py" "$@"
