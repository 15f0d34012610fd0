#!/bin/sh
# Tries clusters of drives over two and three machines, which are network namespaces with a folder and an address each, under writers
# with WAIT 1: machines are lost (all processes killed, the link down) and come back, or are replaced from nothing as docs/LIVING.md says;
# the network between machines is cut and heals; failovers are planned, and slots moved. After each every answered change is looked
# for, and `pinkctl cluster check` compares every pair. Of changes that clients made without WAIT at a machine that was cut off it says
# how many are gone. It needs root, iproute2, Debian's redis-server, gcc and make, and ends with a line where they are missing. It is
# not part of the gate.
#
#   bench/machines.sh [TURNS [PART..]]     10 losses and 10 partitions by default; the parts losses, partitions, least, two and moves run
#                                at once, or those that are named
set -eu
top=$(CDPATH='' cd -- "$(dirname -- "$0")/.." && pwd)
exec python3 "$top/bench/machines.py" "$@"
