#!/bin/sh
# Measures running nodes on the addresses 127.0.0.1, 127.0.0.2 .. of this machine.
#
#   bench/node.sh [PROGRAM]      by default crates/grasp_node/out/grasp_node, which `rt ci` leaves there
#
# It needs python3. It prints the seconds from a node's start until another one, which runs already, has delegated a prefix
# to it, the least and the middle one of ten runs; how many negotiations a second a node serves that 1, 4 and 16 others ask,
# each 200 times, one after the other, and what each cost it of processor time; and the processor time that a node to which
# nothing comes takes in ten seconds. The first two are read off the lines that GRASP_TRACE has the asking nodes write, so
# what these cost them is counted too. A node waits 1 millisecond in each turn, but for the last measurement.
set -eu
here=$(cd "$(dirname "$0")" && pwd)
program=${1:-$(cd "$here/.." && pwd)/crates/grasp_node/out/grasp_node}
if [ ! -x "$program" ]; then
    echo "node.sh: $program: it isn't there; run \`rt ci\` at the top of the repository, or name a program" >&2
    exit 1
fi
exec python3 "$here/time_node.py" "$program"
