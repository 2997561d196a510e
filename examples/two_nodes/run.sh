#!/bin/sh
# Runs two nodes on the addresses 127.0.0.1 and 127.0.0.2 of this machine, of which one is delegated a prefix by the other.
#
#   examples/two_nodes/run.sh [PROGRAM]      by default crates/grasp_node/out/grasp_node, which `rt ci` leaves there
#
# It writes the lines of both nodes, and ends with 0 where the second got its prefix and the first no longer holds it.
set -eu
here=$(cd "$(dirname "$0")" && pwd)
program=${1:-$(cd "$here/../.." && pwd)/crates/grasp_node/out/grasp_node}
if [ ! -x "$program" ]; then
    echo "run.sh: $program: it isn't there; run \`rt ci\` at the top of the repository, or name a program" >&2
    exit 1
fi
work=$(mktemp -d)
trap 'rm -rf "$work"' EXIT

"$program" run "$here/giver.toml" >"$work/giver" &
giver=$!
sleep 0.2
"$program" run "$here/taker.toml" >"$work/taker"
wait "$giver"
echo "the giver:"
cat "$work/giver"
echo "the taker:"
cat "$work/taker"
grep -q '^want 56 64 = held 20010db8000000000000000000000000/56$' "$work/taker"
grep -q '^prefixes held 20010db8000000000000000000000000/56 ' "$work/taker"
if grep -q '20010db8000000000000000000000000/' "$work/giver"; then
    echo "the giver still has the prefix" >&2
    exit 1
fi
