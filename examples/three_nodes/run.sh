#!/bin/sh
# Runs three nodes on 127.0.0.1, 127.0.0.2 and 127.0.0.3 of this machine: the first floods a value, the second sends it on, and
# the third reads it.
#
#   examples/three_nodes/run.sh [PROGRAM]      by default crates/grasp_node/out/grasp_node, which `rt ci` leaves there
#
# It writes the lines of the reader, and ends with 0 where it read the value, with the address of the node that flooded it.
set -eu
here=$(cd "$(dirname "$0")" && pwd)
program=${1:-$(cd "$here/../.." && pwd)/crates/grasp_node/out/grasp_node}
if [ ! -x "$program" ]; then
    echo "run.sh: $program: it isn't there; run \`rt ci\` at the top of the repository, or name a program" >&2
    exit 1
fi
work=$(mktemp -d)
trap 'rm -rf "$work"' EXIT

"$program" run "$here/relay.toml" >"$work/relay" &
relay=$!
"$program" run "$here/reader.toml" >"$work/reader" &
reader=$!
sleep 0.3
"$program" run "$here/beacon.toml" >"$work/beacon"
wait "$reader"
wait "$relay"
cat "$work/reader"
grep -q "^read 'temperature = floods fd000000000000000000000000000001 obj 'temperature 5 5 x07 none$" "$work/reader"
