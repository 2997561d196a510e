#!/bin/sh
# Runs two nodes that serve on the addresses 127.0.0.1 and 127.0.0.2 of this machine, of which one is delegated a prefix by the
# other, shows what both hold, and stops them. A second run begins with what the first one left in the nodes' stores: the taker holds
# its prefix, and asks for one more.
#
#   examples/serving/run.sh [PROGRAM]      by default crates/grasp_node/out/grasp_node, which `rt ci` leaves there
#
# It ends with 0 where the taker got a prefix within ten seconds in each run, held the first one in the second run, and all nodes
# ended with status 0.
set -eu
here=$(cd "$(dirname "$0")" && pwd)
program=${1:-$(cd "$here/../.." && pwd)/crates/grasp_node/out/grasp_node}
if [ ! -x "$program" ]; then
    echo "run.sh: $program: it isn't there; run \`rt ci\` at the top of the repository, or name a program" >&2
    exit 1
fi
program=$(cd "$(dirname "$program")" && pwd)/$(basename "$program")
work=$(mktemp -d)
giver=
taker=
trap 'kill $giver $taker 2>/dev/null || true; rm -rf "$work"' EXIT
cd "$work" # the paths of the control sockets and of the stores are relative

# Runs both nodes until the taker's want is held.
run() {
    echo "run $1"
    # The taker begins first, so its first tries fail.
    "$program" serve "$here/taker.toml" &
    taker=$!
    sleep 0.5
    "$program" serve "$here/giver.toml" &
    giver=$!
    tries=0
    until "$program" status taker.sock 2>/dev/null | grep -q '^wants = .* held '; do
        tries=$((tries + 1))
        [ "$tries" -lt 100 ] || { echo "run.sh: the taker got nothing" >&2; exit 1; }
        sleep 0.1
    done
    for node in giver taker; do
        echo "$node:"
        "$program" status $node.sock
    done
    "$program" stop giver.sock >/dev/null
    "$program" stop taker.sock >/dev/null
    wait "$giver"
    wait "$taker"
    giver=
    taker=
    echo "the taker's store:"
    "$program" store "$here/taker.toml" | tee "$1"
}

for node in giver taker; do
    "$program" init "$here/$node.toml"
done
run first
run second
# Both halves of a /55.
grep -q '^held 20010db8000000000000000000000000/56 ' first
grep -q '^held 20010db8000000000000000000000000/55 ' second
