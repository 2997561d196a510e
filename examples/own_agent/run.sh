#!/bin/sh
# Builds the program of this folder without a proof, where it isn't there yet or is older than one of the files here that end in .in,
# and runs it: a node with an agent of its own.
#
#   examples/own_agent/run.sh PROGRAM [FILE]      FILE by default node.toml beside it, a node on 127.0.0.1 that makes 3,000 turns
#   examples/own_agent/run.sh --check             builds nothing, and proves the program's contracts: `rt ci own_agent` in the copy
#
# It needs the Rattle kit that README.md names. To build PROGRAM takes some minutes. To check it takes some minutes where an earlier run
# on this machine proved the libraries below it, and else hours. Both are done in a copy of the crates: the files here end in .in, since
# .rt and .antt files may stand in a crate alone. Each .rt.in becomes a file of the program's src, and each .antt.in one of its
# specs. Where the program needs proofs of its own, these stand in a folder proofs here, their names with .in behind them, too. A copy
# of this folder works as well, where it stands in examples/.
set -eu
here=$(cd "$(dirname "$0")" && pwd)
top=$(cd "$here/../.." && pwd)
# The libraries that the files here use: a line as those of crates.txt.
crate='own_agent: grasp_agent grasp_cbor grasp_config grasp_core grasp_io grasp_node_main grasp_own_agents grasp_text grasp_types'

usage() {
    echo "usage: run.sh PROGRAM [FILE] | run.sh --check" >&2
    exit 2
}

fail() {
    echo "run.sh: $*" >&2
    exit 1
}

# Makes the crate in a copy of the others, in a folder that is removed at the end: $work.
make_crate() {
    [ -f "$top/crates.txt" ] || fail "$here: it has to stand in examples/ of the repository, beside its crates"
    command -v rt >/dev/null || fail "rt: it isn't on the path; this needs the Rattle kit that README.md names"
    work=$(mktemp -d)
    trap 'rm -rf "$work"' EXIT
    for folder in "$top"/crates/*/; do
        name=$(basename "$folder")
        mkdir -p "$work/crates/$name"
        for part in src specs proofs; do
            [ ! -d "$folder/$part" ] || cp -a "$folder/$part" "$work/crates/$name/$part"
        done
    done
    cp "$top/HANDLES" "$top/crates.txt" "$work"
    echo "$crate" >>"$work/crates.txt"
    own=$work/crates/own_agent
    mkdir -p "$own/src" "$own/specs"
    for part in "$here"/*.rt.in; do
        cp "$part" "$own/src/$(basename "$part" .in)"
    done
    for part in "$here"/*.antt.in; do
        cp "$part" "$own/specs/$(basename "$part" .in)"
        echo "pub mod $(basename "$part" .antt.in)" >>"$own/specs/Lib.antt"
    done
    [ ! -d "$here/proofs" ] || (cd "$here/proofs" && find . -name '*.antt.in') | while read -r part; do
        mkdir -p "$own/proofs/$(dirname "$part")"
        cp "$here/proofs/$part" "$own/proofs/${part%.in}"
    done
}

[ $# -ge 1 ] || usage
if [ "$1" = --check ]; then
    [ $# -eq 1 ] || usage
    make_crate
    echo 1 >"$own/status" # the gate runs the program without words, so it says how it is to be called, and ends with 1
    echo "run.sh: proves the program, and of the libraries below it those that no earlier run on this machine proved" >&2
    cd "$work"
    rt ci own_agent
    exit
fi
case $1 in -*) usage ;; esac
program=$(readlink -m "$1")
file=$(readlink -m "${2:-$here/node.toml}")

stale=
[ -x "$program" ] || stale=yes
for part in "$here"/*.in; do
    [ ! "$part" -nt "$program" ] || stale=yes
done
if [ -n "$stale" ]; then
    echo "run.sh: builds $program, which takes some minutes" >&2
    make_crate
    python3 "$top/bench/build_unproved.py" "$own" "$program"
    touch -r "$own/src/main.rt" "$program" # a file that is changed during the build is newer than it
    rm -rf "$work"
fi
echo "run.sh: runs $program" >&2
"$program" "$file"
