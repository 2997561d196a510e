#!/bin/sh
# Counts the instructions of `show` and `pack` on streams of five kinds, beside C programs on libcbor and C programs by hand.
#
#   bench/kinds.sh [BYTES [PROGRAM]]      by default 1000000
#
# PROGRAM is by default crates/grasp_replay/out/grasp_replay, which `rt ci` leaves there. It needs a C compiler, python3, libcbor
# (Debian: libcbor-dev) and valgrind. make_messages.py says what the kinds are. It prints a line for each word and kind: millions
# of instructions, as callgrind counts them, of the program, of the one on libcbor and of the one by hand, and the program's ratio to
# each. `show` gets so many bytes, `pack` what `show` wrote.
set -eu
here=$(cd "$(dirname "$0")" && pwd)
bytes=${1:-1000000}
program=${2:-$(cd "$here/.." && pwd)/crates/grasp_replay/out/grasp_replay}
work=$(mktemp -d)
trap 'rm -rf "$work"' EXIT
for word in show pack; do
    cc -O2 -o "$work/${word}_libcbor" "$here/${word}_libcbor.c" -lcbor
    cc -O2 -o "$work/${word}_by_hand" "$here/${word}_by_hand.c"
done

# The instructions of a program with this input, which writes this output.
counted() {
    input=$1 output=$2
    shift 2
    valgrind --tool=callgrind --callgrind-out-file=/dev/null "$@" 2>&1 <"$input" >"$output" | sed -n 's/.*Collected : //p'
}

count() {
    ours=$(counted "$3" "$4" "$program" "$1")
    tree=$(counted "$3" "$work/tree" "$work/$1_libcbor")
    hand=$(counted "$3" "$work/hand" "$work/$1_by_hand")
    cmp "$4" "$work/tree"
    cmp "$4" "$work/hand"
    python3 -c "print(f'$1 $2: {$ours / 1e6:.1f} {$tree / 1e6:.1f} {$hand / 1e6:.1f}, ratios {$ours / $tree:.3f} and {$ours / $hand:.2f}')"
}

for kind in mixed nested large short wide; do
    python3 "$here/make_messages.py" "$bytes" 1 "$kind" >"$work/stream"
    count show "$kind" "$work/stream" "$work/lines"
    count pack "$kind" "$work/lines" "$work/packed"
done
