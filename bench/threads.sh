#!/bin/sh
# Measures how many calls of one node several threads make in a second, by the program in bench/threads.
#
#   bench/threads.sh [FOLDER]
#
# It needs the Rattle kit's `rt` and python3. The program isn't proved: bench/build_unproved.py builds it, with the checks of
# `rt try`, in a copy of the crates in FOLDER, which stays, or in a folder of /tmp. The files in bench/threads end in .rt.in,
# since a .rt file may stand in a crate alone.
#
# It prints a line for each kind of call and each way of calling, by 1, 2, 4 and 8 threads at a time: millions of calls a
# second of all threads together, by the machine's clock, in the run that took the least of five; and nanoseconds of processor
# time a call. The ways are: through passes of `grasp_shared`; under a `Mutex`; and by one thread without sharing.
set -eu
here=$(cd "$(dirname "$0")" && pwd)
if [ $# -gt 0 ]; then
    mkdir -p "$1"
    work=$(cd "$1" && pwd)
else
    work=$(mktemp -d)
    trap 'rm -rf "$work"' EXIT
fi

for crate in "$here"/../crates/*/; do
    name=$(basename "$crate")
    mkdir -p "$work/crates/$name"
    for part in src specs proofs; do
        rm -rf "$work/crates/$name/$part"
        [ ! -d "$crate/$part" ] || cp -a "$crate/$part" "$work/crates/$name/$part"
    done
done
cp "$here/../HANDLES" "$work/HANDLES"
cp "$here/../crates.txt" "$work/crates.txt"
echo 'grasp_calling: grasp_shared grasp_core grasp_model_node grasp_cbor grasp_types grasp_io' >>"$work/crates.txt"
mkdir -p "$work/crates/grasp_calling/src"
for file in "$here"/threads/*.rt.in; do
    cp "$file" "$work/crates/grasp_calling/src/$(basename "$file" .in)"
done
python3 "$here/build_unproved.py" "$work/crates/grasp_calling" "$work/grasp_calling"

python3 "$here/time_calls.py" "$work/grasp_calling"
