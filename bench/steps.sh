#!/bin/sh
# Measures what a step of a node costs: two nodes in memory negotiate with each other, by the program in bench/steps.
#
#   bench/steps.sh [FOLDER]
#
# It needs the Rattle kit's `rt` and python3, and for counts of instructions valgrind. The program is proved and built in a
# copy of the crates, with what `rt` built of them, in FOLDER, which stays, or in a folder of /tmp; where the libraries of
# this checkout aren't built that takes as long as they take. The files in bench/steps end in .rt.in, since a .rt file may
# stand in a crate alone.
#
# It prints a line for each plan: nanoseconds of processor time (user and system) a step, of the whole run that took the
# least of five, and in it of its first and last tenth; then those of single turns of long negotiations, the least of five
# runs each; and instructions a step, early and late in a run, as callgrind counts them. All of them are of the whole
# program: a step with what makes its input and drops its answer.
set -eu
here=$(cd "$(dirname "$0")" && pwd)
if [ $# -gt 0 ]; then
    mkdir -p "$1"
    work=$(cd "$1" && pwd)
else
    work=$(mktemp -d)
    trap 'rm -rf "$work"' EXIT
fi

for crate in "$here"/../crates/*/; do
    name=$(basename "$crate")
    mkdir -p "$work/crates/$name"
    for part in src specs proofs; do
        rm -rf "$work/crates/$name/$part"
        [ ! -d "$crate/$part" ] || cp -a "$crate/$part" "$work/crates/$name/$part"
    done
    if [ -d "$crate/out/rlib" ] && [ ! -d "$work/crates/$name/out/rlib" ]; then
        mkdir -p "$work/crates/$name/out"
        cp -a "$crate/out/rlib" "$work/crates/$name/out/rlib"
    fi
done
cp "$here/../HANDLES" "$work/HANDLES"
cp "$here/../crates.txt" "$work/crates.txt"
echo 'grasp_measure: grasp_core grasp_model_node grasp_cbor grasp_types grasp_wire grasp_io' >>"$work/crates.txt"
mkdir -p "$work/crates/grasp_measure/src"
for file in "$here"/steps/*.rt.in; do
    cp "$file" "$work/crates/grasp_measure/src/$(basename "$file" .in)"
done
(cd "$work/crates/grasp_measure" && echo 'talk 1 16 0 100 0 empty' | rt run >/dev/null)

python3 "$here/time_steps.py" "$work/crates/grasp_measure/out/grasp_measure"
