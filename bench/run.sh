#!/bin/sh
# Times `grasp_replay show` and `grasp_replay pack` beside C programs on libcbor that do the same.
#
#   bench/run.sh [BYTES [PROGRAM]]      by default 16000000, at most 16777216
#
# PROGRAM is by default crates/grasp_replay/out/grasp_replay, which `rt ci` leaves there. It needs a C compiler, python3 and
# libcbor (Debian: libcbor-dev). The files that it makes are in a folder of /tmp. It
# prints seconds of processor time in user mode, the best of five runs each: for `show` on a stream of so many bytes, and
# for `pack` on lines of at most as many, the two programs and their ratio; and each of the words on about a half and a
# quarter. Where valgrind is there, it then counts instructions: of `show` on 1,000,000 bytes, and of `pack` on the lines of
# 450,000.
set -eu
here=$(cd "$(dirname "$0")" && pwd)
bytes=${1:-16000000}
work=$(mktemp -d)
trap 'rm -rf "$work"' EXIT

program=${2:-$(cd "$here/.." && pwd)/crates/grasp_replay/out/grasp_replay}
if [ ! -x "$program" ]; then
    echo "run.sh: $program: it isn't there; run \`rt ci\` at the top of the repository, or name a program" >&2
    exit 1
fi
cc -O2 -o "$work/show_libcbor" "$here/show_libcbor.c" -lcbor
cc -O2 -o "$work/pack_libcbor" "$here/pack_libcbor.c" -lcbor
python3 "$here/make_messages.py" "$bytes" >"$work/stream"
head -c "$((bytes / 2))" "$work/stream" >"$work/half"
head -c "$((bytes / 4))" "$work/stream" >"$work/quarter"
python3 "$here/make_messages.py" "$((bytes * 9 / 20))" >"$work/packed"
"$program" show <"$work/packed" >"$work/lines"
count=$(wc -l <"$work/lines")
head -n "$((count / 2))" "$work/lines" >"$work/half_lines"
head -n "$((count / 4))" "$work/lines" >"$work/quarter_lines"

# The least user time of five calls of a program with this input and output. The status may be 1, as for a stream that
# was cut inside a message.
best() {
    python3 - "$@" <<'PYTHON'
import resource, subprocess, sys
best = None
for _ in range(5):
    before = resource.getrusage(resource.RUSAGE_CHILDREN).ru_utime
    with open(sys.argv[1], "rb") as data, open(sys.argv[2], "wb") as out:
        done = subprocess.run(sys.argv[3:], stdin=data, stdout=out, stderr=subprocess.DEVNULL)
    assert done.returncode in (0, 1), done.returncode
    spent = resource.getrusage(resource.RUSAGE_CHILDREN).ru_utime - before
    best = spent if best is None else min(best, spent)
print(f"{best:.3f}")
PYTHON
}

show_c=$(best "$work/stream" "$work/shown_c" "$work/show_libcbor")
show=$(best "$work/stream" "$work/shown" "$program" show)
show_half=$(best "$work/half" "$work/shown_half" "$program" show)
show_quarter=$(best "$work/quarter" "$work/shown_quarter" "$program" show)
pack_c=$(best "$work/lines" "$work/packed_c" "$work/pack_libcbor")
pack=$(best "$work/lines" "$work/packed_again" "$program" pack)
pack_half=$(best "$work/half_lines" "$work/packed_half" "$program" pack)
pack_quarter=$(best "$work/quarter_lines" "$work/packed_quarter" "$program" pack)
cmp "$work/shown" "$work/shown_c"
cmp "$work/packed" "$work/packed_c"
cmp "$work/packed" "$work/packed_again"
ratio() {
    python3 -c "print(f'{$1 / $2:.2f}')"
}
echo "show: the C program on $bytes bytes: $show_c s"
echo "show: grasp_replay on them: $show s, $(ratio "$show" "$show_c") times the C program"
echo "show: on a half and a quarter of them: $show_half s, $show_quarter s"
echo "pack: the C program on $(wc -c <"$work/lines") bytes of lines: $pack_c s"
echo "pack: grasp_replay on them: $pack s, $(ratio "$pack" "$pack_c") times the C program"
echo "pack: on a half and a quarter of the lines: $pack_half s, $pack_quarter s"

if ! command -v valgrind >/dev/null; then
    exit
fi
# The instructions that callgrind counts in a call of a program on this input.
counted() {
    valgrind --tool=callgrind --callgrind-out-file=/dev/null "$2" $3 <"$1" 2>&1 >/dev/null | sed -n 's/.*Collected : //p'
}
python3 "$here/make_messages.py" 1000000 >"$work/stream"
python3 "$here/make_messages.py" 450000 >"$work/packed"
"$program" show <"$work/packed" >"$work/lines"
show_c=$(counted "$work/stream" "$work/show_libcbor" "")
show=$(counted "$work/stream" "$program" show)
pack_c=$(counted "$work/lines" "$work/pack_libcbor" "")
pack=$(counted "$work/lines" "$program" pack)
echo "show: $show instructions, $(ratio "$show" "$show_c") times the $show_c of the C program"
echo "pack: $pack instructions, $(ratio "$pack" "$pack_c") times the $pack_c of the C program"
