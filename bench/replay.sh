#!/bin/sh
# Times `grasp_replay gen`, `grasp_replay replay`, `grasp_replay record` and `grasp_replay audit`.
#
#   bench/replay.sh [PROGRAM]      by default crates/grasp_replay/out/grasp_replay, which `rt ci` leaves there
#
# It needs python3. The files that it makes are in a folder of /tmp. It prints seconds of processor
# time, the best of five runs each: for the 20,000 events of `gen 7`, for `replay` and `record` of scripts of 50,000, 100,000 and
# 200,000 lines, which are made by the rule of the drawn ones, and for `audit` of their records. The last record is too large for that.
set -eu
here=$(cd "$(dirname "$0")" && pwd)
work=$(mktemp -d)
trap 'rm -rf "$work"' EXIT

program=${1:-$(cd "$here/.." && pwd)/crates/grasp_replay/out/grasp_replay}
if [ ! -x "$program" ]; then
    echo "replay.sh: $program: it isn't there; run \`rt ci\` at the top of the repository, or name a program" >&2
    exit 1
fi

# A script of so many rounds, of 25 lines each.
script() {
    PYTHONPATH=$here/../fuzz python3 -B -c '
import sys
from fuzz_scripts import drawn
head, lines = drawn(7, int(sys.argv[1]))
print("\n".join(head + lines))' "$1" >"$2"
}

# The least processor time of five calls of a program with this input.
best() {
    python3 - "$@" <<'PYTHON'
import resource, subprocess, sys
best = None
for _ in range(5):
    before = resource.getrusage(resource.RUSAGE_CHILDREN)
    with open(sys.argv[1], "rb") as data:
        done = subprocess.run(sys.argv[2:], stdin=data, stdout=subprocess.DEVNULL)
    after = resource.getrusage(resource.RUSAGE_CHILDREN)
    assert done.returncode == 0, done.returncode
    spent = after.ru_utime + after.ru_stime - before.ru_utime - before.ru_stime
    best = spent if best is None else min(best, spent)
print(f"{best:.3f}")
PYTHON
}

echo "gen 7: $(best /dev/null "$program" gen 7) s"
for rounds in 1999 3999 7999; do
    script "$rounds" "$work/script"
    echo "replay of $(wc -l <"$work/script") lines: $(best "$work/script" "$program" replay) s"
    echo "record of them: $(best "$work/script" "$program" record) s"
    "$program" record <"$work/script" >"$work/record"
    if [ "$(wc -c <"$work/record")" -le 16777216 ]; then
        echo "audit of the record, $(wc -l <"$work/record") lines: $(best "$work/record" "$program" audit) s"
    else
        echo "the record has $(wc -c <"$work/record") bytes"
    fi
done
