#!/usr/bin/env python3
"""Records scripts by the built program and audits the records, whole and with one byte changed.

usage: record_audit.py PROGRAM [SCRIPTS [SEED]]      by default 20 scripts and a seed of the clock's

For each number of a script: the script that `draw` writes is recorded, and so is a random one as fuzz_scripts.py makes them. `audit` says
of each record that it is safe, with its nodes and all its lines, and writes that on standard output with status 0 and nothing else.

Then one byte of the record of a script's first lines is changed, many times. The audit has status 0 or 1. A line that it names isn't
before the changed one, and what it says is one of the four causes. Where the byte is of an answer, of the blanks around ` = ` or of a
line's end, the record is never safe. A record that is safe with another node, reading or input is that of another run: an agent may
have another name, a drain another count, a clock may be later. How often that comes is told, by the part that was changed. The seed is printed.
"""
import pathlib
import random
import re
import subprocess
import sys
import time

sys.dont_write_bytecode = True
HERE = pathlib.Path(__file__).resolve().parent
sys.path.insert(0, str(HERE))
import fuzz_scripts  # noqa: E402

CAUSES = ["not a record", "not sent", "not the agent's call", "not the step"]
NAMED = re.compile(r"^(not a record|not sent|not the agent's call|not the step) in line ([0-9]+)\n$")
CHANGES = 200


def run(program, words, stream=b""):
    return subprocess.run([program, *words], input=stream, capture_output=True)


def wrong(what, record=None):
    if record is not None:
        pathlib.Path("/tmp/record_audit.failing").write_bytes(record)
        what += "; the record is in /tmp/record_audit.failing"
    sys.exit("record_audit.py: " + what)


def recorded(program, script, name):
    """The record of a script's run."""
    said = run(program, ["record"], script)
    if said.returncode != 0 or said.stderr:
        wrong(f"record of {name}: status {said.returncode}, {said.stderr!r}", script)
    return said.stdout


def audit_whole(program, record, name):
    """A record as it was written is safe."""
    said = run(program, ["audit"], record)
    nodes = int(record.split(b"\n", 1)[0].split()[1])
    lines = record.count(b"\n")
    want = f"safe nodes {nodes} lines {lines}\n".encode()
    if (said.returncode, said.stdout, said.stderr) != (0, want, b""):
        wrong(f"audit of {name}: status {said.returncode}, {said.stdout!r}, {said.stderr!r}, wanted {want!r}", record)
    return lines


def part_of(record, place):
    """The number of the line in which a byte stands, and which part of it that is."""
    begin = record.rfind(b"\n", 0, place) + 1
    end = record.find(b"\n", place)
    number = record.count(b"\n", 0, place) + 1
    line = record[begin:end]
    if place == end:
        return number, "end"
    if b" = " not in line:
        return number, "header"
    at, equals = place - begin, line.index(b" = ")
    first, second = line.index(b" "), line.index(b" ", line.index(b" ") + 1)
    if at < first:
        return number, "node"
    if first < at < second:
        return number, "reading"
    if at < equals and at not in (first, second):
        return number, "input"
    return number, "answer" if at >= equals + 3 else "blank"


def change(rng, record):
    """The record with another byte at a random place, which is told."""
    lines = record.split(b"\n")[:-1]
    number = rng.randrange(len(lines))
    place = sum(len(it) + 1 for it in lines[:number]) + rng.randrange(len(lines[number]) + 1)
    old = record[place]
    digits = b"0123456789" if rng.randrange(2) else b"0123456789abcdef"
    letters = digits if old in digits and rng.randrange(8) else b"0123456789abcdef x=-'\n\x00\xc3"
    new = rng.choice([it for it in letters if it != old])
    return place, record[:place] + bytes([new]) + record[place + 1:]


def spoil(program, rng, record, name, counts):
    """The record with one byte changed, audited."""
    place, other = change(rng, record)
    number, part = part_of(record, place)
    said = run(program, ["audit"], other)
    where = f"{name}, with the byte at {place} changed, which is in the {part} of line {number}"
    if said.returncode == 0:
        counts["safe", part] = counts.get(("safe", part), 0) + 1
        if part in ("answer", "blank", "end"):
            wrong(f"{where}: it is safe", other)
        if not re.fullmatch(rb"safe nodes [0-9]+ lines [0-9]+\n", said.stdout) or said.stderr:
            wrong(f"{where}: {said.stdout!r}, {said.stderr!r}", other)
        return
    named = NAMED.match(said.stderr.decode("utf-8", "replace"))
    if said.returncode != 1 or not named or said.stdout:
        wrong(f"{where}: status {said.returncode}, {said.stdout!r}, {said.stderr!r}", other)
    if int(named[2]) < number:
        wrong(f"{where}: {said.stderr!r} names a line before it", other)
    counts[named[1], part] = counts.get((named[1], part), 0) + 1


def random_script(rng):
    """A script of many kinds of lines."""
    head, lines, _ = fuzz_scripts.script(rng)
    return "".join(it + "\n" for it in head + lines).encode()


def main():
    if sys.argv[1:] in (["-h"], ["--help"]):
        sys.exit(print(__doc__.strip()))
    if not 2 <= len(sys.argv) <= 4:
        sys.exit("usage: record_audit.py PROGRAM [SCRIPTS [SEED]]")
    program = sys.argv[1]
    scripts = int(sys.argv[2]) if len(sys.argv) > 2 else 20
    seed = int(sys.argv[3]) if len(sys.argv) > 3 else time.time_ns()
    print(f"seed {seed}", flush=True)
    rng = random.Random(seed)
    lines, counts = 0, {}
    for number in range(scripts):
        drawn_number = rng.randrange(2 ** 64)
        drawn = run(program, ["draw", str(drawn_number)]).stdout
        lines += audit_whole(program, recorded(program, drawn, f"draw {drawn_number}"), f"draw {drawn_number}")
        some = random_script(rng)
        short = [(b"".join(drawn.splitlines(keepends=True)[:300]), f"the first lines of draw {drawn_number}"), (some, f"the random script {number}")]
        for script, name in short:
            record = recorded(program, script, name)
            lines += audit_whole(program, record, name)
            for _ in range(CHANGES):
                spoil(program, rng, record, name, counts)
    print(f"{3 * scripts} records of {lines} lines are safe; {2 * scripts * CHANGES} were audited with one byte changed:")
    for cause in [*CAUSES, "safe"]:
        parts = {part: count for (what, part), count in sorted(counts.items()) if what == cause}
        told = ", ".join(f"{part} {count}" for part, count in parts.items())
        print(f"  {cause}: {sum(parts.values())}" + (f" ({told})" if told else ""))


if __name__ == "__main__":
    main()
