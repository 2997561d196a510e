#!/usr/bin/env python3
"""Compares `pack` of two builds of grasp_replay on random lines.

usage: compare_packs.py PROGRAM OTHER [LINES [SEED]]

It goes on until LINES lines (100,000) were compared, from SEED (the time) on, and prints each file's seed where the two differ.
The lines are of messages of the five kinds of bench/make_messages.py, and half of them are changed: at random places, or to
what lies near a limit, as numbers, values so deep, lists so long and messages of about 2048 bytes. What the programs write, the
line on standard error and the status must be the same. Where a line is refused, the lines behind it are given to both anew. It
ends with status 1 where something differed.
"""
import pathlib
import random
import subprocess
import sys
import time

sys.path.insert(0, str(pathlib.Path(__file__).resolve().parent.parent / "bench"))
from make_messages import KINDS  # noqa: E402

NUMBERS = [0, 1, 15, 16, 23, 24, 255, 256, 65535, 65536, 2**32 - 1, 2**32, 2**64 - 1, 2**64, 10**30]
WORDS = ["-", "'", "'a", "'%41", "'%25", "'%20b", "'%ff", "'%C3%BC", "'%c3%bc", "none", "obj", "accept", "decline", "divert", "locators"]
WORDS += ["v4", "v6", "fqdn", "uri", "tcp", "udp", "x", "xf6", "xF6", "x1800", "x9fff", "x6162", "x62c328", "xff", "x80", "x8", "00", "7f000001"]
WORDS += ["noop", "wait", "end", "flood", "synch", "invalid", "discovery", "response", "request-neg", "request-syn", "negotiate"]


def call(program, data):
    done = subprocess.run([program, "pack"], input=data, capture_output=True, timeout=60)
    return done.returncode, done.stdout, done.stderr


def near_a_limit(draw, words):
    """The words, of which one is changed to what lies near a limit, or some are doubled."""
    place = draw.randrange(len(words))
    kind = draw.randrange(6)
    if kind == 0:
        numbers = [i for i, word in enumerate(words) if word.isdigit()] or [place]
        words[draw.choice(numbers)] = draw.choice(["", "", "0", "+"]) + str(draw.choice(NUMBERS))
    elif kind == 1:
        words[place] = draw.choice(WORDS)
    elif kind == 2:
        values = [i for i, word in enumerate(words) if word[:1] == "x"] or [place]
        words[draw.choice(values)] = "x" + "81" * draw.randrange(10, 17) + draw.choice(["00", "f6", "80", "a0", "1817", "1818", "4101", "7f"])
    elif kind == 3:
        texts = [i for i, word in enumerate(words) if word[:1] in ("'", "x")] or [place]
        at = draw.choice(texts)
        length = draw.choice([22, 23, 24, 25, 255, 256, draw.randrange(1950, 2060)])
        words[at] = "x59%04x" % length + "ab" * length if words[at][:1] == "x" else "'" + draw.choice(["a", "%20", "~"]) * length
    elif kind == 4:
        end = draw.randrange(place, len(words)) + 1
        words[end:end] = words[place:end] * draw.choice([1, 2, 13, 14, 15, 16, 17, 22])
    else:
        del words[place]
    return words


def changed(draw, line):
    """The line, changed at some places."""
    if line and draw.random() < 0.5:
        line = " ".join(near_a_limit(draw, line.split(" ")))
    octets = bytearray(line.encode())
    for _ in range(draw.choice([0, 0, 1, 1, 2])):
        place = draw.randrange(len(octets) + 1)
        kind = draw.randrange(5)
        if kind == 0:
            octets[place:place + 1] = bytes([draw.randrange(256)])
        elif kind == 1:
            octets[place:place + 1] = draw.choice("0123456789abcdefABCDEF%' -x").encode()
        elif kind == 2:
            del octets[place:place + draw.randrange(1, 4)]
        elif kind == 3:
            octets[place:place] = draw.choice([b" ", b"0", b"00", b"%41", b"%25", b"-", b"\r", b"\t", b"x", b"'"])
        else:
            octets[place:place + 1] = bytes(octets[place:place + 1]).upper()
    return bytes(octets)


def lines_of(draw, program, seed):
    """Lines of messages of one kind, of which half are changed."""
    messages = KINDS[draw.choice(sorted(KINDS))](seed)
    stream = b"".join(messages.message() for _ in range(draw.choice([1, 20, 100])))
    done = subprocess.run([program, "show"], input=stream, capture_output=True, timeout=60, check=True)
    return [changed(draw, line) if draw.random() < 0.5 else line.encode() for line in done.stdout.decode().splitlines()]


def compare(program, other, seed):
    """Compares the lines of one seed, and answers how many they are and how many were packed."""
    draw = random.Random(seed)
    lines = lines_of(draw, program, seed)
    data = b"\n".join(lines) + draw.choice([b"\n", b"\n", b"", b"\n\n"])
    packed = count = data.count(b"\n") + (data[-1:] != b"\n")
    while data:
        ours, others = call(program, data), call(other, data)
        assert ours == others, f"{ours[0]} {ours[2]} and {others[0]} {others[2]} for {data[:200]}"
        assert ours[0] in (0, 1), f"status {ours[0]}"
        if ours[0] == 0:
            break
        packed -= 1
        data = b"\n".join(data.split(b"\n")[int(ours[2].split(b" in line ")[1].split(b" ")[0].rstrip(b"\n:,")):])
    return count, packed


def main():
    if len(sys.argv) < 3 or sys.argv[1] in ("-h", "--help"):
        print(__doc__.strip(), file=sys.stdout if sys.argv[1:2] in (["-h"], ["--help"]) else sys.stderr)
        sys.exit(0 if sys.argv[1:2] in (["-h"], ["--help"]) else 2)
    program, other = sys.argv[1:3]
    wanted = int(sys.argv[3]) if len(sys.argv) > 3 else 100_000
    seed = int(sys.argv[4]) if len(sys.argv) > 4 else int(time.time())
    print(f"from seed {seed} on")
    done, packed, wrong = 0, 0, 0
    while done < wanted:
        try:
            count, good = compare(program, other, seed)
            done += count
            packed += good
        except AssertionError as error:
            wrong += 1
            print(f"seed {seed}: {error}")
        seed += 1
    print(f"{done} lines, {packed} of them packed, {wrong} files differ")
    sys.exit(1 if wrong else 0)


main()
