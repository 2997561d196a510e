#!/usr/bin/env python3
"""Feeds random and mutated streams of GRASP messages to `grasp_replay show` and `pack`.

usage: fuzz_streams.py PROGRAM [MESSAGES [SEED]]

It goes on until the streams had MESSAGES messages (1,000,000), from SEED (the time) on, and prints each stream's seed
where something is wrong. It checks that the messages show the same lines in longer encodings and with indefinite
lengths, and are packed from them as they were; that the program ends with a status of its own and one line on standard
error; that the lines of what it shows of a spoilt stream are packed to a stream that shows the same lines; and that this
stream, cut at some place, shows the first of these lines.
"""
import pathlib
import random
import subprocess
import sys
import time

sys.path.insert(0, str(pathlib.Path(__file__).resolve().parent.parent / "bench"))
from make_messages import Messages  # noqa: E402

FINDINGS = [
    b"malformed at ", b"not text at ", b"too deep at ", b"too long at ", b"not a message at ",
    b"truncated at ", b"bad text in line ", b"too long in line ",
]


def call(program, word, data):
    done = subprocess.run([program, word], input=data, capture_output=True, timeout=60)
    return done.returncode, done.stdout, done.stderr


def mutated(draw, stream):
    octets = bytearray(stream)
    for _ in range(draw.choice([0, 0, 1, 1, 2, 5])):
        if not octets:
            break
        place = draw.randrange(len(octets))
        kind = draw.randrange(4)
        if kind == 0:
            octets[place] = draw.randrange(256)
        elif kind == 1:
            octets[place] ^= 1 << draw.randrange(8)
        elif kind == 2:
            del octets[place:place + draw.randrange(1, 9)]
        else:
            octets[place:place] = draw.randbytes(draw.randrange(1, 9))
    return bytes(octets)


def head(draw, major, number):
    """A head of some width that has room for the number."""
    widths = [w for w in (0, 1, 2, 4, 8) if number < (24 if w == 0 else 1 << 8 * w)]
    width = draw.choice(widths[:2] if draw.random() < 0.9 else widths)
    if width == 0:
        return bytes([major << 5 | number])
    return bytes([major << 5 | 23 + width.bit_length()]) + number.to_bytes(width, "big")


def loosened(draw, octets, at=0):
    """Another encoding of the item that stands at this place, and the place behind it."""
    start, major, detail = at, octets[at] >> 5, octets[at] & 31
    width = 0 if detail < 24 else 1 << detail - 24
    number = int.from_bytes(octets[at + 1:at + 1 + width], "big") if width else detail
    at += 1 + width
    is_open = draw.random() < 0.3
    if major in (2, 3):
        inside = octets[at:at + number]
        middle = draw.randrange(number + 1)
        while major == 3 and middle < number and inside[middle] & 0xC0 == 0x80:
            middle += 1
        chunks = [inside[:middle], inside[middle:]] if is_open else [inside]
        out = b"".join(head(draw, major, len(chunk)) + chunk for chunk in chunks)
        at += number
    elif major in (4, 5, 6):
        out = b"" if is_open and major != 6 else head(draw, major, number)
        for _ in range({4: number, 5: 2 * number, 6: 1}[major]):
            part, at = loosened(draw, octets, at)
            out += part
    else:
        return (octets[start:at] if major == 7 else head(draw, major, number)), at
    return (bytes([major << 5 | 31]) + out + b"\xff" if is_open and major != 6 else out), at


def check(program, seed):
    """Checks one stream, and answers how many messages it had."""
    draw = random.Random(seed)
    messages = Messages(seed)
    count = draw.choice([1, 10, 1000, 20000])
    shortest = [messages.message() for _ in range(count)]
    loose = b"".join(loosened(draw, message)[0] for message in shortest)
    status, lines, errors = call(program, "show", loose)
    assert (status, errors) == (0, b""), f"longer encodings: {errors}"
    assert call(program, "pack", lines) == (0, b"".join(shortest), b""), "lines of longer encodings are packed otherwise"
    stream = mutated(draw, loose if draw.random() < 0.5 else b"".join(shortest))
    if draw.random() < 0.02:
        stream = draw.randbytes(draw.randrange(5000))
    status, lines, errors = call(program, "show", stream)
    assert status in (0, 1), f"status {status}"
    if status == 0:
        assert errors == b"", "a line on standard error with status 0"
    else:
        assert errors.count(b"\n") == 1 and any(errors.startswith(f) for f in FINDINGS), errors
    packed_status, packed, _ = call(program, "pack", lines)
    assert packed_status == 0, f"pack ends with {packed_status}"
    again_status, again, _ = call(program, "show", packed)
    assert again_status == 0 and again == lines, "packed lines show other lines"
    cut = draw.randrange(len(stream) + 1)
    _, front, _ = call(program, "show", stream[:cut])
    assert lines.startswith(front), "a stream that was cut shows other lines"
    text = mutated(draw, lines[:2000])
    text_status, _, text_errors = call(program, "pack", text)
    assert text_status in (0, 1) and (text_status == 1) == (text_errors != b""), "pack of mutated lines"
    return count


def main():
    if not sys.argv[1:] or sys.argv[1] in ("-h", "--help"):
        print(__doc__.strip(), file=sys.stdout if sys.argv[1:] else sys.stderr)
        sys.exit(0 if sys.argv[1:] else 2)
    program = sys.argv[1]
    wanted = int(sys.argv[2]) if len(sys.argv) > 2 else 1_000_000
    seed = int(sys.argv[3]) if len(sys.argv) > 3 else int(time.time())
    print(f"from seed {seed} on")
    done, wrong = 0, 0
    while done < wanted:
        try:
            done += check(program, seed)
        except AssertionError as error:
            wrong += 1
            print(f"seed {seed}: {error}")
        seed += 1
    print(f"{done} messages, {wrong} streams wrong")
    sys.exit(1 if wrong else 0)


main()
