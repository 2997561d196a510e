#!/usr/bin/env python3
"""Times nodes that serve on loopback, with a store and without: `time_stores.py PROGRAM [FOLDER]`.

PROGRAM is grasp_node. The stores lie in FOLDER, or where the machine keeps what is temporary. It prints what the writes and syncs
of one save take there, made by this program; the seconds from a node's start until a running one has delegated a prefix to it; and how
many negotiations a second a node serves that 1, 4 and 16 others ask, each for 60 prefixes of 64 bits, one after the other. Each of
these is measured where no node has a store, where the giver alone has one, and where all have.
"""
import os
import pathlib
import statistics
import subprocess
import sys
import tempfile
import threading
import time

PORT = 7087
NODE = """address = "fd0000000000000000000000000000{number:02x}"
listen = "7f0000{number:02x}:{port}"
{more}
[serve]
control = "{number}.sock"
{keeps}
tick = 100
retry = 100
"""
ROOTS = 'roots = ["20010db8000000000000000000000000/48"]\n'
WANT = f'[[want]]\nlength = 64\nlongest = 64\npeer = "7f000001:{PORT}"\n'
BLOCK = 4096


class Node:
    """A running node, which ends with the block. Its store is made anew."""

    def __init__(self, number, more, is_kept):
        self.number = number
        store = pathlib.Path(f"{number}.pool")
        store.unlink(missing_ok=True)
        keeps = f'store = "{store}"' if is_kept else "forget = true"
        pathlib.Path(f"{number}.toml").write_text(NODE.format(number=number, port=PORT, more=more, keeps=keeps))
        if is_kept:
            subprocess.run([PROGRAM, "init", f"{number}.toml"], check=True)

    def __enter__(self):
        self.start = time.monotonic()
        self.child = subprocess.Popen([PROGRAM, "serve", f"{self.number}.toml"], stderr=subprocess.PIPE)
        return self

    def __exit__(self, *_):
        self.child.kill()
        self.child.communicate()

    def gains(self, count):
        """The moments at which it told so many prefixes that it gained."""
        found = []
        for line in self.child.stderr:
            if b" gained " in line:
                found.append(time.monotonic())
                if len(found) == count:
                    return found
        sys.exit(f"node {self.number} gained only {len(found)} of {count}")


def drain(node):
    """Reads what it logs, so that nothing of it is left out."""
    thread = threading.Thread(target=node.child.stderr.read, daemon=True)
    thread.start()


def tell_saves():
    """The calls of one save: a gate is closed, 200 bytes are written behind it, and it is opened, each with a sync."""
    descriptor = os.open("raw", os.O_RDWR | os.O_CREAT)
    os.pwrite(descriptor, bytes(38 * BLOCK), 0)
    os.fsync(descriptor)
    spans = []
    for _ in range(100):
        begin = time.monotonic()
        for at, size in ((0, 8), (BLOCK, 200), (0, 8)):
            os.pwrite(descriptor, os.urandom(size), at)
            os.fdatasync(descriptor)
        spans.append(time.monotonic() - begin)
    os.close(descriptor)
    spans.sort()
    least, middle, most = spans[0], spans[50], spans[95]
    print(f"seconds that the calls of a save take: {least:.4f} at least, {middle:.4f} in the middle, {most:.4f} for all but five of a hundred")


def tell_first(kind, giver_keeps, taker_keeps):
    spans = []
    for _ in range(15):
        with Node(1, ROOTS, giver_keeps) as giver:
            drain(giver)
            time.sleep(0.3)
            with Node(2, WANT, taker_keeps) as taker:
                spans.append(taker.gains(1)[0] - taker.start)
    print(f"{kind}: seconds to a delegated prefix: {min(spans):.3f} at least, {statistics.median(spans):.3f} in the middle", flush=True)


def tell_many(kind, giver_keeps, taker_keeps, count, wants=60):
    with Node(1, ROOTS, giver_keeps) as giver:
        drain(giver)
        nodes = [Node(2 + place, WANT * wants, taker_keeps) for place in range(count)]
        found = [None] * count

        def ask(place):
            with nodes[place] as node:
                found[place] = node.gains(wants)

        askers = [threading.Thread(target=ask, args=(place,)) for place in range(count)]
        for asker in askers:
            asker.start()
        for asker in askers:
            asker.join()
    moments = sorted(moment for each in found for moment in each)
    rate = (len(moments) - 1) / (moments[-1] - moments[0])
    print(f"{kind}: negotiations a second, of {count} at a time: {rate:.0f}", flush=True)


WORDS = sys.argv[1:]
if WORDS in (["-h"], ["--help"]):
    sys.exit(print(__doc__.strip()))
if not 1 <= len(WORDS) <= 2 or WORDS[0].startswith("-"):
    sys.exit(__doc__.strip())
PROGRAM = str(pathlib.Path(WORDS[0]).resolve())
KINDS = (("no store", False, False), ("the giver's store", True, False), ("all have stores", True, True))
with tempfile.TemporaryDirectory(dir=WORDS[1] if len(WORDS) > 1 else None) as work:
    os.chdir(work)
    tell_saves()
    for words in KINDS:
        tell_first(*words)
    for words in KINDS:
        for asking in (1, 4, 16):
            tell_many(*words, asking)
