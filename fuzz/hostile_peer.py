#!/usr/bin/env python3
"""Runs a node on 127.0.0.1, and is its hostile neighbour on 127.0.0.2.

usage: hostile_peer.py PROGRAM [SECONDS [SEED]]

PROGRAM is grasp_node. For SECONDS (60) the peer sends what the draws from SEED (the time) say: random bytes and messages,
whole, spoilt and half, as datagrams and on up to 100 streams, which it ends, resets or leaves as they are; requests for
prefixes that it never accepts; returns, of prefixes inside 2001:dba::/32, of such inside or around the node's roots, and bad
ones; and it reads little of what comes. The node has 2500 turns for each of these seconds, up to 1,000,000, and is sent at
most six tenths as many things in them; then it is flooded until it has made all its turns.

It prints the node's resident memory (VmRSS) at the beginning and the end, and the most, what was sent, and how many prefixes
the node has at its end. It ends with 1 where the node doesn't end by itself, after SECONDS, with status 0 and an empty
standard error; where the prefixes that it holds, has reserved and has in doubt overlap, or those outside 2001:dba::/32
aren't exactly its roots; or where its memory grew by more than 64 megabytes.
"""
import collections
import os
import pathlib
import random
import re
import socket
import struct
import subprocess
import sys
import tempfile
import threading
import time

sys.path.insert(0, str(pathlib.Path(__file__).resolve().parent.parent / "bench"))
from make_messages import Messages, array, data, head, text, uint  # noqa: E402

NODE, PEER, PORT = "127.0.0.1", "127.0.0.2", 7017
TURNS_A_SECOND, MOST_TURNS = 2500, 1_000_000
ROOTS = [(0x20010DB8 << 96, 48), (0x20010DB9 << 96, 56)]
# Of what the peer returns the node may take what is inside this, and nothing else.
GIVEN = (0x20010DBA << 96, 32)
MOST_STREAMS = 100
MOST_GROWTH_KB = 64 * 1024
# How long the flood behind SECONDS may last.
PATIENCE = 600


def turns_in(seconds):
    """How many turns the node makes."""
    return min(MOST_TURNS, int(TURNS_A_SECOND * seconds))


def configuration(turns):
    return f"""address = "fd000000000000000000000000000001"
listen = "7f000001:{PORT}"
turns = {turns}
wait = 10
roots = [{", ".join(f'"{address:032x}/{length}"' for address, length in ROOTS)}]

[[link]]
neighbour = [{{ address = "fd000000000000000000000000000002", at = "7f000002:{PORT}" }}]

[[beacon]]
name = "temperature"
value = "x07"
ttl = 60000
loops = 5

[[reader]]
name = "ex1"
"""


class Peer:
    """A peer that keeps to nothing."""

    def __init__(self, seed):
        self.draw = random.Random(seed)
        self.messages = Messages(seed)
        self.streams = []
        self.sent = collections.Counter()
        self.datagrams = socket.socket(socket.AF_INET, socket.SOCK_DGRAM)
        self.datagrams.bind((PEER, PORT))
        self.datagrams.setblocking(False)

    def spoilt(self, octets):
        octets = bytearray(octets)
        for _ in range(self.draw.choice([1, 1, 2, 5])):
            place = self.draw.randrange(len(octets) + 1)
            kind = self.draw.randrange(3)
            if kind == 0:
                octets[place:place + 1] = self.draw.randbytes(1)
            elif kind == 1:
                del octets[place:place + self.draw.randrange(1, 9)]
            else:
                octets[place:place] = self.draw.randbytes(self.draw.randrange(1, 9))
        return bytes(octets)

    def bomb(self):
        """Heads that promise much: long texts, wide arrays, deep nests."""
        promised = self.draw.choice([2**16, 2**32 - 1, 2**63, 2**64 - 1])
        return self.draw.choice([
            head(self.draw.randrange(2, 6), promised),
            b"\x81" * self.draw.randrange(1, 4000),
            b"\x9f" * self.draw.randrange(1, 4000),
            array(uint(9), uint(self.draw.getrandbits(32))) + b"\x5f" * 100,
        ])

    def wanted(self):
        """A value that asks for a prefix."""
        return array(uint(self.draw.choice([50, 56, 64, 64, 64, 127, 128, 129])))

    def returned(self):
        """A value that returns a prefix: inside GIVEN, or inside or around a root; or one that returns none."""
        address, fixed = self.draw.choice([GIVEN, GIVEN, GIVEN, *ROOTS])
        length = self.draw.choice([36, 48, 48, 56, 64, 100, 128])
        # Only bits below what it is inside of are drawn: beside a root the node would rightly take it.
        address |= self.draw.getrandbits(max(0, length - fixed)) << 128 - length
        if self.draw.randrange(8) == 0:
            address, length = self.draw.getrandbits(128), self.draw.choice([0, 32, 129, 2**40])
        mark = self.draw.choice([b"\xf5"] * 6 + [b"\xf4", b"\x15", array()])
        return array(uint(length), data(address.to_bytes(16, "big")), mark)

    def request(self, value):
        """A request of PrefixManager, as the agents of prefixes make it."""
        objective = array(text("PrefixManager"), uint(3), uint(self.draw.choice([0, 1, 6, 255])), value)
        return array(uint(3), uint(self.draw.getrandbits(32)), objective)

    def drawn(self):
        """What is sent at once, with its kind."""
        kinds = ["random", "message", "message", "spoilt", "spoilt", "half", "bomb", "request", "return"]
        kind = self.draw.choice(kinds)
        if kind == "random":
            return kind, self.draw.randbytes(self.draw.choice([1, 10, 100, 1000, 9000]))
        if kind == "bomb":
            return kind, self.bomb()
        if kind == "request":
            return kind, self.request(self.wanted())
        if kind == "return":
            return kind, self.request(self.returned())
        octets = self.messages.message()
        if kind == "spoilt":
            return kind, self.spoilt(octets)
        if kind == "half":
            return kind, octets[:self.draw.randrange(1, len(octets) + 1)]
        return kind, octets

    def tell(self):
        """A datagram."""
        kind, octets = self.drawn()
        if self.draw.random() < 0.01:
            kind, octets = "long", self.draw.randbytes(65507)
        try:
            self.datagrams.sendto(octets, (NODE, PORT))
            self.sent[f"{kind} datagrams"] += 1
        except (BlockingIOError, ConnectionError):
            pass

    def open(self):
        stream = socket.socket(socket.AF_INET, socket.SOCK_STREAM)
        stream.bind((PEER, 0))
        stream.setblocking(False)
        stream.connect_ex((NODE, PORT))
        self.streams.append(stream)
        self.sent["openings"] += 1

    def end(self, stream):
        """Ends a stream: a closing, a reset, or the end of one direction with the stream left as it is."""
        how = self.draw.randrange(3)
        try:
            if how == 0:
                stream.setsockopt(socket.SOL_SOCKET, socket.SO_LINGER, struct.pack("ii", 1, 0))
                self.sent["resets"] += 1
            elif how == 1:
                stream.shutdown(socket.SHUT_WR)
                self.sent["half closings"] += 1
                return
            else:
                self.sent["closings"] += 1
        except OSError:
            pass
        self.drop(stream)

    def drop(self, stream):
        self.streams.remove(stream)
        stream.close()

    def say(self, stream):
        """Bytes on a stream."""
        kind, octets = self.drawn()
        try:
            stream.send(octets)
            self.sent[f"{kind} pieces"] += 1
            if self.draw.random() < 0.3:
                stream.recv(self.draw.choice([1, 100, 65536]))
        except BlockingIOError:
            pass
        except OSError:
            self.drop(stream)

    def act(self):
        """Sends one thing."""
        kind = self.draw.random()
        if not self.streams or kind < 0.05 and len(self.streams) < MOST_STREAMS:
            self.open()
        elif kind < 0.4:
            self.tell()
        elif kind < 0.43:
            self.end(self.draw.choice(self.streams))
        elif kind < 0.431:
            self.refresh()
        else:
            self.say(self.draw.choice(self.streams))

    def refresh(self):
        """Resets all streams, and opens as many as it may."""
        for stream in list(self.streams):
            self.drop(stream)
        for _ in range(MOST_STREAMS):
            self.open()


class Watched:
    """A running node, whose memory is looked at all the time."""

    def __init__(self, program, file):
        self.child = subprocess.Popen([program, "run", file], stdout=subprocess.PIPE, stderr=subprocess.PIPE)
        self.found = []
        self.watcher = threading.Thread(target=self.watch, daemon=True)

    def watch(self):
        while self.child.poll() is None:
            memory = self.memory()
            if memory is not None:
                self.found.append(memory)
            time.sleep(0.05)

    def memory(self):
        """VmRSS, in kilobytes."""
        try:
            status = pathlib.Path(f"/proc/{self.child.pid}/status").read_text()
        except OSError:
            return None
        found = re.search(r"VmRSS:\s*(\d+) kB", status)
        return int(found[1]) if found else None

    def runs(self):
        return self.child.poll() is None


def spread(address, length):
    """The first and the last address of a prefix."""
    return address, address + (1 << 128 - length) - 1


def pieces_of(words):
    """Prefixes as pairs of the first and the last address."""
    return sorted(spread(int(address, 16), int(length)) for address, length in (word.split("/") for word in words))


def joined(pieces):
    """The pieces that lie side by side put together, or None where two overlap."""
    out = []
    for first, last in pieces:
        if out and first <= out[-1][1]:
            return None
        if out and first == out[-1][1] + 1:
            out[-1] = (out[-1][0], last)
        else:
            out.append((first, last))
    return out


def wrong_prefixes(output):
    """What is wrong with the prefixes that the node tells at its end, or None."""
    line = output.decode().split("\n")[0]
    found = re.fullmatch(r"prefixes held( .*)? reserved( .*)? doubt( .*)?", line)
    if not found:
        return f"no line of prefixes: {line!r}"
    told = [(part or "").split() for part in found.groups()]
    pieces = pieces_of(word for part in told for word in part)
    first, last = spread(*GIVEN)
    own = [piece for piece in pieces if piece[0] < first or last < piece[1]]
    counts = ", ".join(f"{len(part)} {name}" for part, name in zip(told, ["held", "reserved", "in doubt"]))
    print(f"prefixes: {counts}; {len(pieces) - len(own)} of these inside what was returned")
    if joined(pieces) is None:
        return "prefixes overlap"
    if joined(own) != sorted(spread(*root) for root in ROOTS):
        return "the prefixes that weren't returned aren't exactly the roots"
    return None


def attack(peer, node, seconds):
    """Sends things for so many seconds, and then until the node has ended."""
    start = time.monotonic()
    most = 0.6 * turns_in(seconds) / seconds
    acts = 0
    while node.runs():
        now = time.monotonic() - start
        if now > seconds + PATIENCE:
            return
        if now < seconds and acts > most * now:
            time.sleep(0.001)
            continue
        peer.act()
        acts += 1


def main():
    if not sys.argv[1:] or sys.argv[1] in ("-h", "--help"):
        print(__doc__.strip(), file=sys.stdout if sys.argv[1:] else sys.stderr)
        sys.exit(0 if sys.argv[1:] else 2)
    program = sys.argv[1]
    seconds = float(sys.argv[2]) if len(sys.argv) > 2 else 60
    seed = int(sys.argv[3]) if len(sys.argv) > 3 else int(time.time())
    print(f"seed {seed}", flush=True)
    wrong = []
    peer = Peer(seed)
    with tempfile.TemporaryDirectory() as work:
        file = os.path.join(work, "node.toml")
        pathlib.Path(file).write_text(configuration(turns_in(seconds)))
        node = Watched(program, file)
        time.sleep(0.5)
        first, start = node.memory(), time.monotonic()
        if first is None:
            sys.exit("the node ended at once")
        node.watcher.start()
        try:
            attack(peer, node, seconds)
            lasted = time.monotonic() - start
            if node.runs():
                wrong.append("the node doesn't end")
        finally:
            node.child.kill()
        output, errors = node.child.communicate()
    node.watcher.join()
    for kind, count in sorted(peer.sent.items()):
        print(f"{count:9} {kind}")
    print(f"seconds: {lasted:.0f}; status {node.child.returncode}")
    last, most = node.found[-1], max(node.found)
    print(f"VmRSS: {first} kB at the beginning, {last} kB at the end, {most} kB at most")
    if node.child.returncode != 0 or errors:
        wrong.append(f"status {node.child.returncode}, standard error {errors[:200]!r}")
    else:
        bad = wrong_prefixes(output)
        wrong += [bad] if bad else []
    if lasted < seconds:
        wrong.append("the node made its turns too soon")
    if last - first > MOST_GROWTH_KB:
        wrong.append("the node's memory grew")
    for it in wrong:
        print(f"wrong: {it}")
    sys.exit(1 if wrong else 0)


if __name__ == "__main__":
    main()
