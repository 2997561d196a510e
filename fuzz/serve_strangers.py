#!/usr/bin/env python3
"""Runs nodes that serve, which negotiate while strangers from many addresses of this machine press one of them.

usage: serve_strangers.py PROGRAM [SECONDS [SEED [NEIGHBOURS [PAUSE]]]]

PROGRAM is grasp_node. For SECONDS (60) strangers on four addresses that may open streams and on two hundred that may not send
floods of datagrams, and open streams which they leave silent, shut on their side, reset, or on which they send halves of messages
and random bytes. They pause for PAUSE milliseconds (2) between two streams. Meanwhile each of the NEIGHBOURS (1, at most 8) of the
first node wants prefixes of it, one every second and at most 250, evenly over the time, and an agent at each negotiates with one at
the first node.

It prints what it counted. It ends with 1 where a node ends, a want isn't held ten seconds after the end, a negotiation isn't agreed,
the first node's memory (VmRSS) grew by more than 8 megabytes, or an asking of all that `status` asks took over 50 ms. Of these times
what the node and the asker waited for a processor (schedstat) is taken off, since other work on the machine isn't the node's doing.
"""
import collections
import multiprocessing
import os
import pathlib
import random
import socket
import struct
import subprocess
import sys
import tempfile
import threading
import time

TOP = pathlib.Path(__file__).resolve().parent.parent
sys.path[:0] = [str(TOP / "contrib" / "python"), str(TOP / "bench")]
import grasp  # noqa: E402
from make_messages import Messages  # noqa: E402

PORT = 7057
NODE = ("127.0.0.1", PORT)
INSIDE = [f"127.0.0.{n}" for n in range(10, 14)]
OUTSIDE = [f"127.0.1.{n}" for n in range(1, 201)]
MOST_GROWTH_KB, MOST_STATUS, MOST_WANTS, PATIENCE = 8 * 1024, 0.050, 250, 10
STATUS = b"version\nstate\nwants\nreads\ncounters\n"
CONFIGURATION = """address = "fd00000000000000000000000000000{own}"
listen = "7f00000{own}:{port}"
{roots}
[[link]]
neighbour = [{neighbours}]
[serve]
control = "{own}.sock"
forget = true
allow = ["7f000000/24"]
streams = 8
silence = 1000
retry = 100
retry_most = 1000
log = "quiet"
"""


def start(own, others, program):
    roots = 'roots = ["20010db8000000000000000000000000/48"]' if own == 1 else ""
    neighbours = ", ".join(f'{{ address = "fd00000000000000000000000000000{it}", at = "7f00000{it}:{PORT}" }}' for it in others)
    pathlib.Path(f"{own}.toml").write_text(CONFIGURATION.format(own=own, neighbours=neighbours, port=PORT, roots=roots))
    node = subprocess.Popen([program, "serve", f"{own}.toml"])
    end = time.monotonic() + PATIENCE
    while not os.path.exists(f"{own}.sock") and time.monotonic() < end:
        time.sleep(0.02)
    time.sleep(0.1)
    return node


def open_stream(address):
    stream = socket.socket()
    stream.bind((address, 0))
    stream.settimeout(0.2)
    stream.connect(NODE)
    stream.setblocking(False)
    return stream


def press(seed, seconds, pause, told):
    """The strangers, in a process of their own."""
    draw, messages, streams, sent = random.Random(seed), Messages(seed), collections.deque(), collections.Counter()
    datagrams = [socket.socket(socket.AF_INET, socket.SOCK_DGRAM) for _ in range(20)]
    for wire in datagrams:
        wire.bind((draw.choice(OUTSIDE), 0))
    end = time.monotonic() + seconds
    while time.monotonic() < end:
        for _ in range(draw.randrange(40)):
            octets = messages.message() if draw.random() < 0.5 else draw.randbytes(draw.randrange(200))
            try:
                draw.choice(datagrams).sendto(octets, NODE)
                sent["datagrams"] += 1
            except OSError:
                pass
        try:
            inside = draw.random() < 0.5
            stream = open_stream(draw.choice(INSIDE if inside else OUTSIDE))
            sent["streams inside" if inside else "streams outside"] += 1
            what = draw.choice(["silent", "half", "shut", "reset", "bytes", "whole"])
            message = messages.message()
            if what in ("half", "shut"):
                stream.send(message[: draw.randrange(len(message))])
            if what == "shut":
                stream.shutdown(socket.SHUT_WR)
            if what == "bytes":
                stream.send(draw.randbytes(draw.randrange(3000)))
            if what == "whole":
                stream.send(message)
            if what == "reset":
                stream.setsockopt(socket.SOL_SOCKET, socket.SO_LINGER, struct.pack("ii", 1, 0))
                stream.close()
            else:
                streams.append(stream)
            sent[what] += 1
        except OSError:
            sent["refused"] += 1
        if len(streams) > 200:
            streams.popleft().close()
        time.sleep(pause)
    told.put(sent)


def waited(*processes):
    """How many seconds these processes waited for a processor."""
    return sum(int(pathlib.Path(f"/proc/{it}/schedstat").read_text().split()[1]) for it in processes) / 1e9


def ask_status(asker, lines, node):
    """How long the answers took, and how long without the waits for a processor."""
    before, begin = waited(node.pid, os.getpid()), time.monotonic()
    asker.sendall(STATUS)
    for _ in range(5):
        lines.readline()
    took = time.monotonic() - begin
    return took, max(0.0, took - (waited(node.pid, os.getpid()) - before))


def memory(node):
    if node.poll() is not None:
        raise ConnectionError(f"status {node.returncode}")
    return int(pathlib.Path(f"/proc/{node.pid}/status").read_text().split("VmRSS:")[1].split()[0])


def negotiate(others, seconds, pause, ends):
    """Agents in a process of their own: that of the first node offers half of what the others ask for in turn."""
    thing = grasp.Objective("thing", neg=True)
    giver, *askers = (grasp.Agent(f"{own}.sock") for own in (1, *others))
    for agent in (giver, *askers):
        agent.register_asa("agent")
        agent.register_objective(thing)

    def give():
        while True:
            try:
                session, asked = giver.listen_negotiate(thing)
                giver.negotiate_step(session, asked._replace(value=asked.value // 2))
            except grasp.GraspError:
                pass
            except (ConnectionError, ValueError):
                return

    threading.Thread(target=give, daemon=True).start()
    counted, end = collections.Counter(), time.monotonic() + seconds
    time.sleep(0.3)
    while time.monotonic() < end:
        for asker in askers:
            session, turn = asker.request_negotiate(thing._replace(value=100), grasp.Locator(*NODE), 5000)
            stands = asker.end_negotiate(session, True) if turn.kind == "turn" else turn
            counted["agreed" if stands.kind == "agreed" else f"{turn.kind} {stands.kind} {stands.reason}"] += 1
            time.sleep(10 * pause)
    ends.put(counted)


def want_more(takers, counts, due):
    """One more want of each neighbour whose next one is due."""
    for at, taker in enumerate(takers):
        if due > counts[at] < MOST_WANTS:
            counts[at] += taker.want(64, 64, grasp.Locator(*NODE)) is not None


def held_at(taker):
    """How many wants are held at a neighbour, and how many tries they took."""
    words = taker.ask("wants")
    return words.count("held"), sum(int(it) for it in words[8::11])


def processor(node):
    """The seconds of processor time that a node took."""
    words = pathlib.Path(f"/proc/{node.pid}/stat").read_text().rsplit(")", 1)[1].split()
    return (int(words[11]) + int(words[12])) / os.sysconf("SC_CLK_TCK")


def main():
    program = str(pathlib.Path(sys.argv[1]).resolve())
    seconds, seed, most, pause = (sys.argv[2:] + ["60", str(int(time.time())), "1", "2"][len(sys.argv) - 2 :])
    seconds, seed, others, pause = float(seconds), int(seed), range(2, 2 + int(most)), float(pause) / 1000
    wrong = []
    with tempfile.TemporaryDirectory() as work:
        os.chdir(work)
        nodes = [start(1, others, program), *(start(own, [1], program) for own in others)]
        try:
            told, ends = multiprocessing.Queue(), multiprocessing.Queue()
            beside = [multiprocessing.Process(target=press, args=(seed, seconds, pause, told))]
            beside.append(multiprocessing.Process(target=negotiate, args=(others, seconds, pause, ends)))
            first = top = memory(nodes[0])
            for it in beside:
                it.start()
            asker = socket.socket(socket.AF_UNIX)
            asker.connect("1.sock")
            lines, times, begin = asker.makefile("rb"), [], time.monotonic()
            takers = [grasp.Agent(f"{own}.sock") for own in others]
            counts = [0] * len(takers)
            while time.monotonic() < begin + seconds:
                times.append(ask_status(asker, lines, nodes[0]))
                top = max(top, memory(nodes[0]))
                passed = time.monotonic() - begin
                want_more(takers, counts, passed * min(1, MOST_WANTS / seconds))
                time.sleep(max(0.05, 10 * pause))
            wants, held = sum(counts), 0
            while held < wants and time.monotonic() < begin + seconds + PATIENCE:
                time.sleep(0.1)
                held = sum(held_at(taker)[0] for taker in takers)
            tries = sum(held_at(taker)[1] for taker in takers)
            took = processor(nodes[0])
            with grasp.Agent("1.sock") as giver:
                counters, doubt = giver.counters(), len(giver.state()["doubt"])
            for name, queue in (("strangers", told), ("negotiations", ends)):
                counted = queue.get(timeout=30)
                print(f"{name}:", ", ".join(f"{what} {count}" for what, count in sorted(counted.items())))
            if set(counted) != {"agreed"}:
                wrong.append("a negotiation isn't agreed")
            print("counters:", ", ".join(f"{what} {count}" for what, count in counters.items() if count))
            print(f"wants: {held} of {wants} held, {tries} tries; {doubt} prefixes in doubt at the first node")
            own = sorted(it[1] for it in times)
            print(f"status: {len(times)} times, at most {max(times)[0] * 1000:.1f} ms,"
                  f" without waits for a processor {own[len(own) // 2] * 1000:.1f} ms in the middle and {own[-1] * 1000:.1f} ms at most")
            print(f"processor: {took:.1f} s of the first node in {seconds:.0f} s")
            print(f"memory: {first} kB at first, at most {top} kB; seed {seed}")
            if held < wants:
                wrong.append("a want isn't held")
            if top > first + MOST_GROWTH_KB:
                wrong.append("memory grew")
            if own[-1] > MOST_STATUS:
                wrong.append("status took over 50 ms")
            for own, node in enumerate(nodes, 1):
                with grasp.Agent(f"{own}.sock") as agent:
                    agent.stop()
                if node.wait(PATIENCE) != 0:
                    wrong.append("a node's status isn't 0")
        except (ConnectionError, OSError) as error:
            wrong.append(f"a node is gone: {error}")
        finally:
            for node in nodes:
                node.kill()
    for what in wrong:
        print("wrong:", what)
    return len(wrong) > 0


if __name__ == "__main__":
    if not 2 <= len(sys.argv) <= 6 or sys.argv[1].startswith("-"):
        sys.exit(__doc__.strip())
    sys.exit(main())
