#!/usr/bin/env python3
"""Times what a node that serves can do, by programs that ask and do no more: `bench/time_serving.py PROGRAM`.

A node on 127.0.0.1 holds a /40. One, four and sixteen streams at once ask it for a /64 each, accept what is offered, and are
opened anew once the node has closed them: how many negotiations a second that makes, and what each costs the node of processor
time. Then an agent at its control socket makes calls, one after the other and a hundred lines at a time.
"""
import os
import pathlib
import selectors
import socket
import subprocess
import sys
import tempfile
import time

sys.path.insert(0, str(pathlib.Path(__file__).resolve().parent.parent / "contrib" / "python"))
import grasp  # noqa: E402

NODE = ("127.0.0.1", 7077)
CONFIGURATION = """address = "fd000000000000000000000000000001"
listen = "7f000001:7077"
roots = ["20010db8000000000000000000000000/40"]
[serve]
control = "node.sock"
forget = true
log = "quiet"
streams = 64
"""
REQUEST, OFFER, ACCEPTANCE = 3, 5, [101]


class Asker:
    """A stream on which a prefix is asked for."""

    def __init__(self, number, selector):
        self.number, self.accepted = number, False
        self.stream = socket.create_connection(NODE)
        self.stream.sendall(grasp.dumps([REQUEST, number, ["PrefixManager", 3, 6, [64]]]))
        selector.register(self.stream, selectors.EVENT_READ, self)

    def goes_on(self, selector):
        """Takes what came; whether the negotiation is over."""
        piece = self.stream.recv(500)
        if self.accepted:
            selector.unregister(self.stream)
            self.stream.close()
            return True
        if grasp.loads(piece)[0] != OFFER:
            sys.exit("no prefix was offered")
        self.stream.sendall(grasp.dumps([6, self.number, ACCEPTANCE]))
        self.accepted = True
        return False


def spent(node):
    """The processor time of the node so far, in seconds."""
    return int(pathlib.Path(f"/proc/{node.pid}/schedstat").read_text().split()[0]) / 1e9


def tell_negotiations(node, at_once, count):
    selector, begun, ended = selectors.DefaultSelector(), at_once, 0
    before, begin = spent(node), time.monotonic()
    for number in range(at_once):
        Asker(number + 1, selector)
    while ended < count:
        for key, _ in selector.select():
            if key.data.goes_on(selector):
                ended += 1
                if begun < count:
                    begun += 1
                    Asker(begun, selector)
    span, each = time.monotonic() - begin, (spent(node) - before) / count * 1e6
    print(f"negotiations a second, {at_once} at once: {count / span:.0f}, each {each:.0f} microseconds of the node's processor time", flush=True)


def tell_calls():
    with grasp.Agent("node.sock") as agent:
        agent.register_asa("x")
        begin = time.monotonic()
        for _ in range(3000):
            agent.ask("floods 'x")
        print(f"calls a second, one after the other: {3000 / (time.monotonic() - begin):.0f}")
        begin = time.monotonic()
        for _ in range(100):
            agent.socket.sendall(b"floods 'x\n" * 100)
            for _ in range(100):
                agent._line()
        print(f"calls a second, a hundred lines at a time: {10000 / (time.monotonic() - begin):.0f}")


def main(program):
    pathlib.Path("node.toml").write_text(CONFIGURATION)
    node = subprocess.Popen([program, "serve", "node.toml"])
    try:
        while node.poll() is None and subprocess.run([program, "status", "node.sock"], capture_output=True, check=False).returncode:
            time.sleep(0.05)
        for at_once in (1, 4, 16):
            tell_negotiations(node, at_once, 2000)
        tell_calls()
    finally:
        node.kill()


if len(sys.argv) != 2 or sys.argv[1].startswith("-"):
    sys.exit(__doc__.strip())
PROGRAM = str(pathlib.Path(sys.argv[1]).resolve())
with tempfile.TemporaryDirectory() as folder:
    os.chdir(folder)
    main(PROGRAM)
