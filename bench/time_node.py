"""Times nodes on loopback: `time_node.py PROGRAM`."""
import os
import re
import statistics
import subprocess
import sys
import tempfile
import threading
import time

program = sys.argv[1]

NODE = """address = "fd0000000000000000000000000000{number:02x}"
listen = "7f0000{number:02x}:7017"
turns = 1000000
wait = {wait}
"""

ROOT = 'roots = ["20010db8000000000000000000000000/48"]\n'

NEIGHBOUR = '{{ address = "fd0000000000000000000000000000{number:02x}", at = "7f0000{number:02x}:7017" }}'

WANT = """
[[want]]
length = 64
longest = 64
peer = "7f000001:7017"
"""

ACCEPTED = re.compile(rb" message \d+ end \d+ accept")


def configuration(number, neighbours, more="", wait=1, root=""):
    """The configuration of the node of this number, which listens at 127.0.0.NUMBER."""
    listed = ", ".join(NEIGHBOUR.format(number=it) for it in neighbours)
    return NODE.format(number=number, wait=wait) + root + f"\n[[link]]\nneighbour = [{listed}]\n" + more


class Node:
    """A running node, which ends with the block."""

    def __init__(self, work, number, text, traced=False):
        self.file = os.path.join(work, f"node{number}.toml")
        with open(self.file, "w") as file:
            file.write(text)
        self.traced = traced

    def __enter__(self):
        self.start = time.monotonic()
        self.child = subprocess.Popen(
            [program, "run", self.file],
            stdout=subprocess.DEVNULL,
            stderr=subprocess.PIPE if self.traced else subprocess.DEVNULL,
            env=dict(os.environ, GRASP_TRACE="1") if self.traced else None,
        )
        return self

    def __exit__(self, *_):
        self.child.kill()
        self.child.wait()

    def spent(self):
        """The processor time of all its threads so far, in seconds."""
        tasks = f"/proc/{self.child.pid}/task"
        total = 0
        for task in os.listdir(tasks):
            with open(f"{tasks}/{task}/schedstat") as file:
                total += int(file.read().split()[0])
        return total / 1e9

    def ends(self, wants):
        """The moments at which so many negotiations of this node were accepted."""
        found = []
        for line in self.child.stderr:
            if ACCEPTED.search(line):
                found.append(time.monotonic())
                if len(found) == wants:
                    return found
        sys.exit(f"only {len(found)} of {wants} negotiations were accepted")


def giver(work, takers):
    return Node(work, 1, configuration(1, range(2, 2 + takers), root=ROOT))


def taker(work, number, wants):
    return Node(work, number, configuration(number, [1], WANT * wants), traced=True)


def tell_first(work):
    """From the start of a node to a prefix that a running one delegates to it."""
    spans = []
    for _ in range(10):
        with giver(work, 1):
            time.sleep(0.3)
            with taker(work, 2, 1) as node:
                spans.append(node.ends(1)[0] - node.start)
    print(f"seconds to a delegated prefix: {min(spans):.3f} at least, {statistics.median(spans):.3f} in the middle")


def tell_many(work, takers, wants):
    """So many nodes at a time make so many negotiations each with one, one after the other."""
    with giver(work, takers) as served:
        time.sleep(0.3)
        before = served.spent()
        nodes = [taker(work, 2 + place, wants) for place in range(takers)]
        found = [None] * takers

        def ask(place):
            with nodes[place] as node:
                found[place] = node.ends(wants)

        askers = [threading.Thread(target=ask, args=(place,)) for place in range(takers)]
        for asker in askers:
            asker.start()
        for asker in askers:
            asker.join()
        spent = served.spent() - before
    if not all(found):
        sys.exit(1)
    moments = sorted(moment for each in found for moment in each)
    rate = (len(moments) - 1) / (moments[-1] - moments[0])
    each = spent / len(moments) * 1e6
    print(f"negotiations a second, of {takers} at a time: {rate:.0f}, each {each:.0f} microseconds of the giver's processor time", flush=True)


def tell_idle(work, wait):
    """A node to which nothing comes, and which waits so many milliseconds in each turn."""
    with Node(work, 1, configuration(1, [2], wait=wait, root=ROOT)) as node:
        time.sleep(0.5)
        before, start = node.spent(), time.monotonic()
        time.sleep(10)
        spent, span = node.spent() - before, time.monotonic() - start
    print(f"seconds of processor time in {span:.1f} idle seconds, with wait = {wait}: {spent:.4f}", flush=True)


with tempfile.TemporaryDirectory() as folder:
    tell_first(folder)
    for count in (1, 4, 16):
        tell_many(folder, count, 200)
    for milliseconds in (10, 1000):
        tell_idle(folder, milliseconds)
