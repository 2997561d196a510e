#!/usr/bin/env python3
"""Kills nodes that serve again and again, and starts them anew.

usage: serve_kills.py PROGRAM [TIMES [SEED]]
       serve_kills.py --forget PROGRAM [TIMES [SEED]]

PROGRAM is grasp_node. Three nodes serve on 127.0.0.1, 127.0.0.2 and 127.0.0.3, each with a store. The first one begins with
2001:db8::/48, the others with nothing, and each wants prefixes of the two others all the time, so all of them take and give. TIMES
(200) times one of them is killed by SIGKILL, at a moment that is drawn, and started again on its store. After each twentieth
kill, and at the end, they are asked for nothing more until all is settled, and what they have is counted. Last all are killed,
and their stores have to have what the nodes had.

With --forget a node on 127.0.0.1 holds a prefix, and one on 127.0.0.2 wants a part of it, both without a store. TIMES (20) times the
second one is started, killed by SIGKILL at some moment of its first fifth of a second, and started again over the socket that
it left; once it holds its prefix it is killed once more. Last the first node is killed and started again. What the nodes held
before is forgotten.

It ends with 1 where a node doesn't start again or ends by itself, or two nodes hold one address. With stores also where a node
holds an address that it has in doubt, or one of the /48 is neither held nor in doubt at any node, or a store has something
else than its node had; with --forget also where a want isn't held within ten seconds, or a prefix that was held is given once more.
"""
import collections
import ipaddress
import os
import pathlib
import random
import subprocess
import sys
import tempfile
import time

sys.path.insert(0, str(pathlib.Path(__file__).resolve().parent.parent / "contrib" / "python"))
import grasp  # noqa: E402

PORT, PATIENCE = 7067, 10
ROOT = ipaddress.ip_network("2001:db8::/48")
CONFIGURATION = """address = "fd00000000000000000000000000000{own}"
listen = "7f00000{own}:{port}"
{more}
[serve]
control = "{own}.sock"
{keeps}
retry = 100
tick = 100
"""
HAS_ROOT = 'roots = ["20010db8000000000000000000000000/48"]\n'
WANT = '[[want]]\nlength = {length}\nlongest = 64\npeer = "7f00000{peer}:{port}"\n'


class Wrong(Exception):
    pass


def until(condition, what, patience=PATIENCE):
    end = time.monotonic() + patience
    while True:
        found = condition()
        if found:
            return found
        if time.monotonic() > end:
            raise Wrong(what)
        time.sleep(0.01)


def kill(node):
    if node.poll() is not None:
        raise Wrong(f"a node ended with status {node.returncode}")
    node.kill()
    node.wait()


# ---- With stores.


class Node:
    """A node with a store, which is killed and started again. Its log goes on in one file."""

    def __init__(self, own):
        self.own, self.others, self.child, self.agent = own, [it for it in (1, 2, 3) if it != own], None, None
        more = (HAS_ROOT if own == 1 else "") + "".join(WANT.format(length=60, peer=it, port=PORT) for it in self.others)
        keeps = f'store = "{own}.pool"\nretry_most = 1000'
        pathlib.Path(f"{own}.toml").write_text(CONFIGURATION.format(own=own, port=PORT, more=more, keeps=keeps))
        subprocess.run([PROGRAM, "init", f"{own}.toml"], check=True)

    def start(self):
        with open(f"{self.own}.log", "ab") as log:
            self.child = subprocess.Popen([PROGRAM, "serve", f"{self.own}.toml"], stderr=log)

    def kill(self):
        if self.child.poll() is not None:
            raise Wrong(f"node {self.own} ended with status {self.child.returncode}: {self.log()[-1:]}")
        self.child.kill()
        self.child.wait()
        self.agent = None

    def log(self):
        return pathlib.Path(f"{self.own}.log").read_text().splitlines()

    def ask(self, line):
        """The words of the answer, or None where the node isn't up yet."""
        try:
            self.agent = self.agent or grasp.Agent(f"{self.own}.sock")
            return self.agent.ask(line)
        except OSError:
            self.agent = None
            return None

    def state(self):
        return until(lambda: self.ask("state") and self.agent.state(), f"node {self.own} doesn't start again")

    def wants(self):
        """The numbers of the wants that are asked for, and of those that wait."""
        words = self.ask("wants") or []
        places = [at for at, word in enumerate(words) if word == "want"] + [len(words)]
        stands = {int(words[at + 1]): words[at + 9] for at, _ in zip(places, places[1:])}
        return [it for it, how in stands.items() if how == "asking"], [it for it, how in stands.items() if how == "waiting"]

    def feed(self, draw):
        """Sees that it wants something."""
        if self.ask("version") is None:
            return
        asking, waiting = self.wants()
        if len(asking) + len(waiting) < 4:
            self.ask(f"want {draw.randint(58, 64)} 64 v4 7f00000{draw.choice(self.others)} tcp {PORT}")

    def rests(self):
        """Whether it asks for nothing and has nothing on offer; its wants that wait are taken back."""
        asking, waiting = self.wants()
        for number in waiting:
            self.ask(f"unwant {number}")
        return not asking and not waiting and not self.state()["reserved"]

    def is_saving(self):
        """Whether the dead node was saving: once it has saved twice, each slot's gate is open but in a save."""
        store = pathlib.Path(f"{self.own}.pool").read_bytes()
        gates, numbers = [store[0], store[19 * 4096]], [int.from_bytes(store[at * 4096 :][:8], "big") for at in (1, 20)]
        return max(numbers) > 2 and gates != [1, 1]

    def stored(self):
        words = subprocess.run([PROGRAM, "store", f"{self.own}.toml"], check=True, capture_output=True, text=True).stdout.split()
        return words[1 : words.index("doubt")], words[words.index("doubt") + 1 :]


def ranges(networks):
    return sorted((int(it.network_address), int(it.broadcast_address) + 1) for it in networks)


def overlaps(sorted_ranges):
    return [(a, b) for a, b in zip(sorted_ranges, sorted_ranges[1:]) if b[0] < a[1]]


def joined(sorted_ranges):
    """The same addresses with no two ranges that touch."""
    found = []
    for begin, end in sorted_ranges:
        if found and begin <= found[-1][1]:
            found[-1] = (found[-1][0], max(end, found[-1][1]))
        else:
            found.append((begin, end))
    return found


def count(states):
    """Sees that each address of the root is in one hand: how many /64 are held, and how many of all are in doubt and held by nobody."""
    held = sorted(it for state in states.values() for it in ranges(state["held"]))
    if overlaps(held):
        raise Wrong(f"held twice: {overlaps(held)}")
    for own, state in states.items():
        of_it = sorted(it for kind in state.values() for it in ranges(kind))
        if overlaps(of_it):
            raise Wrong(f"node {own} has twice: {overlaps(of_it)}")
    anywhere = joined(sorted(it for state in states.values() for kind in state.values() for it in ranges(kind)))
    if anywhere != ranges([ROOT]):
        raise Wrong(f"in some hand are {anywhere}")
    size = sum(end - begin for begin, end in held)
    return size >> 64, (ROOT.num_addresses - size) >> 64


def settle(nodes):
    """Asks for nothing more until all is settled, and counts. What the nodes have then."""
    end = time.monotonic() + 120
    while not all([node.rests() for node in nodes.values()]):
        if time.monotonic() > end:
            raise Wrong("what is offered isn't settled")
        time.sleep(0.05)
    states = {own: node.state() for own, node in nodes.items()}
    return states, count(states)


def words_of(networks):
    return sorted(f"{it.network_address.packed.hex()}/{it.prefixlen}" for it in networks)


def kill_one(nodes, draw):
    """Kills one of the nodes at a moment that is drawn, soon after the last start more often than later, and starts it again. Whether
    it was saving."""
    node, end = nodes[draw.randint(1, 3)], time.monotonic() + 0.4 * draw.random() ** 2
    while time.monotonic() < end:
        for it in nodes.values():
            it.feed(draw)
        time.sleep(max(0, min(0.01, end - time.monotonic())))
    node.kill()
    saving = node.is_saving()
    node.start()
    return saving


def ends_as_stored(nodes, states):
    for own, node in nodes.items():
        node.kill()
        held, doubt = node.stored()
        if sorted(held) != words_of(states[own]["held"]) or sorted(doubt) != words_of(states[own]["doubt"]):
            raise Wrong(f"the store of node {own} has something else than its node had")


def kill_with_stores():
    draw, begin, tally, nodes = random.Random(SEED), time.monotonic(), collections.Counter(), {}
    try:
        nodes = {own: Node(own) for own in (1, 2, 3)}
        for node in nodes.values():
            node.start()
        for number in range(1, TIMES + 1):
            tally["saving"] += kill_one(nodes, draw)
            if number % 20 == 0 or number == TIMES:
                states, (held, doubt) = settle(nodes)
        ends_as_stored(nodes, states)
    except Wrong as wrong:
        print(f"wrong: {wrong}; seed {SEED}")
        return 1
    finally:
        for node in nodes.values():
            if node.child:
                node.child.kill()
    for node in nodes.values():
        for line in node.log():
            tally.update(it for it in ("gained", "given", "doubt") if f" {it} " in line)
    print(f"{TIMES} kills, {tally['saving']} of them in a save; {tally['gained']} prefixes taken; {held} /64 held, {doubt} in doubt and held by")
    print(f"nobody, none in two hands and none lost; {time.monotonic() - begin:.1f} s; seed {SEED}")
    return 0


# ---- Without a store.


def state(own):
    try:
        with grasp.Agent(f"{own}.sock") as agent:
            return agent.state()
    except OSError:
        return None


def start(own):
    more = HAS_ROOT if own == 1 else WANT.format(length=60, peer=1, port=PORT)
    keeps = 'forget = true\nlog = "quiet"'
    pathlib.Path(f"{own}.toml").write_text(CONFIGURATION.format(own=own, port=PORT, more=more, keeps=keeps))
    return subprocess.Popen([PROGRAM, "serve", f"{own}.toml"])


def kill_without_store():
    draw, seen, nodes, begin = random.Random(SEED), set(), {}, time.monotonic()
    try:
        nodes[1] = start(1)
        until(lambda: state(1), "the first node doesn't start")
        for _ in range(TIMES):
            nodes[2] = start(2)
            time.sleep(draw.random() / 5)
            kill(nodes[2])
            nodes[2] = start(2)
            held = until(lambda: (state(2) or {}).get("held"), "the want isn't held")
            if held[0] in seen:
                raise Wrong(f"{held[0]} is given twice")
            if any(held[0].overlaps(it) for it in state(1)["held"]):         # it may still be reserved there
                raise Wrong(f"{held[0]} is held twice")
            seen.add(held[0])
            kill(nodes[2])
        doubt = len(state(1)["doubt"])
        kill(nodes[1])
        nodes[1] = start(1)
        if until(lambda: state(1), "the first node doesn't start again")["held"] != [ROOT]:
            raise Wrong("the first node doesn't begin with its roots")
    except Wrong as wrong:
        print("wrong:", wrong)
        return 1
    finally:
        for node in nodes.values():
            node.kill()
    print(f"{2 * TIMES + 1} kills, {len(seen)} prefixes, none given twice, {doubt} in doubt, {time.monotonic() - begin:.1f} s; seed {SEED}")
    return 0


WORDS = sys.argv[1:]
FORGETS = WORDS[:1] == ["--forget"]
WORDS = WORDS[FORGETS:]
if WORDS in (["-h"], ["--help"]):
    sys.exit(print(__doc__.strip()))
if not 1 <= len(WORDS) <= 3 or WORDS[0].startswith("-"):
    sys.exit(__doc__.strip())
PROGRAM = str(pathlib.Path(WORDS[0]).resolve())
TIMES = int(WORDS[1]) if len(WORDS) > 1 else 20 if FORGETS else 200
SEED = int(WORDS[2]) if len(WORDS) > 2 else int(time.time())
with tempfile.TemporaryDirectory() as work:
    os.chdir(work)
    status = kill_without_store() if FORGETS else kill_with_stores()
sys.exit(status)
