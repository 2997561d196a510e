#!/usr/bin/env python3
"""Runs random scripts of networks through the built program, and checks what it reports.

usage: fuzz_scripts.py PROGRAM [SCRIPTS [SEED]]      by default 2000 scripts and a seed of the clock's

For each script: the status is 0, each line is reported in order by a report that has its form, a second run writes the same,
and at each place where the states of all nodes are shown, the end among them, no two nodes hold prefixes that overlap. With
one line spoilt the status is 3, that line is named and nothing is written. Beside that, for some numbers the line of `gen` is
what the reports of the drawn script come to, and what the rules of the agents give, and a script whose nodes send too much ends with status 7 behind the reports of
the lines before. The seed is printed.
"""
import pathlib
import random
import re
import subprocess
import sys
import time

sys.dont_write_bytecode = True
sys.path.insert(0, str(pathlib.Path(__file__).resolve().parent.parent / "tools"))
from reports import Refused, read_all  # noqa: E402

NAMES = ["'x", "'f", "'s", "'PrefixManager", "'", "'a%20b%c3%a4"]
VALUES = ["x00", "x05", "x1903e8", "x6161", "x81f6", "xf5", "xa0", "x1b0000000100000000", "x811838", "xc101"]
LARGE = 18446744073709551615


def address(node):
    return "fd" + "0" * 28 + f"{node:02x}"


# ---- Scripts.


def header(rng):
    nodes = rng.choice([1, 2, 2, 3, 3, 4, 5, 8])
    lines = [f"nodes {nodes}"]
    if rng.randrange(3) == 0:
        lines.append(f"size {rng.choice([2048, 2049, 4096, 8192])}")
    told, givers, roots = [], [], []
    for block in rng.sample(range(16), rng.randrange(0, 6)):
        length = rng.choice([40, 44, 48, 56, 60, 63, 64])
        givers.append(rng.randint(1, nodes))
        told.append(f"root {givers[-1]} 20010db8{block:x}{'0' * 23}/{length}")
        roots.append((givers[-1], 0x20010db8 << 96 | block << 92, length))
    for _ in range(rng.randrange(0, 2 * nodes) if nodes > 1 else 0):
        members = rng.sample(range(1, nodes + 1), rng.randint(2, nodes))
        told.append("link " + " ".join(map(str, members)))
    rng.shuffle(told)
    return nodes, givers, roots, lines + told + ["start"]


class Maker:
    """Makes the lines of a script, with a guess at how many streams, datagrams and sessions there are."""

    def __init__(self, rng, nodes, givers, roots):
        self.rng, self.nodes, self.givers, self.roots = rng, nodes, givers, roots
        self.streams, self.datagrams = 0, 0

    def node(self):
        return self.rng.randint(1, self.nodes)

    def near(self, count):
        """A number up to a guessed count, and sometimes beyond."""
        rng = self.rng
        if rng.randrange(12) == 0:
            return rng.choice([0, count + 1, count + 7, LARGE])
        return max(1, count - min(rng.randrange(4), rng.randrange(4)))

    def each(self, line):
        """The line for each of the last streams, of which one is meant: how many there are is guessed."""
        return [line.format(stream) for stream in range(max(1, self.streams - 3), self.streams + 1)]

    def hold(self, line):
        return "hold " + line if self.rng.randrange(10) == 0 else line

    def call(self):
        rng = self.rng
        name, value = rng.choice(NAMES), rng.choice(VALUES)
        session = rng.choice([1, 1, 1, 2, 3, 4, LARGE])
        loops, millis = rng.choice([0, 1, 2, 6, 255]), rng.choice([0, 1, 500, 60000, 60000, 4294967295])
        kind = rng.choice(["objective", "unobjective", "discover", "discover", "request", "request", "listen", "listen", "unlisten", "step", "step", "step", "wait", "accept",
                           "accept", "decline", "invalid", "poll", "poll", "poll", "synchronize", "offer", "unoffer", "flood", "floods", "expire", "unasa"])
        words = {
            "objective": f"{name} {rng.choice([2, 3, 5, 10, 11, rng.randrange(16)])}", "unobjective": name,
            "discover": f"{name} {rng.choice(['neg', 'syn'])} {loops} {millis}",
            "request": f"{name} {value} {loops} {millis} {rng.choice(['wet', 'wet', 'dry'])} {self.node()}",
            "listen": name, "unlisten": name, "step": f"{session} {value}", "wait": f"{session} {millis}", "accept": session,
            "decline": f"{session} {rng.choice(NAMES)}" if rng.randrange(2) else session,
            "invalid": f"{session} {rng.choice(VALUES + ['-'])}", "poll": session,
            "synchronize": f"{name} {loops} {millis} {self.node()}", "offer": f"{name} {value}", "unoffer": name,
            "flood": f"{name} {value} {millis} {loops}", "floods": name, "expire": f"{name} {self.node()}", "unasa": "",
        }
        if kind == "unasa" and rng.randrange(8):
            kind = "poll"
        if kind in ("request", "synchronize"):
            self.streams += 1
        if kind in ("discover", "flood"):
            self.datagrams += self.nodes
        return f"{kind} {words[kind]}".strip()

    def one(self):
        """One line."""
        rng = self.rng
        kind = rng.randrange(30)
        if kind < 8:
            return self.hold(f"api {self.node()} {rng.choice([2, 2, 2, 3, 9])} {self.call()}")
        if kind < 10:
            return self.hold(f"api {self.node()} 0 asa '{rng.choice('abcdef')}")
        if kind < 14:
            return self.hold(f"agent {self.node()}")
        if kind < 17:
            return self.hold(f"datagram {self.near(self.datagrams)}")
        if kind < 19:
            return self.hold(f"arrive {self.near(self.streams)}")
        if kind < 24:
            return self.hold(f"bytes {self.near(self.streams)} {rng.choice(['near', 'far'])} {rng.choice([0, 1, 7, 100, 9999, 9999, LARGE])}")
        if kind == 24:
            return self.hold(f"cut {self.near(self.streams)} {rng.choice(['near', 'far'])}")
        if kind == 25:
            return f"clock {self.node()} {rng.choice([0, 1, 500, 1000, 59999, 60000, 200000, LARGE])}"
        if kind == 26:
            return f"drain {self.node()} {rng.choice([0, 1, 2, 256, 4294967295])}"
        if kind == 27:
            return f"state {self.node()}"
        self.streams += 1
        if kind == 28:
            return self.back(self.node())
        length = rng.randint(40, 66)
        return f"want {self.node()} {length} {rng.randint(length, 68)} {self.node()}"

    def back(self, node):
        """A node gives a prefix back; often it doesn't hold it."""
        rng = self.rng
        length = rng.randint(40, 66)
        block = rng.choice([0, rng.randrange(2 ** (length - 32)), rng.randrange(16) << (length - 36)])
        return f"return {node} {0x20010db8 << 96 | block << (128 - length):032x}/{length} {self.node()}"

    def handing(self):
        """A node gives a part of a root, or all of it, to another one, which may be asked for a part of it and give it back."""
        rng = self.rng
        node, address, length = rng.choice(self.roots) if self.roots else (self.node(), 0x20010db8 << 96, 40)
        longer = rng.choice([length, min(length + 1, 128), min(length + 8, 128), rng.randint(length, 128)])
        prefix = f"{address | rng.choice([0, 0, rng.randrange(2 ** (longer - length))]) << (128 - longer):032x}/{longer}"
        lines, ends = [], [node, self.node()]
        for _ in range(rng.choice([1, 1, 2, 3])):
            giving, taking = ends
            self.streams += 1
            lines += [f"return {giving} {prefix} {taking}"] + [self.hold(f"agent {giving}")] * rng.choice([1, 1, 2])
            lines += self.each("arrive {}") + self.each("bytes {} far 9999") + [f"agent {taking}"] * rng.choice([0, 4, 6, 8])
            lines += rng.choice([[], [], self.each("cut {} near"), self.each("cut {} far"), [f"clock {giving} 60000"]])
            lines += self.each("bytes {} near 9999") + [f"agent {giving}"] * rng.choice([0, 4, 8])
            ends.reverse()
        return [line for line in lines if rng.randrange(30)]

    def round(self):
        """A node asks another one for a prefix, and they bargain; some of the lines are left out, and others come between."""
        rng = self.rng
        asking, asked = self.node(), rng.choice(self.givers) if self.givers and rng.randrange(4) else self.node()
        self.streams += 1
        length = rng.randint(44, 64)
        lines = [f"want {asking} {length} {rng.randint(length, 66)} {asked}"]
        lines += [self.hold(f"agent {asking}")] * rng.choice([1, 1, 2]) + self.each("arrive {}") + self.each("bytes {} far 9999")
        for _ in range(rng.choice([1, 1, 2])):
            lines += [f"agent {asked}"] * 4 + self.each("bytes {} near 9999") + [f"agent {asking}"] * 4
            if rng.randrange(4):
                lines += self.each("bytes {} far 9999")
        if rng.randrange(3) == 0:
            lines += rng.choice([self.each("cut {} far"), self.each("cut {} near"), [f"clock {asked} {rng.choice([60000, 120000, 600000])}"], [f"clock {asking} 60000"]])
        lines += [f"agent {asked}", f"agent {asking}"] * rng.randrange(1, 4)
        out = []
        for line in lines:
            if rng.randrange(25):
                out.append(line)
            if rng.randrange(20) == 0:
                out.append(self.one())
        return out

    def agents(self):
        """Agents of most nodes, with some objectives."""
        lines = []
        for node in range(1, self.nodes + 1):
            if self.rng.randrange(5):
                lines.append(f"api {node} 0 asa 'a")
                lines += [f"api {node} 2 objective {name} {flags}" for name, flags in (("'x", 3), ("'s", 5), ("'f", 5)) if self.rng.randrange(5)]
                lines += [f"api {node} 2 listen 'x"] * self.rng.randrange(2) + [f"api {node} 2 offer 's x0a"] * self.rng.randrange(2)
        return lines

    def talk(self):
        """An agent asks another one, and they bargain or the asking one reads what is offered."""
        rng = self.rng
        asking, asked = self.node(), self.node()
        self.streams += 1
        session = rng.choice([1, 1, 2, 3])
        brought = self.each("arrive {}") + self.each(f"bytes {{}} far {rng.choice([9999, 9999, 5])}")
        if rng.randrange(3) == 0:
            return [f"api {asking} 2 synchronize 's 6 60000 {asked}"] + brought + self.each("bytes {} near 9999") + [f"api {asking} 2 poll {session}"]
        lines = [f"api {asking} 2 request 'x {rng.choice(VALUES)} {rng.choice([0, 1, 2, 6])} {rng.choice([0, 1000, 60000])} wet {asked}"] + brought
        lines.append(f"api {asked} 2 listen 'x")
        for node, side, other in [(asked, "near", asking), (asking, "far", asked)] * rng.randrange(1, 4):
            deed = rng.choice(["step", "step", "wait", "accept", "decline", "poll"])
            behind = f" {rng.choice(VALUES)}" if deed == "step" else " 100" if deed == "wait" else ""
            lines += [f"api {node} 2 {deed} {session}{behind}"] + self.each(f"bytes {{}} {side} 9999") + [f"api {other} 2 poll {session}"]
        return lines + [f"api {asking} 2 poll {session}", f"api {asked} 2 poll {session}"]

    def spread(self):
        """A flood or a search, with datagrams and streams that follow."""
        rng = self.rng
        node = self.node()
        lines = [f"api {node} 2 flood 'f {rng.choice(VALUES)} {rng.choice([0, 1000])} 6" if rng.randrange(2) else f"api {node} 2 discover {rng.choice(NAMES)} neg 6 1000"]
        for _ in range(rng.randrange(1, 8)):
            self.datagrams += 1
            lines.append(f"datagram {self.near(self.datagrams)}")
        for _ in range(rng.randrange(3)):
            self.streams += 1
            lines += [f"arrive {self.streams}", f"bytes {self.streams} far 9999"]
        return lines + [f"api {self.node()} 2 floods 'f", f"api {node} 2 discover 'PrefixManager neg 6 1000"]

    def states(self):
        return [f"state {node}" for node in range(1, self.nodes + 1)]


def script(rng):
    nodes, givers, roots, head = header(rng)
    maker = Maker(rng, nodes, givers, roots)
    lines = maker.agents() if rng.randrange(4) else []
    for _ in range(rng.randrange(1, 12)):
        choice = rng.randrange(8)
        if choice < 2:
            lines += maker.round() if rng.randrange(3) else maker.handing()
        elif choice < 4:
            lines += maker.talk()
        elif choice < 5:
            lines += maker.spread()
        elif choice < 7:
            lines += [maker.one() for _ in range(rng.randrange(1, 30))]
        else:
            lines += maker.states()
    return head, lines + maker.states(), nodes


# ---- What is checked.


def run(program, head, lines):
    text = "\n".join(head + lines) + "\n"
    return subprocess.run([program, "replay"], input=text, text=True, stdout=subprocess.PIPE, stderr=subprocess.PIPE)


def is_report(line, report):
    """Whether a report is one of this line: that of an agent of prefixes has the call behind the line."""
    if line.removeprefix("hold ").startswith("agent "):
        return report.startswith(line + " ") and " = " in report
    return report.startswith(line + " = ")


def held_in(report):
    """The prefixes that a state tells as held, each as its first and last address."""
    words = report.split(" ")
    found = []
    for word in words[words.index("held") + 1:words.index("reserved")]:
        digits, length = word.split("/")
        first = int(digits, 16)
        found.append((first, first + 2 ** (128 - int(length)) - 1))
    return found


def check_states(reports, nodes):
    """At each place where the states of all nodes are shown one after the other, what they hold doesn't overlap."""
    shown = 0
    for at in range(len(reports) - nodes + 1):
        if all(reports[at + node - 1].startswith(f"state {node} = ") for node in range(1, nodes + 1)):
            shown += 1
            blocks = sorted(block for report in reports[at:at + nodes] for block in held_in(report))
            for one, other in zip(blocks, blocks[1:]):
                assert one[1] < other[0], f"prefixes overlap at report {at + 1}"
    assert shown, "no place shows all states"


def check(head, lines, nodes, done):
    assert done.returncode == 0, (done.returncode, done.stderr)
    reports = done.stdout.splitlines()
    assert len(reports) == len(lines), (len(reports), len(lines))
    for line, report in zip(lines, reports):
        assert is_report(line, report), (line, report)
    read_all(done.stdout.encode(), "\n".join(head).encode() + b"\n")
    check_states(reports, nodes)
    return sum(" = ended agreed mine " in report for report in reports)


def spoil(rng, lines):
    at = rng.randrange(len(lines))
    bad = rng.choice(["", lines[at] + " ", lines[at].replace(" ", "  ", 1), "state 65", "api 1 1 poll 1", "noop", "hold state 1", "want 1 9 8 1", "clock 1 01"])
    return at, lines[:at] + [bad] + lines[at + 1:]


# ---- Drawn scripts.


def drawn(number, rounds=800):
    """The script that is drawn from a number, or one of another number of rounds."""
    last = number

    def draw(below):
        nonlocal last
        last = (last * 6364136223846793005 + 1442695040888963407) % 2 ** 64
        return (last >> 33) % below
    head = ["nodes 16"] + [f"root {node} 20010db80{node:x}{'0' * 22}/40" for node in range(1, 5)]
    head += [f"link {node} {node + 1}" for node in range(1, 16)] + ["link 16 1", "start"]
    lines = []
    for k in range(1, rounds + 1):
        asking, asked, length, chance = 5 + draw(12), 1 + draw(4), 48 + draw(17), draw(8)
        one, two, far, near = [f"agent {asking}"], [f"agent {asked}"], [f"bytes {k} far 9999"], [f"bytes {k} near 9999"]
        lines += [f"want {asking} {length} 64 {asked}"] + one + [f"arrive {k}"] + far + two * 3 + near + one * 3 + far + two * 3 + near
        lines += one * 5 + ([f"cut {k} far"] if chance == 0 else far) + two * 2 + [f"clock {asked} {100 * k}"]
    return head, lines


def reckoned(number):
    """What the run of a drawn script comes to, as the rules of the agents of prefixes alone give it: each pool keeps whole blocks,
    the lowest is offered, first of a length rounded down to a multiple of 4 and then of the length that is wanted; and where the
    acceptance of that is cut off, the giver stays in doubt."""
    free = {node: {(0x20010db8 << 96 | node << 88, 40)} if node < 5 else set() for node in range(1, 17)}

    def take(pool, wanted):
        first, length = min(block for block in pool if block[1] <= wanted)
        pool.remove((first, length))
        pool.update((first + 2 ** (128 - longer), longer) for longer in range(length + 1, wanted + 1))
        return first

    def give_back(pool, first, length):
        while (first ^ 2 ** (128 - length), length) in pool:
            pool.remove((first ^ 2 ** (128 - length), length))
            first, length = first & ~2 ** (128 - length), length - 1
        pool.add((first, length))
    broken = 0
    _, lines = drawn(number)
    for want, cut in zip(lines[::25], lines[21::25]):
        asking, length, _, asked = map(int, want.split()[1:])
        offered = length - length % 4
        first = take(free[asked], offered)
        if offered < length:
            give_back(free[asked], first, offered)
            first = take(free[asked], length)
            broken += cut.startswith("cut")
        give_back(free[asking], first, length)
    held = sum(map(len, free.values()))
    return f"gen {number} nodes 16 events 20000 agreed 800 declined 0 broken {broken} held {held} doubt {broken}\n"


def check_gen(program, number):
    head, lines = drawn(number)
    done = run(program, head, lines + [f"state {node}" for node in range(1, 17)])
    assert done.returncode == 0, (done.returncode, done.stderr)
    reports = done.stdout.splitlines()
    check_states(reports, 16)

    def ended(words):
        return sum(bool(re.match(r"(hold )?agent ", report)) and f" = ended {words}" in report for report in reports)
    held = sum(len(held_in(report)) for report in reports[-16:])
    doubt = sum(len(report.split(" doubt")[1].split()) for report in reports[-16:])
    wanted = (f"gen {number} nodes 16 events {len(lines)} agreed {ended('agreed mine')} declined {ended('declined')}"
              f" broken {ended('broken')} held {held} doubt {doubt}\n")
    told = subprocess.run([program, "gen", str(number)], stdin=subprocess.DEVNULL, text=True, stdout=subprocess.PIPE, stderr=subprocess.PIPE)
    assert (told.returncode, told.stdout, told.stderr) == (0, wanted, ""), (told.returncode, told.stdout, wanted)
    assert wanted == reckoned(number), (wanted, reckoned(number))


def check_too_much(program):
    """Nodes that send each flood on to all others, along sixteen links, send more than may be sent by the ninth flood."""
    members = " ".join(str(node) for node in range(1, 18))
    head = ["nodes 17", "size 8192"] + [f"link {members}"] * 16 + ["start"]
    value = "x591f40" + "00" * 8000
    lines = ["api 1 0 asa 'a", "api 1 2 objective 'f 5"]
    for flood in range(12):
        lines.append(f"api 1 2 flood 'f {value} 1 2")
        lines += [f"datagram {flood * 4096 + node}" for node in range(1, 17)]
    done = run(program, head, lines)
    assert done.returncode == 7 and done.stderr == "too large\n", (done.returncode, done.stderr)
    reports = done.stdout.splitlines()
    assert 3 + 17 * 7 < len(reports) < 2 + 17 * 9, len(reports)
    for line, report in zip(lines, reports):
        assert is_report(line, report), (line[:80], report[:80])


def main():
    if not sys.argv[1:] or sys.argv[1] in ("-h", "--help"):
        print(__doc__.strip(), file=sys.stdout if sys.argv[1:] else sys.stderr)
        sys.exit(0 if sys.argv[1:] else 2)
    program = sys.argv[1]
    count = int(sys.argv[2]) if len(sys.argv) > 2 else 2000
    seed = int(sys.argv[3]) if len(sys.argv) > 3 else time.time_ns()
    print(f"seed {seed}", flush=True)
    rng = random.Random(seed)
    check_too_much(program)
    for number in [0, 7, LARGE, rng.randrange(2 ** 64)]:
        check_gen(program, number)
    agreed, reports = 0, 0
    for _ in range(count):
        head, lines, nodes = script(rng)
        try:
            done = run(program, head, lines)
            agreed += check(head, lines, nodes, done)
            reports += len(lines)
            assert run(program, head, lines).stdout == done.stdout, "another run writes something else"
            at, spoilt = spoil(rng, lines)
            bad = run(program, head, spoilt)
            assert (bad.returncode, bad.stdout) == (3, ""), (bad.returncode, spoilt[at])
            assert bad.stderr == f"bad script in line {len(head) + at + 1}\n", bad.stderr
        except (AssertionError, Refused) as why:
            print("\n".join(head + lines))
            print(f"wrong: {why}")
            return 1
    print(f"{count} scripts of {reports} lines, {agreed} agreements, 0 wrong")
    return 0


if __name__ == "__main__":
    sys.exit(main())
