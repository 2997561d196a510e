"""Every fault of a script: its line, its word and the reason. The first one is in the line that grasp_replay names.

A script is one of a word of the program: of `replay`, of `keep`, in which nodes crash, or of `resolve`, in which they ask of prefixes in doubt.
"""
import re

from cbor_notation import BadItem, notation_of

MOST_LINES = 200_000
MOST_BYTES = 16_777_216
WORDS = ("replay", "keep", "resolve")
U8, U16, U32, U64 = (2 ** bits - 1 for bits in (8, 16, 32, 64))


class Bad(Exception):
    """A word is wrong: its number from 1, and why."""

    def __init__(self, word, why):
        super().__init__(why)
        self.word = word
        self.why = why


class Words:
    """The words of a line, taken one after the other."""

    def __init__(self, line):
        self.words = line.split(" ")
        self.at = 0

    def fail(self, why, back=0):
        raise Bad(self.at + 1 - back, why)

    def next(self, what):
        if self.at >= len(self.words):
            self.fail(f"{what} is missing")
        self.at += 1
        if self.words[self.at - 1] == "":
            self.fail("the line is empty" if len(self.words) == 1 else "two spaces, or one at an end", 1)
        return self.words[self.at - 1]

    def end(self):
        if self.at < len(self.words):
            self.next("the word")
            self.fail("a word too many", 1)

    def number(self, what, most, least=0):
        word = self.next(what)
        if not re.fullmatch("[0-9]+", word):
            self.fail(f"{what} is a number", 1)
        if word != "0" and word[0] == "0":
            self.fail("a number has no leading zero", 1)
        if not least <= int(word) <= most:
            self.fail(f"{what} is from {least} to {most}", 1)
        return int(word)

    def one_of(self, what, choice):
        word = self.next(what)
        if word not in choice:
            self.fail(f"{what} is {' or '.join(choice)}", 1)
        return word

    def text(self, what):
        word = self.next(what)
        if not word.startswith("'"):
            self.fail(f"{what} is a text: an apostrophe and its bytes", 1)
        for part in re.finditer("%(.{0,2})|([^!-~])", word[1:]):
            if part.group(2):
                self.fail(f"{what} has a byte that is not written as % and two digits", 1)
            if not re.fullmatch("[0-9a-f]{2}", part.group(1)):
                self.fail("behind % stand two lower-case digits", 1)
            if 0x21 <= int(part.group(1), 16) <= 0x7e and part.group(1) != "25":
                self.fail(f"%{part.group(1)} stands for itself: {chr(int(part.group(1), 16))}", 1)
        try:
            re.sub("%(..)", lambda found: chr(int(found.group(1), 16)), word[1:]).encode("latin-1").decode("utf-8")
        except UnicodeDecodeError:
            self.fail(f"{what} isn't UTF-8", 1)

    def value(self, what, absent=False):
        word = self.next(what)
        if absent and word == "-":
            return
        if not re.fullmatch("x(?:[0-9a-f]{2})+", word):
            self.fail(f"{what} is a value: x and pairs of lower-case digits", 1)
        octets = bytes.fromhex(word[1:])
        try:
            notation_of(octets)
        except BadItem as why:
            self.fail(f"{what} is no CBOR item: {why}", 1)
        if not is_shortest(octets):
            self.fail(f"{what} has a head that isn't its shortest", 1)
        if depth(octets, 0)[0] > 13:
            self.fail(f"{what} is deeper than 13", 1)


def heads(octets, at):
    major, info = octets[at] >> 5, octets[at] & 31
    size = {24: 1, 25: 2, 26: 4, 27: 8}.get(info, 0)
    number = int.from_bytes(octets[at + 1:at + 1 + size], "big") if size else info
    return major, info, size, number, at + 1 + size


def is_shortest(octets):
    at = 0
    while at < len(octets):
        major, info, size, number, at = heads(octets, at)
        if major == 7:
            continue
        if size and number < {1: 24, 2: 1 << 8, 4: 1 << 16, 8: 1 << 32}[size]:
            return False
        if major in (2, 3):
            at += number
    return True


def depth(octets, at):
    """How deep the item at this place is nested, and where it ends."""
    major, info, size, number, at = heads(octets, at)
    if major in (2, 3):
        return 0, at + number
    if major not in (4, 5, 6):
        return 0, at
    deepest = 0
    for _ in range({4: number, 5: 2 * number, 6: 1}[major]):
        inner, at = depth(octets, at)
        deepest = max(deepest, inner)
    return deepest + 1, at


def call(words, nodes, asa):
    """The words of a call."""
    name = words.next("the call")
    if name not in CALLS:
        words.fail(f"no call {name}", 1)
    if asa == 0 and name != "asa":
        words.fail("agent 0 makes the call asa alone", 1)
    if asa != 0 and name == "asa":
        words.fail("asa is called by agent 0, and answered with the agent's number", 1)
    for part in CALLS[name]:
        part(words, nodes)
    words.end()


def name_of(words, nodes):
    words.text("the name")


def peer_of(words, nodes):
    words.number("the node", nodes, 1)


def value_of(words, nodes):
    words.value("the value")


def handle_of(words, nodes):
    words.number("the session", U64)


def loops_of(words, nodes):
    words.number("the loop count", U8)


def millis_of(words, nodes):
    words.number("the time in milliseconds", U32)


def reason_of(words, nodes):
    if words.at < len(words.words):
        words.text("the reason")


CALLS = {
    "asa": [name_of],
    "unasa": [],
    "objective": [name_of, lambda words, nodes: words.number("the flags", 15)],
    "unobjective": [name_of],
    "discover": [name_of, lambda words, nodes: words.one_of("the kind", ["neg", "syn"]), loops_of, millis_of],
    "request": [name_of, value_of, loops_of, millis_of, lambda words, nodes: words.one_of("the kind", ["wet", "dry"]), peer_of],
    "listen": [name_of],
    "unlisten": [name_of],
    "step": [handle_of, value_of],
    "wait": [handle_of, millis_of],
    "accept": [handle_of],
    "decline": [handle_of, reason_of],
    "invalid": [handle_of, lambda words, nodes: words.value("the detail", absent=True)],
    "poll": [handle_of],
    "synchronize": [name_of, loops_of, millis_of, peer_of],
    "offer": [name_of, value_of],
    "unoffer": [name_of],
    "flood": [name_of, value_of, millis_of, loops_of],
    "floods": [name_of],
    "expire": [name_of, peer_of],
}


def prefix(words, what):
    word = words.next(what)
    found = re.fullmatch("([0-9a-f]{32})/(0|[1-9][0-9]{0,2})", word)
    if not found:
        words.fail(f"{what} is 32 lower-case digits, / and a length", 1)
    first, length = int(found.group(1), 16), int(found.group(2))
    if not 1 <= length <= 128:
        words.fail(f"the length of {what} is from 1 to 128", 1)
    if first & ((1 << 128 - length) - 1):
        words.fail(f"{what} has a bit set past its length", 1)
    return first, first + (1 << 128 - length)


# The events of scripts of one word alone.
OWN = {"keep": ("crash",), "resolve": ("ask", "doubter")}


class Script:
    """What the lines so far say, in a script of this word of the program."""

    def __init__(self, word):
        self.word = word
        self.nodes = 64
        self.roots = []
        self.links = {}
        self.started = False

    def node(self, words, what="the node"):
        return words.number(what, self.nodes, 1)

    def first(self, words):
        if words.next("nodes") != "nodes":
            words.fail("the first line is `nodes COUNT`", 1)
        self.nodes = words.number("the count", 64, 1)
        words.end()

    def header(self, line, words):
        kind = words.next("the word")
        if kind == "size" and line == 2:
            words.number("the size", 8192, 2048)
        elif kind == "root":
            self.node(words)
            low, high = prefix(words, "the root")
            for other, first, last in self.roots:
                if low < last and first < high:
                    words.fail(f"the root overlaps that of line {other}", 1)
            if len(self.roots) == 1024:
                words.fail("there are at most 1024 roots", 2)
            self.roots.append((line, low, high))
        elif kind == "link":
            members = [self.node(words), self.node(words)]
            while words.at < len(words.words):
                members.append(self.node(words))
                if members[-1] in members[:-1]:
                    words.fail("the nodes of a link differ", 1)
                if len(members) > 17:
                    words.fail("a link has at most 17 nodes", 1)
            if members[0] == members[1]:
                raise Bad(3, "the nodes of a link differ")
            for at, member in enumerate(members):
                self.links[member] = self.links.get(member, 0) + 1
                if self.links[member] > 16:
                    raise Bad(at + 2, "a node is on at most 16 links")
        elif kind == "start":
            self.started = True
        elif kind == "size":
            words.fail("`size` stands in line 2 alone", 1)
        else:
            words.fail("a line before `start` begins with root or link" + (" or size" if line == 2 else ""), 1)
        words.end()

    def event(self, words):
        kind = words.next("the word")
        held = kind == "hold"
        if held:
            kind = words.next("the event")
            if kind not in ("agent", "api", "datagram", "arrive", "bytes", "cut"):
                words.fail("`hold` stands before agent, api, datagram, arrive, bytes and cut alone", 1)
        if kind == "clock":
            self.node(words)
            words.number("the reading", U64)
        elif kind == "want":
            self.node(words)
            length = words.number("the length", 128, 1)
            words.number("the longest length", 128, length)
            self.node(words, "the peer")
        elif kind == "return":
            self.node(words)
            prefix(words, "the prefix")
            self.node(words, "the peer")
        elif kind in ("agent", "state"):
            self.node(words)
        elif kind == "api":
            self.node(words)
            asa = words.number("the agent", U32)
            if asa == 1:
                words.fail("agent 1 is the agent of prefixes: nobody speaks for it", 1)
            if asa == 2 and self.word == "resolve":
                words.fail("agent 2 is the one that asks of prefixes in doubt: nobody speaks for it", 1)
            call(words, self.nodes, asa)
        elif kind in ("datagram", "arrive"):
            words.number("the number", U64)
        elif kind in ("bytes", "cut"):
            words.number("the stream", U64)
            words.one_of("the side", ["near", "far"])
            if kind == "bytes":
                words.number("the count", U64)
        elif kind == "drain":
            self.node(words)
            words.number("the count", U32)
        elif kind in OWN.get(self.word, ()):
            self.own_event(kind, words)
        else:
            word = next((word for word, kinds in OWN.items() if kind in kinds), None)
            words.fail(f"{kind} stands in a script of {word} alone" if word else f"no event {kind}", 1)
        words.end()

    def own_event(self, kind, words):
        """The events of scripts that aren't for `replay`."""
        self.node(words)
        if kind == "crash":
            words.number("the count of the disk's calls", U64)
            words.one_of("what is left", ["old", "new", "torn"])
        elif kind == "ask":
            prefix(words, "the prefix")
            self.node(words, "the peer")


def faults_of(octets, word="replay"):
    """The faults of a script of this word of the program, each with its line, its word (0 for the whole line) and the reason."""
    lines = octets.split(b"\n")
    if lines[-1] == b"":
        lines.pop()
    out, script = [], Script(word)
    for at, line in enumerate(lines, 1):
        try:
            if any(not 0x20 <= byte <= 0x7e for byte in line):
                raise Bad(0, "a carriage return ends the line: lines end in a line feed alone" if line.endswith(b"\r")
                          else "a byte that isn't printable ASCII")
            words = Words(line.decode("ascii"))
            if at == 1:
                script.first(words)
            elif not script.started:
                script.header(at, words)
            else:
                script.event(words)
        except Bad as bad:
            out.append((at, bad.word, bad.why))
    if not script.started:
        out.append((len(lines) + 1, 0, "no line `start`" if lines else "no line `nodes COUNT`"))
    return out


def check(octets, name, tell, places=None, word="replay"):
    """Tells each fault; whether there is none. `places` has the line at which each line of the script stands, where that is another one."""
    if len(octets) > MOST_BYTES:
        tell(f"{name}: more than {MOST_BYTES:,} bytes")
        return False
    faults = faults_of(octets, word)
    if octets.count(b"\n") + (not octets.endswith(b"\n")) > MOST_LINES:
        faults.append((MOST_LINES + 1, 0, f"a script has at most {MOST_LINES:,} lines"))
    for line, word, why in faults:
        if places:
            line = places[min(line, len(places)) - 1]
        tell(f"{name}:{line}: word {word}: {why}" if word else f"{name}:{line}: {why}")
    return not faults
