"""The lines that running nodes write of their traffic, and which of them tell of the same thing.

`read_traces` reads lines. `Story` finds which lines of two nodes are the two ends of one message, opening, closing or datagram, and
puts all lines into one order.
"""
import bisect
import heapq
import ipaddress
import re
from collections import Counter, defaultdict, deque
from dataclasses import dataclass, field

from reports import ADDRESS, BYTE, LOCATOR, MAYBE, NUMBER, OBJECTIVE, TEXT, Refused

# ---- The words of the lines.

STAMP = "[0-9]{4}-[0-9]{2}-[0-9]{2}T[0-9]{2}:[0-9]{2}:[0-9]{2}\\.[0-9]{3}Z"
MESSAGE = (f"noop|discovery {NUMBER} {ADDRESS} {OBJECTIVE}|response {NUMBER} {ADDRESS} {NUMBER} (?:locators|divert)(?: {LOCATOR})*(?: {OBJECTIVE})?"
           f"|(?:request-neg|request-syn|negotiate|synch) {NUMBER} {OBJECTIVE}|end {NUMBER} (?:accept|decline(?: {TEXT})?)|wait {NUMBER} {NUMBER}"
           f"|flood {NUMBER} {ADDRESS} {NUMBER}(?: {OBJECTIVE} (?:{LOCATOR}|none))*|invalid {NUMBER} {MAYBE}")
WORD = "(?P<word>received|sent|lost|failed)"
FORMS = [
    ("datagram", "datagram", f"{WORD} datagram (?P<link>{BYTE}) (?P<neighbour>{BYTE}) (?P<words>{MESSAGE}|no message in {NUMBER} bytes)"),
    ("message", "message", f"{WORD} message (?P<stream>{NUMBER}) (?P<words>{MESSAGE})"),
    ("opening", "opening", f"(?P<word>received) opening (?P<stream>{NUMBER}) (?P<words>{ADDRESS})"),
    ("dial", "dial", f"(?P<word>sent|lost|failed) dial (?P<stream>{NUMBER}) (?P<words>{LOCATOR})"),
    ("closing", "closing", f"{WORD} closing (?P<stream>{NUMBER})(?P<words>)"),
    ("message", "stream", f"{WORD} stream (?P<stream>{NUMBER}) (?P<words>no message at {NUMBER})"),
    ("event", "event", f"(?P<word>event) {NUMBER} (?P<words>[!-~]+(?: [!-~]+)*)"),
]
# A line: its time, the name of its node where it has one, and what it tells. A name may have blanks.
FORMS = [(kind, f" {word} ", re.compile(f"(?P<stamp>{STAMP}) (?:(?P<node>[ -~]{{1,32}}?) )?{form}")) for kind, word, form in FORMS]


@dataclass(eq=False)
class Traced:
    """A line of a trace."""
    line: int
    text: str
    stamp: str
    node: str
    kind: str
    word: str
    words: str
    stream: object = None
    link: int = 0
    neighbour: int = 0
    pair: object = None     # the line of the other node that tells of the same thing

    @property
    def comes(self):
        return self.word == "received"


def taken_apart(text):
    """The kind and the parts of a line, or None where it is no line of a trace."""
    found = [(kind, form.fullmatch(text)) for kind, word, form in FORMS if word in text]
    found = [(kind, parts.groupdict()) for kind, parts in found if parts]
    return min(found, key=lambda one: len(one[1]["node"] or ""), default=None)


def is_trace(octets):
    """Whether the first line looks like one of a trace."""
    return re.match(STAMP.encode() + b" ", octets) is not None


def read_traces(files):
    """The lines of these files, each of which is its name and its content. They are numbered as if the files were one."""
    out, before = [], 0
    for name, octets in files:
        where = f"{name}: " if len(files) > 1 else ""
        lines = octets.split(b"\n")
        if lines[-1] == b"":
            lines.pop()
        for at, octets_of_line in enumerate(lines, 1):
            text = octets_of_line.decode("utf-8", "replace")
            parts = taken_apart(text)
            if parts is None:
                raise Refused(f"{where}no line of a trace in line {at}")
            kind, found = parts
            numbers = {key: int(found[key]) for key in ("stream", "link", "neighbour") if found.get(key) is not None}
            out.append(Traced(before + at, text, found["stamp"], found["node"] or name, kind, found["word"], found["words"], **numbers))
        before += len(lines)
    if not out:
        raise Refused("no line of a trace in line 1")
    return out


# ---- How names, addresses and messages are shown.


def readable_address(word):
    return str(ipaddress.ip_address(int(word, 16)) if len(word) == 8 else ipaddress.IPv6Address(int(word, 16)))


def is_address(word):
    return re.fullmatch(ADDRESS, word) is not None


def shown_name(name):
    """The name of a node: an address as people write it, and every other name as it is."""
    return readable_address(name) if is_address(name) else name


def shown_locator(words):
    kind, place, *rest = words.split(" ")
    if kind in ("v4", "v6"):
        address = readable_address(place)
        return f"[{address}]:{rest[1]}" if kind == "v6" else f"{address}:{rest[1]}"
    return words


def shown_words(words):
    """The words of a message with its addresses as people write them."""
    words = words.split(" ")
    for at, word in enumerate(words):
        prefix = re.fullmatch(f"([0-9a-f]{{32}})/({BYTE})", word)
        if prefix:
            words[at] = f"{readable_address(prefix[1])}/{prefix[2]}"
        first = at == 2 and words[0] in ("discovery", "response", "flood")
        if is_address(word) and (first or len(word) == 32 or words[at - 1] == "v4"):
            words[at] = readable_address(word)
    return words


# ---- Which lines tell of the same thing.


def is_telling(words):
    """Whether a message has a session number, so that hardly another one has the same words."""
    return words != "noop" and not words.startswith("no message")


@dataclass(eq=False)
class Stream:
    """A stream at one of its ends."""
    node: str
    number: int
    place: int                  # its place among all streams
    begin: object = None        # the line of its dial or its opening, where the trace has it
    came: list = field(default_factory=list)
    went: list = field(default_factory=list)
    other: object = None        # the same stream at its other end
    peer: str = ""              # the lifeline of the other end

    @property
    def kind(self):
        return self.begin.kind if self.begin else ""

    def fits(self, other):
        """Whether the two could be the ends of one stream."""
        if self.node == other.node or self.other or other.other or self.kind and self.kind == other.kind:
            return False
        return all(end.kind != "dial" or end.begin.word == "sent" for end in (self, other))


def milliseconds(stamp):
    """A time as a number that grows by 1 each millisecond, but for the ends of months."""
    year, month, day, hour, minute, second, part = (int(found) for found in re.findall("[0-9]+", stamp))
    days = (year * 12 + month) * 31 + day
    return (((days * 24 + hour) * 60 + minute) * 60 + second) * 1000 + part


def apart(first, second):
    return abs(milliseconds(first.stamp) - milliseconds(second.stamp))


def match_in_order(went, came):
    """Pairs what one end was told to have sent with what the other one got, each in its order."""
    start = 0
    for line in came:
        for at in range(start, len(went)):
            if went[at].words == line.words and went[at].kind == line.kind:
                went[at].pair, line.pair = line, went[at]
                start = at + 1
                break


SOON = 5000     # so many milliseconds after a dial an opening may come, where no message tells that they are one


class Story:
    """What the lines tell: the lifelines, and for each line the one at the other end."""

    def __init__(self, lines):
        self.lines = lines
        self.of_node = defaultdict(list)
        for line in self.in_time(lines):
            self.of_node[line.node].append(line)
        self.names = {}         # each lifeline: the words at its head
        for line in self.in_time(lines):
            self.names.setdefault(line.node, shown_name(line.node))
        self.nodes = list(self.names)
        self.streams, self.at_stream = [], {}
        self.at_locator, self.addresses = {}, defaultdict(set)
        self.neighbours = {}
        for node in self.nodes:
            self.follow(node)
        self.join_streams()
        self.join_datagrams()
        self.name_peers()

    @staticmethod
    def in_time(lines):
        """The lines by their times, those of one time as they stand."""
        return sorted(lines, key=lambda line: line.stamp)

    def follow(self, node):
        """Gathers the streams of a node."""
        now = {}
        for line in self.of_node[node]:
            if line.stream is None:
                continue
            if line.kind in ("dial", "opening") or line.stream not in now:
                now[line.stream] = Stream(node, line.stream, len(self.streams))
                self.streams.append(now[line.stream])
            stream = now[line.stream]
            self.at_stream[line] = stream
            if line.kind in ("dial", "opening"):
                stream.begin = line
            elif line.comes:
                stream.came.append(line)
            elif line.word == "sent":
                stream.went.append(line)

    # The ends of streams.

    def join_streams(self):
        """Finds the two ends of streams: by their messages, and then by what is known of addresses and by their times."""
        found = self.candidates()
        count = Counter(place for pair in found for place in pair)
        for first, second in sorted(found):
            if count[first] == count[second] == 1:
                self.join(self.streams[first], self.streams[second])
        ranked = sorted(found, key=lambda pair: (-self.agreement(*pair), -found[pair], self.distance(*pair), pair))
        for first, second in ranked:
            self.join(self.streams[first], self.streams[second])
        self.join_silent()

    def join_silent(self):
        """Finds the two ends of streams without messages that both have: their addresses are known, and they begin about then."""
        opened = defaultdict(list)
        for stream in self.streams:
            if stream.kind == "opening" and not stream.other:
                opened[stream.node].append((milliseconds(stream.begin.stamp), stream.place))
        for begins in opened.values():
            begins.sort()
        for stream in self.streams:
            if stream.kind != "dial" or stream.other:
                continue
            begins, time = opened[self.node_at(stream.begin.words)], milliseconds(stream.begin.stamp)
            soon = begins[bisect.bisect_left(begins, (time - SOON, 0)):bisect.bisect_left(begins, (time + SOON + 1, 0))]
            for _, place in sorted((abs(begin - time), place) for begin, place in soon):
                other = self.streams[place]
                if stream.fits(other) and self.agreement(stream.place, place) == 2 and not (stream.went and other.came):
                    self.join(stream, other)
                    break

    def candidates(self):
        """Pairs of streams of which one got what the other one sent, and how many messages these are."""
        sent, found = defaultdict(set), Counter()
        for stream in self.streams:
            for line in stream.went:
                if is_telling(line.words):
                    sent[line.words].add(stream.place)
        for stream in self.streams:
            for words in {line.words for line in stream.came if is_telling(line.words)}:
                for place in sent[words]:
                    if stream.fits(self.streams[place]):
                        found[min(place, stream.place), max(place, stream.place)] += 1
        return found

    def agreement(self, first, second):
        """How well what is known of addresses fits: 1 for each end that fits, -1 for each that doesn't."""
        sum_of = 0
        for stream, other in ((self.streams[first], self.streams[second]), (self.streams[second], self.streams[first])):
            if stream.kind == "dial":
                known = self.node_at(stream.begin.words)
                sum_of += 0 if not known else 1 if known == other.node else -1
            if stream.kind == "opening":
                known = self.addresses[other.node] | {other.node}
                sum_of += 1 if stream.begin.words in known else -1 if self.addresses[other.node] else 0
        return sum_of

    def distance(self, first, second):
        begins = [self.streams[place].begin for place in (first, second)]
        return apart(*begins) if all(begins) else SOON

    def node_at(self, locator):
        """The node that listens there, where it is known."""
        parts = locator.split(" ")
        return self.at_locator.get(locator) or (parts[1] if parts[1] in self.nodes else "")

    def join(self, first, second):
        if not first.fits(second):
            return
        first.other, second.other = second, first
        for stream, other in ((first, second), (second, first)):
            if stream.kind == "dial":
                self.at_locator.setdefault(stream.begin.words, other.node)
            if stream.kind == "opening":
                self.addresses[other.node].add(stream.begin.words)
            match_in_order(stream.went, other.came)
        if first.begin and second.begin:
            first.begin.pair, second.begin.pair = second.begin, first.begin

    # Neighbours on links.

    def join_datagrams(self):
        """Finds which neighbour is which node: whose datagrams came there, and where its own came."""
        ends = defaultdict(lambda: ([], []))
        for line in self.lines:
            if line.kind == "datagram" and line.word in ("sent", "received"):
                ends[line.node, line.link, line.neighbour][line.comes].append(line)
        ends = {key: tuple(self.in_time(part) for part in parts) for key, parts in ends.items()}
        counts = {key: tuple(Counter(line.words for line in part) for part in parts) for key, parts in ends.items()}
        who = defaultdict(set)
        for key, (went, _) in counts.items():
            for words in went:
                if is_telling(words):
                    who[words].add(key)
        pairs = {tuple(sorted((key, other))) for key, (_, came) in counts.items() for words in came for other in who[words] if other[0] != key[0]}
        ranked = []
        for first, second in pairs:
            both = sum((sum((counts[a][0] & counts[b][1]).values()) for a, b in ((first, second), (second, first))))
            missing = sum((sum((counts[b][1] - counts[a][0]).values()) for a, b in ((first, second), (second, first))))
            ranked.append((missing - both, first, second))
        for _, first, second in sorted(ranked):
            if first in self.neighbours or second in self.neighbours:
                continue
            self.neighbours[first], self.neighbours[second] = second, first
            match_in_order(ends[first][0], ends[second][1])
            match_in_order(ends[second][0], ends[first][1])

    # The lifelines of those that are only named.

    def name_peers(self):
        """Finds the lifeline at the other end of each stream."""
        dialled = defaultdict(list)
        for stream in self.streams:
            if stream.other:
                stream.peer = stream.other.node
            elif stream.kind == "dial":
                words = stream.begin.words
                stream.peer = self.node_at(words) or self.peer(words, shown_locator(words))
                if stream.peer == words and words not in dialled[words.split(" ")[1]]:
                    dialled[words.split(" ")[1]].append(words)
        at_address = defaultdict(set)
        for node, addresses in self.addresses.items():
            for address in addresses:
                at_address[address].add(node)
        for stream in self.streams:
            if stream.peer:
                continue
            if stream.kind != "opening":
                stream.peer = self.peer(f"stream {stream.number} of {shown_name(stream.node)}")
                continue
            address = stream.begin.words
            known = [address] if address in self.nodes else sorted(at_address[address] - {stream.node}) + dialled[address]
            stream.peer = known[0] if len(known) == 1 else self.peer(address, readable_address(address))

    def peer(self, key, head=None):
        """The lifeline of one that is only named."""
        self.names.setdefault(key, head or key)
        return key

    def other_end(self, line):
        """The lifeline that a line's message, opening or closing came from or went to."""
        if line.kind == "datagram":
            key = line.node, line.link, line.neighbour
            if key in self.neighbours:
                return self.neighbours[key][0]
            return self.peer(f"link {line.link} neighbour {line.neighbour} of {shown_name(line.node)}")
        return self.at_stream[line].peer

    # The order of all lines.

    def ordered(self):
        """All lines in one order: those of a node as they stand, by their times, and what was sent before it came."""
        after, waits = defaultdict(list), Counter()
        for lines in self.of_node.values():
            for before, line in zip(lines, lines[1:]):
                after[before].append(line)
                waits[line] += 1
        for line in self.lines:
            if line.comes and line.pair and line.pair.stamp <= line.stamp:
                after[line.pair].append(line)
                waits[line] += 1
        ready = [(line.stamp, line.line, line) for line in self.lines if not waits[line]]
        heapq.heapify(ready)
        out, left = [], {line: None for line in self.in_time(self.lines)}
        rest = deque(left)
        while left:
            if ready:
                line = heapq.heappop(ready)[2]
            else:
                while rest[0] not in left:
                    rest.popleft()
                line = rest[0]
            if line not in left:
                continue
            del left[line]
            out.append(line)
            for later in after[line]:
                waits[later] -= 1
                if not waits[later]:
                    heapq.heappush(ready, (later.stamp, later.line, later))
        return out
