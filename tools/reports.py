"""The report lines of `grasp_replay replay`, `resolve` and `keep`, and what they tell of the network that they speak of.

`read_all` reads lines. `Network` follows them: `call` and the two `hear_` calls queue what a node sends, and `drain` sends it.
What the reports don't tell is reckoned by the rules of a node; chart.py says which.
"""
import re
from dataclasses import dataclass, field

# ---- The words of report lines.

NUMBER = "(?:0|[1-9][0-9]{0,19})"
BYTE = "(?:25[0-5]|2[0-4][0-9]|1[0-9]{2}|[1-9]?[0-9])"
FLAGS = "(?:1[0-5]|[0-9])"
NODE = "(?:6[0-4]|[1-5][0-9]|[1-9])"
TEXT = r"'(?:[!-$&-~]|%(?:[01][0-9a-f]|2[05]|7f|[89a-f][0-9a-f]))*"
VALUE = "x(?:[0-9a-f]{2})+"
MAYBE = f"(?:{VALUE}|-)"
ADDRESS = "(?:[0-9a-f]{32}|[0-9a-f]{8})"
OBJECTIVE = f"obj {TEXT} {FLAGS} {BYTE} {MAYBE}"
PROTO = "(?:tcp|udp)"
LOCATOR = (f"(?:v6 [0-9a-f]{{32}} {PROTO} {NUMBER}|v4 [0-9a-f]{{8}} {PROTO} {NUMBER}"
           f"|fqdn {TEXT} {PROTO} {NUMBER}|uri {TEXT} (?:{PROTO}|-) (?:{NUMBER}|-))")
PREFIX = f"[0-9a-f]{{32}}/{BYTE}"
PREFIXES = f"(?: {PREFIX})*"
BY = "(?:mine|theirs)"
ENDED = (f"ended (?:agreed {BY} {OBJECTIVE}|declined {BY}(?: {TEXT})?|synchronized {OBJECTIVE}"
         f"|timedout {NUMBER} {NUMBER}|broken|outofmemory|invalid {BY})")
REFUSALS = """NoAsa AsasFull DuplicateAsa NotBoth ObjectivesFull ObjectiveTaken NotYourObjective NotNegotiable
NotSynchronizable NotDry BadLocator NoSession NotYourTurn LoopsSpent WaitsSpent NoFlood SessionsFull StreamsFull TooLong
OutboxFull OutOfMemory""".split()
REFUSED = "refused (?:" + "|".join(f"{i} {name}" for i, name in enumerate(REFUSALS, 1)) + ")"

# Each call of an agent: its words after the name, and its answers beside a refusal.
CALLS = {
    "asa": (TEXT, f"asa {NUMBER}"),
    "unasa": ("", "done"),
    "objective": (f"{TEXT} {FLAGS}", "done"),
    "unobjective": (TEXT, "done"),
    "discover": (f"{TEXT} (?:neg|syn) {BYTE} {NUMBER}", f"found(?: {LOCATOR})+|searching|notyet|nothing"),
    "request": (f"{TEXT} {VALUE} {BYTE} {NUMBER} (?:wet|dry) {NODE}", f"started {NUMBER}"),
    "listen": (TEXT, f"incoming {NUMBER} {ADDRESS} {OBJECTIVE}|notyet"),
    "unlisten": (TEXT, "done"),
    "step": (f"{NUMBER} {VALUE}", "done"),
    "wait": (f"{NUMBER} {NUMBER}", "done"),
    "accept": (NUMBER, "done"),
    "decline": (f"{NUMBER}(?: {TEXT})?", "done"),
    "invalid": (f"{NUMBER} {MAYBE}", "done"),
    "poll": (NUMBER, f"notyet|turn {OBJECTIVE}|{ENDED}"),
    "synchronize": (f"{TEXT} {BYTE} {NUMBER} {NODE}", f"started {NUMBER}"),
    "offer": (f"{TEXT} {VALUE}", "done"),
    "unoffer": (TEXT, "done"),
    "flood": (f"{TEXT} {VALUE} {NUMBER} {BYTE}", "done"),
    "floods": (TEXT, f"floods(?: {ADDRESS} {OBJECTIVE} (?:{LOCATOR}|none))*"),
    "expire": (f"{TEXT} {NODE}", "done"),
}
# Every other event: its words after the name, and its answers.
EVENTS = {
    "clock": (f"{NODE} {NUMBER}", NUMBER),
    "want": (f"{NODE} {BYTE} {BYTE} {NODE}", f"ok|busy {BYTE} {BYTE}|full"),
    "return": (f"{NODE} {PREFIX} {NODE}", f"ok|busy {PREFIX}|notfree|full"),
    "ask": (f"{NODE} {PREFIX} {NODE}", f"ok|busy {PREFIX}|notdoubtful|notgiven"),
    "crash": (f"{NODE} {NUMBER} (?:old|new|torn)", f"restarted held{PREFIXES} doubt{PREFIXES}"),
    "datagram": (NUMBER, "taken|nothing"),
    "arrive": (NUMBER, "taken|turned|nothing"),
    "bytes": (f"{NUMBER} (?:near|far) {NUMBER}", "taken|nothing"),
    "cut": (f"{NUMBER} (?:near|far)", "taken|nothing"),
    "drain": (f"{NODE} {NUMBER}", f"sent {NUMBER}"),
    "state": (NODE, f"held{PREFIXES} reserved{PREFIXES} doubt{PREFIXES}"),
}
HELD = ("agent", "api", "datagram", "arrive", "bytes", "cut")
NODE_ADDRESS = re.compile("fd0{28}([0-9a-f]{2})")
MANAGER = "'PrefixManager"
DOUBT = "'PrefixDoubt"
# The events that are an agent's next call, and whose: the agent of prefixes is agent 1, a doubter agent 2.
NEXT_CALLS = {"agent": 1, "doubter": 2}


class Refused(Exception):
    """The input is wrong, in the words that are told."""


@dataclass
class Report:
    line: int
    text: str
    hold: bool
    kind: str
    node: int       # 0 where the line names none
    asa: int        # 0 where the line is no agent's
    words: list     # of a call the call's words, of every other event those after its name
    answer: list


def read_head(lines, where=""):
    """The nodes, the links and the number of lines of a header, or none of these."""
    nodes, links = 0, []
    if not lines or lines[0].split(" ")[0] != "nodes":
        return 0, [], 0
    for at, text in enumerate(lines, 1):
        words = text.split(" ")
        if at == 1 and re.fullmatch(f"nodes {NODE}", text):
            nodes = int(words[1])
        elif at == 2 and re.fullmatch("size [1-9][0-9]{3}", text) and 2048 <= int(words[1]) <= 8192:
            continue
        elif at > 1 and text == "start":
            return nodes, links, at
        elif at > 1 and re.fullmatch(f"link {NODE}(?: {NODE}){{1,16}}", text):
            links.append([int(word) for word in words[1:]])
            if max(links[-1]) > nodes or len(set(links[-1])) < len(links[-1]):
                raise Refused(f"bad header in line {at}{where}")
        elif at == 1 or not re.fullmatch(f"root {NODE} [0-9a-f]{{32}}/{BYTE}", text) or int(words[1]) > nodes:
            raise Refused(f"bad header in line {at}{where}")
    raise Refused(f"header without start in line {len(lines) + 1}{where}")


def read_report(at, text):
    """One report line, taken apart."""
    words = text.split(" ")
    if "=" not in words:
        raise Refused(f"no answer in line {at}")
    hold = words[0] == "hold"
    split = words.index("=")
    event, answer = words[int(hold):split], words[split + 1:]
    kind = event[0] if event else ""
    if kind not in EVENTS and kind != "api" and kind not in NEXT_CALLS or hold and kind not in HELD:
        raise Refused(f"unknown event in line {at}")
    if any(word.isdigit() and int(word) >= 2 ** 64 for word in words):
        raise Refused(f"too large a number in line {at}")
    node, asa = 0, 0
    if kind in EVENTS:
        form, answers = EVENTS[kind]
        rest = event[1:]
        if not re.fullmatch(form, " ".join(rest)):
            raise Refused(f"bad event in line {at}")
        if kind in ("clock", "want", "return", "ask", "crash", "drain", "state"):
            node = int(rest[0])
    else:
        front = 3 if kind == "api" else 2
        if not re.fullmatch(f"{NODE} {NUMBER}" if kind == "api" else NODE, " ".join(event[1:front])):
            raise Refused(f"bad event in line {at}")
        node, asa, rest = int(event[1]), int(event[2]) if kind == "api" else NEXT_CALLS[kind], event[front:]
        if not rest or rest[0] not in CALLS:
            raise Refused(f"unknown call in line {at}")
        form, answers = CALLS[rest[0]]
        answers = f"{answers}|{REFUSED}"
        if not re.fullmatch(form, " ".join(rest[1:])):
            raise Refused(f"bad event in line {at}")
    if not re.fullmatch(answers, " ".join(answer)):
        raise Refused(f"bad answer in line {at}")
    return Report(at, text, hold, kind, node, asa, rest, answer)


def named_nodes(report):
    """The numbers of the nodes that a report names."""
    named = [report.node]
    if report.kind in ("want", "return", "ask") or report.asa and report.words[0] in ("request", "synchronize", "expire"):
        named.append(int(report.words[-1]))
    for word in report.answer:
        found = NODE_ADDRESS.fullmatch(word)
        if found and 1 <= int(found.group(1), 16) <= 64:
            named.append(int(found.group(1), 16))
    return named


def lines_of(octets, where=""):
    lines = octets.split(b"\n")
    if lines[-1] == b"":
        lines.pop()
    for at, line in enumerate(lines, 1):
        if any(byte < 0x20 or byte > 0x7e for byte in line):
            raise Refused(f"not plain text in line {at}{where}")
    return [line.decode("ascii") for line in lines]


def read_all(octets, script):
    """The nodes, the links (None where they aren't known) and the reports, numbered as the lines of their script where that is known."""
    lines = lines_of(octets)
    nodes, links, used = read_head(lines)
    before = 0
    if script is not None:
        of_script = read_head(lines_of(script, " of the script"), " of the script")
        if of_script[0] == 0:
            raise Refused("bad header in line 1 of the script")
        if used and (nodes, links) != of_script[:2]:
            raise Refused("another header in line 1")
        nodes, links = of_script[:2]
        before = of_script[2] if not used else 0
    reports = [read_report(at, text) for at, text in enumerate(lines[used:], used + 1)]
    for report in reports:
        report.line += before
    if not reports and nodes == 0:
        raise Refused("no report in line 1")
    if nodes:
        for report in reports:
            if max(named_nodes(report)) > nodes:
                raise Refused(f"unknown node in line {report.line - before}")
        return nodes, links, reports
    nodes = max(2, max(max(named_nodes(report)) for report in reports))
    return nodes, [[1, 2]] if nodes == 2 else None, reports


# ---- What the reports tell of the network, and what a node makes of a delivery.


def head_size(number):
    return 1 if number < 24 else 2 if number < 1 << 8 else 3 if number < 1 << 16 else 5 if number < 1 << 32 else 9


def text_size(text):
    """The bytes of a text's encoding, from its word."""
    count = len(re.sub("%..", ".", text[1:]))
    return head_size(count) + count


def objective_size(objective):
    name, flags, loops, value = objective
    return 1 + text_size(name) + 1 + head_size(loops) + (0 if value == "-" else len(value) // 2)


@dataclass
class Message:
    """A message: the words of its line without the session number, and the bytes of its encoding."""
    name: str
    words: str
    size: int
    body: dict = field(default_factory=dict)


def message(name, words, size, **body):
    """The size is that of what follows the session number; number, array and session number have 1, 1 and 5 bytes."""
    return Message(name, " ".join([name] + words), 7 + size, body)


def with_objective(name, objective, **body):
    shown = ["obj", objective[0], str(objective[1]), str(objective[2]), objective[3]]
    return message(name, shown, objective_size(objective), objective=objective, **body)


def decline(reason):
    words, size = (["decline"], 3) if reason is None else (["decline", reason], 3 + text_size(reason))
    return message("end", words, size)


def response(token, initiator, life, nodes, diverted):
    """A response with the locators of these nodes; each has 25 bytes."""
    size = 17 + head_size(life) + 25 * len(nodes) + (3 if diverted else 0)
    words = [f"@{initiator}", str(life), "divert" if diverted else "locators"]
    words += [f"v6 @{node} tcp 7017" for node in nodes]
    return message("response", words, size, token=token, initiator=initiator, life=life, nodes=nodes)


@dataclass
class Datagram:
    link: int
    sender: int
    receiver: int
    message: Message
    number: int = 0
    deliveries: int = 0


@dataclass
class Stream:
    """A stream that was dialled: what each side sent, and how many bytes the other one got."""
    near: int
    far: int
    number: int = 0
    objective: tuple = ()
    arrived: bool = False
    sent: dict = field(default_factory=lambda: {"near": [], "far": []})
    given: dict = field(default_factory=lambda: {"near": 0, "far": 0})

    def node(self, side):
        return self.near if side == "near" else self.far

    def deliver(self, side, count):
        """The messages that the next bytes to this side end, and whether they stop inside one."""
        parts = self.sent[other(side)]
        start, end, whole = self.given[side], 0, []
        stop = min(start + count, sum(part.size for part in parts))
        cut = False
        for part in parts:
            begin, end = end, end + part.size
            if start < end <= stop:
                whole.append(part)
            cut = cut or begin < stop < end
        self.given[side] = stop
        return whole, cut

    def undelivered(self, side):
        """The messages of which this side didn't get the end."""
        end, left = 0, []
        for part in self.sent[other(side)]:
            end += part.size
            if end > self.given[side]:
                left.append(part)
        return left


def other(side):
    return "far" if side == "near" else "near"


@dataclass
class Node:
    """What is known of a node: its registrations, its searches and memories, and what it has queued."""
    number: int
    reading: int = 0
    queue: list = field(default_factory=list)
    objectives: dict = field(default_factory=lambda: {MANAGER: (3, 1)})
    listening: set = field(default_factory=lambda: {MANAGER})
    offers: dict = field(default_factory=dict)
    searches: dict = field(default_factory=dict)
    discoveries: dict = field(default_factory=dict)
    floods: dict = field(default_factory=dict)
    cache: dict = field(default_factory=dict)
    sessions: dict = field(default_factory=dict)
    untaken: list = field(default_factory=list)

    def knows(self, memories, key):
        """Whether a discovery or a flood is remembered at this reading."""
        for old in [old for old, kept in memories.items() if kept[0] <= self.reading]:
            del memories[old]
        return key in memories

    def cached(self, name, use):
        """The nodes whose locators are kept, and the least lifetime that is left."""
        ends = {node: end for node, end in self.cache.get((name, use), {}).items() if end > self.reading}
        life = min([end - self.reading for end in ends.values()] + [4294967295])
        return list(ends), life


class Network:
    """The nodes, and all datagrams and streams that were sent. Links are None where they aren't known."""

    def __init__(self, count, links):
        self.nodes = {number: Node(number) for number in range(1, count + 1)}
        self.links = links
        self.datagrams = []
        self.streams = []
        self.tokens = 0

    def add_doubters(self):
        """Each node has a doubter, which has registered its objective and listens for it."""
        for node in self.nodes.values():
            node.objectives[DOUBT] = (2, 2)
            node.listening.add(DOUBT)

    def restart(self, number):
        """The node begins anew: it has no session and no memory, and what it had queued isn't sent."""
        self.nodes[number] = Node(number)

    # -- Queues.

    def drain(self, node, most):
        """Sends what is queued, and answers it in words."""
        sent, node.queue[:most] = node.queue[:most], []
        dials, sends, datagrams = [], [], []
        for kind, thing, part in sent:
            if kind == "datagram":
                self.datagrams.append(thing)
                thing.number = len(self.datagrams)
                datagrams.append(thing.number)
            elif kind == "dial":
                self.streams.append(thing)
                thing.number = len(self.streams)
                dials.append(thing.number)
            else:
                side, made = part
                thing.sent[side].append(made)
                sends.append(thing.number)
        return told("dials stream", dials) + told("sends on stream", sends) + told("sends datagram", datagrams)

    def spread(self, node, made, but=None):
        """Queues a datagram to every neighbour of every link but one."""
        for link, members in enumerate(self.links or []):
            if node.number in members and link != but:
                for to in members:
                    if to != node.number:
                        node.queue.append(("datagram", Datagram(link, node.number, to, made), None))

    def dial(self, node, to, made, objective=()):
        stream = Stream(node.number, to, objective=objective)
        node.queue.append(("dial", stream, None))
        node.queue.append(("send", stream, ("near", made)))
        return stream

    def token(self):
        self.tokens += 1
        return self.tokens

    # -- Calls.

    def call(self, report):
        """What an agent's call queues."""
        node = self.nodes[report.node]
        if report.answer[0] in ("refused", "notyet", "turn"):
            if report.words[0] == "listen" and report.answer == ["notyet"]:
                node.listening.add(report.words[1])
            return
        name = report.words[0]
        if name in ("step", "wait", "accept", "decline", "invalid"):
            self.act(node, report.words)
        elif name in ("request", "synchronize"):
            self.request(node, report)
        else:
            getattr(self, f"call_{name}", lambda *_: None)(node, report)

    def act(self, node, words):
        place = node.sessions.get(words[1])
        if place is None:
            return
        stream, side = place
        name, rest = words[0], words[2:]
        if name == "step":
            topic, flags, loops, _ = stream.objective
            stream.objective = (topic, flags, max(0, loops - 1), rest[0])
            made = with_objective("negotiate", stream.objective)
        elif name == "wait":
            made = message("wait", rest, head_size(int(rest[0])))
        elif name == "accept":
            made = message("end", ["accept"], 3)
        elif name == "decline":
            made = decline(rest[0] if rest else None)
        else:
            made = message("invalid", rest, 1 + (0 if rest[0] == "-" else len(rest[0]) // 2))
        node.queue.append(("send", stream, (side, made)))

    def request(self, node, report):
        words = report.words
        flags = node.objectives.get(words[1], (0, 0))[0]
        if words[0] == "request":
            flags = flags & 7 | (8 if words[5] == "dry" else 0)
            made = with_objective("request-neg", (words[1], flags, int(words[3]), words[2]))
        else:
            made = with_objective("request-syn", (words[1], flags, int(words[2]), "-"))
        stream = self.dial(node, int(words[-1]), made, made.body["objective"])
        node.sessions[report.answer[1]] = (stream, "near")

    def call_objective(self, node, report):
        node.objectives[report.words[1]] = (int(report.words[2]), report.asa)

    def call_listen(self, node, report):
        name = report.words[1]
        node.listening.add(name)
        for session in node.untaken:
            if session[0].objective[0] == name:
                node.untaken.remove(session)
                node.sessions[report.answer[1]] = session
                return

    def call_unlisten(self, node, report):
        self.unlisten(node, report.words[1])

    def call_unobjective(self, node, report):
        self.unlisten(node, report.words[1])
        node.objectives.pop(report.words[1], None)
        node.offers.pop(report.words[1], None)

    def call_unasa(self, node, report):
        for name in [name for name, (_, asa) in node.objectives.items() if asa == report.asa]:
            self.unlisten(node, name)
            del node.objectives[name]
            node.offers.pop(name, None)
        for key in [key for key in node.searches if key[0] == report.asa]:
            del node.searches[key]

    def unlisten(self, node, name):
        """Ends the listening, and declines what no agent has taken."""
        node.listening.discard(name)
        for session in [session for session in node.untaken if session[0].objective[0] == name]:
            node.untaken.remove(session)
            node.queue.append(("send", session[0], (session[1], decline("'unlistened"))))

    def call_offer(self, node, report):
        node.offers[report.words[1]] = report.words[2]

    def call_unoffer(self, node, report):
        node.offers.pop(report.words[1], None)

    def call_discover(self, node, report):
        name, use, loops = report.words[1:4]
        key = (report.asa, name, use)
        node.searches.pop(key, None)
        if report.answer[0] == "searching":
            token = self.token()
            node.searches[key] = token
            self.spread(node, discovery(token, node.number, name, use, int(loops)))

    def call_flood(self, node, report):
        name, value, life, loops = report.words[1:]
        flags = node.objectives.get(name, (0, 0))[0]
        self.spread(node, flood(self.token(), node.number, life, (name, flags, int(loops), value)))

    # -- Deliveries.

    def hear_datagram(self, datagram):
        """What a node makes of a datagram."""
        node, body = self.nodes[datagram.receiver], datagram.message.body
        key = (body["token"], body["initiator"])
        if body["initiator"] == node.number:
            return
        memories = node.floods if datagram.message.name == "flood" else node.discoveries
        if node.knows(memories, key) or len(memories) >= 256:
            return
        topic, flags, loops, value = body["objective"]
        if datagram.message.name == "flood":
            memories[key] = (node.reading + 120000,)
            if loops >= 2:
                self.spread(node, flood(*key, body["life"], (topic, flags, loops - 1, value)), datagram.link)
            return
        memories[key] = (node.reading + 60000, datagram.sender, topic, body["use"])
        registered = node.objectives.get(topic, (0, 0))[0]
        found, life = node.cached(topic, body["use"])
        if registered & 1 and registered & flags & 6:
            self.dial(node, datagram.sender, response(*key, 60000, [node.number], False))
        elif found:
            self.dial(node, datagram.sender, response(*key, life, found, True))
        elif loops >= 2:
            self.spread(node, discovery(*key, topic, body["use"], loops - 1), datagram.link)

    def hear(self, node, stream, side, made):
        """What a node makes of a message of a stream, where an agent has no part in it."""
        if made.name == "response":
            self.hear_response(node, made)
        elif made.name == "invalid":
            self.forget(node, stream)
        elif made.name in ("request-neg", "request-syn") and side == "far" and made is stream.sent["near"][0]:
            self.hear_request(node, stream, made)

    def forget(self, node, stream):
        """A session that no agent has taken leaves with its outcome."""
        node.untaken = [session for session in node.untaken if session[0] is not stream]

    def hear_request(self, node, stream, made):
        topic, flags, loops, _ = made.body["objective"]
        registered = node.objectives.get(topic, (0, 0))[0]
        if made.name == "request-syn":
            if topic in node.offers and flags & 4:
                answer = with_objective("synch", (topic, flags, loops, node.offers[topic]))
            else:
                answer = decline("'unlistened")
            node.queue.append(("send", stream, ("far", answer)))
        elif topic in node.listening and registered & 2 and flags & 6 == 2 and (registered | ~flags) & 8:
            node.untaken.append((stream, "far"))
        else:
            node.queue.append(("send", stream, ("far", decline("'unlistened"))))

    def hear_response(self, node, made):
        body = made.body
        token, initiator = body["token"], body["initiator"]
        if initiator == node.number:
            keys = [key[1:] for key, kept in node.searches.items() if kept == token]
            cause = None
        else:
            kept = node.knows(node.discoveries, (token, initiator)) and node.discoveries[(token, initiator)]
            keys, cause = ([kept[2:]], kept[1]) if kept else ([], None)
        for key in keys:
            entry = node.cache.setdefault(key, {})
            for found in body["nodes"]:
                if found in entry or len(entry) < 8:
                    entry[found] = max(entry.get(found, 0), node.reading + (body["life"] or 600000))
        if cause is not None:
            self.dial(node, cause, made)


def told(what, numbers):
    if not numbers:
        return []
    several = "s" if len(set(numbers)) > 1 else ""
    return [f"{what}{several} " + " ".join(str(number) for number in dict.fromkeys(numbers))]


def discovery(token, initiator, name, use, loops):
    objective = (name, 3 if use == "neg" else 5, loops, "-")
    words = [f"@{initiator}", "obj", name, str(objective[1]), str(loops), "-"]
    return message("discovery", words, 0, token=token, initiator=initiator, use=use, objective=objective)


def flood(token, initiator, life, objective):
    name, flags, loops, value = objective
    words = [f"@{initiator}", life, "obj", name, str(flags), str(loops), value, "none"]
    return message("flood", words, 0, token=token, initiator=initiator, life=life, objective=objective)
