"""The calls of RFC 8991 over the control socket of a node: `grasp_node serve FILE`. It needs the standard library alone.

An Agent is one connection, and one agent of the node. Its calls wait for their answer, so an agent that is to do two things at a
time is two Agents. A call that the node refuses raises GraspError. The lines are described in grasp_control(7).
"""
import collections
import ipaddress
import math
import socket
import struct

ABSENT = type("Absent", (), {"__repr__": lambda self: "ABSENT"})()
"""The value of an objective that has none. None is the value null."""

Tag = collections.namedtuple("Tag", "number value")
Locator = collections.namedtuple("Locator", "address port proto", defaults=("tcp",))
Objective = collections.namedtuple("Objective", "name neg synch dry loop_count value", defaults=(False, False, False, 6, ABSENT))
Flood = collections.namedtuple("Flood", "initiator objective locator")
Session = collections.namedtuple("Session", "number peer", defaults=(None,))

Progress = collections.namedtuple("Progress", "kind by objective reason", defaults=(None, None, None))
"""How a session stands. Its kind is `turn` (the objective is the other side's last offer), `notyet`, or an end: `agreed`,
`declined`, `synchronized`, `timedout`, `broken`, `invalid`. By is `mine` or `theirs`."""


class GraspError(Exception):
    """What the node refused: `number` and `name`, as `12 NoSession`; the number is 0 for a line that it can't take."""

    def __init__(self, words):
        super().__init__(" ".join(words))
        self.number = int(words[0]) if words and words[0].isdigit() else 0
        self.name = words[1] if self.number else " ".join(words)


# ---- Values, in the encoding of RFC 8949, section 4.2.1.


def _head(major, n):
    for width, code, form in ((24, None, None), (1 << 8, 24, ">B"), (1 << 16, 25, ">H"), (1 << 32, 26, ">I"), (1 << 64, 27, ">Q")):
        if n < width:
            return bytes([major << 5 | n]) if code is None else bytes([major << 5 | code]) + struct.pack(form, n)
    raise ValueError("more than 64 bits")


def _float(x):
    if math.isnan(x):
        return b"\xf9\x7e\x00"
    for code, form in ((0xF9, ">e"), (0xFA, ">f")):
        try:
            packed = struct.pack(form, x)
        except OverflowError:
            continue
        if struct.unpack(form, packed)[0] == x:
            return bytes([code]) + packed
    return b"\xfb" + struct.pack(">d", x)


def dumps(x):
    """The bytes of a value."""
    if x is None or isinstance(x, bool):
        return {False: b"\xf4", True: b"\xf5", None: b"\xf6"}[x]
    if isinstance(x, int):
        return _head(0, x) if x >= 0 else _head(1, -1 - x)
    if isinstance(x, float):
        return _float(x)
    if isinstance(x, bytes):
        return _head(2, len(x)) + x
    if isinstance(x, str):
        return _head(3, len(x.encode())) + x.encode()
    if isinstance(x, Tag):
        return _head(6, x.number) + dumps(x.value)
    if isinstance(x, (list, tuple)):
        return _head(4, len(x)) + b"".join(map(dumps, x))
    if isinstance(x, dict):
        return _head(5, len(x)) + b"".join(key + value for key, value in sorted((dumps(k), dumps(v)) for k, v in x.items()))
    raise TypeError(type(x))


def loads(octets):
    """The value of these bytes, which are one item of a definite length."""
    value, rest = _load(octets)
    if rest:
        raise ValueError("more than one item")
    return value


def _load(b):
    major, info, b = b[0] >> 5, b[0] & 31, b[1:]
    n = info
    if info >= 24:
        width = 1 << (info - 24)
        if info > 27 or len(b) < width:
            raise ValueError("not an item")
        n, raw, b = int.from_bytes(b[:width], "big"), b[:width], b[width:]
    if major < 2:
        return (n if major == 0 else -1 - n), b
    if major < 4:
        return (b[:n] if major == 2 else b[:n].decode()), b[n:]
    if major == 4:
        items = []
        for _ in range(n):
            item, b = _load(b)
            items.append(item)
        return items, b
    if major == 5:
        pairs = {}
        for _ in range(n):
            key, b = _load(b)
            pairs[tuple(key) if isinstance(key, list) else key], b = _load(b)
        return pairs, b
    if major == 6:
        value, b = _load(b)
        return Tag(n, value), b
    if info > 24:
        return struct.unpack({25: ">e", 26: ">f", 27: ">d"}[info], raw)[0], b
    return {20: False, 21: True, 22: None}.get(n, Tag("simple", n)), b


# ---- Words.


def _text(s):
    return "'" + "".join(chr(c) if 0x21 <= c <= 0x7E and c != 0x25 else "%%%02x" % c for c in s.encode())


def _untext(word):
    parts = word[1:].split("%")
    return b"".join([parts[0].encode()] + [bytes.fromhex(p[:2]) + p[2:].encode() for p in parts[1:]]).decode()


def _value(x):
    return "x" + dumps(x).hex()


def _address(word):
    return str(ipaddress.ip_address(bytes.fromhex(word)))


def _digits(address):
    return ipaddress.ip_address(address).packed.hex()


def _locator_words(locator):
    address = ipaddress.ip_address(locator[0])
    proto = locator[2] if len(locator) > 2 else "tcp"
    return f"v{address.version} {address.packed.hex()} {proto} {locator[1]}"


def _locator(words):
    where = _address(words[1]) if words[0] in ("v4", "v6") else _untext(words[1])
    return Locator(where, int(words[3]) if words[3] != "-" else None, words[2])


def _objective(words):
    flags = int(words[2])
    value = ABSENT if words[4] == "-" else loads(bytes.fromhex(words[4][1:]))
    return Objective(_untext(words[1]), bool(flags & 2), bool(flags & 4), bool(flags & 8), int(words[3]), value)


def _progress(words):
    at = words.index("obj") if "obj" in words else None
    objective = _objective(words[at:]) if at is not None else None
    words = words[1:at] if words[0] == "ended" else words[:at]
    by = words[1] if len(words) > 1 and words[1] in ("mine", "theirs") else None
    reason = _untext(words[2]) if by and len(words) > 2 else " ".join(words[1:]) if not by and len(words) > 1 else None
    return Progress(words[0], by, objective, reason)


class Agent:
    """A connection to the node with this control socket. `on_event` is handed each event that comes between answers."""

    def __init__(self, path, on_event=None):
        self.socket = socket.socket(socket.AF_UNIX)
        self.socket.connect(path)
        self.lines = self.socket.makefile("r", newline="\n", encoding="ascii")
        self.on_event = on_event

    def close(self):
        """The node forgets the agent and ends its sessions."""
        self.lines.close()
        self.socket.close()

    def __enter__(self):
        return self

    def __exit__(self, *_):
        self.close()

    def _line(self):
        line = self.lines.readline()
        if not line.endswith("\n"):
            raise ConnectionError("the node ended the connection")
        return line[:-1]

    def ask(self, line):
        """The words by which a line is answered."""
        self.socket.sendall((line + "\n").encode("ascii"))
        while True:
            told = self._line()
            if told.startswith("event "):
                if self.on_event:
                    self.on_event(told.split()[1:])
                continue
            words = told[len(line) + 2 :].split()
            if words and words[0] in ("refused", "error"):
                raise GraspError(words[1:])
            return words

    def _wait(self, millis, line):
        """The first answer that tells something, or the last one when the time is over. None waits for ever."""
        while True:
            words = self.ask(f"await {60000 if millis is None else millis} {line}")
            if millis is not None or words[0] not in ("notyet", "searching"):
                return words

    # ---- RFC 8991, section 2.3.

    def register_asa(self, name):
        return int(self.ask("asa " + _text(name))[1])

    def deregister_asa(self):
        self.ask("unasa")

    def register_objective(self, objective):
        flags = 1 + 2 * objective.neg + 4 * objective.synch + 8 * objective.dry
        self.ask(f"objective {_text(objective.name)} {flags}")

    def deregister_objective(self, objective):
        self.ask("unobjective " + _text(objective.name))

    def discover(self, objective, timeout=60000):
        """Where the objective is to be had, or nothing."""
        kind = "neg" if objective.neg else "syn"
        words = self._wait(timeout, f"discover {_text(objective.name)} {kind} {objective.loop_count} {timeout}")
        return [_locator(words[at : at + 4]) for at in range(1, len(words), 4)] if words[0] == "found" else []

    def request_negotiate(self, objective, peer, timeout=60000):
        """A session, and how it stands once the peer has answered."""
        dry = "dry" if objective.dry else "wet"
        limits = f"{objective.loop_count} {timeout} {dry}"
        words = self.ask(f"request {_text(objective.name)} {_value(objective.value)} {limits} {_locator_words(peer)}")
        session = Session(int(words[1]), peer)
        return session, self.poll(session, timeout + 2000)

    def listen_negotiate(self, objective, timeout=None):
        """A session and what the peer asks for, or None when so many milliseconds have passed."""
        words = self._wait(timeout, "listen " + _text(objective.name))
        return None if words[0] == "notyet" else (Session(int(words[1]), _address(words[2])), _objective(words[3:]))

    def stop_listen_negotiate(self, objective):
        self.ask("unlisten " + _text(objective.name))

    def _go_on(self, session, line, timeout):
        """Asks a line of a session, and returns how it stands then. A session that the peer has ended already returns that end."""
        try:
            self.ask(line)
        except GraspError as error:
            stands = self.poll(session) if error.name == "NotYourTurn" else None
            if stands is None or stands.kind in ("turn", "notyet"):
                raise
            return stands
        return self.poll(session, timeout)

    def negotiate_step(self, session, objective, timeout=62000):
        """Offers the objective's value, and returns how the session stands once the peer has answered."""
        return self._go_on(session, f"step {session.number} {_value(objective.value)}", timeout)

    def negotiate_wait(self, session, millis):
        self.ask(f"wait {session.number} {millis}")

    def end_negotiate(self, session, accept, reason=None):
        """Accepts the peer's last offer or declines it, and returns the end."""
        line = f"accept {session.number}" if accept else f"decline {session.number}"
        return self._go_on(session, line + (" " + _text(reason) if reason is not None and not accept else ""), 10000)

    def send_invalid_message(self, session, detail=ABSENT):
        return self._go_on(session, f"invalid {session.number} " + ("-" if detail is ABSENT else _value(detail)), 10000)

    def poll(self, session, timeout=0):
        """How the session stands once it isn't `notyet`, or when so many milliseconds have passed."""
        return _progress(self._wait(timeout, f"poll {session.number}"))

    def synchronize(self, objective, peer, timeout=60000):
        """The objective with the peer's value, in a Progress."""
        limits = f"{objective.loop_count} {timeout}"
        words = self.ask(f"synchronize {_text(objective.name)} {limits} {_locator_words(peer)}")
        return self.poll(Session(int(words[1]), peer), timeout + 2000)

    def listen_synchronize(self, objective):
        """From now on the objective's value is told to those who synchronize it."""
        self.ask(f"offer {_text(objective.name)} {_value(objective.value)}")

    def stop_listen_synchronize(self, objective):
        self.ask("unoffer " + _text(objective.name))

    def flood(self, objective, ttl):
        """Floods the objective's value, which is kept for so many milliseconds, or for ever where that is 0."""
        self.ask(f"flood {_text(objective.name)} {_value(objective.value)} {ttl} {objective.loop_count}")

    def get_flood(self, objective):
        words, floods = self.ask("floods " + _text(objective.name))[1:], []
        while words:
            has_none = words[6] == "none"
            locator = None if has_none else _locator(words[6:10])
            floods.append(Flood(_address(words[0]), _objective(words[1:6]), locator))
            words = words[7:] if has_none else words[10:]
        return floods

    def expire_flood(self, objective, initiator):
        self.ask(f"expire {_text(objective.name)} {_digits(initiator)}")

    # ---- The node's own.

    def state(self):
        """The prefixes by `held`, `reserved` and `doubt`."""
        prefixes = {}
        for word in self.ask("state"):
            if "/" in word:
                digits, length = word.split("/")
                prefixes[kind].append(ipaddress.ip_network((bytes.fromhex(digits), int(length))))
            else:
                kind = word
                prefixes[kind] = []
        return prefixes

    def want(self, length, longest, peer):
        """The number of one more want, or None where the node has no room for it."""
        words = self.ask(f"want {length} {longest} {_locator_words(peer)}")
        return int(words[1]) if words[0] == "ok" else None

    def counters(self):
        words = self.ask("counters")
        return dict(zip(words[::2], map(int, words[1::2])))

    def events(self):
        """The words of each event from now on, the first of them milliseconds, until the node ends."""
        self.ask("events")
        while True:
            try:
                told = self._line()
            except ConnectionError:
                return
            if told.startswith("event "):
                yield told.split()[1:]

    def stop(self):
        self.ask("stop")
