#!/usr/bin/env python3
"""Checks grasp.lua with tshark, on a capture that is made by hand.

usage: test.py [--keep FILE]

It writes a capture (Ethernet, IPv4 or IPv6, UDP and TCP with checksums) of messages whole, split over segments and spoilt,
lets tshark show it with the dissector in this folder, once in one pass and once in two, and compares the info column, the
fields and what display filters find with what must come. --keep leaves the capture in FILE. What differs is printed, and
last how many checks there were and how many differ; the exit status is 1 where some do, and 2 without tshark.
"""
import ipaddress
import pathlib
import shutil
import struct
import subprocess
import sys
import tempfile

HERE = pathlib.Path(__file__).resolve().parent
PORT = 7017

# ---- Packets.


def ones_sum(octets):
    """The Internet checksum (RFC 1071)."""
    total = sum(struct.unpack(f">{(len(octets) + 1) // 2}H", octets + b"\0" * (len(octets) % 2)))
    while total >> 16:
        total = (total & 0xFFFF) + (total >> 16)
    return ~total & 0xFFFF


def ip_packet(source, target, protocol, make):
    """An Ethernet frame of an IP packet; `make` makes its content for the sum of the pseudo header."""
    source, target = ipaddress.ip_address(source), ipaddress.ip_address(target)
    size = len(make(b""))
    if source.version == 4:
        content = make(source.packed + target.packed + struct.pack(">BBH", 0, protocol, size))
        head = struct.pack(">BBHHHBBH", 0x45, 0, 20 + size, 1, 0x4000, 64, protocol, 0) + source.packed + target.packed
        head = head[:10] + struct.pack(">H", ones_sum(head)) + head[12:]
        kind = 0x0800
    else:
        content = make(source.packed + target.packed + struct.pack(">IHBB", size, 0, 0, protocol))
        head = struct.pack(">IHBB", 0x60000000, size, protocol, 64) + source.packed + target.packed
        kind = 0x86DD
    return bytes.fromhex("020000000002020000000001") + struct.pack(">H", kind) + head + content


def udp(source, target, ports, payload):
    def make(pseudo):
        head = struct.pack(">HHHH", ports[0], ports[1], 8 + len(payload), 0)
        checksum = ones_sum(pseudo + head + payload) or 0xFFFF
        return head[:6] + struct.pack(">H", checksum) + payload
    return ip_packet(source, target, 17, make)


def tcp(source, target, ports, seq, ack, flags, payload=b""):
    def make(pseudo):
        head = struct.pack(">HHIIBBHHH", ports[0], ports[1], seq, ack, 0x50, flags, 65535, 0, 0)
        checksum = ones_sum(pseudo + head + payload)
        return head[:16] + struct.pack(">H", checksum) + head[18:] + payload
    return ip_packet(source, target, 6, make)


SYN, ACK, PUSH, FIN = 2, 16, 8, 1


class Capture:
    """Frames, and for each of them the case and the piece that it carries."""

    def __init__(self):
        self.frames, self.carried = [], []

    def add(self, frame, carried=None):
        self.frames.append(frame)
        self.carried.append(carried)

    def datagram(self, case, octets, client, hosts=("192.0.2.1", "192.0.2.2"), port=PORT):
        self.add(udp(*hosts, (client, port), octets), (case, 0))

    def stream(self, case, pieces, client, hosts=("192.0.2.1", "192.0.2.2"), port=PORT):
        """A connection; the client sends the pieces. One that is a pair (back, octets) is sent by the server."""
        ends = [(hosts[0], hosts[1], (client, port)), (hosts[1], hosts[0], (port, client))]
        at = [1000, 5000]
        self.add(tcp(*ends[0], at[0], 0, SYN))
        self.add(tcp(*ends[1], at[1], at[0] + 1, SYN | ACK))
        at = [at[0] + 1, at[1] + 1]
        self.add(tcp(*ends[0], at[0], at[1], ACK))
        for number, piece in enumerate(pieces):
            side, octets = (1, piece[1]) if isinstance(piece, tuple) else (0, piece)
            self.add(tcp(*ends[side], at[side], at[1 - side], PUSH | ACK, octets), (case, number))
            at[side] += len(octets)
        self.add(tcp(*ends[0], at[0], at[1], FIN | ACK))
        self.add(tcp(*ends[1], at[1], at[0] + 1, FIN | ACK))
        self.add(tcp(*ends[0], at[0] + 1, at[1] + 1, ACK))

    def write(self, path):
        out = [struct.pack("<IHHiIII", 0xA1B2C3D4, 2, 4, 0, 0, 262144, 1)]
        for number, frame in enumerate(self.frames):
            seconds, micros = 1700000000 + number // 100, number % 100 * 10000
            out.append(struct.pack("<IIII", seconds, micros, len(frame), len(frame)) + frame)
        path.write_bytes(b"".join(out))


# ---- What is sent, and what must be shown.

NOOP, WAIT, ACCEPT = "8100", "830701191388", "8306191234811865"
DECLINE = "830601821866626e6f"
REQUEST = "830301846d5072656669784d616e616765720306811838"
FLOOD = "85090150fd0000000000000000000000000000011903e88284616105010780"
RESPONSE = "850201447f00000119ea60841868447f00000106191b69"
LONGEST = "831863015907f9" + "00" * 2041
TOO_LONG = "831863015907fa" + "00" * 2042
V6 = "841867" + "50fd000000000000000000000000000002" + "06191b69"
FQDN = "84186966612e746573741107"
RESPONSE_LINE = "response 1 7f000001 60000 locators v4 7f000001 tcp 7017"
FLOOD_LINE = "flood 1 fd000000000000000000000000000001 1000 obj 'a 5 1 x07 none"
REQUEST_LINE = "request-neg 1 obj 'PrefixManager 3 6 x811838"

# Each datagram: a name, its bytes, the info column, and fields with all their values.
DATAGRAMS = [
    ("noop", NOOP, "noop", {"grasp.type": "0", "grasp.line": "noop", "grasp.session": ""}),
    ("wait", WAIT, "wait 1 5000", {"grasp.type": "7", "grasp.session": "1", "grasp.waiting_time": "5000"}),
    ("longer_head", "83071801191388", "wait 1 5000", {"grasp.session": "1"}),
    ("accept", ACCEPT, "end 4660 accept", {"grasp.type": "6", "grasp.session": "4660", "grasp.accept": "accept"}),
    ("decline", DECLINE, "end 1 decline 'no", {"grasp.decline.reason": "no", "grasp.decline": "decline 'no"}),
    ("decline_without_reason", "830601811866", "end 1 decline", {"grasp.decline": "decline", "grasp.decline.reason": ""}),
    ("request", REQUEST, REQUEST_LINE, {
        "grasp.type": "3", "grasp.objective.name": "PrefixManager", "grasp.objective.flags": "3",
        "grasp.objective.flags.disc": "1", "grasp.objective.flags.neg": "1", "grasp.objective.flags.synch": "0",
        "grasp.objective.flags.neg_dry": "0", "grasp.objective.loop_count": "6", "grasp.objective.value": "x811838",
        "grasp.objective": "obj 'PrefixManager 3 6 x811838", "grasp.diagnostic": "[56]"}),
    ("discovery", "84011affffffff447f000001836178" + "03" + "06", "discovery 4294967295 7f000001 obj 'x 3 6 -", {
        "grasp.type": "1", "grasp.session": "4294967295", "grasp.initiator": "7f000001",
        "grasp.initiator.ipv4": "127.0.0.1", "grasp.objective.value": ""}),
    ("request_syn", "83040183617305" + "06", "request-syn 1 obj 's 5 6 -", {"grasp.type": "4"}),
    ("negotiate", "830501846178" + "0a" + "18ff" + "05", "negotiate 1 obj 'x 10 255 x05", {
        "grasp.type": "5", "grasp.objective.flags.neg_dry": "1", "grasp.objective.loop_count": "255"}),
    ("synch", "83080184617305" + "060a", "synch 1 obj 's 5 6 x0a", {"grasp.type": "8", "grasp.objective.value": "x0a"}),
    ("flood", FLOOD, FLOOD_LINE, {
        "grasp.type": "9", "grasp.initiator.ipv6": "fd00::1", "grasp.ttl": "1000", "grasp.objective.name": "a",
        "grasp.locator": ""}),
    ("flood_of_two", "86090144" + "7f000001" + "00" + "82" + "83616105" + "01" + "80" + "82" + "83616205" + "02" + FQDN,
     "flood 1 7f000001 0 obj 'a 5 1 - none obj 'b 5 2 - fqdn 'a.test udp 7", {
         "grasp.objective.name": "a;b", "grasp.locator.fqdn": "a.test", "grasp.locator.proto": "17", "grasp.locator.port": "7"}),
    ("response", RESPONSE, RESPONSE_LINE, {
        "grasp.type": "2", "grasp.ttl": "60000", "grasp.locator.type": "104", "grasp.locator.ipv4": "127.0.0.1",
        "grasp.locator.proto": "6", "grasp.locator.port": "7017", "grasp.locator": "v4 7f000001 tcp 7017"}),
    ("response_of_two", "870201447f00000119ea60" + V6 + "84186a6261620619" + "0050" + "83617803" + "06",
     "response 1 7f000001 60000 locators v6 fd000000000000000000000000000002 tcp 7017 uri 'ab tcp 80 obj 'x 3 6 -", {
         "grasp.locator.ipv6": "fd00::2", "grasp.locator.uri": "ab", "grasp.locator.port": "7017;80",
         "grasp.objective.name": "x"}),
    ("divert", "850201447f0000010a" + "82" + "1864" + V6,
     "response 1 7f000001 10 divert v6 fd000000000000000000000000000002 tcp 7017", {
         "grasp.divert": "divert v6 fd000000000000000000000000000002 tcp 7017", "grasp.locator.type": "103"}),
    ("uri_without_port", "850201447f0000010a" + "84186a6261" + "62f6f6", "response 1 7f000001 10 locators uri 'ab - -", {
        "grasp.locator.proto": "", "grasp.locator.port": ""}),
    ("text_with_marks", "830601821866" + "66" + "c3a920272541", "end 1 decline '%c3%a9%20'%25A", {
        "grasp.decline.reason": "é '%A"}),
    ("invalid", "8318630107", "invalid 1 x07", {"grasp.type": "99", "grasp.invalid.detail": "x07"}),
    ("invalid_without_detail", "82186301", "invalid 1 -", {"grasp.invalid.detail": ""}),
    ("detail_deep_enough", "83186301" + "81" * 12 + "80", "invalid 1 x" + "81" * 12 + "80", {
        "grasp.diagnostic": "[" * 13 + "]" * 13}),
    ("longest_message", LONGEST, ("invalid 1 x5907f9" + "0" * 4082)[:512] + "..", {
        "grasp.line": "invalid 1 x5907f9" + "0" * 4082}),
    ("shortest_value", "83186301" + "9f1800" + "1b0000000000000001" + "3bffffffffffffffff" + "bf01f4ff" + "c11a5f5e1000"
     + "fb3ff8000000000000" + "f93c00" + "f8ff" + "5f4101420203ff" + "7f616161" + "62ff" + "ff",
     "invalid 1 x8a" + "00" + "01" + "3bffffffffffffffff" + "a101f4" + "c11a5f5e1000"
     + "fb3ff8000000000000" + "f93c00" + "f8ff" + "43010203" + "626162", {
         "grasp.diagnostic": "[0, 1, -1-0xffffffffffffffff, {1: false}, 1(1600000000), 1.5, 1.0, simple(255), h'010203', "
                             '"ab"]'}),
    ("indefinite_noop", "9f00ff", "noop", {}),
    ("indefinite_wait", "9f0701191388ff", "wait 1 5000", {}),
    ("indefinite_reason", "8306019f18667f616e616fffff", "end 1 decline 'no", {"grasp.decline.reason": "no"}),
    ("chunks_of_an_initiator", "8401" + "01" + "5f427f00420001ff" + "83617803" + "06",
     "discovery 1 7f000001 obj 'x 3 6 -", {"grasp.initiator.ipv4": "127.0.0.1", "grasp.initiator": "7f000001"}),
    # What is wrong.
    ("reserved_head", "83071c", "malformed at 2", {"grasp.fault": "malformed at 2", "grasp.fault.at": "2", "grasp.type": ""}),
    ("simple_below_32", "83186301f81f", "malformed at 5", {}),
    ("break_alone", "ff", "malformed at 0", {}),
    ("half_a_pair", "bf00ff", "malformed at 2", {}),
    ("chunk_of_another_major", "5f6161ff", "malformed at 1", {}),
    ("break_in_a_definite_array", "8200ff", "malformed at 2", {}),
    ("break_after_a_tag", "9fc1ff", "malformed at 2", {}),
    ("not_text", "83060182186661c3", "not text at 7", {}),
    ("not_text_surrogate", "83060182186663eda080", "not text at 8", {}),
    ("not_text_third_byte", "83060182186663e28241", "not text at 9", {}),
    ("character_cut_between_chunks", "7f61c361a9ff", "not text at 2", {}),
    ("too_deep", "81" * 17, "too deep at 16", {"grasp.fault.at": "16"}),
    ("truncated", "8307011913", "truncated at 5", {"grasp.fault": "truncated at 5"}),
    ("trailing", "810000", "noop | trailing at 2", {"grasp.type": "0", "grasp.fault": "trailing at 2"}),
    ("flags_sixteen", REQUEST.replace("720306", "721006"), "not a message at 0", {
        "grasp.fault.at": "0", "grasp.diagnostic": '[3, 1, ["PrefixManager", 16, 6, [56]]]'}),
    ("detail_too_deep", "83186301" + "81" * 13 + "80", "not a message at 0", {}),
    ("too_long", TOO_LONG, "too long at 0", {"grasp.fault": "too long at 0"}),
    ("open_at_the_limit", TOO_LONG[:4096], "too long at 0", {}),
    ("open_before_the_limit", TOO_LONG[:4094], "truncated at 2047", {}),
    ("unknown_type", "820a01", "not a message at 0", {}),
    ("float_as_session", "8307fa3f800000" + "05", "not a message at 0", {}),
    ("flood_without_parts", "84090144" + "7f00000100", "not a message at 0", {}),
    ("divert_and_locator", "860201447f0000010a" + "82" + "1864" + V6 + V6, "not a message at 0", {}),
    ("endless_array", "9bffffffffffffffff00", "truncated at 10", {}),
]


def split(octets, *places):
    ends = [0, *places, len(octets)]
    return [octets[start:end] for start, end in zip(ends, ends[1:])]


def hexes(*parts):
    return bytes.fromhex("".join(parts))


# Each stream: a name, its segments, and for each segment its info column, or None where it only has a part of a message.
STREAMS = [
    ("one_message", [hexes(WAIT)], ["wait 1 5000"]),
    ("three_in_a_segment", [hexes(WAIT, NOOP, ACCEPT)], ["wait 1 5000 | noop | end 4660 accept"]),
    ("byte_by_byte", [hexes(WAIT, ACCEPT)[i:i + 1] for i in range(14)],
     [None] * 5 + ["wait 1 5000"] + [None] * 7 + ["end 4660 accept"]),
    ("split_in_the_second", split(hexes(WAIT, REQUEST, NOOP), 10, 20), ["wait 1 5000", None, REQUEST_LINE + " | noop"]),
    ("split_in_a_text", split(hexes("830601821866", "62c3a9"), 8), [None, "end 1 decline '%c3%a9"]),
    ("split_in_an_indefinite_array", split(hexes("9f0701191388ff", NOOP), 6), [None, "wait 1 5000 | noop"]),
    ("longest_message", split(hexes(LONGEST, NOOP), 1000, 2000), [None, None, (
        "invalid 1 x5907f9" + "0" * 4082)[:512] + ".. | noop"]),
    ("too_long", split(hexes(TOO_LONG), 1000, 2000, 2047), [None, None, None, "too long at 0"]),
    ("open_at_the_limit", split(hexes(TOO_LONG[:4096]), 2047), [None, "too long at 0"]),
    ("fault_after_a_message", [hexes(WAIT, "83071c"), hexes(NOOP)], ["wait 1 5000 | malformed at 2", "after a fault"]),
    ("fault_over_segments", split(hexes("83071c00", NOOP), 2, 4), [None, "malformed at 2", "after a fault"]),
    ("fault_of_a_text_over_segments", split(hexes("83060182186663eda0"), 8), [None, "not text at 8"]),
    ("not_a_message_after_a_message", [hexes(NOOP, "00"), hexes(NOOP)], ["noop | not a message at 0", "after a fault"]),
    ("both_ways", [hexes(REQUEST), ("back", hexes(WAIT)), ("back", hexes("83071c")), hexes(ACCEPT), ("back", hexes(NOOP))],
     [REQUEST_LINE, "wait 1 5000", "malformed at 2", "end 4660 accept", "after a fault"]),
]

# Display filters, and the datagrams that they must find.
FILTERS = [
    ("grasp.waiting_time == 5000 && udp", ["wait", "longer_head", "indefinite_wait"]),
    ('grasp.objective.name == "PrefixManager" && udp', ["request"]),
    ("grasp.objective.flags.synch == 1 && grasp.type == 9 && udp", ["flood", "flood_of_two"]),
    ("grasp.objective.flags.neg_dry == 1 && udp", ["negotiate"]),
    ("grasp.initiator.ipv6 == fd00::1 && udp", ["flood"]),
    ("grasp.initiator == 7f:00:00:01 && grasp.type == 1", ["discovery", "chunks_of_an_initiator"]),
    ("grasp.locator.port == 80", ["response_of_two"]),
    ("grasp.divert", ["divert"]),
    ("grasp.too_deep", ["too_deep"]),
    ("grasp.trailing && udp", ["trailing"]),
    ("grasp.malformed && udp", ["reserved_head", "simple_below_32", "break_alone", "half_a_pair", "chunk_of_another_major",
                                "break_in_a_definite_array", "break_after_a_tag"]),
    ("grasp.not_text && udp", ["not_text", "not_text_surrogate", "not_text_third_byte", "character_cut_between_chunks"]),
    ("grasp.fault.at == 7", ["not_text"]),
    ('_ws.expert.message == "truncated at 5"', ["truncated"]),
]


def capture_of():
    capture, client = Capture(), 40000
    for number, (name, octets, _, _) in enumerate(DATAGRAMS):
        hosts = ("192.0.2.1", "192.0.2.2") if number % 2 else ("fd00::1", "ff02::13")
        capture.datagram(f"udp {name}", bytes.fromhex(octets), client + number, hosts)
    for number, (name, pieces, _) in enumerate(STREAMS):
        hosts = ("192.0.2.1", "192.0.2.2") if number % 2 else ("fd00::1", "fd00::2")
        capture.stream(f"tcp {name}", pieces, client + 1000 + number, hosts)
    capture.stream("tcp other_port", [hexes(WAIT)], client + 2000, port=7100)
    capture.datagram("udp other_port", hexes(WAIT), client + 2001, port=7101)
    return capture


class Tshark:
    """Calls of tshark over one capture."""

    def __init__(self, path):
        self.path = path
        self.info = "_ws.col.Info"
        if self.call("-c", "1", "-T", "fields", "-e", self.info).returncode:
            self.info = "_ws.col.info"

    def call(self, *words):
        command = ["tshark", "-n", "-r", str(self.path), "-X", f"lua_script:{HERE / 'grasp.lua'}",
                   "-o", "ip.check_checksum:TRUE", "-o", "udp.check_checksum:TRUE", "-o", "tcp.check_checksum:TRUE", *words]
        return subprocess.run(command, capture_output=True, encoding="utf-8", errors="replace")

    def rows(self, fields, *words):
        """For each packet the values of these fields."""
        chosen = [word for each in ["frame.number", *fields] for word in ("-e", each)]
        done = self.call("-T", "fields", "-E", "separator=/t", "-E", "occurrence=a", "-E", "aggregator=;", *chosen, *words)
        troubles = [line for line in done.stderr.splitlines() if line and not line.startswith("Running as user")]
        if done.returncode or troubles:
            sys.exit(f"tshark: status {done.returncode}\n" + "\n".join(troubles))
        return {int(row[0]): row[1:] for row in (line.split("\t") for line in done.stdout.splitlines())}


class Checks:
    def __init__(self):
        self.made, self.wrong = 0, 0

    def same(self, what, found, wanted):
        self.made += 1
        if found != wanted:
            self.wrong += 1
            print(f"{what}\n  found  {found!r}\n  wanted {wanted!r}")


def check_columns(checks, capture, tshark, *words):
    """The protocol and info columns of all packets with bytes."""
    rows = tshark.rows([tshark.info, "_ws.col.Protocol" if "Info" in tshark.info else "_ws.col.protocol"], *words)
    wanted = {(f"udp {name}", 0): info for name, _, info, _ in DATAGRAMS}
    wanted.update({(f"tcp {name}", i): info for name, _, infos in STREAMS for i, info in enumerate(infos)})
    for number, carried in enumerate(capture.carried, 1):
        info, protocol = rows[number]
        if carried not in wanted or wanted[carried] is None:
            checks.same(f"{carried} {words} protocol", protocol, "UDP" if carried and carried[0].startswith("udp") else "TCP")
        else:
            checks.same(f"{carried} {words} info", (protocol, info), ("GRASP", wanted[carried]))


def check_fields(checks, capture, tshark):
    names = sorted({name for _, _, _, fields in DATAGRAMS for name in fields})
    rows = tshark.rows(names)
    for number, carried in enumerate(capture.carried, 1):
        for name, _, _, fields in DATAGRAMS if carried and carried[0].startswith("udp") else ():
            if carried[0] == f"udp {name}":
                found = dict(zip(names, rows[number]))
                checks.same(f"{name} fields", {key: found[key] for key in fields}, fields)


def check_sums(checks, capture, tshark):
    rows = tshark.rows(["ip.checksum.status", "udp.checksum.status", "tcp.checksum.status"])
    for number in range(1, len(capture.frames) + 1):
        checks.same(f"checksums of packet {number}", {word for word in rows[number] if word} - {"1", "Good"}, set())


def check_tree(checks, tshark):
    """No packet met an error of the script."""
    shown = tshark.call("-V").stdout
    checks.same("errors of the script", [line for line in shown.splitlines() if "Lua Error" in line], [])


def check_filters(checks, capture, tshark):
    for words, names in FILTERS:
        found = [capture.carried[number - 1][0] for number in tshark.rows([], "-Y", words)]
        checks.same(f"filter {words}", found, [f"udp {name}" for name in names])


def check_ports(checks, capture, tshark):
    """Other ports are read where the preferences name them, and 7017 is not where they don't."""
    rows = tshark.rows([tshark.info], "-Y", "grasp", "-o", "grasp.tcp_ports:7100-7110", "-o", "grasp.udp_ports:7101")
    found = [(capture.carried[number - 1], row[0]) for number, row in rows.items()]
    checks.same("other ports", found, [(("tcp other_port", 0), "wait 1 5000"), (("udp other_port", 0), "wait 1 5000")])
    rows = tshark.rows([tshark.info], "-Y", "grasp", "-d", "tcp.port==7100,grasp", "-d", "udp.port==7101,grasp")
    found = [row[0] for number, row in rows.items() if capture.carried[number - 1][0].endswith("other_port")]
    checks.same("decode as", found, ["wait 1 5000", "wait 1 5000"])


def check_limit(checks, capture, tshark):
    """A larger limit makes a message of what is too long by default."""
    rows = tshark.rows(["grasp.line"], "-Y", "grasp && udp", "-o", "grasp.limit:2049")
    found = [row[0] for number, row in rows.items() if capture.carried[number - 1][0] == "udp too_long"]
    checks.same("larger limit", found, ["invalid 1 x5907fa" + "0" * 4084])


def main():
    if len(sys.argv) not in (1, 3) or len(sys.argv) == 3 and sys.argv[1] != "--keep":
        print(__doc__)
        return 2
    if not shutil.which("tshark"):
        print("tshark isn't installed")
        return 2
    with tempfile.TemporaryDirectory() as folder:
        path = pathlib.Path(sys.argv[2]) if len(sys.argv) == 3 else pathlib.Path(folder) / "grasp.pcap"
        capture, checks = capture_of(), Checks()
        capture.write(path)
        tshark = Tshark(path)
        check_sums(checks, capture, tshark)
        check_columns(checks, capture, tshark)
        check_columns(checks, capture, tshark, "-2")
        check_fields(checks, capture, tshark)
        check_tree(checks, tshark)
        check_filters(checks, capture, tshark)
        check_ports(checks, capture, tshark)
        check_limit(checks, capture, tshark)
    print(f"{len(DATAGRAMS)} datagrams, {len(STREAMS)} streams: {checks.made} checks, {checks.wrong} wrong")
    return 1 if checks.wrong else 0


if __name__ == "__main__":
    sys.exit(main())
