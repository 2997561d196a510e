#!/usr/bin/env python3
"""Checks tools/chart.py: the arrows of runs whose reports or traces are known, the refusals, the examples and the picture in docs.

usage: python3 tools/test_chart.py

The runs are written out here as reports. In their lines @K stands for the address of node K, {DIGITS} for 20010db80000, four digits and sixteen zeros, and PM for
'PrefixManager.
"""
import pathlib
import re
import subprocess
import sys
import tempfile
import unittest
import xml.etree.ElementTree as tree

HERE = pathlib.Path(__file__).resolve().parent
sys.dont_write_bytecode = True
sys.path.insert(0, str(HERE))
import chart  # noqa: E402

GROUP = "{http://www.w3.org/2000/svg}g"
TWO = "nodes 2\nlink 1 2\nstart\n"
AGENTS = """api 1 0 asa 'a = asa 2
api 1 2 objective 'x 2 = done
api 1 2 listen 'x = notyet
api 2 0 asa 'b = asa 2
api 2 2 objective 'x 2 = done
"""
POOLS = "nodes 2\nroot 1 {0000}/48\nlink 1 2\nstart\n"

LOST_ACCEPTANCE = POOLS + """want 2 56 64 1 = ok
agent 2 request PM x811838 6 60000 wet 1 = started 1
arrive 1 = taken
bytes 1 far 9999 = taken
agent 1 listen PM = incoming 1 @2 obj PM 3 6 x811838
agent 1 poll 1 = turn obj PM 3 6 x811838
agent 1 step 1 x82183850{0000} = done
bytes 1 near 9999 = taken
agent 2 listen PM = notyet
agent 2 poll 1 = turn obj PM 3 5 x82183850{0000}
agent 2 accept 1 = done
cut 1 far = taken
agent 1 listen PM = notyet
agent 1 poll 1 = ended broken
state 1 = held {0100}/56 {0200}/55 {0400}/54 {0800}/53 {1000}/52 {2000}/51 {4000}/50 {8000}/49 reserved doubt {0000}/56
state 2 = held {0000}/56 reserved doubt
want 2 56 64 1 = busy 56 64
agent 2 listen PM = notyet
agent 2 poll 1 = ended agreed mine obj PM 3 5 x82183850{0000}
want 2 56 64 1 = ok
agent 2 request PM x811838 6 60000 wet 1 = started 2
arrive 2 = taken
bytes 2 far 9999 = taken
agent 1 listen PM = incoming 2 @2 obj PM 3 6 x811838
agent 1 poll 2 = turn obj PM 3 6 x811838
agent 1 step 2 x82183850{0100} = done
"""
COUNTER_OFFER = POOLS + """want 2 58 60 1 = ok
agent 2 request PM x81183a 6 60000 wet 1 = started 1
arrive 1 = taken
bytes 1 far 9999 = taken
agent 1 listen PM = incoming 1 @2 obj PM 3 6 x81183a
agent 1 poll 1 = turn obj PM 3 6 x81183a
agent 1 step 1 x82183850{0000} = done
bytes 1 near 9999 = taken
agent 2 listen PM = notyet
agent 2 poll 1 = turn obj PM 3 5 x82183850{0000}
agent 2 step 1 x81183a = done
bytes 1 far 9999 = taken
agent 1 listen PM = notyet
agent 1 poll 1 = turn obj PM 3 4 x81183a
agent 1 step 1 x82183a50{0000} = done
bytes 1 near 9999 = taken
agent 2 listen PM = notyet
agent 2 poll 1 = turn obj PM 3 3 x82183a50{0000}
agent 2 accept 1 = done
bytes 1 far 9999 = taken
agent 1 listen PM = notyet
agent 1 poll 1 = ended agreed theirs obj PM 3 3 x82183a50{0000}
state 1 = held {0040}/58 {0080}/57 {0100}/56 {0200}/55 {0400}/54 {0800}/53 {1000}/52 {2000}/51 {4000}/50 {8000}/49 reserved doubt
state 2 = held {0000}/58 reserved doubt
"""
LAST_LOOP = AGENTS + """api 2 2 request 'x x01 1 60000 wet 1 = started 1
arrive 1 = taken
bytes 1 far 9999 = taken
api 1 2 listen 'x = incoming 1 @2 obj 'x 2 1 x01
api 1 2 step 1 x02 = refused 14 LoopsSpent
api 1 2 accept 1 = done
bytes 1 near 9999 = taken
api 2 2 poll 1 = ended agreed theirs obj 'x 2 1 x01
api 1 2 poll 1 = ended agreed mine obj 'x 2 1 x01
"""
WAITS = AGENTS + """api 2 2 request 'x x01 6 1000 wet 1 = started 1
arrive 1 = taken
bytes 1 far 9999 = taken
api 1 2 listen 'x = incoming 1 @2 obj 'x 2 6 x01
api 1 2 wait 1 5000 = done
api 1 2 wait 1 1 = done
api 1 2 wait 1 1 = done
api 1 2 wait 1 1 = done
api 1 2 wait 1 1 = refused 15 WaitsSpent
bytes 1 near 9999 = taken
clock 2 4999 = 4999
api 2 2 poll 1 = notyet
clock 2 5000 = 5000
api 2 2 poll 1 = ended timedout 5000 5000
api 2 2 poll 1 = refused 12 NoSession
"""
REFUSING = AGENTS + """api 2 2 request 'x x01 6 1000 wet 1 = started 1
arrive 1 = taken
bytes 1 far 9999 = taken
api 1 2 listen 'x = incoming 1 @2 obj 'x 2 6 x01
api 1 2 invalid 1 x07 = done
bytes 1 near 9999 = taken
api 2 2 poll 1 = ended invalid theirs
api 1 2 unlisten 'x = done
api 2 2 request 'x x01 6 1000 wet 1 = started 2
arrive 2 = taken
bytes 2 far 9999 = taken
bytes 2 near 9999 = taken
api 2 2 poll 2 = ended declined theirs 'unlistened
api 1 2 unobjective 'x = done
api 1 2 unasa = done
api 1 2 unasa = refused 1 NoAsa
"""
FLOOD = "nodes 3\nlink 1 2\nlink 2 3\nstart\n" + """api 1 0 asa 'a = asa 2
api 1 2 objective 'f 5 = done
hold api 1 2 flood 'f x07 1000 6 = done
datagram 1 = nothing
drain 1 256 = sent 1
datagram 1 = taken
datagram 2 = taken
clock 3 400 = 400
datagram 2 = taken
api 3 0 asa 'c = asa 2
clock 3 1399 = 1399
api 3 2 floods 'f = floods @1 obj 'f 5 5 x07 none
clock 3 1400 = 1400
api 3 2 floods 'f = floods
api 1 2 flood 'f x08 0 6 = done
datagram 3 = taken
datagram 4 = taken
clock 3 1099511627776 = 1099511627776
api 3 2 floods 'f = floods @1 obj 'f 5 5 x08 none
api 3 2 expire 'f 1 = done
api 3 2 expire 'f 1 = refused 16 NoFlood
"""
RING = "nodes 3\nlink 1 2\nlink 2 3\nlink 3 1\nstart\n" + """api 1 0 asa 'a = asa 2
api 1 2 discover 'x neg 3 1000 = searching
datagram 1 = taken
datagram 2 = taken
datagram 3 = taken
datagram 4 = taken
datagram 5 = nothing
api 1 2 discover 'x neg 3 1000 = notyet
clock 1 1000 = 1000
api 1 2 discover 'x neg 3 1000 = nothing
"""
FINDING = TWO + """api 1 0 asa 'a = asa 2
api 1 2 discover PM neg 6 1000 = searching
datagram 1 = taken
arrive 1 = taken
bytes 1 far 9999 = taken
api 1 2 discover PM neg 6 1000 = found v6 @2 tcp 7017
"""
SYNCHRONIZING = TWO + """api 1 0 asa 'a = asa 2
api 1 2 objective 's 5 = done
api 1 2 offer 's x0a = done
api 2 0 asa 'b = asa 2
api 2 2 objective 's 5 = done
api 2 2 synchronize 's 6 1000 1 = started 1
arrive 1 = taken
bytes 1 far 9999 = taken
bytes 1 near 9999 = taken
api 2 2 poll 1 = ended synchronized obj 's 5 6 x0a
api 1 2 unoffer 's = done
"""
# A discovery that a node between answers by sending the response on, and a later one that it answers of what it kept.
RELAYED = "nodes 3\nlink 1 2\nlink 2 3\nstart\n" + """api 1 0 asa 'a = asa 2
api 3 0 asa 'c = asa 2
api 3 2 objective 'y 3 = done
api 1 2 discover 'y neg 6 1000 = searching
datagram 1 = taken
datagram 2 = taken
arrive 1 = taken
bytes 1 far 20 = taken
bytes 1 far 9999 = taken
arrive 2 = taken
bytes 2 far 9999 = taken
api 1 2 discover 'y neg 6 1000 = found v6 @3 tcp 7017
"""
AGREEMENT = AGENTS + """api 2 2 request 'x x0a 4 60000 wet 1 = started 1
arrive 1 = taken
bytes 1 far 100 = taken
api 1 2 listen 'x = incoming 1 @2 obj 'x 2 4 x0a
api 1 2 wait 1 5000 = done
api 1 2 step 1 x05 = done
bytes 1 near 100 = taken
api 2 2 poll 1 = turn obj 'x 2 3 x05
api 2 2 accept 1 = done
bytes 1 far 100 = taken
api 1 2 poll 1 = ended agreed theirs obj 'x 2 3 x05
api 2 2 poll 1 = ended agreed mine obj 'x 2 3 x05
"""


# The lines that the two nodes of examples/two_nodes wrote, @K being their addresses, as they came.
PAIR = """2026-11-30T14:50:10.592Z @1 received opening 1 7f000002
2026-11-30T14:50:10.592Z @2 sent dial 0 v4 7f000001 tcp 7017
2026-11-30T14:50:10.592Z @1 received message 1 request-neg 982143829 obj PM 3 6 x811838
2026-11-30T14:50:10.592Z @2 sent message 0 request-neg 982143829 obj PM 3 6 x811838
2026-11-30T14:50:10.623Z @1 sent message 1 negotiate 982143829 obj PM 3 5 x82183850{0000}
2026-11-30T14:50:10.623Z @2 received message 0 negotiate 982143829 obj PM 3 5 x82183850{0000}
2026-11-30T14:50:10.658Z @2 sent message 0 end 982143829 accept
2026-11-30T14:50:10.658Z @2 sent closing 0
2026-11-30T14:50:10.658Z @1 received message 1 end 982143829 accept
2026-11-30T14:50:10.658Z @1 sent closing 1
"""
# The logs of two nodes that serve, of which the first has one more neighbour.
GIVER = """2026-11-30T14:55:24.709Z giver received opening 1 7f000002
2026-11-30T14:55:24.709Z giver sent datagram 0 0 flood 4160700578 @1 60000 obj 'x 5 3 x05 none
2026-11-30T14:55:24.709Z giver sent datagram 0 1 flood 4160700578 @1 60000 obj 'x 5 3 x05 none
2026-11-30T14:55:24.709Z giver received message 1 request-neg 2370777740 obj PM 3 6 x811838
2026-11-30T14:55:24.709Z giver event 367 offered {0000}/56
2026-11-30T14:55:24.709Z giver sent message 1 negotiate 2370777740 obj PM 3 5 x82183850{0000}
2026-11-30T14:55:24.709Z giver received message 1 end 2370777740 accept
2026-11-30T14:55:24.709Z giver sent closing 1
"""
TAKER = """2026-11-30T14:55:24.708Z taker two sent dial 0 v4 7f000001 tcp 7117
2026-11-30T14:55:24.708Z taker two sent message 0 request-neg 2370777740 obj PM 3 6 x811838
2026-11-30T14:55:24.709Z taker two received datagram 0 0 flood 4160700578 @1 60000 obj 'x 5 3 x05 none
2026-11-30T14:55:24.709Z taker two received message 0 negotiate 2370777740 obj PM 3 5 x82183850{0000}
2026-11-30T14:55:24.709Z taker two event 2 gained {0000}/56
2026-11-30T14:55:24.709Z taker two sent message 0 end 2370777740 accept
2026-11-30T14:55:24.710Z taker two received closing 0
"""
# Each line that a node writes: those of crates/grasp_tests_formats/src/traced.rt.
EACH = """received datagram 1 2 wait 1 5000
received datagram 1 2 no message in 1 bytes
received opening 1 7f000001
received message 1 noop
received message 1 wait 1 5000
received stream 1 no message at 8
received closing 1
sent datagram 3 4 noop
sent dial 0 v4 7f000001 tcp 7017
sent message 0 noop
sent closing 0
lost datagram 3 4 noop
failed dial 0 v4 7f000001 tcp 7017
failed message 0 noop
failed closing 0
"""
EACH = "".join(f"2026-11-29T07:10:29.828Z 7f000009 {line}\n" for line in EACH.splitlines())


def written_out(reports):
    """The reports with their addresses, prefixes and names."""
    text = re.sub(r"@([0-9])", lambda found: "fd" + "0" * 28 + f"0{found.group(1)}", reports)
    text = re.sub(r"\{([0-9a-f]{4})\}", lambda found: "20010db80000" + found.group(1) + "0" * 16, text)
    return re.sub(r"\bPM\b", "'PrefixManager", text).encode()


def groups_of(reports, script=None):
    svg = chart.chart(written_out(reports), script)
    return [group for group in tree.fromstring(svg).iter(GROUP)]


def arrows_of(reports, script=None):
    """Each arrow: its kind, the nodes from and to, and its words after the first part."""
    found = []
    for group in groups_of(reports, script):
        if "data-from" in group.attrib:
            kind = group.attrib["class"].split(" ")[0]
            words = group.attrib["data-words"]
            found.append((kind, int(group.attrib["data-from"]), int(group.attrib["data-to"]), words))
    return found


def of_kind(reports, kind):
    return [group.attrib for group in groups_of(reports) if group.attrib["class"].split(" ")[0] == kind]


class Arrows(unittest.TestCase):
    def expect(self, reports, wanted):
        """Each wanted arrow is kind, from, to and words that are to be in it; there are no others."""
        found = arrows_of(reports)
        self.assertEqual([arrow[:3] for arrow in found], [arrow[:3] for arrow in wanted])
        for arrow, want in zip(found, wanted):
            for words in want[3:]:
                self.assertIn(words, arrow[3])

    def test_lost_acceptance(self):
        self.expect(LOST_ACCEPTANCE, [
            ("arrival", 2, 1, "stream 1"), ("bytes", 2, 1, "stream 1, 9999", "request-neg obj 'PrefixManager 3 6 x811838"),
            ("bytes", 1, 2, "negotiate obj 'PrefixManager 3 5 x82183850"), ("arrival", 2, 1, "stream 2"),
            ("bytes", 2, 1, "stream 2, 9999", "request-neg obj 'PrefixManager 3 6 x811838")])
        self.assertEqual([cut["data-node"] for cut in of_kind(LOST_ACCEPTANCE, "cut")], ["1"])
        self.assertEqual([state["data-node"] for state in of_kind(LOST_ACCEPTANCE, "state")], ["1", "2"])
        self.assertEqual(len(of_kind(LOST_ACCEPTANCE, "want")), 3)
        self.assertIn("stream 1, to 1: end accept", chart.chart(written_out(LOST_ACCEPTANCE)))

    def test_counter_offer(self):
        self.expect(COUNTER_OFFER, [
            ("arrival", 2, 1, "stream 1"), ("bytes", 2, 1, "request-neg obj 'PrefixManager 3 6 x81183a"),
            ("bytes", 1, 2, "negotiate obj 'PrefixManager 3 5 x82183850"),
            ("bytes", 2, 1, "negotiate obj 'PrefixManager 3 4 x81183a"),
            ("bytes", 1, 2, "negotiate obj 'PrefixManager 3 3 x82183a50"), ("bytes", 2, 1, "end accept")])
        self.assertNotIn("Sent and not delivered", chart.chart(written_out(COUNTER_OFFER)))

    def test_last_loop_allows_no_step(self):
        wanted = [("arrival", 2, 1, "stream 1"), ("bytes", 2, 1, "request-neg obj 'x 2 1 x01"), ("bytes", 1, 2, "end accept")]
        self.expect(LAST_LOOP, wanted)
        self.expect(TWO + LAST_LOOP, wanted)
        self.assertEqual(arrows_of(LAST_LOOP), arrows_of(LAST_LOOP, TWO.encode()))
        refused = [group for group in groups_of(LAST_LOOP) if "faint" in group.attrib["class"]]
        self.assertEqual([group.attrib["data-words"] for group in refused], ["asa 2: step 1 x02 | = refused 14 LoopsSpent"])

    def test_waits_and_timeout(self):
        self.expect(WAITS, [
            ("arrival", 2, 1, "stream 1"), ("bytes", 2, 1, "request-neg obj 'x 2 6 x01"),
            ("bytes", 1, 2, "wait 5000 | wait 1 | wait 1 | wait 1")])
        self.assertEqual([clock["data-words"] for clock in of_kind(WAITS, "clock")], ["node 2: 4999 ms", "node 2: 5000 ms"])

    def test_listener_refuses(self):
        self.expect(REFUSING, [
            ("arrival", 2, 1, "stream 1"), ("bytes", 2, 1, "request-neg"), ("bytes", 1, 2, "invalid x07"),
            ("arrival", 2, 1, "stream 2"), ("bytes", 2, 1, "request-neg", "sends on stream 2"),
            ("bytes", 1, 2, "end decline 'unlistened")])

    def test_flood_through_a_relay(self):
        self.expect(FLOOD, [
            ("datagram", 1, 2, "datagram 1: flood @1 1000 obj 'f 5 6 x07 none", "sends datagram 2"),
            ("datagram", 2, 3, "datagram 2: flood @1 1000 obj 'f 5 5 x07 none"), ("datagram", 2, 3, "datagram 2 again"),
            ("datagram", 1, 2, "datagram 3: flood @1 0 obj 'f 5 6 x08 none", "sends datagram 4"),
            ("datagram", 2, 3, "datagram 4: flood @1 0 obj 'f 5 5 x08 none")])
        self.assertEqual([drain["data-words"] for drain in of_kind(FLOOD, "drain")], ["drain 256 = sent 1 | sends datagram 1"])
        self.assertEqual(len(of_kind(FLOOD, "clock")), 4)
        self.assertEqual(len(of_kind(FLOOD, "nothing")), 1)

    def test_discovery_round_a_ring(self):
        self.expect(RING, [
            ("datagram", 1, 2, "datagram 1: discovery @1 obj 'x 3 3 -", "sends datagram 3"),
            ("datagram", 1, 3, "datagram 2: discovery @1 obj 'x 3 3 -", "sends datagram 4"),
            ("datagram", 2, 3, "datagram 3: discovery @1 obj 'x 3 2 -"),
            ("datagram", 3, 2, "datagram 4: discovery @1 obj 'x 3 2 -")])

    def test_discovery_finds(self):
        self.expect(FINDING, [
            ("datagram", 1, 2, "datagram 1: discovery @1 obj 'PrefixManager 3 6 -", "dials stream 1"),
            ("arrival", 2, 1, "stream 1"), ("bytes", 2, 1, "response @1 60000 locators v6 @2 tcp 7017")])

    def test_synchronization(self):
        self.expect(SYNCHRONIZING, [
            ("arrival", 2, 1, "stream 1"), ("bytes", 2, 1, "request-syn obj 's 5 6 -", "sends on stream 1"),
            ("bytes", 1, 2, "synch obj 's 5 6 x0a")])

    def test_response_is_sent_on(self):
        self.expect(RELAYED, [
            ("datagram", 1, 2, "sends datagram 2"), ("datagram", 2, 3, "dials stream 1"), ("arrival", 3, 2),
            ("bytes", 3, 2, "a part of a message"), ("bytes", 3, 2, "response @1", "dials stream 2"), ("arrival", 2, 1),
            ("bytes", 2, 1, "response @1 60000 locators v6 @3 tcp 7017")])

    def test_divert(self):
        second = """api 2 0 asa 'b = asa 2
api 2 2 discover 'y neg 6 1000 = found v6 @3 tcp 7017
api 1 2 discover 'z neg 6 1000 = searching
datagram 3 = taken
datagram 4 = taken
"""
        self.assertEqual(arrows_of(RELAYED + second)[-2:], [
            ("datagram", 1, 2, "datagram 3: discovery @1 obj 'z 3 6 - | sends datagram 4"),
            ("datagram", 2, 3, "datagram 4: discovery @1 obj 'z 3 5 -")])
        line = "nodes 4\nlink 1 2\nlink 2 3\nlink 4 2\nstart\n" + RELAYED.split("start\n")[1]
        third = "api 4 0 asa 'd = asa 2\napi 4 2 discover 'y neg 6 1000 = searching\ndatagram 4 = taken\narrive 3 = taken\n"
        found = arrows_of(line + third + "bytes 3 far 9999 = taken\n")
        self.assertEqual(found[-2][:3], ("arrival", 2, 4))
        self.assertIn("divert v6 @3 tcp 7017", found[-1][3].replace(" |  ", ""))

    def test_what_is_not_told(self):
        without = FLOOD.split("start\n")[1]
        self.assertEqual(arrows_of(without), [])
        self.assertEqual(len(of_kind(without, "untold")), 5)
        self.assertEqual(len(of_kind(AGENTS + "arrive 7 = taken\nbytes 7 far 1 = taken\ncut 7 near = taken\n", "untold")), 3)


class Pictures(unittest.TestCase):
    def test_every_line_has_its_mark(self):
        for reports in (LOST_ACCEPTANCE, COUNTER_OFFER, LAST_LOOP, WAITS, FLOOD, RING, FINDING, SYNCHRONIZING, RELAYED):
            lines = [line for line in written_out(reports).decode().splitlines() if " = " in line]
            titles = [group.find("{http://www.w3.org/2000/svg}title").text for group in groups_of(reports)]
            self.assertEqual(titles, lines)

    def test_same_input_same_picture(self):
        self.assertEqual(chart.chart(written_out(FLOOD)), chart.chart(written_out(FLOOD)))

    def test_title(self):
        self.assertIn(">a &lt;b&gt; &amp; c</text>", chart.chart(written_out(LAST_LOOP), None, "a <b> & c"))

    def test_picture_in_docs(self):
        script = (HERE.parent / "examples" / "agreement.script").read_bytes()
        drawn = chart.chart(written_out(AGREEMENT), script, "examples/agreement.script")
        self.assertEqual((HERE.parent / "docs" / "agreement.svg").read_text(), drawn)

    def test_agreement_is_the_example(self):
        reports = (HERE.parent / "examples" / "agreement.reports").read_bytes()
        self.assertEqual(written_out(AGREEMENT), reports)

    def test_examples(self):
        """Each example is drawn with its script's header, line by line, and no arrow or delivery is left untold."""
        scripts = sorted((HERE.parent / "examples").glob("*.script"))
        self.assertEqual(len(scripts), 9)
        for script in scripts:
            head, lines = script.read_text().split("start\n")
            reports = script.with_suffix(".reports").read_bytes()
            titles = [group.find("{http://www.w3.org/2000/svg}title").text for group in groups_of(reports.decode(), script.read_bytes())]
            self.assertEqual(titles, reports.decode().splitlines())
            for line, title in zip(lines.splitlines(), titles, strict=True):
                self.assertTrue(title.startswith(line + " "), title)
            picture = chart.chart(reports, head.encode() + b"start\n")
            self.assertNotIn('class="untold', picture)

    def test_doubters(self):
        """A doubter's calls send as those of other agents do, and a question stands at the node that asks."""
        reports = (HERE.parent / "examples" / "doubt_resolved.reports").read_text()
        front = reports[:reports.index("ask 1 ")]
        found = [group for group in groups_of(reports) if int(group.get("data-line")) > len(front.splitlines())]
        self.assertEqual([(group.get("data-from"), group.get("data-to")) for group in found if group.get("data-from")],
                         [("1", "2"), ("1", "2"), ("2", "1")])
        self.assertEqual((found[0].get("class"), found[0].get("data-node"), found[0].get("data-words")), ("ask", "1", "ask 2 about 20010db8../56 = ok"))
        self.assertIn("doubter: accept 2 | = done | sends on stream 2", [group.get("data-words") for group in found])

    def test_crashes(self):
        """A node that begins anew has forgotten its sessions, so it sends nothing on the streams that it had."""
        front = POOLS + LOST_ACCEPTANCE[len(POOLS):].split("agent 1 step")[0]
        crash = "crash 1 0 old = restarted held 20010db8000000000000000000000000/48 doubt\n"
        step = "agent 1 step 1 x8218385020010db8000000000000000000000000 = done\n"
        self.assertEqual(groups_of(front + step)[-1].get("data-words").split(" | ")[-1], "sends on stream 1")
        self.assertNotIn("sends", groups_of(front + crash + step)[-1].get("data-words"))
        self.assertEqual(of_kind(front + crash, "crash")[0].get("data-words"), "crash behind 0 calls of the disk, old = | restarted held 20010db8../48 doubt")

    def test_lines_of_the_script(self):
        """Where the script is known, a row has the number of its line there."""
        head = b"nodes 2\nlink 1 2\nstart\n"
        numbers = [group.get("data-line") for group in groups_of("arrive 1 = nothing\narrive 2 = nothing\n", head)]
        self.assertEqual(numbers, ["4", "5"])
        self.assertEqual([group.get("data-line") for group in groups_of(head.decode() + "arrive 1 = nothing\n")], ["4"])


def stamped(*lines):
    """Lines of a trace, each one a millisecond after the one before."""
    return "".join(f"2026-11-30T12:00:00.{at:03}Z {line}\n" for at, line in enumerate(lines))


class Traces(unittest.TestCase):
    def marks(self, *traces, **choice):
        files = [(f"{at}.log", written_out(trace)) for at, trace in enumerate(traces)]
        return [group for group in tree.fromstring(chart.trace_chart(files, **choice)).iter(GROUP) if group.get("data-line")]

    def arrows(self, *traces, **choice):
        """Each arrow: its kind, its lines, and the lifelines from and to, with @K for addresses."""
        return [(group.get("class"), group.get("data-line"), group.get("data-end"), *(re.sub("fd0{28}0([0-9])", r"@\1", group.get(end)) for end in ("data-from", "data-to")))
                for group in self.marks(*traces, **choice) if group.get("data-from")]

    def test_two_nodes(self):
        """What both traces have is one arrow, from the line of the sender to that of the other node."""
        self.assertEqual(self.arrows(PAIR), [
            ("opening", "2", "1", "@2", "@1"), ("message", "4", "3", "@2", "@1"), ("message", "5", "6", "@1", "@2"),
            ("message", "7", "9", "@2", "@1"), ("closing faint", "8", None, "@2", "@1"), ("closing faint", "10", None, "@1", "@2")])
        words = [group.get("data-words") for group in self.marks(PAIR)]
        self.assertEqual(words[0], "dial 0 127.0.0.1:7017, opening 1 from 127.0.0.2")
        self.assertEqual(words[2], "stream 1 (there 0): negotiate 982143829 obj | 'PrefixManager 3 5 x8218385020010db8..")

    def test_one_node(self):
        """What one trace has alone goes to and comes from the lifeline of the peer."""
        taker = "".join(line + "\n" for line in PAIR.splitlines() if " @2 " in line)
        peer = "v4 7f000001 tcp 7017"
        self.assertEqual(self.arrows(taker), [
            ("opening", "1", None, "@2", peer), ("message", "2", None, "@2", peer), ("message", "3", None, peer, "@2"),
            ("message", "4", None, "@2", peer), ("closing", "5", None, "@2", peer)])
        self.assertIn(">127.0.0.1:7017</text>", chart.trace_chart([("a", written_out(taker))]))

    def test_logs(self):
        """Several files, names with blanks, events, datagrams and a neighbour that wrote no trace."""
        third = "link 0 neighbour 1 of giver"
        wanted = [("opening", "taker two", "giver"), ("message", "taker two", "giver"), ("datagram", "giver", "taker two"), ("datagram", "giver", third),
                  ("message", "giver", "taker two"), ("message", "taker two", "giver"), ("closing", "giver", "taker two")]
        for traces in ((GIVER, TAKER), (TAKER, GIVER), (GIVER + TAKER,)):
            found = self.arrows(*traces)
            self.assertEqual([(arrow[0], *arrow[3:]) for arrow in found], wanted)
            self.assertEqual([arrow[4] for arrow in found if arrow[2] is None], [third])
        events = [(group.get("data-node"), group.get("data-words")) for group in self.marks(GIVER, TAKER) if group.get("class") == "event"]
        self.assertEqual(events, [("giver", "offered 2001:db8::/56"), ("taker two", "gained 2001:db8::/56")])

    def test_each_line(self):
        """Each line that a node writes has its mark, and its title is the line."""
        marks = self.marks(EACH)
        self.assertEqual([group.find("{http://www.w3.org/2000/svg}title").text for group in marks], EACH.splitlines())
        self.assertEqual([group.get("class") for group in marks][-4:], ["datagram faint", "opening faint", "message faint", "closing faint"])
        self.assertEqual(marks[-1].get("data-words"), "failed: closing 0")
        self.assertEqual([len([line for line in group if line.get("class") == "cross"]) for group in marks], [0] * 11 + [2] * 4)
        nameless = EACH.replace(" 7f000009", "")
        self.assertEqual({group.get("data-from") for group in self.marks(nameless)[7:]}, {"0.log"})

    def test_order_and_heights(self):
        """Times and numbers stand at the left, and an arrow ends at the height of the line that it ends with."""
        rows = re.findall('y="([0-9.]+)" text-anchor="start" class="number" xml:space="preserve">([0-9:.]{12})<', chart.trace_chart([("a", written_out(PAIR))]))
        self.assertEqual([time for _, time in rows], sorted(line[11:23] for line in PAIR.splitlines()))
        heights = [float(height) for height, _ in rows]
        self.assertEqual(heights, sorted(heights))
        shaft = next(part for part in self.marks(PAIR)[0] if part.get("class") == "shaft")
        self.assertLess(float(shaft.get("y1")), float(shaft.get("y2")))
        self.assertAlmostEqual(float(shaft.get("y2")), heights[1] - 2, delta=1)
        late = PAIR.replace("10.592Z @2", "11.592Z @2").replace("10.623Z @2", "11.623Z @2").replace("10.658Z @2", "11.658Z @2")
        self.assertEqual({arrow[1:] for arrow in self.arrows(late)}, {arrow[1:] for arrow in self.arrows(PAIR)})

    def test_line_left_out(self):
        """Where the other node's line is missing, its lifeline still is the end, and what follows is joined."""
        cut = "".join(line + "\n" for line in PAIR.splitlines() if "@2 received message" not in line)
        self.assertEqual(self.arrows(cut)[2:4], [("message faint", "5", None, "@1", "@2"), ("message", "6", "8", "@2", "@1")])

    def test_silent_stream(self):
        """A stream without a message is told by addresses that are known from another one, and by the time."""
        more = "2026-11-30T14:50:12.000Z @2 sent dial 1 v4 7f000001 tcp 7017\n2026-11-30T14:50:12.001Z @1 received opening 2 7f000002\n"
        more += "2026-11-30T14:50:13.000Z @1 sent closing 2\n2026-11-30T14:50:13.001Z @2 received closing 1\n"
        more += "2026-11-30T14:50:23.000Z @2 sent dial 2 v4 7f000001 tcp 7017\n"
        found = self.arrows(PAIR + more)
        self.assertIn(("opening", "11", "12", "@2", "@1"), found)
        self.assertIn(("closing", "13", "14", "@1", "@2"), found)
        self.assertIn(("opening faint", "15", None, "@2", "@1"), found)

    def test_relay(self):
        """A response that is sent on has the same words on two streams: the times tell them apart."""
        words = "response 77 @1 60000 locators v6 @3 tcp 7017"
        lines = stamped("@3 sent dial 0 v4 7f000002 tcp 7017", f"@3 sent message 0 {words}", "@2 received opening 1 7f000003", f"@2 received message 1 {words}",
                        "@2 sent dial 0 v4 7f000001 tcp 7017", f"@2 sent message 0 {words}", "@1 received opening 1 7f000002", f"@1 received message 1 {words}")
        self.assertEqual(self.arrows(lines), [("opening", "1", "3", "@3", "@2"), ("message", "2", "4", "@3", "@2"),
                                              ("opening", "5", "7", "@2", "@1"), ("message", "6", "8", "@2", "@1")])

    def test_neighbours(self):
        """Which neighbour is which node is told by all their datagrams, whatever the numbers."""
        lines = stamped("@1 sent datagram 0 0 noop", "@1 sent datagram 0 0 discovery 5 @1 obj 'x 3 3 -", "@1 sent datagram 0 1 discovery 5 @1 obj 'x 3 3 -",
                        "@2 received datagram 4 2 discovery 5 @1 obj 'x 3 3 -", "@3 received datagram 0 0 discovery 5 @1 obj 'x 3 3 -",
                        "@2 sent datagram 4 2 flood 9 @2 0 obj 'y 5 2 x05 none", "@1 received datagram 0 1 flood 9 @2 0 obj 'y 5 2 x05 none")
        self.assertEqual(self.arrows(lines), [
            ("datagram faint", "1", None, "@1", "@3"), ("datagram", "2", "5", "@1", "@3"), ("datagram", "3", "4", "@1", "@2"), ("datagram", "6", "7", "@2", "@1")])

    def test_choices(self):
        """--lines and --nodes, whose nodes are named as in the lines or as at the heads."""
        self.assertEqual([arrow[1] for arrow in self.arrows(PAIR, lines=(6, 8))], ["5", "7", "8"])
        for name in ("giver", "link 0 neighbour 1 of giver"):
            self.assertEqual({name} & {arrow[end] for arrow in self.arrows(GIVER, TAKER, names=[name]) for end in (3, 4)}, {name})
        self.assertEqual(len(self.arrows(GIVER, TAKER, names=["link 0 neighbour 1 of giver"])), 1)
        self.assertEqual(self.arrows(PAIR, names=["fd00::2"]), self.arrows(PAIR))
        with self.assertRaises(chart.Refused) as raised:
            self.arrows(PAIR, names=["fd00::3"])
        self.assertEqual(str(raised.exception), "there is no node fd00::3")

    def test_days_and_heads(self):
        """A new day is told, and the heads stand again."""
        lines = PAIR + PAIR.replace("2026-11-30", "2026-12-01")
        picture = chart.trace_chart([("a", written_out(lines))])
        self.assertEqual(re.findall(">([0-9]{4}-[0-9]{2}-[0-9]{2})</text>", picture), ["2026-11-30", "2026-12-01"])
        many = stamped(*["@1 sent datagram 0 0 noop"] * 300)
        self.assertGreater(chart.trace_chart([("a", written_out(many))]).count('class="head"'), 10)

    def test_refusals(self):
        """A line that is none is named, with its file where there are several."""
        for line in ("", "2026-11-30T12:00:00.000Z a", "2026-11-30T12:00:00.000Z a sent dial 0", "2026-11-30T12:00:00.000Z a sent opening 1 7f000001",
                     "2026-11-30T12:00:00.000Z a received message 1 noop ", "2026-11-30 12:00:00 a sent closing 1", "arrive 1 = taken"):
            with self.assertRaises(chart.Refused) as raised:
                self.marks(PAIR + line + "\n")
            self.assertEqual(str(raised.exception), "no line of a trace in line 11")
        with self.assertRaises(chart.Refused) as raised:
            self.marks(PAIR, GIVER + "x\n")
        self.assertEqual(str(raised.exception), "1.log: no line of a trace in line 9")

    def run_tool(self, *words, given=b""):
        done = subprocess.run([sys.executable, str(HERE / "chart.py"), *words], input=given, capture_output=True)
        return done.returncode, done.stdout.decode(), done.stderr.decode()

    def test_command_line(self):
        """A trace is known by its first line."""
        octets = written_out(PAIR)
        self.assertEqual(self.run_tool(given=octets), (0, chart.trace_chart([("-", octets)]), ""))
        self.assertEqual(self.run_tool("--nodes", "fd00::2", "--lines", "3-5", "--title", "T", given=octets),
                         (0, chart.trace_chart([("-", octets)], "T", (3, 5), ["fd00::2"]), ""))
        self.assertEqual(self.run_tool(given=octets + b"x\n"), (1, "", "chart.py: no line of a trace in line 11\n"))
        self.assertEqual(self.run_tool("--script", "x", given=octets), (1, "", "chart.py: a trace has no script\n"))
        self.assertEqual(self.run_tool("--nodes", "giver", given=LAST_LOOP.encode()), (1, "", "chart.py: there is no node giver\n"))
        with tempfile.TemporaryDirectory() as place:
            files = [pathlib.Path(place) / name for name in ("giver.log", "taker.log")]
            for file, trace in zip(files, (GIVER, TAKER)):
                file.write_bytes(written_out(trace))
            names = [str(file) for file in files]
            wanted = chart.trace_chart([(name, file.read_bytes()) for name, file in zip(names, files)])
            self.assertEqual(self.run_tool(*names), (0, wanted, ""))


class Choices(unittest.TestCase):
    def drawn(self, reports, **choice):
        picture = chart.chart(written_out(reports), None, None, chart.Choice(**choice))
        return [group for group in tree.fromstring(picture).iter(GROUP) if group.get("data-line")]

    def test_lines(self):
        chosen = self.drawn(FLOOD, lines=(9, 12), all=True)
        self.assertEqual([group.get("data-line") for group in chosen], ["9", "10", "11", "12"])
        every = self.drawn(FLOOD, all=True)
        self.assertEqual([group.get("data-words") for group in chosen], [group.get("data-words") for group in every if 9 <= int(group.get("data-line")) <= 12])

    def test_nodes(self):
        every, chosen = self.drawn(RING, all=True), self.drawn(RING, nodes=[2], all=True)
        wanted = [group.get("data-line") for group in every if "2" in (group.get("data-node"), group.get("data-to"), group.get("data-from"))]
        self.assertEqual([group.get("data-line") for group in chosen], wanted)
        self.assertLess(len(chosen), len(every))
        with self.assertRaises(chart.Refused):
            self.drawn(RING, nodes=[64])

    def test_calls_that_tell_nothing(self):
        polls = "".join("api 1 2 poll 1 = notyet\n" for _ in range(9))
        reports = TWO + AGENTS + polls + "clock 1 7 = 7\n" + 2 * "api 2 2 listen 'x = notyet\n"
        self.assertEqual(len(self.drawn(reports, all=True)), 17)
        shown = self.drawn(reports)
        self.assertEqual(len(shown), 9)
        self.assertEqual(shown[5].get("data-words"), "9 calls of node 1: notyet | lines 9 to 17")

    def test_heads_again(self):
        picture = chart.chart((TWO + 600 * "state 1 = held reserved doubt\n").encode())
        heights = [float(found) for found in re.findall('class="head"', picture) and re.findall(r'y="([0-9.]+)" text-anchor="middle" class="head"', picture)]
        self.assertTrue(all(after - before < 1500 for before, after in zip(heights, heights[1:])))
        self.assertGreater(len(heights), 10)

    def test_script_beside(self):
        path = HERE.parent / "examples" / "flood.reports"
        with_script = chart.chart(path.read_bytes(), path.with_suffix(".script").read_bytes())
        done = subprocess.run([sys.executable, str(HERE / "chart.py"), str(path)], capture_output=True, check=True)
        self.assertEqual(done.stdout.decode(), with_script)

    def test_words(self):
        self.assertEqual(chart.words_of(["--lines", "3-", "--nodes", "4,2", "--all"]).choice, chart.Choice((3, 999_999_999), [2, 4], True))
        for words in (["--lines", "3"], ["--lines", "0-4"], ["--nodes", "2,"], ["--nodes"], ["--all", "--all"], ["--lines", "1-2", "--lines", "1-2"]):
            self.assertIsNone(chart.words_of(words), words)

    def test_no_room(self):
        with open("/dev/full", "w") as full:
            done = subprocess.run([sys.executable, str(HERE / "chart.py"), str(HERE.parent / "examples" / "flood.reports")], stdout=full, stderr=subprocess.PIPE)
        self.assertEqual((done.returncode, done.stderr.decode()), (1, "chart.py: standard output: No space left on device\n"))


class Refusals(unittest.TestCase):
    def refuses(self, octets, words, script=None):
        with self.assertRaises(chart.Refused) as raised:
            chart.chart(octets, script)
        self.assertEqual(str(raised.exception), words)

    def test_lines(self):
        front = AGENTS.encode()
        self.refuses(b"", "no report in line 1")
        self.refuses(front + b"arrive 1\n", "no answer in line 6")
        self.refuses(front + b"\n", "no answer in line 6")
        self.refuses(front + b"arrive 1 = take\n", "bad answer in line 6")
        self.refuses(front + b"arrive 1 = taken \n", "bad answer in line 6")
        self.refuses(front + b"arrive 01 = taken\n", "bad event in line 6")
        self.refuses(front + b"arrives 1 = taken\n", "unknown event in line 6")
        self.refuses(front + b"hold clock 1 7 = 7\n", "unknown event in line 6")
        self.refuses(front + b"hold doubter 1 listen 'PrefixDoubt = notyet\n", "unknown event in line 6")
        self.refuses(front + b"crash 1 0 lost = restarted held doubt\n", "bad event in line 6")
        self.refuses(front + b"ask 1 20010db8000000000000000000000000/56 2 = no\n", "bad answer in line 6")
        self.refuses(front + b"api 1 2 steps 1 x02 = done\n", "unknown call in line 6")
        self.refuses(front + b"api 1 2 step 1 x2 = done\n", "bad event in line 6")
        self.refuses(front + b"api 1 2 step 1 x02 = refused 13 LoopsSpent\n", "bad answer in line 6")
        self.refuses(front + b"api 65 2 step 1 x02 = done\n", "bad event in line 6")
        self.refuses(front + b"arrive 18446744073709551616 = nothing\n", "too large a number in line 6")
        self.refuses(front + "arrive 1 = täken\n".encode(), "not plain text in line 6")
        self.refuses(front + b"arrive 1 = taken\r\n", "not plain text in line 6")

    def test_headers(self):
        self.refuses(b"nodes 2\nlink 1 2\n", "header without start in line 3")
        self.refuses(b"nodes 2\nlink 1 3\nstart\n", "bad header in line 2")
        self.refuses(b"nodes 2\nlink 1 1\nstart\n", "bad header in line 2")
        self.refuses(b"nodes 65\nstart\n", "bad header in line 1")
        self.refuses(b"nodes 2\nsize 2047\nstart\n", "bad header in line 2")
        self.refuses(b"nodes 2\nlink 1 2\nsize 4096\nstart\n", "bad header in line 3")
        self.assertEqual(chart.chart(b"nodes 2\nsize 4096\nlink 1 2\nstart\narrive 1 = nothing\n"),
                         chart.chart(b"nodes 2\nlink 1 2\nstart\narrive 1 = nothing\n").replace('data-line="4"', 'data-line="5"').replace(">4</text>", ">5</text>"))
        self.refuses(b"nodes 2\nlink 1 2\nstart\napi 3 0 asa 'a = asa 2\n", "unknown node in line 4")
        self.refuses(AGENTS.encode(), "bad header in line 1 of the script", b"start\n")
        self.refuses(AGENTS.encode(), "header without start in line 2 of the script", b"nodes 2\n")

    def run_tool(self, *words, given=b""):
        done = subprocess.run([sys.executable, str(HERE / "chart.py"), *words], input=given, capture_output=True)
        return done.returncode, done.stdout.decode(), done.stderr.decode()

    def test_command_line(self):
        self.assertEqual(self.run_tool("--version"), (0, chart.VERSION + "\n", ""))
        status, text, errors = self.run_tool("--help")
        self.assertEqual((status, errors), (0, ""))
        self.assertIn("usage: chart.py", text)
        self.assertEqual(self.run_tool("--scale", "3")[:2], (2, ""))
        self.assertEqual(self.run_tool("a", "a")[:2], (2, ""))
        self.assertEqual(self.run_tool(given=b"arrive 1 = token\n"), (1, "", "chart.py: bad answer in line 1\n"))
        self.assertEqual(self.run_tool("/no/such/file")[:2], (1, ""))
        status, text, errors = self.run_tool("--title", "T", "-", given=written_out(WAITS))
        self.assertEqual((status, errors), (0, ""))
        self.assertEqual(text, chart.chart(written_out(WAITS), None, "T"))


if __name__ == "__main__":
    unittest.main()
