#!/usr/bin/env python3
"""Checks tools/readable.py: known lines, all lines of the rows and examples, drawn lines and drawn items, each there and back; and the faults of scripts.

usage: python3 tools/test_readable.py
"""
import pathlib
import random
import re
import subprocess
import sys
import unittest

HERE = pathlib.Path(__file__).resolve().parent
sys.dont_write_bytecode = True
sys.path.insert(0, str(HERE))
from cbor_notation import BadNotation, item_of, notation_of  # noqa: E402
from readable import filtered, readable_line  # noqa: E402
from script_check import WORDS, faults_of  # noqa: E402

TOP = HERE.parent
DRAWN = 10_000

# From RFC 8949, appendix A, in their shortest spelling.
ITEMS = [
    ("00", "0"), ("17", "23"), ("1818", "24"), ("1903e8", "1000"), ("1bffffffffffffffff", "18446744073709551615"),
    ("3bffffffffffffffff", "-18446744073709551616"), ("20", "-1"), ("3903e7", "-1000"), ("f90000", "0.0"), ("f98000", "-0.0"),
    ("f93c00", "1.0"), ("fb3ff199999999999a", "1.1"), ("f93e00", "1.5"), ("fa47c35000", "100000.0"), ("fb7e37e43c8800759c", "1e+300"),
    ("f9c400", "-4.0"), ("f97c00", "Infinity"), ("f97e00", "NaN"), ("f9fc00", "-Infinity"), ("fa7f800000", "Infinity_2"),
    ("fb7ff8000000000000", "float'7ff8000000000000'"), ("f4", "false"), ("f5", "true"), ("f6", "null"), ("f7", "undefined"), ("f0", "simple(16)"),
    ("f8ff", "simple(255)"), ("c11a514b67b0", "1(1363896240)"), ("40", "h''"), ("4401020304", "h'01020304'"), ("60", '""'), ("6449455446", '"IETF"'),
    ("62225c", '"\\"\\\\"'), ("62c3bc", '"ü"'), ("80", "[]"), ("8301820203820405", "[1, [2, 3], [4, 5]]"), ("a0", "{}"),
    ("a201020304", "{1: 2, 3: 4}"), ("a26161016162820203", '{"a": 1, "b": [2, 3]}'), ("d74401020304", "23(h'01020304')"), ("fa3fc00000", "1.5_2"),
]

LINES = [
    ("api 1 2 flood 'f x07 1000 6 = done", 'api 1 2 flood "f" 7 1000 6 = done'),
    ("agent 1 step 1 x8218385020010db8000000000000000000000000 = done", "agent 1 step 1 [56, h'20010db8000000000000000000000000'] = done"),
    ("api 3 2 floods 'f = floods fd000000000000000000000000000001 obj 'f 5 4 x07 none c0000201 obj 'f 5 4 - v4 c0000201 udp 7017",
     'api 3 2 floods "f" = floods fd00::1 obj "f" 5 4 7 none 192.0.2.1 obj "f" 5 4 - v4 192.0.2.1 udp 7017'),
    ("root 1 20010db8000000000000000000000000/48", "root 1 2001:db8::/48"),
    ("flood 12345678 c0000201 12345678 obj 'f 5 4 x1818 none", 'flood 12345678 192.0.2.1 12345678 obj "f" 5 4 24 none'),
    ("want 2 56 64 1 = busy 56 64", "want 2 56 64 1 = busy 56 64"),
    ("api 1 0 asa 'prefix%20\"agent%c3%bc", 'api 1 0 asa "prefix \\"agentü"'),
    ("2026-11-30T07:10:29.828Z fd000000000000000000000000000001 sent message 1 negotiate 7 obj 'f 3 5 x811838",
     '2026-11-30T07:10:29.828Z fd00::1 sent message 1 negotiate 7 obj "f" 3 5 [56]'),
    ("2026-11-30T07:10:29.828Z taker received opening 1 7f000002", "2026-11-30T07:10:29.828Z taker received opening 1 127.0.0.2"),
    ("invalid 7 -", "invalid 7 -"), ("invalid 7 x20", "invalid 7 -1"),
    ("", "|"), ("# a", "|# a"), ("|", "||"), ("a  b", "|a  b"), ("state 1 ", "|state 1 "), ("asa 'a%41", "asa 'a%41"), ("x \"y", "|x \"y"),
]

FAULTS = [
    ("nodes 2\nstart\n", []),
    ("", [(1, 0)]),
    ("nodes 65\nstart\n", [(1, 2)]),
    ("nodes 2\nlink 1 2\n", [(3, 0)]),
    ("nodes 2\nlink 1 1\nsize 2048\nroot 3 20010db8000000000000000000000000/32\nstart\n", [(2, 3), (3, 1), (4, 2)]),
    ("nodes 2\nroot 1 20010db8000000000000000000000000/32\nroot 2 20010db8000100000000000000000000/48\nstart\nstart\n", [(3, 3), (5, 1)]),
    ("nodes 1\nstart\napi 1 1 poll 1\napi 1 0 poll 1\napi 1 2 asa 'x\nhold state 1\n\nclock 1 01\nclock  1 1\n",
     [(3, 3), (4, 4), (5, 4), (6, 2), (7, 1), (8, 3), (9, 2)]),
    ("nodes 1\nstart\napi 1 2 step 1 x1800\napi 1 2 step 1 x18\napi 1 2 step 1 x01 \napi 1 2 flood 'a%41 x01 0 0\ncut 1 near\r\n",
     [(3, 6), (4, 6), (5, 7), (6, 5), (7, 0)]),
    ("nodes 1\nstart\nwant 1 9 8 1\nwant 1 0 8 1\nbytes 1 up 1\ndrain 1 4294967296\nclock 1 18446744073709551615\n", [(3, 4), (4, 3), (5, 3), (6, 3)]),
]


def there_and_back(octets):
    return filtered(filtered(octets, False), True)


def drawn_item(rng, depth):
    """An item in its shortest spelling, as bytes."""
    kind = rng.randrange(9 if depth else 6)
    number = rng.randrange(1 << rng.choice([3, 5, 8, 16, 32, 64]))
    text = "".join(rng.choice("ab'\"\\ #|ü\u0000\n漢\u2028\U0001f600") for _ in range(rng.randrange(6)))
    simple = {0: str(number), 1: str(-1 - number), 2: f"h'{rng.randbytes(rng.randrange(5)).hex()}'", 4: rng.choice(["true", "null", "simple(99)", "simple(3)"])}
    if kind in simple:
        return item_of(simple[kind])
    if kind == 3:
        octets = text.encode("utf-8")
        return bytes([0x60 | len(octets)]) + octets if len(octets) < 24 else bytes([0x78, len(octets)]) + octets
    if kind == 5:
        return rng.choice([b"\xf9" + rng.randbytes(2), b"\xfa" + rng.randbytes(4), b"\xfb" + rng.randbytes(8)])
    inner = [drawn_item(rng, depth - 1) for _ in range(2 * rng.randrange(3))]
    if kind == 6:
        return bytes([0x80 | len(inner)]) + b"".join(inner)
    if kind == 7:
        return bytes([0xa0 | len(inner) // 2]) + b"".join(inner)
    return bytes([0xc0 | rng.randrange(24)]) + drawn_item(rng, depth - 1)


def drawn_line(rng):
    """Words of lines in any order, so that few are lines of the programs."""
    words = []
    for _ in range(rng.randrange(1, 9)):
        text = "'" + "".join(rng.choice(["a", "Z", "%20", "%c3%bc", "'", "#", "%ff", "|", "-"]) for _ in range(rng.randrange(4)))
        words.append(rng.choice([
            str(rng.randrange(1 << rng.choice([2, 27, 64]))), text, "x" + drawn_item(rng, 3).hex(), "obj " + text + " 3 6", "step 1", "flood " + text,
            "flood 12345678", "v4", "floods", "none", "-", "=", f"{rng.getrandbits(128):032x}", f"{rng.getrandbits(32):08x}", "x", "xZ", '"', "[",
            f"{rng.getrandbits(128):032x}/{rng.randrange(130)}", "incoming 1", "invalid 1", "::1", "1.2.3.4", "#", "", "\t", "request 'a", "h'00'"]))
    return " ".join(words)


class Notation(unittest.TestCase):
    def test_known_items(self):
        for digits, text in ITEMS:
            self.assertEqual(notation_of(bytes.fromhex(digits)), text)
            self.assertEqual(item_of(text).hex(), digits)

    def test_drawn_items(self):
        rng = random.Random(8949)
        for _ in range(DRAWN):
            octets = drawn_item(rng, 4)
            self.assertEqual(item_of(notation_of(octets)), octets)

    def test_what_is_none(self):
        for text in ["", "[", "[1", "[1,]", "{1}", '"a', '"\\x"', "h'0'", "1.5_0", "65536.0_1", "simple(24)", "-1(2)", "01", "1 2", "18446744073709551616", '"\\ud800"', "nul"]:
            with self.assertRaises(BadNotation, msg=text):
                item_of(text)


class Lines(unittest.TestCase):
    def test_known_lines(self):
        for line, text in LINES:
            self.assertEqual(readable_line(line), text)
            self.assertEqual(filtered((text + "\n").encode(), True).decode(), line + "\n")

    def test_reader_s_own(self):
        text = b'# a network\n\n  nodes 2   # two\n api 1 0 asa "a"\n'
        self.assertEqual(filtered(text, True), b"nodes 2\napi 1 0 asa 'a\n")

    def test_examples(self):
        for path in sorted((TOP / "examples").glob("*.script")) + sorted((TOP / "examples").glob("*.reports")):
            octets = path.read_bytes()
            text = filtered(octets, False)
            self.assertEqual(filtered(text, True), octets, path)
            self.assertNotIn(b"\n|", text, path)
            self.assertIsNone(re.search(rb"(?m)(?:^| )x[0-9a-f]+(?: |$)", text), path)

    def test_readable_examples(self):
        """Beside each script of examples/ stands its readable form, with a comment at its head."""
        for path in sorted((TOP / "examples").glob("*.script")):
            text = path.with_suffix(".readable").read_bytes()
            self.assertEqual(filtered(text, True), path.read_bytes(), path)
            self.assertTrue(text.startswith(b"# "), path)

    def test_rows(self):
        for name in ["grasp_tests_replay", "grasp_tests_node"]:
            octets = (TOP / "crates" / name / "stdin").read_bytes()
            self.assertEqual(there_and_back(octets), octets)
            for line in octets.split(b"\n"):
                rest = line.partition(b" ")[2]
                self.assertEqual(there_and_back(rest), rest)

    def test_drawn_lines(self):
        rng = random.Random(5952)
        for _ in range(DRAWN):
            octets = drawn_line(rng).encode()
            self.assertEqual(there_and_back(octets), octets)
            self.assertEqual(there_and_back(octets + b"\n"), octets + b"\n")

    def test_any_bytes(self):
        rng = random.Random(1)
        for _ in range(2000):
            octets = rng.randbytes(rng.randrange(40))
            self.assertEqual(there_and_back(octets), octets)


class Scripts(unittest.TestCase):
    def test_faults(self):
        for script, wanted in FAULTS:
            self.assertEqual([fault[:2] for fault in faults_of(script.encode())], wanted, script)

    def test_words_of_their_own(self):
        """The events of `keep` and of `resolve` are faults in other scripts."""
        head = "nodes 2\nstart\n"
        crash = "crash 1 3 torn\ncrash 3 0 old\ncrash 1 x new\ncrash 1 1\nhold crash 1 1 old\n"
        doubts = f"doubter 2\nask 1 {'0' * 32}/1 2\nask 1 1 1\napi 1 2 unasa\n"
        for word, lines, wanted in [("keep", crash, [(4, 2), (5, 3), (6, 4), (7, 2)]), ("resolve", doubts, [(5, 3), (6, 3)]),
                                    ("replay", crash, [(3, 1), (4, 1), (5, 1), (6, 1), (7, 2)]), ("keep", doubts, [(3, 1), (4, 1), (5, 1)])]:
            self.assertEqual([fault[:2] for fault in faults_of((head + lines).encode(), word)], wanted, (word, lines))

    def test_rows(self):
        """Of each row that runs a script the program's answer names the first line that is told here, and none where it ran."""
        for word in WORDS:
            rows = script_rows(word)
            self.assertGreater(len(rows), {"replay": 30, "keep": 90}.get(word, -1))
            for name, script, line in rows:
                faults = faults_of(script, word)
                self.assertEqual(faults[0][0] if faults else None, line, name)


def script_rows(word):
    """The rows of scripts of this word that were run or found bad: name, script, and the line that is told bad or None."""
    out = []
    text = (TOP / "crates" / "grasp_tests_replay" / "stdin").read_text()
    for part in re.split("(?m)^row ", text)[1:]:
        head, *lines = part.split("\n")
        fault = [line[len("fault "):] for line in lines if line.startswith("fault ")]
        bad = re.fullmatch("bad script in line ([0-9]+)", fault[0]) if fault else None
        if head.split(" ")[1:] == [word] and (bad or not fault):
            out.append((head, b"".join(script_part(line) for line in lines), int(bad.group(1)) if bad else None))
    return out


def script_part(line):
    """What a line of a row adds to the input."""
    word, _, rest = line.partition(" ")
    if word == "<":
        return rest.encode() + b"\n"
    if word == "<-":
        return rest.encode()
    if word == "<x":
        return bytes.fromhex(rest)
    if word == "<*":
        count, digits = rest.split(" ")
        return int(count) * bytes.fromhex(digits)
    if word == "=":
        event = rest.partition(" = ")[0].split(" ")
        agent = next((at for at, kind in enumerate(event[:2]) if kind in ("agent", "doubter") and event[:at] in ([], ["hold"])), None)
        return " ".join(event if agent is None else event[:agent + 2]).encode() + b"\n"
    return b""


class Words(unittest.TestCase):
    def run_it(self, words, octets):
        return subprocess.run([sys.executable, str(HERE / "readable.py"), *words], input=octets, capture_output=True, check=False)

    def test_statuses(self):
        self.assertEqual(self.run_it(["--help"], b"").returncode, 0)
        self.assertEqual(self.run_it(["--nothing"], b"").returncode, 2)
        self.assertEqual(self.run_it(["--check"], b"nodes 1\nstart\n").returncode, 0)
        self.assertEqual(self.run_it(["--check", "--as", "keep"], b"nodes 1\nstart\ncrash 1 0 old\n").returncode, 0)
        self.assertEqual(self.run_it(["--check", "--as", "show"], b"").returncode, 2)
        self.assertEqual(self.run_it(["--check", "--keep"], b"").returncode, 2)
        bad = self.run_it(["--check", "--back"], b"# first\nnodes 1\n\nstart\nstate 2\n")
        self.assertEqual((bad.returncode, bad.stdout), (1, b"standard input:5: word 2: the node is from 1 to 1\n"))
        bad = self.run_it(["--back"], b"ok\nstep 1 [1\n")
        self.assertEqual((bad.returncode, bad.stderr), (1, b"readable.py: line 2, place 10: no ,\n"))
        self.assertEqual(self.run_it(["--check", "/no/such/file"], b"").returncode, 1)


if __name__ == "__main__":
    unittest.main()
