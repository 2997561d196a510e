#!/usr/bin/env python3
"""A filter between the lines of grasp_replay and grasp_node and a notation for people, both ways.

usage: readable.py < LINES                    lines in, readable text out
       readable.py --back < TEXT              readable text in, lines out
       readable.py --check [--as WORD] [--back] [FILE]
                                              names each fault of a script: its line, word and reason

In the readable text a value is in the diagnostic notation of CBOR (RFC 8949, section 8), an address as RFC 5952 has it, a text between
quotation marks. Blank lines, indentation and what stands behind # are for the reader: --back leaves them out. A line that is none
of the programs' stands behind | as it is. --back gives exactly the lines from which the text was made.
--check takes a script as `grasp_replay replay` does, with --as keep or --as resolve as that word does, and with --back in readable text;
from standard input where no file is named. Its status is 1 where there are faults.
"""
import ipaddress
import re
import sys

sys.dont_write_bytecode = True
from cbor_notation import BadItem, BadNotation, Reader, notation_of, quoted  # noqa: E402
from script_check import WORDS, check  # noqa: E402

NUMBER = re.compile("0|[1-9][0-9]{0,19}")
DIGITS = re.compile("[0-9a-f]{32}")
PREFIX = re.compile("([0-9a-f]{32})/([0-9]{1,3})")
SHORT = re.compile("[0-9a-f]{8}")
VALUE = re.compile("x(?:[0-9a-f]{2})+")
TEXT = re.compile("'(?:[!-$&-~]|%[0-9a-f]{2})*")
TIME = re.compile("[0-9]{4}-[0-9]{2}-[0-9]{2}T[0-9:.]+Z(?= |$)")
RAW = "|"


class BadText(Exception):
    """A line of readable text is none, in words with its number."""


# ---- where a value and an address stand, told by the words before them


def is_number(words, at):
    return at < len(words) and NUMBER.fullmatch(words[at]) is not None


def is_text(words, at):
    return at < len(words) and words[at].startswith("'")


def awaits_value(words):
    """Whether the next word is a value, in the words of the programs' lines."""
    count = len(words)
    if count >= 2 and words[-2] in ("request", "offer", "flood") and is_text(words, count - 1):
        return True
    if count >= 2 and words[-2] in ("step", "invalid") and is_number(words, count - 1):
        return True
    return count >= 4 and words[-4] == "obj" and is_text(words, count - 3) and is_number(words, count - 2) and is_number(words, count - 1)


def ends_locator(words):
    """Whether the last words are a locator, or say that there is none."""
    if words[-1:] == ["none"]:
        return True
    return len(words) >= 4 and words[-4] in ("v4", "v6", "fqdn", "uri")


def awaits_address(words):
    """Whether the next word may be an IPv4 address in 8 digits."""
    if words[-1:] in (["v4"], ["floods"]):
        return True
    if len(words) >= 2 and words[-2] in ("discovery", "response", "flood", "incoming", "opened", "opening") and is_number(words, len(words) - 1):
        return True
    return "floods" in words and ends_locator(words)


# ---- from lines to text


def readable_address(word):
    return str(ipaddress.IPv6Address(int(word, 16)))


def readable_word(word, before):
    """The word for people, where it has one."""
    if awaits_value(before) and VALUE.fullmatch(word):
        try:
            return notation_of(bytes.fromhex(word[1:]))
        except BadItem:
            return word
    if TEXT.fullmatch(word):
        try:
            text = re.sub("%(..)", lambda found: chr(int(found.group(1), 16)), word[1:]).encode("latin-1").decode("utf-8")
        except UnicodeDecodeError:
            return word
        return quoted(text) if text_word(text) == word else word
    if DIGITS.fullmatch(word):
        return readable_address(word)
    prefix = PREFIX.fullmatch(word)
    if prefix:
        return f"{readable_address(prefix.group(1))}/{prefix.group(2)}"
    if SHORT.fullmatch(word) and awaits_address(before):
        return str(ipaddress.IPv4Address(int(word, 16)))
    return word


def readable_line(line):
    if line.startswith(RAW):
        return RAW + line
    words = line.split(" ")
    text = " ".join(readable_word(word, words[:at]) for at, word in enumerate(words))
    try:
        if line and back_line(text) == line:
            return text
    except (BadNotation, BadText):
        pass
    return RAW + line


# ---- from text to lines


def text_word(text):
    return "'" + "".join(chr(byte) if 0x21 <= byte <= 0x7e and byte != 0x25 else f"%{byte:02x}" for byte in text.encode("utf-8"))


def plain_word(word, place):
    """The programs' word of an address or a prefix; every other word stays."""
    if word.startswith("'"):
        return word
    address, slash, length = word.partition("/")
    try:
        if ":" in address:
            return f"{int(ipaddress.IPv6Address(address)):032x}{slash}{length}"
        if re.fullmatch(r"[0-9]+(?:\.[0-9]+){3}", address):
            return f"{int(ipaddress.IPv4Address(address)):08x}{slash}{length}"
    except ValueError:
        raise BadNotation(place, "no address") from None
    return word


def back_line(text):
    """The line of a readable one; None where it says nothing."""
    words, reader = [], Reader(text)
    while True:
        reader.space()
        if reader.at >= len(text) or text[reader.at] == "#":
            return " ".join(words) if words else None
        start = reader.at
        if awaits_value(words) and not re.compile("(?:x[0-9a-f]*|-)(?: |$)").match(text, start):
            words.append("x" + reader.item().hex())
        elif not words and (time := TIME.match(text, start)):
            words.append(time.group())
            reader.at = time.end()
        elif reader.has('"'):
            words.append(text_word(reader.string()))
        else:
            found = re.compile("[^ \t]+").match(text, start)
            reader.at = found.end()
            words.append(plain_word(found.group(), start))
        if reader.at < len(text) and text[reader.at] not in " \t":
            reader.fail("no space behind the word")


def back_text(line, number):
    if line.startswith(RAW):
        return line[1:]
    try:
        return back_line(line)
    except BadNotation as why:
        raise BadText(f"line {number}, place {why.place + 1}: {why.words}") from None


# ---- the filter


def filtered(octets, back):
    """All lines the other way; the last one has a line feed where it had one."""
    lines = octets.decode("utf-8", "surrogateescape").split("\n")
    last = lines.pop()
    out = []
    for number, line in enumerate(lines, 1):
        turned = back_text(line, number) if back else readable_line(line)
        if turned is not None:
            out.append(turned + "\n")
    if last:
        turned = back_text(last, len(lines) + 1) if back else readable_line(last)
        out.append(turned or "")
    return "".join(out).encode("utf-8", "surrogateescape")


def checked(words):
    """The faults of a script; in readable text the lines that say nothing aren't counted out, so that a fault has the line where it stands."""
    word = words[1] if words[:1] == ["--as"] and len(words) > 1 else "replay"
    words = words[2:] if words[:1] == ["--as"] else words
    back = words[:1] == ["--back"]
    names = words[1:] if back else words
    if len(names) > 1 or word not in WORDS or names and names[0].startswith("--"):
        print("readable.py: unknown words; try --help", file=sys.stderr)
        return 2
    try:
        octets = open(names[0], "rb").read() if names else sys.stdin.buffer.read()
        places = None
        if back:
            octets, places = script_of(octets)
        ok = check(octets, names[0] if names else "standard input", print, places, word)
        return 0 if ok else 1
    except BadText as why:
        print(f"{names[0] if names else 'standard input'}: {why}")
        return 1
    except OSError as why:
        print(f"readable.py: {names[0] if names else 'standard input'}: {why.strerror}", file=sys.stderr)
        return 1


def script_of(octets):
    """The script of a readable one, and at which line of the text each of its lines stands."""
    lines = octets.decode("utf-8", "surrogateescape").split("\n")
    out, places = [], []
    for number, line in enumerate(lines, 1):
        turned = back_text(line, number)
        if turned is not None and (turned or number < len(lines)):
            out.append(turned + "\n")
            places.append(number)
    return "".join(out).encode("utf-8", "surrogateescape"), places + [len(lines)]


def main(words):
    if words in (["--help"], ["-h"]):
        print(__doc__.strip())
        return 0
    if words[:1] == ["--check"]:
        return checked(words[1:])
    if words not in ([], ["--back"]):
        print("readable.py: unknown words; try --help", file=sys.stderr)
        return 2
    try:
        sys.stdout.buffer.write(filtered(sys.stdin.buffer.read(), words == ["--back"]))
        sys.stdout.buffer.flush()
    except BadText as why:
        print(f"readable.py: {why}", file=sys.stderr)
        return 1
    except OSError as why:
        print(f"readable.py: {why.strerror}", file=sys.stderr)
        return 1
    return 0


if __name__ == "__main__":
    sys.exit(main(sys.argv[1:]))
