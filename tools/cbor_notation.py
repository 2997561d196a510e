"""CBOR items in their shortest spelling, and the diagnostic notation of them (RFC 8949, section 8), each exactly from the other.

A float without an encoding indicator has the least width that holds it; `_1`, `_2` and `_3` say that it has 2, 4 or 8 bytes where that is more.
A float that is no number and not the usual one is `float'DIGITS'`.
"""
import math
import re
import struct

FORMS = {25: (">e", 1), 26: (">f", 2), 27: (">d", 3)}
SIMPLE = {20: "false", 21: "true", 22: "null", 23: "undefined"}
NAMES = {name: number for number, name in SIMPLE.items()}
DEEPEST = 64


class BadNotation(Exception):
    """The text is no item, in words, and the place from 0 where that shows."""

    def __init__(self, place, words):
        super().__init__(f"{words} at {place + 1}")
        self.place = place
        self.words = words


class BadItem(Exception):
    """The bytes are no item."""


# ---- from bytes to notation


def head(major, number):
    if number < 24:
        return bytes([major << 5 | number])
    for info, size in ((24, 1), (25, 2), (26, 4), (27, 8)):
        if number < 1 << 8 * size:
            return bytes([major << 5 | info]) + number.to_bytes(size, "big")
    raise BadItem("too large a number")


def quoted(text):
    """A text between quotation marks: what can't be printed is escaped as JSON has it."""
    out = []
    for mark in text:
        if mark in '"\\':
            out.append("\\" + mark)
        elif mark.isprintable():
            out.append(mark)
        else:
            units = mark.encode("utf-16-be")
            out.extend(f"\\u{units[at]:02x}{units[at + 1]:02x}" for at in range(0, len(units), 2))
    return '"' + "".join(out) + '"'


def narrowest(value):
    """The least width that holds the float: its additional information."""
    for info in (25, 26):
        try:
            if struct.unpack(FORMS[info][0], struct.pack(FORMS[info][0], value))[0] == value:
                return info
        except OverflowError:
            continue
    return 27


def float_notation(info, octets):
    value = struct.unpack(FORMS[info][0], octets)[0]
    if math.isnan(value):
        return "NaN" if (info, octets) == (25, b"\x7e\x00") else f"float'{octets.hex()}'"
    shown = repr(value) if math.isfinite(value) else "Infinity" if value > 0 else "-Infinity"
    return shown if narrowest(value) == info else f"{shown}_{FORMS[info][1]}"


def item_at(octets, at, depth):
    """The notation of the item that begins here, and where it ends."""
    if at >= len(octets) or depth > DEEPEST:
        raise BadItem("no item")
    major, info = octets[at] >> 5, octets[at] & 31
    at += 1
    size = {24: 1, 25: 2, 26: 4, 27: 8}.get(info, 0)
    if info > 27 or at + size > len(octets):
        raise BadItem("no head")
    number = int.from_bytes(octets[at:at + size], "big") if size else info
    if major == 7:
        part = octets[at:at + size]
        if info in FORMS:
            return float_notation(info, part), at + size
        if info == 24 and number < 32:
            raise BadItem("no simple value")
        return SIMPLE.get(number, f"simple({number})"), at + size
    at += size
    if major == 0:
        return str(number), at
    if major == 1:
        return str(-1 - number), at
    if major in (2, 3):
        if at + number > len(octets):
            raise BadItem("too short")
        part = octets[at:at + number]
        if major == 2:
            return f"h'{part.hex()}'", at + number
        return quoted(part.decode("utf-8")), at + number
    if major == 6:
        inner, at = item_at(octets, at, depth + 1)
        return f"{number}({inner})", at
    parts = []
    for _ in range(number if major == 4 else 2 * number):
        inner, at = item_at(octets, at, depth + 1)
        parts.append(inner)
    if major == 4:
        return "[" + ", ".join(parts) + "]", at
    return "{" + ", ".join(f"{key}: {value}" for key, value in zip(parts[::2], parts[1::2])) + "}", at


def notation_of(octets):
    """The notation of one item, which has to be all of the bytes."""
    try:
        text, end = item_at(octets, 0, 0)
    except UnicodeDecodeError:
        raise BadItem("no UTF-8") from None
    if end != len(octets):
        raise BadItem("more than one item")
    return text


# ---- from notation to bytes

NUMBER = re.compile(r"-?(?:0|[1-9][0-9]*)(?:\.[0-9]+)?(?:[eE][+-]?[0-9]+)?")
ESCAPES = {"b": "\b", "f": "\f", "n": "\n", "r": "\r", "t": "\t", '"': '"', "\\": "\\", "/": "/"}


class Reader:
    """Reads items from a text."""

    def __init__(self, text, at=0):
        self.text = text
        self.at = at

    def fail(self, words, at=None):
        raise BadNotation(self.at if at is None else at, words)

    def space(self):
        while self.at < len(self.text) and self.text[self.at] in " \t":
            self.at += 1

    def has(self, mark):
        if self.text.startswith(mark, self.at):
            self.at += len(mark)
            return True
        return False

    def need(self, mark):
        if not self.has(mark):
            self.fail(f"no {mark}")

    def parts(self, end, one):
        """Parts with commas between them, up to the end mark."""
        out = []
        self.space()
        if self.has(end):
            return out
        while True:
            out.append(one())
            self.space()
            if self.has(end):
                return out
            self.need(",")
            self.space()

    def string(self):
        """The text behind an opening quotation mark."""
        out = []
        while True:
            if self.at >= len(self.text):
                self.fail('no " at the end')
            mark = self.text[self.at]
            self.at += 1
            if mark == '"':
                break
            if mark != "\\":
                out.append(mark)
                continue
            kind = self.text[self.at:self.at + 1]
            self.at += 1
            if kind in ESCAPES and kind:
                out.append(ESCAPES[kind])
            elif kind == "u" and re.fullmatch("[0-9a-fA-F]{4}", self.text[self.at:self.at + 4]):
                out.append(chr(int(self.text[self.at:self.at + 4], 16)))
                self.at += 4
            else:
                self.fail("no escape", self.at - 2)
        try:
            return "".join(out).encode("utf-16-be", "surrogatepass").decode("utf-16-be")
        except UnicodeDecodeError:
            self.fail("half a character")

    def digits(self):
        """The bytes of hexadecimal digits up to an apostrophe."""
        found = re.compile("((?:[0-9a-fA-F]{2})*)'").match(self.text, self.at)
        if not found:
            self.fail("no pairs of digits and '")
        self.at = found.end()
        return bytes.fromhex(found.group(1))

    def pair(self):
        key = self.item()
        self.space()
        self.need(":")
        return key + self.item()

    def number(self, start):
        found = NUMBER.match(self.text, self.at)
        infinite = re.compile("-?Infinity").match(self.text, self.at)
        if infinite:
            self.at = infinite.end()
            return self.float(float(infinite.group().replace("Infinity", "inf")))
        if not found:
            self.fail("no item", start)
        self.at = found.end()
        word = found.group()
        if re.fullmatch("-?[0-9]+", word):
            value = int(word)
            if word == "-0" or not -(1 << 64) <= value < 1 << 64:
                self.fail("not from -18446744073709551616 to 18446744073709551615", start)
            if self.has("("):
                if value < 0:
                    self.fail("no tag", start)
                inner = self.item()
                self.space()
                self.need(")")
                return head(6, value) + inner
            return head(0, value) if value >= 0 else head(1, -1 - value)
        return self.float(float(word))

    def float(self, value):
        info = narrowest(value)
        for wide, (_, mark) in FORMS.items():
            if self.has(f"_{mark}"):
                if wide < info:
                    self.fail(f"doesn't fit _{mark}")
                info = wide
                break
        return bytes([0xe0 | info]) + struct.pack(FORMS[info][0], value)

    def item(self):
        """The bytes of the item that begins here."""
        self.space()
        start = self.at
        if self.has("["):
            parts = self.parts("]", self.item)
            return head(4, len(parts)) + b"".join(parts)
        if self.has("{"):
            parts = self.parts("}", self.pair)
            return head(5, len(parts)) + b"".join(parts)
        if self.has('"'):
            octets = self.string().encode("utf-8")
            return head(3, len(octets)) + octets
        if self.has("h'"):
            octets = self.digits()
            return head(2, len(octets)) + octets
        if self.has("float'"):
            octets = self.digits()
            if len(octets) not in (2, 4, 8):
                self.fail("not 2, 4 or 8 bytes", start)
            return bytes([0xe0 | {2: 25, 4: 26, 8: 27}[len(octets)]]) + octets
        if self.has("NaN"):
            return b"\xf9\x7e\x00"
        for name, number in NAMES.items():
            if self.has(name):
                return head(7, number)
        simple = re.compile(r"simple\((0|[1-9][0-9]{0,2})\)").match(self.text, self.at)
        if simple:
            number = int(simple.group(1))
            if number > 255 or 24 <= number < 32:
                self.fail("no simple value", start)
            self.at = simple.end()
            return head(7, number)
        return self.number(start)


def item_of(text):
    """The bytes of an item's notation, which has to be all of the text."""
    reader = Reader(text)
    octets = reader.item()
    reader.space()
    if reader.at != len(text):
        reader.fail("more than an item")
    return octets
