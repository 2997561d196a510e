#!/usr/bin/env python3
"""Writes a stream of mixed GRASP messages (RFC 8990), in shortest encodings, to standard output.

usage: make_messages.py BYTES [SEED [KIND]]

The stream has at most BYTES bytes and less than 2048 fewer, for most kinds less than 200. The same words give the same stream.
KIND is one of these:

mixed    messages of all kinds with small values, as when no KIND is given
nested   values with arrays and maps five deep, texts with and without ASCII, and byte strings of up to 40 bytes
large    values of 1 to 1.9 KB
short    M_NOOP, M_WAIT, M_END, and requests without a value
wide     messages whose arrays have no definite length, and whose other heads are often longer than they need be
"""
import random
import struct
import sys


def head(major, n):
    if n < 24:
        return bytes([major << 5 | n])
    if n < 1 << 8:
        return bytes([major << 5 | 24, n])
    if n < 1 << 16:
        return bytes([major << 5 | 25]) + struct.pack(">H", n)
    if n < 1 << 32:
        return bytes([major << 5 | 26]) + struct.pack(">I", n)
    return bytes([major << 5 | 27]) + struct.pack(">Q", n)


def uint(n):
    return head(0, n)


def data(octets):
    return head(2, len(octets)) + octets


def text(letters):
    octets = letters.encode()
    return head(3, len(octets)) + octets


def array(*items):
    return head(4, len(items)) + b"".join(items)


NULL = b"\xf6"
NAMES = ["PrefixManager", "temperature", "ex1", "a name", "größe", "100%"]


LETTERS = ["prefix", "a b", "größe", "温度", "100%", "Ωμέγα", "x" * 20]


class Messages:
    def __init__(self, seed):
        self.random = random.Random(seed)

    def array(self, *items):
        """An array of a message, but for those in values."""
        return array(*items)

    def uint(self, n):
        """A number of a message, but for those in values."""
        return uint(n)

    def data(self, octets):
        return data(octets)

    def text(self, letters):
        return text(letters)

    def session(self):
        return self.uint(self.random.getrandbits(32))

    def address(self):
        return self.data(self.random.randbytes(16 if self.random.random() < 0.7 else 4))

    def value(self, depth=0):
        kind = self.random.randrange(7 if depth < 3 else 4)
        if kind == 0:
            return uint(self.random.getrandbits(self.random.choice([5, 8, 16, 32, 64])))
        if kind == 1:
            return head(1, self.random.getrandbits(16))
        if kind == 2:
            return data(self.random.randbytes(self.random.randrange(20)))
        if kind == 3:
            return text(self.random.choice(NAMES))
        if kind == 4:
            return array(*[self.value(depth + 1) for _ in range(self.random.randrange(4))])
        if kind == 5:
            pairs = [(self.value(3), self.value(depth + 1)) for _ in range(self.random.randrange(3))]
            return head(5, len(pairs)) + b"".join(key + value for key, value in pairs)
        return head(6, self.random.choice([0, 1, 4, 32, 1000])) + self.value(depth + 1)

    def objective(self):
        parts = [self.text(self.random.choice(NAMES)), self.uint(self.random.randrange(16)), self.uint(self.random.randrange(256))]
        if self.random.random() < 0.8:
            parts.append(self.value())
        return self.array(*parts)

    def locator(self):
        proto, port = self.uint(self.random.choice([6, 17])), self.uint(self.random.randrange(65536))
        kind = self.random.randrange(4)
        if kind == 0:
            return self.array(self.uint(103), self.data(self.random.randbytes(16)), proto, port)
        if kind == 1:
            return self.array(self.uint(104), self.data(self.random.randbytes(4)), proto, port)
        if kind == 2:
            return self.array(self.uint(105), self.text("router.example"), proto, port)
        return self.array(self.uint(106), self.text("grasp://router.example/x"), NULL, NULL)

    def message(self):
        kind = self.random.randrange(11)
        if kind == 0:
            return self.array(self.uint(0))
        if kind == 1:
            return self.array(self.uint(1), self.session(), self.address(), self.objective())
        if kind == 2:
            locators = [self.locator() for _ in range(1 + self.random.randrange(2))]
            if self.random.random() < 0.3:
                locators = [self.array(self.uint(100), *locators)]
            return self.array(self.uint(2), self.session(), self.address(), self.uint(self.random.getrandbits(20)), *locators)
        if kind in (3, 4, 5, 8):
            return self.array(self.uint(kind), self.session(), self.objective())
        if kind == 6:
            verdict = self.random.choice([self.array(self.uint(101)), self.array(self.uint(102)), self.array(self.uint(102), self.text("no room"))])
            return self.array(self.uint(6), self.session(), verdict)
        if kind == 7:
            return self.array(self.uint(7), self.session(), self.uint(self.random.getrandbits(16)))
        if kind == 9:
            part = self.array(self.objective(), self.locator() if self.random.random() < 0.5 else self.array())
            return self.array(self.uint(9), self.session(), self.address(), self.uint(self.random.getrandbits(20)), part)
        detail = [self.value()] if self.random.random() < 0.5 else []
        return self.array(self.uint(99), self.session(), *detail)


class Nested(Messages):
    def value(self, depth=0):
        kind = self.random.randrange(4, 7) if depth < 2 else self.random.randrange(7 if depth < 5 else 4)
        if kind == 0:
            return uint(self.random.getrandbits(self.random.choice([5, 8, 16, 32, 64])))
        if kind == 1:
            return head(1, self.random.getrandbits(16))
        if kind == 2:
            return data(self.random.randbytes(self.random.randrange(41)))
        if kind == 3:
            return text(self.random.choice(LETTERS))
        if kind in (4, 6):
            return array(*[self.value(depth + 1) for _ in range(1 + self.random.randrange(3))])
        pairs = [(text(self.random.choice(LETTERS)), self.value(depth + 1)) for _ in range(1 + self.random.randrange(2))]
        return head(5, len(pairs)) + b"".join(key + value for key, value in pairs)

    def message(self):
        while True:
            message = super().message()
            if len(message) <= 2048:
                return message


class Large(Messages):
    def value(self, depth=0):
        size = self.random.randrange(1000, 1900)
        kind = self.random.randrange(3)
        if kind == 0:
            return data(self.random.randbytes(size))
        if kind == 1:
            return text("".join(self.random.choice(LETTERS) for _ in range(size // 14)))
        return array(*[uint(self.random.getrandbits(32)) for _ in range(size // 5)])

    def message(self):
        return array(uint(self.random.choice([3, 4, 5, 8])), self.session(), self.objective())

    def objective(self):
        return array(text(self.random.choice(NAMES)), uint(self.random.randrange(16)), uint(self.random.randrange(256)), self.value())


class Short(Messages):
    def message(self):
        kind = self.random.choice([0, 3, 4, 6, 6, 7, 7])
        if kind == 0:
            return array(uint(0))
        if kind == 6:
            return array(uint(6), self.session(), self.random.choice([array(uint(101)), array(uint(102), text("no room"))]))
        if kind == 7:
            return array(uint(7), self.session(), uint(self.random.getrandbits(16)))
        objective = array(text(self.random.choice(NAMES)), uint(self.random.randrange(16)), uint(self.random.randrange(256)))
        return array(uint(kind), self.session(), objective)


class Wide(Messages):
    def wide_head(self, major, n):
        size = self.random.choice([0, 1, 2, 4, 8])
        if size == 0 or n >= 1 << 8 * size:
            return head(major, n)
        return bytes([major << 5 | {1: 24, 2: 25, 4: 26, 8: 27}[size]]) + n.to_bytes(size, "big")

    def array(self, *items):
        return b"\x9f" + b"".join(items) + b"\xff"

    def uint(self, n):
        return self.wide_head(0, n)

    def data(self, octets):
        return self.wide_head(2, len(octets)) + octets

    def text(self, letters):
        octets = letters.encode()
        return self.wide_head(3, len(octets)) + octets


KINDS = {"mixed": Messages, "nested": Nested, "large": Large, "short": Short, "wide": Wide}


def main():
    if not sys.argv[1:] or sys.argv[1] in ("-h", "--help"):
        print(__doc__.strip(), file=sys.stdout if sys.argv[1:] else sys.stderr)
        sys.exit(0 if sys.argv[1:] else 2)
    limit = int(sys.argv[1])
    seed = int(sys.argv[2]) if len(sys.argv) > 2 else 1
    messages = KINDS[sys.argv[3] if len(sys.argv) > 3 else "mixed"](seed)
    out, size = [], 0
    while True:
        message = messages.message()
        if size + len(message) > limit:
            break
        out.append(message)
        size += len(message)
    sys.stdout.buffer.write(b"".join(out))


if __name__ == "__main__":
    main()
