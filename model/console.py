#!/usr/bin/env python3
"""The rules of docs/rules.md and docs/console.md once more, in another language, to compare the console with.

It shares no code with the library and is written from the rules alone. It reads a script on standard input and
prints what the console has to print.
"""
import re
import sys

LAST = 2**32 - 1
WORD = 2**64 - 1
NUMBER = re.compile(r"0|[1-9][0-9]*")
HEX = re.compile(r"(?:[0-9a-f]{2})+")
DISPUTED = "disputed"


class Bad(Exception):
    """A line that is no command."""


class Refused(Exception):
    """A refusal by its number."""


class Bench:
    width, message, share, export = 8, 0x43, 0x42, 0x41

    @staticmethod
    def hash(j, p):
        turned = ((p << 7) | (p >> 57)) & WORD
        return ((turned + 0x9E3779B97F4A7C15) & WORD) ^ j

    @staticmethod
    def tag(parts, data):
        t = parts[0] ^ parts[1] ^ parts[2] ^ parts[3]
        for b in data:
            t = ((((t << 5) | (t >> 59)) & WORD) + b) & WORD
        return t.to_bytes(8, "big")

    @staticmethod
    def encode(p):
        return p.to_bytes(8, "big")

    @staticmethod
    def decode(data):
        return int.from_bytes(data, "big")

    @staticmethod
    def allows(n):
        return n <= 4096

    @staticmethod
    def cipher(parts, text):
        return text

    @staticmethod
    def decipher(parts, cipher):
        return cipher


SUITE = Bench


def step(copy):
    index, parts = copy[0] + 1, list(copy[1])
    h = 0 if index % 2**24 == 0 else 1 if index % 2**16 == 0 else 2 if index % 2**8 == 0 else 3
    old = parts[h]
    for k in range(h, 4):
        parts[k] = SUITE.hash(k, old)
    return index, tuple(parts)


def advance(copy, target):
    """The copy and the hashes; short ways by single steps, long ones by the passes of the rules."""
    index, parts = copy
    if target < index:
        raise Refused(21)
    cost, c, moved = 0, index, list(parts)
    for j in range(4):
        unit = 2 ** (24 - 8 * j)
        s = target // unit - c // unit
        if s == 0:
            continue
        for _ in range(s - 1):
            moved[j] = SUITE.hash(j, moved[j])
        old = moved[j]
        for k in range(j, 4):
            moved[k] = SUITE.hash(k, old)
        cost += s - 1 + 4 - j
        c = unit * (target // unit)
    reached = (target, tuple(moved))
    if target - index <= 600:
        singly = copy
        while singly[0] < target:
            singly = step(singly)
        assert singly == reached
    return reached, cost


def raised(holding, floor):
    if holding == DISPUTED or holding[0] >= floor:
        return holding
    return advance(holding, floor)[0]


def joined(a, b):
    if DISPUTED in (a, b):
        return DISPUTED
    low, high = (a, b) if a[0] <= b[0] else (b, a)
    return low if advance(low, high[0])[0] == high else DISPUTED


def varint(n):
    out = []
    while n >= 128:
        out.append(n % 128 + 128)
        n //= 128
    return bytes(out + [n])


def read_varint(data):
    """The number and its length, or None: it has to be the shortest form of a number below 2^32."""
    for n in range(1, 6):
        if len(data) >= n and data[n - 1] < 128:
            value = sum((b & 127) << (7 * i) for i, b in enumerate(data[:n]))
            if value <= LAST and varint(value) == data[:n]:
                return value, n
            return None
    return None


def copy_bytes(version, copy, key):
    return bytes([version]) + copy[0].to_bytes(4, "big") + b"".join(map(SUITE.encode, copy[1])) + key


def read_copy(data):
    w = SUITE.width
    if len(data) != 37 + 4 * w:
        raise Refused(1)
    if data[0] not in (SUITE.share, SUITE.export):
        raise Refused(2)
    parts = tuple(SUITE.decode(data[5 + k * w : 5 + (k + 1) * w]) for k in range(4))
    return (int.from_bytes(data[1:5], "big"), parts), data[5 + 4 * w :]


def filled(data, space):
    if len(data) > space:
        raise Refused(16)
    return data


class Archive:
    def __init__(self, places, floor):
        self.places, self.floor = min(places, 4096), floor
        self.below, self.sender = {}, None

    def free(self):
        return self.places - len(self.below)

    def look(self, key):
        return raised(self.below[key], self.floor) if key in self.below else None

    def take(self, key, holding):
        if key not in self.below and self.free() == 0:
            raise Refused(3)
        holding = raised(holding, self.floor)
        self.below[key] = joined(self.below[key], holding) if key in self.below else holding

    def next(self, last):
        above = sorted(k for k in self.below if last is None or k > last)
        return above[0] if above else None

    def open(self, key, data, space):
        if not 1 <= len(data) <= 4130 or data[0] != SUITE.message:
            raise Refused(7)
        index = read_varint(data[2:]) if data[1:2] == b"\x08" else None
        if index is None:
            raise Refused(8)
        rest = data[2 + index[1] :]
        size = read_varint(rest[1:]) if rest[:1] == b"\x12" else None
        if size is None or len(rest) != 1 + size[1] + size[0] + 8:
            raise Refused(9)
        if not SUITE.allows(size[0]):
            raise Refused(10)
        shown = self.look(key)
        if shown is None:
            raise Refused(11)
        if shown == DISPUTED:
            raise Refused(12)
        if index[0] < shown[0]:
            raise Refused(13)
        there, cost = advance(shown, index[0])
        if SUITE.tag(there[1], data[:-8]) != data[-8:]:
            raise Refused(14)
        text = SUITE.decipher(there[1], rest[1 + size[1] : -8])
        if text is None:
            raise Refused(15)
        return filled(text, space), index[0], cost


class Sender:
    def __init__(self, key, start):
        w = SUITE.width
        if len(start) != 4 * w:
            raise Refused(1)
        parts = tuple(SUITE.decode(start[k * w : (k + 1) * w]) for k in range(4))
        self.key, self.start, self.current, self.spent = key, (0, parts), (0, parts), False

    def seal(self, text, space):
        if len(text) > 4096:
            raise Refused(18)
        if self.spent:
            raise Refused(19)
        index, parts = self.current
        cipher = SUITE.cipher(parts, text)
        body = bytes([SUITE.message, 0x08]) + varint(index) + b"\x12" + varint(len(cipher)) + cipher
        message = filled(body + SUITE.tag(parts, body), space)
        if index == LAST:
            self.spent = True
        else:
            self.current = step(self.current)
        return message

    def share(self, index, space):
        if index > self.current[0]:
            raise Refused(20)
        return filled(copy_bytes(SUITE.share, advance(self.start, index)[0], self.key), space)


def number(word, most):
    if not NUMBER.fullmatch(word) or int(word) > most:
        raise Bad
    return int(word)


def data_of(word):
    if word == "-":
        return b""
    if not HEX.fullmatch(word):
        raise Bad
    return bytes.fromhex(word)


def key_of(word):
    if len(word) != 64:
        raise Bad
    return data_of(word)


def shown_bytes(data):
    return data.hex() or "-"


def shown_holding(holding):
    if holding == DISPUTED:
        return DISPUTED
    return " ".join([str(holding[0])] + [SUITE.encode(p).hex() for p in holding[1]])


class Console:
    def __init__(self):
        self.archive, self.space = None, 2**20

    def command(self, words):
        verb, rest = words[0], words[1:]
        if verb == "archive" and len(rest) == 5 and rest[:2] == ["bench", "slots"]:
            places, _, floor = number(rest[2], 2**20), number(rest[3], 2**20), number(rest[4], LAST)
            self.archive, self.space = Archive(places, floor), 2**20
            return f"archive {self.archive.free()} {floor}"
        if verb == "space" and len(rest) == 1:
            self.space = number(rest[0], 2**20)
            return f"space {self.space}"
        call = getattr(self, "do_" + verb, None)
        if call is None or self.archive is None or call.__code__.co_argcount != len(rest) + 1:
            raise Bad
        said = call(*rest)
        return verb if said is None else f"{verb} {said}"

    def do_sender(self, key, start):
        key, start = key_of(key), data_of(start)
        self.archive.sender = Sender(key, start)
        return "0"

    def own(self):
        if self.archive.sender is None:
            raise Bad
        return self.archive.sender

    def do_seal(self, text):
        text = data_of(text)
        return self.own().seal(text, self.space).hex()

    def do_share(self, index):
        index = number(index, LAST)
        return self.own().share(index, self.space).hex()

    def do_take(self, data):
        data = data_of(data)
        copy, key = read_copy(data)
        self.archive.take(key, copy)

    def do_dispute(self, key):
        self.archive.take(key_of(key), DISPUTED)

    def do_look(self, key):
        shown = self.archive.look(key_of(key))
        return "none" if shown is None else shown_holding(shown)

    def do_next(self, last):
        key = self.archive.next(None if last == "-" else key_of(last))
        return "none" if key is None else f"{key.hex()} {shown_holding(self.archive.look(key))}"

    def do_open(self, key, message):
        key, message = key_of(key), data_of(message)
        text, index, cost = self.archive.open(key, message, self.space)
        return f"{index} {cost} {shown_bytes(text)}"

    def do_free(self):
        return str(self.archive.free())

    def do_floor(self):
        return str(self.archive.floor)

    def do_advance(self, data, target):
        data, target = data_of(data), number(target, LAST)
        copy, key = read_copy(data)
        there, cost = advance(copy, target)
        return f"{cost} {copy_bytes(SUITE.export, there, key).hex()}"

    def line(self, n, line):
        if line == "" or line.startswith("#"):
            return
        words = line.split(" ")
        try:
            print(self.command(words))
        except Bad:
            print(f"bad line {n}")
        except Refused as refused:
            print(f"{words[0]} refused {refused}")


def main():
    text = sys.stdin.buffer.read().decode("latin-1")
    console = Console()
    for n, line in enumerate(text.split("\n"), 1):
        console.line(n, line)


if __name__ == "__main__":
    main()
