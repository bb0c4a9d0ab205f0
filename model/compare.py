#!/usr/bin/env python3
"""Compares the built console with the model on random scripts, good lines and bad.

    model/compare.py [LINES [SEED]]     after ./run
"""
import os
import random
import subprocess
import sys

import console as model

TOP = os.path.dirname(os.path.dirname(os.path.abspath(__file__)))
EDGES = [0, 1, 5, 255, 256, 257, 300, 65535, 65536, 2**24 - 1, 2**24, 2**32 - 2, 2**32 - 1]


class Writer:
    """Writes lines whose calls mostly succeed, and damages some."""

    def __init__(self, rng):
        self.rng = rng
        self.keys = [bytes(31) + bytes([k]) for k in range(6)] + [bytes([k]) + bytes(31) for k in (1, 255)]
        self.starts = [bytes(32), bytes(31) + b"\x01", bytes(range(32))]

    def key(self):
        return self.rng.choice(self.keys)

    def index(self):
        return self.rng.choice(EDGES) if self.rng.random() < 0.7 else self.rng.randrange(0, 700)

    def start(self, key):
        """A session mostly has one start, so that most of its copies agree."""
        return self.rng.choice(self.starts) if self.rng.random() < 0.04 else self.starts[sum(key) % 3]

    def copy(self):
        key = self.key()
        at = model.advance(model.Sender(key, self.start(key)).start, self.index())[0]
        version = self.rng.choice([0x41, 0x42, 0x42, 0x42, 0x42, 0x40])
        return model.copy_bytes(version, at, key)

    def message(self, key):
        index, parts = model.advance(model.Sender(key, self.start(key)).start, self.index())[0]
        size = self.rng.choice([0, 1, 2, 2, 40, 127, 128, 4096, 4097, 4114, 4115])
        text = bytes(self.rng.randrange(256) for _ in range(size))
        body = bytes([model.SUITE.message, 8]) + model.varint(index) + b"\x12" + model.varint(size) + text
        return body + model.SUITE.tag(parts, body)

    def damaged(self, data):
        how = self.rng.randrange(16)
        if how == 0:
            return data[: self.rng.randrange(len(data) + 1)]
        if how == 1:
            return data + b"\x00"
        if how == 2 and data:
            at = self.rng.randrange(min(len(data), 12))
            return data[:at] + bytes([self.rng.randrange(256)]) + data[at + 1 :]
        return data

    def command(self):
        rng, text = self.rng, model.shown_bytes
        kind = rng.randrange(20)
        if kind == 0 and rng.random() < 0.3:
            floor = rng.choice([0, 0, 0, 256, 300, 65536, 2**32 - 1])
            return f"archive bench slots {rng.choice([0, 1, 3, 8, 5000])} {rng.randrange(20)} {floor}"
        if kind == 1:
            return f"space {rng.choice([0, 1, 40, 69, 4096, 4113, 1048577] + 5 * [1048576])}"
        if kind == 2:
            key = self.key()
            return f"sender {key.hex()} {text(self.damaged(self.start(key)))}"
        if kind in (3, 4):
            size = rng.choice([0, 1, 2, 30, 4096, 4097])
            return f"seal {text(bytes(size))}"
        if kind == 5:
            return f"share {rng.choice([0, 1, 2, 3, self.index()])}"
        if kind in (6, 7, 8, 9):
            return f"take {text(self.damaged(self.copy()))}"
        if kind == 10:
            return f"dispute {self.key().hex()}" if rng.random() < 0.1 else f"look {self.key().hex()}"
        if kind in (11, 12):
            return f"look {self.key().hex()}"
        if kind == 13:
            return f"next {'-' if rng.random() < 0.4 else self.key().hex()}"
        if kind in (14, 15, 16):
            key = self.key()
            return f"open {key.hex()} {text(self.damaged(self.message(key)))}"
        if kind == 17:
            return rng.choice(["free", "floor"])
        return f"advance {text(self.damaged(self.copy()))} {self.index()}"

    def line(self):
        line, rng = self.command(), self.rng
        if rng.random() < 0.9:
            return line
        at = rng.randrange(len(line) + 1)
        return rng.choice([line[:at] + rng.choice(" -0aF#\t\r") + line[at:], line[:at], line.upper(), "", "# " + line, line + " ", "lend"])


def main():
    count = int(sys.argv[1]) if len(sys.argv) > 1 else 2000
    seed = int(sys.argv[2]) if len(sys.argv) > 2 else 1
    writer = Writer(random.Random(seed))
    script = "\n".join(["archive bench slots 4 16 0"] + [writer.line() for _ in range(count)]).encode()
    run = lambda words: subprocess.run(words, input=script, stdout=subprocess.PIPE, check=True).stdout
    told = run([os.path.join(TOP, "crates/console/out/console")])
    expected = run([sys.executable, os.path.join(TOP, "model/console.py")])
    if told == expected:
        print(f"{count} lines by seed {seed}: {len(told.splitlines())} answers, all equal")
        return 0
    for n, (a, b) in enumerate(zip(told.splitlines() + [b""], expected.splitlines() + [b""])):
        if a != b:
            print(f"answer {n + 1}: the console says {a[:200]!r}, the model {b[:200]!r}")
            return 1
    return 1


if __name__ == "__main__":
    sys.exit(main())
