#!/usr/bin/env python3
"""A client of lt_console over its pipe.

    examples/client.py PROGRAM [BOOKINGS]     for example: examples/client.py crates/lt_console/out/lt_console

    with Console(program) as console:
        console.declare("stock", "sym -> int")
        reply = console.run("ann", "insert stock('lamp', 2);")
        console.show("stock")                            # [('lamp', 2)]

A program that is refused or has a code is a reply, and no error; a text that isn't taken, and an item with a code, are exceptions.
"""
import os
import re
import subprocess
import sys
import time
from collections import deque
from typing import NamedTuple


class Error(Exception):
    """What the console told: `error LINE COLUMN CODE words`, or `bad CODE`."""


class Reply(NamedTuple):
    name: str
    state: str          # done, refused or bad
    statement: int      # the one that is why
    code: int           # of a program that is bad
    prints: list        # of each print its rows


def literal(value):
    """A constant of a script; nothing else gets in."""
    if isinstance(value, int) and not isinstance(value, bool) and -2**63 <= value < 2**63:
        return str(value)
    if isinstance(value, str) and re.fullmatch("[a-z0-9_]{1,15}", value):
        return f"'{value}'"
    raise ValueError(f"neither an int nor a symbol: {value!r}")


class Console:
    def __init__(self, program, *words):
        self.process = subprocess.Popen([program, *words], stdin=subprocess.PIPE, stdout=subprocess.PIPE, bufsize=0)
        self.input, self.output = self.process.stdin.fileno(), self.process.stdout.fileno()
        self.lines, self.rest = deque(), b""        # what was read: whole lines, and the beginning of one
        self.kinds = {}

    def __enter__(self):
        return self

    def __exit__(self, *_):
        self.close()

    def close(self):
        self.process.stdin.close()
        self.process.stdout.close()
        return self.process.wait()

    def send(self, text):
        """An item with its last semicolon at the end of the last line, or a command: one write, but for a long text."""
        data = text.encode() + b"\n"
        sent = os.write(self.input, data)
        while sent < len(data):
            sent += os.write(self.input, data[sent:sent + (1 << 16)])

    def next_line(self):
        """The line that is read next. What the console has written is read at once, so a short answer is one read."""
        while not self.lines:
            data = os.read(self.output, 1 << 16)
            if not data:
                raise EOFError(f"the console ended with status {self.process.wait()}")
            whole, end, self.rest = (self.rest + data).rpartition(b"\n")
            if end:
                self.lines.extend(whole.decode().split("\n"))
        return self.lines[0]

    def line(self):
        self.next_line()
        return self.lines.popleft()

    def answer(self):
        """The first line that answers an item. Rows are never read here, so a row can't be taken for an error."""
        line = self.line()
        if line.startswith(("error ", "bad ")):
            raise Error(line)
        return line

    def rows(self, count, kinds=None):
        """So many rows. A symbol may be all digits, so the kinds say which cells are ints."""
        rows = [tuple(self.line().split(" ")) for _ in range(count)]
        if kinds is None:
            return rows
        return [tuple(int(cell) if kind == "int" else cell for cell, kind in zip(row, kinds)) for row in rows]

    def declare(self, relation, columns):
        self.send(f"relation {relation}({columns});")
        self.answer()
        self.kinds[relation] = re.findall("int|sym", columns)

    def reply(self):
        """What a program is answered."""
        name, state, *numbers = self.line().split(" ")
        if state != "done":
            return Reply(name, state, int(numbers[-1]), int(numbers[0]) if state == "bad" else 0, [])
        prints = []
        while self.next_line().startswith("print "):
            prints.append(self.rows(int(self.line().split(" ")[2])))
        return Reply(name, state, 0, 0, prints)

    def batch(self, programs):
        """Runs programs, pairs of a name and a text; the number of the version, and their replies."""
        self.send("batch " + "".join([f"program {name} {text} end;\n" for name, text in programs]) + "commit;")
        self.answer()
        replies = [self.reply() for _ in programs]
        return int(self.line()[8:]), replies

    def run(self, name, text):
        return self.batch([(name, text)])[1][0]

    def show(self, relation, version=None):
        self.send(f"show {relation}{'' if version is None else f' at {version}'};")
        return self.rows(int(self.answer().split(" ")[-1]), self.kinds.get(relation))

    def load(self, path, relation):
        """Inserts the rows of a file of comma-separated values; how many there are."""
        self.send(f".import {path} {relation}")
        return int(self.answer().split(" ")[-1])


def main(program, bookings):
    with Console(program, "--workers", "1") as console:
        console.declare("stock", "int -> int")
        console.declare("sale", "int -> int")
        console.run("load", " ".join(f"insert stock({item}, {bookings});" for item in range(64)))
        try:
            console.show("nothing")
        except Error as error:
            print("as it should be:", error)
        began = time.perf_counter()
        for number in range(bookings):
            item = literal(number % 64)
            reply = console.run("buy", f"""require some stock({item}, n), n >= 1;
                insert stock({item}, m) where stock({item}, n), m = n - 1;
                insert sale({number}, {item});""")
            assert reply.state == "done", reply
        took = time.perf_counter() - began
        assert len(console.show("sale")) == bookings
        assert sum(pieces for _, pieces in console.show("stock")) == 63 * bookings
        print(f"{bookings} bookings, {took / max(bookings, 1) * 1e6:.0f} microseconds each")


if __name__ == "__main__":
    if len(sys.argv) < 2:
        sys.exit(__doc__)
    main(sys.argv[1], int(sys.argv[2]) if len(sys.argv) > 2 else 10000)
