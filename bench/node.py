#!/usr/bin/env python3
"""How fast `node` answers floods of datagrams, and how much memory it takes.

usage: bench/node.py [PROGRAM]    the program as this repository builds it, where none is named

Each flood comes with a quarter of a million datagrams, with half a million, and with a million, which is the most
lines that the command takes. Then an end closes sessions 1, 3, and so on, until it keeps as many runs of closed
numbers as it may. Seconds are the processor's for the program alone, MB are millions of octets of hex as they are read.
"""
import os
import random
import sys

sys.dont_write_bytecode = True
from measure import ROOT, Bench, Wanted, program_of

sys.path.insert(0, os.path.join(ROOT, "examples"))
sys.path.insert(0, os.path.join(ROOT, "tools"))
from make_bundles import sdnv
import ltp_model

QUARTER = 250_000
DONE = 0
WORDS = ["node", "2", "1"]
OPEN = 64            # sessions that are received at a time
RUNS = 65_536        # of closed numbers, and sessions that are received


def line(kind, originator, session, content):
    """A line that brings a segment without extensions."""
    return b"in " + (bytes([kind, originator]) + sdnv(session) + b"\0" + content).hex().encode() + b"\n"


def first_octet(session):
    """The first octet of a red part, which isn't its last."""
    return line(0, 1, session, b"\1\0\1a")


def whole(session):
    """A red part in one piece."""
    return line(3, 1, session, b"\1\0\3\x08\0abc")


def cancel(session):
    """The sender gives a session up, for reason 0."""
    return line(12, 1, session, b"\0")


def told(word, kind, session, content=b""):
    """A line that sends such a segment."""
    return word + b" " + (bytes([kind, 1]) + sdnv(session) + b"\0" + content).hex().encode() + b"\n"


# Each flood: its name, the line with number `at`, and of so many lines how many are written and the last of those.
FLOODS = (
    ("first octets, each of its own session", lambda at: first_octet(at + 1),
     lambda n: (n - OPEN, b"note Evicted %d\n" % (n - OPEN))),
    ("first octets, of every other session", lambda at: first_octet(2 * at + 1),
     lambda n: (n - OPEN, b"note HistoryFull %d\n" % (2 * n - 1))),
    ("red parts, each of its own session", lambda at: whole(at + 1),
     lambda n: (3 * n - OPEN, b"note Evicted %d\n" % (n - OPEN))),
    ("one red part that comes again", lambda at: whole(7),
     lambda n: (n + 1, told(b"out", 8, 7, sdnv(7 + n) + b"\x08\3\0\1\0\3"))),
    ("reports on sessions that weren't begun", lambda at: line(8, 2, at + 1, b"\2\2\3\0\1\0\3"),
     lambda n: (n, b"note Stranger\n")),
    ("cancels, each of its own session", lambda at: cancel(at + 1), lambda n: (n, told(b"out", 13, n))),
)


def write_flood(file, count, line_at):
    for at in range(count):
        file.write(line_at(at))
    return count


def write_any(file, count):
    """Datagrams of 16 octets, of which the first ones are such that some are segments."""
    draw = random.Random(count)
    for _ in range(count):
        octets = bytes([draw.randrange(18), draw.randrange(3), draw.randrange(9), 0, 1]) + draw.randbytes(11)
        file.write(b"in " + octets.hex().encode() + b"\n")
    return count


class Lines:
    """What the model writes for the same lines: how many, and the last one."""

    def __init__(self):
        self.node, self.count, self.last = ltp_model.Node(2, 1), 0, b""

    def write(self, text):
        for said in self.node.event(text.rstrip(b"\n")).lines():
            self.count, self.last = self.count + 1, said.encode() + b"\n"


def close_runs(file):
    for session in range(1, 2 * RUNS, 2):
        file.write(first_octet(session) + cancel(session))
    file.write(first_octet(2 * RUNS + 1))
    return 2 * RUNS + 1


def main():
    bench = Bench(program_of(sys.argv[1:]))
    for name, line_at, wanted in FLOODS:
        for count in (QUARTER, 2 * QUARTER, 4 * QUARTER):
            lines, last = wanted(count)
            bench.row(name, WORDS, lambda file: write_flood(file, count, line_at), Wanted(DONE, lines, lambda: last))
    for count in (QUARTER, 2 * QUARTER, 4 * QUARTER):
        model = Lines()
        write_any(model, count)
        bench.row("datagrams of any octets", WORDS, lambda file: write_any(file, count),
                  Wanted(DONE, model.count, lambda: model.last))
    bench.row("sessions 1, 3, .. that are closed, up to the most runs", WORDS, close_runs,
              Wanted(DONE, 2 * RUNS + 1, lambda: b"note HistoryFull %d\n" % (2 * RUNS + 1)))
    bench.end()


if __name__ == "__main__":
    main()
