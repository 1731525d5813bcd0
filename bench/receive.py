#!/usr/bin/env python3
"""How fast `receive` joins red parts out of lines of hex, and how much memory it takes.

usage: bench/receive.py [PROGRAM]    the program as this repository builds it, where none is named

The inputs stay within what the command takes: 67,108,864 octets, 1,000,000 lines, 9,000,000 octets a line.
Seconds are the processor's for the program alone, MB are millions of octets of hex as they are read.
"""
import os
import sys

sys.dont_write_bytecode = True
from measure import ROOT, Bench, Wanted, program_of

sys.path.insert(0, os.path.join(ROOT, "examples"))
from make_bundles import sdnv

MILLION = 1_000_000
BLOCK = 4_194_304       # the longest block, in octets
PIECE = 1_024
RED, RED_END_BLOCK = 0, 3


def segment(kind, session, offset, data):
    """A red piece of originator 1 and client service 1, as a line."""
    serials = sdnv(8) + sdnv(0) if kind == RED_END_BLOCK else b""
    octets = bytes([kind, 1]) + sdnv(session) + b"\0\1" + sdnv(offset) + sdnv(len(data)) + serials + data
    return octets.hex().encode() + b"\n"


def data_of(at):
    """The octets of the piece with that number, each piece unlike its neighbours."""
    return bytes([at & 255, at >> 8 & 255]) * (PIECE // 2)


def up(session, parts):
    """The line of a red part that was handed up."""
    return b"up 1 %d " % session + b"".join(part.hex().encode() for part in parts) + b"\n"


def whole_up(session):
    """That line for a block whose pieces are `data_of`."""
    return up(session, (data_of(at) for at in range(BLOCK // PIECE)))


def block(file, session, order):
    """Writes the pieces of a block in an order."""
    last = BLOCK // PIECE - 1
    for at in order:
        file.write(segment(RED_END_BLOCK if at == last else RED, session, at * PIECE, data_of(at)))
    return last + 1


def each_its_own(file, count=MILLION, data=b"abc"):
    for session in range(1, count + 1):
        file.write(segment(RED_END_BLOCK, session, 0, data))
    return count


def one_repeated(file):
    line = segment(RED_END_BLOCK, 7, 0, b"abc")
    for _ in range(MILLION):
        file.write(line)
    return MILLION


def forwards(file):
    return block(file, 7, range(BLOCK // PIECE))


def backwards(file):
    return block(file, 7, reversed(range(BLOCK // PIECE)))


def evens_then_odds(file):
    """Single octets that at first leave a gap between any two: the most ranges that a block of a million can have."""
    for at in [*range(0, MILLION, 2), *range(1, MILLION, 2)]:
        file.write(segment(RED_END_BLOCK if at == MILLION - 1 else RED, 7, at, bytes([at & 255])))
    return MILLION


def far_ends(file):
    for session in range(1, 200_001):
        file.write(segment(RED, session, BLOCK - 1, b"z"))
    return 200_000


def seven_blocks(file):
    return sum(block(file, session, range(BLOCK // PIECE)) for session in range(1, 8))


def main():
    bench = Bench(program_of(sys.argv[1:]))

    def row(name, write, wanted, note=""):
        bench.row(name, ["receive"], write, wanted, note)

    row("a million red parts of one piece, each of a session", each_its_own,
        Wanted(0, MILLION, lambda: up(MILLION, [b"abc"])))
    row("a million times the same red part", one_repeated, Wanted(0, MILLION, lambda: b"skip 1000000\n"))
    row("4 MiB in 4,096 pieces, in order", forwards, Wanted(0, 1, lambda: whole_up(7)))
    row("4 MiB in 4,096 pieces, in reverse", backwards, Wanted(0, 1, lambda: whole_up(7)))
    row("a million single octets of one part, evens, then odds", evens_then_odds,
        Wanted(0, 1, lambda: up(7, [bytes(at & 255 for at in range(MILLION))])))
    row("the last octet of 4 MiB, of a fresh session in each line", far_ends, Wanted(6, 0, lambda: b""),
        "a 65th unfinished session ends the run at line 65")
    row("seven parts of 4 MiB in 28,672 pieces", seven_blocks, Wanted(0, 7, lambda: whole_up(7)))
    bench.end()


if __name__ == "__main__":
    main()
