#!/usr/bin/env python3
"""How fast `audit` judges recordings, and how much memory it takes.

usage: bench/audit.py [PROGRAM]    the program as this repository builds it, where none is named

Rows of the same name differ in their count alone, so what grows faster than its input shows. The inputs stay within
what the command takes: 67,108,864 octets, 1,000,000 lines, 9,000,000 octets a line. Seconds are the processor's for
the program alone, MB are millions of octets of hex as they are read.
"""
import os
import random
import sys

sys.dont_write_bytecode = True
from measure import ROOT, Bench, Wanted, program_of

sys.path.insert(0, os.path.join(ROOT, "examples"))
from make_bundles import sdnv

MILLION = 1_000_000
BLOCK = 4_194_304       # the longest block, in octets
PIECE = 1_024
PIECES = BLOCK // PIECE
DONE = 0
WORDS = ["audit", "2", "1"]
RED, RED_CHECKPOINT, RED_END_BLOCK, REPORT, REPORT_ACK, SENDER_CANCEL, SENDER_CANCEL_ACK = 0, 1, 3, 8, 9, 12, 13


def line(word, kind, session, content=b""):
    """A line of a segment of originator 1, without extensions."""
    octets = bytes([kind, 1]) + sdnv(session) + b"\0" + content
    return word + b" " + octets.hex().encode() + b"\n"


def piece(session, offset, octets, checkpoint=0):
    """A red piece that comes; it is a checkpoint where it has a serial number of one."""
    kind = RED_CHECKPOINT if checkpoint else RED
    serials = sdnv(checkpoint) + b"\0" if checkpoint else b""
    return line(b"in", kind, session, b"\1" + sdnv(offset) + sdnv(len(octets)) + serials + octets)


def whole(session):
    """A red part in one piece."""
    return line(b"in", RED_END_BLOCK, session, b"\1\0\3\x08\0abc")


def report(session, serial, checkpoint, stop, claims):
    """A report on the octets before `stop`, which goes. A claim is its offset and its length."""
    spelled = b"".join(sdnv(offset) + sdnv(length) for offset, length in claims)
    fields = sdnv(serial) + sdnv(checkpoint) + sdnv(stop) + b"\0" + sdnv(len(claims))
    return line(b"out", REPORT, session, fields + spelled)


def acknowledged(session, serial):
    return line(b"in", REPORT_ACK, session, sdnv(serial))


def data_of(at):
    """The octets of the piece with that number, each piece unlike its neighbours."""
    return bytes([at & 255, at >> 8 & 255]) * (PIECE // 2)


def write(file, lines):
    """Writes lines, and answers how many there were."""
    count = 0
    for text in lines:
        file.write(text)
        count += 1
    return count


# ---- sessions ----


def exchanges(count):
    """Sessions of a piece, a report on it, and the acknowledgement of that."""
    for session in range(1, count // 3 + 1):
        yield whole(session)
        yield report(session, 8, 8, 3, [(0, 3)])
        yield acknowledged(session, 8)


def red_parts(count):
    """Sessions of one piece."""
    return (whole(session) for session in range(1, count + 1))


def cancels(count):
    """Sessions that their sender cancels."""
    for session in range(1, count // 2 + 1):
        yield line(b"in", SENDER_CANCEL, session, b"\0")
        yield line(b"out", SENDER_CANCEL_ACK, session)


def far_ends(count):
    """Sessions whose one octet is far from the first place."""
    return (piece(session, 1 << 60, b"z") for session in range(1, count + 1))


# ---- one red part ----


def block(order):
    """The pieces of a block in an order, each a checkpoint, and a report on all of it."""
    for at in order:
        yield piece(7, at * PIECE, data_of(at), at + 1)
    yield report(7, 8, 1, BLOCK, [(0, BLOCK)])


def shuffled():
    order = list(range(PIECES))
    random.Random(7).shuffle(order)
    return order


def reported(count):
    """A block, and reports that each claim all of it."""
    yield from block(range(PIECES))
    for serial in range(9, 9 + count):
        yield report(7, serial, 1, BLOCK, [(0, BLOCK)])


def repeated(count):
    """A block whose pieces come again."""
    for _ in range(count):
        yield from (piece(7, at * PIECE, data_of(at)) for at in range(PIECES))


def every_second(count):
    """Single octets with a gap after each, which are as many ranges."""
    return (piece(7, 2 * at, b"z") for at in range(count))


def gaps_filled(count):
    """Those, and then what is between them."""
    yield from every_second(count // 2)
    yield from (piece(7, 2 * at + 1, b"y") for at in range(count // 2))


def claims_on_each(ranges, count):
    """So many ranges of one octet, and reports that each claim all of them, one by one."""
    yield from every_second(ranges)
    claims = [(2 * at, 1) for at in range(ranges)]
    for serial in range(1, count + 1):
        yield report(7, serial, 0, 2 * ranges, claims)


def far_between(count):
    """Octets of one part that share no page."""
    return (piece(7, at << 20, b"z") for at in range(count))


def main():
    bench = Bench(program_of(sys.argv[1:]))

    def row(name, lines, count):
        bench.row(name, WORDS, lambda file: write(file, lines), Wanted(DONE, 1, lambda: b"ok %d\n" % count))

    for name, lines in (("a piece, its report, the acknowledgement", exchanges), ("red parts of one piece", red_parts),
                        ("sender cancels and their acknowledgements", cancels),
                        ("single octets at 2^60, each of its own session", far_ends)):
        for count in (MILLION // 4, MILLION // 2, MILLION):
            count -= count % 6
            row(name, lines(count), count)
    for name, order in (("in order", range(PIECES)), ("in reverse", reversed(range(PIECES))), ("shuffled", shuffled())):
        row("4 MiB in 4,096 pieces and a report, " + name, block(order), PIECES + 1)
    for count in (25_000, 50_000, 100_000):
        row("a block of 4 MiB, and reports on all of it", reported(count), PIECES + 1 + count)
    for count in (2, 4, 7):
        row("a block of 4 MiB, again and again", repeated(count), count * PIECES)
    for count in (MILLION // 4, MILLION // 2, MILLION):
        row("single octets of one part, a gap after each", every_second(count), count)
        row("single octets of one part, evens, then odds", gaps_filled(count), count)
        row("single octets of one part, on as many pages", far_between(count), count)
    for count in (100, 200, 400):
        row("10,000 ranges, and reports that claim each", claims_on_each(10_000, count), 10_000 + count)
    for ranges in (2_500, 5_000, 10_000):
        row("ranges, and 400 reports that claim each", claims_on_each(ranges, 400), ranges + 400)
    bench.end()


main()
