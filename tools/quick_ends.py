#!/usr/bin/env python3
"""Ends of LTP links as in ltp_model.py, over ranges of octets: quick enough to speak with a running program.

usage: tools/quick_ends.py --check COUNT SEED     made scripts, to which both kinds of ends have to answer the same; and
                                                  a report on the largest block, which has more gaps than it can say
"""
import bisect
import collections
import os
import sys

sys.dont_write_bytecode = True
sys.path.insert(0, os.path.dirname(os.path.abspath(__file__)))
import ltp_model
from format_model import BLOCK_MAX
from ltp_model import CHECKPOINTS, RED, REPORT_ACK, Engine, Policy, Receiver, Sender, read_segment


class Ranges:
    """Numbers, as ascending ranges that don't touch."""

    def __init__(self):
        self.starts, self.stops, self.size = [], [], 0

    def gaps(self, start, stop):
        """The ranges of a range that aren't covered."""
        at = bisect.bisect_right(self.stops, start)
        while start < stop:
            if at == len(self.starts) or self.starts[at] >= stop:
                yield start, stop
                return
            if start < self.starts[at]:
                yield start, self.starts[at]
            start, at = self.stops[at], at + 1

    def add(self, start, stop):
        first, last = bisect.bisect_left(self.stops, start), bisect.bisect_right(self.starts, stop)
        low = min([start, *self.starts[first:first + 1]]) if first < last else start
        high = max([stop, *self.stops[last - 1:last]]) if first < last else stop
        gone = sum(self.stops[first:last]) - sum(self.starts[first:last])
        self.starts[first:last], self.stops[first:last] = [low], [high]
        self.size += high - low - gone

    def covers(self, start, stop):
        at = bisect.bisect_right(self.starts, start) - 1
        return start >= stop or at >= 0 and stop <= self.stops[at]

    def below(self, stop):
        """The ranges below a number."""
        last = bisect.bisect_left(self.starts, stop)
        return [[start, min(end, stop)] for start, end in zip(self.starts[:last], self.stops[:last])]


class QuickSender(Sender):
    """A session that sends, and keeps what is claimed as ranges."""

    def __init__(self, *words):
        super().__init__(*words)
        self.claimed = Ranges()

    def claim(self, start, stop):
        self.claimed.add(start, stop)

    def is_claimed(self, start, stop):
        return self.claimed.covers(start, stop)


class QuickReceiver(Receiver):
    """A session that receives, and keeps its cells as one buffer and ranges of it."""

    def __init__(self, *words):
        super().__init__(*words)
        self.cells, self.buffer = Ranges(), bytearray()

    def fill(self, offset, body):
        stop = offset + len(body)
        if stop > len(self.buffer):
            self.buffer += bytes(stop - len(self.buffer))
        for start, end in list(self.cells.gaps(offset, stop)):
            self.buffer[start:end] = body[start - offset:end - offset]
        self.cells.add(offset, stop)

    def filled(self):
        return self.cells.size

    def front(self, stop):
        return bytes(self.buffer[:stop])

    def claims_below(self, upper):
        return self.cells.below(upper)


def numbers_of(octets, at, count):
    """So many numbers, and where they end. Longer ones than are usual are left to the model."""
    values = []
    for _ in range(count):
        value, octet = 0, 128
        while octet > 127:
            octet = octets[at]
            value = value << 7 | octet & 127
            at += 1
        if value >> 49:
            raise IndexError
        values.append(value)
    return values, at


def read_quickly(octets):
    """As the model reads a segment; red pieces and acknowledgements without extensions are read here."""
    try:
        kind = octets[0]
        name, at = numbers_of(octets, 1, 2)
        if octets[at] == 0 and kind in (*CHECKPOINTS, RED):
            values, at = numbers_of(octets, at + 1, 3 if kind == RED else 5)
            if at + values[2] == len(octets) and (kind == RED or values[3]):
                return kind, tuple(name), {"service": values[0], "offset": values[1], "body": octets[at:],
                                           "checkpoint": 0 if kind == RED else values[3]}
        elif octets[at] == 0 and kind == REPORT_ACK:
            values, at = numbers_of(octets, at + 1, 1)
            if at == len(octets):
                return kind, tuple(name), values[0]
    except IndexError:
        pass
    return read_segment(octets)


class QuickEngine(Engine):
    """One end of a link, of quick sessions."""

    sending, receiving, read = QuickSender, QuickReceiver, staticmethod(read_quickly)


def check(count, seed):
    """Whether both kinds of ends answer made scripts alike."""
    differ = 0
    for own, peer, octets in ltp_model.made(seed, count):
        said = []
        for kind in (Engine, QuickEngine):
            state, lines = ltp_model.Node(own, peer), []
            state.engine = kind(own, peer)
            try:
                for text in octets.split(b"\n"):
                    lines += state.event(text).lines()
            except (ltp_model.BadLine, ltp_model.PastLimit) as fault:
                lines.append(repr(fault))
            said.append(lines)
        differ += said[0] != said[1]
    print(f"{count} scripts, {differ} differ")
    found, wanted = gaps_of_the_largest(), (8192, 1, 1024, 1_048_064, 7168, 7176)
    if found != wanted:
        print(f"the largest block: {found}, wanted {wanted}")
    return int(differ > 0 or found != wanted)


def gaps_of_the_largest():
    """The largest block in segments of 512 octets, of which every other and the last one came.

    Answers how many segments it has, how many reports there are, the claims and the end of the one, how many segments
    then go again, and after how many events a drain ends.
    """
    policy = Policy(512)
    ends = QuickEngine(1, 2, policy=policy), QuickEngine(2, 1, policy=policy)
    begun = ends[0].submit(bytes(BLOCK_MAX), BLOCK_MAX, 0).out
    reports = [report for (datagram,) in begun[0::2] + begun[-1:] for report in ends[1].arrive(datagram, 0).out]
    said = read_segment(reports[0][0])[2]
    _, *again = ends[0].arrive(reports[0][0], 0).out
    return len(begun), len(reports), len(said["claims"]), said["upper"], len(again), drained(ends)


def drained(ends):
    """The events of a drain between two ends: what is sent in it comes, or else the clock goes to the next deadline."""
    coming, events = collections.deque(), 0
    while True:
        if coming:
            at, datagram = coming.popleft()
            effects = {at: ends[at].arrive(datagram, moment)}
        else:
            moment = min((end.next_deadline() for end in ends if end.next_deadline() is not None), default=None)
            if moment is None:
                return events
            effects = {at: end.tick(moment) for at, end in enumerate(ends)}
        for at, effect in effects.items():
            coming.extend((1 - at, datagram) for datagram, in effect.out)
        events += 1


if __name__ == "__main__":
    if sys.argv[1:2] != ["--check"] or len(sys.argv) != 4:
        sys.exit(__doc__.split("\n\n")[1])
    sys.exit(check(int(sys.argv[2]), int(sys.argv[3])))
