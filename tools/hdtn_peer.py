#!/usr/bin/env python3
"""A node that behaves on the wire as HDTN does, as far as it is known here: from memory, and held against no HDTN.

usage: tools/hdtn_peer.py VERSION BIND PEER OWN THEIRS [FILE..] [--hex] [--seconds S] [--into FOLDER] [--ping S]

VERSION is that of its bundles, 6 or 7. BIND and PEER are its own address and port, and the gateway's; OWN is its engine
number, and THEIRS the gateway's. Each FILE is a bundle, which goes in a block of its own; with --hex it is hex. Numbers of
sessions and serials are drawn at random, of 64 bits. Every S seconds of --ping (0: never) it cancels a session that never
was, to see whether the gateway is there. A block that isn't exactly one bundle is told as `left`.
Printed are `sent N`, `failed N CAUSE` and `cancelled N CAUSE` of its blocks, and `came N HEX` of each bundle that comes;
with --into its octets go to FOLDER/N. It ends when nothing has come for S seconds (10), with status 1 where one failed.
"""
import os
import random
import sys
import time

sys.dont_write_bytecode = True
sys.path.insert(0, os.path.dirname(os.path.abspath(__file__)))
from format_model import Refused
from ltp_model import SENDER_CANCEL, SENDER_CANCEL_ACK, read_segment, written
from peer_nodes import PeerNode, bundles_in, played
from quick_ends import QuickEngine, QuickReceiver, QuickSender

OPTIONS = {"ping": 0.0}


def serial_of(name):
    """The first serial of a session: large, and the same for the same session."""
    return random.Random(str(name)).getrandbits(62) + 1


class HdtnSender(QuickSender):
    def first_serial(self):
        return serial_of(self.name)


class HdtnReceiver(QuickReceiver):
    def first_serial(self):
        return serial_of(self.name)


class HdtnEngine(QuickEngine):
    """An end whose session numbers are drawn at random."""

    sending, receiving, numbers = HdtnSender, HdtnReceiver, 1 << 64

    def __init__(self, *words):
        super().__init__(*words)
        self.used = set()

    def is_used(self, number):
        return number in self.used


class HdtnNode(PeerNode):
    """A node with a bundle a block, numbers at random, and pings."""

    engine_of = HdtnEngine

    def __init__(self, *words, ping=0.0, draw=None, **more):
        super().__init__(*words, **more)
        self.draw, self.ping, self.pinged = draw or random.Random(), ping, time.monotonic()
        self.pings, self.answered = set(), 0

    def next_number(self):
        number = self.draw.getrandbits(64)
        while number in self.engine.used | self.pings or not number:
            number = self.draw.getrandbits(64)
        self.engine.used.add(number)
        return number

    def receive(self, session, block):
        found, end = bundles_in(block, self.version)
        if len(found) == 1 and end is None:
            self.hand_over(found)
        else:
            self.left.append((session, block.hex()))

    def arrive(self, datagram):
        """An answer to a ping is no business of a session."""
        try:
            kind, name, _ = read_segment(datagram) if datagram[:1] == bytes([SENDER_CANCEL_ACK]) else (None, None, None)
        except Refused:
            kind = None
        if kind is not None and name[0] == self.engine.own and name[1] in self.pings:
            self.answered += 1
        else:
            super().arrive(datagram)

    def pump(self):
        if self.ping and time.monotonic() >= self.pinged + self.ping:
            self.pinged, number = time.monotonic(), self.draw.getrandbits(64)
            self.pings.add(number)
            self.there.put(written(SENDER_CANCEL, (self.engine.own, number), body=b"\0"))
        return super().pump()


def main(words):
    return played(words, __doc__.split("\n\n")[1], HdtnNode, OPTIONS)


if __name__ == "__main__":
    sys.exit(main(sys.argv[1:]))
