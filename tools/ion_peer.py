#!/usr/bin/env python3
"""A node that behaves on the wire as ION does, as far as it is known here: from memory, and held against no ION.

usage: tools/ion_peer.py VERSION BIND PEER OWN THEIRS [FILE..] [--hex] [--seconds S] [--first N] [--into FOLDER]
                         [--gather OCTETS] [--gather-seconds S] [--claims N] [--others N]

VERSION is that of its bundles, 6 or 7. BIND and PEER are its own address and port, and the gateway's; OWN is its engine
number, and THEIRS the gateway's. It sends from a port that the system chose. Each FILE is a bundle; with --hex it is hex.
A block takes bundles until they have --gather octets (1), or its first one has waited for --gather-seconds (1). Session
numbers are in a row over two spans, of which the other one takes up to --others of each (0). A checkpoint is answered by
as many reports as are needed, of --claims claims each (20).
Printed are `sent N`, `failed N CAUSE` and `cancelled N CAUSE` of its blocks, and `came N HEX` of each bundle that comes;
with --into its octets go to FOLDER/N. It ends when nothing has come for S seconds (10), with status 1 where one failed.
"""
import os
import random
import socket
import sys
import time

sys.dont_write_bytecode = True
sys.path.insert(0, os.path.dirname(os.path.abspath(__file__)))
from format_model import BLOCK_MAX
from ltp_model import REPORT, RETRIED_TOO_OFTEN, written
from peer_nodes import PeerNode, played
from quick_ends import QuickEngine, QuickReceiver

OPTIONS = {"gather": 1, "gather_seconds": 1.0, "claims": 20, "others": 0}


class IonReceiver(QuickReceiver):
    """A session that answers a checkpoint by several reports where one can't say all, each with a timer of its own."""

    claims = 20

    def __init__(self, *words):
        super().__init__(*words)
        # those that wait, by serial: the datagram, how often it was sent, when it is due, and whether it is whole
        self.reports = {}
        self.several = 0        # how many checkpoints had more than one

    def send_report(self, checkpoint, stop, now, effects):
        upper = stop if self.length is None else self.length
        claims, lower = self.claims_below(upper), 0
        parts = [claims[at:at + self.claims] for at in range(0, len(claims), self.claims)] or [[]]
        self.several += len(parts) > 1
        for part in parts:
            end = upper if part is parts[-1] else part[-1][1]
            numbers = [number for start, to in part for number in (start - lower, to - start)]
            datagram = written(REPORT, self.name, self.serial, checkpoint, end, lower, len(part), *numbers)
            is_whole = self.length is not None and claims == [[0, self.length]]
            self.reports[self.serial] = [datagram, 1, now + self.policy.wait(1), is_whole]
            effects.out.append([datagram])
            self.serial, lower = self.serial + 1, end
        self.wait_on()

    def wait_on(self):
        self.deadline = min((due for _, _, due, _ in self.reports.values()), default=None)

    def acknowledged(self, serial):
        if self.cancelling or serial not in self.reports:
            return
        if self.reports.pop(serial)[3]:
            self.finish()
        else:
            self.wait_on()

    def tick(self, now, effects):
        if self.cancelling or self.over or self.deadline is None or self.deadline > now:
            super().tick(now, effects)
            return
        for report in self.reports.values():
            if report[2] <= now and report[1] < self.policy.limit:
                report[1] += 1
                report[2] = now + self.policy.wait(report[1])
                effects.out.append([report[0]])
        if all(report[2] > now for report in self.reports.values()):
            self.wait_on()
        elif self.handed_up:
            self.finish()
        else:
            self.fail(RETRIED_TOO_OFTEN, now, effects)


class IonEngine(QuickEngine):
    """An end that counts how many checkpoints had several reports."""

    receiving, several = IonReceiver, 0

    def close(self, number):
        self.several += self.receivers[number].several
        super().close(number)


class IonNode(PeerNode):
    """A node that gathers bundles into blocks, and sends from another port than it listens at."""

    engine_of = IonEngine

    def __init__(self, *words, gather=1, gather_seconds=1.0, claims=20, others=0, draw=None, **more):
        super().__init__(*words, **more)
        self.gather, self.gather_seconds, self.others, self.draw = gather, gather_seconds, others, draw or random.Random()
        self.engine.receiving = type("Receiver", (IonReceiver,), {"claims": claims})
        self.gathered, self.since = [], None
        self.greens = {}          # the bundles that went without asking for an answer, by session

    def sending_socket(self):
        made = socket.socket(self.family, socket.SOCK_DGRAM)
        made.setblocking(False)
        return made

    def next_block(self):
        """A block is closed by its octets or by its time; one that is closed by a bundle of the caller's has it last."""
        while self.bundles:
            if self.gathered and sum(map(len, self.gathered)) + len(self.bundles[0]) > BLOCK_MAX:
                return self.closed()
            self.since = self.since if self.gathered else time.monotonic()
            self.gathered.append(self.bundles.popleft())
            if sum(map(len, self.gathered)) >= self.gather:
                return self.closed()
        if self.gathered and time.monotonic() >= self.since + self.gather_seconds:
            return self.closed()
        return []

    def closed(self):
        bundles, self.gathered = self.gathered, []
        return bundles

    def next_number(self):
        return self.engine.next + self.draw.randint(0, self.others)

    def send_green(self, bundle):
        """Sends a bundle as a block of its own that nobody is to answer."""
        self.engine.next = session = self.next_number()
        self.greens[session] = bundle
        self.take(self.engine.submit(bundle, 0, 0))
        self.notes.remove(["Sent", session])

    def is_done(self):
        return not self.bundles and not self.gathered


def main(words):
    given = [word.replace("--gather-seconds", "--gather_seconds") for word in words]
    return played(given, __doc__.split("\n\n")[1], IonNode, OPTIONS)


if __name__ == "__main__":
    sys.exit(main(sys.argv[1:]))
