#!/usr/bin/env python3
"""How many bundles a second `serve` passes, what they cost the processor, and how much memory it takes.

usage: bench/serve.py [PROGRAM] [--seconds S] [--idle S] [--scale PERCENT] [--ipv6]

The program is the one that this repository builds, where none is named; this was tried on tools/gateway_model.py, which
serves too, before the program had the command. An old node sends bundles of a size over loopback UDP, and a new node
takes what they are in version 7; both are this one process. Without loss its datagrams are made before the time begins,
and what came is put together after it ended, so the nodes take some 10 microseconds a datagram; with 'lost 5 %' one of
twenty is lost on purpose, on each way of each link, and the nodes are those of tools/live_nodes.py. No datagram finds a
socket full. The gateway asks again after 10 seconds, so with losses it waits for most of the time.

Seconds are from the first datagram to the last. A second of the processor is the program's alone; where 'busy' is far
below 1.00, the program waits for the nodes or for a time to pass. Mbit are millions of bits of payload, peak MB are of
the program's resident memory. A case may take so many seconds (120), and what didn't come by then is a wrong row;
`--scale 10` sends a tenth of the bundles. Last stands what the program does where nothing comes for so many seconds
(60). Each bundle has to come out as tools/gateway_model.py translates it. The program's lines go to /dev/null.
"""
import collections
import os
import select
import sys
import time

sys.dont_write_bytecode = True
ROOT = os.path.dirname(os.path.dirname(os.path.abspath(__file__)))
sys.path.insert(0, os.path.join(ROOT, "tools"))
from gateway_model import SERIALS, case_of, system_clock
from live_nodes import AT_ONCE, POLICY, Served, Trouble, idle_turns_a_second, options_of, program_of
from ltp_model import CHECKPOINTS, PIECES, REPORT, REPORT_ACK, Effects, written
from quick_ends import QuickSender, numbers_of, read_quickly
from translate_model import NONE, canonical6

OPTIONS = {"seconds": 120, "idle": 60, "scale": 100, "ipv6": False}
# Octets of payload, bundles, and of a hundred datagrams those that are lost.
CASES = ((100, 4000, 0), (10_000, 1000, 0), (1_000_000, 24, 0), (100, 1000, 5), (10_000, 300, 5), (1_000_000, 8, 5))
CUT = 65_536
MOST_OPEN = 56             # sessions at the gateway, of 64
HOURS_12 = 43_200
COLUMNS = (f"{'case':<30}{'bundles':>9}{'s':>8}{'bundles/s':>11}{'Mbit/s':>9}{'s proc.':>9}{'ms/bundle':>11}{'busy':>6}"
           f"{'datagrams':>11}{'peak MB':>9}")


def bundle(at, size, moment):
    """A bundle from the old node, as those of `make` but of today."""
    block = {"kind": 1, "flags": 0, "refs": [], "body": (bytes([at % 256]) * size).hex()}
    return canonical6({"version": 6, "flags": 0x90, "destination": "ipn:2.1", "source": "ipn:1.1", "report_to": NONE,
                       "custodian": NONE, "creation": [moment // 1000, at], "lifetime": HOURS_12, "fragment": None,
                       "blocks": [block]})


class Passing:
    """A run in which bundles pass from the old node to the new one, whatever is lost."""

    def __init__(self, path, options, turns, loss, blocks):
        troubles = [Trouble(at, loss / 100) for at in range(4)]
        self.served = Served(path, turns, options["ipv6"], troubles=troubles, keep=False)
        self.blocks = blocks
        self.old, self.new = self.served.nodes

    def has_room(self, at, pieces):
        """Whether the gateway has sessions enough for one more bundle, whatever it still does with the others."""
        sessions = pieces * at - len(self.new.came) + len(self.new.engine.receivers) + len(self.new.unanswered)
        is_free = sessions == 0 or sessions + pieces <= MOST_OPEN
        return is_free and len(self.old.engine.senders) + len(self.old.unanswered) < MOST_OPEN

    def run(self, wanted, seconds):
        """Sends all, and answers the seconds until the last came, and those of the processor."""
        began, used = time.monotonic(), self.served.program.processor_seconds()
        at, pieces = 0, wanted // len(self.blocks)
        while len(self.new.came) < wanted and time.monotonic() < began + seconds:
            while at < len(self.blocks) and self.has_room(at, pieces):
                self.old.submit(self.blocks[at])
                at += 1
            self.served.pump(0.001)
            if self.served.program.has_ended():
                sys.exit("the program ended before all was passed")
        return time.monotonic() - began, self.served.program.processor_seconds() - used

    def came(self):
        return list(self.new.came.values())

    def sent(self):
        return self.old.sent + self.new.sent


class Straight(Passing):
    """A run without loss: the old node's datagrams are made before it, what came to the new one is read after it."""

    def __init__(self, path, options, turns, blocks):
        self.ready, self.got, self.reported, self.answered = collections.deque(), [], 0, 0
        for session, block in enumerate(blocks, 1):
            effects = Effects()
            QuickSender((1, session), block, len(block), 0, POLICY, effects)
            self.ready.append([datagram for datagram, in effects.out])
        super().__init__(path, options, turns, 0, blocks)

    def run(self, wanted, seconds):
        began, used = time.monotonic(), self.served.program.processor_seconds()
        pieces, most, begun = wanted // len(self.blocks), MOST_OPEN - 8, 0
        while self.answered < wanted and time.monotonic() < began + seconds:
            while self.ready and begun - self.reported < most and pieces * (begun + 1) - self.answered <= most:
                self.old.outgoing.extend(self.ready.popleft())
                begun += 1
            heard = sum(map(self.acknowledge, received(self.old)))
            if not heard + sum(map(self.report, received(self.new))) and not self.old.outgoing:
                select.select([self.old.socket, self.new.socket], [], [], 0.001)
            self.old.send()
            self.new.send()
        return time.monotonic() - began, self.served.program.processor_seconds() - used

    def acknowledge(self, datagram):
        """Answers a report on what the old node sent."""
        if datagram[0] == REPORT:
            (originator, session), at = numbers_of(datagram, 1, 2)
            (serial,), _ = numbers_of(datagram, at + 1, 1)
            self.reported += 1
            self.old.outgoing.append(written(REPORT_ACK, (originator, session), serial))
        return 1

    def report(self, datagram):
        """Keeps a piece that came to the new node; at a checkpoint all before it has come too."""
        self.got.append(datagram)
        if datagram[0] in CHECKPOINTS:
            name, at = numbers_of(datagram, 1, 2)
            (_, offset, length, checkpoint), _ = numbers_of(datagram, at + 1, 4)
            stop = offset + length
            self.answered += 1
            self.new.outgoing.append(written(REPORT, name, 1, checkpoint, stop, 0, 1, 0, stop))
        return 1

    def came(self):
        blocks = collections.defaultdict(InOrder)
        for datagram in self.got:
            kind, name, content = read_quickly(datagram)
            if kind in PIECES:
                blocks[name[1]].add(content)
        return [bytes(block.octets) for block in blocks.values()]


class InOrder:
    """A block whose pieces come in order."""

    def __init__(self):
        self.octets = bytearray()

    def add(self, piece):
        if piece["offset"] == len(self.octets):
            self.octets += piece["body"]


def received(node):
    """The datagrams that have come to a node."""
    for _ in range(AT_ONCE):
        try:
            yield node.socket.recv(65_507)
        except BlockingIOError:
            return


class Bench:
    def __init__(self, path, options):
        self.path, self.options, self.wrong = path, options, 0
        self.rate = idle_turns_a_second(path, options["ipv6"])
        print(f"{path}, load {os.getloadavg()[0]:.1f} on {os.cpu_count()} processors, "
              f"{self.rate:,.0f} turns in an idle second")
        print(COLUMNS, flush=True)

    def row(self, size, count, loss):
        moment, count = system_clock(), max(1, int(count * self.options["scale"] / 100))
        blocks = [bundle(at, size, moment) for at in range(count)]
        wanted = [piece for block in blocks for piece in case_of(block, 6, moment, 64, SERIALS, CUT).out]
        datagrams = count * (size / 1000 + 4) * 4
        turns = int(self.rate * self.options["seconds"] + datagrams)
        if loss:
            run = Passing(self.path, self.options, turns, loss, blocks)
        else:
            run = Straight(self.path, self.options, turns, blocks)
        seconds, used = run.run(len(wanted), self.options["seconds"])
        peak, dropped = run.served.program.kilobytes("VmHWM"), run.served.dropped() + run.served.missed()
        came, sent, status = sorted(run.came()), run.sent(), run.served.use_up()
        name = f"{size:,} octets{f', lost {loss} %' if loss else ''}"
        megabits = count * size * 8 / 1e6
        print(f"{name:<30}{count:>9,}{seconds:>8.2f}{count / seconds:>11,.1f}{megabits / seconds:>9.2f}{used:>9.2f}"
              f"{1000 * used / count:>11.3f}{used / seconds:>6.2f}{sent:>11,}{peak / 1024:>9.1f}", flush=True)
        self.judge(name, came == sorted(wanted), "what came isn't what had to come")
        self.judge(name, status == 0, f"status {status}")
        self.judge(name, dropped == 0, f"{dropped} datagrams found a socket full")

    def judge(self, name, holds, what):
        self.wrong += not holds
        if not holds:
            print(f"  wrong: {name}: {what}", flush=True)

    def idle(self, seconds):
        """What nothing costs."""
        served = Served(self.path, int(self.rate * seconds * 1.2) + 100, self.options["ipv6"])
        used = served.program.processor_seconds()
        time.sleep(seconds)
        used = served.program.processor_seconds() - used
        status = served.use_up()
        print(f"{f'nothing, for {seconds:.0f} s':<30}{'':>9}{seconds:>8.2f}{'':>20}{used:>9.2f}{'':>11}"
              f"{used / seconds:>6.2f}", flush=True)
        self.judge("nothing", status == 0, f"status {status}")


def main(words):
    path, words = program_of(words)
    options = options_of(words, OPTIONS)
    if options is None:
        sys.stderr.write(__doc__.split("\n\n")[1] + "\n")
        return 2
    bench = Bench(path, options)
    for case in CASES:
        bench.row(*case)
    if options["idle"]:
        bench.idle(options["idle"])
    return int(bench.wrong > 0)


if __name__ == "__main__":
    sys.exit(main(sys.argv[1:]))
