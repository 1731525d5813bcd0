#!/usr/bin/env python3
"""Makes runs of `serve` over links in memory, and says what each writes and sends.

usage: tools/make_serves.py COUNT SEED     a line of JSON for each run, the same for a seed

A line has the gateway's name, the turns, the readings of the clock, and for each link the datagrams that come, which of
its calls fail, and what went; and the lines that are written. Two nodes answer as LTP has it, so bundles pass, are
refused and reported. At each poll a datagram is there: where a node has nothing to say, a false one or an old one
comes. The answers are those of tools/gateway_model.py.
"""
import json
import os
import random
import sys

sys.dont_write_bytecode = True
sys.path.insert(0, os.path.dirname(os.path.abspath(__file__)))
from gateway_model import ENDS, NEW, NUMBERS, OLD, VERSION, Failed, MemoryLink, Served, serve_over_memory
from live_run import false_datagram
from ltp_model import Engine, Policy
from made_bundles import Made

START = 800_000_000_000
CUT = 65_536
PATIENT = Policy(512, 5_000, 100, 5_000)


class RecordedLink(MemoryLink):
    """A link to a node that is told what goes, and asked for what comes; all of it is kept."""

    def __init__(self, draw, face, fails):
        super().__init__()
        self.draw, self.face, self.fails = draw, face, fails
        self.node, self.now = Engine(*NUMBERS[ENDS[face]], policy=PATIENT), 0
        made = Made(draw, VERSION[face], 900, START, CUT, 300)
        kinds = [made.sized, made.reported, made.expired, made.other_rules, made.no_bundle, made.fragment,
                 made.administrative]
        self.items = [draw.choice(kinds)() for _ in range(draw.randrange(4))]
        self.saying, self.said, self.failed = [], [], []

    def must_work(self):
        self.failed.append(self.draw.random() < self.fails)
        if self.failed[-1]:
            raise Failed()

    def poll(self):
        self.must_work()
        if self.items and self.draw.random() < 0.4:
            block = self.items.pop()
            self.take(self.node.submit(block, len(block), self.now))
        self.take(self.node.tick(self.now))
        if self.saying:
            self.said.append(self.saying.pop(0))
        elif self.said and self.draw.random() < 0.3:
            self.said.append(self.draw.choice(self.said))
        else:
            self.said.append(false_datagram(self.draw, self.node.own)[0])
        return self.said[-1]

    def send(self, datagram):
        super().send(datagram)
        if self.draw.random() < 0.95:
            self.take(self.node.arrive(datagram, self.now))

    def take(self, effects):
        self.saying += [datagram for datagram, in effects.out if self.draw.random() < 0.95]


class Clock:
    """Readings that seldom go far."""

    def __init__(self, draw, links):
        self.draw, self.links, self.readings = draw, links, [START]

    def __call__(self):
        self.readings.append(self.readings[-1] + self.draw.choice([0, 0, 0, 1, 7, 900, 10_000]))
        for link in self.links.values():
            link.now = self.readings[-1]
        return self.readings[-1]


def made(seed, count):
    """So many runs: what each is given, and what it gives."""
    draw = random.Random(seed)
    for _ in range(count):
        fails, turns, gate = draw.choice([0, 0, 0.1]), draw.randrange(1, 60), draw.choice(["ipn:9.0", "dtn://gate/~x"])
        links = {face: RecordedLink(draw, face, fails) for face in (OLD, NEW)}
        clock = Clock(draw, links)
        served = Served(gate, clock, links)
        lines = [line for _ in range(turns) for line in served.turn()]
        run = {"gate": gate, "turns": turns, "clock": clock.readings[1:], "lines": lines}
        for name, link in zip(("old", "new"), links.values()):
            coming, gone = ([octets.hex() for octets in datagrams] for datagrams in (link.said, link.gone))
            run[name] = {"coming": coming, "failing": [int(failed) for failed in link.failed], "gone": gone}
        yield run


def is_same(run):
    """Whether the run over links in memory answers the same."""
    links = [MemoryLink(map(bytes.fromhex, run[name]["coming"]), run[name]["failing"]) for name in ("old", "new")]
    lines = serve_over_memory(run["gate"], run["clock"], *links, run["turns"])
    return lines == run["lines"] and all([octets.hex() for octets in link.gone] == run[name]["gone"]
                                         for name, link in zip(("old", "new"), links))


def main(words):
    if len(words) != 2:
        sys.stderr.write(__doc__.split("\n\n")[1] + "\n")
        return 2
    for run in made(int(words[1]), int(words[0])):
        if not is_same(run):
            sys.exit("a run over links in memory answers something else")
        print(json.dumps(run))
    return 0


if __name__ == "__main__":
    sys.exit(main(sys.argv[1:]))
