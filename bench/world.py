#!/usr/bin/env python3
"""How fast `world` replays scripts, and how much memory it takes.

usage: bench/world.py [PROGRAM]    the program as this repository builds it, where none is named

A script sends so many bundles of up to 6,000 octets, by turns from both ends; after each one eight more events deliver
datagrams of the last ones sent, in any order and again, or let time pass. So what is written grows faster than the
script. Seconds are the processor's for the program alone, MB are millions of octets of the script as it is read; what
is written stands behind the status.
"""
import os
import sys

sys.dont_write_bytecode = True
from measure import ROOT, Bench, Wanted, program_of

sys.path.insert(0, os.path.join(ROOT, "tools"))
import gateway_model

SENDS = 250
SEED = 7
DONE = 0


class Model:
    """A script, written line by line as the model's world becomes by then, and what the model answers."""

    def __init__(self, count):
        script, source = gateway_model.Script(), gateway_model.made_script(SEED, count)
        self.script, self.lines, self.last, self.size = [], 0, "", 0
        line = next(source)
        while line != "drain":
            self.script.append(line)
            for said in script.event(line.encode()):
                self.lines, self.last, self.size = self.lines + 1, said, self.size + len(said) + 1
            line = source.send(script.world)

    def write(self, file):
        for line in self.script:
            file.write(line.encode() + b"\n")
        count, self.script = len(self.script), []
        return count


def main():
    bench = Bench(program_of(sys.argv[1:]))
    for count in (SENDS, 2 * SENDS, 4 * SENDS):
        model = Model(count)
        bench.row(f"a path, {count:,} bundles with eight events each", ["world"], model.write,
                  Wanted(DONE, model.lines, lambda: model.last.encode() + b"\n"), f"{model.size / 1e6:,.0f} MB written")
    bench.end()


if __name__ == "__main__":
    main()
