#!/usr/bin/env python3
"""What windows cost a link: a clock in 4,096 of them, and a drain through 1,000.

usage: bench/windows.py [PROGRAM]    the program as this repository builds it, where none is named

A clock line finds the contact time of its moment, and an event of a drain the moment of its contact time; so what
300,000 clocks take longer in 4,096 windows than in one is what finding costs. The drain has 128 blocks that were lost,
64 from each end, whose timers come due one after another over 1,000 windows or, for comparison, on a link that is
always open. Seconds are the processor's for the program alone, the least of several runs in turn.
"""
import os
import sys
import tempfile

sys.dont_write_bytecode = True
from measure import ROOT, lines_of, program_of, run

sys.path.insert(0, os.path.join(ROOT, "tools"))
import link_model

CLOCKS = 300_000
TIMES = 9
DONE = 0
LENGTH, GAP = 32, 50
START = "link 1024 60000 10 60000 0\n"


def windows(count, length, gap):
    return [f"window {n * (length + gap)} {n * (length + gap) + length}\n" for n in range(count)]


def clocks(given, length):
    """Clocks spread over all windows and gaps."""
    return START.encode() + "".join(given).encode() + b"".join(b"clock %d\n" % (n * length // CLOCKS)
                                                               for n in range(CLOCKS))


def drain(given):
    """A block of 30,000 octets from either end every 500 ms of contact time; each is lost."""
    lines = [START, *given]
    for n in range(64):
        contact = 500 * n
        lines.append(f"clock {contact // LENGTH * (LENGTH + GAP) + contact % LENGTH if given else contact}\n")
        lines += [f"send {end} {bytes([n, k]).hex() * 15_000}\n" for k, end in enumerate(("first", "second"))]
    return "".join([*lines, "drain\n"]).encode()


def least(program, inputs):
    """The least seconds of each input, over runs in turn; each run has to end as the model says."""
    seconds = [float("inf")] * len(inputs)
    with tempfile.TemporaryDirectory() as folder:
        sink = os.path.join(folder, "out")
        for at, octets in enumerate(inputs):
            with open(os.path.join(folder, str(at)), "wb") as file:
                file.write(octets)
        # Without a send no clock writes anything, and the model would take long to find so many moments.
        wanted = [link_model.link(octets) if b"send" in octets else ([], DONE) for octets in inputs]
        for _ in range(TIMES):
            for at, (lines, status) in enumerate(wanted):
                ended, used = run(program, ["link"], os.path.join(folder, str(at)), sink)
                last = lines[-1].encode() + b"\n" if lines else b""
                if (ended, *lines_of(sink)) != (status, len(lines), last):
                    sys.exit(f"input {at} ends with {ended}, and {lines_of(sink)}")
                seconds[at] = min(seconds[at], used.ru_utime)
    return seconds


program = program_of(sys.argv[1:])
print(f"{program}, load {os.getloadavg()[0]:.1f} on {os.cpu_count()} processors")
one, many = least(program, [clocks(windows(1, 4_096_000, 0), 4_096_000), clocks(windows(4_096, 900, 100), 4_096_000)])
print(f"{CLOCKS:,} clocks: {one:.3f} s in one window, {many:.3f} s in 4,096: {(many - one) / CLOCKS * 1e9:+.0f} ns a clock")
plain, parted = least(program, [drain([]), drain(windows(3_000, LENGTH, GAP))])
print(f"a drain of 128 blocks: {plain:.3f} s without windows, {parted:.3f} s through 1,000: {parted / plain:.3f} times")
