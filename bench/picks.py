#!/usr/bin/env python3
"""What picks cost a drain of `link`: 100,000 that do nothing, and 100,000 old datagrams beside as many deliveries.

usage: bench/picks.py [PROGRAM]    the program as this repository builds it, where none is named

Picks that do nothing are those of an old datagram that there isn't, those of an end on a link where no timer runs, and
those of an end that waits for the other, which has a new datagram. An old datagram that comes 100,000 times is answered
by as many reports, and these by acknowledgements; it is held against a script with a line `deliver` for each. Seconds are the processor's for the program alone, the least of several
runs in turn.
"""
import os
import sys
import tempfile

sys.dont_write_bytecode = True
from measure import ROOT, lines_of, program_of, run

sys.path.insert(0, os.path.join(ROOT, "tools"))
import pick_model

PICKS = 100_000
TIMES = 9
START = "link 1024 10000 100 10000 0\n"
SENT = START + "send first 616263\n"


def drain(before, first, pick):
    return (before + "drain" + first + f" {pick}" * (PICKS - first.count(" ")) + "\n").encode()


def by_lines():
    """The datagram as often, and then all reports on it and their acknowledgements."""
    lines = ["deliver 0\n" * PICKS, *(f"deliver {k}\n" for k in range(1, 2 * PICKS + 1)), "drain\n"]
    return (SENT + "".join(lines)).encode()


INPUTS = {
    "no picks": (SENT + "drain\n").encode(),
    "an old datagram that there isn't": drain(SENT, "", "o99"),
    "an end where no timer runs": drain(START, "", "f"),
    "an end that waits for the other": drain(SENT, " f", "s"),
    "an old datagram that comes": drain(SENT, "", "o0"),
    "the same deliveries by lines": by_lines(),
}


def least(program):
    """The least seconds of each input, over runs in turn; each run has to end as the model says."""
    seconds = dict.fromkeys(INPUTS, float("inf"))
    with tempfile.TemporaryDirectory() as folder:
        sink = os.path.join(folder, "out")
        wanted = {}
        for name, octets in INPUTS.items():
            with open(os.path.join(folder, name), "wb") as file:
                file.write(octets)
            text, status = pick_model.answer(octets)
            wanted[name] = status, text.count(b"\n"), text.splitlines(keepends=True)[-1]
        for _ in range(TIMES):
            for name in INPUTS:
                ended, used = run(program, ["link"], os.path.join(folder, name), sink)
                if (ended, *lines_of(sink)) != wanted[name]:
                    sys.exit(f"{name}: ends with {ended}, and {lines_of(sink)}")
                seconds[name] = min(seconds[name], used.ru_utime)
    return seconds


program = program_of(sys.argv[1:])
print(f"{program}, load {os.getloadavg()[0]:.1f} on {os.cpu_count()} processors")
for name, used in least(program).items():
    print(f"{name}: {used:.3f} s")
