#!/usr/bin/env python3
"""How fast `make` makes and replays scripts, and how much memory it takes.

usage: bench/make.py [PROGRAM]    the program as this repository builds it, where none is named

Each world from the second on has twice as many bundles as the one before, and is drained. Seconds are the processor's
for the program alone, of the best of three runs; after them stand the most memory and the line that it writes.
"""
import os
import subprocess
import sys

sys.dont_write_bytecode = True
from measure import program_of

RUNS = 3


def run_of(program, words):
    """Processor seconds and the most memory of a run, and what it writes."""
    process = subprocess.Popen([program, *words], stdin=subprocess.DEVNULL, stdout=subprocess.PIPE)
    text = process.stdout.read()
    _, status, used = os.wait4(process.pid, 0)
    if status != 0:
        sys.exit(f"make: {words} ends with {status}")
    return used.ru_utime + used.ru_stime, used.ru_maxrss, text.decode().strip()


program = program_of(sys.argv[1:])
for count in (100, 125, 250, 500, 1000):
    runs = [run_of(program, ["make", "7", str(count)]) for _ in range(RUNS)]
    print(f"make 7 {count}: {min(run[0] for run in runs):.3f} s, {max(run[1] for run in runs) / 1000:.0f} MB: {runs[0][2]}")
