#!/usr/bin/env python3
"""Joins two `node` by pipes and loses some of their datagrams, until a block is handed up and its sender knows it. What came
to each end and left it is then judged by `audit`.

usage: examples/join_nodes.py [PROGRAM]      the program as this repository builds it, where none is named
"""
import os
import subprocess
import sys

if sys.argv[1:] == ["--help"]:
    sys.exit(__doc__)
HERE = os.path.dirname(os.path.abspath(__file__))
PROGRAM = sys.argv[1] if sys.argv[1:] else os.path.join(HERE, "..", "crates", "bundle_cli", "out", "bundle_cli")
if not os.access(PROGRAM, os.X_OK):
    sys.exit("join_nodes: the program isn't built: run ./fimdahol --build first")
BLOCK = bytes(range(100)) * 25     # in three segments, of 1,024, 1,024 and 452 octets
LOST = {1, 2, 7}                   # of the datagrams, which are counted from 0

ENGINES = [("1", "2"), ("2", "1")]
ends = [subprocess.Popen([PROGRAM, "node", *engines], stdin=subprocess.PIPE, stdout=subprocess.PIPE, text=True)
        for engines in ENGINES]
under_way, notes, sent, recordings = [], [], 0, ([], [])


def happen(end, line):
    """Tells an end a line, and does what it answers. The refusal of an empty block marks the end of the answer."""
    global sent
    recordings[end].extend([f"{line}\n"] if line.startswith("in ") else [])
    ends[end].stdin.write(f"{line}\nsend\n")
    ends[end].stdin.flush()
    for said in iter(ends[end].stdout.readline, "refused Empty\n"):
        word, _, rest = said.strip().partition(" ")
        if word == "out":
            print(f"end {end + 1} sends datagram {sent}, {len(rest) // 2} octets{', lost' if sent in LOST else ''}")
            recordings[end].append(f"{said.strip()}\n")
            under_way.extend([] if sent in LOST else [(1 - end, f"in {rest}")])
            sent += 1
        elif word == "up":
            print(f"end {end + 1} hands up a block{' as it was sent' if rest == '1 ' + BLOCK.hex() else ''}")
        else:
            print(f"end {end + 1} notes {rest}")
            notes.append(rest)


happen(0, f"send {BLOCK.hex()}")
for moment in range(10_000, 100_000, 10_000):
    while under_way:
        happen(*under_way.pop(0))
    if "Sent 1" in notes:
        break
    print(f"after {moment // 1000} s")
    happen(0, f"clock {moment}")
    happen(1, f"clock {moment}")
for end in ends:
    end.communicate()
for end, engines in enumerate(ENGINES):
    audit = subprocess.run([PROGRAM, "audit", *engines], input="".join(recordings[end]), stdout=subprocess.PIPE, text=True)
    print(f"audit of end {end + 1}: {audit.stdout.strip()}")
