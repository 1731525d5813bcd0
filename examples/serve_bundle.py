#!/usr/bin/env python3
"""Sends a bundle of version 6 through a running gateway over UDP, and gets a status report on it.

usage: examples/serve_bundle.py [PROGRAM]      the program as this repository builds it, where none is named
"""
import os
import socket
import subprocess
import sys
import time

sys.dont_write_bytecode = True
HERE = os.path.dirname(os.path.abspath(__file__))
sys.path.insert(0, os.path.join(HERE, "..", "tools"))
from format_model import Fields, bundle6, bundle7
from ltp_model import read_segment, written
from make_bundles import block6
from make_bundles import bundle6 as spelled6

if sys.argv[1:] == ["--help"]:
    sys.exit(__doc__)
PROGRAM = sys.argv[1] if sys.argv[1:] else os.path.join(HERE, "..", "crates", "bundle_cli", "out", "bundle_cli")
if not os.access(PROGRAM, os.X_OK):
    sys.exit("serve_bundle: the program isn't built: run ./fimdahol --build first")
TURNS = 1500                       # some seconds: a turn in which nothing comes takes a millisecond or two
RECEPTION_REPORTED, NORMAL, ONE_RECEIVER = 1 << 14, 0x80, 0x10
RED_END_BLOCK, REPORT, REPORT_ACK = 3, 8, 9
OLD_NODE = 1                       # its number as an end of LTP


def bound():
    one = socket.socket(socket.AF_INET, socket.SOCK_DGRAM)
    one.bind(("127.0.0.1", 0))
    one.settimeout(0.5)
    return one, one.getsockname()


(old, old_node), (new, new_node), (first, old_face), (second, new_face) = (bound() for _ in range(4))
first.close()                      # the gateway binds these two addresses itself
second.close()
words = ["{}:{}".format(*address) for address in (old_face, old_node, new_face, new_node)]
run = subprocess.Popen([PROGRAM, "serve", "ipn:9.0", *words, str(TURNS)], stdout=subprocess.PIPE, text=True)


def heard(node):
    """The next datagram that comes to a node, as a segment; or None."""
    try:
        return read_segment(node.recv(65_507))
    except socket.timeout:
        return None


def block_of(node, face):
    """The block of one segment that comes to a node, which reports it."""
    segment = heard(node)
    while segment is None or segment[0] != RED_END_BLOCK:
        segment = heard(node)
    _, name, piece = segment
    size = len(piece["body"])
    node.sendto(written(REPORT, name, 1, piece["checkpoint"], size, 0, 1, 0, size), face)
    return piece["body"]


# From ipn:1.1 to ipn:2.1, made now, for an hour; the reception is to be reported to ipn:1.7.
now = int(time.time()) - 946_684_800
bundle = spelled6(RECEPTION_REPORTED | NORMAL | ONE_RECEIVER, [2, 1, 1, 1, 1, 7, 0, 0], (now, 0), 3600,
                  [block6(1, 8, b"abc")])
reports = 0
while not reports:                 # until the gateway has begun
    old.sendto(written(RED_END_BLOCK, (OLD_NODE, 1), 1, 0, len(bundle), 2, 0, body=bundle), old_face)
    segment = heard(old)
    reports += segment is not None and segment[0] == REPORT
old.sendto(written(REPORT_ACK, (OLD_NODE, 1), segment[2]["serial"]), old_face)
print("the old node sent a bundle, and the gateway reported its segment")

came = bundle7(Fields(block_of(new, new_face)))
print(f"the new node got version {came['version']}, from {came['source']} to {came['destination']}, flags "
      f"{came['flags']}, lifetime {came['lifetime']}, payload {bytes.fromhex(came['blocks'][-1]['body'])}")
report = bundle6(Fields(block_of(old, old_face)))
print(f"the old node got a status report from {report['source']} to {report['destination']}, which begins with "
      f"{report['blocks'][0]['body'][:6]}")

up, *notes = run.stdout.read().splitlines()
for line in [" ".join(up.split()[:3] + ["..."]), *notes[:2], *sorted(notes[2:])]:
    print("the gateway wrote", line)
print("the gateway ended with", run.wait())
