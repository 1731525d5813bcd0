#!/usr/bin/env python3
"""Runs the built program at sizes that no clause sees: what sockets, pipes and memory take.

usage: tools/extreme_runs.py [PROGRAM]      the program as this repository builds it, where none is named

- `serve` takes a datagram of 65,507 octets, the longest of UDP, and one of 8,192, each with a whole red part.
- `receive` writes a line of more than 1 MiB into a pipe that is emptied slowly.
- `convert` writes a bundle of 40 MB, and another after it.
- `world` drains a path without keeping what it writes: 218 MB in 420 MB of addresses, of which its datagrams take
  three quarters.

Ends with 1 where a run does something else, with a line for each.
"""
import os
import resource
import socket
import subprocess
import sys
import tempfile
import time

sys.dont_write_bytecode = True
ROOT = os.path.dirname(os.path.dirname(os.path.abspath(__file__)))
sys.path[:0] = [os.path.join(ROOT, "tools"), os.path.join(ROOT, "examples")]
from ltp_model import read_segment, written
from make_bundles import block6, bundle6, head

RED_END_BLOCK, REPORT = 3, 8
NORMAL, ONE_RECEIVER, LAST = 0x80, 0x10, 8
NOW = int(time.time()) - 946_684_800
TURNS = 1500                       # some seconds
MEMORY = 420_000_000
# The bundle of README.md in version 6, and its translation there.
SMALL = bytes.fromhex("0681100d02010101000000008768053c00010803616263")
SMALL7 = bytes.fromhex("9f8907000182028202018202820101820100821a000f42450019ea5b425a46850101000043616263ff")


def bundle_of(payload):
    """A bundle of version 6 from ipn:1.1 to ipn:2.1, made now, for an hour."""
    return bundle6(NORMAL | ONE_RECEIVER, [2, 1, 1, 1, 0, 0, 0, 0], (NOW, 0), 3600, [block6(1, LAST, payload)])


def datagram_of(size, session):
    """A bundle, and a datagram of so many octets that carries it whole as a red part."""
    length = size
    while True:
        bundle = bundle_of(b"a" * length)
        datagram = written(RED_END_BLOCK, (1, session), 1, 0, len(bundle), session, 0, body=bundle)
        if len(datagram) == size:
            return bundle, datagram
        length -= len(datagram) - size


def bound():
    one = socket.socket(socket.AF_INET, socket.SOCK_DGRAM)
    one.bind(("127.0.0.1", 0))
    one.settimeout(0.5)
    return one, one.getsockname()


def reported(node, face, datagram, size):
    """Whether a red part of a datagram, which is sent until it is answered, is claimed whole."""
    for _ in range(20):
        node.sendto(datagram, face)
        try:
            kind, _, said = read_segment(node.recv(65_507))
        except TimeoutError:
            continue
        if kind == REPORT and said["upper"] == size:
            return said["claims"] == [(0, size)]
    return False


def serve(program):
    """Two datagrams to `serve`: what isn't as it should be, in lines."""
    (old, old_node), (new, new_node), (first, old_face), (second, new_face) = (bound() for _ in range(4))
    first.close()                  # the gateway binds these two addresses itself
    second.close()
    words = ["{}:{}".format(*address) for address in (old_face, old_node, new_face, new_node)]
    run = subprocess.Popen([program, "serve", "ipn:9.0", *words, str(TURNS)], stdout=subprocess.PIPE,
                           stderr=subprocess.DEVNULL, text=True)
    sent = {}
    for session, size in ((1, 8_192), (2, 65_507)):
        bundle, datagram = datagram_of(size, session)
        sent[f"up g.o {session} {bundle.hex()}"] = size
        if not reported(old, old_face, datagram, len(bundle)):
            yield f"serve claims something else of a datagram of {size} octets"
    lines = set(run.communicate()[0].splitlines())
    old.close()
    new.close()
    for line, size in sent.items():
        if line not in lines:
            yield f"serve doesn't hand up what a datagram of {size} octets carried"


def receive(program):
    """A line of more than 1 MiB through a slow pipe."""
    block = bytes(range(256)) * 2_400
    line = written(RED_END_BLOCK, (1, 7), 1, 0, len(block), 1, 0, body=block).hex() + "\n"
    run = subprocess.Popen([program, "receive"], stdin=subprocess.PIPE, stdout=subprocess.PIPE)
    run.stdin.write(line.encode())
    run.stdin.close()
    text = bytearray()
    while piece := os.read(run.stdout.fileno(), 50_000):
        text += piece
        time.sleep(0.005)
    if run.wait() != 0 or bytes(text) != f"up 1 7 {block.hex()}\n".encode():
        yield f"receive writes {len(text)} octets of a line of {len(block) * 2 + 8}, and ends with {run.returncode}"


def convert(program):
    """A bundle of 40 MB before another one."""
    payload = bytes(range(250)) * 160_000
    given = bundle_of(payload) + SMALL
    run = subprocess.run([program, "convert"], input=given, stdout=subprocess.PIPE, check=False)
    end = (head(2, len(payload)) + payload + b"\xff").hex()
    if run.returncode != 0 or not run.stdout.decode().endswith(f"{end}\n{SMALL7.hex()}\n"):
        yield f"convert writes {len(run.stdout)} octets of two bundles, one of 40 MB, and ends with {run.returncode}"


def world(program):
    """A drain of thirty bundles of 900,000 octets, whose text doesn't find room beside its datagrams."""
    made = bundle6(NORMAL | ONE_RECEIVER, [2, 1, 1, 1, 0, 0, 0, 0], (1000, 0), 60, [block6(1, LAST, bytes(900_000))])
    lines = ["path ipn:9.0 8192 10000 10 4000000 1010000", *[f"send old {made.hex()}"] * 30, "drain", ""]

    def limit():
        resource.setrlimit(resource.RLIMIT_AS, (MEMORY, MEMORY))

    with tempfile.TemporaryFile() as script:
        script.write("\n".join(lines).encode())
        script.seek(0)
        run = subprocess.Popen([program, "world"], stdin=script, stdout=subprocess.PIPE, preexec_fn=limit)
    count, last = 0, b""
    while piece := run.stdout.read(1 << 20):
        count, last = count + len(piece), (last + piece)[-40:]
    if run.wait() != 0 or b"\nend " not in last:
        yield f"world ends with {run.returncode} after {count} octets of a drain, with {MEMORY} octets of memory"


def main(words):
    if words == ["--help"]:
        print(__doc__)
        return 0
    program = words[0] if words else os.path.join(ROOT, "crates", "bundle_cli", "out", "bundle_cli")
    if not os.access(program, os.X_OK):
        sys.exit(f"extreme_runs: {program} isn't built")
    told = [line for run in (serve, receive, convert, world) for line in run(program)]
    for line in told:
        print(f"extreme_runs: {line}")
    return 1 if told else 0


if __name__ == "__main__":
    sys.exit(main(sys.argv[1:]))
