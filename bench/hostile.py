#!/usr/bin/env python3
"""How much memory the program takes for input that is made to cost much.

usage: bench/hostile.py [PROGRAM] [--only WORD]    the program as this repository builds it, where none is named

Each row is one run on one input: the peak of the process's memory, its time by the wall clock, and the most that the
peak may be. A row is wrong where the peak is higher, or where the status or the count of lines isn't the one wanted;
then the script fails. The peak is told by GNU time (/usr/bin/time), since a process that python begins is a copy of
python at first. Nothing is said of a time: where others work beside it, it may be many times as long. `serve` and
`gate` get their blocks over loopback, from a socket of this script; `gate` is stopped once it has told of the block.
With --only the rows whose command is that word are run alone.
"""
import argparse
import os
import signal
import socket
import subprocess
import sys
import tempfile
import time

sys.dont_write_bytecode = True
from measure import ROOT, program_of

sys.path[:0] = [os.path.join(ROOT, "examples"), os.path.join(ROOT, "tools")]
from live_nodes import free_port
from make_bundles import NOBODY, block6, block7, bundle6, bundle7, ipn, sdnv

TIME = "/usr/bin/time"
MOST = 67_108_864       # octets that a command reads
LONG = 60_000_000
BLOCK = 4_194_304       # the longest block, in octets
PIECE = 30_000
RUNS = 65_536           # closed numbers that an engine remembers, each apart from the next
NAME = b"dtn\0//a/" + b"x" * 1019 + b"\0"     # a scheme, and the longest text that there is
TO_NAME = [0, 4] * 4
LIFE = 4_294_967_295    # seconds: none of the bundles has expired
FRAGMENT, REPLICATED, LAST = 1, 1, 8
DONE, REFUSED, LIMIT = 0, 1, 6
NEVER = b"dtn\0" + b"x" * 40_000_000      # a dictionary whose last text has no end


def named(references, flags, payload, name=NAME):
    """A bundle of version 6 with a block of so many references to the longest name, two octets each."""
    pairs = [0, 4] * references
    blocks = [block6(32, flags, b"abc", pairs), block6(1, LAST, payload)]
    return bundle6(0x90, TO_NAME, (1000, 5), LIFE, blocks, name)


def endless():
    """A bundle whose names have no end, or whose references to one fill the input."""
    return bundle6(0x90, TO_NAME, (1000, 5), LIFE, [block6(1, LAST, b"abc")], NEVER)


def filled():
    """References to the longest name, two octets each, as many as an input has room for."""
    count = (MOST - 2000) // 2
    front = bundle6(0x90, TO_NAME, (1000, 5), LIFE, [], NAME)
    return front + bytes([32]) + sdnv(0x40) + sdnv(count) + b"\0\4" * count + sdnv(3) + b"abc" \
        + block6(1, LAST, b"abc")


def old(payload):
    """From ipn:1.1 to ipn:2.1, in version 6."""
    return bundle6(0x90, [2, 1, 1, 1, 0, 0, 0, 0], (1000, 5), LIFE, [block6(1, LAST, payload)])


def marked():
    """A block of 4 MiB of which half stands in each of 32 pieces: no other block becomes more octets."""
    blocks = [block6(32, REPLICATED, bytes(BLOCK - 32 * 65_536 - 100)), block6(1, LAST, bytes(32 * 65_536))]
    return bundle6(0x90, [2, 1, 1, 1, 0, 0, 0, 0], (1000, 5), LIFE, blocks)


def new(payload):
    """The same in version 7, without a check on the payload."""
    return bundle7(0, 1, [ipn(2, 1), ipn(1, 1), NOBODY], (1_000_005, 0), 59_995, [block7(1, 1, 0, 0, payload)])


def single_octets(names, each):
    """Fragments of one octet at every second place of so many wholes of 4 MiB, and as many of each."""
    return b"".join(
        bundle6(0x90 | FRAGMENT, [2, 1, 1, 1, 0, 0, 0, 0], (1000, name + 1), 60, [block6(1, LAST, b"a")],
                fragment=(2 * at, BLOCK))
        for at in range(each) for name in range(names))


# ---- lines

def segment(kind, session, *numbers, body=b"", word=b""):
    """A segment of engine 1 as a line, with a word in front of it."""
    octets = bytes([kind, 1]) + sdnv(session) + b"\0" + b"".join(map(sdnv, numbers)) + body
    return word + octets.hex().encode() + b"\n"


def piece(session, offset, body, word=b""):
    """A red piece that ends nothing."""
    return segment(0, session, 1, offset, len(body), body=body, word=word)


def overlapping():
    """A thousand pieces of 30,000 octets, each an octet further than the one before."""
    return b"".join(piece(7, at, bytes(PIECE)) for at in range(1000))


def every_second():
    """Single octets at every second place, as many as there may be lines."""
    return b"".join(piece(7, 2 * at, b"a") for at in range(999_999))


def in_fours():
    """As many pieces as there may be lines, of four octets each, one after the other."""
    return b"".join(piece(7, 4 * at, b"abcd") for at in range(999_999))


def far_ends():
    """In as many sessions as may be unfinished, the last octet of the longest block."""
    return b"".join(piece(session, BLOCK - 1, b"a") for session in range(64))


def closed_runs():
    """Sessions 1, 3, .. of a peer, each opened and cancelled, and one more."""
    return b"".join(
        piece(2 * at + 1, 0, b"a", b"in ") + segment(12, 2 * at + 1, 0, word=b"in ") for at in range(RUNS)
    ) + piece(2 * RUNS + 1, 0, b"a", b"in ")


def many_blocks():
    """In as many sessions as are kept, all of a block but its end, as much as an input has room for."""
    parts, size = 16, PIECE
    return b"".join(piece(session + 1, at * size, bytes(size), b"in ") for session in range(64) for at in range(parts))


def sessions_of_one_piece():
    """As many entries as a recording may have, each a red octet of another session."""
    return b"".join(piece(session, 0, b"a", b"in ") for session in range(1, 1_000_000))


def full(first, send):
    """A script, up to the limit on its datagrams: a block of the greatest length, of which only the checkpoint arrives,
    over and over. Each time all of it but the octets that came is sent again."""
    lines = [first, send + bytes(BLOCK).hex().encode() + b"\n"]
    checkpoint, missing = 4095, 4095
    for _ in range(64):
        lines.append(b"deliver %d\ndeliver %d\n" % (checkpoint, checkpoint + 1))
        checkpoint, missing = checkpoint + 2 + missing, missing - 1
    return b"".join(lines)


def full_world():
    return full(b"path ipn:9.0 1024 10000 100 65536 1010000\n", b"send old ")


def full_link():
    return full(b"link 1024 10000 100 160000 0\n", b"send first ")


# What a row is called, the words of the run, its input, the status and how many lines are wanted (None: any), and the
# most memory in MB: twice the payload and 4 where that is long, and else so much that the pieces, or the text, could
# not be there at once.
ROWS = (
    ("2,000 pieces with 1,000 references each", ["cut", "1"], lambda: named(1000, REPLICATED, bytes(2000)), DONE, 2000, 4),
    ("1 MiB of payload, octet by octet", ["cut", "1"], lambda: old(bytes(1 << 20)), DONE, 1 << 20, 6),
    ("the same of version 7", ["cut", "1"], lambda: new(bytes(1 << 20)), DONE, 1 << 20, 6),
    ("25,000 references", ["convert"], lambda: named(25_000, 0, b"abc"), DONE, 1, 60),
    ("25,000 references", ["join"], lambda: named(25_000, 0, b"abc"), DONE, 1, 4),
    ("60 MB of payload, version 6", ["convert"], lambda: old(bytes(LONG)), DONE, 1, 124),
    ("60 MB of payload, version 7", ["convert"], lambda: new(bytes(LONG)), DONE, 1, 124),
    ("60 MB of payload, version 6", ["cut", "1000"], lambda: old(bytes(LONG)), DONE, LONG // 1000, 124),
    ("60 MB of payload, version 7", ["cut", "1000"], lambda: new(bytes(LONG)), DONE, LONG // 1000, 124),
    ("60 MB of payload, version 6", ["join"], lambda: old(bytes(LONG)), DONE, 1, 124),
    ("60 MB of payload, version 7", ["join"], lambda: new(bytes(LONG)), DONE, 1, 124),
    ("64 wholes of 4 MiB, by single octets", ["join"], lambda: single_octets(64, 15_000), DONE, 960_000, 40),
    ("33 million references to a long name", ["check"], filled, DONE, 1, 4),
    ("a name of 40 MB that never ends", ["check"], endless, REFUSED, 1, 84),
    ("1,000 pieces that bring an octet each", ["receive"], overlapping, DONE, 0, 4),
    ("single octets at every second place", ["receive"], every_second, DONE, 0, 40),
    ("999,999 pieces of four octets, in order", ["receive"], in_fours, DONE, 0, 20),
    ("64 sessions of one octet, far away", ["receive"], far_ends, DONE, 0, 4),
    ("65,536 closed numbers", ["node", "2", "1"], closed_runs, DONE, 2 * RUNS + 1, 6),
    ("64 blocks that go on", ["node", "2", "1"], many_blocks, DONE, 0, 64),
    ("64 blocks that go on", ["record", "2", "1"], many_blocks, DONE, 1024, 160),
    ("999,999 sessions of one octet", ["audit", "2", "1"], sessions_of_one_piece, DONE, 1, 880),
    ("a world up to its limit", ["world"], full_world, LIMIT, None, 880),
    ("a link up to its limit", ["link"], full_link, LIMIT, None, 880),
    ("1,000 bundles", ["make", "7", "1000"], lambda: b"", DONE, 1, 64),
    ("25,000 references", ["show"], lambda: named(25_000, 0, b"abc"), DONE, 1, 4),
)

# Of `serve` and `gate`: a bundle, what becomes of it, and the most memory in MB of each, of `gate` also where it keeps
# a journal.
BLOCKS = (
    ("a block of 300,000 references to one name", lambda: named(299_700, 0, b"abc"), b"storage", 12, 12, 12),
    ("33 pieces, a marked block of 20,000 references", lambda: named(20_000, REPLICATED, bytes(1 << 21)), b"storage", 24, 16, 16),
    ("the same payload, no other block", lambda: old(bytes(1 << 21)), b"passed", 28, 20, 28),
    ("a block of 4 MiB", lambda: old(bytes(BLOCK - 40)), b"passed", 48, 32, 48),
    ("32 pieces, in each a marked block of 2 MiB", marked, b"passed", 240, 240, 400),
)


def run(program, words, source):
    """The status, the count of lines, the peak in MB and the seconds of one run. No output is kept."""
    with tempfile.NamedTemporaryFile("r") as told, open(source, "rb") as stdin:
        child = subprocess.Popen([TIME, "-q", "-o", told.name, "-f", "%M %e", program, *words], stdin=stdin,
                                 stdout=subprocess.PIPE, stderr=subprocess.DEVNULL)
        lines = sum(part.count(b"\n") for part in iter(lambda: child.stdout.read(1 << 16), b""))
        status = child.wait()
        peak, seconds = told.read().split()
    return status, lines, int(peak) * 1024 / 1e6, float(seconds)


def node():
    found = socket.socket(socket.AF_INET, socket.SOCK_DGRAM)
    found.bind(("127.0.0.1", 0))
    return found


def served(program, bundle, event, journal=None):
    """The same of a run to whose old face a block comes, with the lines of this event: of `gate`, where it is said
    whether it keeps a journal."""
    with tempfile.TemporaryDirectory() as folder, node() as old_node, node() as new_node:
        binds = [free_port("127.0.0.1") for _ in range(2)]
        at = [f"127.0.0.1:{port}" for port in (binds[0], old_node.getsockname()[1], binds[1], new_node.getsockname()[1])]
        words = ["serve", "ipn:9.0", *at, "1500"] if journal is None else gate_words(folder, at, journal)
        child = subprocess.Popen([TIME, "-q", "-o", f"{folder}/told", "-f", "%M %e", program, *words],
                                 stdin=subprocess.DEVNULL, stdout=subprocess.PIPE, stderr=subprocess.PIPE)
        (child.stderr if journal is None else child.stdout).readline()      # (both sockets are bound)
        send(bundle, old_node, binds[0])
        if journal is None:
            lines, status = sum(event in line[:99].lower() for line in child.stdout), child.wait()
        else:
            lines, status = int(event in child.stdout.readline()[:99].lower()), DONE
            time.sleep(1)
            stop(child)
        with open(f"{folder}/told", encoding="ascii") as told:
            peak, seconds = told.read().split()
    return status, lines, int(peak) * 1024 / 1e6, float(seconds)


def gate_words(folder, at, journal):
    """The words that run `gate` at these addresses."""
    kept = f'journal = "{folder}/journal"\n' if journal else ""
    with open(f"{folder}/gate.toml", "w", encoding="ascii") as file:
        file.write(f'[gateway]\nendpoint = "ipn:9.0"\n{kept}[old]\nbind = "{at[0]}"\npeer = "{at[1]}"\n'
                   f'[new]\nbind = "{at[2]}"\npeer = "{at[3]}"\n')
    return ["gate", f"{folder}/gate.toml"]


def send(bundle, from_node, port):
    """Sends a bundle as one block, in segments that don't fill the socket."""
    size = 32_768
    for offset in range(0, len(bundle), size):
        part, is_last = bundle[offset:offset + size], offset + size >= len(bundle)
        numbers = (1, offset, len(part)) + ((1, 0) if is_last else ())
        octets = bytes([3 if is_last else 0, 1, 1, 0]) + b"".join(map(sdnv, numbers)) + part
        from_node.sendto(octets, ("127.0.0.1", port))
        time.sleep(0.02)


def stop(child):
    """Stops the program that GNU time runs."""
    with open(f"/proc/{child.pid}/task/{child.pid}/children", encoding="ascii") as file:
        for program in file.read().split():
            os.kill(int(program), signal.SIGTERM)
    child.communicate()


def said(words, name, size, wanted, most, found):
    """Prints a row, and answers whether it is wrong."""
    status, lines, peak, seconds = found
    says = [f"status {status}"] * (status != wanted[0])
    says += [f"{wanted[1]} lines wanted"] * (wanted[1] is not None and lines != wanted[1])
    says += ["too much memory"] * (peak > most)
    print(f"{' '.join(words):<12}{name:<48}{size / 1e6:>8.2f}{lines:>11,}{seconds:>9.2f}{peak:>9.1f}{most:>6}"
          + "".join(f"  wrong: {it}" for it in says), flush=True)
    return bool(says)


def main():
    parser = argparse.ArgumentParser(description=__doc__, formatter_class=argparse.RawDescriptionHelpFormatter)
    parser.add_argument("--only", default="")
    parser.add_argument("program", nargs="*")
    given = parser.parse_args()
    program = program_of(given.program)
    if not os.access(TIME, os.X_OK):
        sys.exit(f"{TIME} isn't there: install GNU time")
    wrong = 0
    print(f"{'command':<12}{'input':<48}{'MB in':>8}{'lines':>11}{'seconds':>9}{'peak MB':>9}{'most':>6}", flush=True)
    for name, words, made, status, lines, most in ROWS:
        if given.only not in ("", words[0]):
            continue
        with tempfile.NamedTemporaryFile() as source:
            size = source.write(made())
            source.flush()
            found = run(program, words, source.name)
        wrong += said(words, name, size, (status, lines), most, found)
    for name, made, event, *mosts in BLOCKS:
        for words, journal, most in zip((["serve"], ["gate"], ["gate", "(j)"]), (None, False, True), mosts):
            if given.only in ("", words[0]):
                bundle = made()
                wrong += said(words, name, len(bundle), (DONE, 1), most, served(program, bundle, event, journal))
    sys.exit(f"{wrong} wrong" if wrong else 0)


main()
