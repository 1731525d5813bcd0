#!/usr/bin/env python3
"""How fast the program is beside a plain one that does the same, command by command.

usage: bench/all.py [PROGRAM] [--only WORD] [--runs COUNT]     user seconds, medians of so many runs (5) of each
       bench/all.py [PROGRAM] [--only WORD] --instructions     instructions, by valgrind, on inputs that are smaller
       bench/all.py --rows [WORD]                              the rows of rows/ on the plain program alone

The program is the one that this repository builds, where none is named; --only leaves the rows of one command. The
plain program is bench/plain, in Rust and unproved, with no crate from outside; it is built in a temporary folder, but
with --plain FILE one that was built before is taken. Both run in turn on each input, and what they write must be the
same octet by octet, with the same status; else the row is wrong, and the script fails. A ratio is plain / ours, so
above 1 ours is faster. It prints a table in Markdown, with the machine and the commit. Instructions are the same
whatever else the machine does, and those that a run without input takes are taken off; for each row in which ours takes
more of them, the functions of ours follow in which most of them are, with those that they call, as callgrind tells it.
"""
import argparse
import datetime
import filecmp
import os
import random
import re
import statistics
import subprocess
import sys
import tempfile

sys.dont_write_bytecode = True
import bundles
import node
import receive
import world
from measure import PROGRAM, ROOT, program_of, run

sys.path[:0] = [os.path.join(ROOT, "examples"), os.path.join(ROOT, "tools")]
import machine
import rows
import run_rows
from make_bundles import NOBODY, block6, block7, bundle6, bundle7, counted, ipn

PLAIN = os.path.join(ROOT, "bench", "plain", "main.rs")
PLAIN_WORDS = ("receive", "check", "show", "convert", "cut", "join", "node", "world", "make")
SIZE, SMALL = 60_000_000, 600_000     # octets of an input, and of one for valgrind
BLOCK = receive.BLOCK
DEAREST = 12                        # functions that are told of a row
# Callgrind counts an instruction that copies many octets once for each of them, so the C library is told to use none.
FLAT = {**os.environ, "GLIBC_TUNABLES": "glibc.cpu.x86_rep_movsb_threshold=1000000000:"
                                        "glibc.cpu.x86_rep_stosb_threshold=1000000000"}
LAST, FRAGMENT = 8, 1


class Row:
    """A run: its words, and a call that writes its input of about so many octets to a file.

    Where the words say how much there is to do, others say less for valgrind.
    """

    def __init__(self, name, words, write, fewer=None):
        self.name, self.words, self.write = name, words.split(), write
        self.fewer = (fewer or words).split()


# ---- inputs ----

def repeated(bundle):
    """One bundle again and again."""
    return lambda file, size: file.write(bundle * max(size // len(bundle), 1))


def single_parts(data):
    """Red parts of one piece, each of a session of its own."""
    line = len(receive.segment(receive.RED_END_BLOCK, 100_000, 0, data))
    return lambda file, size: receive.each_its_own(file, min(size // line, receive.MILLION), data)


def red_parts(word):
    """Red parts of 4 MiB in pieces of 1,024 octets, or a smaller one, each line after a word."""
    def write(file, size):
        draw = random.Random(7)
        length = min(BLOCK, size // 2)
        for session in range(1, size // (2 * length) + 1):
            for at in range(0, length, receive.PIECE):
                data = draw.randbytes(min(receive.PIECE, length - at))
                kind = receive.RED_END_BLOCK if at + len(data) == length else receive.RED
                file.write(word + receive.segment(kind, session, at, data))
    return write


def blocks_out(file, size):
    """Blocks of 4 MiB that are to be sent, or a smaller one."""
    draw = random.Random(7)
    length = min(BLOCK, size // 2)
    for _ in range(size // (2 * length)):
        file.write(b"send " + draw.randbytes(length).hex().encode() + b"\n")


def flood(file, size):
    """Red parts of three octets, each of its own session, at an end of a link."""
    node.write_flood(file, size // len(node.whole(100_000)), lambda at: node.whole(at + 1))


def wholes(file, size):
    """Bundles of either version by turns, with 65,536 octets each."""
    both = bundles.old(counted(65_536)), bundles.new(counted(65_536), 0)
    for at in range(max(size // 65_536, 2)):
        file.write(both[at % 2])


def fragment(version, sequence, at, total, octets):
    """A piece of a bundle of its own."""
    creation, place = (1000, sequence), (at, total)
    if version == 6:
        return bundle6(0x90 | FRAGMENT, [2, 1, 1, 1, 0, 0, 0, 0], creation, 60, [block6(1, LAST, octets)],
                       fragment=place)
    return bundle7(FRAGMENT, 1, [ipn(2, 1), ipn(1, 1), NOBODY], (1_000_000 + sequence, 0), 60_000,
                   [block7(1, 1, 0, 0, octets)], place)


def fragments(is_shuffled):
    """The pieces of 1,024 octets of many bundles of 65,536 octets, in order, or those of each 32 bundles shuffled."""
    def write(file, size):
        payload, draw = counted(65_536), random.Random(7)
        count = max(size // 65_536, 32)
        for first in range(0, count, 32):
            pieces = [fragment(6 + name % 2, name, at, len(payload), payload[at:at + 1024])
                      for name in range(first, min(first + 32, count)) for at in range(0, len(payload), 1024)]
            if is_shuffled:
                draw.shuffle(pieces)
            file.write(b"".join(pieces))
    return write


def path(file, size):
    """A script of bundles each of which eight more events follow."""
    world.Model(world.SENDS if size >= SIZE else 12).write(file)


def drained(file, size):
    """A script of bundles from both ends, whose datagrams are lost, and a drain in which they come."""
    file.write(b"path ipn:9.0 1024 10000 10 65536 1010000\n")
    for _ in range(60 if size >= SIZE else 3):
        file.write(b"send old " + bundles.old(counted(60_000)).hex().encode() + b"\n")
        file.write(b"send new " + bundles.new(counted(60_000), 0).hex().encode() + b"\n")
    file.write(b"drain\n")


def all_rows():
    """The rows of the table."""
    sizes = (3, 1000, 65_536)
    yield Row("`receive`, red parts of 3 octets, one piece each", "receive", single_parts(b"abc"))
    yield Row("`receive`, red parts of 1,024 octets, one piece each", "receive",
              single_parts(random.Random(7).randbytes(1024)))
    yield Row("`receive`, red parts of 4 MiB in pieces of 1,024 octets", "receive", red_parts(b""))
    for word in ("check", "show", "convert"):
        for version, make in ((6, bundles.old), (7, lambda octets: bundles.new(octets, 0))):
            for size in sizes:
                name = f"`{word}`, version {version}, payloads of {size:,} octets"
                yield Row(name, word, repeated(make(counted(size))))
    for size in (100, 1024):
        yield Row(f"`cut {size}`, payloads of 65,536 octets, versions by turns", f"cut {size}", wholes)
    yield Row("`join`, pieces of 1,024 octets, in order", "join", fragments(False))
    yield Row("`join`, pieces of 1,024 octets, of 32 bundles shuffled", "join", fragments(True))
    yield Row("`node`, red parts of 3 octets, one piece each", "node 2 1", flood)
    yield Row("`node`, blocks of 4 MiB that come in pieces of 1,024 octets", "node 2 1", red_parts(b"in "))
    yield Row("`node`, blocks of 4 MiB that are sent", "node 1 2", blocks_out)
    yield Row("`world`, bundles of up to 6,000 octets with eight events each", "world", path)
    yield Row("`world`, a drain of 60 bundles of 60,000 octets each way", "world", drained)
    yield Row("`make`", "make 7 1000", lambda file, size: None, "make 7 20")


# ---- running ----

def built(folder):
    """The plain program, built in a folder."""
    path = os.path.join(folder, "plain")
    subprocess.run(["rustc", "--edition", "2024", "-C", "opt-level=3", "-o", path, PLAIN], check=True)
    return path


class Pair:
    """Both programs, and a folder for what they read and write."""

    def __init__(self, plain, ours, folder):
        self.programs = {"plain": plain, "ours": ours}
        self.folder, self.wrong = folder, 0
        self.source = os.path.join(folder, "in")

    def sink(self, name):
        return os.path.join(self.folder, name + ".out")

    def compare(self, row, statuses):
        """Says where both differ."""
        if len(set(statuses.values())) > 1 or not filecmp.cmp(self.sink("plain"), self.sink("ours"), shallow=False):
            self.wrong += 1
            print(f"  wrong: {row.name}: they write other octets, or end with other statuses: {statuses}", flush=True)

    def seconds(self, row, runs):
        """The medians of both programs' user seconds."""
        used, statuses = {name: [] for name in self.programs}, {}
        for _ in range(runs):
            for name, program in self.programs.items():
                statuses[name], usage = run(program, row.words, self.source, self.sink(name))
                used[name].append(usage.ru_utime)
            self.compare(row, statuses)
        return {name: statistics.median(times) for name, times in used.items()}

    def costs(self, words, source, name):
        """The status and the instructions of a run, and the file that tells of them."""
        told = os.path.join(self.folder, name + ".callgrind")
        with open(source, "rb") as stdin, open(self.sink(name), "wb") as stdout:
            ended = subprocess.run(["valgrind", "--tool=callgrind", f"--callgrind-out-file={told}",
                                    self.programs[name], *words], stdin=stdin, stdout=stdout,
                                   stderr=subprocess.DEVNULL, env=FLAT)
        with open(told, encoding="utf-8") as file:
            count = int(re.search(r"^(?:summary|totals): (\d+)", file.read(), re.M)[1])
        return ended.returncode, count, told

    def empty(self):
        """The instructions of both programs where there is no input."""
        return {name: self.costs(["check"], os.devnull, name)[1] for name in self.programs}

    def instructions(self, row, empty):
        """The instructions of both programs, and of a row below 1 the functions of ours."""
        statuses, counts, told = {}, {}, None
        for name in self.programs:
            statuses[name], count, told = self.costs(row.fewer, self.source, name)
            counts[name] = count - empty[name]
        self.compare(row, statuses)
        return counts, dearest(told, counts["ours"]) if counts["ours"] > counts["plain"] else []


def dearest(told, count):
    """The functions in which most instructions are, those that they call among them."""
    text = subprocess.run(["callgrind_annotate", "--inclusive=yes", "--threshold=100", told], capture_output=True,
                          text=True).stdout
    found = re.findall(r"^\s*([\d,]+) \([^)]*\)\s+\S*?:(\S.*?)(?: \[.*\])?$", text, re.M)
    lines = []
    for cost, function in found:
        share = 100 * int(cost.replace(",", "")) / count
        # (what all is in says nothing)
        if 2 <= share < 99 and len(lines) < DEAREST:
            lines.append(f"{share:.0f} % `{re.sub(r'::h[0-9a-f]{16}$', '', function)}`")
    return lines


# ---- printing ----

def head(program, what):
    commit = subprocess.run(["git", "-C", ROOT, "rev-parse", "--short=8", "HEAD"], capture_output=True, text=True)
    print(f"{datetime.date.today()}, commit {commit.stdout.strip()}, {machine.processors()} processors ({machine.name()}), "
          f"load {os.getloadavg()[0]:.1f}; {what}; ours is `{os.path.relpath(program, ROOT)}`\n")


def timed(pair, chosen, runs):
    head(pair.programs["ours"], f"user seconds, medians of {runs} runs of both in turn")
    print("| Run | Input, MB | Plain, s | Ours, s | Plain / ours |\n|---|---|---|---|---|", flush=True)
    for row in chosen:
        write_input(pair, row, SIZE)
        used = pair.seconds(row, runs)
        ratio = used["plain"] / used["ours"] if used["ours"] else float("nan")
        print(f"| {row.name} | {os.path.getsize(pair.source) / 1e6:.0f} | {used['plain']:.2f} | {used['ours']:.2f} "
              f"| {ratio:.2f} |", flush=True)


def counted_up(pair, chosen):
    head(pair.programs["ours"], "millions of instructions, by callgrind")
    print("| Run | Input, MB | Plain | Ours | Plain / ours |\n|---|---|---|---|---|", flush=True)
    told, empty = [], pair.empty()
    for row in chosen:
        write_input(pair, row, SMALL)
        counts, functions = pair.instructions(row, empty)
        print(f"| {row.name} | {os.path.getsize(pair.source) / 1e6:.1f} | {counts['plain'] / 1e6:,.1f} "
              f"| {counts['ours'] / 1e6:,.1f} | {counts['plain'] / counts['ours']:.2f} |", flush=True)
        if functions:
            told.append(f"- {row.name}: {', '.join(functions)}")
    print("\n" + "\n".join(told))


def write_input(pair, row, size):
    with open(pair.source, "wb") as file:
        row.write(file, size)


def tried(plain, words):
    """Runs the rows of rows/ on the plain program: whether all are as they should be."""
    passed = failed = 0
    for word in words:
        chosen = [row for row in rows.rows_of(os.path.join(rows.ROWS, word)) if "closed" not in (row.source, row.sink)]
        for row, said in run_rows.answers(plain, chosen):
            passed += not said
            failed += bool(said)
            if said:
                print("\n".join([row.name, *said]), flush=True)
    print(f"{passed} passed, {failed} failed; rows over closed streams are left out, since std opens those again")
    return failed == 0


def main():
    parser = argparse.ArgumentParser(usage=__doc__.split("usage: ")[1].split("\n\n")[0])
    parser.add_argument("program", nargs="?")
    parser.add_argument("--only")
    parser.add_argument("--runs", type=int, default=5)
    parser.add_argument("--instructions", action="store_true")
    parser.add_argument("--rows", nargs="?", const="")
    parser.add_argument("--plain")
    asked = parser.parse_args()
    with tempfile.TemporaryDirectory() as folder:
        plain = os.path.abspath(asked.plain) if asked.plain else built(folder)
        if asked.rows is not None:
            sys.exit(0 if tried(plain, [asked.rows] if asked.rows else PLAIN_WORDS) else 1)
        pair = Pair(plain, program_of([asked.program or PROGRAM]), folder)
        chosen = [row for row in all_rows() if asked.only in (None, row.words[0])]
        if asked.instructions:
            counted_up(pair, chosen)
        else:
            timed(pair, chosen, asked.runs)
    sys.exit(f"{pair.wrong} wrong" if pair.wrong else 0)


if __name__ == "__main__":
    main()
