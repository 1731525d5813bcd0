#!/usr/bin/env python3
"""Runs the program on spoiled inputs of every command, by a seed, and watches status, time and memory.

usage: tools/spoiled_runs.py [PROGRAM] [--runs N] [--seed N] [--seconds S] [--megabytes N] [COMMAND ..]

The program is the one that this repository builds, where none is named. The input of each run (1,000 for each command)
is that of a row in rows/, with one to eight changes, mostly one: octets turned, taken out, put in or repeated, lines exchanged,
repeated or taken from another row, a number made large. What the answer should be is told by the made rows and their
models; here must hold of each run, whatever the input is:

- the program ends by itself, with 0 (done), 1 (refused) or 6 (a limit), within so many seconds (10);
- so many megabytes of addresses (200) are enough for it: it can't have more, and would end with 7;
- what it wrote is lines, whole but for none, and on standard error at most one line;
- the same input in pieces, of one octet to some thousands, gives the same output and status.

Prints a line for each command with the longest time, and of each run that departs its seed and number.
Status 0 where all of this holds, and 1 else.
"""
import argparse
import collections
import os
import random
import re
import resource
import subprocess
import sys
import tempfile
import threading
import time

sys.dont_write_bytecode = True
sys.path.insert(0, os.path.dirname(os.path.abspath(__file__)))
import rows

PROGRAM = os.path.join(rows.ROOT, "crates", "bundle_cli", "out", "bundle_cli")
ENDINGS = (0, 1, 6)
LARGEST = 60_000            # octets of a row's input
LARGE = ("0", "1", "63", "64", "65", "127", "128", "255", "1000", "16383", "16384", "65535", "1000000", "4194304",
         "4194305", "4294967295", "4294967296", "4611686018427387903", "4611686018427387904",
         "18446744073709551615", "18446744073709551616", "99999999999999999999999999")


def reads(words):
    """Whether words name a command that ends with its input. Of `gate` that is its check: a run goes on."""
    return bool(words) and re.fullmatch(b"[a-z]+", words[0]) is not None and words[0] not in (b"serve", b"make") and \
        (words[0] != b"gate" or words[1:2] == [b"check"])


def inputs_by_words():
    """The inputs of the rows, by the words of their runs."""
    found = collections.defaultdict(list)
    for path in rows.files():
        for row in rows.rows_of(path):
            if reads(row.words) and row.status in ENDINGS and row.source is None and 0 < len(row.given()) <= LARGEST:
                found[tuple(row.words)].append(row.given())
    return found


def in_octets(draw, octets):
    """A change of an input as octets."""
    at = draw.randrange(len(octets) + 1)
    size = draw.choice((1, 1, 1, 2, 3, 8, 64))
    kind = draw.randrange(5)
    if kind == 0 and octets:
        changed = bytearray(octets)
        changed[at % len(octets)] = draw.choice((0, 1, 0x7f, 0x80, 0xff, draw.randrange(256)))
        return bytes(changed)
    if kind == 1:
        return octets[:at] + octets[at + size:]
    if kind == 2:
        return octets[:at] + draw.randbytes(size) + octets[at:]
    if kind == 3:
        return octets[:at] + octets[max(at - size, 0):at] * draw.choice((1, 2, 50)) + octets[at:]
    return octets[:at]


def in_lines(draw, octets, others):
    """A change of an input as lines."""
    lines = octets.split(b"\n")
    at, there = draw.randrange(len(lines)), draw.randrange(len(lines))
    kind = draw.randrange(5)
    if kind == 0:
        lines[at], lines[there] = lines[there], lines[at]
    elif kind == 1:
        lines[at:at] = [lines[there]] * draw.choice((1, 2, 70))
    elif kind == 2:
        lines[at:at] = [draw.choice(draw.choice(others).split(b"\n"))]
    elif kind == 3:
        del lines[at]
    else:
        words = lines[at].split(b" ")
        words[draw.randrange(len(words))] = draw.choice(LARGE).encode()
        lines[at] = b" ".join(words)
    return b"\n".join(lines)


def spoiled(draw, inputs):
    """An input with a few changes."""
    octets = draw.choice(inputs)
    is_text = all(octet == 10 or 32 <= octet < 127 for octet in octets)
    for _ in range(draw.choice((1, 1, 1, 2, 3, 8))):
        octets = in_lines(draw, octets, inputs) if is_text and draw.randrange(3) else in_octets(draw, octets)
    return octets


class Run:
    """How a run ended, what it wrote, and how long it took."""

    def __init__(self, program, words, octets, pieces, given):
        """Starts the program and gives it the input, as a file or in pieces."""
        begun = time.monotonic()
        most = given.megabytes * 1_000_000
        with tempfile.TemporaryFile() as source, tempfile.TemporaryFile() as sink, tempfile.TemporaryFile() as errors:
            source.write(octets)
            source.seek(0)
            child = subprocess.Popen([program, *words], stdin=source if pieces is None else subprocess.PIPE,
                                     stdout=sink, stderr=errors,
                                     preexec_fn=lambda: resource.setrlimit(resource.RLIMIT_AS, (most, most)))
            ending = threading.Timer(2 * given.seconds, child.kill)
            ending.start()
            if pieces is not None:
                give(child.stdin, octets, pieces)
            self.status = child.wait()
            ending.cancel()
            self.seconds = time.monotonic() - begun
            sink.seek(0)
            errors.seek(0)
            self.output, self.errors = sink.read(), errors.read()


def give(pipe, octets, pieces):
    """Writes the input to a pipe in pieces of these sizes, in turn."""
    at = 0
    try:
        while at < len(octets):
            size = pieces[at % len(pieces)]
            pipe.write(octets[at:at + size])
            pipe.flush()
            at += size
        pipe.close()
    except BrokenPipeError:
        pass


def departs(run, again, given):
    """What a run did that it shouldn't."""
    if run.status not in ENDINGS:
        yield f"status {run.status}"
    if run.seconds > given.seconds:
        yield f"{run.seconds:.1f} seconds"
    if run.output and not run.output.endswith(b"\n"):
        yield f"its last line isn't whole: {run.output[-40:]!r}"
    if run.errors.count(b"\n") > 1 or run.errors and not run.errors.endswith(b"\n"):
        yield f"standard error: {run.errors[:80]!r}"
    if (again.status, again.output) != (run.status, run.output):
        yield f"in pieces status {again.status}, and {len(again.output)} octets in place of {len(run.output)}"


def main():
    parser = argparse.ArgumentParser(description=__doc__, formatter_class=argparse.RawDescriptionHelpFormatter)
    for name, number in (("--runs", 1000), ("--seed", 1), ("--seconds", 10), ("--megabytes", 200)):
        parser.add_argument(name, type=int, default=number)
    parser.add_argument("words", nargs="*", metavar="PROGRAM | COMMAND")
    given = parser.parse_args()
    program = os.path.abspath(given.words.pop(0)) if given.words and "/" in given.words[0] else PROGRAM
    if not os.access(program, os.X_OK):
        sys.exit(f"{program} isn't there: run ./fimdahol --build first, or name a program as the first argument")
    by_command = collections.defaultdict(list)
    for words, inputs in inputs_by_words().items():
        by_command[words[0].decode()].append((words, inputs))
    unknown = [it for it in given.words if it not in by_command]
    if unknown:
        sys.exit(f"spoiled_runs: no rows of {unknown[0]}")
    bad = 0
    for command in given.words or sorted(by_command):
        draw = random.Random(f"{given.seed} {command}")
        slowest = longest = 0
        endings = collections.Counter()
        for number in range(1, given.runs + 1):
            words, inputs = draw.choice(by_command[command])
            octets = spoiled(draw, inputs)
            run = Run(program, words, octets, None, given)
            pieces = [draw.choice((1, 7, 100, 4096, 9000)) for _ in range(5)]
            again = Run(program, words, octets, pieces if len(octets) < 9000 else [4096], given)
            endings[run.status] += 1
            slowest, longest = max(slowest, run.seconds), max(longest, len(octets))
            for what in departs(run, again, given):
                bad += 1
                print(f"    {command} {number} of seed {given.seed}: {what}; input {octets[:60]!r}..", flush=True)
        told = ", ".join(f"{count} with {status}" for status, count in sorted(endings.items()))
        print(f"{command}: {given.runs} runs ended {told}; at most {longest} octets and "
              f"{slowest:.2f} seconds", flush=True)
    return 1 if bad else 0


if __name__ == "__main__":
    sys.exit(main())
