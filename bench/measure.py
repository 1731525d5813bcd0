"""Runs the program on an input and measures it from outside; `receive.py` and `bundles.py` stand on it.

Only python's own library is used. Nothing here tests a time: a row is wrong where the status, the number of
lines or the last line isn't what it should be.
"""
import os
import resource
import subprocess
import sys
import tempfile

ROOT = os.path.dirname(os.path.dirname(os.path.abspath(__file__)))
PROGRAM = os.path.join(ROOT, "crates", "bundle_cli", "out", "bundle_cli")
SECONDS = 600       # of processor time, then the run is stopped and its row is wrong
COLUMNS = (f"{'case':<58}{'lines in':>10}{'lines out':>11}{'MB in':>8}{'s user':>8}{'MB/s':>8}{'lines/s':>12}"
           f"{'peak MB':>9}  status")


def program_of(words):
    """The first argument, or the program as this repository builds it."""
    path = os.path.abspath(words[0]) if words else PROGRAM
    if not os.access(path, os.X_OK):
        sys.exit(f"{path} isn't there: run ./fimdahol --build first, or name a program as the first argument")
    return path


def lines_of(path):
    """How many lines a file has, and the last of them. Most of it is never kept."""
    count, last = 0, b""
    with open(path, "rb") as file:
        for last in file:
            count += 1
    return count, last


class Wanted:
    """What a run should do. The last line is a call, so that a long one is made only when the run is over."""

    def __init__(self, status, lines, last):
        self.status, self.lines, self.last = status, lines, last


class Bench:
    """A table that is printed row by row."""

    def __init__(self, program):
        self.program, self.wrong = program, 0
        print(f"{program}, load {os.getloadavg()[0]:.1f} on {os.cpu_count()} processors")
        print(COLUMNS, flush=True)

    def row(self, name, words, write, wanted, note=""):
        """One run. `write` is called with a file for the input, and answers the count of its lines or bundles."""
        with tempfile.TemporaryDirectory() as folder:
            source, sink = os.path.join(folder, "in"), os.path.join(folder, "out")
            with open(source, "wb") as file:
                count = write(file)
            size = os.path.getsize(source)
            status, used = run(self.program, words, source, sink)
            lines, last = lines_of(sink)
        print(f"{name:<58}{count:>10,}{lines:>11,}{size / 1e6:>8.1f}{used.ru_utime:>8.2f}"
              f"{rate(size / 1e6, used.ru_utime, 1):>8}{rate(count, used.ru_utime, 0):>12}"
              f"{used.ru_maxrss / 1024:>9.1f}  {status}{note and ', ' + note}", flush=True)
        self.judge(name, wanted, status, lines, last)

    def judge(self, name, wanted, status, lines, last):
        """Says what isn't as it should be."""
        for what, is_so, should in (("status", status, wanted.status), ("count of lines", lines, wanted.lines),
                                    ("last line", last, wanted.last())):
            if is_so != should:
                self.wrong += 1
                print(f"  wrong: {name}: {what} {short(is_so)}, wanted {short(should)}", flush=True)

    def end(self):
        sys.exit(f"{self.wrong} wrong" if self.wrong else 0)


def rate(count, seconds, digits):
    """So many a second; nothing is said where the run was too short to tell."""
    return f"{count / seconds:,.{digits}f}" if seconds >= 0.02 else "-"


def short(value):
    """A value as it is printed, cut where it is long."""
    text = value.decode("ascii", "replace").rstrip("\n") if isinstance(value, bytes) else str(value)
    return text if len(text) < 80 else f"{text[:80]}.. ({len(text)} characters)"


def run(program, words, source, sink):
    """Answers the status (below 0 for a signal) and what the run used.

    The peak is that of the process, which begins as a copy of this one: less than python itself has, some 10 MB,
    can't be told. So whoever calls it keeps no large value at that time.
    """
    with open(source, "rb") as stdin, open(sink, "wb") as stdout:
        child = subprocess.Popen([program, *words], stdin=stdin, stdout=stdout, stderr=subprocess.DEVNULL,
                                 preexec_fn=lambda: resource.setrlimit(resource.RLIMIT_CPU, (SECONDS, SECONDS)))
        _, raw, used = os.wait4(child.pid, 0)
        child.returncode = os.waitstatus_to_exitcode(raw)
    return child.returncode, used
