#!/usr/bin/env python3
"""MB/s of CRC-16 X-25 and CRC-32C over texts of 64, 1,000 and 1,048,576 octets, by crc.rt.txt.

usage: bench/crc.py [FOLDER]

The program is proved and built in the folder, one for temporary files where none is named, and run from there
where it is built already. Each time is the least of three runs in seconds of the user's processor time, less that
of a run over no text. It tests nothing.
"""
import os
import shutil
import subprocess
import sys
import tempfile

HERE = os.path.dirname(os.path.abspath(__file__))
ROOT = os.path.dirname(HERE)
NAME = "crc_bench"


def build(folder):
    """Makes a repository of its own in the folder: the checks, and the program."""
    shutil.rmtree(folder, ignore_errors=True)
    crates = os.path.join(folder, "crates")
    shutil.copytree(os.path.join(ROOT, "crates", "crc_fields"), os.path.join(crates, "crc_fields"),
                    ignore=shutil.ignore_patterns("out", "must-fail"))
    os.makedirs(os.path.join(crates, NAME, "src"))
    shutil.copy(os.path.join(HERE, "crc.rt.txt"), os.path.join(crates, NAME, "src", "main.rt"))
    shutil.copy(os.path.join(ROOT, "HANDLES"), folder)
    with open(os.path.join(folder, "crates.txt"), "w", encoding="utf-8") as file:
        file.write(f"crc_fields:\n{NAME}: crc_fields anyhow\n")
    subprocess.run(["rt", "run", "--", "32", "9", "1"], cwd=os.path.join(crates, NAME), stdin=subprocess.DEVNULL,
                   check=True)


def seconds(path, words):
    """The least user time of three runs."""
    times = []
    for _ in range(3):
        child = subprocess.Popen([path, *map(str, words)], stdout=subprocess.DEVNULL)
        _, raw, used = os.wait4(child.pid, 0)
        child.returncode = os.waitstatus_to_exitcode(raw)
        if child.returncode:
            sys.exit(f"{' '.join(map(str, words))}: status {child.returncode}")
        times.append(used.ru_utime)
    return min(times)


def main():
    if sys.argv[1:] == ["--help"]:
        print(__doc__)
        return
    named = sys.argv[1:] or [os.path.join(tempfile.gettempdir(), f"fimdahol-{NAME}")]
    folder = os.path.abspath(named[0])
    path = os.path.join(folder, "crates", NAME, "out", NAME)
    if not os.path.exists(path):
        build(folder)
    for check, name in ((16, "CRC-16 X-25"), (32, "CRC-32C")):
        for size in (64, 1000, 1 << 20):
            times = max(1, (1 << 28) // size)
            taken = seconds(path, (check, size, times)) - seconds(path, (check, size, 0))
            print(f"{name:12} {size:8} octets: {size * times / taken / 1e6:8.0f} MB/s", flush=True)


main()
