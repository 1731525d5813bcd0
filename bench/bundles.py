#!/usr/bin/env python3
"""How fast `check`, `show` and `convert` read bundles that stand end to end, and how much memory they take.

usage: bench/bundles.py [PROGRAM]    the program as this repository builds it, where none is named

Each input but the last two is some 60 MB of one bundle again and again; the commands take 67,108,864 octets. Seconds
are the processor's for the program alone. A row's lines in are its bundles. What hex alone takes is told by basenc
(coreutils) on the same octets, where it is installed; what `convert` is to write is told by tools/translate_model.py.
"""
import json
import os
import shutil
import sys

sys.dont_write_bytecode = True
from measure import ROOT, Bench, Wanted, program_of

sys.path.insert(0, os.path.join(ROOT, "examples"))
sys.path.insert(0, os.path.join(ROOT, "tools"))
import translate_model
from make_bundles import NOBODY, block6, block7, bundle6, bundle7, counted, ipn

SIZE = 60_000_000


def new(payload, check):
    """From ipn:1.1 to ipn:2.1, with CRC-16 on the primary block and the check named on the payload block."""
    return bundle7(0, 1, [ipn(2, 1), ipn(1, 1), NOBODY], (1_000_005, 0), 59_995, [block7(1, 1, 0, check, payload)])


def old(payload):
    """From ipn:1.1 to ipn:2.1, without a dictionary."""
    return bundle6(0x90, [2, 1, 1, 1, 0, 0, 0, 0], (1000, 5), 60, [block6(1, 8, payload)])


def rich(dictionary, names, places):
    """A block with so many references, all of the scheme at place 0, and a payload behind it."""
    pairs = [number for place in places for number in (0, place)]
    return bundle6(0x90, names, (1000, 5), 60, [block6(32, 0, b"abc", pairs), block6(1, 8, b"abc")], dictionary)


def many_references(count, size):
    """References to texts of 19 octets that differ, backwards from the end of a dictionary of that many octets."""
    texts = b"".join(b"//n%06d/%09d\0" % (at, at) for at in range(size // 20))
    dictionary = b"dtn\0none\0" + texts
    places = [len(dictionary) - 20 * (1 + at % (size // 20)) for at in range(count)]
    return rich(dictionary, [0, places[0], 0, places[1], 0, 4, 0, 4], places)


def one_long_name(count):
    """References to one text of 1,023 octets, the longest there is, each spelled in two octets."""
    return rich(b"dtn\0//a/" + b"x" * 1019 + b"\0", [0, 4] * 4, [4] * count)


def shown(**members):
    """What `show` says of a bundle with these members beside those that all have here."""
    text = {"destination": "ipn:2.1", "fragment": None, "report_to": "dtn:none", "source": "ipn:1.1", **members}
    return json.dumps(text, separators=(",", ":"), sort_keys=True).encode() + b"\n"


def shown_old(payload):
    """What it says of `old`."""
    block = {"body": payload.hex(), "flags": 0, "kind": 1, "refs": []}
    return shown(blocks=[block], creation=[1000, 5], custodian="dtn:none", flags=0x90, lifetime=60, version=6)


def shown_new(payload, check):
    """What it says of `new`."""
    block = {"body": payload.hex(), "crc": check, "flags": 0, "kind": 1, "number": 1}
    return shown(blocks=[block], crc=1, creation=[1_000_005, 0], flags=0, lifetime=59_995, version=7)


def translated(bundle):
    """What `convert` writes of a bundle."""
    lines, _ = translate_model.answer(bundle, translate_model.translated)
    return lines[0].encode() + b"\n"


def main():
    bench = Bench(program_of(sys.argv[1:]))

    def row(name, word, bundle, line, times=None):
        times = times or SIZE // len(bundle)

        def write(file):
            for _ in range(times):
                file.write(bundle)
            return times
        bench.row(name, [word], write, Wanted(0, times, lambda: line))

    def check(name, version, bundle, times=None):
        row(f"check, version {version}, {name}", "check", bundle, b"%d %d\n" % (version, len(bundle)), times)

    for size in (1000, 3):
        check(f"payloads of {size:,} octets", 6, old(counted(size)))
    for size in (1000, 3):
        row(f"show, version 6, payloads of {size:,} octets", "show", old(counted(size)), shown_old(counted(size)))
    row("show, version 7, payloads of 3 octets, no check", "show", new(counted(3), 0), shown_new(counted(3), 0))
    for size in (3, 1000):
        for kind in range(3):
            check(f"payloads of {size:,} octets, CRC type {kind}", 7, new(counted(size), kind))
    for size in (3, 1000, 65_536):
        for version, bundle in ((6, old(counted(size))), (7, new(counted(size), 2))):
            row(f"convert, version {version}, payloads of {size:,} octets", "convert", bundle, translated(bundle))
    check("100,000 references, dictionary of 1 MB", 6, many_references(100_000, 1_000_000), 1)
    check("100,000 references to 1,023 octets", 6, one_long_name(100_000), 1)
    if shutil.which("basenc"):
        hex_alone(bench, old(counted(1000)))
    bench.end()


def hex_alone(bench, bundle):
    """The same octets in hex by another program: what `convert` can't be faster than."""
    bench.program = shutil.which("basenc")
    times = SIZE // len(bundle)

    def write(file):
        for _ in range(times):
            file.write(bundle)
        return times
    width = 2 * len(bundle)
    bench.row("basenc --base16, bundles of 1,000 octets", ["--base16", "-w", str(width)], write,
              Wanted(0, times, lambda: bundle.hex().upper().encode() + b"\n"))


if __name__ == "__main__":
    main()
