"""Rows of what docs/examples.md shows: the examples, each with what it has to give.

What is wanted comes from the lines of docs/examples.md, from the models, from the tables that the bundles were
made of, and from the transcripts beside the scripts, and never from what the program printed.
"""
import os
import struct
import sys

from rows import ROOT, Row
import config_model
import format_model
import translate_model

EXAMPLES = os.path.join(ROOT, "examples")
sys.path.insert(0, EXAMPLES)
from make_bundles import BUNDLES_6, BUNDLES_7

FIRST = "up 1 7 616263\n"
RED_PARTS = "up 1 7 616263646566\nskip 3\nskip 4\nup 1 9 676869\n"
HEAD, RECORD, IP_AND_UDP = 24, 16, 28


def octets_in(name):
    with open(os.path.join(EXAMPLES, name), "rb") as file:
        return file.read()


def row_of(name, words, given, wanted, status=0):
    """A row of an example."""
    row = Row(name, [word.encode() for word in words])
    row.input, row.output, row.status = [given], [wanted], status
    return row


def payloads(name):
    """The payloads of a capture's datagrams, in hex, one a line."""
    capture, at = octets_in(name), HEAD
    while at < len(capture):
        size = struct.unpack_from("<I", capture, at + 8)[0]
        at += RECORD + size
        yield capture[at - size + IP_AND_UDP:at].hex() + "\n"


def received(name, wanted):
    """The row of `receive` on a capture."""
    given = "".join(payloads(name)).encode()
    return row_of(f"receive of {name}", ["receive"], given, wanted.encode())


def of_bundles(name):
    """The rows of a file of bundles."""
    octets = octets_in(name)
    for word in ("check", "show"):
        yield row_of(f"{word} of {name}", [word], octets, *format_model.answer(word, octets))
    lines, status = translate_model.answer(octets, translate_model.translated)
    text = "".join(f"{line}\n" for line in lines).encode()
    yield row_of(f"convert of {name}", ["convert"], octets, text, status)


def of_stories(word, folder):
    """The rows of the stories on a path, or on a link."""
    for name in sorted(os.listdir(os.path.join(EXAMPLES, folder))):
        story, kind = os.path.splitext(f"{folder}/{name}")
        if kind == ".script":
            given, wanted = octets_in(story + kind), octets_in(f"{story}.transcript")
            yield row_of(f"{word} of {story}", [word], given, wanted)


def of_configurations():
    """The rows of the configurations, where this Python reads TOML: each is shown as the model has it,
    and what is shown means the same."""
    for name in sorted(os.listdir(EXAMPLES)):
        if name.endswith(".toml") and config_model.tomllib:
            given = octets_in(name)
            wanted = config_model.shown(given.decode()).encode()
            words = ["gate", "check", "/dev/stdin"]
            yield row_of(f"gate check of {name}", words, given, wanted)
            yield row_of(f"gate check of what is shown of {name}", words, wanted, wanted)


def example_rows():
    """All rows of the examples."""
    yield row_of("receive of first.hex", ["receive"], octets_in("first.hex"), FIRST.encode())
    yield received("red-parts.pcap", RED_PARTS)
    ups = (f"up 1 {session} {bundle.hex()}\n"
           for session, bundle in enumerate(BUNDLES_6 + BUNDLES_7, 1))
    yield received("bundles.pcap", "".join(ups))
    yield from of_bundles("bundles-6.bin")
    yield from of_bundles("bundles-7.bin")
    yield from of_stories("world", "worlds")
    yield from of_stories("link", "links")
    yield from of_configurations()
