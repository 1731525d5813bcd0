#!/usr/bin/env python3
"""A slow model of the journal's file of `gate`, from the rules of docs/gate.md alone.

usage: tools/journal_model.py FILE      what the file stands for, or the place and the cause of its damage

It shares no code with the program: numbers and fields are those of ltp_model.py and format_model.py, the check is that of
crc_model.py. gate_model.py goes on from what is read here.
"""
import os
import sys
from dataclasses import dataclass, field

sys.dont_write_bytecode = True
sys.path.insert(0, os.path.dirname(os.path.abspath(__file__)))
from crc_model import crc32c
from format_model import Fields, Refused
from ltp_model import sdnv

OPENING = b"fimjrnl1"
OPEN, CLOSED = b"\1", b"\0"
HOWS = {"sent": 1, "failed": 2, "cancelled": 3}
MOST_MARKS = 1024               # of a face
AHEAD, NUMBERS = 4096, 1 << 32
MARK_AGE = 30 * 24 * 3600 * 1000


# ---- what is kept ----

@dataclass
class Kept:
    """Blocks that are pending as [face, block] by their ids, or as [face, came, block] where they have a moment; marks as
    [face, session, when]; and numbers."""

    pending: dict = field(default_factory=dict)
    marks: list = field(default_factory=list)
    reserved: list = field(default_factory=lambda: [0, 0])
    greatest: int = 0

    def apply(self, record):
        kind, *rest = record
        if kind == "begun":
            number, *piece = rest
            self.pending[number], self.greatest = piece, number
        elif kind == "done":
            del self.pending[rest[0]]
        elif kind == "mark":
            self.forget(*rest[:2])
            self.marks.append(rest)
            of_face = [mark for mark in self.marks if mark[0] == rest[0]]
            if len(of_face) > MOST_MARKS:
                self.marks.remove(of_face[0])
        elif kind == "clear":
            self.forget(*rest)
        else:
            self.reserved[rest[0]] = max(self.reserved[rest[0]], rest[1])

    def forget(self, face, session):
        self.marks = [mark for mark in self.marks if mark[:2] != [face, session]]

    def is_marked(self, face, session):
        return any(mark[:2] == [face, session] for mark in self.marks)

    def recover(self, wall, firsts):
        """At the first reading of the wall clock, where the faces' first sessions are set to these; answers the first ones."""
        firsts = [max(first, reserved) for first, reserved in zip(firsts, self.reserved)]
        self.reserved = [min(first + AHEAD, NUMBERS) for first in firsts]
        self.marks = [mark for mark in self.marks if mark[2] + MARK_AGE > wall]
        return firsts

    def file(self):
        """The octets of a file that is made anew of it."""
        records = [["reserved", 0, self.reserved[0]], ["reserved", 1, self.reserved[1]]]
        records += [["begun", number, *piece] for number, piece in self.pending.items()]
        records += [["mark", *mark] for mark in self.marks]
        return OPENING + b"".join(OPEN + spelled(each) for each in records) + CLOSED


# ---- octets ----

def spelled(record):
    """A record with its check."""
    kind, *rest = record
    if kind == "begun":
        number, face, *came, block = rest
        octets = (b"\6" if came else b"\1") + sdnv(number) + bytes([face])
        octets += b"".join(map(sdnv, came)) + sdnv(len(block)) + block
    elif kind == "done":
        octets = b"\2" + sdnv(rest[0]) + bytes([HOWS[rest[1]]])
    elif kind == "mark":
        octets = b"\3" + bytes([rest[0]]) + sdnv(rest[1]) + sdnv(rest[2])
    else:
        octets = (b"\4" if kind == "clear" else b"\5") + bytes([rest[0]]) + sdnv(rest[1])
    return octets + crc32c(octets).to_bytes(4, "big")


def behind_gate(records):
    """What is written behind a closed gate, so that opening it makes these records the next ones."""
    return OPEN.join(map(spelled, records)) + CLOSED


class Reader(Fields):
    def shortest(self):
        value = self.sdnv()
        self.must(self.octets[self.place:self.at] == sdnv(value), "Number")
        return value

    def face(self):
        face = self.octet()
        self.must(face < 2, "Face")
        return face

    def record(self, kept):
        began = self.at
        kind = self.octet()
        self.must(1 <= kind <= 6, "Kind")
        if kind in (1, 6):
            number = self.shortest()
            self.must(number > kept.greatest, "Id")
            face = self.face()
            came = [self.shortest()] if kind == 6 else []
            record = ["begun", number, face, *came, self.many(self.shortest())]
        elif kind == 2:
            number = self.shortest()
            self.must(number in kept.pending, "Id")
            how = self.octet()
            self.must(how in HOWS.values(), "How")
            record = ["done", number, next(word for word, octet in HOWS.items() if octet == how)]
        elif kind == 3:
            record = ["mark", self.face(), self.shortest(), self.shortest()]
        else:
            record = ["clear" if kind == 4 else "reserved", self.face(), self.shortest()]
        check = crc32c(self.octets[began:self.at])
        self.must(self.many(4) == check.to_bytes(4, "big"), "Crc")
        return record


def read(octets):
    """What a file stands for, and the place of its closed gate. Refused where it is damaged."""
    kept, fields = Kept(), Reader(octets)
    if not octets:
        return kept, 0
    if not octets.startswith(OPENING):
        raise Refused(0, "Start")
    fields.many(len(OPENING))
    while fields.many(1) == OPEN:
        kept.apply(fields.record(kept))
    return kept, fields.place


def main(words):
    if len(words) != 1 or words[0].startswith("-"):
        print(__doc__)
        return 0 if words == ["--help"] else 2
    with open(words[0], "rb") as file:
        octets = file.read()
    try:
        kept, gate = read(octets)
    except Refused as refusal:
        print(f"damaged at {refusal.at}: {refusal.cause}")
        return 1
    for number, (face, *came, block) in kept.pending.items():
        print(f"pending {number} {('old', 'new')[face]} {len(block)} octets", *(f"came {moment}" for moment in came))
    for face, session, when in kept.marks:
        print(f"mark {('old', 'new')[face]} {session} {when}")
    print(f"reserved {kept.reserved[0]} {kept.reserved[1]}, gate at {gate}")
    return 0


if __name__ == "__main__":
    sys.exit(main(sys.argv[1:]))
