#!/usr/bin/env python3
"""A slow model of `receive`, `check` and `show`, from the tables of the formats and nothing else.

usage: tools/format_model.py receive|check|show < INPUT

It writes what the program is to write, and ends with the status that the program is to end with: 0 done, 1 refused,
6 a limit. It shares no code with the program and was written from docs/formats*.md and docs/program.md: a field after
the other, each with its kind, its conditions and its causes. `.ci/rows` holds made inputs of all kinds against it.
"""
import json
import os
import re
import sys

sys.dont_write_bytecode = True
sys.path.insert(0, os.path.dirname(os.path.abspath(__file__)))
from crc_model import crc16, crc32c

DONE, REFUSED, USAGE, LIMIT = 0, 1, 2, 6
MOST_OCTETS = 67_108_864
MOST_LINES = 1_000_000
LONGEST_LINE = 9_000_000
MOST_SESSIONS = 64
MOST_BLOCKS = 64
BLOCK_MAX = 4_194_304


class Refused(Exception):
    """The first field that isn't there as it should be: its place, and why."""

    def __init__(self, at, cause):
        super().__init__(at, cause)
        self.at, self.cause = at, cause


# ---- fields ----

UNSIGNED, BYTES, TEXT, ARRAY = 0, 2, 3, 4


class Fields:
    """Octets, and the place of the next field in them."""

    def __init__(self, octets, at=0):
        self.octets, self.at = octets, at
        self.place = at       # of the field that was read last

    def left(self):
        return len(self.octets) - self.at

    def must(self, holds, cause):
        """A condition of the field that was read last."""
        if not holds:
            raise Refused(self.place, cause)

    def end_here(self):
        raise Refused(self.place, "Truncated")

    def many(self, count):
        """A field of so many octets."""
        self.place = self.at
        if self.left() < count:
            self.end_here()
        self.at += count
        return bytes(self.octets[self.place:self.at])

    def octet(self):
        return self.many(1)[0]

    def nothing(self):
        """A field of no octets, for a condition of its own."""
        self.place = self.at

    def sdnv(self, cause="Number"):
        """A number of RFC 5050, section 4.1: ten octets at most, and below 2^64."""
        self.place = self.at
        value = 0
        for octet in self.octets[self.at:self.at + 10]:
            self.at += 1
            value = value << 7 | octet & 127
            if octet < 128:
                self.must(value < 1 << 64, cause)
                return value
        if self.at - self.place < 10:
            self.end_here()
        raise Refused(self.place, cause)

    def head(self, kind, cause):
        """The head of a CBOR item of a kind, in its shortest form."""
        self.place = self.at
        if not self.left():
            self.end_here()
        first = self.octets[self.at]
        more = first & 31
        self.must(first >> 5 == kind and more <= 27, cause)
        self.at += 1
        if more < 24:
            return more
        size = 1 << more - 24
        if self.left() < size:
            self.end_here()
        value = int.from_bytes(self.octets[self.at:self.at + size], "big")
        self.at += size
        self.must(value >= (24 if size == 1 else 1 << 4 * size), cause)
        return value

    def unsigned(self, cause="Number"):
        return self.head(UNSIGNED, cause)


# ---- endpoints ----

def is_ssp(text):
    return 1 <= len(text) <= 1023 and text != b"none" and all(0x21 <= octet <= 0x7E for octet in text)


def decimal(text):
    """The number below 2^64 that a text without leading zeros writes, or None."""
    if not re.fullmatch(rb"0|[1-9][0-9]{0,19}", text) or int(text) >= 1 << 64:
        return None
    return int(text)


def named(scheme, ssp):
    """The endpoint of two texts, or None."""
    if scheme == b"dtn" and (ssp == b"none" or is_ssp(ssp)):
        return "dtn:" + ssp.decode()
    if scheme == b"ipn" and ssp.count(b".") == 1 and None not in map(decimal, ssp.split(b".")):
        return "ipn:" + ssp.decode()
    return None


def resolved(dictionary, first, second):
    """The endpoint of a pair of numbers of version 6, or None."""
    if not dictionary:
        return "dtn:none" if first == second == 0 else f"ipn:{first}.{second}"
    texts = []
    for offset in (first, second):
        end = dictionary.find(b"\0", offset) if offset < len(dictionary) else -1
        if end < 0:
            return None
        texts.append(dictionary[offset:end])
    return named(*texts)


# ---- version 6 ----

def pair(fields):
    first = fields.sdnv()
    return first, fields.sdnv()


def bundle6(fields):
    """A bundle of version 6 (RFC 5050, sections 4.5 and 4.6), as `show` names its values."""
    fields.must(fields.octet() == 6, "Version")
    flags = fields.sdnv()
    length = fields.sdnv()
    start = fields.at
    pairs = [pair(fields) for _ in range(4)]
    creation = list(pair(fields))
    lifetime = fields.sdnv()
    dictionary = fields.many(fields.sdnv())
    names = [resolved(dictionary, *numbers) for numbers in pairs]
    fields.must(None not in names, "Names")
    fragment = list(pair(fields)) if flags & 1 else None
    fields.nothing()
    fields.must(fields.at - start == length, "PrimaryEnd")
    blocks = []
    while not blocks or not blocks[-1].pop("last"):
        blocks.append(block6(fields, dictionary, fragment, [block["kind"] for block in blocks]))
    return {"version": 6, "flags": flags, "destination": names[0], "source": names[1], "report_to": names[2],
            "custodian": names[3], "creation": creation, "lifetime": lifetime, "fragment": fragment, "blocks": blocks}


def block6(fields, dictionary, fragment, earlier):
    kind = fields.octet()
    fields.must(kind != 1 or 1 not in earlier, "SecondPayload")
    fields.must(kind == 1 or sum(other != 1 for other in earlier) < MOST_BLOCKS, "TooManyBlocks")
    flags = fields.sdnv()
    fields.must(not flags & 8 or kind == 1 or 1 in earlier, "NoPayload")
    refs = []
    for _ in range(fields.sdnv() if flags & 64 else 0):
        refs.append(resolved(dictionary, *pair(fields)))
        fields.must(refs[-1] is not None, "BlockRefs")
    size = fields.sdnv()
    fields.must(kind != 1 or not fragment or fragment[0] + size <= fragment[1], "FragmentRange")
    return {"kind": kind, "flags": flags & ~72, "refs": refs, "body": fields.many(size).hex(), "last": flags & 8}


# ---- version 7 ----

def eid(fields):
    """An endpoint of version 7 (RFC 9171, section 4.2.5)."""
    fields.must(fields.head(ARRAY, "Eid") == 2, "Eid")
    scheme = fields.unsigned("Eid")
    fields.must(scheme in (1, 2), "Eid")
    if scheme == 2:
        fields.must(fields.head(ARRAY, "Eid") == 2, "Eid")
        node = fields.unsigned("Eid")
        return f"ipn:{node}.{fields.unsigned('Eid')}"
    if fields.left() and fields.octets[fields.at] >> 5 == TEXT:
        text = fields.many(fields.head(TEXT, "Eid"))
        fields.must(is_ssp(text), "Eid")
        return "dtn:" + text.decode()
    fields.must(fields.unsigned("Eid") == 0, "Eid")
    return "dtn:none"


def check_field(fields, start, kind):
    """The CRC of the block that begins at a place (RFC 9171, section 4.2.1)."""
    if kind == 0:
        return
    size = 2 * kind
    fields.must(fields.head(BYTES, "Crc") == size, "Crc")
    found = fields.many(size)
    text = bytes(fields.octets[start:fields.at - size]) + bytes(size)
    wanted = crc16(text) if kind == 1 else crc32c(text)
    fields.must(int.from_bytes(found, "big") == wanted, "Crc")


def is_body(kind, octets):
    """Whether a body of a previous node, an age or a hop count is exactly one."""
    fields = Fields(octets)
    try:
        if kind == 6:
            eid(fields)
        elif kind == 7:
            fields.unsigned()
        else:
            fields.must(fields.head(ARRAY, "Hop") == 2, "Hop")
            fields.must(1 <= fields.unsigned() <= 255, "Hop")
            fields.unsigned()
    except Refused:
        return False
    return fields.left() == 0


def bundle7(fields):
    """A bundle of version 7 (RFC 9171, section 4.1), as `show` names its values."""
    fields.must(fields.octet() == 0x9F, "Start")
    bundle = primary7(fields)
    blocks = []
    while not blocks or blocks[-1]["kind"] != 1:
        blocks.append(block7(fields, bundle["fragment"], blocks))
    fields.must(fields.octet() == 0xFF, "Break")
    return {**bundle, "blocks": blocks}


def primary7(fields):
    start = fields.at
    items = fields.head(ARRAY, "Head")
    fields.must(8 <= items <= 11, "Head")
    fields.must(fields.unsigned("Version") == 7, "Version")
    flags = fields.unsigned()
    check = fields.unsigned("CrcType")
    fields.must(check <= 2, "CrcType")
    fields.must(items == 8 + 2 * (flags & 1) + (check > 0), "ItemCount")
    names = [eid(fields) for _ in range(3)]
    fields.must(fields.head(ARRAY, "Timestamp") == 2, "Timestamp")
    creation = [fields.unsigned(), fields.unsigned()]
    lifetime = fields.unsigned()
    fragment = [fields.unsigned(), fields.unsigned()] if flags & 1 else None
    check_field(fields, start, check)
    return {"version": 7, "flags": flags, "crc": check, "destination": names[0], "source": names[1],
            "report_to": names[2], "creation": creation, "lifetime": lifetime, "fragment": fragment}


def block7(fields, fragment, earlier):
    start = fields.at
    items = fields.head(ARRAY, "BlockHead")
    fields.must(items in (5, 6), "BlockHead")
    kind = fields.unsigned()
    fields.must(kind == 1 or len(earlier) < MOST_BLOCKS, "TooManyBlocks")
    fields.must(kind not in (6, 7, 10) or all(block["kind"] != kind for block in earlier), "Repeated")
    number = fields.unsigned()
    fresh = number >= 2 and all(block["number"] != number for block in earlier)
    fields.must(number == 1 if kind == 1 else fresh, "BlockNumber")
    flags = fields.unsigned()
    check = fields.unsigned("CrcType")
    fields.must(check <= 2, "CrcType")
    fields.must(items == 5 + (check > 0), "ItemCount")
    size = fields.head(BYTES, "Body")
    fields.must(kind != 1 or not fragment or fragment[0] + size <= fragment[1], "FragmentRange")
    body = fields.many(size)
    fields.must(kind not in (6, 7, 10) or is_body(kind, body), "ExtensionBody")
    check_field(fields, start, check)
    return {"kind": kind, "number": number, "flags": flags, "crc": check, "body": body.hex()}


# ---- status reports ----

STATUSES = (1, 4, 8, 16)      # the bits of received, forwarded, delivered and deleted in version 6


def sdnv_octets(value):
    """The shortest spelling of a number (RFC 5050, section 4.1)."""
    octets = [value & 127]
    while value := value >> 7:
        octets.append(value & 127 | 128)
    return bytes(reversed(octets))


class Shortest(Fields):
    """Fields whose numbers stand in shortest form, all refused for one cause."""

    def __init__(self, octets, cause):
        super().__init__(octets)
        self.cause = cause

    def shortest(self, holds=lambda n: True):
        start = self.at
        value = self.sdnv(self.cause)
        self.must(self.octets[start:self.at] == sdnv_octets(value) and holds(value), self.cause)
        return value

    def name(self):
        """An endpoint as a text with its length before it."""
        text = self.many(self.shortest())
        scheme, colon, ssp = text.partition(b":")
        name = named(scheme, ssp) if colon else None
        self.must(name is not None, self.cause)
        return name


def report6(octets):
    """A status report of version 6 (RFC 5050, section 6.1.1). A status that isn't set has the time None."""
    fields = Shortest(octets, "BadAdmin")
    lead = fields.octet()
    fields.must(lead >> 4 != 2, "CustodySignal")
    fields.must(lead >> 4 == 1, "AdminUnknown")
    fields.must(lead & 15 <= 1, "BadAdmin")
    status = fields.octet()
    fields.must(not status & 2, "CustodyReport")
    fields.must(status < 32, "BadAdmin")
    reason = fields.octet()
    fragment = [fields.shortest(), fields.shortest()] if lead & 1 else None
    times = [[fields.shortest(), fields.shortest(lambda n: n < 1_000_000_000)] if status & bit else None
             for bit in STATUSES]
    creation = [fields.shortest(), fields.shortest()]
    source = fields.name()
    fields.must(fields.left() == 0, "BadAdmin")
    return {"times": times, "reason": reason, "source": source, "creation": creation, "fragment": fragment}


def stamp7(fields):
    """[false], [true] or [true, time]: False, True or the time."""
    items = fields.head(ARRAY, "BadAdmin")
    fields.must(items in (1, 2), "BadAdmin")
    said = fields.octet()
    fields.must(said == 0xF5 or said == 0xF4 and items == 1, "BadAdmin")
    return [fields.unsigned("BadAdmin")] if items == 2 else said == 0xF5


def report7(octets):
    """A status report of version 7 (RFC 9171, section 6.1)."""
    fields = Fields(octets)
    fields.must(fields.head(ARRAY, "BadAdmin") == 2, "BadAdmin")
    fields.must(fields.unsigned("BadAdmin") == 1, "AdminUnknown")
    items = fields.head(ARRAY, "BadAdmin")
    fields.must(items in (4, 6), "BadAdmin")
    fields.must(fields.head(ARRAY, "BadAdmin") == 4, "BadAdmin")
    stamps = [stamp7(fields) for _ in STATUSES]
    reason = fields.unsigned("BadAdmin")
    fields.must(reason <= 255, "BadAdmin")
    source = eid(fields)
    fields.must(fields.head(ARRAY, "BadAdmin") == 2, "BadAdmin")
    creation = [fields.unsigned("BadAdmin"), fields.unsigned("BadAdmin")]
    fragment = [fields.unsigned("BadAdmin"), fields.unsigned("BadAdmin")] if items == 6 else None
    fields.must(fields.left() == 0, "BadAdmin")
    return {"stamps": stamps, "reason": reason, "source": source, "creation": creation, "fragment": fragment}


# ---- recorded bundles ----

def bundles(word, octets):
    """What `check` and `show` answer: their lines and the status."""
    lines = []
    fields = Fields(octets[:MOST_OCTETS])
    while fields.left():
        start = fields.at
        try:
            read = {6: bundle6, 0x9F: bundle7}.get(octets[start])
            if read is None:
                raise Refused(start, "Version")
            bundle = read(fields)
        except Refused as refusal:
            if refusal.cause == "Truncated" and len(octets) > MOST_OCTETS:
                return lines, LIMIT
            return lines + [f"refused {len(lines) + 1} {refusal.at} {refusal.cause}"], REFUSED
        shown = json.dumps(bundle, sort_keys=True, separators=(",", ":"))
        lines.append(shown if word == "show" else f"{bundle['version']} {fields.at - start}")
    return lines, LIMIT if len(octets) > MOST_OCTETS else DONE


# ---- LTP ----

def extension(fields):
    fields.octet()
    fields.many(fields.sdnv())


def piece(fields, kind):
    """A piece of the block; the serials stand in checkpoints alone."""
    service, offset, length = fields.sdnv(), fields.sdnv(), fields.sdnv()
    fields.must(offset + length < 1 << 64, "Range")
    if kind in (1, 2, 3):
        fields.must(fields.sdnv() != 0, "Serial")
        fields.sdnv()
    return service, offset, fields.many(length)


def report(fields):
    fields.must(fields.sdnv() != 0, "Serial")
    fields.sdnv()
    upper, lower = fields.sdnv(), fields.sdnv()
    fields.must(lower < upper, "Bounds")
    end = 0
    for _ in range(fields.sdnv()):
        offset, length = fields.sdnv(), fields.sdnv()
        fields.must(length >= 1 and offset >= end and offset + length <= upper - lower, "Claim")
        end = offset + length


def segment(octets):
    """An LTP segment (RFC 5326, section 3): its type, its session's name, and the piece where it has one."""
    fields = Fields(octets)
    control = fields.octet()
    kind = control & 15
    fields.must(control >> 4 == 0, "Version")
    fields.must(kind not in (5, 6, 10, 11), "Kind")
    session = fields.sdnv(), fields.sdnv()
    extensions = fields.octet()
    for _ in range(extensions >> 4):
        extension(fields)
    content = None
    if kind in (0, 1, 2, 3, 4, 7):
        content = piece(fields, kind)
    elif kind == 8:
        report(fields)
    elif kind == 9:
        fields.sdnv()
    elif kind in (12, 14):
        fields.octet()
    for _ in range(extensions & 15):
        extension(fields)
    fields.nothing()
    fields.must(fields.left() == 0, "Trailing")
    return kind, session, content


class Session:
    """The cells of a red part, and its length once a piece has ended it."""

    def __init__(self):
        self.cells, self.length = {}, None

    def takes(self, offset, body, ends):
        """Whether a piece can be one of this red part; its octets fill the cells that are empty."""
        stop = offset + len(body)
        came = max(self.cells, default=-1) + 1
        if not body or stop > BLOCK_MAX or (self.length is not None and stop > self.length):
            return False
        if ends and ((self.length is not None and stop != self.length) or stop < came):
            return False
        for at, octet in enumerate(body, offset):
            self.cells.setdefault(at, octet)
        if ends:
            self.length = stop
        return True

    def whole(self):
        """The red part, or None."""
        if self.length is None or len(self.cells) < self.length:
            return None
        return bytes(self.cells[at] for at in range(self.length))


def event(number, datagram, open_sessions, handed_up):
    """The line of one datagram, or None."""
    kind, name, content = segment(datagram)
    if kind > 3 or content[0] != 1 or name in handed_up:
        return f"skip {number}"
    _, offset, body = content
    session = open_sessions.get(name) or Session()
    if not session.takes(offset, body, kind in (2, 3)):
        return f"note {number} BadBounds"
    open_sessions[name] = session
    part = session.whole()
    if part is None:
        return None
    del open_sessions[name]
    handed_up.add(name)
    return f"up {name[0]} {name[1]} {part.hex()}"


def receive(octets):
    """What `receive` answers: its lines and the status."""
    lines, open_sessions, handed_up = [], {}, set()
    passes = len(octets) > MOST_OCTETS
    texts = octets[:MOST_OCTETS].split(b"\n")
    last = texts.pop()
    if last and not passes:
        texts.append(last)
    for number, text in enumerate(texts, 1):
        if number > MOST_LINES or len(text) > LONGEST_LINE:
            return lines, LIMIT
        if len(text) % 2 or not re.fullmatch(rb"[0-9a-fA-F]*", text):
            return lines + [f"refused line {number} Hex"], REFUSED
        try:
            said = event(number, bytes.fromhex(text.decode()), open_sessions, handed_up)
        except Refused as refusal:
            return lines + [f"refused line {number} {refusal.at} {refusal.cause}"], REFUSED
        if len(open_sessions) > MOST_SESSIONS:
            return lines, LIMIT
        lines += [] if said is None else [said]
    return lines, LIMIT if passes else DONE


def answer(word, octets):
    """The octets that a command writes, and its status."""
    lines, status = receive(octets) if word == "receive" else bundles(word, octets)
    return "".join(line + "\n" for line in lines).encode(), status


def main(words):
    if len(words) != 1 or words[0] not in ("receive", "check", "show"):
        sys.stderr.write(__doc__.split("\n\n")[1] + "\n")
        return USAGE
    text, status = answer(words[0], sys.stdin.buffer.read())
    sys.stdout.buffer.write(text)
    return status


if __name__ == "__main__":
    sys.exit(main(sys.argv[1:]))
