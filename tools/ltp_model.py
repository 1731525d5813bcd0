#!/usr/bin/env python3
"""A slow model of one end of an LTP link (RFC 5326), and of the command `node` over it.

usage: tools/ltp_model.py node OWN PEER < INPUT     what `node` writes, and the status with which it ends
       tools/ltp_model.py --make COUNT SEED         as many scripts of `node`, a line of JSON for each, the same for a seed
       tools/ltp_model.py --vectors FILE            rows as JSON lines, which the model has to answer

It shares no code with the program: the rules of sessions are written down once, octet by octet and without ranges.
Segments are read by the tables of format_model.py.
"""
import json
import os
import random
import re
import sys

sys.dont_write_bytecode = True
sys.path.insert(0, os.path.dirname(os.path.abspath(__file__)))
from format_model import BLOCK_MAX, DONE, LIMIT, LONGEST_LINE, MOST_LINES, MOST_OCTETS, REFUSED, USAGE, Fields, Refused
from format_model import decimal

RED, RED_CHECKPOINT, RED_END, RED_END_BLOCK, GREEN, GREEN_END_BLOCK = 0, 1, 2, 3, 4, 7
REPORT, REPORT_ACK = 8, 9
SENDER_CANCEL, SENDER_CANCEL_ACK, RECEIVER_CANCEL, RECEIVER_CANCEL_ACK = 12, 13, 14, 15
PIECES = (RED, RED_CHECKPOINT, RED_END, RED_END_BLOCK, GREEN, GREEN_END_BLOCK)
CHECKPOINTS = (RED_CHECKPOINT, RED_END, RED_END_BLOCK)
ENDS = (RED_END, RED_END_BLOCK)

UNREACHABLE, RETRIED_TOO_OFTEN, MISCOLOURED, BY_SYSTEM = 1, 2, 3, 4
SERIALS = 1 << 32
MOST_CLAIMS = 1024
MOST_SESSIONS = 64
MOST_RUNS = 65_536
MOMENTS = 1 << 62


class Policy:
    """The size of a segment's data, the waits in milliseconds, and how often something is sent at the most."""

    def __init__(self, segment=1024, timeout=10_000, limit=10, cap=160_000):
        self.segment, self.timeout, self.limit, self.cap = segment, timeout, limit, cap

    def wait(self, sent):
        """How long to wait after so many sendings."""
        return min(self.timeout << sent - 1, self.cap)


# ---- segments ----

def sdnv(number):
    """A number in its shortest spelling."""
    octets = [number & 127]
    while number > 127:
        number >>= 7
        octets.append(number & 127 | 128)
    return bytes(reversed(octets))


def written(kind, name, *numbers, body=b""):
    """A segment without extensions: its type, its session's name, numbers and octets."""
    return bytes([kind]) + b"".join(map(sdnv, name)) + b"\0" + b"".join(map(sdnv, numbers)) + body


def read_piece(fields, kind):
    service, offset, length = fields.sdnv(), fields.sdnv(), fields.sdnv()
    fields.must(offset + length < 1 << 64, "Range")
    checkpoint = fields.sdnv() if kind in CHECKPOINTS else 0
    fields.must(kind not in CHECKPOINTS or checkpoint != 0, "Serial")
    if kind in CHECKPOINTS:
        fields.sdnv()
    return {"service": service, "offset": offset, "checkpoint": checkpoint, "body": fields.many(length)}


def read_report(fields):
    serial = fields.sdnv()
    fields.must(serial != 0, "Serial")
    checkpoint, upper = fields.sdnv(), fields.sdnv()
    lower = fields.sdnv()
    fields.must(lower < upper, "Bounds")
    claims, end = [], 0
    for _ in range(fields.sdnv()):
        offset, length = fields.sdnv(), fields.sdnv()
        fields.must(length >= 1 and offset >= end and offset + length <= upper - lower, "Claim")
        end = offset + length
        claims.append((lower + offset, lower + end))
    return {"serial": serial, "checkpoint": checkpoint, "upper": upper, "claims": claims}


def pass_extensions(fields, count):
    for _ in range(count):
        fields.octet()
        fields.many(fields.sdnv())


def read_segment(octets):
    """A segment's type, its session's name, and its content."""
    fields = Fields(octets)
    control = fields.octet()
    kind = control & 15
    fields.must(control >> 4 == 0, "Version")
    fields.must(kind not in (5, 6, 10, 11), "Kind")
    name = fields.sdnv(), fields.sdnv()
    extensions = fields.octet()
    pass_extensions(fields, extensions >> 4)
    content = None
    if kind in PIECES:
        content = read_piece(fields, kind)
    elif kind == REPORT:
        content = read_report(fields)
    elif kind == REPORT_ACK:
        content = fields.sdnv()
    elif kind in (SENDER_CANCEL, RECEIVER_CANCEL):
        content = fields.octet()
    pass_extensions(fields, extensions & 15)
    fields.nothing()
    fields.must(fields.left() == 0, "Trailing")
    return kind, name, content


# ---- one session ----

class Effects:
    """What a call brings about: datagrams, red parts, green pieces and notes, each as the words of a line."""

    def __init__(self):
        self.out, self.ups, self.greens, self.notes, self.refused = [], [], [], [], []

    def lines(self):
        kinds = ("out", self.out), ("up", self.ups), ("green", self.greens), ("note", self.notes)
        for word, entries in (*kinds, ("refused", self.refused)):
            for entry in entries:
                yield " ".join([word, *(part.hex() if isinstance(part, bytes) else str(part) for part in entry)])


class Session:
    """What both ends have: a name, a timer for what was sent last, and how it is given up."""

    cancel = None       # the type of the cancel that this end sends

    def __init__(self, name, policy):
        self.name, self.policy = name, policy
        self.waiting = None       # the datagram that waits for an answer
        self.sent, self.deadline = 0, None
        self.cancelling = self.over = False

    def send_waiting(self, datagram, now, effects):
        """Sends for the first time what waits for an answer."""
        self.waiting, self.sent = datagram, 0
        self.send_again(now, effects)

    def send_again(self, now, effects):
        self.sent += 1
        self.deadline = now + self.policy.wait(self.sent)
        effects.out.append([self.waiting])

    def wait_no_more(self):
        self.waiting = self.deadline = None

    def fail(self, reason, now, effects):
        """Cancelling begins."""
        self.cancelling = True
        self.send_waiting(written(self.cancel, self.name, body=bytes([reason])), now, effects)
        effects.notes.append(["Failed", self.name[1], reason])

    def finish(self):
        self.over = True
        self.wait_no_more()

    def tick(self, now, effects):
        if self.deadline is None or self.deadline > now:
            return
        if self.sent < self.policy.limit:
            self.send_again(now, effects)
        elif self.cancelling or self.may_end():
            self.finish()
        else:
            self.fail(RETRIED_TOO_OFTEN, now, effects)

    def cancel_acknowledged(self):
        if self.cancelling:
            self.finish()

    def first_serial(self):
        return 1 + self.name[1] % 16_383


class Sender(Session):
    """A session that sends a block (RFC 5326, section 8.1)."""

    cancel = SENDER_CANCEL

    def __init__(self, name, block, red, now, policy, effects):
        super().__init__(name, policy)
        self.block, self.red = block, red
        self.claimed = [False] * red
        size = policy.segment
        self.segments = [(at, min(at + size, red)) for at in range(0, red, size)]
        for segment in self.segments[:-1]:
            effects.out.append([self.piece(RED, segment)])
        if self.segments:
            self.checkpoint = self.first_serial()
            self.send_waiting(self.piece(self.end_kind(), self.segments[-1], self.checkpoint, 0), now, effects)
        for at in range(red, len(block), size):
            stop = min(at + size, len(block))
            kind = GREEN_END_BLOCK if stop == len(block) else GREEN
            effects.out.append([self.piece(kind, (at, stop))])
        if red == 0:
            self.finish()
            effects.notes.append(["Sent", name[1]])

    def end_kind(self):
        return RED_END_BLOCK if self.red == len(self.block) else RED_END

    def piece(self, kind, segment, *serials):
        at, stop = segment
        return written(kind, self.name, 1, at, stop - at, *serials, body=self.block[at:stop])

    def may_end(self):
        return False

    def report(self, report, now, effects):
        if report["upper"] > self.red:
            effects.notes.append(["BadBounds", self.name[1]])
            return
        effects.out.append([written(REPORT_ACK, self.name, report["serial"])])
        if self.cancelling:
            return
        for start, stop in report["claims"]:
            self.claim(start, stop)
        if self.is_claimed(0, self.red):
            self.finish()
            effects.notes.append(["Sent", self.name[1]])
        elif report["checkpoint"] == self.checkpoint:
            self.send_unclaimed(report["serial"], now, effects)

    def claim(self, start, stop):
        self.claimed[start:stop] = [True] * (stop - start)

    def is_claimed(self, start, stop):
        return all(self.claimed[start:stop])

    def send_unclaimed(self, report, now, effects):
        """Sends each segment with an octet that isn't claimed, the last of them as the new checkpoint."""
        if self.checkpoint + 1 == SERIALS:
            self.fail(BY_SYSTEM, now, effects)
            return
        *others, last = [(at, stop) for at, stop in self.segments if not self.is_claimed(at, stop)]
        for segment in others:
            effects.out.append([self.piece(RED, segment)])
        self.checkpoint += 1
        kind = self.end_kind() if last == self.segments[-1] else RED_CHECKPOINT
        self.send_waiting(self.piece(kind, last, self.checkpoint, report), now, effects)

    def cancelled(self, reason, effects):
        effects.out.append([written(RECEIVER_CANCEL_ACK, self.name)])
        self.finish()
        effects.notes.append(["Cancelled", self.name[1], reason])


def runs(places):
    """The maximal runs of a sorted list of numbers."""
    found = []
    for place in places:
        if found and found[-1][1] == place:
            found[-1][1] = place + 1
        else:
            found.append([place, place + 1])
    return found


class Receiver(Session):
    """A session that receives a block (RFC 5326, section 8.2)."""

    cancel = RECEIVER_CANCEL

    def __init__(self, name, policy):
        super().__init__(name, policy)
        self.cells, self.length, self.lowest_green, self.handed_up = {}, None, None, False
        self.came = 0             # the end of the red data that came
        self.serial = self.first_serial()
        self.pending = None       # the serial of the report that waits, and whether it is whole

    def may_end(self):
        return self.handed_up

    def is_out_of_bounds(self, kind, stop):
        """Whether a red piece can't be one of the red part that is known so far."""
        if self.length is not None and stop > self.length:
            return True
        return kind in ENDS and (stop < self.came or self.length not in (None, stop))

    def is_miscoloured(self, is_green, offset, stop):
        if is_green:
            return offset < self.came or (self.length is not None and offset < self.length)
        return self.lowest_green is not None and stop > self.lowest_green

    def piece(self, kind, piece, now, effects):
        """Takes a piece; whether it was taken."""
        offset, body = piece["offset"], piece["body"]
        stop, is_green = offset + len(body), kind in (GREEN, GREEN_END_BLOCK)
        if not is_green and self.is_out_of_bounds(kind, stop):
            effects.notes.append(["BadBounds", self.name[1]])
            return False
        if self.is_miscoloured(is_green, offset, stop):
            self.pending = None
            self.fail(MISCOLOURED, now, effects)
        elif is_green:
            self.lowest_green = min(offset, offset if self.lowest_green is None else self.lowest_green)
            effects.greens.append([self.name[1], offset, int(kind == GREEN_END_BLOCK), body])
        else:
            self.red(kind, piece, stop, now, effects)
        return True

    def red(self, kind, piece, stop, now, effects):
        self.fill(piece["offset"], piece["body"])
        self.came = max(self.came, stop)
        if kind in ENDS:
            self.length = stop
        if kind in CHECKPOINTS:
            self.send_report(piece["checkpoint"], stop, now, effects)
        if self.length is not None and not self.handed_up and self.filled() == self.length:
            self.handed_up = True
            effects.ups.append([self.name[1], self.front(self.length)])

    def fill(self, offset, body):
        """Fills the empty cells."""
        for at, octet in enumerate(body, offset):
            self.cells.setdefault(at, octet)

    def filled(self):
        return len(self.cells)

    def front(self, stop):
        return bytes(self.cells[at] for at in range(stop))

    def claims_below(self, upper):
        return runs(at for at in sorted(self.cells) if at < upper)

    def send_report(self, checkpoint, stop, now, effects):
        if self.serial == SERIALS:
            self.pending = None
            self.fail(BY_SYSTEM, now, effects)
            return
        upper = stop if self.length is None else self.length
        claims = self.claims_below(upper)
        if len(claims) > MOST_CLAIMS:
            del claims[MOST_CLAIMS:]
            upper = claims[-1][1]
        numbers = [number for start, end in claims for number in (start, end - start)]
        datagram = written(REPORT, self.name, self.serial, checkpoint, upper, 0, len(claims), *numbers)
        self.pending = self.serial, self.length is not None and claims == [[0, self.length]]
        self.serial += 1
        self.send_waiting(datagram, now, effects)

    def acknowledged(self, serial):
        if self.pending is None or self.pending[0] != serial:
            return
        is_whole, self.pending = self.pending[1], None
        self.wait_no_more()
        if is_whole:
            self.finish()


# ---- all sessions of one end ----

class Engine:
    """One end of a link: sessions that it sends, by number, and those that it receives, the longest untouched first."""

    sending, receiving, read, numbers = Sender, Receiver, staticmethod(read_segment), SERIALS

    def __init__(self, own, peer, first=1, policy=None, sessions=MOST_SESSIONS):
        self.own, self.peer, self.first, self.next = own, peer, first, first
        self.policy, self.sessions = policy or Policy(), sessions
        self.senders, self.receivers, self.closed = {}, {}, set()
        self.closed_runs = 0      # of consecutive closed numbers

    def submit(self, block, red, now):
        effects = Effects()
        tests = ((not block, "Empty"), (len(block) > BLOCK_MAX, "TooLarge"), (self.next >= self.numbers, "NumbersSpent"),
                 (len(self.senders) >= self.sessions, "Busy"))
        for holds, cause in tests:
            if holds:
                effects.refused.append([cause])
                return effects
        session = self.sending((self.own, self.next), block, red, now, self.policy, effects)
        if not session.over:
            self.senders[self.next] = session
        self.next += 1
        return effects

    def arrive(self, datagram, now):
        effects = Effects()
        try:
            kind, name, content = self.read(datagram)
        except Refused as refusal:
            effects.notes.append(["BadSegment", refusal.at, refusal.cause])
            return effects
        if name[0] == self.own and kind in (REPORT, SENDER_CANCEL_ACK, RECEIVER_CANCEL) and self.is_used(name[1]):
            self.to_sender(kind, name, content, now, effects)
        elif name[0] == self.peer and kind in (*PIECES, REPORT_ACK, SENDER_CANCEL, RECEIVER_CANCEL_ACK):
            self.to_receiver(kind, name, content, now, effects)
        else:
            effects.notes.append(["Stranger"])
        return effects

    def is_used(self, number):
        """Whether a number is that of a session of its own, be it over or not."""
        return self.first <= number < self.next

    def to_sender(self, kind, name, content, now, effects):
        session = self.senders.get(name[1])
        if session is None:
            if kind == REPORT:
                effects.out.append([written(REPORT_ACK, name, content["serial"])])
            elif kind == RECEIVER_CANCEL:
                effects.out.append([written(RECEIVER_CANCEL_ACK, name)])
            return
        if kind == REPORT:
            session.report(content, now, effects)
        elif kind == RECEIVER_CANCEL:
            session.cancelled(content, effects)
        else:
            session.cancel_acknowledged()
        self.drop_ended()

    def to_receiver(self, kind, name, content, now, effects):
        session = self.receivers.get(name[1])
        if kind in PIECES:
            self.piece(kind, name, content, now, effects)
        elif kind == SENDER_CANCEL:
            effects.out.append([written(SENDER_CANCEL_ACK, name)])
            if session is not None:
                session.finish()
                effects.notes.append(["Cancelled", name[1], content])
        elif session is not None and kind == REPORT_ACK:
            self.touch(name[1])
            session.acknowledged(content)
        elif session is not None:
            session.cancel_acknowledged()
        self.drop_ended()

    def piece(self, kind, name, piece, now, effects):
        session, number = self.receivers.get(name[1]), name[1]
        is_green, stop = kind in (GREEN, GREEN_END_BLOCK), piece["offset"] + len(piece["body"])
        if piece["service"] != 1:
            effects.out.append([written(RECEIVER_CANCEL, name, body=bytes([UNREACHABLE]))])
            effects.notes.append(["Refused", number, piece["service"]])
        elif not piece["body"] or stop > BLOCK_MAX:
            effects.notes.append(["BadBounds", number])
        elif is_green and session is None:
            effects.greens.append([number, piece["offset"], int(kind == GREEN_END_BLOCK), piece["body"]])
        elif session is not None and session.cancelling or self.is_closed(number, effects):
            effects.notes.append(["Closed", number])
        elif session is None and self.is_full():
            effects.notes.append(["HistoryFull", number])
        else:
            if session is None:
                session = self.open(name, effects)
            if session.piece(kind, piece, now, effects):
                self.touch(number)

    def is_closed(self, number, effects):
        """Whether a session of the peer's is over, of which a red piece came."""
        return number in self.closed

    def is_full(self):
        return len(self.receivers) + self.closed_runs >= MOST_RUNS

    def open(self, name, effects):
        """A new session, for which the longest untouched one is closed where as many are kept as may be."""
        if len(self.receivers) >= self.sessions:
            eldest = next(iter(self.receivers))
            self.close(eldest)
            effects.notes.append(["Evicted", eldest])
        self.receivers[name[1]] = self.receiving(name, self.policy)
        return self.receivers[name[1]]

    def touch(self, number):
        self.receivers[number] = self.receivers.pop(number)

    def close(self, number):
        del self.receivers[number]
        self.closed_runs += 1 - (number - 1 in self.closed) - (number + 1 in self.closed)
        self.closed.add(number)

    def drop_ended(self):
        self.senders = {number: session for number, session in self.senders.items() if not session.over}
        for number in [number for number, session in self.receivers.items() if session.over]:
            self.close(number)

    def tick(self, now):
        effects = Effects()
        for sessions in (self.senders, self.receivers):
            for number in sorted(sessions):
                sessions[number].tick(now, effects)
        self.drop_ended()
        return effects

    def next_deadline(self):
        sessions = [*self.senders.values(), *self.receivers.values()]
        return min((session.deadline for session in sessions if session.deadline is not None), default=None)


# ---- node ----

class BadLine(Exception):
    """Why a line is refused."""


class PastLimit(Exception):
    """A line's event passes a limit."""


def octets_of(text):
    if len(text) % 2 or not re.fullmatch(rb"[0-9a-fA-F]*", text):
        raise BadLine("Hex")
    return bytes.fromhex(text.decode())


class Node:
    """What `node` keeps: an engine, and a clock that never goes back."""

    def __init__(self, own, peer):
        self.engine, self.now = Engine(own, peer), 0

    def event(self, line):
        """The effects of a line."""
        words = line.split(b" ")
        if words[0] == b"in" and len(words) == 2:
            return self.engine.arrive(octets_of(words[1]), self.now)
        if words[0] == b"send" and len(words) <= 2:
            block = octets_of(words[1] if len(words) == 2 else b"")
            return self.engine.submit(block, len(block), self.now)
        if words[0] == b"clock" and len(words) == 2:
            moment = decimal(words[1])
            if moment is None:
                raise BadLine("Number")
            if moment >= MOMENTS:
                raise PastLimit()
            self.now = max(self.now, moment)
            return self.engine.tick(self.now)
        raise BadLine("Word")


def node(own, peer, octets):
    """What `node` answers: its lines and the status."""
    state, lines = Node(own, peer), []
    passes = len(octets) > MOST_OCTETS
    texts = octets[:MOST_OCTETS].split(b"\n")
    last = texts.pop()
    if last and not passes:
        texts.append(last)
    for number, text in enumerate(texts, 1):
        if number > MOST_LINES or len(text) > LONGEST_LINE:
            return lines, LIMIT
        try:
            lines += state.event(text).lines()
        except BadLine as fault:
            return [*lines, f"refused line {number} {fault}"], REFUSED
        except PastLimit:
            return lines, LIMIT
    return lines, LIMIT if passes else DONE


# ---- made scripts ----

def made_piece(draw, name):
    """A piece of a small block, mostly a good one."""
    kind = draw.choice((RED, RED, RED_CHECKPOINT, RED_END, RED_END_BLOCK, GREEN, GREEN_END_BLOCK))
    at, size = draw.randrange(12), draw.randrange(1, 9)
    if draw.random() < 0.05:
        at = draw.choice((BLOCK_MAX - size, BLOCK_MAX - size + 1, BLOCK_MAX))
    serials = [draw.randrange(1, 9), draw.randrange(3)] if kind in CHECKPOINTS else []
    service = 1 if draw.random() < 0.97 else draw.randrange(4)
    return written(kind, name, service, at, size, *serials, body=bytes(range(at % 200, at % 200 + size)))


def made_report(draw, name, checkpoint, length):
    """A report on a session of so many octets, mostly a good one."""
    upper = length if draw.random() < 0.7 else draw.randrange(1, length + 3)
    claims, at = [], 0
    while at < upper and draw.random() < 0.8:
        start = at + draw.choice((0, 0, 1, 300))
        stop = min(start + draw.choice((1, 5, 512, 5000)), upper)
        if start < stop:
            claims += [start - at if not claims else start, stop - start]
        at = stop + 1
    return written(REPORT, name, draw.randrange(1, 9), checkpoint, upper, 0, len(claims) // 2, *claims)


def made_datagram(draw, own, peer, engine, came):
    """A datagram for an engine: an answer to what it sent, a piece of its peer, a repeat, or anything."""
    what = draw.random()
    mine, theirs = (own, draw.randrange(1, engine.next + 2)), (peer, draw.randrange(1, 6))
    if what < 0.35:
        return made_piece(draw, theirs)
    if what < 0.55 and engine.senders:
        number, session = draw.choice(sorted(engine.senders.items()))
        checkpoint = session.checkpoint if draw.random() < 0.8 else draw.randrange(9)
        return made_report(draw, (own, number), checkpoint, session.red)
    if what < 0.7:
        pending = [(name, one.pending[0]) for name, one in engine.receivers.items() if one.pending]
        number, serial = draw.choice(pending or [(theirs[1], draw.randrange(1, 9))])
        return written(REPORT_ACK, (peer, number), serial)
    if what < 0.8:
        kind = draw.choice((SENDER_CANCEL, RECEIVER_CANCEL))
        return written(kind, theirs if kind == SENDER_CANCEL else mine, body=bytes([draw.randrange(6)]))
    if what < 0.86:
        kind = draw.choice((SENDER_CANCEL_ACK, RECEIVER_CANCEL_ACK))
        return written(kind, mine if kind == SENDER_CANCEL_ACK else theirs)
    if what < 0.93 and came:
        return draw.choice(came)
    octets = bytearray(made_piece(draw, draw.choice((mine, theirs, (3, 1)))))
    octets[draw.randrange(len(octets))] = draw.randrange(256)
    return bytes(octets[:draw.randrange(len(octets) + 1)])


def made_line(draw, own, peer, state, came):
    what = draw.random()
    if what < 0.12:
        size = draw.choice((0, 1, 3, 1024, 1025, 2600))
        return "send " + bytes(draw.randrange(256) for _ in range(size)).hex()
    if what < 0.3:
        due = state.engine.next_deadline()
        moments = [state.now + draw.randrange(20_000)] + ([due - 1, due, due] if due else [])
        return f"clock {draw.choice(moments)}"
    if what < 0.305:
        return draw.choice(("clock", "clock 007", "in 0", "in zz", "", "send old 61", f"clock {1 << 62}", "in  61"))
    came.append(made_datagram(draw, own, peer, state.engine, came))
    return "in " + came[-1].hex()


def made(seed, count):
    """Scripts of `node`: the two numbers, and the octets of the input."""
    draw = random.Random(seed)
    for _ in range(count):
        own, peer = draw.choice(((1, 2), (2, 1), (4_294_967_295, 7)))
        state, came, lines = Node(own, peer), [], []
        for _ in range(draw.randrange(1, 60)):
            lines.append(made_line(draw, own, peer, state, came))
            try:
                state.event(lines[-1].encode())
            except (BadLine, PastLimit):
                break
        yield own, peer, ("\n".join(lines) + draw.choice(("\n", ""))).encode()


# ---- the tool ----

def answer(own, peer, octets):
    """The octets that `node` writes, and its status."""
    lines, status = node(own, peer, octets)
    return "".join(line + "\n" for line in lines).encode(), status


def vectors(path):
    passed = failed = 0
    with open(path, encoding="ascii") as file:
        for number, line in enumerate(file, 1):
            row = json.loads(line)
            octets = bytes.fromhex(row["input_hex"]) if "input_hex" in row else row["input"].encode()
            got = answer(int(row["words"][1]), int(row["words"][2]), octets)
            is_right = got == (row["output"].encode(), row["status"])
            passed += is_right
            failed += not is_right
            if not is_right:
                print(f"{path}:{number} departs")
    print(f"{passed} passed, {failed} failed")
    return int(failed > 0)


def main(words):
    if words[:1] == ["--vectors"] and len(words) == 2:
        return vectors(words[1])
    if words[:1] == ["--make"] and len(words) == 3:
        for own, peer, octets in made(int(words[2]), int(words[1])):
            text, status = answer(own, peer, octets)
            row = {"words": ["node", str(own), str(peer)], "input": octets.decode(), "status": status,
                   "output": text.decode()}
            print(json.dumps(row))
        return DONE
    numbers = [decimal(word.encode()) for word in words[1:]]
    if words[:1] != ["node"] or len(numbers) != 2 or None in numbers or numbers[0] == numbers[1]:
        sys.stderr.write(__doc__.split("\n\n")[1] + "\n")
        return USAGE
    text, status = answer(*numbers, sys.stdin.buffer.read())
    sys.stdout.buffer.write(text)
    return status


if __name__ == "__main__":
    sys.exit(main(sys.argv[1:]))
