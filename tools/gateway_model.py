#!/usr/bin/env python3
"""A slow model of the gateway between the bundle versions, and of the commands `world`, `make` and `serve` over it.

usage: tools/gateway_model.py world < SCRIPT      what `world` writes, and the status with which it ends
       tools/gateway_model.py make SEED COUNT     what `make` writes, and its status
       tools/gateway_model.py serve GATE OLD_BIND OLD_PEER NEW_BIND NEW_PEER TURNS
                                                  serves over UDP, as slowly as the model, and writes what `serve` does
       tools/gateway_model.py --check             runs that have known answers, `serve` among them over links in memory
       tools/gateway_model.py --vectors FILE      rows as JSON lines, which the model has to answer

It shares no code with the program. A gateway is two ends of LTP, one for each face; what one hands up goes through the
cases in their order, and leaves on the other face as the pieces of its passage. Segments and sessions are those of
ltp_model.py, bundles and their translation those of format_model.py and translate_model.py, pieces and joins those of
fragment_model.py.
"""
import json
import os
import select
import socket
import sys
import time

sys.dont_write_bytecode = True
sys.path.insert(0, os.path.dirname(os.path.abspath(__file__)))
sys.path.insert(0, os.path.join(os.path.dirname(os.path.dirname(os.path.abspath(__file__))), "examples"))
import format_model
import ltp_model
from format_model import BLOCK_MAX, DONE, LIMIT, LONGEST_LINE, MOST_LINES, MOST_OCTETS, REFUSED, USAGE, Fields, Refused
from format_model import decimal, named
from fragment_model import Joiner, pieces
from ltp_model import MOMENTS, MOST_SESSIONS, SERIALS, BadLine, Engine, PastLimit, Policy, octets_of
from make_bundles import NOBODY, block6, block7, bundle6, bundle7, ipn, numbers
from translate_model import NONE, NO_RESTS, Untranslated, body6, body7, canonical6, octets7, record, singleton, view6
from translate_model import translated, view7

WRITE_FAULT = 4
UNBOUND = 5                     # the status where a socket can't be bound, or its peer's address can't be used
OLD, NEW = "g.o", "g.n"         # the faces of the gateway
ENDS = {OLD: "o", NEW: "n"}     # the node that a face speaks to
OTHER = {OLD: NEW, NEW: OLD}
VERSION = {OLD: 6, NEW: 7, "o": 6, "n": 7}
NUMBERS = {"o": (1, 2), OLD: (2, 1), NEW: (3, 4), "n": (4, 3)}      # an engine's own number, and its peer's
PREVIOUS_NODE, HOP_COUNT = 6, 10
ADMINISTRATIVE, TIME_WANTED = 2, 64                                 # flags of a bundle
RECEPTION, FORWARDING, DELETION = 1 << 14, 1 << 16, 1 << 18
EXPIRED, DEPLETED_STORAGE, HOP_LIMIT_EXCEEDED = 1, 4, 9             # reasons of a report
MOST_REPORTS = 1 << 32
LEAST_NOW = 1000                # before it a report has no name in version 7
WORLD_OCTETS = 268_435_456      # of datagrams that a world keeps
SERVED = Policy(1024, 10_000, 10, 160_000), 65_536


# ---- bundles at the gate ----

def bundle_of(octets, version):
    """The bundle that octets are exactly, or a refusal."""
    fields = Fields(octets)
    bundle = (format_model.bundle6 if version == 6 else format_model.bundle7)(fields)
    fields.nothing()
    fields.must(fields.left() == 0, "Trailing")
    return bundle


def octets_in(full, version):
    """The octets of a record in a version."""
    return canonical6(view6(full)) if version == 6 else octets7(view7(full))


def hop_of(full):
    """The limit and the count of the record's hop count, or None."""
    for version, block in full["exts"]:
        if (version, block["kind"]) == (7, HOP_COUNT):
            fields = Fields(bytes.fromhex(block["body"]), 1)
            return fields.unsigned(), fields.unsigned()
    return None


def passage(full):
    """The record with its hop count raised by one and without its previous node."""
    hop, exts, kept = hop_of(full), [], []
    for version, block in full["exts"]:
        kept.append((version, block["kind"]) != (7, PREVIOUS_NODE))
        if (version, block["kind"]) == (7, HOP_COUNT):
            body = numbers(hop[0], hop[1] + 1)
            block = {**block, "body": body.hex()}
        if kept[-1]:
            exts.append((version, block))
    behind = len(kept) - full["extra6"]["after"]
    return {**full, "exts": exts, "extra6": {**full["extra6"], "after": sum(kept[behind:])}}


def passed_pieces(full, cut):
    """The pieces of a record's passage; it is kept whole where it may not be cut."""
    passed = passage(full)
    try:
        return pieces(passed, cut)
    except Untranslated:
        return [passed]


class Case:
    """What becomes of a block that a face hands up: the note, and why a report says so."""

    def __init__(self, note, bundle=None, reason=0, out=()):
        self.note, self.bundle, self.reason, self.out = list(note), bundle, reason, list(out)

    def statuses(self):
        """Received, forwarded, delivered and deleted, as the bundle asks for them."""
        if self.bundle is None or self.bundle["flags"] & ADMINISTRATIVE or self.bundle["report_to"] == NONE:
            return [False] * 4
        flags, is_passed = self.bundle["flags"], self.note[0] == "Passed"
        return [bool(flags & RECEPTION), is_passed and bool(flags & FORWARDING), False,
                not is_passed and bool(flags & DELETION)]


def case_of(octets, version, now, room, numbers_left, cut):
    """The first of the cases that holds; the other face has room for so many sessions, and so many numbers for them."""
    try:
        bundle = bundle_of(octets, version)
    except Refused as refusal:
        return Case(["BadBundle", refusal.at, refusal.cause])
    try:
        full = record(bundle)
        if full["shared"]["expiry"] < now:
            return Case(["Expired"], bundle, EXPIRED)
        hop = hop_of(full)
        if hop and hop[1] + 1 > hop[0]:
            return Case(["HopLimit"], bundle, HOP_LIMIT_EXCEEDED)
        out = [octets_in(piece, 13 - version) for piece in passed_pieces(full, cut)]
    except Untranslated as refusal:
        return Case(["Untranslated", refusal], bundle)
    if len(out) > min(room, numbers_left) or any(len(piece) > BLOCK_MAX for piece in out):
        return Case(["Storage"], bundle, DEPLETED_STORAGE)
    return Case(["Passed", len(out)], bundle, 0, out)


def status_bundle(case, version, now, count, gate):
    """The octets of the report on a bundle, in the version in which the bundle came."""
    subject, timed = case.bundle, version == 6 or case.bundle["flags"] & TIME_WANTED
    first, second = subject["creation"]
    body = next(block["body"] for block in subject["blocks"] if block["kind"] == 1)
    report = {"stamps": [said and ([now] if timed else True) for said in case.statuses()], "rests": NO_RESTS,
              "reason": case.reason, "source": subject["source"],
              "creation": [1000 * first + second % 1000, second // 1000] if version == 6 else [first, second],
              "fragment": subject["fragment"] and [subject["fragment"][0], len(body) // 2]}
    bundle = {"version": version, "destination": subject["report_to"], "source": gate, "report_to": NONE,
              "fragment": None}
    payload = {"kind": 1, "flags": 0}
    if version == 6:
        payload.update(refs=[], body=body6(report).hex())
        flags = 0x82 | (0x10 if singleton(subject["report_to"]) else 0)
        return canonical6({**bundle, "flags": flags, "custodian": NONE, "lifetime": 86_400, "blocks": [payload],
                           "creation": [now // 1000, 1000 * count + now % 1000]})
    payload.update(number=1, crc=0, body=body7(report).hex())
    return octets7({**bundle, "flags": 0x02, "crc": 1, "creation": [now, count], "lifetime": 86_400_000,
                    "blocks": [payload]})


# ---- the gate ----

class Step:
    """What one step brings about: datagrams with their places, red parts, answers of joiners, and notes."""

    def __init__(self):
        self.sent, self.ups, self.joins, self.notes = [], [], [], []

    def take(self, place, to, effects):
        """What an engine's step at a place brings about."""
        self.sent += [(place, to, datagram) for datagram, in effects.out]
        self.ups += [(place, session, body) for session, body in effects.ups]
        self.notes += [(place, note) for note in effects.notes]

    def said(self):
        """The lines of what was handed up and noted."""
        lines = [f"up {place} {session} {body.hex()}" for place, session, body in self.ups]
        lines += [f"join {place} {word}" + (f" {octets.hex()}" if octets else "") for place, word, octets in self.joins]
        return lines + [f"note {place} " + " ".join(map(str, note)) for place, note in self.notes]


class Gate:
    """Both faces of the gateway, and how many reports it sent."""

    def __init__(self, name, policy, cut):
        self.name, self.cut, self.reports = name, cut, 0
        self.faces = {face: Engine(*NUMBERS[face], policy=policy) for face in (OLD, NEW)}

    def arrive(self, face, datagram, now):
        step, effects = Step(), self.faces[face].arrive(datagram, now)
        step.take(face, ENDS[face], effects)
        for session, body in effects.ups:
            self.hand_over(face, session, body, now, step)
        return step

    def tick(self, now):
        step = Step()
        for face, engine in self.faces.items():
            step.take(face, ENDS[face], engine.tick(now))
        return step

    def hand_over(self, face, session, body, now, step):
        """A block goes through the cases, and what is asked for of it is reported."""
        other = self.faces[OTHER[face]]
        case = case_of(body, VERSION[face], now, MOST_SESSIONS - len(other.senders), SERIALS - other.next, self.cut)
        step.notes.append((face, [case.note[0], session, *case.note[1:]]))
        for piece in case.out:
            step.take(OTHER[face], ENDS[OTHER[face]], other.submit(piece, len(piece), now))
        if any(case.statuses()):
            self.report(face, session, case, now, step)

    def report(self, face, session, case, now, step):
        engine = self.faces[face]
        if (len(engine.senders) >= MOST_SESSIONS or engine.next >= SERIALS or now < LEAST_NOW
                or self.reports == MOST_REPORTS):
            step.notes.append((face, ["Unreported", session]))
            return
        octets = status_bundle(case, VERSION[face], now, self.reports, self.name)
        self.reports += 1
        step.take(face, ENDS[face], engine.submit(octets, len(octets), now))
        step.notes.append((face, ["Reported", session]))

    def next_deadline(self):
        return least(engine.next_deadline() for engine in self.faces.values())


def least(moments):
    return min((moment for moment in moments if moment is not None), default=None)


# ---- the world ----

class TooLate(Exception):
    """A deadline that a drain would come to is past the last moment."""


class World:
    """Old node, gate and new node, all datagrams ever sent, and a clock."""

    def __init__(self, gate, start):
        self.gate, self.now = gate, start
        policy = gate.faces[OLD].policy
        self.nodes = {end: Engine(*NUMBERS[end], policy=policy) for end in ("o", "n")}
        self.joiners = {"o": Joiner(), "n": Joiner()}
        self.sent, self.octets = [], 0

    def send(self, end, block):
        """The step, or the cause for which the node refuses the block."""
        effects = self.nodes[end].submit(block, len(block), self.now)
        if effects.refused:
            return None, effects.refused[0][0]
        step = Step()
        step.take(end, face_of(end), effects)
        return self.keep(step), None

    def deliver(self, k):
        place, to, datagram = self.sent[k]
        if to in self.nodes:
            step = Step()
            step.take(to, place, self.nodes[to].arrive(datagram, self.now))
            for _, _, body in step.ups:
                self.join(to, body, step)
            return self.keep(step)
        return self.keep(self.gate.arrive(to, datagram, self.now))

    def clock(self, moment):
        self.now = max(self.now, moment)
        old, gate, new = Step(), self.gate.tick(self.now), Step()
        old.take("o", OLD, self.nodes["o"].tick(self.now))
        new.take("n", NEW, self.nodes["n"].tick(self.now))
        step = Step()
        for part in (old, gate, new):
            step.sent += part.sent
            step.notes += part.notes
        return self.keep(step)

    def join(self, end, body, step):
        """A fragment that an end can translate goes to its joiner."""
        try:
            bundle = bundle_of(body, VERSION[end])
            full = record(bundle)
            view = translated(bundle)
        except (Refused, Untranslated):
            return
        if end == "n" and 1000 * view["lifetime"] - view["creation"][1] % 1000 >= 1 << 64 or not bundle["fragment"]:
            return
        word, whole = self.joiners[end].add(full)
        step.joins.append((end, word, whole and octets_in(whole, VERSION[end])))

    def keep(self, step):
        """The step, with its datagrams numbered and kept."""
        step.first = len(self.sent)
        self.sent += step.sent
        self.octets += sum(len(datagram) for _, _, datagram in step.sent)
        return step

    def next_deadline(self):
        engines = self.nodes.values()
        return least([self.gate.next_deadline(), *(engine.next_deadline() for engine in engines)])

    def drain(self):
        """The steps of a drain: the oldest datagram sent in it comes, or else the clock goes to the next deadline."""
        at, steps = len(self.sent), []
        while True:
            if at < len(self.sent):
                steps.append(self.deliver(at))
                at += 1
            else:
                moment = self.next_deadline()
                if moment is None:
                    return steps
                if moment >= MOMENTS:
                    raise TooLate()
                steps.append(self.clock(moment))
            if self.octets > WORLD_OCTETS:
                raise PastLimit()


def face_of(end):
    return OLD if end == "o" else NEW


def lines_of(step):
    """The lines of a step of the world, in their order."""
    lines = []
    for k, (place, to, datagram) in enumerate(step.sent, step.first):
        lines.append(f"sent {k} {place[0]}>{to[0]} {datagram.hex()}")
    return lines + step.said()


# ---- scripts of `world` ----

def number_in(word, least_value=0, most=(1 << 64) - 1):
    value = decimal(word)
    if value is None or not least_value <= value <= most:
        raise BadLine("Number")
    return value


def read_path(words):
    """The world of a first line."""
    if words[0] != b"path" or len(words) not in (7, 8):
        raise BadLine("Word")
    scheme, colon, ssp = words[1].partition(b":")
    name = named(scheme, ssp) if colon else None
    if name in (None, NONE):
        raise BadLine("Name")
    segment = number_in(words[2], 512, 8192)
    timeout = number_in(words[3], 1, 3_600_000)
    limit = number_in(words[4], 1, 100)
    cut = number_in(words[5], 1, 4_000_000)
    start = number_in(words[6])
    cap = number_in(words[7], timeout, 3_600_000) if len(words) == 8 else timeout
    if start >= MOMENTS:
        raise PastLimit()
    return World(Gate(name, Policy(segment, timeout, limit, cap), cut), start)


class Script:
    """The world of a script, as far as it was read."""

    def __init__(self):
        self.world, self.is_drained = None, False

    def event(self, line):
        """The lines of what a line brings about."""
        if self.is_drained:
            raise BadLine("AfterDrain")
        words = line.split(b" ")
        if self.world is None:
            self.world = read_path(words)
            return []
        lines = self.act(words)
        if self.world.octets > WORLD_OCTETS:
            raise PastLimit()
        return lines

    def act(self, words):
        word, count, world = words[0], len(words), self.world
        if word == b"send" and count in (2, 3) and words[1] in (b"old", b"new"):
            end = words[1][:1].decode()
            step, cause = world.send(end, octets_of(words[2] if count == 3 else b""))
            return [f"refused {end} {cause}"] if cause else lines_of(step)
        if word == b"deliver" and count == 2:
            k = number_in(words[1])
            return lines_of(world.deliver(k)) if k < len(world.sent) else ["refused deliver"]
        if word == b"clock" and count == 2:
            moment = number_in(words[1])
            if moment >= MOMENTS:
                raise PastLimit()
            return lines_of(world.clock(moment))
        if word == b"drain" and count == 1:
            return self.drain()
        raise BadLine("Word")

    def drain(self):
        try:
            steps = self.world.drain()
        except TooLate as fault:
            raise PastLimit() from fault
        self.is_drained = True
        return [line for step in steps for line in lines_of(step)] + [f"end {len(steps)}"]


def world(octets):
    """What `world` answers: its lines and the status."""
    script, lines = Script(), []
    passes = len(octets) > MOST_OCTETS
    texts = octets[:MOST_OCTETS].split(b"\n")
    last = texts.pop()
    if last and not passes:
        texts.append(last)
    for number, text in enumerate(texts or [b""], 1):
        if number > MOST_LINES or len(text) > LONGEST_LINE:
            return lines, LIMIT
        try:
            lines += script.event(text)
        except BadLine as fault:
            return [*lines, f"refused line {number} {fault}"], REFUSED
        except PastLimit:
            return lines, LIMIT
    return lines, LIMIT if passes else DONE


# ---- make ----

class Draws:
    """The numbers that `make` draws."""

    def __init__(self, seed):
        self.x = seed

    def __call__(self):
        self.x = (6364136223846793005 * self.x + 1442695040888963407) % (1 << 64)
        return self.x >> 33


def made_bundle(at, size):
    """The bundle of a send of `make`: a line's beginning, and the octets."""
    body = (bytes([at % 256]) * size).hex()
    bundle = {"report_to": NONE, "fragment": None}
    if at % 2 == 0:
        block = {"kind": 1, "flags": 0, "refs": [], "body": body}
        return "old", canonical6({**bundle, "version": 6, "flags": 0x90, "destination": "ipn:2.1", "source": "ipn:1.1",
                                  "custodian": NONE, "creation": [1000, at], "lifetime": 1_000_000, "blocks": [block]})
    block = {"kind": 1, "number": 1, "flags": 0, "crc": 0, "body": body}
    return "new", octets7({**bundle, "version": 7, "flags": 0, "crc": 1, "destination": "ipn:1.1", "source": "ipn:2.1",
                           "creation": [1_000_000 + at, 0], "lifetime": 1_000_000_000, "blocks": [block]})


def made_script(seed, count):
    """The lines of a script, each told what the world is by then."""
    draw = Draws(seed)
    known = yield "path ipn:9.0 512 10000 100 4096 1000000"
    for at in range(count):
        end, octets = made_bundle(at, 1 + draw() % 6000)
        known = yield f"send {end} {octets.hex()}"
        for _ in range(8):
            first, second = draw(), draw()
            if first % 4 == 3:
                known = yield f"clock {known.now + second % 20_000}"
            else:
                sent = len(known.sent)
                known = yield f"deliver {sent - 1 - second % min(sent, 32)}"
    yield "drain"


def made_run(seed, count):
    """The script of `make` and its transcript, and the world at the end."""
    state, source = Script(), made_script(seed, count)
    line, script, lines = next(source), [], []
    while line is not None:
        script.append(line)
        lines += state.event(line.encode())
        try:
            line = source.send(state.world)
        except StopIteration:
            line = None
    return script, lines, state.world


def summed(lines):
    value = 0
    for octet in "".join(line + "\n" for line in lines).encode():
        value = 31 * value + octet & 0xFFFFFFFF
    return value


def make(seed, count):
    """What `make` answers: its lines and the status."""
    try:
        _, lines, kept = made_run(seed, count)
    except PastLimit:
        return [], LIMIT
    ups = sum(line.startswith(("up o ", "up n ")) for line in lines)
    events = lines[-1].split()[1]
    return [f"made {count} sent {len(kept.sent)} up {ups} events {events} sum {summed(lines)}"], DONE


# ---- serve ----

class Failed(Exception):
    """A call of a link that failed."""


class MemoryLink:
    """A link in memory: what comes, what went, and which of its calls fail."""

    def __init__(self, coming=(), failing=()):
        self.coming, self.failing, self.gone = list(coming), list(failing), []

    def must_work(self):
        if self.failing and self.failing.pop(0):
            raise Failed()

    def poll(self):
        self.must_work()
        return self.coming.pop(0) if self.coming else None

    def send(self, datagram):
        self.must_work()
        self.gone.append(datagram)


class UdpLink:
    """A link over a socket. Where no datagram is there, on neither link, it pauses for a millisecond at the most."""

    came = False      # whether a datagram came on any link since one last had none

    def __init__(self, own, peer):
        (family, address), (other, to) = address_of(own), address_of(peer)
        if other != family:
            raise OSError("addresses of two kinds")
        self.socket = socket.socket(family, socket.SOCK_DGRAM)
        self.socket.bind(address)
        self.socket.connect(to)
        self.socket.setblocking(False)

    def poll(self):
        wait, UdpLink.came = 0 if UdpLink.came else 0.001, False
        try:
            if select.select([self.socket], [], [], wait)[0]:
                datagram = self.socket.recv(65_507)
                UdpLink.came = True
                return datagram
        except BlockingIOError:
            pass
        except OSError as fault:
            raise Failed() from fault
        return None

    def send(self, datagram):
        try:
            self.socket.send(datagram)
        except OSError as fault:
            raise Failed() from fault


def address_of(text):
    """A family, and the address of a text as 127.0.0.1:4556 or [::1]:4556."""
    host, _, port = text.rpartition(":")
    is_six = host.startswith("[") and host.endswith("]")
    family = socket.AF_INET6 if is_six else socket.AF_INET
    if decimal(port.encode()) is None or int(port) > 65_535:
        raise ValueError(port)
    found = socket.getaddrinfo(host[1:-1] if is_six else host, int(port), family, socket.SOCK_DGRAM)
    return family, found[0][4]


class Served:
    """A gateway between two links, turn by turn."""

    def __init__(self, name, clock, links):
        self.gate, self.clock, self.links = Gate(name, *SERVED), clock, links

    def told(self, step):
        """Sends what a step sends. A failed send is a loss, and its note stands first."""
        failed = []
        for face, _, datagram in step.sent:
            try:
                self.links[face].send(datagram)
            except Failed:
                failed.append(f"note {'old' if face == OLD else 'new'} Send")
        return failed + step.said()

    def half(self, face):
        now = self.clock()
        lines = self.told(self.gate.tick(now))
        try:
            datagram = self.links[face].poll()
        except Failed:
            return lines + [f"note {'old' if face == OLD else 'new'} Poll"]
        return lines if datagram is None else lines + self.told(self.gate.arrive(face, datagram, now))

    def turn(self):
        return self.half(OLD) + self.half(NEW)


def readings(values):
    """A clock of such readings, the last of which it repeats."""
    left = list(values)
    return lambda: left.pop(0) if len(left) > 1 else left[0]


def system_clock():
    return max(0, time.time_ns() // 1_000_000 - 946_684_800_000)


def is_served(words):
    """Whether six words are those of `serve`."""
    scheme, colon, ssp = words[0].encode().partition(b":")
    name, turns = named(scheme, ssp) if colon else None, decimal(words[5].encode())
    return (name not in (None, NONE) and all(1 <= len(word.encode()) <= 64 for word in words[1:5])
            and turns is not None and 1 <= turns <= 1_000_000_000)


def serve(words):
    """Serves over UDP and writes each line once it is known; answers the status."""
    try:
        links = {OLD: UdpLink(*words[1:3]), NEW: UdpLink(*words[3:5])}
    except (OSError, ValueError):
        return UNBOUND
    if not is_served(words):
        return USAGE
    served = Served(words[0], system_clock, links)
    for _ in range(int(words[5])):
        lines = served.turn()
        if lines:
            sys.stdout.write("".join(line + "\n" for line in lines))
            sys.stdout.flush()
    return DONE


# ---- runs with known answers ----

B6 = "0681100d02010101000000008768053c00010803616263"
B7 = "9f8907000182028202018202820101820100821a000f42450019ea5b425a46850101000043616263ff"
PATH = "path ipn:9.0 1024 10000 10 65536 1010000"
FIRST, PASSED = "030101000100170200" + B6, "030301000100290200" + B7


def script_of(*lines):
    return "".join(line + "\n" for line in lines).encode()


WORLDS = (
    ("a bundle that is drained through", script_of(PATH, f"send old {B6}", "drain"), DONE,
     [f"sent 0 o>g {FIRST}", f"sent 1 o>g {FIRST}", "sent 2 g>o 0801010002021700010017", f"sent 3 g>n {PASSED}",
      f"up g.o 1 {B6}", "note g.o Passed 1 1", "sent 4 o>g 0901010002", "note o Sent 1",
      "sent 5 n>g 0803010002022900010029", f"up n 1 {B7}", "sent 6 g>n 0903010002", "note g.n Sent 1", "end 7"]),
    ("one that was sent twice at the most", script_of(PATH.replace(" 10 ", " 2 "), f"send old {B6}", "clock 1020000",
                                                      "drain"), DONE,
     [f"sent 0 o>g {FIRST}", f"sent 1 o>g {FIRST}", "sent 2 o>g 0c01010002", "note o Failed 1 2", "sent 3 g>o 0d010100",
      "end 3"]),
    ("the same, drained in time", script_of(PATH.replace(" 10 ", " 2 "), f"send old {B6}", "drain"), DONE, "end 7"),
    ("a lost acknowledgement", script_of(PATH, f"send old {B6}", "deliver 0", "deliver 1", "deliver 2", "deliver 4",
                                         "deliver 5", "drain"), DONE,
     [f"sent 0 o>g {FIRST}", "sent 1 g>o 0801010002021700010017", f"sent 2 g>n {PASSED}", f"up g.o 1 {B6}",
      "note g.o Passed 1 1", "sent 3 o>g 0901010002", "note o Sent 1", "sent 4 n>g 0803010002022900010029",
      f"up n 1 {B7}", "sent 5 g>n 0903010002", "note g.n Sent 1", "sent 6 g>o 0801010002021700010017",
      "sent 7 o>g 0901010002", "end 3"]),
    ("a block that comes twice to the new node", script_of(PATH, f"send old {B6}", "deliver 0", "deliver 2",
                                                           "deliver 2"), DONE,
     [f"sent 0 o>g {FIRST}", "sent 1 g>o 0801010002021700010017", f"sent 2 g>n {PASSED}", f"up g.o 1 {B6}",
      "note g.o Passed 1 1", "sent 3 n>g 0803010002022900010029", f"up n 1 {B7}",
      "sent 4 n>g 0803010003022900010029"]),
    ("two bundles, drained through", script_of(PATH, f"send old {B6}", f"send old {B6}", "drain"), DONE, "end 13"),
    ("waits that double up to a cap", script_of("path ipn:9.0 1024 10000 3 65536 1010000 40000", f"send old {B6}",
                                                "clock 1020000", "clock 1039999", "clock 1040000", "clock 1079999",
                                                "clock 1080000"), DONE,
     [f"sent 0 o>g {FIRST}", f"sent 1 o>g {FIRST}", f"sent 2 o>g {FIRST}", "sent 3 o>g 0c01010002",
      "note o Failed 1 2"]),
    ("a cap below the timeout", script_of("path ipn:9.0 1024 10000 3 65536 1010000 9999"), REFUSED,
     ["refused line 1 Number"]),
    ("an empty first line", b"\n", REFUSED, ["refused line 1 Word"]),
    ("an empty script", b"", REFUSED, ["refused line 1 Word"]),
    ("a line after the drain", script_of(PATH, "drain", "zz"), REFUSED, ["end 0", "refused line 3 AfterDrain"]),
    ("a block too large", script_of(PATH, "send old " + "61" * (BLOCK_MAX + 1)), DONE, ["refused o TooLarge"]),
    ("a datagram that isn't there", script_of(PATH, f"send old {B6}", "deliver 9", f"send old {B6}"), DONE,
     [f"sent 0 o>g {FIRST}", "refused deliver", f"sent 1 o>g 030102000100170300{B6}"]),
)


def realistic():
    """An expedited bundle of 100,000 octets with two extension blocks and a lifetime of one day."""
    blocks = [block6(200, 1, b"\xaa"), block6(201, 0, b"\xbb"), block6(1, 8, bytes(at & 255 for at in range(100_000)))]
    return bundle6(0x110, [2, 1, 1, 1, 0, 0, 0, 0], (1000, 5), 86_400, blocks)


def realistic_lines():
    """What a drained world says of it, as far as it can be said without running one."""
    full = record(bundle_of(realistic(), 6))
    parts = pieces(full, 65_536)
    assert [part["shared"]["fragment"] for part in parts] == [[0, 100_000], [65_536, 100_000]]
    assert [len(part["shared"]["body"]) // 2 for part in parts] == [65_536, 34_464]
    return ["note g.o Passed 1 2", *(f"up n {at} {octets_in(part, 7).hex()}" for at, part in enumerate(parts, 1)),
            "join n Waiting", f"join n Whole {octets_in(full, 7).hex()}"]


# `serve`: clock readings, what comes on the old link, its failing calls, turns; the lines, what went on both links.
REPORT, REPORTED = "0801010002021700010017", "0801010002021800010018"
CUSTODY = "069081180d02010101010100008768053c00010803616263"
STATUS = "0681120f010109000000000087720085a300000108111010008772008768050769706e3a312e31"
SERVES = (
    ("a bundle", [1_010_000], [FIRST], [], 1, [f"up g.o 1 {B6}", "note g.o Passed 1 1"], [REPORT], [PASSED]),
    ("a bundle at its expiry", [1_060_000], [FIRST], [], 1, [f"up g.o 1 {B6}", "note g.o Passed 1 1"], [REPORT],
     [PASSED]),
    ("a bundle after its expiry", [1_060_001], [FIRST], [], 1, [f"up g.o 1 {B6}", "note g.o Expired 1"], [REPORT], []),
    ("a block that is no bundle", [1_010_000], ["030101000100030200616263"], [], 1,
     ["up g.o 1 616263", "note g.o BadBundle 1 0 Version"], ["0801010002020300010003"], []),
    ("custody is asked for", [1_010_000], ["030101000100180200" + CUSTODY], [], 1,
     [f"up g.o 1 {CUSTODY}", "note g.o Untranslated 1 CustodyAsked", "note g.o Reported 1"],
     [REPORTED, "030201000100270200" + STATUS], []),
    ("a poll that fails", [1_010_000], [FIRST], [True], 2,
     ["note old Poll", f"up g.o 1 {B6}", "note g.o Passed 1 1"], [REPORT], [PASSED]),
    ("a send that fails", [1_010_000], [FIRST], [False, True], 1,
     ["note old Send", f"up g.o 1 {B6}", "note g.o Passed 1 1"], [], [PASSED]),
)


def serve_over_memory(name, clock, old, new, turns):
    """The lines of so many turns over links in memory."""
    served = Served(name, readings(clock), {OLD: old, NEW: new})
    return [line for _ in range(turns) for line in served.turn()]


def blocks_of(count):
    """So many times the same bundle, each of a session of its own."""
    return [ltp_model.written(3, (1, n), 1, 0, 23, 1 + n % 16_383, 0, body=bytes.fromhex(B6)) for n in
            range(1, count + 1)]


def evicted():
    """65 bundles, none of which is acknowledged."""
    lines = serve_over_memory("ipn:9.0", [1_010_000], MemoryLink(blocks_of(65)), MemoryLink(), 65)
    return lines[-3:], [f"up g.o 65 {B6}", "note g.o Evicted 1", "note g.o Storage 65"]


def hop_counts():
    """A hop count of 29 of 30 in version 6, and the refusal of 30 of 30."""
    said = []
    for count in (29, 30):
        blocks = [block7(10, 2, 0, 0, bytes([0x82, 0x18, 30, 0x18, count])), block7(1, 1, 0, 0, b"abc")]
        octets = bundle7(0, 1, [ipn(2, 1), ipn(1, 1), NOBODY], (1_000_005, 0), 59_995, blocks)
        case = case_of(octets, 7, 1_010_000, 64, SERIALS, 65_536)
        said.append(case.note[0])
        said += ["c1000d42363747" + "0a020000" + "82181e181e" in octets.hex() for octets in case.out]
    return said, ["Passed", True, "HopLimit"]


def custody_in_world():
    """The report on a bundle that asks for custody comes to the old node."""
    lines, _ = world(script_of(PATH, f"send old {CUSTODY}", "deliver 0", "deliver 2"))
    wanted = ["note g.o Untranslated 1 CustodyAsked", "note g.o Reported 1", f"up o 1 {STATUS}"]
    return [line for line in lines if line in wanted], wanted


def first_draw():
    """The first draw of make 7, and the size of the payload that it gives."""
    return [Draws(7)(), 1 + Draws(7)() % 6000], [1_059_165_278, 3_279]


def checks():
    """Each check's name, what came of it, and what was wanted."""
    for name, script, status, wanted in WORLDS:
        lines, ended = world(script)
        found = lines[-1] if isinstance(wanted, str) else lines
        yield f"world, {name}", (found, ended), (wanted, status)
    lines, _ = world(script_of(PATH, f"send old {realistic().hex()}", "drain"))
    yield "world, a large bundle", [line for line in realistic_lines() if line in lines], realistic_lines()
    for name, clock, coming, failing, turns, wanted, old_gone, new_gone in SERVES:
        old, new = MemoryLink(map(bytes.fromhex, coming), failing), MemoryLink()
        lines = serve_over_memory("ipn:9.0", clock, old, new, turns)
        yield f"serve, {name}", (lines, *([octets.hex() for octets in link.gone] for link in (old, new))), (
            wanted, old_gone, new_gone)
    for check in (evicted, hop_counts, custody_in_world, first_draw):
        yield check.__doc__, *check()
    yield "make 7 12", make(7, 12), (["made 12 sent 524 up 14 events 168 sum 3945896668"], DONE)
    yield "make 7 100", make(7, 100), (["made 100 sent 13287 up 125 events 1744 sum 751211969"], DONE)


def check():
    failed = 0
    for name, found, wanted in checks():
        if found != wanted:
            failed += 1
            print(f"{name}: {str(found)[:400]}, wanted {str(wanted)[:400]}")
    print(f"{failed} failed")
    return int(failed > 0)


# ---- the tool ----

def answer(words, octets):
    """The lines and the status of a run of `world` or `make`."""
    numbers = [decimal(word.encode()) for word in words[1:]]
    if words == ["world"]:
        return world(octets)
    if words[:1] == ["make"] and len(numbers) == 2 and None not in numbers and 1 <= numbers[1] <= 1000:
        return make(*numbers)
    return [], USAGE


def vectors(path):
    passed = failed = 0
    with open(path, encoding="ascii") as file:
        for number, line in enumerate(file, 1):
            row = json.loads(line)
            octets = bytes.fromhex(row["input_hex"]) if "input_hex" in row else row["input"].encode()
            lines, status = answer(row["words"], octets)
            is_right = ("".join(text + "\n" for text in lines), status) == (row["output"], row["status"])
            passed += is_right
            failed += not is_right
            if not is_right:
                print(f"{path}:{number} departs")
    print(f"{passed} passed, {failed} failed")
    return int(failed > 0)


def main(words):
    if words == ["--check"]:
        return check()
    if words[:1] == ["--vectors"] and len(words) == 2:
        return vectors(words[1])
    if words[:1] == ["serve"] and len(words) == 7:
        lines, status = [], serve(words[1:])
    else:
        lines, status = answer(words, sys.stdin.buffer.read() if words == ["world"] else b"")
    if status == USAGE and words[:1] in (["world"], ["make"], ["serve"]):
        sys.stderr.write("fimdahol: these words are no command\n")
    elif status == USAGE:
        sys.stderr.write(__doc__.split("\n\n")[1] + "\n")
    try:
        if lines:
            sys.stdout.write("".join(line + "\n" for line in lines))
            sys.stdout.flush()
    except OSError:
        os._exit(WRITE_FAULT)
    return status


if __name__ == "__main__":
    sys.exit(main(sys.argv[1:]))
