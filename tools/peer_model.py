#!/usr/bin/env python3
"""A slow model of the step of a gateway among other implementations, from the rules of docs/peers.md and docs/gate.md.

usage: tools/peer_model.py --test      the rows of peer_rows.py, which the model has to answer
       tools/peer_model.py gate FILE   serves over UDP by a configuration, and writes the lines; no journal, no metrics

FILE is a configuration of `gate` with these keys besides. Of `gateway`: `age` ("raise" or "keep"). Of each face: `accept`,
`sessions` (1 to 1,024; 64), `memory` (octets; 268,435,456), `aggregate` and `aggregate_ms` (octets that a block is to
have, and how long its first piece waits for the others; 0 and 1,000), `remember` and `remember_ms` (how many runs of
session numbers that are over are known, and how long; 1,048,576 and 3,600,000). Of `new`: `residue_block` and `wrap_block`
(the types on the wire; 192 and 193), `foreign_blocks` ("wrap" or "drop").

Its lines are those of `gate`, and besides: `began` (bundles, face, octets, session) where a face gathers, `forgotten`
(face, runs), `green` (face, last, octets, offset, session) and `left_out` (blocks, face, index, residue, session). A line
about one of several bundles of a block has its `index`, the end of a block of several pieces `bundles`; where the other
face gathers, sessions that aren't known yet aren't said.

A `Gateway` is told readings of the clock, datagrams and ticks. A step of it answers the datagrams that go, the lines, the
blocks that came and that begin, and the records of a journal. It shares no code with the program: sessions and segments
are those of ltp_model.py over ranges, bundles, translation and cases those of the models beside it, outbox, contacts and
face moments those of gate_model.py.
"""
import ipaddress
import json
import os
import select
import socket
import sys
import time
import tomllib

sys.dont_write_bytecode = True
sys.path.insert(0, os.path.dirname(os.path.abspath(__file__)))
import format_model
import gate_model
from format_model import BLOCK_MAX, Fields, Refused
from gate_model import EVENTS, NAMES, NUMBERS, moment_text, shown_of, subject_of
from gateway_model import (EXPIRED, DEPLETED_STORAGE, HOP_LIMIT_EXCEEDED, LEAST_NOW, MOST_REPORTS, OLD, OTHER, SERIALS,
                           VERSION, Case, address_of, bundle_of, hop_of, passed_pieces, status_bundle, system_clock)
from ltp_model import RECEIVER_CANCEL, written
from make_bundles import head
from quick_ends import QuickEngine
from translate_model import (MARK, NO_RESTS, RESIDUE, TOP, WRAP, Untranslated, default6, octets_of, record, view6, view7)

AGE = 7
HEADER = 34                     # octets that a segment may need besides its own
AT_ONCE = 256                   # datagrams of a poll that are taken, and as many that aren't
IDLE = 0.001
WORDS = {"age": ("raise", "keep"), "accept": ("address", "port"), "foreign_blocks": ("wrap", "drop")}
WHOLE = {"sessions": (1, 1024, 64), "memory": (1 << 25, 1 << 40, 1 << 28), "aggregate": (0, BLOCK_MAX, 0),
         "aggregate_ms": (1, 60_000, 1000), "remember": (4096, 1 << 24, 1 << 20),
         "remember_ms": (1000, 604_800_000, 3_600_000), "residue_block": (192, 255, RESIDUE),
         "wrap_block": (192, 255, WRAP)}
KEYS = {"gateway": ("age",), "new": ("accept", *WHOLE, "foreign_blocks")}
KEYS["old"] = KEYS["new"][:7]


# ---- the configuration ----

def value_of(table, key):
    return table.get(key, WORDS[key][0] if key in WORDS else WHOLE[key][2])


def wanted_of(table, key):
    """What is wanted where a key isn't of its kind, or None."""
    value = value_of(table, key)
    if key in WORDS:
        first, second = WORDS[key]
        return None if value in (first, second) else f'"{first}" or "{second}" is wanted'
    least, most, _ = WHOLE[key]
    is_whole = isinstance(value, int) and not isinstance(value, bool) and least <= value <= most
    return None if is_whole else f"a whole number from {least} to {most} is wanted"


def refusal(file):
    """Where a configuration is refused for one of these keys, and what is wanted there; or None."""
    for name in ("gateway", "old", "new"):
        for key in KEYS[name]:
            wanted = wanted_of(file[name], key)
            if wanted:
                return f"{name}.{key}: {wanted}"
    residue, wrap = (value_of(file["new"], key) for key in ("residue_block", "wrap_block"))
    if residue == WRAP:
        return "new.residue_block: another number than 193 is wanted"
    if wrap in (RESIDUE, residue):
        return "new.wrap_block: another number than 192 and residue_block is wanted"
    return None


def takes(accept, peer, come):
    """Whether a datagram from an address and a port is taken as one of the peer's."""
    def host(address):
        of_six = ipaddress.ip_address(address[0].partition("%")[0])
        return getattr(of_six, "ipv4_mapped", None) or of_six
    return host(peer) == host(come) and (accept == "address" or peer[1] == come[1])


# ---- what stands in a block ----

def row_of(block, version):
    """The bundles of a block, and the refusal that ends it or None."""
    bundles, fields = [], Fields(block)
    try:
        while fields.left():
            bundles.append((format_model.bundle6 if version == 6 else format_model.bundle7)(fields))
    except Refused as end:
        return bundles, end
    return bundles, None


class Types:
    """The types of residues and wraps on a wire, in place of 192 and 193."""

    def __init__(self, residue, wrap):
        self.there = {RESIDUE: residue, residue: RESIDUE, WRAP: wrap, wrap: WRAP}

    def swapped(self, bundle):
        """A bundle with the other types: of the wire for ours, and of ours for the wire."""
        change = self.block6 if bundle["version"] == 6 else self.block7
        return {**bundle, "blocks": [change(block) for block in bundle["blocks"]]}

    def block7(self, block):
        return {**block, "kind": self.there.get(block["kind"], block["kind"])}

    def block6(self, block):
        """A wrap says the type of the block that it holds, in two octets from 192 on."""
        body = bytes.fromhex(block["body"])
        if block["kind"] != WRAP or not body.startswith(MARK + b"\x81") or not 0x40 <= body[5:6].ljust(1)[0] <= 0x7F:
            return block
        kind = 128 + body[5]
        return {**block, "body": (body[:5] + bytes([self.there.get(kind, kind) - 128]) + body[6:]).hex()}


def bare(full):
    """A record without what version 7 has no field for; the types of the blocks that it lost, and if a residue was due."""
    shared, rests = full["shared"], NO_RESTS
    if shared["report"]:
        rests = shared["report"]["rests"]
        shared = {**shared, "report": {**shared["report"], "rests": NO_RESTS}}
    lost = [block["kind"] for version, block in full["exts"] if version == 6]
    is_due = full["extra6"] != default6(shared) or rests != NO_RESTS
    exts = [ext for ext in full["exts"] if ext[0] == 7]
    return {**full, "shared": shared, "extra6": default6(shared), "exts": exts}, lost, is_due


def has_age(full):
    return any((version, block["kind"]) == (7, AGE) for version, block in full["exts"])


def raised(full, stay):
    """A record with its age raised by a stay."""
    exts = []
    for version, block in full["exts"]:
        if (version, block["kind"]) == (7, AGE):
            age = min(Fields(bytes.fromhex(block["body"])).unsigned() + stay, TOP - 1)
            block = {**block, "body": head(0, age).hex()}
        exts.append((version, block))
    return {**full, "exts": exts}


# ---- the sessions of a face ----

class Numbers:
    """Session numbers, and how many runs of consecutive ones they are."""

    def __init__(self):
        self.held, self.runs = set(), 0

    def __contains__(self, number):
        return number in self.held

    def add(self, number):
        if number not in self.held:
            self.runs += 1 - (number - 1 in self.held) - (number + 1 in self.held)
            self.held.add(number)


class PeerEngine(QuickEngine):
    """An end of a link that remembers for a time which sessions of the peer's are over, in bounded memory."""

    def __init__(self, own, peer, first, policy, table, now, marked):
        super().__init__(own, peer, first, policy, value_of(table, "sessions"))
        self.remember, self.wait, self.memory = (value_of(table, key) for key in ("remember", "remember_ms", "memory"))
        self.newer, self.older, self.marked, self.since = Numbers(), Numbers(), frozenset(marked), now
        self.touched, self.now = {}, now      # the moment of each receiving session

    def turn(self):
        """What is older is forgotten; answers how many runs that were."""
        runs = self.older.runs
        self.older, self.newer, self.since = self.newer, Numbers(), self.now
        return runs

    def begin(self, now):
        """What time does before an arrival or a tick; answers the notes."""
        self.now = now
        if now - self.since >= self.wait:
            self.turn()
        stale = [number for number in self.receivers if now - self.touched[number] >= self.wait]
        return [self.evicted(number) for number in stale]

    def evicted(self, number):
        self.close(number)
        return ["Evicted", number]

    def remembered(self, number):
        self.newer.add(number)

    def make_place(self, effects):
        """For one more number, or one more session."""
        if 2 * (self.newer.runs + len(self.receivers)) >= self.remember:
            runs = self.turn()
            effects.notes += [["Forgotten", runs]] if runs else []

    def is_closed(self, number, effects):
        """A red piece of a session that only the older numbers know keeps it for as long again."""
        if number in self.older and number not in self.newer and number not in self.marked:
            self.make_place(effects)
            self.remembered(number)
        return number in self.newer or number in self.marked

    def is_full(self):
        return False

    def open(self, name, effects):
        self.make_place(effects)
        session = super().open(name, effects)
        self.touched[name[1]] = self.now
        return session

    def touch(self, number):
        super().touch(number)
        self.touched[number] = self.now

    def close(self, number):
        del self.receivers[number], self.touched[number]
        self.remembered(number)

    def arrive(self, datagram, now):
        """A step, after which the sessions together have no more octets than half of the memory."""
        before, effects = self.begin(now), super().arrive(datagram, now)
        while 2 * sum(session.filled() for session in self.receivers.values()) > self.memory:
            effects.notes.append(self.evicted(next(iter(self.receivers))))
        effects.notes[:0] = before
        return effects

    def tick(self, now):
        before, effects = self.begin(now), super().tick(now)
        effects.notes[:0] = before
        return effects


# ---- a face ----

class Piece:
    """What waits to go: its octets, its record where its age is raised, the moment at which its block came, how many octets
    it may have, the face's moment at which it was added, and its number in the journal."""

    def __init__(self, octets, aging, came, size, added):
        self.octets, self.aging, self.came, self.size, self.added, self.ident = octets, aging, came, size, added, None


def blocks_of(sizes, wanted):
    """How many pieces go in each block, in order."""
    counts, total = [], 0
    for size in sizes:
        if not counts or total >= wanted or total + size > BLOCK_MAX:
            counts.append(0)
            total = 0
        counts[-1] += 1
        total += size
    return counts


class Face(gate_model.Face):
    """A face: its sessions, the pieces that wait for one, and its outbox."""

    def __init__(self, face, table, first, now, marks):
        super().__init__(face, table, first)
        own, peer = NUMBERS[face]
        self.engine = PeerEngine(table.get("engine", own), table.get("peer_engine", peer), first, self.engine.policy,
                                 table, now, marks)
        self.wanted, self.wait, self.memory = (value_of(table, key) for key in ("aggregate", "aggregate_ms", "memory"))
        self.waiting, self.own = [], {}       # `own` has the block and the pieces of each sending session

    def need(self, size):
        """What a piece may need: itself, and its datagrams."""
        segment = self.engine.policy.segment
        return 2 * size + HEADER * ((size + segment - 1) // segment)

    def kept(self):
        blocks = sum(len(session.block) for session in self.engine.senders.values())
        return blocks + self.octets + sum(self.need(piece.size) for piece in self.waiting)

    def put(self, datagram):
        """A datagram goes into the outbox, unless it passes its bound or half of the memory."""
        if 2 * (self.kept() + len(datagram)) > self.memory:
            self.dropped += 1
            return False
        return super().put(datagram)

    def has_room(self, sizes):
        """Whether there is room for pieces of such sizes."""
        blocks = len(blocks_of([piece.size for piece in self.waiting] + sizes, self.wanted))
        needed = self.kept() + sum(map(self.need, sizes))
        return (self.engine.next + blocks <= SERIALS and all(size <= BLOCK_MAX for size in sizes)
                and 32 * needed <= 15 * self.memory)

    def due(self, is_late):
        """How many of the pieces in front may go now as a block; those that waited long enough too, where that counts."""
        if not self.waiting or len(self.engine.senders) >= self.engine.sessions:
            return 0
        count = blocks_of([piece.size for piece in self.waiting], self.wanted)[0]
        is_whole = (count < len(self.waiting)
                    or sum(piece.size for piece in self.waiting[:count]) >= self.wanted)
        return count if is_whole or is_late and self.moment - self.waiting[0].added >= self.wait else 0

    def opens(self, wall):
        """The moment at which what goes now leaves: that of the next contact where the link is closed and one comes."""
        later = [since for since, _, _ in self.contacts if since > wall] if self.contact(wall) is None else []
        return min(later, default=wall)


# ---- the gateway ----

class Step:
    """What a step brings about."""

    def __init__(self):
        self.out, self.lines, self.ups, self.begun, self.records = [], [], [], [], []


class Gateway:
    """The gateway between two faces, by a configuration; pieces and marks of an earlier run's journal stand in `kept`."""

    def __init__(self, file, wall, pending=(), marks=(), has_journal=False):
        gateway, new = file["gateway"], file["new"]
        self.name, self.cut, self.reports, self.wall = gateway["endpoint"], gateway.get("cut", 65_536), 0, wall
        self.raises, self.drops = value_of(gateway, "age") == "raise", value_of(new, "foreign_blocks") == "drop"
        self.types = Types(value_of(new, "residue_block"), value_of(new, "wrap_block"))
        self.pending, self.has_journal = list(pending), has_journal
        self.next_id = max((ident for ident, *_ in self.pending), default=0) + 1
        self.faces, self.step = {}, Step()
        for face, name in NAMES.items():
            first = file[name].get("first_session", wall // 1000 % (1 << 31) + 1)
            marked = [session for at, session in marks if at == face]
            self.faces[face] = Face(face, file[name], first, wall, marked)

    # ---- events ----

    def start(self):
        """The first reading of the clock. The peers are told of the sessions that are closed for the whole run."""
        self.read(self.wall)
        engines = {face: each.engine for face, each in self.faces.items()}
        self.step.lines.append({"event": "start", "first_session": [engine.first for engine in engines.values()],
                                "marks": sum(len(engine.marked) for engine in engines.values()),
                                "pending": len(self.pending)})
        for face, engine in engines.items():
            for session in sorted(engine.marked):
                self.put(face, written(RECEIVER_CANCEL, (engine.peer, session), body=b"\4"))
        return self.step

    def read(self, wall):
        """The clock shows this; the step has the lines of the contacts."""
        self.wall, self.step = wall, Step()
        for face, each in self.faces.items():
            told = each.read(wall)
            if told:
                self.say(face=face, **told)
        return self.step

    def arrive(self, face, datagram):
        self.step, each = Step(), self.faces[face]
        before = set(each.engine.senders)
        for session, block in self.part(face, lambda engine: engine.arrive(datagram, each.moment)):
            self.step.ups.append((face, session, block))
            self.hand_over(face, session, block)
        if before - set(each.engine.senders):
            self.go(face, True)
        return self.step

    def tick(self):
        self.step = Step()
        for face, each in self.faces.items():
            self.part(face, lambda engine, at=each.moment: engine.tick(at))
            self.go(face, True)
        return self.step

    def resume(self):
        """What an earlier run kept is added, while there is room."""
        self.step = Step()
        for face, each in self.faces.items():
            while kept := next((kept for kept in self.pending if kept[1] == face), None):
                ident, _, octets, came = kept
                piece = self.piece(face, octets, self.wall if came is None else came)
                piece.ident = ident
                if not each.has_room([piece.size]):
                    break
                self.pending.remove(kept)
                first = self.add(face, piece)
                self.say("resumed", face, subject=subject_of(octets), **first)
        return self.step

    # ---- what is told ----

    def say(self, event, face, **keys):
        self.step.lines.append({"event": event, "face": NAMES[face], **keys})

    def tell(self, face, note, ended):
        """The line of an engine's note; `ended` has the own sessions that ended with it."""
        word, *rest = note
        if word in ("Sent", "Failed", "Cancelled"):
            self.tell_end(face, word.lower(), rest, ended.pop(rest[0], None))
        elif word == "Refused":
            self.say("refused", face, session=rest[0], service=rest[1])
        elif word == "BadSegment":
            self.say("bad_segment", face, place=rest[0], cause=str(rest[1]))
        elif word == "Stranger":
            self.say("stranger", face)
        elif word == "Forgotten":
            self.say("forgotten", face, runs=rest[0])
        else:
            self.say(EVENTS[word], face, session=rest[0])

    def tell_end(self, face, how, rest, own):
        keys = {"session": rest[0]}
        if how != "sent":
            keys.update(reason=rest[1], side="sending" if own else "receiving")
        if own:
            block, pieces = own
            keys.update(subject=subject_of(block), **({"bundles": len(pieces)} if len(pieces) > 1 else {}))
            self.step.records += [["done", piece.ident, how] for piece in pieces if piece.ident is not None]
        self.say(how, face, **keys)

    # ---- parts of a step ----

    def part(self, face, act):
        """An engine's part of a step: its datagrams, its notes, its green data; answers the blocks that came whole."""
        each = self.faces[face]
        effects = act(each.engine)
        self.send(face, effects)
        open_now = {number for number, session in each.engine.senders.items() if not session.cancelling}
        ended = {number: each.own.pop(number) for number in set(each.own) - open_now}
        for note in effects.notes:
            self.tell(face, note, ended)
        for session, offset, is_last, octets in effects.greens:
            self.say("green", face, session=session, offset=offset, last=bool(is_last), octets=len(octets))
        return effects.ups

    def send(self, face, effects):
        for datagram, in effects.out:
            self.put(face, datagram)

    def put(self, face, datagram):
        self.step.out.append((face, datagram))
        self.faces[face].put(datagram)

    def hand_over(self, face, session, block):
        """The bundles of a block in turn, and its end."""
        bundles, end = row_of(block, VERSION[face])
        is_numbered = len(bundles) > 1 or bundles and end
        for index, bundle in enumerate(bundles, 1):
            self.decide(face, bundle, {"session": session, **({"index": index} if is_numbered else {})})
        if end:
            index = {"index": len(bundles) + 1} if is_numbered else {}
            self.say("bad_bundle", face, session=session, place=end.at, cause=str(end.cause), **index)

    def decide(self, face, bundle, about):
        """A bundle's case, its pieces, its line and its report."""
        about = {**about, "subject": shown_of(bundle)}
        case, pieces, left = self.case_of(face, self.types.swapped(bundle))
        firsts = [self.add(OTHER[face], piece) for piece in pieces]
        word = case.note[0]
        if word == "Passed":
            more = {"first": firsts[0]["session"]} if firsts[0] else {}
            self.say("passed", face, **about, **more, pieces=len(pieces))
        elif word == "Untranslated":
            self.say("untranslated", face, **about, cause=str(case.note[1]))
        else:
            self.say(EVENTS[word], face, **about)
        if left and word == "Passed":
            self.say("left_out", face, **about, blocks=left[0], residue=left[1])
        if any(case.statuses()):
            self.report(face, case, about)

    def case_of(self, face, bundle):
        """The first of the cases that holds, the pieces where it passed, and what was left out of it."""
        left = None
        try:
            full = record(bundle)
            if self.drops and face == OLD:
                full, blocks, is_due = bare(full)
                left = (blocks, is_due) if blocks or is_due else None
            if full["shared"]["expiry"] < self.wall:
                return Case(["Expired"], bundle, EXPIRED), [], None
            hop = hop_of(full)
            if hop and hop[1] + 1 > hop[0]:
                return Case(["HopLimit"], bundle, HOP_LIMIT_EXCEEDED), [], None
            octets = [self.spelled(OTHER[face], piece) for piece in passed_pieces(full, self.cut)]
        except Untranslated as refused:
            return Case(["Untranslated", refused], bundle), [], None
        pieces = [self.piece(OTHER[face], each, self.wall) for each in octets]
        if not self.faces[OTHER[face]].has_room([piece.size for piece in pieces]):
            return Case(["Storage"], bundle, DEPLETED_STORAGE), [], None
        return Case(["Passed", len(pieces)], bundle), pieces, left

    def report(self, face, case, about):
        """A report on a bundle is a piece of the face at which the bundle came."""
        if self.wall >= LEAST_NOW and self.reports < MOST_REPORTS:
            octets = status_bundle(case, VERSION[face], self.wall, self.reports, self.name)
            piece = self.piece(face, octets, self.wall)
            if self.faces[face].has_room([piece.size]):
                self.reports += 1
                first = self.add(face, piece, is_report=True)
                self.say("reported", face, **about, **({"report": first["session"]} if first else {}))
                return
        self.say("unreported", face, **about)

    # ---- pieces ----

    def spelled(self, face, full):
        """The octets of a record at a face."""
        return octets_of(self.types.swapped((view6 if VERSION[face] == 6 else view7)(full)))

    def aging(self, face, octets):
        """The record of a piece whose age is raised, or None."""
        try:
            full = record(self.types.swapped(bundle_of(octets, VERSION[face])))
        except (Refused, Untranslated):
            return None
        return full if self.raises and has_age(full) else None

    def aged(self, face, piece, stay):
        """The octets of a piece after a stay."""
        return self.spelled(face, raised(piece.aging, stay)) if piece.aging else piece.octets

    def piece(self, face, octets, came):
        """A piece as it is before it is added, which may come to the greatest age."""
        piece = Piece(octets, self.aging(face, octets), came, len(octets), self.faces[face].moment)
        piece.size = len(self.aged(face, piece, TOP))
        return piece

    def add(self, face, piece, is_report=False):
        """A piece waits, and what is complete goes. Answers its session where each piece has one of its own."""
        each = self.faces[face]
        first = {} if each.wanted else {"session": each.engine.next + len(each.waiting)}
        if self.has_journal and not is_report and piece.ident is None:
            piece.ident, self.next_id = self.next_id, self.next_id + 1
            came = [piece.came] if piece.aging else []
            self.step.records.append(["begun", piece.ident, face, *came, piece.octets])
        each.waiting.append(piece)
        self.go(face, False)
        return first

    def go(self, face, is_late):
        """Blocks begin of what waits and may go, as long as a session is free."""
        each = self.faces[face]
        while count := each.due(is_late):
            pieces, each.waiting = each.waiting[:count], each.waiting[count:]
            until = each.opens(self.wall)
            block = b"".join(self.aged(face, piece, max(0, until - piece.came)) for piece in pieces)
            number = each.engine.next
            self.step.begun.append((face, number, block))
            self.send(face, each.engine.submit(block, len(block), each.moment))
            each.own[number] = block, pieces
            if each.wanted:
                self.say("began", face, bundles=len(pieces), octets=len(block), session=number)


# ---- over UDP ----

class Link:
    """The socket of a face, which takes what comes from its peer."""

    def __init__(self, table):
        family, own = address_of(table["bind"])
        self.peer, self.accept = address_of(table["peer"])[1], value_of(table, "accept")
        self.socket = socket.socket(family, socket.SOCK_DGRAM)
        self.socket.bind(own)
        self.socket.setblocking(False)

    def poll(self):
        """The peer's datagrams, at most 256, up to the end of what came or to as many others in a row."""
        came, others = [], 0
        while len(came) < AT_ONCE and others < AT_ONCE:
            try:
                datagram, come = self.socket.recvfrom(65_507)
            except OSError:
                break
            if takes(self.accept, self.peer, come):
                came.append(datagram)
                others = 0
            else:
                others += 1
        return came

    def send(self, datagram):
        """A send that fails is a loss."""
        try:
            self.socket.sendto(datagram, self.peer)
        except OSError:
            pass


def text_of(wall, line):
    return json.dumps({"at": moment_text(wall), **line}, sort_keys=True, separators=(",", ":"), ensure_ascii=False) + "\n"


def half(gateway, links, face, wall):
    """A half of a face: the steps, then what goes, then the lines; answers whether anything came."""
    lines = [*gateway.read(wall).lines, *gateway.tick().lines]
    came = links[face].poll()
    for datagram in came:
        lines += gateway.arrive(face, datagram).lines
    for at, each in gateway.faces.items():
        while (datagram := each.next()) is not None:
            links[at].send(datagram)
        each.was_empty = not each.outbox
    lines += [{"event": "outbox_full", "face": NAMES[at], "datagrams": each.dropped}
              for at, each in gateway.faces.items() if each.dropped]
    sys.stdout.write("".join(text_of(wall, line) for line in lines))
    sys.stdout.flush()
    return len(came) > 0


def serve(path):
    """Serves until it is stopped. Both clocks are one, which begins at the wall clock's moment."""
    with open(path, "rb") as text:
        file = tomllib.load(text)
    wanted = refusal(file)
    if wanted or {"journal", "metrics"} & set(file["gateway"]):
        sys.stderr.write(f"peer_model: {path}: {wanted or 'neither a journal nor metrics are kept here'}\n")
        return 1
    links = {face: Link(file[name]) for face, name in NAMES.items()}
    began = system_clock() - time.monotonic_ns() // 1_000_000
    gateway, has_come = Gateway(file, began + time.monotonic_ns() // 1_000_000), True
    sys.stdout.write("".join(text_of(gateway.wall, line) for line in gateway.start().lines))
    while True:
        if not has_come:
            select.select([link.socket for link in links.values()], [], [], IDLE)
        has_come = False
        for face in links:
            has_come |= half(gateway, links, face, began + time.monotonic_ns() // 1_000_000)


def main(words):
    if words == ["--test"]:
        import peer_rows
        return peer_rows.run()
    if words[:1] == ["gate"] and len(words) == 2:
        return serve(words[1])
    sys.stderr.write(__doc__.split("\n\n")[1] + "\n")
    return 2


if __name__ == "__main__":
    sys.exit(main(sys.argv[1:]))
