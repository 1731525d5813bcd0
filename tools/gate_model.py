#!/usr/bin/env python3
"""A slow model of a run of `gate` over an outside in memory, from the rules of docs/gate.md and docs/outbox.md.

usage: tools/gate_model.py --runs FILE      runs as JSON lines, which the model has to make alike
       tools/gate_model.py --make COUNT SEED    as many runs, a line of JSON for each, the same for a seed

A run has `file` (the configuration), `turns`, `readings` (of both clocks alike), for `old` and `new` what the polls give
(hex, null for nothing, "fail"), `failing_sends` and `failing_shows` by number of the call, in `journal` the journal's file
where one is kept, and then `acts`, all that is made, in order: records that are committed, files that are installed, sent
and lost datagrams, lines, metrics. It shares no code with the program; sessions and cases are those of ltp_model.py and
gateway_model.py, the journal that of journal_model.py.
"""
import collections
import json
import os
import random
import sys
import tomllib
from datetime import datetime, timedelta, timezone

sys.dont_write_bytecode = True
sys.path.insert(0, os.path.dirname(os.path.abspath(__file__)))
import format_model
from format_model import Fields, Refused
from gateway_model import (ENDS, LEAST_NOW, MOST_REPORTS, MOST_SESSIONS, NEW, OLD, OTHER, SERIALS, VERSION, case_of,
                           status_bundle)
import journal_model
from ltp_model import RECEIVER_CANCEL, RED, REPORT, SENDER_CANCEL, Engine, Policy, read_segment, written
from made_bundles import Made

NAMES = {OLD: "old", NEW: "new"}
NUMBERS = {OLD: (2, 1), NEW: (3, 4)}
YEAR_2000 = datetime(2000, 1, 1, tzinfo=timezone.utc)
LAST_YEAR = 252_455_615_999_999                 # the last millisecond of the year 9999
SLACK, EVERY = 10, 10_000                       # milliseconds
CASES = ("passed", "bad_bundle", "untranslated", "expired", "hop_limit", "storage")
HOWS = ("sent", "failed", "cancelled")
EVENTS = {"Expired": "expired", "HopLimit": "hop_limit", "Storage": "storage", "Evicted": "evicted",
          "BadBounds": "bad_bounds", "Closed": "closed", "HistoryFull": "history_full"}
FAMILIES = (
    ("blocks_total", "counter", "Blocks that came whole, by what became of them.", "case", CASES),
    ("datagrams_received_total", "counter", "Datagrams that came.", None, None),
    ("received_bytes_total", "counter", "Octets of the datagrams that came.", None, None),
    ("datagrams_sent_total", "counter", "Datagrams that went.", None, None),
    ("sent_bytes_total", "counter", "Octets of the datagrams that went.", None, None),
    ("datagrams_dropped_total", "counter", "Datagrams for which the outbox had no room.", None, None),
    ("sessions_begun_total", "counter", "Sending sessions that began.", None, None),
    ("sessions_ended_total", "counter", "Sending sessions that ended, by how.", "how", HOWS),
    ("poll_failures_total", "counter", "Polls that failed.", None, None),
    ("send_failures_total", "counter", "Sends that failed.", None, None),
    ("sending_sessions", "gauge", "Sending sessions that are kept.", None, None),
    ("receiving_sessions", "gauge", "Receiving sessions that are kept.", None, None),
    ("outbox_datagrams", "gauge", "Datagrams that wait.", None, None),
    ("outbox_bytes", "gauge", "Octets of the datagrams that wait.", None, None),
    ("link_open", "gauge", "1 where the link is open.", None, None),
    ("next_contact_seconds", "gauge", "Seconds until the link opens; 0 where it is open.", None, None))


def moment_text(moment):
    at = YEAR_2000 + timedelta(milliseconds=min(moment, LAST_YEAR))
    return f"{at:%Y-%m-%dT%H:%M:%S}.{at.microsecond // 1000:03}Z"


def moment_of(value):
    return round((value.astimezone(timezone.utc) - YEAR_2000) / timedelta(milliseconds=1))


def subject_of(octets):
    """The bundle at the front of a block, or None."""
    fields = Fields(octets)
    try:
        bundle = (format_model.bundle6 if octets[:1] == b"\6" else format_model.bundle7)(fields)
    except Refused:
        return None
    return shown_of(bundle)


def shown_of(bundle):
    """What a line says of a bundle."""
    body = next(block["body"] for block in bundle["blocks"] if block["kind"] == 1)
    return {"creation": bundle["creation"], "destination": bundle["destination"], "fragment": bundle["fragment"],
            "payload": len(body) // 2, "source": bundle["source"], "version": bundle["version"]}


class Face:
    """One face: its engine, its outbox, its contacts and its time."""

    def __init__(self, face, table, first):
        own, peer = NUMBERS[face]
        timeout = table.get("timeout_ms", 10_000)
        policy = Policy(table.get("segment", 1024), timeout, table.get("limit", 10),
                        table.get("cap_ms", max(160_000, timeout)))
        self.engine = Engine(table.get("engine", own), table.get("peer_engine", peer),
                             first, policy)
        self.contacts = [(moment_of(each["from"]), moment_of(each["to"]), each.get("rate", table.get("rate")))
                         for each in table.get("contact", [])]
        self.rate, self.most = table.get("rate"), table.get("outbox", 536_870_912)
        self.outbox, self.octets, self.debt = collections.deque(), 0, 0
        self.seen, self.moment, self.was_empty = None, None, True
        self.dropped = self.failed = self.calls = 0

    def contact(self, moment):
        """The number of the contact at a moment; 0 where the link is always open."""
        if not self.contacts:
            return 0
        return next((at for at, (since, to, _) in enumerate(self.contacts) if since <= moment < to), None)

    def rate_of(self, contact):
        return self.contacts[contact][2] if self.contacts else self.rate

    def elapsed(self, moment):
        """How much of the time before a moment lies in contacts."""
        if not self.contacts:
            return moment
        return sum(min(max(moment, since), to) - since for since, to, _ in self.contacts)

    def read(self, now):
        """The clock shows this; answers the line of the contacts, if there is one."""
        contact, first = self.contact(now), self.seen is None
        before = None if first else self.contact(self.seen)
        if first:
            self.moment = now
        elif self.was_empty:
            self.moment += self.elapsed(now) - self.elapsed(self.seen)
        if not first and contact is not None and contact == before and self.rate_of(contact):
            self.debt = max(0, self.debt - self.rate_of(contact) * (now - self.seen))
        else:
            self.debt = 0
        self.seen, self.dropped, self.failed = now, 0, 0
        if not self.contacts or not first and contact == before:
            return None
        if contact is None:
            later = [since for since, _, _ in self.contacts if since > now]
            return {"event": "contact_closed", "until": moment_text(later[0]) if later else None}
        _, to, rate = self.contacts[contact]
        return {"event": "contact_opened", "rate": rate, "until": moment_text(to)}

    def put(self, datagram):
        if self.octets + len(datagram) > self.most:
            self.dropped += 1
            return False
        self.outbox.append(datagram)
        self.octets += len(datagram)
        return True

    def next(self):
        """The datagram that may go now, or None."""
        contact = self.contact(self.seen)
        if not self.outbox or contact is None:
            return None
        rate = self.rate_of(contact)
        if rate and self.debt > SLACK * rate:
            return None
        datagram = self.outbox.popleft()
        self.octets -= len(datagram)
        self.debt += 1000 * len(datagram)
        return datagram

    def next_contact(self):
        """Seconds until the link opens, or None where it is closed for good."""
        if self.contact(self.seen) is not None:
            return "0.000"
        later = [since - self.seen for since, _, _ in self.contacts if since > self.seen]
        return f"{later[0] // 1000}.{later[0] % 1000:03}" if later else None


class Step:
    """What a step of the gateway did, as far as the journal has to know it."""

    def __init__(self):
        self.ends, self.pieces, self.out = [], [], []
        self.over = []          # sessions of the peers that came whole or were cancelled by their senders


class UsedUp(Exception):
    """Earlier runs have used all session numbers of a face."""


class Journal:
    """What a run knows of its journal: what is kept, the ids of own sessions, and the records of this half."""

    def __init__(self, octets, wall, firsts):
        self.kept, _ = journal_model.read(octets)
        self.firsts = self.kept.recover(wall, firsts)
        for face, first in zip(NAMES.values(), self.firsts):
            if first >= SERIALS:
                raise UsedUp(face)
        self.ids, self.records, self.next_id = {}, [], self.kept.greatest + 1
        self.install()

    def install(self):
        self.octets = self.kept.file()

    def add(self, *record):
        self.records.append(list(record))
        self.kept.apply(list(record))

    def begin(self, face, block):
        self.add("begun", self.next_id, face, block)
        self.next_id += 1
        return self.next_id - 1

    def waiting(self, face):
        """The first block of an earlier run that waits at a face."""
        begun = set(self.ids.values())
        return next(((number, block) for number, (at, *_, block) in self.kept.pending.items()
                     if at == face and number not in begun), None)

    def is_large(self):
        return len(self.octets) - 1 >= (64 << 20) + 2 * sum(len(piece[-1]) for piece in self.kept.pending.values())


FACES = {OLD: 0, NEW: 1}


class Run:
    """A run: the gateway, what it counted, and what it made."""

    def __init__(self, text, wall, journal=None):
        file = tomllib.loads(text)
        self.name, self.cut = file["gateway"]["endpoint"], file["gateway"].get("cut", 65_536)
        self.has_board, self.shown, self.shows = "metrics" in file["gateway"], None, 0
        firsts = [file[name].get("first_session", wall // 1000 % (1 << 31) + 1) for name in NAMES.values()]
        self.journal = None if journal is None else Journal(journal, wall, firsts)
        firsts = self.journal.firsts if self.journal else firsts
        self.faces = {face: Face(face, file[name], first) for (face, name), first in zip(NAMES.items(), firsts)}
        self.counts, self.own, self.reports = collections.Counter(), {}, 0
        self.acts, self.lines, self.is_begun = [], [], False
        if self.journal:
            self.acts.append(["installed", self.journal.octets.hex()])

    # ---- what is told ----

    def say(self, event, face=None, **keys):
        line = {"at": moment_text(self.wall), "event": event, **keys}
        if face is not None:
            line["face"] = NAMES[face]
        self.lines.append(json.dumps(line, sort_keys=True, separators=(",", ":"), ensure_ascii=False))

    def count(self, name, face, how=None, more=1):
        self.counts[name, face, how] += more

    def tell_note(self, face, note, body, ended):
        """The line of an engine's note. `ended` has the blocks of own sessions that ended in its part of the step."""
        word, *rest = note
        if word in ("Sent", "Failed", "Cancelled"):
            how, session = word.lower(), rest[0]
            block = ended.pop(session, None)
            if block is not None:
                self.step.ends.append((face, session, how))
                self.count("sessions_ended_total", face, how)
                subject = subject_of(block)
                if word == "Sent":
                    self.say("sent", face, session=session, subject=subject)
                else:
                    self.say(how, face, session=session, reason=rest[1], side="sending", subject=subject)
            else:
                self.step.over += [(face, session)] * (word == "Cancelled")
                self.say(how, face, session=session, reason=rest[1], side="receiving")
        elif word == "Refused":
            self.say("refused", face, session=rest[0], service=rest[1])
        elif word == "Stranger":
            self.say("stranger", face)
        elif word == "BadSegment":
            self.say("bad_segment", face, place=rest[0], cause=str(rest[1]))
        else:
            self.say(EVENTS[word], face, session=rest[0])

    def send_all(self, face, effects):
        for datagram, in effects.out:
            self.step.out.append((face, datagram))
            if not self.faces[face].put(datagram):
                self.count("datagrams_dropped_total", face)

    # ---- steps ----

    def engine_part(self, face, act):
        """An engine's part of a step: its datagrams and its notes; answers the blocks that came whole."""
        engine = self.faces[face].engine
        before = {number for number, sender in engine.senders.items() if not sender.cancelling}
        effects = act(engine)
        self.send_all(face, effects)
        gone = before - {number for number, sender in engine.senders.items() if not sender.cancelling}
        ended = {number: self.own.pop((face, number)) for number in gone}
        for note in effects.notes:
            self.tell_note(face, note, None, ended)
        self.step.over += [(face, session) for session, _ in effects.ups]
        return effects.ups

    def submit(self, face, block, is_piece=False):
        engine = self.faces[face].engine
        number = engine.next
        self.send_all(face, engine.submit(block, len(block), self.faces[face].moment))
        self.own[face, number] = block
        self.step.pieces += [(face, number, block)] * is_piece
        self.count("sessions_begun_total", face)
        return number

    def tick(self):
        self.step = Step()
        for face, each in self.faces.items():
            self.engine_part(face, lambda engine, at=each.moment: engine.tick(at))
        self.record()

    def arrive(self, face, datagram):
        self.step = Step()
        self.count("datagrams_received_total", face)
        self.count("received_bytes_total", face, more=len(datagram))
        at = self.faces[face].moment
        for session, body in self.engine_part(face, lambda engine: engine.arrive(datagram, at)):
            self.hand_over(face, session, body)
        self.record()

    def hand_over(self, face, session, body):
        other, subject = self.faces[OTHER[face]].engine, subject_of(body)
        case = case_of(body, VERSION[face], self.wall, MOST_SESSIONS - len(other.senders), SERIALS - other.next, self.cut)
        word, first = case.note[0], other.next
        for piece in case.out:
            self.submit(OTHER[face], piece, is_piece=True)
        event = {"Passed": "passed", "BadBundle": "bad_bundle", "Untranslated": "untranslated", **EVENTS}[word]
        self.count("blocks_total", face, event)
        if word == "Passed":
            self.say(event, face, session=session, subject=subject, first=first, pieces=len(case.out))
        elif word == "BadBundle":
            self.say(event, face, session=session, place=case.note[1], cause=str(case.note[2]))
        elif word == "Untranslated":
            self.say(event, face, session=session, subject=subject, cause=str(case.note[1]))
        else:
            self.say(event, face, session=session, subject=subject)
        if any(case.statuses()):
            self.report(face, session, subject, case)

    def report(self, face, session, subject, case):
        engine = self.faces[face].engine
        if (len(engine.senders) >= MOST_SESSIONS or engine.next >= SERIALS or self.wall < LEAST_NOW
                or self.reports == MOST_REPORTS):
            self.say("unreported", face, session=session, subject=subject)
            return
        octets = status_bundle(case, VERSION[face], self.wall, self.reports, self.name)
        self.reports += 1
        self.say("reported", face, session=session, subject=subject, report=self.submit(face, octets))

    # ---- the journal ----

    def record(self):
        """The records of a step, in their order."""
        if not self.journal:
            return
        kept, ids = self.journal.kept, self.journal.ids
        for face, session, how in self.step.ends:
            if (face, session) in ids:
                self.journal.add("done", ids.pop((face, session)), how)
        for face, session, block in self.step.pieces:
            ids[face, session] = self.journal.begin(FACES[face], block)
        for face, datagram in self.step.out:
            kind, (_, session), _ = read_segment(datagram)
            receiver = self.faces[face].engine.receivers.get(session)
            if kind == REPORT and not (receiver and receiver.handed_up) and not kept.is_marked(FACES[face], session):
                self.journal.add("mark", FACES[face], session, self.wall)
        for face, session, _ in [*kept.marks]:
            if ((OLD, NEW)[face], session) in self.step.over:
                self.journal.add("clear", face, session)

    def close_marked(self):
        """Sessions that earlier runs had claimed in part are closed, and their peers are told."""
        for face, session, _ in self.journal.kept.marks:
            each = self.faces[(OLD, NEW)[face]]
            name = each.engine.peer, session
            each.engine.arrive(written(RED, name, 1, 0, 1, body=b"\0"), self.wall)
            each.engine.arrive(written(SENDER_CANCEL, name, body=b"\0"), self.wall)
            each.put(written(RECEIVER_CANCEL, name, body=b"\4"))

    def resume(self, face):
        """Blocks of earlier runs that wait are begun, as long as sessions are free."""
        engine = self.faces[face].engine
        while len(engine.senders) < MOST_SESSIONS and engine.next < SERIALS:
            found = self.journal.waiting(FACES[face])
            if not found:
                return
            self.step = Step()
            session = self.submit(face, found[1])
            self.journal.ids[face, session] = found[0]
            self.say("resumed", face, session=session, subject=subject_of(found[1]))

    def commit(self):
        for face, at in FACES.items():
            number = self.faces[face].engine.next
            if number > self.journal.kept.reserved[at]:
                self.journal.add("reserved", at, min(number + journal_model.AHEAD, journal_model.NUMBERS))
        if self.journal.records:
            octets = journal_model.behind_gate(self.journal.records)
            self.journal.octets = self.journal.octets[:-1] + journal_model.OPEN + octets
            self.journal.records = []
            self.acts.append(["committed", octets.hex()])

    # ---- halves ----

    def half(self, face, wall, polled, fails_send, fails_show):
        """A half; `polled` has the datagrams that its polls give, and whether the last one failed."""
        self.wall, self.lines = wall, []
        for each in (OLD, NEW):
            told = self.faces[each].read(wall)
            if told:
                self.say(face=each, **told)
        if not self.is_begun:
            self.is_begun = True
            kept = self.journal.kept if self.journal else journal_model.Kept()
            self.say("start", first_session=[self.faces[each].engine.first for each in (OLD, NEW)], marks=len(kept.marks),
                     pending=len(kept.pending))
            if self.journal:
                self.close_marked()
        if self.journal:
            self.resume(OLD)
            self.resume(NEW)
        self.tick()
        datagrams, has_failed = polled
        for datagram in datagrams:
            self.arrive(face, datagram)
        if has_failed:
            self.count("poll_failures_total", face)
            self.say("poll_failed", face)
        if self.journal:
            self.commit()
        for each in (OLD, NEW):
            self.send(each, fails_send)
        for each in (OLD, NEW):
            self.tell_losses(each)
        self.acts += [["said", line] for line in self.lines]
        if self.journal and self.journal.is_large():
            self.journal.install()
            self.acts.append(["installed", self.journal.octets.hex()])
        self.show(fails_show)

    def send(self, face, fails):
        each = self.faces[face]
        while (datagram := each.next()) is not None:
            is_lost = fails(NAMES[face], each.calls)
            each.calls += 1
            if is_lost:
                each.failed += 1
                self.count("send_failures_total", face)
            else:
                self.count("datagrams_sent_total", face)
                self.count("sent_bytes_total", face, more=len(datagram))
            self.acts.append(["lost" if is_lost else "sent", NAMES[face], datagram.hex()])
        each.was_empty = not each.outbox

    def tell_losses(self, face):
        each = self.faces[face]
        if each.dropped:
            self.say("outbox_full", face, datagrams=each.dropped)
        if each.failed:
            self.say("send_failed", face, datagrams=each.failed)

    def show(self, fails):
        if not self.has_board or self.shown is not None and self.wall < self.shown + EVERY:
            return
        self.shown, self.lines = self.wall, []
        if fails(self.shows):
            self.say("metrics_failed")
            self.acts.append(["said", self.lines[0]])
        else:
            self.acts.append(["shown", self.metrics()])
        self.shows += 1

    def metrics(self):
        gauges = {}
        for face, each in self.faces.items():
            found = {"sending_sessions": len(each.engine.senders), "receiving_sessions": len(each.engine.receivers),
                     "outbox_datagrams": len(each.outbox), "outbox_bytes": each.octets,
                     "link_open": int(each.contact(each.seen) is not None), "next_contact_seconds": each.next_contact()}
            gauges.update(((name, face, None), value) for name, value in found.items())
        lines = []
        for name, kind, text, label, values in FAMILIES:
            lines += [f"# HELP fimdahol_{name} {text}", f"# TYPE fimdahol_{name} {kind}"]
            for face in (OLD, NEW):
                for value in values or [None]:
                    number = self.counts[name, face, value] if kind == "counter" else gauges[name, face, None]
                    more = f',{label}="{value}"' if label else ""
                    if number is not None:
                        lines.append(f'fimdahol_{name}{{face="{NAMES[face]}"{more}}} {number}')
        name = "fimdahol_journal_pending_pieces"
        lines += [f"# HELP {name} Pieces in the journal that haven't ended.", f"# TYPE {name} gauge",
                  f"{name} {len(self.journal.kept.pending) if self.journal else 0}"]
        return "".join(line + "\n" for line in lines)


def played(row):
    """How a run ends: its status, the line on standard error, its acts, for each reading how many came before it, and the
    journal's file after it."""
    gives = {"old": collections.deque(row["old"]), "new": collections.deque(row["new"])}
    journal = None if row.get("journal") is None else bytes.fromhex(row["journal"])
    try:
        run, before = Run(row["file"], row["readings"][0], journal), []
    except UsedUp as face:
        return 8, f"the session numbers of {face} are used up", [], [0], row["journal"]
    except Refused as damage:
        return 8, f"the journal is damaged: {damage.at} {damage.cause}", [], [0], row["journal"]
    for at, wall in enumerate(row["readings"]):
        face = (OLD, NEW)[at % 2]
        before.append(len(run.acts))
        run.half(face, wall, polled(gives[NAMES[face]]), lambda name, call: call in row["failing_sends"][name],
                 lambda call: call in row["failing_shows"])
    return 0, None, run.acts, [0, *before[1:]], run.journal.octets.hex() if run.journal else None


def polled(gives):
    """What the polls of a half come to: at most 256, the last of which gives nothing or fails."""
    datagrams = []
    while len(datagrams) < 256 and gives:
        given = gives.popleft()
        if given is None or given == "fail":
            return datagrams, given == "fail"
        datagrams.append(bytes.fromhex(given))
    return datagrams, False


# ---- checks ----

def check(path):
    count, wrong = 0, 0
    with open(path, encoding="utf-8") as rows:
        for number, text in enumerate(rows, 1):
            row = json.loads(text)
            count += 1
            status, error, acts, before, after = played(row)
            found = {"status": status, "error": error, "acts_before": before, "journal_after": after}
            differs = [name for name, value in found.items() if row.get(name, value) != value]
            if acts != row["acts"] or differs:
                wrong += 1
                print(*(f"run {number}: {name} {found[name]}, wanted {row[name]}" for name in differs), sep="\n")
                at = next((at for at, pair in enumerate(zip(acts, row["acts"])) if pair[0] != pair[1]),
                          min(len(acts), len(row["acts"])))
                print(f"run {number}: act {at}: {acts[at:at + 1]}, wanted {row['acts'][at:at + 1]}")
    print(f"{count} runs, {wrong} differ")
    return int(wrong > 0)


# ---- made runs ----

FILE = """[gateway]
endpoint = "ipn:9.0"
cut = {cut}
{journal}{metrics}[old]
bind = "a"
peer = "b"
first_session = 1
{old}[new]
bind = "c"
peer = "d"
first_session = {first}
{new}"""


def made_keys(draw, face, began):
    """Timers, a rate and contacts of a face, each in some runs."""
    keys = f"timeout_ms = {draw.choice([50, 300, 1000])}\nlimit = {draw.randrange(1, 4)}\n"
    if draw.random() < 0.4:
        keys += f"rate = {draw.choice([500, 2000, 100_000])}\n"
    if draw.random() < 0.2:
        keys += f"outbox = {draw.choice([65_507, 70_000])}\n"
    if draw.random() < 0.4:
        at = began - draw.randrange(500)
        for _ in range(draw.randrange(1, 4)):
            to = at + draw.randrange(1, 1500)
            keys += f"[[{face}.contact]]\nfrom = {moment_text(at)}\nto = {moment_text(to)}\n"
            at = to + draw.choice([0, 1, draw.randrange(1500)])
    return keys


def made_journal(draw, depth):
    """The journal's file at the start: none there yet, or what an earlier run left."""
    return "" if depth == 2 or draw.random() < 0.3 else made(draw.randrange(1 << 32), depth + 1)["journal_after"]


def made(seed, depth=0):
    """A run between two nodes that answer, over ways that lose and repeat."""
    draw = random.Random(seed)
    journal = made_journal(draw, depth) if depth or draw.random() < 0.5 else None
    began = 850_000_000_000 + draw.randrange(1_000_000)
    cut, metrics = draw.choice([50, 700, 65_536]), 'metrics = "m"\n' if draw.random() < 0.3 else ""
    # with a journal few numbers left are none for the next run
    first = draw.choice([1, 1, 127, (1 << 32) - 9] if journal is None else [1, 127])
    text = FILE.format(cut=cut, journal="" if journal is None else 'journal = "j"\n', metrics=metrics, first=first, old=made_keys(draw, "old", began),
                       new=made_keys(draw, "new", began))
    nodes = {"old": Engine(1, 2, policy=Policy(512, 400, 3, 1000)), "new": Engine(4, 3, policy=Policy(512, 400, 3, 1000))}
    blocks = {name: Made(draw, version, 2000, began, cut, 1500).items(16) for name, version in (("old", 6), ("new", 7))}
    row = {"seed": seed, "file": text, "turns": draw.randrange(3, 12), "readings": [], "old": [], "new": [],
           "failing_sends": {name: sorted(draw.sample(range(40), draw.randrange(3))) for name in ("old", "new")},
           "failing_shows": [0] if draw.random() < 0.1 else []}
    run, wall = Run(text, began, None if journal is None else bytes.fromhex(journal)), began
    on_way, before = {"old": [], "new": []}, []
    for at in range(2 * row["turns"]):
        face, name = (OLD, NEW)[at % 2], ("old", "new")[at % 2]
        if draw.random() < 0.4:
            effects = nodes[name].submit(block := draw.choice(blocks[name]), len(block), wall)
            on_way[name] += [datagram for datagram, in effects.out]
        on_way[name] += [datagram for datagram, in nodes[name].tick(wall).out]
        coming, on_way[name] = [each for each in on_way[name] if draw.random() > 0.1], []
        coming += [draw.choice(coming)] if coming and draw.random() < 0.2 else []
        fails = draw.random() < 0.05
        row["readings"].append(wall)
        row[name] += [each.hex() for each in coming[:255]] + (["fail"] if fails else [None])
        before.append(len(run.acts))
        run.half(face, wall, (coming[:255], fails), lambda name, call: call in row["failing_sends"][name],
                 lambda call: call in row["failing_shows"])
        for act in run.acts[before[-1]:]:
            if act[0] == "sent" and draw.random() > 0.1:
                answered = nodes[act[1]].arrive(bytes.fromhex(act[2]), wall)
                on_way[act[1]] += [datagram for datagram, in answered.out]
        wall += draw.choice([0, 1, 10, draw.randrange(400), draw.randrange(3000)])
    return {**row, "journal": journal, "status": 0, "error": None, "acts": run.acts, "acts_before": [0, *before[1:]],
            "journal_after": None if journal is None else run.journal.octets.hex()}


def main(words):
    if words[:1] == ["--runs"] and len(words) == 2:
        return check(words[1])
    if words[:1] == ["--make"] and len(words) == 3:
        for seed in range(int(words[2]), int(words[2]) + int(words[1])):
            print(json.dumps(made(seed)))
        return 0
    sys.stderr.write(__doc__.split("\n\n")[1] + "\n")
    return 2


if __name__ == "__main__":
    sys.exit(main(sys.argv[1:]))
