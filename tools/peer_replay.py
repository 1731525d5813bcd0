#!/usr/bin/env python3
"""Holds the tables of whole runs of `gate` against the model of such a gateway.

usage: tools/peer_replay.py

The rows are those of crates/gate_vectors/src/table.rt, but for those in which a call fails, and of
crates/crash_vectors/src/rows.rt, which keep a journal. For each, tools/peer_model.py makes what goes out, the lines, and
the journal's octets after each turn (journal_model.py); all of it must be as the row says. Metrics aren't looked at.
"""
import collections
import os
import re
import sys
import tomllib

sys.dont_write_bytecode = True
TOOLS = os.path.dirname(os.path.abspath(__file__))
sys.path.insert(0, TOOLS)
import journal_model
from gate_model import NAMES, polled
from gateway_model import NEW, OLD
from ltp_model import REPORT, SENDER_CANCEL_ACK, read_segment
from peer_laws import played
from peer_model import Gateway, text_of

CRATES = os.path.join(os.path.dirname(TOOLS), "crates")
FACES = {OLD: 0, NEW: 1}
LIST = r"&\[(.*?)\]"
PLAIN = re.compile(
    r'Run \{\s*file: r#"(?P<file>.*?)"#,\s*readings: ' + LIST.replace("(", "(?P<readings>", 1)
    + r",\s*gives: \[\s*" + LIST.replace("(", "(?P<old>", 1) + r",\s*" + LIST.replace("(", "(?P<new>", 1)
    + r",?\s*\],\s*failing: \[(?P<failing>.*?)\],\s*showing: " + LIST.replace("(", "(?P<showing>", 1)
    + r',\s*made: r#"(?P<made>.*?)"#', re.S)
KEPT = re.compile(
    r'fn (?P<name>\w+)\(\) -> Row \{\s*Row \{\s*file: (?:plain_file\(\)|r#"(?P<file>.*?)"#),\s*readings: '
    + LIST.replace("(", "(?P<readings>", 1) + r",\s*gives: \[\s*" + LIST.replace("(", "(?P<old>", 1) + r",\s*"
    + LIST.replace("(", "(?P<new>", 1) + r',?\s*\],\s*made: r#"(?P<made>.*?)"#,\s*ends: '
    + LIST.replace("(", "(?P<ends>", 1) + r',\s*before: "(?P<before>.*?)",\s*files: '
    + LIST.replace("(", "(?P<files>", 1) + r",\s*\}", re.S)


# ---- the tables ----

def source(crate, name):
    with open(os.path.join(CRATES, crate, "src", name), encoding="utf-8") as text:
        return text.read()


def texts(part):
    """The texts of a list, with the lines joined that a stroke breaks."""
    return [re.sub(r"\\\s*\n\s*", "", text) for text in re.findall(r'"([^"]*)"', part)]


def numbers(part):
    return [int(number) for number in re.findall(r"\d+", part)]


def gives(found):
    """What the polls give; the model knows nothing of datagrams from elsewhere, each a `+` before what a poll gives."""
    given = {name: [text.lstrip("+") for text in texts(found[name])] for name in NAMES.values()}
    return {name: [None if text == "-" else text for text in each] for name, each in given.items()}


# ---- runs without a journal ----

def plain_rows():
    for table in re.finditer(r"const (\w+): &\[Run\] = &\[(.*?)\n\];", source("gate_vectors", "table.rt"), re.S):
        for place, found in enumerate(PLAIN.finditer(table[2])):
            yield f"{table[1]} {place}", found


def is_plain_alike(found):
    row = {"file": found["file"], "readings": numbers(found["readings"]), **gives(found),
           "failing_sends": {name: [] for name in NAMES.values()}}
    made = found["made"].split("\n")
    wanted = [line for line in made if line.startswith("{") and '"metrics_failed"' not in line]
    lines, sent = played(row)
    return lines == wanted and [" ".join(act) for act in sent] == [line for line in made if line.startswith("sent ")]


# ---- runs with a journal ----

class Kept:
    """A run of the model with a journal: what it made, and the journal's octets."""

    def __init__(self, file, wall, before):
        self.kept, _ = journal_model.read(before)
        firsts = [file[name].get("first_session", wall // 1000 % (1 << 31) + 1) for name in NAMES.values()]
        for name, first in zip(NAMES.values(), self.kept.recover(wall, firsts)):
            file[name]["first_session"] = first
        faces = {number: face for face, number in FACES.items()}
        pending = [(ident, faces[face], more[-1], more[0] if len(more) > 1 else None)
                   for ident, (face, *more) in self.kept.pending.items()]
        marks = [(faces[face], session) for face, session, _ in self.kept.marks]
        self.gateway = Gateway(file, wall, pending, marks, True)
        self.gateway.next_id = self.kept.greatest + 1
        self.octets, self.made, self.records = self.kept.file(), ["installed"], []

    def add(self, *record):
        self.records.append([*record])
        self.kept.apply([*record])

    def record(self, step):
        """The records of a step: ends, pieces, marks and what is over."""
        for record in step.records:
            if record[0] == "done":
                self.add(*record)
        for record in step.records:
            if record[0] == "begun":
                self.add("begun", record[1], FACES[record[2]], *record[3:])
        over = [(face, session) for face, session, _ in step.ups]
        for face, datagram in step.out:
            kind, (_, session), _ = read_segment(datagram)
            kept = self.gateway.faces[face].engine.receivers.get(session)
            if kind == REPORT and not (kept and kept.handed_up) and not self.kept.is_marked(FACES[face], session):
                self.add("mark", FACES[face], session, self.gateway.wall)
            elif kind == SENDER_CANCEL_ACK:
                over.append((face, session))
        for face, session, _ in [*self.kept.marks]:
            if ((OLD, NEW)[face], session) in over:
                self.add("clear", face, session)

    def commit(self):
        for face, place in FACES.items():
            number = self.gateway.faces[face].engine.next
            if number > self.kept.reserved[place]:
                self.add("reserved", place, min(number + journal_model.AHEAD, journal_model.NUMBERS))
        if self.records:
            self.octets = self.octets[:-1] + journal_model.OPEN + journal_model.behind_gate(self.records)
            self.records = []
            self.made.append("committed")

    def half(self, face, wall, queue, is_first):
        steps = [self.gateway.start() if is_first else self.gateway.read(wall)]
        lines = [*steps[0].lines]
        for act in (self.gateway.resume, self.gateway.tick):
            lines += self.took(act())
        datagrams, has_failed = polled(queue)
        for datagram in datagrams:
            lines += self.took(self.gateway.arrive(face, datagram))
        lines += [{"event": "poll_failed", "face": NAMES[face]}] if has_failed else []
        self.commit()
        for place, each in self.gateway.faces.items():
            while (datagram := each.next()) is not None:
                self.made.append(f"sent {NAMES[place]} {datagram.hex()}")
            each.was_empty = not each.outbox
        self.made += [text_of(wall, line)[:-1] for line in lines]

    def took(self, step):
        self.record(step)
        return step.lines


def kept_rows():
    text = source("crash_vectors", "rows.rt")
    plain = re.search(r'fn plain_file\(\).*?r#"(.*?)"#', text, re.S)[1]
    for found in KEPT.finditer(text):
        yield found["name"], found, found["file"] or plain


def is_kept_alike(found, file):
    readings, ends, files = (numbers(found["readings"]), numbers(found["ends"]), texts(found["files"]))
    queues = {name: collections.deque(given) for name, given in gives(found).items()}
    run = Kept(tomllib.loads(file), readings[0], bytes.fromhex(texts(f'"{found["before"]}"')[0]))
    for place, wall in enumerate(readings):
        face = (OLD, NEW)[place % 2]
        run.half(face, wall, queues[NAMES[face]], place == 0)
        if place % 2 == 1:
            made = "".join(line + "\n" for line in run.made)
            if made != found["made"][:ends[place // 2]] or run.octets.hex() != files[place // 2]:
                return False
    return True


def main():
    plain, kept = [*plain_rows()], [*kept_rows()]
    written = source("gate_vectors", "table.rt").count(" made: r#"), source("crash_vectors", "rows.rt").count(" made: r#")
    if (len(plain), len(kept)) != written:
        print(f"{len(plain)} and {len(kept)} rows are read, of {written[0]} and {written[1]}")
        return 1
    alike = {name: is_plain_alike(found) for name, found in plain if "true" not in found["failing"]}
    alike.update({name: is_kept_alike(found, file) for name, found, file in kept})
    for name, is_alike in alike.items():
        if not is_alike:
            print(f"{name} differs")
    print(f"{sum(alike.values())} rows are alike, {len(alike) - sum(alike.values())} differ")
    return int(not all(alike.values()))


if __name__ == "__main__":
    sys.exit(main())
