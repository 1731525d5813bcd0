#!/usr/bin/env python3
"""Plays an old node and a new node over loopback UDP against a running `serve`, and checks all that comes out.

usage: tools/live_run.py [PROGRAM] [--bundles N] [--seconds S] [--loss PERCENT] [--repeats PERCENT] [--delays PERCENT]
                         [--largest OCTETS] [--seed N] [--turns N] [--ipv6] [--recordings FOLDER]

The program is the one that this repository builds, where none is named. tools/gateway_model.py is one too: on it this
was tried before the program had the command, and with faults planted there. The program is started here and ends by
itself when its turns are over; turns that are left in the end are used up by datagrams that it says nothing of. So many
bundles go from each node, of all sizes and kinds: whole ones and fragments, ones that are cut and ones that mayn't be,
hop counts and previous nodes, ones that ask for reports, and ones that are refused. Datagrams of both ways on both
links are lost, repeated and delayed by the seed, and false ones come between them. Into FOLDER go the files old and new,
which `audit 2 1` and `audit 3 4` read: all but the false datagrams that passed on either link.
Status 0 where all of this holds, and 1 else:

- each block that the program hands up is what the node sent under that number, and comes once;
- what it notes of it is the first case of gateway_model.py that holds;
- the sessions that it begins bring exactly the pieces of that bundle's passage, and the reports that were asked for;
- fragments are joined to the whole passage of the bundle that was cut;
- it notes nothing else, but false datagrams in their number, and late pieces of closed sessions, of which many come;
- each session of each side ends as sent, and the program ends with 0.
"""
import collections
import os
import random
import sys
import time

sys.dont_write_bytecode = True
sys.path.insert(0, os.path.dirname(os.path.abspath(__file__)))
from format_model import Refused
from fragment_model import Joiner
from gateway_model import (NEW, OLD, OTHER, SERIALS, SERVED, VERSION, bundle_of, case_of, octets_in, passage,
                           status_bundle, system_clock)
from live_nodes import GATE, RecordedSocket, Served, Trouble, idle_turns_a_second, options_of, program_of
from ltp_model import read_segment, written
from made_bundles import Made
from translate_model import Untranslated, record

OPTIONS = {"bundles": 150, "seconds": 150, "loss": 3, "repeats": 3, "delays": 5, "largest": 300_000, "seed": 1,
           "turns": 0, "ipv6": False}
CUT = SERVED[1]
MOST_OPEN, MOST_RECEIVED = 56, 40       # sessions at a face of the gateway, of 64
MANY_OCTETS = 4_000_000                 # from here on bundles of the most octets come too
QUIET, SECONDS_MORE = 1, 60


# ---- false datagrams ----

def false_datagram(draw, own):
    """A datagram that is no segment, or one of a stranger; and what an engine notes of it."""
    octets = written(3, (own, 1), 1, 0, 3, 2, 0, body=b"abc")
    octets = draw.choice([b"", octets[:draw.randrange(1, len(octets))], octets + b"x", b"\x10" + octets[1:],
                          b"\5" + octets[1:], draw.randbytes(20), written(3, (77, 1), 1, 0, 1, 2, 0, body=b"a"),
                          written(8, (own, 1), 1, 1, 2, 0, 0)])
    try:
        kind, name, _ = read_segment(octets)
    except Refused as refusal:
        return octets, f"BadSegment {refusal.at} {refusal.cause}"
    is_strange = name[0] != own or kind in (8, 13, 14)
    return (octets, "Stranger") if is_strange else (b"\xff", "BadSegment 0 Version")


# ---- what the program says ----

class Wrong(Exception):
    """Something that isn't as it has to be."""


def must(holds, what):
    if not holds:
        raise Wrong(what)


class Face:
    """What is known of a face of the gateway: its sessions, and what it has said."""

    def __init__(self):
        self.next, self.begun, self.sent = 1, {}, set()      # what its sessions bring, and which ended as sent
        self.ups, self.false, self.noted = set(), collections.Counter(), collections.Counter()


class Ledger:
    """Follows the program's lines, and knows what has to come to the nodes."""

    def __init__(self, nodes):
        self.nodes, self.cases = nodes, {OLD: {}, NEW: {}}
        self.faces = {OLD: Face(), NEW: Face()}
        self.reports, self.told, self.wanted = 0, collections.Counter(), []
        self.joins = {OLD: {}, NEW: {}}      # wholes that are to come to a face's node

    def line(self, text):
        words = text.decode().split()
        if words[0] == "up":
            self.up(words[1], int(words[2]), bytes.fromhex(words[3]))
        else:
            must(words[0] == "note" and words[1] in self.faces, f"the line {text[:80]}")
            self.note(words[1], words[2:])

    def up(self, face, session, body):
        must(not self.wanted, f"{self.wanted} isn't noted before the next block")
        must(session not in self.faces[face].ups, f"{face} {session} is handed up again")
        must(body == self.nodes[face].blocks.get(session), f"{face} {session} isn't handed up as it was sent")
        self.faces[face].ups.add(session)
        case = self.cases[face][session]
        self.wanted.append((face, [str(word) for word in [case.note[0], session, *case.note[1:]]]))
        if any(case.statuses()):
            self.wanted.append((face, ["Reported", str(session)]))

    def note(self, place, words):
        face = self.faces[place]
        if words[0] in ("BadSegment", "Stranger"):
            face.noted[" ".join(words)] += 1
        elif words[0] == "Sent":
            session = int(words[1])
            must(session < face.next and session not in face.sent, f"{place} {session} ends as sent, which can't be")
            face.sent.add(session)
        elif words[0] == "Closed":
            must(int(words[1]) in face.ups, f"{place} {words[1]} is closed and was never handed up")
        else:
            must(self.wanted[:1] == [(place, words)], f"{place} notes {words}, wanted {self.wanted[:1]}")
            del self.wanted[0]
            self.told[words[0]] += 1
            self.begin(place, words)

    def begin(self, place, words):
        """The sessions that a note stands for."""
        case = self.cases[place][int(words[1])]
        if words[0] == "Passed":
            other = self.faces[OTHER[place]]
            for octets in case.out:
                other.begun[other.next] = octets
                other.next += 1
            if len(case.out) > 1:
                full = passage(record(case.bundle))
                octets = octets_in(full, VERSION[OTHER[place]])
                self.joins[OTHER[place]][name_of(full)] = octets, case.bundle["fragment"]
        elif words[0] == "Reported":
            face = self.faces[place]
            face.begun[face.next] = case, self.reports
            face.next += 1
            self.reports += 1

    def open_at(self, face):
        return len(self.faces[face].begun) - len(self.faces[face].sent)


def name_of(full):
    return tuple(full["shared"][key] for key in ("source", "millis", "sequence"))


class Live:
    """A run of the program between two nodes."""

    def __init__(self, path, options, turns):
        draw = random.Random(int(options["seed"]))
        troubles = [Trouble(draw.randrange(1 << 30), *(options[key] / 100 for key in ("loss", "repeats", "delays")))
                    for _ in range(4)]
        self.draw, self.began = draw, system_clock()
        self.items = {face: self.planned(face, options) for face in (OLD, NEW)}
        self.served = Served(path, turns, options["ipv6"], troubles=troubles)
        self.nodes = dict(zip((OLD, NEW), self.served.nodes))
        self.ledger = Ledger(self.nodes)
        self.false = {OLD: collections.Counter(), NEW: collections.Counter()}
        self.lies, self.recordings = set(), {OLD: [], NEW: []}
        for face, node in self.nodes.items():
            self.record(node, self.recordings[face])

    def record(self, node, recording):
        """Keeps from now on what comes to the gateway's engine from this node, and what it sends to it."""
        def tell(goes, datagram):
            if datagram not in self.lies:
                recording.append(f"{'in' if goes else 'out'} {datagram.hex()}\n")
        node.socket = RecordedSocket(node.socket, tell)

    def planned(self, face, options):
        """The blocks of a node, each with its case."""
        made = Made(self.draw, VERSION[face], int(options["largest"]), self.began, CUT)
        blocks = made.items(int(options["bundles"]))
        if options["largest"] > CUT:
            blocks.append(made.largest_one())
        if options["largest"] >= MANY_OCTETS:
            blocks.append(made.too_long())
        return collections.deque((block, case_of(block, VERSION[face], self.began, 64, SERIALS, CUT))
                                 for block in blocks)

    def has_room(self, face, case):
        """Whether the gateway has sessions enough for one more block, whatever it still does with the others."""
        ledger = self.ledger
        used = {place: ledger.open_at(place) for place in (OLD, NEW)}
        for place, cases in ledger.cases.items():
            for session, other in cases.items():
                if session not in ledger.faces[place].ups:
                    used[OTHER[place]] += len(other.out)
                    used[place] += 1
        node = self.nodes[face]
        is_free = used[OTHER[face]] == 0 or used[OTHER[face]] + len(case.out) <= MOST_OPEN
        return is_free and used[face] < MOST_OPEN and len(node.engine.senders) + len(node.unanswered) < MOST_RECEIVED

    def send_some(self):
        """Sends the next block of each node for which there is room."""
        for face, items in self.items.items():
            if items and self.has_room(face, items[0][1]):
                block, case = items.popleft()
                session = self.nodes[face].submit(block)
                self.ledger.cases[face][session] = case
                if self.draw.random() < 0.3:
                    octets, note = false_datagram(self.draw, self.nodes[face].engine.own)
                    self.lies.add(octets)
                    self.nodes[face].outgoing.append(octets)
                    self.false[face][note] += 1

    def read_lines(self):
        while self.served.program.lines:
            self.ledger.line(self.served.program.lines.popleft())

    def is_done(self):
        ledger = self.ledger
        return (not any(self.items.values()) and all(node.is_quiet() for node in self.nodes.values())
                and all(len(ledger.faces[face].ups) == len(ledger.cases[face]) and not ledger.open_at(face)
                        for face in (OLD, NEW)))

    def run(self, seconds):
        """Sends all blocks, and waits till every session has ended; then old datagrams come again and bring nothing."""
        until = time.monotonic() + seconds
        self.wait_till_done(until, seconds)
        for node in self.nodes.values():
            node.outgoing.extend(node.there.old)
        quiet = time.monotonic() + QUIET
        while any(node.outgoing for node in self.nodes.values()) or time.monotonic() < quiet:
            self.served.pump()
            self.read_lines()
        self.wait_till_done(until + SECONDS_MORE, seconds + SECONDS_MORE)

    def wait_till_done(self, until, seconds):
        while not self.is_done():
            self.send_some()
            self.served.pump()
            self.read_lines()
            must(time.monotonic() < until, f"not all is done in {seconds:g} seconds: {self.left()}")
            must(not self.served.program.has_ended() or self.served.program.lines,
                 f"the program ended before all was done (--turns gives it more): {self.left()}")

    def left(self):
        ledger = self.ledger
        return ", ".join(f"{face} has {len(self.items[face])} blocks to come, {len(self.nodes[face].engine.senders)} "
                         f"sessions of the node's, {ledger.open_at(face)} of its own" for face in (OLD, NEW))

    def judge(self):
        """What came to the nodes, and what was noted besides."""
        must(not self.ledger.wanted, f"{self.ledger.wanted} isn't noted")
        is_exact = self.dropped == 0
        for place, face in self.ledger.faces.items():
            node = self.nodes[place]
            odd = sorted(set(node.came) ^ set(face.begun))
            must(not odd, f"{place}: the sessions {odd[:9]} came and weren't begun, or else were begun and didn't come")
            for session, wanted in face.begun.items():
                self.judge_block(place, session, node.came[session], wanted)
            self.judge_joins(place, node)
            bad = {note: (face.noted[note], self.false[place][note]) for note in face.noted | self.false[place]
                   if face.noted[note] != self.false[place][note] and is_exact or face.noted[note] >
                   self.false[place][note]}
            must(not bad, f"{place} noted false datagrams and got them so often: {bad}")
            must(all(note[0] in ("Sent", "Closed") for note in node.notes), f"the node of {place} notes "
                 f"{[note for note in node.notes if note[0] not in ('Sent', 'Closed')][:3]}")

    def judge_block(self, place, session, octets, wanted):
        if isinstance(wanted, tuple):
            case, count = wanted
            first, second = bundle_of(octets, VERSION[place])["creation"]
            now = 1000 * first + second % 1000 if VERSION[place] == 6 else first
            must(self.began - 1000 <= now <= system_clock() + 1000, f"{place} {session}: a report of the moment {now}")
            wanted = status_bundle(case, VERSION[place], now, count, GATE)
        must(octets == wanted, f"{place} {session} brings {octets[:60].hex()}.., wanted {wanted[:60].hex()}..")

    def judge_joins(self, place, node):
        """The pieces of each bundle that was cut are its passage again."""
        joiner, wholes = Joiner(), dict(self.ledger.joins[place])
        for session in sorted(node.came):
            try:
                full = record(bundle_of(node.came[session], VERSION[place]))
            except (Refused, Untranslated):
                continue
            if full["shared"]["fragment"] and wholes.get(name_of(full), (None, True))[1] is None:
                word, whole = joiner.add(full)
                if word == "Whole":
                    wanted, _ = wholes.pop(name_of(full))
                    is_same = octets_in(whole, VERSION[place]) == wanted
                    must(is_same, f"the pieces up to {place} {session} join to another bundle")
        left = [name for name, (_, fragment) in wholes.items() if fragment is None]
        must(not left, f"pieces of {left[:3]} are missing")

    def end(self):
        self.dropped = self.served.dropped()
        for node in self.nodes.values():
            node.socket = node.socket.socket
        status = self.served.use_up()
        self.read_lines()
        must(status == 0, f"the program ends with {status}")


def main(words):
    path, words = program_of(words)
    folder = None
    if "--recordings" in words[:-1]:
        at = words.index("--recordings")
        folder, words = words[at + 1], words[:at] + words[at + 2:]
    options = options_of(words, OPTIONS)
    if options is None:
        sys.stderr.write(__doc__.split("\n\n")[1] + "\n")
        return 2
    rate = idle_turns_a_second(path, options["ipv6"])
    began = time.monotonic()
    live = None
    try:
        size = options["bundles"] * 20_000 + options["largest"]
        turns = int(options["turns"] or rate * options["seconds"] + size / 100 + 20 * options["bundles"])
        live = Live(path, options, turns)
        live.run(options["seconds"])
        ran = time.monotonic() - began
        live.end()
        live.judge()
    except Wrong as wrong:
        print(f"live_run: {wrong}", flush=True)
        if live:
            live.served.use_up(60)
        return 1
    for face, name in ((OLD, "old"), (NEW, "new")) if folder else ():
        with open(os.path.join(folder, name), "w", encoding="ascii") as file:
            file.writelines(live.recordings[face])
    told = ", ".join(f"{count} {word}" for word, count in sorted(live.ledger.told.items()))
    lost = sum(trouble.lost for node in live.nodes.values() for trouble in (node.there, node.back))
    print(f"live_run: {told}; {sum(len(node.came) for node in live.nodes.values())} blocks came out as they had to; "
          f"{sum(node.sent for node in live.nodes.values())} datagrams went in, {lost} were lost on the ways; "
          f"{ran:.1f} s, {turns} turns, of which an idle second has {rate:.0f}")
    return 0


if __name__ == "__main__":
    sys.exit(main(sys.argv[1:]))
