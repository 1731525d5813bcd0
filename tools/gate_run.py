#!/usr/bin/env python3
"""Plays an old node and a new node over loopback UDP against a running `gate`, and checks all that comes out.

usage: tools/gate_run.py [PROGRAM] [--bundles N] [--seconds S] [--loss PERCENT] [--repeats PERCENT] [--delays PERCENT]
                         [--largest OCTETS] [--seed N] [--rate OCTETS] [--contacts SECONDS]

The program is the one that this repository builds, where none is named. It is started here with a configuration of its
own, and stopped when all has come. So many bundles go from each node, of all sizes and kinds. Datagrams of both ways on
both links are lost, repeated and delayed by the seed. With a rate the new face sends no faster than so many octets a
second. With contacts the new face's link is open for so many seconds, closed for as many, and so on.
Status 0 where all of this holds, and 1 else:

- each line is a JSON object with its keys in alphabetical order, whose moment never falls;
- of each bundle of a block that a node sent there is one line, in order, which is the first case of gateway_model.py that
  holds; and one of a place at which no bundle stands;
- the sessions that it names bring exactly the pieces of that bundle's passage to the other node, with their ages kept;
- each of these sessions has a line that it was sent, and nothing failed or was cancelled;
- the metrics are a text of their format, and count the bundles and the sessions that the lines tell of, and the datagrams
  that come from another host, of which no line tells;
- at a rate the octets that come in any second, as the system stamps them, are no more than it allows;
- with contacts each datagram comes within one, or at most 50 ms after it, and each that opened or closed has its line.
"""
import collections
import json
import os
import random
import socket
import struct
import sys
import tempfile
import time

sys.dont_write_bytecode = True
sys.path.insert(0, os.path.dirname(os.path.abspath(__file__)))
from gateway_model import NEW, OLD, OTHER, SERIALS, SERVED, VERSION, Case, case_of, system_clock
from live_nodes import POLICY, Node, Program, Queues, Served, Trouble, gate_words, options_of, program_of
from made_bundles import Made
from metrics_format import samples_of
from peer_model import row_of

OPTIONS = {"bundles": 60, "seconds": 120, "loss": 3, "repeats": 3, "delays": 5, "largest": 100_000, "seed": 1, "rate": 0,
           "contacts": 0}
CUT = SERVED[1]
NAMES = {"old": OLD, "new": NEW}        # of the faces, in lines and metrics
STRANGER = "127.0.0.2"
FOREIGN = {OLD: 3, NEW: 200}    # how many datagrams the stranger sends to each face: no more than a socket's room takes
MOST_OPEN = 40              # sessions at a face of the gateway, of 64
MANY = 1 << 30              # pieces that may wait there
SLACK = 0.01                # seconds of a rate that may be owed at any moment, and a second's edges
LATE = 0.05                 # seconds after a contact: a half reads the clock once, and then sends
STAMPS = 35                 # SO_TIMESTAMPNS
EVENTS = {"BadBundle": "bad_bundle", "Untranslated": "untranslated", "Expired": "expired", "HopLimit": "hop_limit",
          "Storage": "storage", "Passed": "passed"}
TOLD = {"contact_opened", "contact_closed", "start"}
TROUBLE = {"failed", "cancelled", "evicted", "refused", "bad_bounds", "history_full", "metrics_failed", "outbox_full",
           "poll_failed", "send_failed", "stranger", "bad_segment", "unreported"}


class Wrong(Exception):
    """Something that isn't as it has to be."""


def must(holds, what):
    if not holds:
        raise Wrong(what)


class StampedSocket:
    """A node's socket, which remembers when each datagram came, by the system's clock, and how many octets it had."""

    def __init__(self, within):
        self.within, self.came = within, []
        within.setsockopt(socket.SOL_SOCKET, STAMPS, 1)

    def __getattr__(self, name):
        return getattr(self.within, name)

    def recv(self, most):
        datagram, told, _, _ = self.within.recvmsg(most, 64)
        seconds, nanoseconds = struct.unpack("qq", next(data for _, kind, data in told if kind == STAMPS))
        self.came.append((seconds + nanoseconds / 1e9, len(datagram)))
        return datagram


class Contacts:
    """Times at which a link is open, in turn with times at which it is closed, from two seconds ahead on."""

    def __init__(self, length, total):
        self.length, first = length, int(time.time()) + 2
        count = int(total / length / 2) + 2
        self.times = [(first + 2 * at * length, first + (2 * at + 1) * length) for at in range(count)]

    def tables(self, face):
        """The tables of a configuration."""
        def text(seconds):
            return time.strftime("%Y-%m-%dT%H:%M:%S", time.gmtime(seconds)) + f".{int(seconds % 1 * 1000):03}Z"
        return "".join(f"[[{face}.contact]]\nfrom = {text(since)}\nto = {text(to)}\n" for since, to in self.times)

    def holds(self, moment):
        return any(since <= moment <= to + LATE for since, to in self.times)

    def over(self):
        """How many have begun, and how many have ended."""
        now = time.time()
        return sum(since < now for since, _ in self.times), sum(to < now for _, to in self.times)


class Gated(Served):
    """A program that runs a gateway between an old node and a new node."""

    def __init__(self, path, folder, rate, contacts, troubles):
        self.queues = Queues(False)
        self.old = Node((1, 2), "127.0.0.1", self.queues, POLICY, *troubles[:2])
        self.new = Node((4, 3), "127.0.0.1", self.queues, POLICY, *troubles[2:])
        self.new.socket = StampedSocket(self.new.socket)
        self.nodes, self.metrics = [self.old, self.new], os.path.join(folder, "gate.prom")
        timers = "timeout_ms = 700\nlimit = 100\ncap_ms = 5000\n"
        more = (f"rate = {rate}\n" if rate else "") + (contacts.tables("new") if contacts else "")
        self.program = Program(path, gate_words(os.path.join(folder, "gate.toml"), self.nodes,
                                                f'age = "keep"\nmetrics = "{self.metrics}"\n', (timers, timers + more)))
        self.wait_for_sockets()


class Ledger:
    """Follows the program's lines, and knows what has to come of each block."""

    def __init__(self):
        self.cases, self.places = {OLD: {}, NEW: {}}, {OLD: collections.Counter(), NEW: collections.Counter()}
        self.told, self.pieces, self.sent = collections.Counter(), {OLD: {}, NEW: {}}, {OLD: set(), NEW: set()}
        self.at, self.judged, self.reports = "", {OLD: set(), NEW: set()}, 0

    def line(self, text):
        line = json.loads(text)
        must(list(line) == sorted(line) and text.endswith(b"}\n") and b'": ' not in text, f"the line {text}")
        must(line["at"] >= self.at, f"{line['at']} after {self.at}")
        self.at, event = line["at"], line["event"]
        self.told[event] += 1
        must(event not in TROUBLE, f"the line {text}")
        if event in EVENTS.values():
            self.case(NAMES[line["face"]], line)
        elif event == "reported":
            self.sent_later(NAMES[line["face"]], line["report"], None)
            self.reports += 1
        elif event == "sent":
            face = NAMES[line["face"]]
            must(line["session"] in self.pieces[face], f"{line} is of no session of the gateway's own")
            self.sent[face].add(line["session"])
        else:
            must(event in TOLD or event == "closed", f"the line {text}")

    def case(self, face, line):
        session = line["session"]
        must(session in self.cases[face] and session not in self.judged[face], f"{line} is of no block, or of one twice")
        cases, place = self.cases[face][session], self.places[face][session]
        must(line.get("index") == (place + 1 if len(cases) > 1 else None), f"{line} is at {place} of {len(cases)}")
        self.places[face][session] += 1
        if place + 1 == len(cases):
            self.judged[face].add(session)
        case = cases[place]
        must(line["event"] == EVENTS[case.note[0]], f"{line} where the case is {case.note}")
        if case.note[0] == "BadBundle":
            must((line["place"], line["cause"]) == (case.note[1], str(case.note[2])), f"{line}, {case.note}")
        if case.note[0] == "Passed":
            must(line["pieces"] == len(case.out), f"{line} where there are {len(case.out)} pieces")
            for number, octets in enumerate(case.out, line["first"]):
                self.sent_later(OTHER[face], number, octets)

    def sent_later(self, face, session, octets):
        must(session not in self.pieces[face], f"{face} {session} begins twice")
        self.pieces[face][session] = octets

    def open_at(self, face):
        return len(self.cases[face]) - len(self.judged[face])


def cases_of(block, version, now):
    """What becomes of each bundle of a block, and of the place at which none stands."""
    place = 0
    _, end = row_of(block, version)
    while place < len(block):
        case = case_of(block[place:], version, now, MANY, SERIALS, CUT)
        if case.note[0] == "BadBundle" and str(case.note[2]) == "Trailing":
            length = case.note[1]
            yield case_of(block[place:place + length], version, now, MANY, SERIALS, CUT)
            place += length
        elif case.note[0] == "BadBundle":
            yield Case(["BadBundle", end.at, end.cause])
            return
        else:
            yield case
            return
    if not block:
        yield Case(["BadBundle", 0, "Truncated"])


class Trial:
    """A run of the program between two nodes."""

    def __init__(self, path, options, folder):
        draw = random.Random(int(options["seed"]))
        troubles = [Trouble(draw.randrange(1 << 30), *(options[key] / 100 for key in ("loss", "repeats", "delays")))
                    for _ in range(4)]
        self.options, self.ledger, began = options, Ledger(), system_clock()
        self.items = {face: self.planned(draw, face, began) for face in (OLD, NEW)}
        self.contacts = Contacts(options["contacts"], options["seconds"]) if options["contacts"] else None
        self.gated = Gated(path, folder, int(options["rate"]), self.contacts, troubles)
        self.nodes = dict(zip((OLD, NEW), self.gated.nodes))

    def planned(self, draw, face, began):
        blocks = Made(draw, VERSION[face], int(self.options["largest"]), began, CUT).items(int(self.options["bundles"]))
        return collections.deque((block, list(cases_of(block, VERSION[face], began))) for block in blocks)

    def run(self):
        until = time.monotonic() + self.options["seconds"]
        while not self.is_done():
            must(time.monotonic() < until and not self.gated.program.has_ended(), f"not all is done: {self.left()}")
            for face, items in self.items.items():
                if items and self.has_room(face, items[0][1]):
                    block, cases = items.popleft()
                    self.ledger.cases[face][self.nodes[face].submit(block)] = cases
            self.gated.pump()
            while self.gated.program.lines:
                self.ledger.line(self.gated.program.lines.popleft())

    def has_room(self, face, cases):
        """Whether the gateway has sessions for one more block, whatever it still does with the others."""
        ledger, used = self.ledger, {}
        for place in (OLD, NEW):
            coming = [other for session, others in ledger.cases[OTHER[place]].items()
                      if session not in ledger.judged[OTHER[place]] for other in others]
            used[place] = (len(ledger.pieces[place]) - len(ledger.sent[place]) + sum(len(other.out) for other in coming)
                           + ledger.open_at(place))
        return (used[OTHER[face]] + sum(len(case.out) for case in cases) <= MOST_OPEN and used[face] < MOST_OPEN
                and len(self.nodes[face].engine.senders) < MOST_OPEN)

    def is_done(self):
        ledger = self.ledger
        return (not any(self.items.values()) and all(node.is_quiet() for node in self.nodes.values())
                and not any(ledger.open_at(face) or len(ledger.sent[face]) < len(ledger.pieces[face])
                            for face in (OLD, NEW)))

    def left(self):
        return {face: (len(self.items[face]), self.ledger.open_at(face),
                       len(self.ledger.pieces[face]) - len(self.ledger.sent[face])) for face in (OLD, NEW)}

    def judge(self):
        for face, node in self.nodes.items():
            for session, octets in self.ledger.pieces[face].items():
                must(session in node.came, f"session {session} of {face} didn't come")
                must(octets is None or node.came[session] == octets, f"session {session} of {face} came otherwise")
        came, rate = self.nodes[NEW].socket.came, int(self.options["rate"])
        if rate:
            self.judge_rate(rate, came)
        if self.contacts:
            self.judge_contacts(came)

    def judge_contacts(self, came):
        for at, octets in came:
            must(self.contacts.holds(at), f"{octets} octets came at {at}, while the link was closed: {self.contacts.times}")
        opened, closed = self.contacts.over()
        told = self.ledger.told["contact_opened"], self.ledger.told["contact_closed"]
        # Before the first contact the link is closed, which has a line too.
        must(abs(told[0] - opened) <= 1 and abs(told[1] - closed - 1) <= 1, f"{told}: {opened} opened, {closed} closed")

    def judge_rate(self, rate, came):
        """In no second more octets come than the rate allows, beside a datagram and what waits in a socket."""
        first, within = 0, 0
        for at, octets in came:
            within += octets
            while came[first][0] < at - 1:
                within -= came[first][1]
                first += 1
            must(within <= rate * (1 + SLACK) + 10_000, f"{within} octets came in a second")

    def send_foreign(self):
        """Lets a stranger send datagrams of no octets to both faces."""
        with socket.socket(socket.AF_INET, socket.SOCK_DGRAM) as stranger:
            stranger.bind((STRANGER, 0))
            for face, node in self.nodes.items():
                for _ in range(FOREIGN[face]):
                    stranger.sendto(b"", ("127.0.0.1", node.gate))

    def judge_metrics(self):
        """The metrics are written every ten seconds, so the last of them are waited for."""
        self.send_foreign()
        time.sleep(11)
        with open(self.gated.metrics, encoding="utf-8") as text:
            found = samples_of(text.read())
        for name, face in NAMES.items():
            passed = sum(case.note[0] == "Passed" for cases in self.ledger.cases[face].values() for case in cases)
            must(found[f'fimdahol_blocks_total{{face="{name}",case="passed"}}'] == passed, f"{name}: {passed} passed")
            begun = len(self.ledger.pieces[face])
            must(found[f'fimdahol_sessions_begun_total{{face="{name}"}}'] == begun, f"{name}: {begun} sessions begun")
            must(found[f'fimdahol_sessions_ended_total{{face="{name}",how="sent"}}'] == begun, f"{name}: {begun} sent")
            must(found[f'fimdahol_sending_sessions{{face="{name}"}}'] == 0, f"{name} still sends")
            foreign = found[f'fimdahol_foreign_datagrams_total{{face="{name}"}}']
            must(foreign == FOREIGN[face], f"{name}: {foreign} datagrams from elsewhere")


def main(words):
    path, words = program_of(words)
    options = options_of(words, OPTIONS)
    if options is None:
        print(__doc__.split("\n\n")[1], file=sys.stderr)
        return 2
    with tempfile.TemporaryDirectory() as folder:
        trial = Trial(path, options, folder)
        try:
            trial.run()
            trial.judge()
            trial.judge_metrics()
        except Wrong as wrong:
            print(f"gate_run: {wrong}", flush=True)
            return 1
        finally:
            trial.gated.program.child.kill()
            trial.gated.program.end()
    told = ", ".join(f"{count} {event}" for event, count in sorted(trial.ledger.told.items()))
    sent = sum(node.sent for node in trial.nodes.values())
    print(f"all right: {told}; {sent} datagrams of the nodes, {trial.gated.dropped()} dropped at the gateway's sockets")
    return 0


if __name__ == "__main__":
    sys.exit(main(sys.argv[1:]))
