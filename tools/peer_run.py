#!/usr/bin/env python3
"""Lets a gateway stand between nodes that behave as ION and HDTN do, over loopback UDP, and checks all that comes out.

usage: tools/peer_run.py OLD-NEW [PROGRAM | --model] [--bundles N] [--seconds S] [--loss PERCENT] [--repeats PERCENT]
                         [--delays PERCENT] [--largest OCTETS] [--cut OCTETS] [--delay SECONDS] [--remember N] [--small N]
                         [--gather OCTETS] [--seed N]
       tools/peer_run.py OLD-NEW --anew [PROGRAM | --model] [--bundles N] [--seconds S] [--seed N]
       tools/peer_run.py --gathering [PROGRAM | --model] [--bundles N] [--delay SECONDS]

OLD and NEW are `ion` or `hdtn`: who is at the old face and who at the new one. The gateway is `gate` of the program
that this repository builds, or of PROGRAM, or tools/peer_model.py; it has a configuration that is written here. So
many bundles go from each node, and --small more of three octets from the old one. ION and the gateway towards it gather
--gather octets (3000) in a block; with 0 each bundle has a session of its own. Datagrams of all four ways are lost,
repeated and delayed by the seed, and all of them come after so many seconds. With --anew none is; but the old node
leaves half a block behind, waits until the gateway has forgotten its numbers, and begins again with earlier ones. With
--gathering bundles of 100 octets go from ION to ION, of which the gateway puts one into each block, and then as many
as 4,000 octets hold; it says how many come in a second. Status 0 where all of this holds:

- each line is a JSON object with its keys in alphabetical order, whose moment never falls; none tells of trouble;
- of each bundle of each block there is one line, in order, which is the first case of gateway_model.py that holds, and
  of what comes after the last one there is a line with its place and its cause;
- each bundle that passed, and each report that was asked for, comes to the bundle layer of the other node once and as it
  has to be, and nothing else comes; an age is raised by no more than the time that the bundle was under way, and by no
  less than it waits where it goes alone;
- each session of each side ends as sent, and pings are answered;
- old datagrams that come again in the end bring nothing;
- where the gateway is told by --remember how many runs of session numbers it may know, no line tells of more;
- the memory of the gateway is as large in the end as it was after half of the bundles, but for a few percent.
"""
import collections
import json
import os
import random
import sys
import tempfile
import time

sys.dont_write_bytecode = True
sys.path.insert(0, os.path.dirname(os.path.abspath(__file__)))
from format_model import Fields
from gate_model import shown_of
from gateway_model import NEW, OLD, OTHER, SERIALS, VERSION, bundle_of, case_of, status_bundle, system_clock
from hdtn_peer import HdtnNode
from ion_peer import IonNode
from live_nodes import GATE, Program, Queues, Served, Trouble, free_port, gate_words, options_of, program_of
from ltp_model import Policy
from made_bundles import Made
from peer_model import Types
from peer_nodes import Way, bundles_in
from translate_model import MARK, Untranslated, octets_of, record, translated, view6, view7

OPTIONS = {"bundles": 100, "seconds": 120, "loss": 3, "repeats": 3, "delays": 5, "largest": 100_000, "cut": 65_536,
           "delay": 0, "remember": 0, "small": 0, "gather": 3000, "seed": 1, "model": False, "anew": False}
GATHERING = {"bundles": 600, "delay": 1, "model": False}
MODEL = os.path.join(os.path.dirname(os.path.abspath(__file__)), "peer_model.py")
NAMES = {"old": OLD, "new": NEW}
NUMBERS = {OLD: (1, 2), NEW: (4, 3)}
ION_TYPES = 200, 201            # of residues and wraps towards ION, which has 192 to 197 for itself
GATHER_MS = 200
LATE_MS = 100                   # what lies between a reading of the gateway's clock and what it then takes
SESSIONS, OF_GATE = 64, 128      # of a node, and of the gateway, at which one is open until its report is acknowledged
AGE, MANY = 7, 1 << 30
EVENTS = {"BadBundle": "bad_bundle", "Untranslated": "untranslated", "Expired": "expired", "HopLimit": "hop_limit",
          "Storage": "storage", "Passed": "passed"}
TOLD = {"start", "closed", "green", "began", "sent", "reported", "forgotten", *EVENTS.values()} - {"storage"}
GROWTH = 1.05, 2048             # of the memory: a factor, and kilobytes besides
QUIET = 1
REMEMBER_MS = 4000              # for how long numbers are remembered where a node begins anew
EARLIER = 3                     # how far back its numbers go


class Wrong(Exception):
    """Something that isn't as it has to be."""


def must(holds, what):
    if not holds:
        raise Wrong(what)


# ---- bundles ----

class PeerMade(Made):
    """Bundles as other implementations make them too: with blocks of their own types, and with ages."""

    def foreign(self):
        bundle = self.plain(self.size())
        kinds = [5, 8, 19, 20, 192, 193, 197] if self.version == 6 else [192, 193, 194, 195, 196, 197]
        bodies = [self.draw.randbytes(7), b"", MARK if self.version == 7 and self.is_ion else b"x"]
        chosen = self.draw.sample(kinds, 3)
        bundle["blocks"][:0] = [self.block(kind, 2 + at, self.draw.choice(bodies)) for at, kind in enumerate(chosen)]
        return self.octets(bundle)

    def aged(self):
        """In version 6 an age stands in a wrap."""
        made = PeerMade(self.draw, 7, self.largest, self.started, self.cut, self.most)
        made.count = 1_000_000 + self.count
        self.count += 1
        bundle = made.plain(self.draw.choice([3, 100]))
        bundle["blocks"].insert(0, made.block(AGE, 2, bytes([0x1A]) + (70_000 + made.count).to_bytes(4, "big")))
        return octets_of(bundle if self.version == 7 else translated(bundle))

    def items(self, count):
        usual = super().items(count - count // 3)
        more = [self.draw.choice((self.foreign, self.aged, self.aged))() for _ in range(count // 3)]
        self.draw.shuffle(usual)
        return [each for pair in zip(usual, more + [None] * len(usual)) for each in pair if each is not None]


def case_at(octets, version, types, now, cut):
    """The case of a bundle on the wire, with its pieces on the other wire."""
    bundle = bundle_of(octets, version)
    case = case_of(octets_of(types.swapped(bundle)), version, now, MANY, SERIALS, cut)
    case.out = [octets_of(types.swapped(bundle_of(piece, 13 - version))) for piece in case.out]
    return case


def age_of(octets, version, types):
    """A bundle without its age, and its age; where it has none itself, and None."""
    if version == 6 and MARK not in octets or version == 7 and b"\x07" not in octets[20:]:
        return octets, None
    try:
        full, ages, exts = record(types.swapped(bundle_of(octets, version))), [], []
    except Untranslated:
        return octets, None
    for of, block in full["exts"]:
        if (of, block["kind"]) == (7, AGE):
            ages.append(Fields(bytes.fromhex(block["body"])).unsigned())
            block = {**block, "body": "00"}
        exts.append((of, block))
    if not ages:
        return octets, None
    return octets_of((view6 if version == 6 else view7)({**full, "exts": exts})), ages[0]


# ---- what the gateway says ----

class Block:
    """A block of a node: the bundles whose lines are still to come, each with its index, and what comes after them."""

    def __init__(self, bundles, version, types, now, cut):
        found, self.end = bundles_in(b"".join(bundles), version)
        self.is_numbered = len(found) > 1 or bool(found and self.end)
        self.left = collections.deque((index, each, case_at(each, version, types, now, cut))
                                      for index, each in enumerate(found, 1))
        self.report, self.count = None, len(found) + 1

    def is_judged(self):
        return not self.left and self.end is None and self.report is None


class Ledger:
    """Follows the gateway's lines, and knows what has to come to each node."""

    def __init__(self, nodes, types, now, cut, gathers):
        self.nodes, self.types, self.now, self.cut, self.gathers = nodes, types, now, cut, gathers
        self.blocks, self.told, self.at = {}, collections.Counter(), ""
        self.wanted = {OLD: collections.defaultdict(list), NEW: collections.defaultdict(list)}
        self.reports, self.pieces = [], collections.Counter()
        self.begun = {}                         # how many pieces are in each block that was gathered
        self.most_runs = self.least_stay = 0    # what is known of the runs that are known, and of what gathers
        self.sent, self.halves = {OLD: set(), NEW: set()}, 0       # `halves` are sessions that nobody goes on with

    def block(self, face, session):
        if (face, session) not in self.blocks:
            must(session in self.nodes[face].blocks, f"a line of session {session}, which {face} never had")
            self.blocks[face, session] = Block(self.nodes[face].blocks[session], VERSION[face], self.types, self.now,
                                               self.cut)
        return self.blocks[face, session]

    def line(self, text):
        line = json.loads(text)
        must(list(line) == sorted(line) and text.endswith(b"}\n") and b'": ' not in text, f"the line {text}")
        must(line["at"] >= self.at, f"{line['at']} after {self.at}")
        self.at, event, face = line["at"], line["event"], NAMES.get(line.get("face"))
        self.told[event] += 1
        is_half = event == "evicted" and face == OLD and self.told[event] <= self.halves
        must(event in TOLD or is_half, f"the line {text}")
        if event in EVENTS.values():
            self.case(face, line)
        elif event == "reported":
            self.reported(face, line)
        elif event == "began":
            must(self.gathers[face] and (face, line["session"]) not in self.begun, f"the line {line}")
            self.begun[face, line["session"]] = line["bundles"]
        elif event == "sent":
            self.ended(face, line)
        elif event == "green":
            must(line["session"] in self.nodes[face].greens, f"{line}, which didn't come so")
        elif event == "forgotten":
            must(line["runs"] <= self.most_runs, f"{line} where {self.most_runs} may be known")

    def ended(self, face, line):
        session = line["session"]
        must(session not in self.sent[face], f"{line} is told twice")
        must(line.get("bundles", 1) == self.begun.get((face, session), 1), f"{line} began otherwise")
        self.sent[face].add(session)

    def case(self, face, line):
        block = self.block(face, line["session"])
        must(block.report is None, f"{line} where a report has to be told")
        if line["event"] == "bad_bundle":
            must(not block.left and block.end, f"{line} where there is none")
            must((line["place"], line["cause"]) == (block.end.at, str(block.end.cause)), f"{line}, wanted {block.end}")
            index, block.end = block.count, None
        else:
            must(block.left, f"{line} is of no bundle, or of one twice")
            index, octets, case = block.left.popleft()
            bundle = bundle_of(octets, VERSION[face])
            must(line["event"] == EVENTS[case.note[0]], f"{line} where the case is {case.note}")
            must(line["subject"] == shown_of(bundle), f"{line} is of {shown_of(bundle)}")
            block.report = (index, case) if any(case.statuses()) else None
            if case.note[0] == "Passed":
                self.passed(face, line, case)
        must(line.get("index") == (index if block.is_numbered else None), f"{line} is of bundle {index} of its block")

    def passed(self, face, line, case):
        other, began = OTHER[face], self.nodes[face].began_at[line["session"]]
        must(line["pieces"] == len(case.out), f"{line} where there are {len(case.out)} pieces")
        must(("first" in line) != self.gathers[other], f"the line {line}")
        self.pieces[other] += len(case.out)
        for piece in case.out:
            octets, age = age_of(piece, VERSION[other], self.types)
            self.wanted[other][octets].append((age, began, self.least_stay if self.gathers[other] else 0))

    def reported(self, face, line):
        block = self.block(face, line["session"])
        must(block.report, f"{line} where none was asked for")
        index, case = block.report
        block.report = None
        must(line.get("index") == (index if block.is_numbered else None), f"{line} is of bundle {index} of its block")
        must(("report" in line) != self.gathers[face], f"the line {line}")
        self.reports.append((face, case))
        self.pieces[face] += 1

    # ---- what came ----

    def take(self, face, octets, at):
        """A bundle came to the bundle layer of a node."""
        bundle = bundle_of(octets, VERSION[face])
        if bundle["source"] == GATE:
            self.take_report(face, octets, bundle["creation"])
            return
        key, age = age_of(octets, VERSION[face], self.types)
        must(self.wanted[face].get(key), f"a bundle came to {face} that wasn't wanted, or once more: {octets[:60].hex()}..")
        was, began, least = self.wanted[face][key].pop(0)
        must(was is None or least <= age - was <= at - began + LATE_MS,
             f"{face}: an age of {was} came as {age}, and it was under way for {least} to {at - began} ms")
        if not self.wanted[face][key]:
            del self.wanted[face][key]

    def take_report(self, face, octets, creation):
        first, second = creation
        now, count = (1000 * first + second % 1000, second // 1000) if VERSION[face] == 6 else creation
        must(count < len(self.reports) and self.reports[count] is not None, f"a report came to {face} once more")
        to, case = self.reports[count]
        must(face == to, f"a report for {to} came to {face}")
        wanted = status_bundle(case, VERSION[face], now, count, GATE)
        must(octets == wanted and self.now - 1000 <= now <= system_clock() + 1000, f"the report {octets.hex()}")
        self.reports[count] = None

    # ---- whether all is done ----

    def judged(self):
        return sum(block.is_judged() for block in self.blocks.values())

    def is_done(self):
        """Whether all blocks were told of, as much came as has to, and each session of the gateway's has ended."""
        return (self.judged() == sum(len(node.blocks) for node in self.nodes.values())
                and all(len(node.came) >= self.pieces[face] and len(self.sent[face]) == self.sessions(face)
                        for face, node in self.nodes.items()))

    def sessions(self, face):
        """How many sessions of the gateway's began at a face, as far as all is told."""
        if not self.gathers[face]:
            return self.pieces[face]
        counts = [bundles for (at, _), bundles in self.begun.items() if at == face]
        return len(counts) if sum(counts) == self.pieces[face] else None

    def forget(self, face):
        """The sessions of a face's node, all of which have ended."""
        self.blocks = {name: block for name, block in self.blocks.items() if name[0] != face}

    def left(self):
        blocks = sum(len(node.blocks) for node in self.nodes.values())
        return (f"{blocks - self.judged()} of {blocks} blocks aren't told of; " + ", ".join(
            f"{face}: {len(node.came)} of {self.pieces[face]} bundles came, {len(self.sent[face])} of "
            f"{self.sessions(face)} sessions ended, the node has {len(node.engine.senders)}"
            for face, node in self.nodes.items()))

    def judge(self):
        """Each bundle came that had to, once, and no other."""
        for face, node in self.nodes.items():
            for octets, at in zip(node.came, node.came_at):
                self.take(face, octets, at)
            must(not self.wanted[face], f"{len(self.wanted[face])} bundles didn't come to {face}")
        must(not any(self.reports), "reports didn't come")


# ---- a run ----

def keys_of(kind, face, timeout, gather, more):
    """The keys of a face of the gateway towards a kind of node."""
    keys = f"timeout_ms = {timeout}\nlimit = 100\ncap_ms = {max(5000, timeout)}\nfirst_session = 1\n"
    keys += "".join(f"{key} = {value}\n" for key, value in more.items())
    if gather:
        keys += f"aggregate = {gather}\naggregate_ms = {GATHER_MS}\n"
    if face == NEW and kind == "ion":
        keys += "residue_block = {}\nwrap_block = {}\n".format(*ION_TYPES)
    return keys


class Between(Served):
    """A gateway between two nodes."""

    def __init__(self, path, folder, kinds, gathers, troubles, delay, cut, draw, more):
        """`gathers` says how many octets are gathered at each face; a node of the kind of ION does as the gateway does."""
        timeout = int(700 + 3000 * delay)
        self.queues, policy = Queues(False), Policy(1024, timeout, 100, max(5000, timeout))
        self.nodes = [self.node_of(kind, face, policy, [Way(trouble, delay) for trouble in pair], gathers[face], draw)
                      for kind, face, pair in zip(kinds, (OLD, NEW), (troubles[:2], troubles[2:]))]
        keys = [keys_of(kind, face, timeout, gathers[face], others)
                for kind, face, others in zip(kinds, (OLD, NEW), more)]
        words = gate_words(os.path.join(folder, "gate.toml"), self.nodes, f"cut = {cut}\n", keys)
        self.program = Program(path, words)
        self.wait_for_sockets()

    def node_of(self, kind, face, policy, ways, gather, draw):
        gate = f"127.0.0.1:{free_port('127.0.0.1')}"
        words = VERSION[face], NUMBERS[face], "127.0.0.1:0", gate, policy, *ways, self.queues
        more = {"draw": random.Random(draw.randrange(1 << 30)), "sessions": SESSIONS}
        if kind == "ion":
            return IonNode(*words, gather=gather, gather_seconds=GATHER_MS / 1000, claims=2, others=2, **more)
        return HdtnNode(*words, ping=0.5, **more)


class Trial:
    """A run of a gateway between two nodes, each with its bundles."""

    def __init__(self, path, kinds, options, folder):
        draw, self.options, self.began = random.Random(int(options["seed"])), options, system_clock()
        troubles = [Trouble(draw.randrange(1 << 30), *(options[key] / 100 for key in ("loss", "repeats", "delays")))
                    for _ in range(4)]
        self.cut, self.kinds, gathers = int(options["cut"]), kinds, {OLD: 0, NEW: 0}
        for face, kind in zip((OLD, NEW), kinds):
            gathers[face] = int(options["gather"]) if kind == "ion" else 0
        more = {"sessions": OF_GATE, **({"remember": int(options["remember"])} if options["remember"] else {})}
        of_old = {**more, "remember_ms": REMEMBER_MS} if options["anew"] else more
        self.between = Between(path, folder, kinds, gathers, troubles, options["delay"], self.cut, draw, (of_old, more))
        self.nodes, self.program = dict(zip((OLD, NEW), self.between.nodes)), self.between.program
        types = Types(*(ION_TYPES if kinds[1] == "ion" else (192, 193)))
        self.ledger = Ledger(self.nodes, types, self.began, self.cut, {face: bool(wanted) for face, wanted in
                                                                       gathers.items()})
        self.ledger.most_runs, self.half_way = options["remember"] / 2, None
        largest = int(options["largest"])
        self.made = {face: PeerMade(draw, VERSION[face], largest, self.began, self.cut, min(20_000, largest))
                     for face in (OLD, NEW)}
        for face, kind in zip((OLD, NEW), kinds):
            self.made[face].is_ion = kinds[1] == "ion"
            self.give(self.nodes[face], self.made[face], kind)
        for _ in range(int(options["small"])):
            self.nodes[OLD].send(self.made[OLD].octets(self.made[OLD].plain(3)))

    def give(self, node, made, kind):
        """A node gets its bundles, the largest first; ION sends some without asking for an answer."""
        node.send(made.largest_one())
        for octets in made.items(int(self.options["bundles"])):
            node.send(octets)
        for _ in range(3 if kind == "ion" else 0):
            node.send_green(made.sized())

    def pump(self):
        self.between.pump()
        while self.program.lines:
            self.ledger.line(self.program.lines.popleft())

    def run(self):
        """All bundles go; then one with an age by itself, for as long as the gateway gathers; then old datagrams."""
        until = time.monotonic() + self.options["seconds"]
        self.wait_till_done(until)
        if self.options["anew"]:
            self.begin_anew(until)
            return
        self.ledger.least_stay = GATHER_MS - 2
        for face, node in self.nodes.items():
            node.send(self.made[face].aged())
            self.wait_till_done(until)
        self.repeat()

    def begin_anew(self, until):
        """The old node leaves half a block behind, and uses numbers anew that the gateway has forgotten."""
        node, made = self.nodes[OLD], self.made[OLD]
        session, self.ledger.halves = node.leave_half(made.octets(made.plain(5000))), 1
        self.pump_for(3 * REMEMBER_MS / 1000 + QUIET)
        must(self.ledger.told["evicted"] == 1, "half a session is still open")
        self.judge_ends(OLD, node)
        node.begin_anew(session - EARLIER)
        node.others = 0
        self.ledger.forget(OLD)
        self.give(node, made, self.kinds[0])
        self.wait_till_done(until)

    def pump_for(self, seconds):
        until = time.monotonic() + seconds
        while time.monotonic() < until:
            self.pump()

    def wait_till_done(self, until):
        half = self.options["bundles"] + self.options["small"] / 2
        while not (self.ledger.is_done() and all(node.is_quiet() for node in self.nodes.values())):
            must(time.monotonic() < until, f"not all is done: {self.ledger.left()}")
            must(not self.program.has_ended(), f"the gateway ended with {self.program.child.returncode}")
            self.pump()
            if self.half_way is None and sum(len(node.came) for node in self.nodes.values()) >= half:
                self.half_way = self.program.kilobytes("VmHWM")

    def repeat(self):
        """Old datagrams come again, and bring nothing."""
        for node in self.nodes.values():
            node.there.waiting.extend((0, datagram) for datagram in node.there.trouble.old)
        quiet = time.monotonic() + QUIET + 2 * self.options["delay"]
        while any(node.there.waiting for node in self.nodes.values()) or time.monotonic() < quiet:
            self.pump()

    def judge_ends(self, face, node):
        others = [note for note in node.notes if note[0] not in ("Sent", "Closed")]
        must(not others and not node.left, f"{face} notes {others[:3]}, and is left with {node.left[:1]}")
        sent = [note[1] for note in node.notes if note[0] == "Sent"]
        must(sorted(sent) == sorted(node.blocks), f"not each session of {face} ended as sent")
        must(not getattr(node, "pings", None) or node.answered, f"no ping of {face} was answered")

    def judge(self):
        must(self.ledger.is_done(), f"something came again: {self.ledger.left()}")
        self.ledger.judge()
        for face, node in self.nodes.items():
            self.judge_ends(face, node)
        must(self.ledger.told["green"] or not any(getattr(node, "greens", None) for node in self.nodes.values()),
             "no green data was told of")
        self.at_end = self.program.kilobytes("VmHWM")
        self.half_way = self.half_way or self.at_end
        most = GROWTH[0] * self.half_way + GROWTH[1]
        must(self.at_end <= most, f"the gateway's memory grew from {self.half_way} to {self.at_end} kB")

    def summary(self):
        told = ", ".join(f"{count} {event}" for event, count in sorted(self.ledger.told.items()))
        ways = [way for node in self.nodes.values() for way in (node.there, node.back)]
        several = sum(getattr(node.engine, "several", 0) for node in self.nodes.values())
        return (f"{told}; {sum(len(node.came) for node in self.nodes.values())} bundles came; "
                f"{sum(node.sent for node in self.nodes.values())} datagrams of the nodes, "
                f"{sum(way.trouble.lost for way in ways)} lost on the ways; {several} checkpoints with several reports, "
                f"{sum(getattr(node, 'answered', 0) for node in self.nodes.values())} pings answered; at most "
                f"{self.half_way} kB after half, {self.at_end} kB in the end")


def played(path, kinds, options):
    """A run; answers the status."""
    began = time.monotonic()
    with tempfile.TemporaryDirectory() as folder:
        trial = Trial(path, kinds, options, folder)
        try:
            trial.run()
            ran = time.monotonic() - began
            trial.judge()
        except Wrong as wrong:
            print(f"peer_run: {wrong}", flush=True)
            return 1
        finally:
            trial.program.child.kill()
            trial.program.end()
    print(f"all right in {ran:.1f} s: {trial.summary()}")
    return 0


# ---- bundles a second ----

def plain_bundles(count, began):
    """Bundles of version 6 with 100 octets each."""
    made = Made(random.Random(1), 6, 100, began, 65_536)
    return [made.octets(made.plain(100)) for _ in range(count)]


def came_in(path, folder, gather, options):
    """How long it takes until so many bundles have come, from the moment at which they begin."""
    troubles, draw = [Trouble() for _ in range(4)], random.Random(1)
    gathers = {OLD: OPTIONS["gather"], NEW: gather}
    more = {"sessions": SESSIONS}, {"sessions": SESSIONS}
    between = Between(path, folder, ("ion", "ion"), gathers, troubles, options["delay"], 65_536, draw, more)
    try:
        count, (old, new) = int(options["bundles"]), between.nodes
        for octets in plain_bundles(count, system_clock()):
            old.send(octets)
        began = time.monotonic()
        while len(new.came) < count:
            must(not between.program.has_ended() and time.monotonic() < began + 300, f"{len(new.came)} came")
            between.pump()
        return time.monotonic() - began
    finally:
        between.program.child.kill()
        between.program.end()


def gathering(path, options):
    """Bundles a second with one in a block, and with as many as 4,000 octets hold; answers the status."""
    count, delay = int(options["bundles"]), options["delay"]
    with tempfile.TemporaryDirectory() as folder:
        for gather, what in ((0, "one in a block"), (4000, "gathered up to 4,000 octets")):
            took = came_in(path, folder, gather, options)
            print(f"{what}: {count} bundles of 100 octets in {took:.1f} s at a round trip of {2 * delay:g} s, "
                  f"{count / took:.0f} a second", flush=True)
    return 0


def main(words):
    kinds = words[0].split("-") if words else []
    is_gathering, rest = words[:1] == ["--gathering"], words[1:]
    if not is_gathering and (len(kinds) != 2 or not set(kinds) <= {"ion", "hdtn"}):
        sys.stderr.write(__doc__.split("\n\n")[1] + "\n")
        return 2
    path = MODEL
    if "--model" not in rest:
        path, rest = program_of(rest)
    options = options_of(rest, GATHERING if is_gathering else OPTIONS)
    if options is None:
        sys.stderr.write(__doc__.split("\n\n")[1] + "\n")
        return 2
    if options.get("anew"):
        options.update(loss=0, repeats=0, delays=0)
    return gathering(path, options) if is_gathering else played(path, kinds, options)


if __name__ == "__main__":
    sys.exit(main(sys.argv[1:]))
