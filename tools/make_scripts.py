#!/usr/bin/env python3
"""Makes scripts of `world`, and judges a transcript of each by what may be relied on.

usage: tools/make_scripts.py COUNT SEED [PROGRAM]     judges so many; the same ones for a seed
       tools/make_scripts.py --make COUNT SEED        writes them, a line of JSON for each, with what the model answers
       tools/make_scripts.py --spoil COUNT SEED       spoils a place of each transcript, and counts those that pass then

Without a PROGRAM the transcripts are those of tools/gateway_model.py; else they have to be the same as those, too. A
script sends bundles from both ends, delivers datagrams in and out of order, once, again or never, and moves the clock;
most end with a drain. Of a transcript these are judged, over the `sent`, `up` and `note` lines and the script alone:

- each `up` line gives the whole block that the peer of its place submitted under that number, and there is one at most
  for a place and a session;
- at an end it is a piece of the passage of a bundle that the other end sent, or a report of the gateway on a bundle
  that this end sent; and each of these comes once at most;
- what becomes of each block that came to the gateway is noted, and a report on it where that is asked for; and what a
  sender notes as sent was handed up;
- where the world was hopeful at the drain and had room, each session that was open or begun then was handed up and ends
  as sent, and the number of events is within the cost.

Hopeful, room and cost are counted over the model's world by their definitions.
"""
import collections
import json
import os
import random
import subprocess
import sys

sys.dont_write_bytecode = True
sys.path.insert(0, os.path.dirname(os.path.abspath(__file__)))
from format_model import Refused
from fragment_model import pieces
from gateway_model import (DONE, NEW, NUMBERS, OLD, OTHER, PATH, VERSION, Case, Script, bundle_of, octets_in,
                           passed_pieces, realistic, status_bundle, world)
from ltp_model import CHECKPOINTS, MOST_SESSIONS, PIECES, SERIALS, read_segment
from made_bundles import Made
from translate_model import Untranslated, record

START = 1_000_000_000_000
CUTS = (1, 40, 1000, 65_536)
ENDS = {"old": "o", "new": "n"}
PEERS = {"o": OLD, OLD: "o", NEW: "n", "n": NEW}
PLACES = {"o": "o", "n": "n", OLD: "g", NEW: "g"}
CASES = ("BadBundle", "Untranslated", "Expired", "HopLimit", "Storage", "Passed")
MOST_RUNS = 65_536
FAR = SERIALS - (1 << 22)        # the serials and numbers below which a world is hopeful
CLEAN = 16                       # events of a session besides one for each segment
ANY_REASON = {"Untranslated": 0, "Expired": 1, "HopLimit": 9, "Storage": 4, "Passed": 0}


# ---- scripts ----

class Maker:
    """A script that is made line by line, as the world becomes by then."""

    def __init__(self, draw):
        self.draw, self.script, self.lines = draw, Script(), []
        cut, limit = draw.choice(CUTS), draw.choice([2, 3, 10, 100, 100])
        self.timeout = draw.choice([1, 500, 10_000])
        path = f"path {draw.choice(['ipn:9.0', 'dtn://gate/'])} {draw.choice([512, 1024, 8192])} {self.timeout} {limit}"
        path += f" {cut} {START}" + draw.choice(["", f" {self.timeout * draw.choice([1, 4, 16])}"])
        most = min(3000, 30 * cut)
        self.made = {end: Made(draw, VERSION[ENDS[end]], 3 * cut, START, cut, most) for end in ENDS}
        self.items = {end: collections.deque(made.items(12)) for end, made in self.made.items()}
        self.at = 0                  # datagrams below it were delivered or lost
        self.say(path)

    def say(self, line):
        self.lines.append(line)
        return self.script.event(line.encode())

    def send(self):
        end = self.draw.choice(list(ENDS))
        if self.items[end]:
            self.say(f"send {end} {self.items[end].popleft().hex()}")

    def deliver_next(self):
        """The datagrams that weren't looked at yet; some are left for later, some come twice, and some never come."""
        sent = len(self.script.world.sent)
        for k in range(self.at, min(sent, self.at + self.draw.randrange(1, 12))):
            self.at = k + 1
            for _ in range(self.draw.choice([0, 1, 1, 1, 1, 1, 1, 2])):
                self.say(f"deliver {k}")

    def deliver_any(self):
        sent = len(self.script.world.sent)
        if sent:
            self.say(f"deliver {self.draw.randrange(max(0, sent - 40), sent)}")

    def clock(self):
        world = self.script.world
        due = world.next_deadline()
        moments = [world.now + self.draw.randrange(2 * self.timeout)]
        if due is not None:
            moments += [due - 1, due, due]
        moment = min(self.draw.choice(moments), START + 3_000_000)
        self.say(f"clock {moment}")

    def make(self):
        """The script's lines."""
        is_calm = self.draw.random() < 0.5
        for _ in range(self.draw.randrange(5, 60)):
            what = self.draw.random()
            if what < 0.25:
                self.send()
            elif what < 0.7:
                self.deliver_next()
            elif what < 0.85:
                self.deliver_any()
            elif not is_calm or what < 0.88:
                self.clock()
        if self.draw.random() < 0.85:
            self.lines.append("drain")
        return self.lines


def made(seed, count):
    """So many scripts of `world`; the first is that of a large bundle, drained through."""
    draw = random.Random(seed)
    yield f"{PATH}\nsend old {realistic().hex()}\ndrain\n".encode()
    for _ in range(count - 1):
        yield ("\n".join(Maker(draw).make()) + draw.choice(["", "\n"])).encode()


# ---- what a world was at its drain ----

class Link:
    """A link of a world: the two ends of it, and what the gateway may still begin at them."""

    def __init__(self, kept, node, face):
        self.engines = {node: kept.nodes[node], face: kept.gate.faces[face]}

    def senders(self):
        """Each place, a session that is sent from there, and the engine to which it goes."""
        for place, engine in self.engines.items():
            for session in engine.senders.values():
                yield place, session, self.engines[PEERS[place]]


def is_unknown(engine, number):
    return number not in engine.receivers and number not in engine.closed


def is_hopeful(kept):
    """No session is given up, no timer is at its limit, and no number near its end."""
    for link in (Link(kept, "o", OLD), Link(kept, "n", NEW)):
        for engine in link.engines.values():
            sessions = [*engine.senders.values(), *engine.receivers.values()]
            serials = [session.checkpoint + 1 for session in engine.senders.values()]
            serials += [session.serial for session in engine.receivers.values()]
            if any(session.cancelling or session.waiting and session.sent >= engine.policy.limit
                   for session in sessions) or max([*serials, engine.next]) >= FAR:
                return False
        if any(session.name[1] in to.closed for _, session, to in link.senders()):
            return False
    return True


def piece_count(block, version, cut):
    """How many pieces a block may become at the gateway."""
    try:
        return len(pieces(record(bundle_of(block, version)), cut))
    except (Refused, Untranslated) as fault:
        return int(str(fault) == "MustNot")


def begun_at(kept):
    """How many sessions each face may begin for those on their way to it and to the other."""
    begun = {OLD: 0, NEW: 0}
    for node, face in (("o", OLD), ("n", NEW)):
        for number, session in kept.nodes[node].senders.items():
            engine = kept.gate.faces[face]
            received = engine.receivers.get(number)
            if number not in engine.closed and not (received and received.handed_up):
                begun[OTHER[face]] += piece_count(session.block, VERSION[face], kept.gate.cut)
                begun[face] += 1
    return begun


def has_room(kept):
    """Whether all that is sent and may be begun finds a session."""
    begun = begun_at(kept)
    for link in (Link(kept, "o", OLD), Link(kept, "n", NEW)):
        for place, engine in link.engines.items():
            peer = link.engines[PEERS[place]]
            coming = sum(is_unknown(engine, number) for number in peer.senders) + begun.get(PEERS[place], 0)
            kept_there = len(engine.receivers) + coming
            if (len(engine.senders) + begun.get(place, 0) > MOST_SESSIONS or kept_there > MOST_SESSIONS
                    or engine.closed_runs + kept_there > MOST_RUNS):
                return False
    return True


def cost_of(kept, transcript):
    """The events that a drain may have: those of the sessions that are kept, and of those that are begun in it."""
    cost = 0
    for link in (Link(kept, "o", OLD), Link(kept, "n", NEW)):
        for place, engine in link.engines.items():
            received = link.engines[PEERS[place]].receivers
            cost += sum(len(session.segments) + CLEAN for session in engine.senders.values())
            cost += sum(CLEAN for number in received if number not in engine.senders)
            for number, offsets in transcript.offsets[place].items():
                cost += len(offsets) + CLEAN if number >= engine.next else 0
    return cost


# ---- transcripts ----

class Wrong(Exception):
    """Something that a transcript may not say."""


def must(holds, what):
    if not holds:
        raise Wrong(what)


class Transcript:
    """What a transcript says, by place: sent blocks, red parts, and notes; and the bundles of the script."""

    def __init__(self, script, lines):
        self.bundles = {"o": [], "n": []}          # by session, from 1 on: what an end was told to send
        self.cells = {place: collections.defaultdict(dict) for place in PEERS}
        self.ends = {place: {} for place in PEERS}
        self.offsets = {place: collections.defaultdict(set) for place in PEERS}
        self.ups = {place: [] for place in PEERS}
        self.notes, self.sessions_sent = collections.Counter(), {place: [] for place in PEERS}
        self.sent, self.events = 0, None
        words = script[0].split()
        self.gate, self.cut = words[1], int(words[5])
        for line in lines:
            self.read(line.split())
        self.take_sends(script[1:], sum(self.notes[place, "refused"] for place in ENDS.values()))

    def read(self, words):
        if words[0] == "sent":
            must(int(words[1]) == self.sent, f"datagram {words[1]} isn't the next")
            self.sent += 1
            self.take(words[2], bytes.fromhex(words[3]))
        elif words[0] == "up":
            self.ups[words[1]].append((int(words[2]), bytes.fromhex(words[3])))
        elif words[0] == "note":
            self.notes[words[1], " ".join(words[2:])] += 1
            if words[2] == "Sent":
                self.sessions_sent[words[1]].append(int(words[3]))
            if words[2] in CASES:
                self.notes[words[1], "case", int(words[3]), words[2]] += 1
        elif words[0] == "end":
            self.events = int(words[1])
        elif words[0] == "refused" and words[1] != "deliver":
            self.notes[words[1], "refused"] += 1

    def take(self, route, datagram):
        """What a datagram tells of the block of its session."""
        kind, (originator, session), content = read_segment(datagram)
        place = next(place for place in PEERS if NUMBERS[place][0] == originator)
        if kind not in PIECES:
            return
        must(route == f"{PLACES[place]}>{PLACES[PEERS[place]]}", f"a piece of {place} {session} goes {route}")
        offset, cells = content["offset"], self.cells[place][session]
        for at, octet in enumerate(content["body"], offset):
            must(cells.setdefault(at, octet) == octet, f"{place} {session} sends two octets for place {at}")
        self.offsets[place][session].add(offset)
        if kind in CHECKPOINTS[1:]:
            self.ends[place][session] = offset + len(content["body"])

    def block(self, place, session):
        """The block that a place sent under a number."""
        cells = self.cells[place].get(session, {})
        return bytes(cells[at] for at in range(len(cells))) if max(cells, default=-1) + 1 == len(cells) else None

    def take_sends(self, lines, refused):
        """The blocks of the script that were sent, each with its number."""
        for word, end in ENDS.items():
            asked = [bytes.fromhex(line.split()[2]) for line in lines if line.startswith(f"send {word} ")]
            numbers = iter(range(1, len(asked) + 1))
            number = next(numbers, None)
            for octets in asked:
                if number is not None and self.block(end, number) == octets:
                    self.bundles[end].append(octets)
                    number = next(numbers, None)
                else:
                    refused -= 1
        must(refused == 0, "not as many sends are refused as weren't sent")


def passages(transcript, end):
    """What the pieces of each bundle that an end sent are on the other side, with how often each may come."""
    allowed = collections.Counter()
    for octets in transcript.bundles[end]:
        try:
            full = record(bundle_of(octets, VERSION[end]))
            allowed.update(octets_in(piece, 13 - VERSION[end]) for piece in passed_pieces(full, transcript.cut))
        except (Refused, Untranslated):
            continue
    return allowed


def reports(transcript, end):
    """For each report that came to an end, whether it is one on a bundle of its own that was handed up."""
    face, subjects = PEERS[end], []
    for session, octets in transcript.ups[face]:
        words = [word for word in ANY_REASON if transcript.notes[face, "case", session, word]]
        if words:
            subjects.append((words[0], bundle_of(octets, VERSION[end])))
    return [Case([word], bundle, ANY_REASON[word]) for word, bundle in subjects]


def is_report(octets, version, cases, gate):
    """The case of which octets are the report, or None."""
    try:
        bundle = bundle_of(octets, version)
    except Refused:
        return None
    first, second = bundle["creation"]
    now, count = (1000 * first + second % 1000, second // 1000) if version == 6 else (first, second)
    for case in cases:
        if any(case.statuses()) and status_bundle(case, version, now, count, gate) == octets:
            return case
    return None


def judge_ups(transcript):
    """Each red part is whole, once and as sent; at an end it is a piece or a report, each of which comes once."""
    for place, ups in transcript.ups.items():
        must(len({session for session, _ in ups}) == len(ups), f"{place} hands up a session twice")
        for session, body in ups:
            peer = PEERS[place]
            must(body == transcript.block(peer, session), f"{place} {session} isn't the block that {peer} sent")
            must(transcript.ends[peer].get(session) == len(body), f"{place} {session} isn't whole")
    for end, other in (("o", "n"), ("n", "o")):
        allowed, cases = passages(transcript, other), reports(transcript, end)
        for session, body in transcript.ups[end]:
            if allowed[body]:
                allowed[body] -= 1
                continue
            case = is_report(body, VERSION[end], cases, transcript.gate)
            must(case is not None, f"{end} {session} is no piece of what {other} sent, nor a report")
            cases.remove(case)


def judge_notes(transcript):
    """What became of each block at the gateway is noted once, and what ends as sent was handed up."""
    for face in (OLD, NEW):
        for session, octets in transcript.ups[face]:
            words = [word for word in CASES for _ in range(transcript.notes[face, "case", session, word])]
            must(len(words) == 1, f"{face} {session} has the notes {words}")
            is_asked = words[0] != "BadBundle" and any(
                Case(words, bundle_of(octets, VERSION[face])).statuses())
            found = transcript.notes[face, f"Reported {session}"] + transcript.notes[face, f"Unreported {session}"]
            must(found == is_asked, f"{face} {session} has {found} notes of a report")
    for place, peer in PEERS.items():
        handed_up = {session for session, _ in transcript.ups[peer]}
        for session in transcript.sessions_sent[place]:
            must(session in handed_up, f"{place} {session} ends as sent, and {peer} didn't hand it up")


def judge_end(transcript, kept):
    """What a drain completes that had every hope: the sessions that are kept, and those that are begun."""
    cost = cost_of(kept, transcript)
    must(transcript.events <= cost, f"{transcript.events} events, and the cost is {cost}")
    for link in (Link(kept, "o", OLD), Link(kept, "n", NEW)):
        for place, engine in link.engines.items():
            begun = [number for number in transcript.offsets[place] if number >= engine.next]
            handed_up = {session for session, _ in transcript.ups[PEERS[place]]}
            for number in [*engine.senders, *begun]:
                must(transcript.notes[place, f"Sent {number}"] == 1, f"{place} {number} doesn't end as sent")
                must(number in handed_up, f"{place} {number} isn't handed up at {PEERS[place]}")

def world_before_drain(script):
    """The model's world where a script's drain begins."""
    state = Script()
    for line in script[:-1]:
        state.event(line.encode())
    return state.world


def judge(script, lines):
    """Judges a transcript; answers whether its drain had every hope."""
    transcript = Transcript(script, lines)
    judge_ups(transcript)
    judge_notes(transcript)
    if script[-1] != "drain":
        return False
    kept = world_before_drain(script)
    must(transcript.events is not None, "the drain has no end")
    if not is_hopeful(kept) or not has_room(kept):
        return False
    judge_end(transcript, kept)
    return True


# ---- running it ----

def lines_of_run(program, octets):
    if program is None:
        return world(octets)
    done = subprocess.run([program, "world"], input=octets, capture_output=True, timeout=600)
    return done.stdout.decode().splitlines(), done.returncode


def judged(count, seed, program):
    """Judges so many scripts, and says what was found."""
    seen = collections.Counter()
    for at, octets in enumerate(made(seed, count), 1):
        script = octets.decode().rstrip("\n").split("\n")
        lines, status = lines_of_run(program, octets)
        seen["lines"] += len(lines)
        try:
            must(status == DONE, f"status {status}")
            must(program is None or (lines, status) == world(octets), "the transcript isn't the model's")
            seen["hopeful"] += judge(script, lines)
            seen["drains"] += script[-1] == "drain"
            seen["handed up at an end"] += sum(line.startswith(("up o", "up n")) for line in lines)
        except Wrong as wrong:
            seen["wrong"] += 1
            print(f"make_scripts: script {at} of seed {seed}: {wrong}")
    print(f"make_scripts: {count} scripts, " + ", ".join(f"{seen[word]} {word}" for word in
          ("lines", "drains", "hopeful", "handed up at an end", "wrong")))
    return int(seen["wrong"] > 0)


def spoiled(draw, lines):
    """A transcript that is wrong at one place, and what was done to it; or None."""
    kinds = [("an up again", "up "), ("another octet", "up "), ("an up left out", "up "), ("more events", "end "),
             ("a note left out", "note g.")]
    name, start = draw.choice(kinds)
    found = [at for at, line in enumerate(lines) if line.startswith(start)]
    if not found:
        return None
    at = draw.choice(found)
    if name == "an up again":
        return name, lines[:at] + [lines[at]] + lines[at:]
    if name == "another octet":
        return name, lines[:at] + [lines[at][:-1] + ("0" if lines[at][-1] != "0" else "1")] + lines[at + 1:]
    if name == "more events":
        return name, lines[:-1] + ["end 1000000"]
    return name, lines[:at] + lines[at + 1:]


def spoil(count, seed):
    """How many transcripts that were made wrong pass all the same; a note that nothing hangs on may be left out."""
    draw, seen = random.Random(seed), collections.Counter()
    for octets in made(seed, count):
        script = octets.decode().rstrip("\n").split("\n")
        changed = spoiled(draw, world(octets)[0])
        if changed is None:
            continue
        try:
            is_sure = judge(script, changed[1])
            seen[changed[0], f"passes{', and the drain was hopeful' if is_sure else ''}"] += 1
        except Wrong:
            seen[changed[0], "is found"] += 1
    for (name, what), number in sorted(seen.items()):
        print(f"{number} with {name}: {what}")
    return 0


def main(words):
    if words[:1] == ["--make"] and len(words) == 3:
        for octets in made(int(words[2]), int(words[1])):
            lines, status = world(octets)
            text = "".join(line + "\n" for line in lines)
            print(json.dumps({"words": ["world"], "input": octets.decode(), "status": status, "output": text}))
        return DONE
    if words[:1] == ["--spoil"] and len(words) == 3:
        return spoil(int(words[1]), int(words[2]))
    if len(words) not in (2, 3):
        sys.stderr.write(__doc__.split("\n\n")[1] + "\n")
        return 2
    return judged(int(words[0]), int(words[1]), os.path.abspath(words[2]) if words[2:] else None)


if __name__ == "__main__":
    sys.exit(main(sys.argv[1:]))
