#!/usr/bin/env python3
"""Made events at the model of a gateway among other implementations, and what has to hold of it whatever comes.

usage: tools/peer_laws.py --laws COUNT SEED     as many runs of some hundred events each, at faces with little memory
       tools/peer_laws.py --today COUNT SEED    runs that gate_model.py makes, which the model has to make alike

Of the laws, after each event: sessions, what is kept of what is sent, octets of unfinished blocks and runs of numbers are
within their bounds; no block that begins is refused, and none of its datagrams is dropped for want of memory; pieces go
once and in order, and none waits that may go; a session's number opens anew only where no red piece came for the
time, or numbers were forgotten early since, and enough of others came. And a block of several bundles does what they do in
blocks of their own. A run of gate_model.py has one bundle in a block, at a gateway that gathers nothing.
"""
import collections
import os
import random
import sys
import tomllib

sys.dont_write_bytecode = True
sys.path.insert(0, os.path.dirname(os.path.abspath(__file__)))
import gate_model
from gate_model import NAMES, polled
from gateway_model import NEW, OLD, VERSION
from ltp_model import RED, RED_END_BLOCK, REPORT, REPORT_ACK, SENDER_CANCEL, read_segment, written
from made_bundles import Made
from peer_model import Gateway, text_of

BEGIN = 850_000_000_000
NODES = {OLD: 1, NEW: 4}
EVENTS = 300


class Broken(Exception):
    """A law that doesn't hold."""


def must(holds, what):
    if not holds:
        raise Broken(what)


# ---- laws ----

class Watched(Gateway):
    """A gateway that is looked at while it acts."""

    def __init__(self, *words):
        super().__init__(*words)
        self.added, self.went = {OLD: [], NEW: []}, {OLD: [], NEW: []}
        for each in self.faces.values():
            each.engine.submit = self.watched(each.engine.submit)

    @staticmethod
    def watched(submit):
        def submitted(*words):
            effects = submit(*words)
            must(not effects.refused, f"a block is refused: {effects.refused}")
            return effects
        return submitted

    def add(self, face, piece, is_report=False):
        self.added[face].append(piece.octets)
        return super().add(face, piece, is_report)

    def go(self, face, is_late):
        before, begun = self.faces[face].dropped, len(self.step.begun)
        super().go(face, is_late)
        must(self.faces[face].dropped == before, "a first datagram is dropped")
        self.went[face] += [block for _, _, block in self.step.begun[begun:]]


class Watch:
    """Bounds, and which numbers of sessions were over when."""

    def __init__(self, gateway):
        self.gateway, self.engine = gateway, gateway.faces[OLD].engine
        self.remembered, self.forgotten = 0, []    # how many numbers went among the newer ones, and by then when some went
        self.over = {}                             # of a number the moment of its last event, and how many were remembered
        self.engine.remembered = self.counted(self.engine.remembered)

    def counted(self, remembered):
        def counts(number):
            self.remembered += 1
            self.over[number] = self.engine.now, self.remembered
            remembered(number)
        return counts

    def bounds(self):
        for face, each in self.gateway.faces.items():
            engine = each.engine
            must(max(len(engine.senders), len(engine.receivers)) <= engine.sessions, f"{face}: sessions")
            kept = each.octets + sum(len(session.block) for session in engine.senders.values())
            must(2 * kept <= each.memory, f"{face}: {kept} octets are kept")
            must(2 * max(engine.newer.runs, engine.older.runs) <= engine.remember, f"{face}: runs")
            must(2 * sum(session.filled() for session in engine.receivers.values()) <= engine.memory, f"{face}: cells")

    def waiting(self, is_tick):
        """No whole block waits where a session is free; after a tick none that has waited long enough."""
        for face, each in self.gateway.faces.items():
            if each.waiting and len(each.engine.senders) < each.engine.sessions:
                must(sum(piece.size for piece in each.waiting) < each.wanted, f"{face}: a whole block waits")
                must(not is_tick or each.moment < each.waiting[0].added + each.wait, f"{face}: a piece waits for too long")

    def order(self):
        for face, each in self.gateway.faces.items():
            added, went = b"".join(self.gateway.added[face]), b"".join(self.gateway.went[face])
            left = b"".join(piece.octets for piece in each.waiting)
            must(self.gateway.raises or added == went + left, f"{face}: pieces go otherwise than they were added")

    def arrive(self, face, datagram):
        """An arrival, before and after which the numbers of the old node's sessions are looked at."""
        before, over = set(self.engine.receivers), dict(self.over)
        step = self.gateway.arrive(face, datagram)
        if face == OLD:
            self.forgotten += [self.remembered for line in step.lines if line["event"] == "forgotten"]
            self.look(before, over, datagram)

    def look(self, before, over, datagram):
        kind, (_, number), _ = read_segment(datagram)
        now = self.gateway.faces[OLD].moment
        if number in self.engine.receivers and number not in before and number in over:
            last, count = over[number]
            least = self.engine.remember / 2 - self.engine.sessions
            is_early = any(at - count >= least for at in self.forgotten)
            must(now - last >= self.engine.wait or is_early, f"{number} opens {now - last} ms after its last piece")
        if kind in (RED, RED_END_BLOCK) and number in self.over and number not in self.engine.receivers:
            self.over[number] = now, self.remembered


def keys_of(draw):
    """A configuration; what it can't say is set after it is read."""
    face = {"first_session": 1, "segment": 512, "timeout_ms": 1000, "limit": 3, "remember_ms": draw.choice([1000, 5000])}
    return {"gateway": {"endpoint": "ipn:9.0", "cut": draw.choice([40, 3000]), "age": draw.choice(["raise", "keep"])},
            "old": {**face, "sessions": draw.choice([2, 6])},
            "new": {**face, "sessions": draw.choice([1, 3]), "aggregate": draw.choice([0, 200, 2000]),
                    "aggregate_ms": draw.choice([100, 900])}}


def small_gateway(keys, memory, kind=Gateway):
    gateway = kind(keys, BEGIN)
    for each in gateway.faces.values():
        each.memory, each.engine.memory, each.engine.remember = memory, 20_000, 16
    gateway.start()
    return gateway


def made_datagram(draw, gateway, face, bundles):
    """A block, a part of one, or an answer to what the gateway sent."""
    engine, node = gateway.faces[face].engine, NODES[face]
    session = 2 * draw.randrange(12 if draw.random() < 0.8 else 400)
    what = draw.random()
    if what < 0.35:
        block = b"".join(draw.choice(bundles[face]) for _ in range(draw.choice([1, 1, 2, 5])))
        return written(RED_END_BLOCK, (node, session), 1, 0, len(block), 1, 0, body=block)
    if what < 0.5:
        at, size = draw.randrange(3) * 900, draw.choice([1, 900, 2500])
        return written(RED, (node, session), 1, at, size, body=bytes(size))
    if what < 0.8 and engine.senders:
        number, sender = draw.choice(sorted(engine.senders.items()))
        serial = draw.randrange(1, 9)
        return written(REPORT, (engine.own, number), serial, sender.checkpoint, sender.red, 0, 1, 0, sender.red)
    if what < 0.95:
        pending = [(number, each.pending[0]) for number, each in engine.receivers.items() if each.pending]
        number, serial = draw.choice(pending or [(session, 1)])
        return written(REPORT_ACK, (node, number), serial)
    return written(SENDER_CANCEL, (node, session), body=b"\0")


def sends(draw, gateway, share):
    """Some of what waits in the outboxes goes."""
    for each in gateway.faces.values():
        while each.outbox and draw.random() < share:
            each.octets -= len(each.outbox.popleft())
        each.was_empty = True


def law_run(seed):
    draw = random.Random(seed)
    keys = keys_of(draw)
    memory = draw.choice([20_000, 60_000])
    gateway = small_gateway(keys, memory, Watched)
    watch, wall = Watch(gateway), BEGIN
    bundles = {face: Made(draw, VERSION[face], 900, BEGIN, 40, 900).items(25) for face in (OLD, NEW)}
    share = draw.choice([0.9, 0.5])
    for _ in range(EVENTS):
        wall += draw.choice([0, 0, 0, 1, 50, 400])
        gateway.read(wall)
        is_tick = draw.random() < 0.3
        if is_tick:
            gateway.tick()
        else:
            face = draw.choice([OLD, OLD, NEW])
            watch.arrive(face, made_datagram(draw, gateway, face, bundles))
        watch.waiting(is_tick)
        watch.bounds()
        sends(draw, gateway, share)
    watch.order()
    rows_in_turn(draw, keys, memory, bundles)


def rows_in_turn(draw, keys, memory, bundles):
    """A block of several bundles, and each of them in a block of its own, to two gateways that are alike."""
    face = draw.choice([OLD, NEW])
    row = [draw.choice(bundles[face]) for _ in range(6)]
    together, apart = small_gateway(keys, memory), small_gateway(keys, memory)
    for gateway in (together, apart):
        # each block has a session and a report of its own, for which there is to be room
        gateway.faces[face].memory = gateway.faces[face].engine.memory = 1 << 25
        gateway.faces[face].engine.sessions = 64
    block = b"".join(row)
    found = [together.arrive(face, written(RED_END_BLOCK, (NODES[face], 2), 1, 0, len(block), 1, 0, body=block))]
    steps = [apart.arrive(face, written(RED_END_BLOCK, (NODES[face], 2 * at), 1, 0, len(each), 1, 0, body=each))
             for at, each in enumerate(row, 2)]
    wanted, at = [], 0
    for step, each in zip(steps, row):
        wanted.append(step)
        bad = [line for line in step.lines if line["event"] == "bad_bundle"]
        if bad:
            bad[0]["place"] += at
            break
        at += len(each)
    lines = [[told_of(line) for step in part for line in step.lines] for part in (found, wanted)]
    blocks = [[each for step in part for each in step.begun] for part in (found, wanted)]
    # octets that are left of a bundle may begin the next one
    is_torn = any(line["event"] == "bad_bundle" for line in found[0].lines) or len(wanted) < len(row)
    must(is_torn or (lines[0], blocks[0]) == (lines[1], blocks[1]), f"a row: {lines[0]}, in turn {lines[1]}")


def told_of(line):
    return {key: value for key, value in line.items() if key not in ("session", "index")}


def laws(count, seed):
    broken = 0
    for each in range(seed, seed + count):
        try:
            law_run(each)
        except Broken as law:
            broken += 1
            print(f"seed {each}: {law}"[:400])
    print(f"{count} runs, {broken} broken")
    return int(broken > 0)


# ---- the gateway that there is ----

def played(row):
    """The lines of a run of gate_model.py, and what it sent, as this model makes it."""
    file, gateway, lines, sent = tomllib.loads(row["file"]), None, [], []
    file["gateway"]["age"] = "keep"
    gives = {name: collections.deque(row[name]) for name in NAMES.values()}
    for at, wall in enumerate(row["readings"]):
        face = (OLD, NEW)[at % 2]
        first = gateway is None
        gateway = Gateway(file, wall) if first else gateway
        told = [*(gateway.start() if first else gateway.read(wall)).lines, *gateway.tick().lines]
        datagrams, has_failed = polled(gives[NAMES[face]])
        told += [line for each in datagrams for line in gateway.arrive(face, each).lines]
        told += [{"event": "poll_failed", "face": NAMES[face]}] if has_failed else []
        sent += [act for place in (OLD, NEW) for act in gone(gateway.faces[place], NAMES[place], row["failing_sends"])]
        told += [{"event": event, "face": NAMES[place], "datagrams": count} for place, each in gateway.faces.items()
                 for event, count in (("outbox_full", each.dropped), ("send_failed", each.failed)) if count]
        lines += [text_of(wall, line)[:-1] for line in told]
    return lines, sent


def gone(each, name, failing):
    while (datagram := each.next()) is not None:
        is_lost = each.calls in failing[name]
        each.calls += 1
        each.failed += is_lost
        yield ["lost" if is_lost else "sent", name, datagram.hex()]
    each.was_empty = not each.outbox


def today(count, seed):
    rows = (gate_model.made(each) for each in range(seed, seed + count))
    alike = differ = 0
    for row in rows:
        if row["journal"] is not None:
            continue
        acts = [act for act in row["acts"] if act[0] != "shown" and "metrics_failed" not in act[1]]
        wanted = [act[1] for act in acts if act[0] == "said"], [act for act in acts if act[0] != "said"]
        is_alike = played(row) == wanted
        alike, differ = alike + is_alike, differ + (not is_alike)
        if not is_alike:
            print(f"seed {row['seed']} differs")
    print(f"{alike} runs are alike, {differ} differ")
    return int(differ > 0)


def main(words):
    if len(words) == 3 and words[0] in ("--laws", "--today"):
        return (laws if words[0] == "--laws" else today)(int(words[1]), int(words[2]))
    sys.stderr.write(__doc__.split("\n\n")[1] + "\n")
    return 2


if __name__ == "__main__":
    sys.exit(main(sys.argv[1:]))
