#!/usr/bin/env python3
"""Sends random, spoiled and replayed datagrams to both sockets of a running gateway, while sessions are open there.

usage: tools/attack_run.py [PROGRAM] [--datagrams N] [--seed N] [--turns N] [--ipv6] [--gate]

The gateway is `serve`, and with --gate it is `gate`, which has no turns to count and is stopped in the end.

The program is the one that this repository builds, where none is named. tools/gateway_model.py is one too: on it this
was tried before the program had the command, and with faults planted there. The program is started here and ends by
itself when its turns are over. First each node sends a bundle of which a segment is kept back, and another whose
acknowledgement is kept back on the far side, so that sessions of both kinds are open on both faces. Then come so many
datagrams that nobody should send: octets of any kind, real segments that were cut, changed or put together anew,
repeats of old ones and of the other link's, and pieces, reports and cancels for sessions that aren't there. Whoever
speaks with a node's address may end its sessions by LTP's own rules; so a datagram that the rules take as one for an
open session, or for one that is yet to come, is left out. Status 0 where all of this holds:

- the program doesn't end before its turns are over, and then ends with 0;
- it ends none of these sessions while false datagrams come, and hands up nothing twice;
- its memory, looked at when the sessions of strangers have ended, doesn't grow in the second half of the datagrams;
- each open session is completed afterwards, and a further bundle of each node gets through.
"""
import collections
import json
import os
import random
import sys
import tempfile
import time

sys.dont_write_bytecode = True
sys.path.insert(0, os.path.dirname(os.path.abspath(__file__)))
import ltp_model
from format_model import BLOCK_MAX, Refused
from gateway_model import ENDS, NEW, OLD, OTHER, SERIALS, VERSION, case_of, system_clock
from live_nodes import Node, Served, idle_turns_a_second, moment, options_of, program_of
from live_run import CUT
from ltp_model import (PIECES, RECEIVER_CANCEL, RECEIVER_CANCEL_ACK, REPORT, REPORT_ACK, SENDER_CANCEL,
                       SENDER_CANCEL_ACK, Policy, read_segment, written)
from made_bundles import Made

OPTIONS = {"datagrams": 50_000, "seed": 1, "turns": 0, "ipv6": False, "gate": False}
FACES = {"old": OLD, "new": NEW}
WORDS = {"bad_bundle": "BadBundle", "hop_limit": "HopLimit", "bad_bounds": "BadBounds", "history_full": "HistoryFull",
         "bad_segment": "BadSegment"}           # of events, as notes; others begin with a capital
BLOCKS = ("passed", "bad_bundle", "untranslated", "expired", "hop_limit", "storage")
PATIENT = Policy(1024, 3_600_000, 100, 3_600_000)     # of the nodes: nothing is sent again while datagrams are false
ROUND = 1000              # datagrams, after which memory is looked at
STRANGE = 30              # sessions that are opened by false pieces at a time
FIRST_STRANGE = 5000      # the first of their numbers
NODES_OWN = range(1, FIRST_STRANGE)           # those of the nodes; a session 0 is a stranger's too
GROWTH = 2048             # kilobytes
SECONDS = 60              # for what is to get through afterwards
MOST_KEPT = 2000
ENDINGS = ("Failed", "Cancelled", "Evicted", "HistoryFull", "Storage", "Unreported")


class PatientNode(Node):
    """A node that keeps back what comes as long as it is told to."""

    def __init__(self, numbers, host, queues, _, *troubles):
        super().__init__(numbers, host, queues, PATIENT, *troubles)
        self.kept, self.is_deaf, self.seen, self.own = [], False, [], set()

    def arrive(self, datagram):
        if len(self.seen) < MOST_KEPT:
            self.seen.append(datagram)
        if self.is_deaf:
            self.kept.append(datagram)
            del self.kept[:-MOST_KEPT]
        else:
            super().arrive(datagram)

    def put(self, datagram):
        if len(self.seen) < MOST_KEPT:
            self.seen.append(datagram)
            self.own.add(datagram)
        super().put(datagram)

    def hear(self):
        """Takes what it kept."""
        self.is_deaf, kept, self.kept = False, self.kept, []
        for datagram in kept:
            super().arrive(datagram)

    def submit_but(self, block, at):
        """Sends a block without the segment at a place, and answers its session and that segment."""
        session = self.engine.next
        effects = self.engine.submit(block, len(block), moment())
        (left,) = effects.out.pop(at)
        self.take(effects)
        self.blocks[session] = block
        return session, left


class AttackedServed(Served):
    node = PatientNode


class Attack:
    """A run of the program, its open sessions, and datagrams against it."""

    def __init__(self, path, options, turns, file):
        self.draw, self.lines = random.Random(int(options["seed"])), collections.Counter()
        self.served = AttackedServed(path, turns, options["ipv6"], file=file, keys="first_session = 1\n")
        self.is_gate = file is not None
        self.nodes = dict(zip((OLD, NEW), self.served.nodes))
        self.made = {face: Made(self.draw, VERSION[face], CUT, system_clock(), CUT) for face in self.nodes}
        self.strange = {face: FIRST_STRANGE for face in self.nodes}
        self.ups, self.wrong, self.is_attacked, self.most = set(), [], False, 0
        self.wanted = {face: [] for face in self.nodes}      # blocks that are to come to a face's node

    # ---- bundles that are to get through ----

    def bundle(self, face, size):
        """A bundle; what it is on the other side is to come there."""
        block = self.made[face].octets(self.made[face].plain(size))
        self.wanted[OTHER[face]] += case_of(block, VERSION[face], system_clock(), 64, SERIALS, CUT).out
        return block

    def open_sessions(self):
        """On each face a session that comes and one that goes."""
        self.left = {}
        for face, node in self.nodes.items():
            node.submit(self.bundle(face, 3000))
        self.pump_until(lambda: all(len(node.came) == 1 and node.is_quiet() for node in self.nodes.values())
                        and all(self.lines[f"{face} Sent"] for face in self.nodes))
        for node in self.nodes.values():
            node.is_deaf = True
        for face, node in self.nodes.items():
            node.submit(self.bundle(face, 3000))
            self.left[face] = node.submit_but(self.bundle(face, 5000), 2)
        self.pump_until(lambda: all(len(node.kept) >= 4 for node in self.nodes.values()))

    def pump_until(self, holds):
        until = time.monotonic() + SECONDS
        while not holds() and time.monotonic() < until and not self.served.program.has_ended():
            self.served.pump()
            self.read_lines()
        return holds()

    def read_lines(self):
        lines = self.served.program.lines
        while lines:
            line = lines.popleft().decode()
            if self.is_gate:
                self.read_event(json.loads(line))
                continue
            words = line.split()
            self.lines[" ".join(words[:1] if words[0] == "up" else words[1:3])] += 1
            if words[0] == "up":
                self.judge_up(words[1], int(words[2]), bytes.fromhex(words[3]))
            elif words[2] in ENDINGS + ("Sent",) * self.is_attacked and int(words[3]) in NODES_OWN:
                self.wrong.append(f"{' '.join(words)}, of a session that nobody ended")

    def read_event(self, line):
        """A line of `gate`: of a block it says that it was handed up, and not what it was."""
        event = line["event"]
        if "face" not in line:
            return
        face, word = FACES[line["face"]], WORDS.get(event, event.capitalize())
        self.lines[f"{face} {word}"] += 1
        if event in BLOCKS:
            self.judge_up(face, line["session"], None)
        elif word in ENDINGS + ("Sent",) * self.is_attacked and line["session"] in NODES_OWN:
            self.wrong.append(f"{line}, of a session that nobody ended")

    def judge_up(self, face, session, body):
        if (face, session) in self.ups:
            self.wrong.append(f"{face} {session} is handed up again")
        self.ups.add((face, session))
        if body is not None and session in self.nodes[face].blocks and body != self.nodes[face].blocks[session]:
            self.wrong.append(f"{face} {session} isn't handed up as it was sent")

    # ---- false datagrams ----

    def is_left_out(self, face, octets):
        """Whether the rules take a datagram as one for an open session of a face, or for one that is yet to come.

        One that the node has sent before may come again.
        """
        if octets in self.nodes[face].own:
            return False
        try:
            kind, (originator, session), content = read_segment(octets)
        except Refused:
            return False
        node = self.nodes[face]
        if originator == node.engine.own:
            if kind in PIECES and content["service"] != 1:
                return False
            is_strange = self.strange[face] <= session < self.strange[face] + STRANGE
            is_over = session < self.left[face][0] - 1
            return not is_strange and not is_over
        return originator == node.engine.peer and kind in (REPORT, RECEIVER_CANCEL) and session > 1

    def session_of(self, face):
        """A number of a session that is over, that is strange, that is nobody's, or that is open."""
        return self.draw.choice([1, self.strange[face] + self.draw.randrange(STRANGE), self.draw.randrange(1, 1 << 33),
                                 self.left[face][0] - self.draw.randrange(2)])

    def segment(self, face):
        """A segment of any type for some session, of the node, of the gateway, or of a stranger."""
        draw, node = self.draw, self.nodes[face]
        own, peer = (node.engine.own, self.session_of(face)), (node.engine.peer, draw.randrange(1, 5))
        if draw.random() < 0.2:
            own, peer = ((draw.choice([0, 1, 2, 3, 4, 77, (1 << 64) - 1]), name[1]) for name in (own, peer))
        kind = draw.choice([*PIECES, *PIECES, REPORT, REPORT_ACK, SENDER_CANCEL, SENDER_CANCEL_ACK, RECEIVER_CANCEL,
                            RECEIVER_CANCEL_ACK])
        if kind in PIECES:
            at, size = draw.randrange(50_000), draw.randrange(1, 1200)
            if own[1] == self.strange[face] and draw.random() < 0.1:
                at = BLOCK_MAX - size
            serials = [draw.randrange(1, 1 << 20), draw.randrange(9)] if kind in ltp_model.CHECKPOINTS else []
            return written(kind, own, draw.choice([1, 1, 1, 1, 2]), at, size, *serials, body=draw.randbytes(size))
        if kind == REPORT:
            upper = draw.choice([1, 1024, 100_000, *map(len, self.wanted[face])])
            if draw.random() < 0.5:
                return written(kind, peer, draw.randrange(1, 99), draw.randrange(99), upper, 0, 1, 0, upper)
            count = draw.choice([0, 1, 3, 400])
            claims = [number for _ in range(count) for number in (3, 2)]
            return written(kind, peer, draw.randrange(1, 99), draw.randrange(99), 10 * upper, 0, count, *claims)
        name = own if kind in (REPORT_ACK, SENDER_CANCEL, RECEIVER_CANCEL_ACK) else peer
        if kind == REPORT_ACK:
            return written(kind, name, draw.randrange(1 << 20))
        return written(kind, name, body=bytes([draw.randrange(7)]) if kind in (SENDER_CANCEL, RECEIVER_CANCEL) else b"")

    def spoiled(self, octets):
        """Octets with a few places changed, taken out or put in, or cut."""
        draw, octets = self.draw, bytearray(octets)
        for _ in range(draw.randrange(1, 5)):
            at = draw.randrange(len(octets) + 1)
            how = draw.randrange(4)
            if how == 0:
                del octets[at:]
            elif how == 1:
                octets[at:at + 1] = bytes([draw.choice([0, 127, 128, 255, draw.randrange(256)])])
            elif how == 2:
                del octets[at:at + draw.randrange(4)]
            else:
                octets[at:at] = draw.randbytes(draw.randrange(1, 5))
        return bytes(octets)

    def false(self, face):
        """A datagram that nobody should send on a face."""
        draw = self.draw
        what = draw.random()
        if what < 0.2:
            return draw.randbytes(draw.choice([0, 1, 8, 40, 1400, draw.randrange(9000)]))
        if what < 0.45:
            return self.segment(face)
        seen = self.nodes[draw.choice([face, face, OTHER[face]])].seen
        octets = draw.choice(seen) if draw.random() < 0.7 else self.segment(face)
        return octets if what < 0.6 else self.spoiled(octets)

    def cancel_strange(self):
        """Ends all sessions that false pieces opened; the next ones have other numbers."""
        for face, node in self.nodes.items():
            for session in range(self.strange[face], self.strange[face] + STRANGE):
                node.outgoing.append(written(SENDER_CANCEL, (node.engine.own, session), body=b"\0"))
            self.strange[face] += STRANGE

    def attack(self, count):
        """Sends so many, and answers how much memory the program had after each round, once strange sessions ended."""
        memory, sent, self.is_attacked = [], 0, True
        while sent < count and not self.served.program.has_ended():
            for _ in range(ROUND):
                face = self.draw.choice([OLD, NEW])
                octets = self.false(face)
                if not self.is_left_out(face, octets):
                    self.nodes[face].outgoing.append(octets)
                    sent += 1
            self.pump_until(self.is_taken)
            self.most = max(self.most, self.memory())
            self.cancel_strange()
            self.pump_until(self.is_taken)
            memory.append(self.memory())
        return memory

    def is_taken(self):
        """Whether the program has taken all that was sent."""
        queues = self.served.queues.read()
        return all(not node.outgoing and not queues.get(node.gate, (0, 0))[0] for node in self.nodes.values())

    def memory(self):
        return 0 if self.served.program.has_ended() else self.served.program.kilobytes()

    # ---- afterwards ----

    def finish(self):
        """What was open is completed, and a further bundle of each node follows."""
        self.is_attacked = False
        for face, node in self.nodes.items():
            node.outgoing.append(self.left[face][1])
            node.hear()
        is_done = self.pump_until(self.has_all)
        for face, node in self.nodes.items():
            node.submit(self.bundle(face, 70_000))
        return is_done and self.pump_until(self.has_all)

    def has_all(self):
        """Whether each node got what was to come to it, and each of its own sessions ended."""
        return all(sorted(node.came.values()) == sorted(self.wanted[face]) and node.is_quiet()
                   for face, node in self.nodes.items())


def grown(memory):
    """Kilobytes by which the most of the second half is above the most of the first."""
    half = len(memory) // 2
    return max(memory[half:], default=0) - max(memory[:half], default=0) if half else 0


def main(words):
    path, words = program_of(words)
    options = options_of(words, OPTIONS)
    if options is None:
        sys.stderr.write(__doc__.split("\n\n")[1] + "\n")
        return 2
    with tempfile.TemporaryDirectory() as folder:
        return attacked(path, options, os.path.join(folder, "gate.toml") if options["gate"] else None)


def attacked(path, options, file):
    rate = 0 if file else idle_turns_a_second(path, options["ipv6"])
    run = Attack(path, options, int(options["turns"] or 2 * options["datagrams"] + 60 * rate + 5000), file)
    wrong = run.wrong
    run.open_sessions()
    began = time.monotonic()
    memory = run.attack(options["datagrams"])
    seconds = time.monotonic() - began
    if run.served.program.has_ended():
        wrong.append("the program ended before its turns were over, or --turns are too few")
    elif not run.finish():
        wrong.append("not all that was open came through: " + ", ".join(
            f"{ENDS[face]} has {len(node.came)} of {len(run.wanted[face])} blocks and {len(node.engine.senders)} open"
            for face, node in run.nodes.items()))
    if grown(memory) > GROWTH:
        wrong.append(f"memory grew by {grown(memory)} kB")
    if file:
        run.served.program.child.kill()
        run.served.program.end()
    status = 0 if file else run.served.use_up(600)
    run.read_lines()
    if status != 0:
        wrong.append(f"the program ends with {status}")
    for what in wrong[:9]:
        print(f"attack_run: {what}")
    said = ", ".join(f"{count} {line}" for line, count in sorted(run.lines.items()))
    print(f"attack_run: {options['datagrams']:.0f} datagrams in {seconds:.1f} s; after each {ROUND} memory was "
          f"{min(memory, default=0)} to {max(memory, default=0)} kB, and {run.most} kB at most; {said}")
    return int(bool(wrong))


if __name__ == "__main__":
    sys.exit(main(sys.argv[1:]))
