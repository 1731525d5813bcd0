#!/usr/bin/env python3
"""Troubles of a gateway's life, each for `serve` and for `gate`, with an old node and a new node over loopback.

usage: tools/gate_trials.py [PROGRAM] [TRIAL..]

The program is the one that this repository builds, where none is named; without a TRIAL all are made, some eight
minutes in all. For each trial and program there is a line with what became of it; docs/gate.md has them as a table.

restart   some bundles pass, 20 and then 182, and half of another one's block; the program is killed, and started again
          (`gate` with another first session); as many more follow
slow      both ways of both links carry 2 Mbit/s and take 0.3 s, and a modem has room for 200,000 octets of what the
          gateway sends; four bundles of 1 MB go each way. `gate` is told the rate, and timers that fit
clock     the wall clock is set a day ahead, and right again; then a datagram is lost, and is to come again. It needs
          Debian's package `faketime`
alone     the old node starts anew, with half of a block sent, and numbers its sessions from 1 again; the gateway goes on
pace      `gate` alone: 7 MB at 100,000 octets a second, as the system stamps what comes to the new node

Status 1 where `gate` does what it must not: it makes a bundle that nobody sent by its own restart, or lets none of the
later ones through; it sends a tenth more than is needed over the slow way; its timers stand still for a set clock; its
pace isn't held within 2 % over a minute.
"""
import collections
import glob
import os
import sys
import tempfile
import time

sys.dont_write_bytecode = True
sys.path.insert(0, os.path.dirname(os.path.abspath(__file__)))
from gate_run import StampedSocket
from gateway_model import SERIALS, SERVED, case_of, system_clock
from live_nodes import GATE, Node, Program, Queues, Trouble, gate_words, program_of
from ltp_model import CHECKPOINTS, PIECES, Policy
from quick_ends import QuickEngine
from translate_model import NONE, canonical6, octets7

CUT = SERVED[1]
POLICY = Policy(1024, 1000, 5, 5000)               # of the nodes
PATIENT = Policy(1024, 120_000, 10, 160_000)       # of the nodes behind a slow way
FOR_EVER = "1000000000"                            # turns of `serve`
BEFORE = 182
HALF = 2000                                        # the number of the bundle that is half sent; all are spelled as long
RATE, DELAY = 250_000, 0.3                         # of the slow way, in octets a second and seconds
MODEM = 200_000                                    # octets that wait at a modem
PACE = 100_000
MEGABYTE = 1_000_000
DAYS_20 = 20 * 86_400


def bundle6(at, size):
    """A bundle from the old node, whose payload names it."""
    moment = system_clock() // 1000
    block = {"kind": 1, "flags": 0, "refs": [], "body": named(at, size).hex()}
    return canonical6({"version": 6, "flags": 0x90, "destination": "ipn:2.1", "source": "ipn:1.1", "report_to": NONE,
                       "custodian": NONE, "creation": [moment, at], "lifetime": DAYS_20, "fragment": None,
                       "blocks": [block]})


def bundle7(at, size):
    """A bundle from the new node, whose payload names it."""
    block = {"kind": 1, "number": 1, "flags": 0, "crc": 0, "body": named(at, size).hex()}
    return octets7({"version": 7, "flags": 0, "crc": 0, "destination": "ipn:1.1", "source": "ipn:2.1",
                       "report_to": NONE, "creation": [system_clock(), at], "lifetime": DAYS_20 * 1000,
                       "fragment": None, "blocks": [block]})


def named(at, size):
    return (b"%08d" % at * (size // 8 + 1))[:size]


# ---- ways ----

class Way(Trouble):
    """A way that carries so many octets a second, and takes so long. What is too much for it waits, up to so much."""

    def __init__(self, rate, delay, most=1e9):
        super().__init__()
        self.rate, self.delay, self.most, self.free, self.queue, self.count = rate, delay, most, 0, collections.deque(), 0

    def after(self, datagram):
        self.count += 1
        now = time.monotonic()
        if (self.free - now) * self.rate > self.most:
            self.lost += 1
            return self.let_go()
        self.free = max(self.free, now) + len(datagram) / self.rate
        self.queue.append((self.free + self.delay, datagram))
        return self.let_go()

    def let_go(self, is_due=None):
        due = []
        while self.queue and self.queue[0][0] <= time.monotonic():
            due.append(self.queue.popleft()[1])
        return due


class Losing(Trouble):
    """A way that loses the pieces of blocks for which a test holds, as long as there is one."""

    def __init__(self):
        super().__init__()
        self.test, self.count = None, 0

    def after(self, datagram):
        self.count += 1
        if self.test and datagram[0] in PIECES and self.test(datagram):
            self.lost += 1
            return []
        return [datagram]


class WayNode(Node):
    """A node that lets go in each turn what is due on its ways."""

    def pump(self):
        came = super().pump()
        for each in self.back.let_go():
            self.arrive(each)
        self.outgoing.extend(self.there.let_go())
        self.send()
        return came or bool(self.back.held)


# ---- a program between two nodes ----

class Between:
    """A program, `serve` or `gate`, between an old node and a new node."""

    def __init__(self, path, kind, ways, policy=POLICY, keys="", environment=None, gateway=""):
        self.path, self.kind, self.keys, self.environment = path, kind, keys, environment
        self.gateway = gateway        # keys of the gateway itself
        self.queues = Queues(False)
        self.old = WayNode((1, 2), "127.0.0.1", self.queues, policy, *ways[:2])
        self.new = WayNode((4, 3), "127.0.0.1", self.queues, policy, *ways[2:])
        self.nodes, self.told, self.program = [self.old, self.new], collections.Counter(), None
        self.folder = tempfile.TemporaryDirectory()

    def start(self, more=""):
        """Starts the program, `gate` with these keys of both faces besides."""
        if self.kind == "serve":
            words = [word for node in self.nodes for word in (node.gate_address, node.address)]
            words = ["serve", GATE, *words, FOR_EVER]
        else:
            file = os.path.join(self.folder.name, "gate.toml")
            words = gate_words(file, self.nodes, self.gateway, (self.keys + more,) * 2)
        kept = dict(os.environ)
        os.environ.update(self.environment or {})
        self.program = Program(self.path, words)
        os.environ.clear()
        os.environ.update(kept)
        while not all(node.gate in self.queues.read() for node in self.nodes):
            if self.program.has_ended():
                sys.exit(f"gate_trials: {self.kind} ends at once, with {self.program.end()}")
            time.sleep(0.01)
        time.sleep(0.2)

    def kill(self):
        self.program.child.kill()
        self.program.end()
        self.read()

    def read(self):
        while self.program.lines:
            line = self.program.lines.popleft().decode()
            word = line.split('"event":"')[1].split('"')[0] if line.startswith("{") else line.split()[2]
            self.told[word.lower()] += 1

    def pump_until(self, holds, seconds):
        """Whether it came to that in so many seconds."""
        until = time.monotonic() + seconds
        while not holds():
            if time.monotonic() > until or self.program.has_ended():
                return False
            if not any([node.pump() for node in self.nodes]):
                time.sleep(0.0005)
            self.read()
        return True

    def rest(self, seconds):
        self.pump_until(lambda: False, seconds)

    def send(self, blocks, open_most=24):
        """Sends blocks of the old node's, not too many at a time."""
        for block in blocks:
            self.pump_until(lambda: len(self.old.engine.senders) < open_most, 30)
            self.old.submit(block)


def passages(blocks):
    """What comes of bundles of version 6 at the new node."""
    return [octets for block in blocks for octets in case_of(block, 6, system_clock(), 64, SERIALS, CUT).out]


# ---- the trials: each answers what became of it, and whether that may be ----

def restarted(path, kind, before, after):
    """So many bundles pass, and half of another's block; the program is killed and started again, and more follow.

    Answers how many came that nobody sent, how many of those that followed came, and whether the half one came.
    """
    between = Between(path, kind, [Losing() for _ in range(4)], keys="timeout_ms = 1000\nlimit = 3\n")
    first, half = [bundle6(1000 + at, 1500) for at in range(before)], bundle6(HALF, 1500)
    later = [bundle6(3000 + at, 1500) for at in range(after)]
    between.start("first_session = 1\n")
    between.send(first)
    between.pump_until(lambda: len(between.new.came) == before and between.old.is_quiet(), 60)
    # Of the next block's two segments the second doesn't come, and its sender has been told that all did.
    between.new.back.test = lambda datagram: datagram[0] in CHECKPOINTS and b"%08d" % HALF in datagram
    between.old.submit(half)
    between.pump_until(lambda: between.new.back.lost > 0 and between.old.is_quiet(), 20)
    between.kill()
    between.new.back.test = None
    time.sleep(2)
    between.start("first_session = 1000001\n")
    between.send(later)
    between.rest(10)
    between.kill()
    wanted, came = set(passages(first + [half] + later)), set(between.new.came.values())
    told = sum(note[0] == "Sent" for note in between.old.notes)
    if told < before + 1 + after:
        raise SystemExit(f"gate_trials: {kind} claimed {told} of {before + 1 + after} blocks")
    return len(came - wanted), sum(octets in came for octets in passages(later)), passages([half])[0] in came


def restart(path, kind):
    nobodys, _, half = restarted(path, kind, 20, 21)
    _, through, other = restarted(path, kind, BEFORE, BEFORE)
    lost = sum(not came for came in (half, other))
    return (f"{nobodys} bundles that nobody sent; of {BEFORE} after {BEFORE} {through} came; {lost} of 2 that were half sent "
            "are lost; of all the sender was told that they came", nobodys == 0 and through == BEFORE)


def slow(path, kind):
    # The nodes wait for their ways. What the gateway sends is lost where too much of it waits at a modem.
    ways = [Way(RATE, DELAY), Way(RATE, DELAY, MODEM), Way(RATE, DELAY), Way(RATE, DELAY, MODEM)]
    between = Between(path, kind, ways, PATIENT, f"rate = {RATE}\ntimeout_ms = 40000\n")
    between.start()
    began = time.monotonic()
    for at in range(4):
        between.old.submit(bundle6(at, MEGABYTE))
        between.new.submit(bundle7(at, MEGABYTE))
    # A bundle is cut into 16 pieces.
    done = between.pump_until(lambda: len(between.new.came) == 64 and len(between.old.came) == 64
                              and all(node.is_quiet() for node in between.nodes), 600)
    seconds = time.monotonic() - began
    between.rest(3)
    sent = between.old.back.count + between.new.back.count
    between.kill()
    # Each piece has 65 segments or 64, and a report on each block and piece goes and is acknowledged.
    came = len(between.new.came) + len(between.old.came)
    lost = between.old.back.lost + between.new.back.lost
    return f"{sent:,} datagrams in {seconds:.0f} s, {lost:,} of them lost; {came} of 128 pieces came", done and sent < 10_000


def clock(path, kind):
    library = next(iter(glob.glob("/usr/lib/*/faketime/libfaketime.so.1")), None)
    if library is None:
        return "not tried: there is no package faketime", True
    with tempfile.NamedTemporaryFile("w", suffix=".time") as file:
        def set_clock(text):
            file.seek(0)
            file.write(text)
            file.truncate()
            file.flush()
        set_clock("+0")
        environment = {"LD_PRELOAD": library, "FAKETIME_TIMESTAMP_FILE": file.name, "FAKETIME_NO_CACHE": "1",
                       "FAKETIME_DONT_FAKE_MONOTONIC": "1", "DONT_FAKE_MONOTONIC": "1"}
        between = Between(path, kind, [Losing() for _ in range(4)], keys="timeout_ms = 2000\n", environment=environment)
        between.start()
        counts = []
        for at, text in enumerate(("+0", "+1d", "+0")):
            set_clock(text)
            between.rest(1.5)
            between.old.submit(bundle6(at, 100))
            between.pump_until(lambda: len(between.new.came) == at + 1, 10)
            counts.append(len(between.new.came))
        lost = []
        between.new.back.test = lambda datagram: not lost and not lost.append(datagram)
        between.old.submit(bundle6(3, 100))
        began = time.monotonic()
        again = between.pump_until(lambda: len(between.new.came) == counts[-1] + 1, 40)
        seconds = time.monotonic() - began
        between.kill()
    said = f"came again after {seconds:.1f} s" if again else "didn't come again in 40 s"
    return f"{counts[-1]} of 3 bundles came while the clock was set; what was lost then {said}", again and counts == [1, 2, 3]


def alone(path, kind):
    between = Between(path, kind, [Losing() for _ in range(4)], keys="timeout_ms = 1000\nlimit = 3\n")
    first, half = [bundle6(1000 + at, 1500) for at in range(50)], bundle6(HALF, 1500)
    later = [bundle6(3000 + at, 1500) for at in range(60)]
    between.start()
    between.send(first)
    between.pump_until(lambda: len(between.new.came) == 50 and between.old.is_quiet(), 60)
    between.old.there.test = lambda datagram: datagram[0] in CHECKPOINTS and b"%08d" % HALF in datagram
    between.old.submit(half)
    between.rest(0.3)
    between.old.there.test = None
    between.old.engine, between.old.outgoing = QuickEngine(1, 2, policy=POLICY), collections.deque()
    between.send(later, 10)
    between.pump_until(between.old.is_quiet, 120)
    between.rest(1)
    between.kill()
    wanted, came = set(passages(first + [half] + later)), list(between.new.came.values())
    nobodys = sum(octets not in wanted for octets in came)
    through = sum(octets in set(came) for octets in passages(later))
    failed = sum(note[0] == "Failed" for note in between.old.notes)
    return (f"of 60 bundles after it {through} came, {failed} failed at the node, {nobodys} came that nobody sent; "
            f"{between.told['closed']} times `closed`", True)


def pace(path, kind):
    if kind == "serve":
        return "has none", True
    between = Between(path, kind, [Losing() for _ in range(4)], keys=f"rate = {PACE}\ntimeout_ms = 5000\n")
    between.new.socket = StampedSocket(between.new.socket)
    between.start()
    began, sent = time.time(), 0
    # The gateway keeps 64 sessions at most, so the node goes on as bundles come.
    while time.time() < began + 64:
        while sent < len(between.new.came) + 30:
            between.old.submit(bundle6(1000 + sent, 60_000))
            sent += 1
        between.pump_until(lambda: sent < len(between.new.came) + 30, 1)
    between.kill()
    came = between.new.socket.came
    start = came[0][0] + 1
    octets = sum(size for at, size in came if start <= at < start + 60)
    off = octets / 60 / PACE - 1
    return f"{octets:,} octets came in a minute, {100 * off:+.2f} % of what the rate says", abs(off) <= 0.02


TRIALS = {"restart": restart, "slow": slow, "clock": clock, "alone": alone, "pace": pace}


def main(words):
    path, words = program_of(words if words and words[0] not in TRIALS else ["--", *words])
    names = [word for word in words if word != "--"] or list(TRIALS)
    if any(name not in TRIALS for name in names):
        print(__doc__.split("\n\n")[1], file=sys.stderr)
        return 2
    bad = 0
    for name in names:
        for kind in ("serve", "gate"):
            said, holds = TRIALS[name](path, kind)
            print(f"{name:<8} {kind:<6} {said}{'' if holds or kind == 'serve' else '  WRONG'}", flush=True)
            bad |= kind == "gate" and not holds
    return int(bad)


if __name__ == "__main__":
    sys.exit(main(sys.argv[1:]))
