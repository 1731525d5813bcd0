#!/usr/bin/env python3
"""What the journal of `gate` is for, and what becomes of one that can't be kept, over loopback and real files.

usage: tools/journal_trials.py [PROGRAM] [--kills N] [--seed N]

The program is the one that this repository builds, where none is named; the journal is where the system keeps what is
temporary, or where TMPDIR says. Status 0 where all of this holds:

- it is killed so often (20 times, where N isn't said) at random moments and started again at once, while both nodes send
  and datagrams are lost on all four ways: each bundle whose sender was told that it came is at the other node in the
  end, and nothing came that nobody sent;
- of a journal with one octet changed, at each place, it says what tools/journal_model.py says of that file: it is damaged
  there and left as it was (status 8), or it is read;
- a journal that is another program's file, is in use, can't be opened, or is on a disk that is full or read only, is
  status 8, and a line says which; none is changed. The last two need the right to mount.
"""
import fcntl
import os
import random
import signal
import subprocess
import sys
import tempfile
import time

sys.dont_write_bytecode = True
sys.path.insert(0, os.path.dirname(os.path.abspath(__file__)))
import journal_model
from format_model import Refused
from gate_trials import CUT, Between, bundle6, bundle7
from gateway_model import SERIALS, case_of, system_clock
from live_nodes import Node, Queues, Trouble, gate_words, options_of, program_of

OPTIONS = {"kills": 20, "seed": 1}
KEYS = "timeout_ms = 300\nlimit = 20\nfirst_session = 1\n"
LOSS = 0.05
OPEN_MOST = 16             # sessions of a node at a time
SETTLED = 60               # seconds
UNKEPT = 8


def passages(blocks, version):
    """What comes of bundles at the other node."""
    return [octets for block in blocks for octets in case_of(block, version, system_clock(), 64, SERIALS, CUT).out]


class Killed(Between):
    """A gateway with a journal that is killed and started again, between two nodes that send."""

    def __init__(self, path, journal, draw):
        ways = [Trouble(draw.randrange(1 << 30), LOSS) for _ in range(4)]
        super().__init__(path, "gate", ways, keys=KEYS, gateway=f'journal = "{journal}"\n')
        self.draw, self.sent = draw, 0

    def feed(self):
        """Each node has some bundles under way."""
        for node, made in ((self.old, bundle6), (self.new, bundle7)):
            while len(node.engine.senders) < OPEN_MOST:
                node.submit(made(self.sent, self.draw.choice([20, 700, 3000])))
                self.sent += 1

    def run_for(self, seconds):
        until = time.monotonic() + seconds
        while time.monotonic() < until:
            self.feed()
            self.pump_until(lambda: False, min(0.02, max(0, until - time.monotonic())))

    def told(self, node):
        """The blocks of which a node was told that they came."""
        return [node.blocks[note[1]] for note in node.notes if note[0] == "Sent"]


def killed(path, folder, kills, seed):
    """Killed so often while both nodes send."""
    journal = os.path.join(folder, "journal")
    between = Killed(path, journal, random.Random(seed))
    for _ in range(kills):
        between.start()
        between.run_for(between.draw.uniform(0.01, 1.0))
        between.program.child.send_signal(signal.SIGKILL)
        between.program.end()
        between.read()
    between.start()
    pairs = ((between.old, between.new, 6), (between.new, between.old, 7))

    def is_done():
        return all(node.is_quiet() and set(passages(Killed.told(between, node), version)) <= set(other.came.values())
                   for node, other, version in pairs)

    settled = between.pump_until(is_done, SETTLED)
    between.rest(0.5)
    between.program.child.kill()
    between.program.end()
    lost = others = claimed = 0
    for node, other, version in pairs:
        came, blocks = list(other.came.values()), list(node.blocks.values())
        claimed += len(Killed.told(between, node))
        lost += len(set(passages(Killed.told(between, node), version)) - set(came))
        others += len(set(came) - set(passages(blocks, version)))
    size = os.path.getsize(journal)
    print(f"{kills} kills: {between.sent} bundles, of {claimed} the sender was told that they came, {lost} of those are lost, "
          f"{others} came that nobody sent; {between.told['resumed']} sessions were resumed; the journal has {size:,} octets")
    return settled and not lost and not others


# ---- journals that can't be kept ----

class Ended:
    """A gateway that is to end by itself, or is stopped once it has said its first line."""

    def __init__(self, path, folder, journal):
        queues = Queues(False)
        nodes = [Node((1, 2), "127.0.0.1", queues), Node((4, 3), "127.0.0.1", queues)]
        words = gate_words(os.path.join(folder, "gate.toml"), nodes, f'journal = "{journal}"\n', (KEYS, KEYS))
        with subprocess.Popen([path, *words], stdin=subprocess.DEVNULL, stdout=subprocess.PIPE,
                              stderr=subprocess.PIPE) as child:
            self.line = child.stdout.readline()
            if self.line:
                child.kill()
            self.error = child.stderr.read().decode().splitlines()
        self.status = None if self.line else child.returncode
        self.said = self.error[-1] if self.error else ""
        for node in nodes:
            node.socket.close()


def is_unkept(path, folder, journal, wanted):
    """Whether the gateway ends with this line, and leaves the file as it was."""
    before = read(journal)
    run = Ended(path, folder, journal)
    if run.status == UNKEPT and run.said == f"fimdahol: {wanted}" and read(journal) == before:
        return True
    print(f"{journal}: status {run.status}, {run.said!r}; wanted {wanted!r}")
    return False


def read(path):
    try:
        with open(path, "rb") as file:
            return file.read()
    except OSError:
        return None


def write(path, octets):
    with open(path, "wb") as file:
        file.write(octets)


def spoiled(path, folder):
    """A journal with one octet changed, at each place."""
    kept = journal_model.Kept(reserved=[4097, 4097], greatest=2)
    kept.pending = {1: [1, b"abc"], 2: [0, b"de"]}
    kept.marks = [[0, 7, system_clock()]]
    octets, journal, good = kept.file(), os.path.join(folder, "spoiled"), True
    counts = {None: 0, UNKEPT: 0}
    for at in range(len(octets)):
        changed = bytearray(octets)
        changed[at] ^= 0x20 if at % 2 else 0x03
        write(journal, changed)
        run = Ended(path, folder, journal)
        try:
            journal_model.read(bytes(changed))
            wanted = None, ""
        except Refused as damage:
            wanted = UNKEPT, f"fimdahol: the journal is damaged: {damage.at} {damage.cause}"
        if run.status != wanted[0] or wanted[0] and (run.said != wanted[1] or read(journal) != bytes(changed)):
            print(f"octet {at} changed: status {run.status}, {run.said!r}; wanted {wanted}")
            good = False
        counts[run.status] = counts.get(run.status, 0) + 1
    print(f"{len(octets)} journals with an octet changed: {counts[UNKEPT]} are refused at their place, {counts[None]} are read")
    return good


def unkept(path, folder):
    foreign = os.path.join(folder, "foreign")
    write(foreign, b"# another program's\n")
    good = is_unkept(path, folder, foreign, "the journal is damaged: 0 Start")
    good &= is_unkept(path, folder, os.path.join(folder, "none", "journal"),
                      "the journal can't be opened: No such file or directory (os error 2)")
    locked = os.path.join(folder, "locked")
    with open(locked, "wb") as file:
        fcntl.flock(file, fcntl.LOCK_EX)
        good &= is_unkept(path, folder, locked, "the journal is in use")
    return good & mounted(path, folder)


def mounted(path, folder):
    """A disk that is full, and one that is read only."""
    place = os.path.join(folder, "small")
    os.mkdir(place)
    if subprocess.run(["mount", "-t", "tmpfs", "-o", "size=4k", "tmpfs", place], stderr=subprocess.DEVNULL,
                      check=False).returncode:
        print("full and read only disks: not tried, since nothing may be mounted")
        return True
    try:
        journal = os.path.join(place, "journal")
        kept = journal_model.Kept(reserved=[4097, 4097], greatest=1)
        kept.pending = {1: [1, bytes(3000)]}
        write(journal, kept.file())
        # The file made anew doesn't fit beside it.
        good = is_unkept(path, folder, journal, "the journal can't be written")
        subprocess.run(["mount", "-o", "remount,ro", place], check=True)
        good &= is_unkept(path, folder, journal, "the journal can't be opened: Read-only file system (os error 30)")
    finally:
        subprocess.run(["umount", place], check=False)
    return good


def main(words):
    path, words = program_of(words)
    options = options_of(words, OPTIONS)
    if options is None:
        sys.stderr.write(__doc__.split("\n\n")[1] + "\n")
        return 2
    with tempfile.TemporaryDirectory() as folder:
        good = [unkept(path, folder), spoiled(path, folder),
                killed(path, folder, int(options["kills"]), int(options["seed"]))]
    return int(not all(good))


if __name__ == "__main__":
    sys.exit(main(sys.argv[1:]))
