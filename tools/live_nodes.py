"""Two nodes over loopback UDP, and a program that serves between them; live_run.py, attack_run.py and bench/serve.py
stand on it.

A node is an end of a link as in quick_ends.py, with waits of its own. The program's sockets are never filled: how much
waits in them stands in /proc/net/udp, so a datagram that is lost was lost on purpose. Only the gateway's addresses, its
datagrams and its lines are known here, and nothing of how it works. Linux alone has what this reads.
"""
import collections
import math
import os
import random
import select
import socket
import subprocess
import sys
import threading
import time

sys.dont_write_bytecode = True
sys.path.insert(0, os.path.dirname(os.path.abspath(__file__)))
from ltp_model import REPORT_ACK, Policy, written
from quick_ends import QuickEngine, read_quickly

ROOT = os.path.dirname(os.path.dirname(os.path.abspath(__file__)))
PROGRAM = os.path.join(ROOT, "crates", "bundle_cli", "out", "bundle_cli")
GATE = "ipn:9.0"
POLICY = Policy(1024, 700, 100, 5000)       # of the nodes: they ask again sooner than the gateway does
MOST_WAITING = 120_000                      # octets in a socket of the program, of some 210,000 that it holds
AT_ONCE = 256                               # datagrams that a node takes before the other has its turn
IDLE_TURNS = 400
MOST_OLD = 3000                             # datagrams that may come again
SETTLED = 0.1                               # seconds
ACKNOWLEDGEMENT = bytes([REPORT_ACK])
UNUSED = 1 << 40                            # a session number of a node that it never comes to
PORTS = random.SystemRandom()
GIVEN = set()                               # ports that free_port has given


def moment():
    """Milliseconds of a clock that never goes back."""
    return time.monotonic_ns() // 1_000_000


class Trouble:
    """What happens to datagrams on their way, by a seed.

    Some are lost, some come twice, some wait for a few later ones, and as often as they come twice an old one comes
    again, however late.
    """

    def __init__(self, seed=0, loss=0.0, repeats=0.0, delays=0.0):
        self.draw, self.loss, self.repeats, self.delays = random.Random(seed), loss, repeats, delays
        self.held, self.lost, self.old = [], 0, []

    def after(self, datagram):
        """The datagrams that come out once this one goes in."""
        out = []
        if self.draw.random() < self.loss:
            self.lost += 1
        else:
            for _ in range(2 if self.draw.random() < self.repeats else 1):
                if self.draw.random() < self.delays:
                    self.held.append([self.draw.randrange(1, 12), datagram])
                else:
                    out.append(datagram)
        for waiting in self.held:
            waiting[0] -= 1
        return out + self.old_one(datagram) + self.let_go(lambda waiting: waiting[0] <= 0)

    def old_one(self, datagram):
        """Seldom one of those that went in before; this one is remembered."""
        if not self.repeats:
            return []
        out = [self.draw.choice(self.old)] if self.old and self.draw.random() < self.repeats else []
        if len(self.old) < MOST_OLD:
            self.old.append(datagram)
        else:
            self.old[self.draw.randrange(MOST_OLD)] = datagram
        return out

    def let_go(self, is_due=lambda waiting: True):
        """Those that wait no longer."""
        due = [datagram for left, datagram in self.held if is_due([left])]
        self.held = [waiting for waiting in self.held if not is_due(waiting)]
        return due


class Queues:
    """How much waits in the sockets of the program, and how much of that was dropped."""

    def __init__(self, is_six):
        self.path = "/proc/net/udp6" if is_six else "/proc/net/udp"

    def read(self):
        """Octets that wait, and datagrams that were dropped, by port."""
        found = {}
        with open(self.path, encoding="ascii") as file:
            for line in file.readlines()[1:]:
                words = line.split()
                found[int(words[1].rpartition(":")[2], 16)] = int(words[4].partition(":")[2], 16), int(words[-1])
        return found


class RecordedSocket:
    """A node's socket, which tells each datagram that goes (True) or comes (False)."""

    def __init__(self, socket, tell):
        self.socket, self.tell = socket, tell

    def __getattr__(self, name):
        return getattr(self.socket, name)

    def send(self, datagram):
        self.tell(True, bytes(datagram))
        return self.socket.send(datagram)

    def recv(self, most):
        datagram = self.socket.recv(most)
        self.tell(False, datagram)
        return datagram


class Node:
    """One node: its engine, its socket, and the troubles of the ways to the gateway and from it."""

    def __init__(self, numbers, host, queues, policy=POLICY, there=None, back=None):
        self.engine, self.queues = QuickEngine(*numbers, policy=policy), queues
        self.there, self.back = there or Trouble(), back or Trouble()
        self.socket = socket.socket(socket.AF_INET6 if ":" in host else socket.AF_INET, socket.SOCK_DGRAM)
        self.socket.setsockopt(socket.SOL_SOCKET, socket.SO_RCVBUF, 1 << 23)
        try:
            self.socket.setsockopt(socket.SOL_SOCKET, 33, 1 << 23)       # SO_RCVBUFFORCE, where it may be used
        except OSError:
            pass
        self.socket.bind((host, 0))
        self.socket.setblocking(False)
        self.gate = free_port(host)
        self.socket.connect((host, self.gate))
        self.address = "{}:{}".format(f"[{host}]" if ":" in host else host, self.socket.getsockname()[1])
        self.gate_address = "{}:{}".format(f"[{host}]" if ":" in host else host, self.gate)
        self.outgoing, self.room = collections.deque(), 0
        self.blocks, self.came, self.notes, self.sent = {}, {}, [], 0
        self.unanswered = set()       # sessions of which an acknowledgement isn't on its way, or was lost

    def submit(self, block):
        """Sends a block, and answers its session."""
        session = self.engine.next
        self.take(self.engine.submit(block, len(block), moment()))
        self.blocks[session] = block
        return session

    def take(self, effects):
        for datagram, in effects.out:
            self.put(datagram)
        for session, body in effects.ups:
            self.came[session] = body
        self.notes += effects.notes

    def arrive(self, datagram):
        self.take(self.engine.arrive(datagram, moment()))

    def put(self, datagram):
        """Gives a datagram to the way to the gateway."""
        if datagram[0] == REPORT_ACK:
            self.unanswered.add(read_quickly(datagram)[1])
        self.outgoing.extend(self.there.after(datagram))

    def pump(self):
        """Takes what came, does what is due, and sends; answers whether anything came."""
        came = 0
        while came < AT_ONCE:
            try:
                datagram = self.socket.recv(65_507)
            except BlockingIOError:
                break
            except ConnectionRefusedError:
                continue
            came += 1
            for each in self.back.after(datagram):
                self.arrive(each)
        if not came:
            for each in self.back.let_go():
                self.arrive(each)
            self.outgoing.extend(self.there.let_go())
        deadline = self.engine.next_deadline()
        if deadline is not None and deadline <= moment():
            self.take(self.engine.tick(moment()))
        self.send()
        return came > 0

    def send(self):
        """Sends what the gateway's socket has room for."""
        while self.outgoing:
            if self.room <= 0:
                self.room = MOST_WAITING - self.queues.read().get(self.gate, (0, 0))[0]
                if self.room <= 0:
                    return
            datagram = self.outgoing.popleft()
            self.room -= 2 * len(datagram) + 1024
            self.sent += 1
            if datagram[:1] == ACKNOWLEDGEMENT and self.unanswered:
                self.unanswered.discard(read_quickly(datagram)[1])
            try:
                self.socket.send(datagram)
            except ConnectionRefusedError:
                pass

    def is_quiet(self):
        """Whether nothing of its own is open or under way."""
        return not self.engine.senders and not self.outgoing

    def send_nothing(self, count):
        """Datagrams that a gateway takes and says nothing of: acknowledgements for a session that isn't there."""
        nothing = written(REPORT_ACK, (self.engine.own, UNUSED), 1)
        self.outgoing.extend([nothing] * max(0, count - len(self.outgoing)))


def free_port(host):
    """A port that nobody has, of those that the system gives to no socket by itself, so that it is still free when the
    program comes to bind it. None comes twice in a run."""
    with open("/proc/sys/net/ipv4/ip_local_port_range", encoding="ascii") as told:
        least = int(told.read().split()[0])
    while True:
        port = PORTS.randrange(least // 3, least)
        with socket.socket(socket.AF_INET6 if ":" in host else socket.AF_INET, socket.SOCK_DGRAM) as probe:
            try:
                probe.bind((host, port))
            except OSError:
                continue
        if port not in GIVEN:
            GIVEN.add(port)
            return port


class Program:
    """A run of the program, whose lines are read as they come."""

    def __init__(self, path, words, keep=True):
        self.lines = collections.deque()
        # On standard error it says first what it is, which nobody reads here.
        self.child = subprocess.Popen([path, *words], stdin=subprocess.DEVNULL, stderr=subprocess.DEVNULL,
                                      stdout=subprocess.PIPE if keep else subprocess.DEVNULL)
        self.reader = threading.Thread(target=self.read, daemon=True) if keep else None
        self.used = None
        if self.reader:
            self.reader.start()

    def read(self):
        for line in self.child.stdout:
            self.lines.append(line)

    def has_ended(self):
        if self.used is None:
            found, raw, used = os.wait4(self.child.pid, os.WNOHANG)
            if found:
                self.child.returncode, self.used = os.waitstatus_to_exitcode(raw), used
        return self.used is not None

    def end(self):
        """Waits for the end; answers the status."""
        while not self.has_ended():
            time.sleep(0.01)
        if self.reader:
            self.reader.join()
        return self.child.returncode

    def kilobytes(self, name="VmRSS"):
        """Memory of the running program, as /proc says it."""
        with open(f"/proc/{self.child.pid}/status", encoding="ascii") as file:
            return next((int(line.split()[1]) for line in file if line.startswith(name + ":")), 0)

    def processor_seconds(self):
        """Seconds of the processor that the running program has used, with all its threads."""
        folder, used = f"/proc/{self.child.pid}/task", 0
        for thread in os.listdir(folder):
            with open(f"{folder}/{thread}/schedstat", encoding="ascii") as file:
                used += int(file.read().split()[0])
        return used / 1e9


def gate_words(file, nodes, gateway="", keys=("", "")):
    """Writes the configuration of a gateway between two nodes, with more keys; answers the words that run it."""
    with open(file, "w", encoding="utf-8") as text:
        text.write(f'[gateway]\nendpoint = "{GATE}"\n{gateway}')
        for name, node, more in zip(("old", "new"), nodes, keys):
            text.write(f'[{name}]\nbind = "{node.gate_address}"\npeer = "{node.address}"\n{more}')
    return ["gate", file]


class Served:
    """A program that serves between an old node and a new node."""

    node = Node

    def __init__(self, path, turns, is_six=False, policy=POLICY, troubles=None, keep=True, file=None, keys=""):
        """It is `gate` where a file is named, with more keys for each face."""
        host, self.queues = "::1" if is_six else "127.0.0.1", Queues(is_six)
        troubles = troubles or [Trouble() for _ in range(4)]
        self.old = self.node((1, 2), host, self.queues, policy, *troubles[:2])
        self.new = self.node((4, 3), host, self.queues, policy, *troubles[2:])
        self.nodes = [self.old, self.new]
        words = [word for node in self.nodes for word in (node.gate_address, node.address)]
        words = gate_words(file, self.nodes, keys=(keys, keys)) if file else ["serve", GATE, *words, str(turns)]
        self.program = Program(path, words, keep)
        self.wait_for_sockets()

    def wait_for_sockets(self):
        """What comes before a socket has its peer may be dropped, so a moment more is waited."""
        for _ in range(1000):
            found = self.queues.read()
            if all(node.gate in found for node in self.nodes) or self.program.has_ended():
                time.sleep(SETTLED)
                if self.program.has_ended() and self.program.end() != 0:
                    sys.exit(f"the program ends at once, with {self.program.end()}")
                return
            time.sleep(0.01)
        self.program.child.terminate()
        sys.exit("the program binds no sockets")

    def pump(self, wait=0.005):
        """Lets both nodes do what there is to do, and waits where there is nothing."""
        if not any([node.pump() for node in self.nodes]):
            select.select([node.socket for node in self.nodes], [], [], wait)

    def dropped(self):
        """Datagrams that found the program's sockets full."""
        return self.dropped_at(node.gate for node in self.nodes)

    def missed(self):
        """Datagrams that found the nodes' sockets full."""
        return self.dropped_at(node.socket.getsockname()[1] for node in self.nodes)

    def dropped_at(self, ports):
        found = self.queues.read()
        return sum(found.get(port, (0, 0))[1] for port in ports)

    def use_up(self, most=math.inf):
        """Lets the turns pass that are left, and answers the status. A program that goes on for too long is ended."""
        until = time.monotonic() + most
        while not self.program.has_ended():
            for node in self.nodes:
                node.send_nothing(50)
            self.pump(0.0005)
            if time.monotonic() > until:
                self.program.child.terminate()
                until = math.inf
        return self.program.end()


def idle_turns_a_second(path, is_six=False):
    """How many turns the program makes in a second where nothing comes."""
    began = time.monotonic()
    served = Served(path, 1, is_six)
    served.program.end()
    started = time.monotonic() - began
    began = time.monotonic()
    served = Served(path, IDLE_TURNS, is_six)
    served.program.end()
    return IDLE_TURNS / max(0.001, time.monotonic() - began - started)


def program_of(words):
    """The program that is named first, or the one that this repository builds; and the words after it."""
    path = os.path.abspath(words[0]) if words and not words[0].startswith("--") else PROGRAM
    if not os.access(path, os.X_OK):
        sys.exit(f"{path} isn't there: run ./fimdahol --build first, or name a program as the first argument")
    return path, words[1:] if words and not words[0].startswith("--") else words


def options_of(words, known):
    """The options of a call, each with its number; those that are False in what is known have none."""
    options, left = dict(known), list(words)
    while left:
        word = left.pop(0).removeprefix("--")
        if word not in known or known[word] is not False and not left:
            return None
        options[word] = True if known[word] is False else float(left.pop(0))
    return options
