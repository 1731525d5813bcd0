"""What nodes of other implementations have in common; ion_peer.py and hdtn_peer.py stand on it.

A node has bundles to send, which it puts into blocks in its own way, an end of a link as in quick_ends.py, and a way to
the gateway and one back, with troubles and delays. Of the gateway it knows the addresses alone.
"""
import collections
import os
import select
import socket
import sys
import time

sys.dont_write_bytecode = True
sys.path.insert(0, os.path.dirname(os.path.abspath(__file__)))
import format_model
from format_model import Fields, Refused
from live_nodes import AT_ONCE, MOST_WAITING, POLICY, Trouble, moment
from peer import address_of
from quick_ends import QuickEngine

SOCKET = 1 << 23                # octets that wait in a node's socket
WAIT = 0.02
RECEIVED = 1024                 # sessions that a node receives at once; how many it sends is said to it


class Way:
    """A way of datagrams, with troubles and a delay in seconds."""

    def __init__(self, trouble=None, delay=0.0):
        self.trouble, self.delay, self.waiting = trouble or Trouble(), delay, collections.deque()

    def put(self, datagram):
        self.wait(self.trouble.after(datagram))

    def idle(self):
        """Nothing comes: what was held back for later ones goes on."""
        self.wait(self.trouble.let_go())

    def wait(self, datagrams):
        self.waiting.extend((time.monotonic() + self.delay, each) for each in datagrams)

    def due(self):
        """The next one that has come to the end, or None."""
        if self.waiting and self.waiting[0][0] <= time.monotonic():
            return self.waiting.popleft()[1]
        return None


def bundles_in(block, version):
    """The octets of each bundle of a block, and the refusal of what comes after them or None."""
    found, fields = [], Fields(block)
    try:
        while fields.left():
            start = fields.at
            (format_model.bundle6 if version == 6 else format_model.bundle7)(fields)
            found.append(block[start:fields.at])
    except Refused as end:
        return found, end
    return found, None


def bound_socket(family, address):
    made = socket.socket(family, socket.SOCK_DGRAM)
    made.setsockopt(socket.SOL_SOCKET, socket.SO_RCVBUF, SOCKET)
    try:
        made.setsockopt(socket.SOL_SOCKET, 33, SOCKET)       # SO_RCVBUFFORCE, where it may be used
    except OSError:
        pass
    made.bind(address)
    made.setblocking(False)
    return made


def text_of(address):
    host, port = address[:2]
    return f"[{host}]:{port}" if ":" in host else f"{host}:{port}"


class PeerNode:
    """A node: a bundle a block, numbers in a row, and one port, but for what its kind does otherwise."""

    engine_of = QuickEngine

    def __init__(self, version, numbers, own, gate, policy=POLICY, there=None, back=None, queues=None, first=1,
                 sessions=64):
        self.version, self.queues, self.there, self.back = version, queues, there or Way(), back or Way()
        self.engine, self.sessions = self.engine_of(*numbers, first, policy, RECEIVED), sessions
        self.family, address = address_of(own)
        self.peer = address_of(gate)[1]
        self.socket = bound_socket(self.family, address)
        self.sender = self.sending_socket()
        self.address, self.gate_address, self.gate = text_of(self.socket.getsockname()), gate, self.peer[1]
        self.bundles, self.room, self.sent = collections.deque(), 0, 0
        self.blocks, self.came, self.left, self.notes = {}, [], [], []
        self.began_at, self.came_at = {}, []      # moments of blocks, and of the bundles that came

    # ---- what a kind of nodes does in its own way ----

    def sending_socket(self):
        return self.socket

    def next_block(self):
        """The bundles of the next block, or nothing."""
        return [self.bundles.popleft()] if self.bundles else []

    def next_number(self):
        """The number of the next session."""
        return self.engine.next

    def is_done(self):
        """Whether no bundle of its own waits."""
        return not self.bundles

    # ---- bundles ----

    def send(self, bundle):
        self.bundles.append(bundle)

    def begin(self, bundles):
        """Sends bundles as one block."""
        self.engine.next = session = self.next_number()
        self.blocks[session], self.began_at[session] = bundles, moment()
        block = b"".join(bundles)
        effects = self.engine.submit(block, len(block), moment())
        self.notes += [["Failed", session, cause] for cause, in effects.refused]
        self.take(effects)

    def leave_half(self, bundle):
        """Sends the first half of a block, of which it then knows nothing any more; answers the session."""
        self.engine.next = session = self.next_number()
        datagrams = self.engine.submit(bundle, len(bundle), moment()).out
        del self.engine.senders[session]
        for datagram, in datagrams[:(len(datagrams) + 1) // 2]:
            self.there.put(datagram)
        return session

    def begin_anew(self, first):
        """Its numbers go on from an earlier one."""
        self.engine.next = first
        for kept in (self.blocks, self.began_at, self.notes):
            kept.clear()

    def receive(self, session, block):
        """What stands in a block that came goes to the bundle layer."""
        found, end = bundles_in(block, self.version)
        self.hand_over(found)
        if end:
            self.left.append((session, block[sum(map(len, found)):].hex()))

    def hand_over(self, bundles):
        """To the bundle layer."""
        self.came += bundles
        self.came_at += [moment()] * len(bundles)

    # ---- datagrams ----

    def take(self, effects):
        for datagram, in effects.out:
            self.there.put(datagram)
        for session, block in effects.ups:
            self.receive(session, block)
        self.notes += effects.notes

    def arrive(self, datagram):
        self.take(self.engine.arrive(datagram, moment()))

    def listen(self):
        """Takes what came on the sockets; answers how many datagrams that were."""
        for count in range(AT_ONCE):
            try:
                self.back.put(self.socket.recv(65_507))
            except OSError:
                return count
        return AT_ONCE

    def pump(self):
        """Takes what came, does what is due, and sends; answers whether anything came."""
        came = self.listen()
        if not came:
            self.back.idle()
            self.there.idle()
        while (datagram := self.back.due()) is not None:
            self.arrive(datagram)
        deadline = self.engine.next_deadline()
        if deadline is not None and deadline <= moment():
            self.take(self.engine.tick(moment()))
        while len(self.engine.senders) < self.sessions and (bundles := self.next_block()):
            self.begin(bundles)
        self.send_some()
        return came > 0

    def send_some(self):
        """Sends what is due, as long as the gateway's socket has room."""
        while self.has_room() and (datagram := self.there.due()) is not None:
            self.room -= 2 * len(datagram) + 1024
            self.sent += 1
            try:
                self.sender.sendto(datagram, self.peer)
            except OSError:
                pass

    def has_room(self):
        if self.room <= 0:
            waiting = self.queues.read().get(self.gate, (0, 0))[0] if self.queues else 0
            self.room = MOST_WAITING - waiting
        return self.room > 0

    def is_quiet(self):
        """Whether nothing of its own is open or under way."""
        return self.is_done() and not self.engine.senders and not self.there.waiting


# ---- a node by hand ----

def played(words, usage, kind, known):
    """Plays a node by the words of a command; `known` has its options, each with the name and the default."""
    options, names, is_hex = {"seconds": 10.0, "first": 1, "into": None, **known}, [], False
    words = list(words)
    while words:
        word = words.pop(0)
        if word == "--hex":
            is_hex = True
        elif word.startswith("--") and word[2:] in options and words:
            like, given = options[word[2:]], words.pop(0)
            options[word[2:]] = given if like is None else type(like)(given)
        else:
            names.append(word)
    if len(names) < 5 or names[0] not in ("6", "7") or any(name.startswith("--") for name in names):
        sys.stderr.write(usage + "\n")
        return 2
    version, own, gate, number, theirs, *files = names
    node = kind(int(version), (int(number), int(theirs)), own, gate, first=options["first"],
                **{key: options[key] for key in known})
    for name in files:
        with open(name, "rb") as file:
            octets = file.read()
        node.send(bytes.fromhex(octets.decode()) if is_hex else octets)
    return told(node, options["seconds"], options["into"])


def told(node, seconds, folder):
    """Drives a node until nothing has come for some seconds, and tells what comes and what ends."""
    last, count, failed = time.monotonic(), 0, 0
    while not node.is_quiet() or time.monotonic() < last + seconds:
        if not node.pump():
            select.select([node.socket], [], [], WAIT)
        else:
            last = time.monotonic()
        for octets in node.came[count:]:
            count += 1
            if folder:
                with open(os.path.join(folder, str(count)), "wb") as file:
                    file.write(octets)
            print(f"came {count} {len(octets) if folder else octets.hex()}", flush=True)
        while node.left:
            failed += 1
            print("left {} {}".format(*node.left.pop(0)), flush=True)
        while node.notes:
            word, *rest = node.notes.pop(0)
            failed += word in ("Failed", "Cancelled")
            print(word.lower(), *rest, flush=True)
    return int(failed > 0)
