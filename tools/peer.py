#!/usr/bin/env python3
"""A node of LTP over UDP, to try a gateway with: it sends blocks, and tells each block that comes.

usage: tools/peer.py BIND PEER OWN THEIRS [FILE..] [--hex] [--seconds S] [--first N] [--into FOLDER]

BIND and PEER are its own address and port, and the gateway's; OWN is its engine number, and THEIRS the gateway's. Each
FILE is sent as one block, all of it red, in a session of its own; with --hex a file is hex. Printed are `sent N` where all of
block N was claimed, `failed N CAUSE`, `cancelled N CAUSE`, and `came N HEX` for a block that came whole; with --into its
octets go to FOLDER/N, and `came N LENGTH` is printed. It ends S seconds (10) after all of its own blocks have ended and
nothing has come any more, and with status 1 where one failed. `--first` is the number of its first session (1).
"""
import os
import select
import socket
import sys
import time

sys.dont_write_bytecode = True
sys.path.insert(0, os.path.dirname(os.path.abspath(__file__)))
from live_nodes import moment
from quick_ends import QuickEngine

OPTIONS = {"seconds": "10", "first": "1", "into": None}
WAIT = 0.05


def address_of(text):
    """The address and its family."""
    host, _, port = text.rpartition(":")
    family, _, _, _, address = socket.getaddrinfo(host.strip("[]"), int(port), type=socket.SOCK_DGRAM)[0]
    return family, address


class Peer:
    def __init__(self, bind, peer, own, theirs, first, folder):
        family, address = address_of(bind)
        self.socket, self.peer, self.folder = socket.socket(family, socket.SOCK_DGRAM), address_of(peer)[1], folder
        self.socket.setsockopt(socket.SOL_SOCKET, socket.SO_RCVBUF, 1 << 22)
        self.socket.bind(address)
        self.engine, self.failed, self.last = QuickEngine(own, theirs, first), 0, time.monotonic()

    def take(self, effects):
        for datagram, in effects.out:
            self.socket.sendto(datagram, self.peer)
        for session, body in effects.ups:
            if self.folder:
                with open(os.path.join(self.folder, str(session)), "wb") as file:
                    file.write(body)
            print(f"came {session} {len(body) if self.folder else body.hex()}", flush=True)
        for word, *rest in effects.notes:
            if word in ("Sent", "Failed", "Cancelled"):
                self.failed += word != "Sent"
                print(word.lower(), *rest, flush=True)

    def submit(self, block):
        effects = self.engine.submit(block, len(block), moment())
        for cause, in effects.refused:
            self.failed += 1
            print(f"refused {cause}", flush=True)
        self.take(effects)

    def run(self, seconds):
        while self.engine.senders or time.monotonic() < self.last + seconds:
            if select.select([self.socket], [], [], WAIT)[0]:
                self.last = time.monotonic()
                self.take(self.engine.arrive(self.socket.recv(65_535), moment()))
            deadline = self.engine.next_deadline()
            if deadline is not None and deadline <= moment():
                self.take(self.engine.tick(moment()))


def main(words):
    options, names, is_hex = dict(OPTIONS), [], False
    while words:
        word = words.pop(0)
        if word == "--hex":
            is_hex = True
        elif word.startswith("--") and word[2:] in options and words:
            options[word[2:]] = words.pop(0)
        else:
            names.append(word)
    if len(names) < 4 or any(name.startswith("--") for name in names):
        sys.stderr.write(__doc__.split("\n\n")[1] + "\n")
        return 2
    bind, address, own, theirs, *files = names
    peer = Peer(bind, address, int(own), int(theirs), int(options["first"]), options["into"])
    for name in files:
        with open(name, "rb") as file:
            octets = file.read()
        peer.submit(bytes.fromhex(octets.decode()) if is_hex else octets)
    peer.run(float(options["seconds"]))
    return int(peer.failed > 0)


if __name__ == "__main__":
    sys.exit(main(sys.argv[1:]))
