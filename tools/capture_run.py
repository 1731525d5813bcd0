#!/usr/bin/env python3
"""Writes what passes on both links of a running `serve` as a capture, for Wireshark and its like.

usage: tools/capture_run.py FILE [PROGRAM] [--bundles N] [--seed N]

The program is the one that this repository builds, where none is named; tools/gateway_model.py is one too. Each node
sends so many bundles (20) of up to 3,000 octets, some of which ask for reports. In the capture the old node is
192.0.2.1 and the gateway 192.0.2.2 for it; the gateway is 198.51.100.3 for the new node, which is 198.51.100.4. All
use port 1113, and packets stand in the order in which the nodes saw them. Status 0 where each bundle came through and
the program ends with 0. The last line says how many datagrams there are, and how many blocks were handed up on either
link: so many bundles a reader of the capture has to find.
"""
import os
import random
import struct
import sys
import time

sys.dont_write_bytecode = True
sys.path.insert(0, os.path.dirname(os.path.abspath(__file__)))
from gateway_model import VERSION, OLD, NEW, system_clock
from live_nodes import RecordedSocket, Served, idle_turns_a_second, options_of, program_of
from made_bundles import Made

OPTIONS = {"bundles": 20, "seed": 1}
CUT, LARGEST, SECONDS = 65_536, 3000, 30
PORT, UDP = 1113, 17
ADDRESSES = {1: ("192.0.2.1", "192.0.2.2"), 4: ("198.51.100.4", "198.51.100.3")}     # by the node's engine
IPV4_PACKETS = 228       # a capture's word for packets that begin with their IPv4 head


def packet(source, target, datagram):
    addresses = b"".join(bytes(int(part) for part in address.split(".")) for address in (source, target))
    udp = struct.pack("!HHHH", PORT, PORT, 8 + len(datagram), 0) + datagram
    head = struct.pack("!BBHHHBBH", 0x45, 0, 20 + len(udp), 0, 0, 64, UDP, 0) + addresses
    total = sum(struct.unpack("!10H", head))
    total = (total & 0xFFFF) + (total >> 16)
    return head[:10] + struct.pack("!H", ~total & 0xFFFF) + head[12:] + udp


def write(path, packets):
    with open(path, "wb") as out:
        out.write(struct.pack("<IHHiIII", 0xA1B2C3D4, 2, 4, 0, 0, 65_535, IPV4_PACKETS))
        for at, each in enumerate(packets):
            octets = packet(*each)
            out.write(struct.pack("<IIII", at // 1000, at % 1000 * 1000, len(octets), len(octets)) + octets)


def record_packets(node, address, gate, packets):
    """From now on what the node sends and gets is kept."""
    def tell(goes, datagram):
        packets.append((address, gate, datagram) if goes else (gate, address, datagram))
    node.socket = RecordedSocket(node.socket, tell)


def planned(node, count, draw):
    """Bundles of a node that pass, every third of which asks for reports."""
    made = Made(draw, VERSION[OLD if node.engine.own == 1 else NEW], LARGEST, system_clock(), CUT, LARGEST)
    for at in range(count):
        bundle = made.plain(made.size())
        yield made.octets(made.asking(bundle) if at % 3 == 0 else bundle)


def run(path, options):
    """The packets, the blocks that were handed up, and the program's status."""
    rate = idle_turns_a_second(path)
    served = Served(path, int(rate * SECONDS))
    packets, draw, sent = [], random.Random(int(options["seed"])), 0
    for node in served.nodes:
        record_packets(node, *ADDRESSES[node.engine.own], packets)
        for block in planned(node, int(options["bundles"]), draw):
            node.submit(block)
            sent += 1
    until = time.monotonic() + SECONDS
    while time.monotonic() < until:
        served.pump()
        if all(node.is_quiet() for node in served.nodes) and sum(len(node.came) for node in served.nodes) >= sent:
            break
    for _ in range(200):
        served.pump()
    packets = list(packets)
    status = served.use_up(SECONDS)
    return packets, sent + sum(len(node.came) for node in served.nodes), sent, status


def main(words):
    is_named = words[:1] and not words[0].startswith("-")
    file, words = (words[0], words[1:]) if is_named else (None, words)
    options = options_of(program_of(words)[1], OPTIONS) if file else None
    if options is None:
        sys.stderr.write(__doc__.split("\n\n")[1] + "\n")
        return 2
    packets, blocks, sent, status = run(program_of(words)[0], options)
    write(file, packets)
    print(f"{len(packets)} datagrams, {blocks} blocks")
    return 0 if status == 0 and blocks >= 2 * sent else 1


if __name__ == "__main__":
    sys.exit(main(sys.argv[1:]))
