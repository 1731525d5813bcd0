#!/usr/bin/env python3
"""Writes red-parts.pcap and bundles.pcap beside this file: UDP datagrams to port 1113 that carry LTP segments.

In red-parts.pcap a block of two pieces comes in the wrong order and with one piece twice; then a report that answers
it, and a whole block of another session. In bundles.pcap each bundle of bundles-6.bin and bundles-7.bin is a block of
its own, all red, in pieces of at most 128 octets; the pieces of every second block come in reverse.
"""
import os
import struct
import sys

sys.dont_write_bytecode = True
FOLDER = os.path.dirname(os.path.abspath(__file__))
sys.path.insert(0, FOLDER)
from make_bundles import BUNDLES_6, BUNDLES_7, sdnv

SEGMENTS = [
    "030107000103030800646566",    # session 7: the end of the red part, octets 3 to 5
    "00010700010003616263",        # octets 0 to 2: the red part is whole
    "00010700010003616263",        # the same once more
    "0801070008080600010006",      # a report
    "030109000100030100676869",    # session 9, whole in one piece
]
PIECE = 128
RED, RED_END_BLOCK = 0, 3


def pieces(session, block):
    """A block of originator 1 as red pieces of client service 1 (RFC 5326, section 3.2.1)."""
    for offset in range(0, len(block), PIECE):
        data = block[offset:offset + PIECE]
        ends = offset + len(data) == len(block)
        serials = sdnv(1) + sdnv(0) if ends else b""
        yield (bytes([RED_END_BLOCK if ends else RED]) + sdnv(1) + sdnv(session) + b"\0" + sdnv(1) + sdnv(offset)
               + sdnv(len(data)) + serials + data)


def blocks(bundles):
    """The pieces of all bundles, each a block of a session of its own."""
    for session, bundle in enumerate(bundles, 1):
        yield from list(pieces(session, bundle))[::-1 if session % 2 == 0 else 1]


def udp(payload):
    return struct.pack("!HHHH", 1113, 1113, 8 + len(payload), 0) + payload


def ipv4(payload):
    head = struct.pack("!BBHHHBBH4s4s", 0x45, 0, 20 + len(payload), 0, 0, 64, 17, 0,
                       bytes([192, 0, 2, 1]), bytes([192, 0, 2, 2]))
    total = sum(struct.unpack("!10H", head))
    total = (total & 0xFFFF) + (total >> 16)
    return head[:10] + struct.pack("!H", ~total & 0xFFFF) + head[12:] + payload


def write(name, datagrams):
    with open(os.path.join(FOLDER, name), "wb") as out:
        out.write(struct.pack("<IHHiIII", 0xA1B2C3D4, 2, 4, 0, 0, 65535, 228))
        for second, datagram in enumerate(datagrams):
            packet = ipv4(udp(datagram))
            out.write(struct.pack("<IIII", second, 0, len(packet), len(packet)) + packet)


def main():
    write("red-parts.pcap", [bytes.fromhex(text) for text in SEGMENTS])
    write("bundles.pcap", blocks(BUNDLES_6 + BUNDLES_7))


if __name__ == "__main__":
    main()
