#!/usr/bin/env python3
"""Writes exchange.pcap and broken-exchange.pcap beside this file: what engines 1 and 2 of a link sent each other.

Engine 1 is 192.0.2.1 and engine 2 is 192.0.2.2, both at UDP port 1113 (RFC 5326). Engine 1 sends a block of three red
pieces and engine 2 a block of one. In broken-exchange.pcap the second piece of the first block never came, and engine 2
reports it all the same.
"""
import os
import sys

sys.dont_write_bytecode = True
FOLDER = os.path.dirname(os.path.abspath(__file__))
sys.path.insert(0, os.path.join(os.path.dirname(FOLDER), "tools"))
from capture_run import write

FIRST, SECOND = "192.0.2.1", "192.0.2.2"
EXCHANGE = [
    (FIRST, "00010700010003616263"),         # session 7 of engine 1: octets 0 to 2
    (FIRST, "00010700010303646566"),         # octets 3 to 5
    (FIRST, "030107000106030800676869"),     # octets 6 to 8, with which the block ends, and checkpoint 8
    (SECOND, "0801070008080900010009"),      # report 8 answers it: octets 0 to 8 came
    (FIRST, "0901070008"),                   # that report is acknowledged
    (SECOND, "0302010001000302006a6b6c"),    # session 1 of engine 2: a whole block, and checkpoint 2
    (FIRST, "0802010002020300010003"),       # report 2 answers it
    (SECOND, "0902010002"),                  # and is acknowledged
]
LOST = 1


def packets(exchange):
    return [(source, SECOND if source == FIRST else FIRST, bytes.fromhex(text)) for source, text in exchange]


def main():
    write(os.path.join(FOLDER, "exchange.pcap"), packets(EXCHANGE))
    write(os.path.join(FOLDER, "broken-exchange.pcap"), packets(EXCHANGE[:LOST] + EXCHANGE[LOST + 1:]))


if __name__ == "__main__":
    main()
