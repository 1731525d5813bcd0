#!/usr/bin/env python3
"""Makes the lines of a recording, as `audit` reads them, out of a captured exchange.

usage: tshark -r CAPTURE -T fields -e ip.src -e udp.srcport -e ip.dst -e udp.dstport -e udp.payload udp |
           tools/capture_lines.py ENGINE [PEER]

ENGINE and PEER say where an engine is: an address, or an address and a port with a colon between them; one of version
6 with a port stands in brackets (and then the fields are ipv6.src and ipv6.dst). What ENGINE sent becomes `out HEX`,
what came to it `in HEX`, in the order of the capture; where PEER is named, only what it sent or got. Status 1 where a
line of the input is no datagram, and where none was ENGINE's.
"""
import sys


def place(word):
    """An address, and a port or None."""
    if word.startswith("["):
        address, _, rest = word[1:].partition("]")
        return address, rest.removeprefix(":") or None
    if word.count(":") == 1:
        address, _, port = word.partition(":")
        return address, port
    return word, None


def is_at(wanted, address, port):
    return wanted is None or (wanted[0] == address and wanted[1] in (None, port))


def lines_of(rows, engine, peer):
    """The lines of a recording. A row of no payload is a datagram of no octets."""
    for number, row in enumerate(rows, 1):
        fields = row.rstrip("\r\n").split("\t")
        if len(fields) != 5 or not all(fields[:4]):
            sys.exit(f"capture_lines: line {number} is no datagram with two addresses, two ports and octets")
        source, target = fields[:2], fields[2:4]
        if is_at(engine, *source) and is_at(peer, *target):
            yield f"out {fields[4]}"
        elif is_at(engine, *target) and is_at(peer, *source):
            yield f"in {fields[4]}"


def main(words):
    if len(words) not in (1, 2) or words[0].startswith("-"):
        sys.stderr.write(__doc__.split("\n\n")[1] + "\n")
        return 2
    engine, peer = place(words[0]), place(words[1]) if words[1:] else None
    count = 0
    for line in lines_of(sys.stdin, engine, peer):
        print(line)
        count += 1
    if not count:
        sys.stderr.write(f"capture_lines: no datagram is of {words[0]}\n")
    return 0 if count else 1


if __name__ == "__main__":
    sys.exit(main(sys.argv[1:]))
