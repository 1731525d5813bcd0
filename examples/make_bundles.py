#!/usr/bin/env python3
"""Writes bundles-6.bin and bundles-7.bin beside this file: bundles of either version, end to end.

They are made from the standards' tables and not by the program, so that it and other readers can be held against
them. The same octets are written each time.
"""
import os


def sdnv(value):
    """The shortest spelling of a number in version 6 and in LTP (RFC 5050, section 4.1)."""
    octets = [value & 127]
    while value := value >> 7:
        octets.append(value & 127 | 128)
    return bytes(reversed(octets))


def block6(kind, flags, body, references=None):
    """A block of version 6. The caller gives bit 3 to the last one; bit 6 comes with the references."""
    pairs = b"" if references is None else sdnv(len(references) // 2) + b"".join(map(sdnv, references))
    return bytes([kind]) + sdnv(flags | (0 if references is None else 0x40)) + pairs + sdnv(len(body)) + body


def bundle6(flags, names, creation, lifetime, blocks, dictionary=b"", fragment=()):
    """A bundle of version 6. The names are the eight numbers of destination, source, report-to and custodian."""
    numbers = [*names, *creation, lifetime, len(dictionary)]
    rest = b"".join(map(sdnv, numbers)) + dictionary + b"".join(map(sdnv, fragment))
    return b"\6" + sdnv(flags) + sdnv(len(rest)) + rest + b"".join(blocks)


def crc(octets, start, polynomial):
    """A reflected CRC whose result is inverted."""
    value = start
    for octet in octets:
        value ^= octet
        for _ in range(8):
            value = value >> 1 ^ (polynomial if value & 1 else 0)
    return value ^ start


def crc16(octets):
    """CRC-16 X-25."""
    return crc(octets, 0xFFFF, 0x8408)


def crc32c(octets):
    """CRC-32C."""
    return crc(octets, 0xFFFFFFFF, 0x82F63B78)


def head(kind, value):
    """The shortest head of a CBOR item."""
    if value < 24:
        return bytes([kind << 5 | value])
    power = next(power for power in range(4) if value < 1 << (8 << power))
    return bytes([kind << 5 | 24 + power]) + value.to_bytes(1 << power, "big")


def numbers(*values):
    """An array of unsigned numbers."""
    return head(4, len(values)) + b"".join(head(0, value) for value in values)


def ipn(node, service):
    return head(4, 2) + head(0, 2) + numbers(node, service)


def dtn(text):
    return head(4, 2) + head(0, 1) + head(3, len(text)) + text.encode()


NOBODY = numbers(1, 0)


def checked(items, kind):
    """A block of version 7: its items, and its check where the kind of it isn't 0 (RFC 9171, section 4.2.1)."""
    octets = head(4, len(items) + (kind > 0)) + b"".join(items)
    if kind == 1:
        octets += head(2, 2)
        return octets + crc16(octets + bytes(2)).to_bytes(2, "big")
    if kind == 2:
        octets += head(2, 4)
        return octets + crc32c(octets + bytes(4)).to_bytes(4, "big")
    return octets


def block7(kind, number, flags, check, body):
    """A block of version 7."""
    return checked([*(head(0, value) for value in (kind, number, flags, check)), head(2, len(body)) + body], check)


def bundle7(flags, check, names, creation, lifetime, blocks, fragment=()):
    """A bundle of version 7. The names are destination, source and report-to."""
    items = [head(0, 7), head(0, flags), head(0, check), *names, numbers(*creation), head(0, lifetime)]
    return b"\x9f" + checked(items + [head(0, value) for value in fragment], check) + b"".join(blocks) + b"\xff"


def counted(size):
    return bytes(at & 255 for at in range(size))


BUNDLES_6 = [
    # From ipn:1.1 to ipn:2.1 without a dictionary.
    bundle6(0x90, [2, 1, 1, 1, 0, 0, 0, 0], (1000, 5), 60, [block6(1, 8, b"abc")]),
    # From dtn://a/x to dtn://b/y, with report-to and custodian none.
    bundle6(0x90, [0, 4, 0, 10, 0, 16, 0, 16], (1000, 5), 60, [block6(1, 8, b"abc")],
            b"dtn\0//b/y\0//a/x\0none\0"),
    # Both schemes in one dictionary, in no order, with a text that nobody uses; expedited, deletion is reported; a
    # block of an unknown type that refers to two endpoints stands before the payload.
    bundle6(0x40110, [29, 12, 0, 16, 29, 33, 29, 8], (817_344_000, 70_000), 86_400,
            [block6(200, 1, counted(5), [29, 12, 0, 16]), block6(1, 8, counted(300))],
            b"dtn\0abc\x001.0\x002.7\0//mars/rover\0ipn\x001.5\0"),
    # A fragment: 20 octets from the 100th of 1,000.
    bundle6(0x91, [977_000, 64, 2_147_483_647, 1, 2_147_483_647, 0, 0, 0], (817_344_001, 0), 3600,
            [block6(1, 9, counted(20))], fragment=(100, 1000)),
    # No source, no fragments, an empty payload, and a block after it.
    bundle6(0x14, [2, 1, 0, 0, 0, 0, 0, 0], (817_344_002, 1), 0, [block6(1, 0, b""), block6(201, 8, b"\xff")]),
]

BUNDLES_7 = [
    # From ipn:1.1 to ipn:2.1, with a check of the primary block alone.
    bundle7(0, 1, [ipn(2, 1), ipn(1, 1), NOBODY], (1_000_005, 0), 59_995, [block7(1, 1, 0, 0, b"abc")]),
    # Previous node, age and hop count; texts as names; CRC-32C on the primary block, each kind of check on the others.
    bundle7(0x40000, 2, [dtn("//b/y"), dtn("//mars/rover"), dtn("//a/")], (817_344_000_123, 70_000), 86_400_000,
            [block7(6, 4, 1, 1, dtn("//relay/")), block7(7, 3, 0, 2, head(0, 70_000)),
             block7(10, 2, 0, 0, numbers(30, 4)), block7(1, 1, 1, 2, counted(300))]),
    # A fragment: 20 octets from the 100th of 1,000; a previous node of the scheme ipn.
    bundle7(1, 1, [ipn(977_000, 64), ipn(4_294_967_295, 1), ipn(4_294_967_295, 0)], (817_344_001_000, 0), 3_600_000,
            [block7(6, 2, 1, 2, ipn(4_294_967_295, 0)), block7(1, 1, 0, 1, counted(20))], (100, 1000)),
    # A source without a clock, and a block of an unknown type.
    bundle7(0, 2, [dtn("//b/y"), ipn(1, 1), NOBODY], (0, 300), 1_000,
            [block7(7, 2, 0, 1, head(0, 0)), block7(200, 17, 0x10, 1, counted(9)), block7(1, 1, 0, 1, counted(24))]),
    # No source, no fragments, an empty payload.
    bundle7(4, 1, [ipn(2, 1), NOBODY, NOBODY], (817_344_002_000, 1), 0, [block7(1, 1, 0, 2, b"")]),
]


def main():
    folder = os.path.dirname(os.path.abspath(__file__))
    for name, bundles in (("bundles-6.bin", BUNDLES_6), ("bundles-7.bin", BUNDLES_7)):
        with open(os.path.join(folder, name), "wb") as file:
            file.write(b"".join(bundles))


if __name__ == "__main__":
    main()
