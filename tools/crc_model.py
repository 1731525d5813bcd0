#!/usr/bin/env python3
"""The two checks of version 7, bit by bit (RFC 9171, section 4.2.1).

usage: tools/crc_model.py [HEX]

Prints CRC-16 X-25 and CRC-32C of the octets, or else of a list of texts whose checks are published, beside what was
published, and ends with 1 where one differs.
"""
import sys

# Reflected polynomials, as many bits as the check has.
CRC16, CRC32C = (16, 0x8408), (32, 0x82F63B78)

# Texts, and their CRC-16 X-25 and CRC-32C where they are published: the catalogues' check values, and RFC 3720, B.4.
PUBLISHED = [
    (b"123456789", 0x906E, 0xE3069283),
    (bytes(32), None, 0x8A9136AA),
    (b"\xff" * 32, None, 0x62A8AB43),
    (bytes(range(32)), None, 0x46DD794E),
    (bytes(reversed(range(32))), None, 0x113FDB5C),
]


def remainder(octets, bits, polynomial):
    """Begins with ones, takes the low bit of each octet first, and is inverted at the end."""
    ones = (1 << bits) - 1
    value = ones
    for octet in octets:
        for at in range(8):
            low = (value ^ octet >> at) & 1
            value >>= 1
            if low:
                value ^= polynomial
    return value ^ ones


def crc16(octets):
    return remainder(octets, *CRC16)


def crc32c(octets):
    return remainder(octets, *CRC32C)


def main(words):
    if words == ["--help"]:
        print(__doc__)
        return 0
    if words:
        octets = bytes.fromhex("".join(words))
        print(f"{crc16(octets):04x} {crc32c(octets):08x}")
        return 0
    bad = 0
    for octets, *wanted in PUBLISHED:
        for name, check, value in zip(("CRC-16 X-25", "CRC-32C"), (crc16, crc32c), wanted):
            if value is not None:
                found = check(octets)
                bad |= found != value
                print(f"{name} of {octets.hex()}: {found:x}, published {value:x}")
    return bad


if __name__ == "__main__":
    sys.exit(main(sys.argv[1:]))
