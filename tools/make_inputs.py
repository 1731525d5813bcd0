#!/usr/bin/env python3
"""Makes inputs of `receive`, `check` and `show`, the same ones for the same seed.

usage: tools/make_inputs.py SEED COUNT FOLDER     writes them to a folder, as receive-1, check-2, ..

Every fourth input is lines of segments, the others are bundles end to end. Two of three are then spoiled at one place:
cut, an octet changed, taken out or put in, or a number spelled otherwise. So most of what is wrong is wrong in one
field alone, wherever it stands, and what comes before it is as it should be.
"""
import os
import random
import sys

sys.dont_write_bytecode = True
ROOT = os.path.dirname(os.path.dirname(os.path.abspath(__file__)))
sys.path.insert(0, os.path.join(ROOT, "examples"))
from make_bundles import block6, block7, bundle6, bundle7, dtn, head, ipn, numbers, sdnv, NOBODY

EDGES = [0, 1, 2, 5, 23, 24, 127, 128, 255, 256, 16383, 16384, 65535, 65536, (1 << 32) - 1, 1 << 32, (1 << 63),
         (1 << 64) - 1]
NAMES = ["//a/x", "//b/y", "//mars/~all", "none2", "x", "~", "!\"#", "1.1"]


def number(draw, most=(1 << 64) - 1):
    """A number up to a bound, mostly one beside which something changes."""
    return draw.choice([value for value in EDGES if value <= most] + [draw.randint(0, min(most, 300))])


def rarely(draw):
    return draw.random() < 0.06


def body(draw):
    return bytes(draw.randrange(256) for _ in range(draw.choice([0, 1, 3, 3, 23, 24, 40])))


# ---- version 6 ----

def pair_of(draw, texts):
    """A pair of places of a dictionary, or without one of node and service."""
    if texts is None:
        return [draw.choice([0, 1, 2, number(draw)]), draw.choice([0, 1, number(draw)])]
    places, at = {}, 0
    for text in texts:
        places.setdefault(text, at)
        at += len(text) + 1
    if draw.random() < 0.5 and "ipn" in places:
        return [places["ipn"], draw.choice([place for text, place in places.items() if text[0].isdigit()])]
    return [places["dtn"], draw.choice([place for text, place in places.items() if text in NAMES or text == "none"])]


def dictionary_of(draw):
    if draw.random() < 0.4:
        return None
    texts = ["dtn", "none", "ipn", "1.1", f"{number(draw)}.{number(draw)}", draw.choice(NAMES), draw.choice(NAMES)]
    draw.shuffle(texts)
    return texts


def old_bundle(draw):
    texts = dictionary_of(draw)
    dictionary = b"" if texts is None else b"".join(text.encode() + b"\0" for text in texts)
    others = [(draw.choice([0, 2, 7, 10, 192, 200, 255]), body(draw)) for _ in range(draw.choice([0, 0, 1, 2]))]
    payload = body(draw)
    fragment = ()
    if draw.random() < 0.3:
        offset = number(draw, 1 << 63)
        fragment = (offset, offset + len(payload) + draw.choice([0, 1, number(draw, 1 << 32)]))
    kinds = [*others]
    kinds.insert(draw.randrange(len(kinds) + 1), (1, payload))
    blocks = []
    for at, (kind, octets) in enumerate(kinds):
        flags = draw.choice([0, 1, 2, 23, 32, number(draw)]) & ~72 | (8 if at == len(kinds) - 1 else 0)
        refs = None
        if draw.random() < 0.25:
            refs = [value for _ in range(draw.choice([0, 1, 2])) for value in pair_of(draw, texts)]
        blocks.append(block6(kind, flags, octets, refs))
    flags = draw.choice([0, 0x10, 0x90, 0x7C190, number(draw)]) & ~1 | (1 if fragment else 0)
    names = [value for _ in range(4) for value in pair_of(draw, texts)]
    return bundle6(flags, names, (number(draw), number(draw)), number(draw), blocks, dictionary, fragment)


# ---- version 7 ----

def name7(draw):
    return draw.choice([NOBODY, ipn(number(draw), number(draw)), ipn(1, 1), dtn(draw.choice(NAMES))])


def extension7(draw, kind):
    if kind == 6:
        return name7(draw)
    if kind == 7:
        return head(0, number(draw))
    return numbers(draw.choice([1, 30, 255]), number(draw)) if kind == 10 else body(draw)


def new_bundle(draw):
    kinds = draw.sample([6, 7, 10, 0, 2, 192, 200, 1 << 40], draw.choice([0, 0, 1, 2, 3]))
    kinds += [kinds[0]] if kinds and rarely(draw) else []
    free = draw.sample([2, 3, 4, 23, 24, 255, 256, 65536, (1 << 64) - 1], len(kinds))
    blocks = [block7(kind, own, number(draw), draw.randrange(3), extension7(draw, kind))
              for kind, own in zip(kinds, free)]
    payload = body(draw)
    fragment = ()
    if draw.random() < 0.3:
        offset = number(draw, 1 << 63)
        fragment = (offset, offset + len(payload) + draw.choice([0, 1, number(draw, 1 << 32)]))
    blocks.append(block7(1, 1, number(draw), draw.randrange(3), payload))
    flags = number(draw) & ~1 | (1 if fragment else 0)
    names = [name7(draw) for _ in range(3)]
    return bundle7(flags, draw.randrange(3), names, (number(draw), number(draw)), number(draw), blocks, fragment)


# ---- LTP ----

def serial(draw):
    return 0 if rarely(draw) else draw.choice([1, number(draw) or 1])


def piece(draw, kind, part):
    """A piece of a red part; some have other octets than the part, or stand elsewhere."""
    size = draw.choice([0, 1, 2, 3, len(part)])
    offset = len(part) - min(size, len(part)) if kind in (2, 3) else draw.randrange(len(part))
    data = part[offset:offset + size] if draw.random() < 0.8 else body(draw)
    offset = number(draw) if rarely(draw) else offset
    serials = sdnv(serial(draw)) + sdnv(number(draw)) if kind in (1, 2, 3) else b""
    service = draw.choice([1, 1, 1, 1, 1, 1, 2, number(draw)])
    return sdnv(service) + sdnv(offset) + sdnv(len(data)) + serials + data


def report(draw):
    lower, at, claims = number(draw, 1 << 32), 0, []
    for _ in range(draw.choice([0, 1, 2, 3])):
        offset = max(0, at - 1) if rarely(draw) else at + draw.choice([0, 1, number(draw, 65536)])
        length = 0 if rarely(draw) else draw.choice([1, 2, number(draw, 65536) or 1])
        claims.append(sdnv(offset) + sdnv(length))
        at = offset + length
    upper = lower + max(0 if rarely(draw) else 1, at - rarely(draw)) + draw.choice([0, 1, number(draw, 65536)])
    return (sdnv(serial(draw)) + sdnv(number(draw)) + sdnv(upper) + sdnv(lower) + sdnv(len(claims))
            + b"".join(claims))


def extensions(draw, count):
    values = [body(draw)[:5] for _ in range(count)]
    return b"".join(bytes([draw.randrange(256)]) + sdnv(len(value)) + value for value in values)


def segment(draw, part):
    kind = draw.choice([0, 0, 0, 1, 2, 2, 3, 3, 3, 4, 7, 8, 9, 12, 13, 14, 15])
    before, after = (draw.choice([0, 0, 0, 0, 1, 2]) for _ in range(2))
    content = b""
    if kind in (0, 1, 2, 3, 4, 7):
        content = piece(draw, kind, part)
    elif kind == 8:
        content = report(draw)
    elif kind == 9:
        content = sdnv(number(draw))
    elif kind in (12, 14):
        content = bytes([draw.randrange(7)])
    session = sdnv(draw.choice([1, 1, 1, number(draw)])) + sdnv(draw.choice([7, 7, 8, number(draw)]))
    return (bytes([kind]) + session + bytes([before << 4 | after]) + extensions(draw, before) + content
            + extensions(draw, after))


# ---- all ----

def spoiled(draw, octets):
    """Octets that differ at one place, or are cut there."""
    at = draw.randrange(len(octets) + 1)
    how = draw.randrange(6)
    if how == 0:
        return octets[:at]
    if how == 1:
        return octets[:at] + octets[at + 1:]
    if how == 2:
        return octets[:at] + bytes([draw.choice([0, 1, 0x80, 0xFF, draw.randrange(256)])]) + octets[at:]
    changed = draw.choice([draw.randrange(256), octets[at - 1] ^ 1 << draw.randrange(8)])
    return octets[:at - 1] + bytes([changed]) + octets[at:] if at else octets


def lines_of(draw):
    part = body(draw) + b"z"
    datagrams = [segment(draw, part) for _ in range(draw.choice([1, 2, 4, 12]))]
    if draw.random() < 0.6:
        at = draw.randrange(len(datagrams))
        datagrams[at] = spoiled(draw, datagrams[at])
    texts = [draw.choice([str.lower, str.upper])(datagram.hex()) for datagram in datagrams]
    text = "\n".join(texts) + draw.choice(["", "\n"])
    return spoiled(draw, text.encode()) if draw.random() < 0.1 else text.encode()


def bundles_of(draw):
    octets = b"".join(draw.choice([old_bundle, new_bundle])(draw) for _ in range(draw.choice([1, 1, 2])))
    return spoiled(draw, octets) if draw.random() < 0.66 else octets


def made(seed, count):
    """Commands and inputs."""
    draw = random.Random(seed)
    for at in range(count):
        if at % 4 == 0:
            yield "receive", lines_of(draw)
        else:
            yield ("show" if at % 8 == 1 else "check"), bundles_of(draw)


def main(words):
    seed, count, folder = int(words[0]), int(words[1]), words[2]
    os.makedirs(folder, exist_ok=True)
    for at, (command, octets) in enumerate(made(seed, count), 1):
        with open(os.path.join(folder, f"{command}-{at}"), "wb") as file:
            file.write(octets)


if __name__ == "__main__":
    if len(sys.argv) != 4:
        sys.exit(__doc__)
    main(sys.argv[1:])
