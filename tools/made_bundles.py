"""Bundles of either version of all sizes and kinds: live_run.py, attack_run.py and make_scripts.py stand on it.

Most pass a gateway, and some of each kind that it refuses are there. Each has a name of its own, and whether it has
expired is certain as long as the clock goes no further than an hour from the moment that is given.
"""
import os
import sys

sys.dont_write_bytecode = True
sys.path.insert(0, os.path.dirname(os.path.abspath(__file__)))
import translate_model
from format_model import BLOCK_MAX, Refused
from gateway_model import bundle_of
from make_bundles import numbers
from translate_model import NONE, Untranslated, canonical6, octets7, record, translated

DAY, HOUR = 86_400, 3600
REPORTS = 1 << 14 | 1 << 16 | 1 << 18
MUST_NOT, ADMINISTRATIVE, FRAGMENT, CUSTODY, TIMED = 4, 2, 1, 8, 64


class Made:
    """Bundles of one version, each with another name."""

    def __init__(self, draw, version, largest, started, cut, most=20_000):
        self.draw, self.version, self.largest, self.count = draw, version, largest, 0
        self.started, self.cut, self.most = started, cut, most
        self.made = translate_model.makes(1 << 40, draw.randrange(1 << 30))

    def plain(self, size):
        """A bundle that passes."""
        self.count += 1
        draw, moment = self.draw, self.started - self.draw.randrange(HOUR * 1000)
        names = [draw.choice(["ipn:2.1", "dtn://b/y", "ipn:977000.64"]), draw.choice(["ipn:1.1", "dtn://a/x"]), NONE]
        bundle = {"version": self.version, **dict(zip(("destination", "source", "report_to"), names)),
                  "fragment": None, "blocks": [self.payload(draw.randbytes(size))]}
        if self.version == 6:
            return {**bundle, "flags": draw.choice([0x90, 0x10, 0x110, 0xB0]), "custodian": NONE, "lifetime": DAY,
                    "creation": [moment // 1000, 1000 * self.count + moment % 1000]}
        return {**bundle, "flags": draw.choice([0, 0x20]), "crc": draw.randrange(3), "lifetime": DAY * 1000,
                "creation": [moment, self.count]}

    def payload(self, octets):
        block = {"kind": 1, "flags": 0, "body": octets.hex()}
        return {**block, "refs": []} if self.version == 6 else {**block, "number": 1, "crc": 0}

    def block(self, kind, number, octets, flags=0):
        block = {"kind": kind, "flags": flags, "body": octets.hex()}
        if self.version == 6:
            return {**block, "refs": []}
        return {**block, "number": number, "crc": self.draw.randrange(3)}

    def size(self):
        sizes = [0, 1, 3, 100, 1000, 1024, 1025, 3000, self.draw.randrange(self.most)]
        return self.draw.choice([size for size in sizes if size <= self.most])

    def octets(self, bundle):
        return canonical6(bundle) if self.version == 6 else octets7(bundle)

    def sized(self):
        return self.octets(self.plain(self.size()))

    def large(self):
        return self.octets(self.plain(self.draw.randrange(self.cut, max(self.cut + 1, self.largest))))

    def largest_one(self):
        return self.octets(self.plain(self.largest))

    def too_long(self):
        """One that mayn't be cut and just fits into a block, and in version 7 no more; there it is one that fits."""
        bundle = self.asking(self.plain(1))
        bundle.update(flags=bundle["flags"] | MUST_NOT, blocks=[self.payload(b"")])
        room = BLOCK_MAX - len(self.octets(bundle)) - 8
        return self.octets({**bundle, "blocks": [self.payload(self.draw.randbytes(room))]})

    def kept_whole(self):
        bundle = self.plain(self.draw.randrange(self.cut, self.cut + 2 * self.most))
        bundle["flags"] |= MUST_NOT
        return self.octets(bundle)

    def fragment(self):
        size = self.draw.choice([0, self.cut // 2, self.cut + self.most // 20])
        bundle = self.plain(size)
        bundle["flags"] |= FRAGMENT
        bundle["fragment"] = [1000, 1000 + size + self.draw.randrange(5000)]
        return self.octets(self.asking(bundle))

    def asking(self, bundle):
        """The bundle with reports asked for."""
        bundle["flags"] |= self.draw.choice([REPORTS, 1 << 14, 1 << 16, 1 << 18]) | self.draw.choice([0, TIMED])
        bundle["report_to"] = self.draw.choice(["ipn:1.7", "dtn://a/r", "dtn://a/~r"])
        return bundle

    def reported(self):
        return self.octets(self.asking(self.plain(self.size())))

    def expired(self):
        bundle = self.asking(self.plain(self.size()))
        bundle["creation"][0] -= 2 * DAY * (1 if self.version == 6 else 1000)
        return self.octets(bundle)

    def clockless(self):
        bundle = self.asking(self.plain(5))
        bundle["creation"][0] = 0
        return self.octets(bundle)

    def lifeless(self):
        return self.octets({**self.asking(self.plain(5)), "lifetime": 0})

    def other_rules(self):
        """Custody in version 6; previous node and hop count in version 7, some of which is at its limit."""
        bundle = self.asking(self.plain(self.size()))
        if self.version == 6:
            bundle["flags"] |= CUSTODY
        else:
            count = self.draw.choice([0, 22, 28, 29, 30, 255])
            bundle["blocks"][:0] = [self.block(10, 2, numbers(30, count)), self.block(6, 3, numbers(1, 0), 1)]
        return self.octets(bundle)

    def extended(self):
        bundle = self.plain(self.draw.choice([9, self.cut + 5]))
        count = self.draw.randrange(1, 6)
        blocks = [self.block(200 + at, 2 + at, self.draw.randbytes(9), at % 3) for at in range(count)]
        bundle["blocks"] = blocks + bundle["blocks"]
        return self.octets(bundle)

    def many_blocks(self):
        """As many extension blocks as there may be; with a residue there is one too many in the other version."""
        bundle = self.asking(self.plain(10))
        bundle["flags"] |= self.draw.choice([0, 0x100 if self.version == 6 else 1 << 20])
        bundle["blocks"] = [self.block(200, 2 + at, b"x") for at in range(64)] + bundle["blocks"]
        return self.octets(bundle)

    def administrative(self):
        bundle = self.asking(self.plain(0))
        bundle["flags"] = bundle["flags"] & ~FRAGMENT | ADMINISTRATIVE
        report = translate_model.made_report(self.draw)
        body = (translate_model.body6 if self.version == 6 else translate_model.body7)(report)
        bundle["blocks"] = [self.payload(body if self.draw.random() < 0.7 else body[:-1])]
        return self.octets(bundle)

    def translation(self):
        """What a bundle of the other version is in this one."""
        self.count += 1
        other = Made(self.draw, 13 - self.version, self.largest, self.started, self.cut, self.most)
        other.count = 1_000_000 + self.count
        try:
            return self.octets(translated(other.plain(self.size())))
        except Untranslated:
            return self.sized()

    def any_other(self):
        """A made bundle of this version whose time is certain."""
        for octets in self.made:
            try:
                bundle = bundle_of(octets, self.version)
                expiry = record(bundle)["shared"]["expiry"]
            except (Refused, Untranslated):
                continue
            if abs(expiry - self.started) > HOUR * 1000:
                return octets

    def no_bundle(self):
        octets = self.sized()
        return self.draw.choice([octets + b"x", octets[:-1], self.draw.randbytes(30), octets[1:]])

    def items(self, count):
        """So many blocks."""
        kinds = [self.sized, self.sized, self.reported, self.reported, self.large, self.kept_whole, self.fragment,
                 self.expired, self.clockless, self.lifeless, self.other_rules, self.other_rules, self.extended,
                 self.many_blocks, self.administrative, self.translation, self.any_other, self.no_bundle]
        chosen = [kinds[at] if at < len(kinds) else self.draw.choice(kinds) for at in range(count)]
        self.draw.shuffle(chosen)
        return [kind() or self.sized() for kind in chosen]
