#!/usr/bin/env python3
"""A slow model of cutting and joining bundles, from its rules and nothing else.

usage: tools/fragment_model.py cut SIZE < INPUT        bundles end to end; a line of hex for each piece
       tools/fragment_model.py join < INPUT            bundles end to end; a line for each
       tools/fragment_model.py --make COUNT SEED       as many runs: the words, and the input in hex
       tools/fragment_model.py --vectors FILE          rows as json lines

Records and views are those of translate_model.py. A join in progress is a list of optional octets, as long as its
total; the program keeps ranges and one buffer.
"""
import json
import os
import random
import sys

sys.dont_write_bytecode = True
sys.path.insert(0, os.path.dirname(os.path.abspath(__file__)))
import translate_model as records
from format_model import Fields, Refused
from translate_model import NONE, Untranslated, decoded, may, octets_of, record, view6, view7

FRAGMENT, REPORT, MUST_NOT = 1, 2, 4
IN_EACH = 1                     # an extension block with this flag stands in each piece
MOST_TOTAL, MOST_NAMES = 4_194_304, 64


def view(full, version):
    return view6(full) if version == 6 else view7(full)


# ---- cutting ----

def pieces(full, size):
    """The pieces of a record, by place."""
    shared = full["shared"]
    if shared["flags"] & (REPORT | FRAGMENT) == REPORT:
        return [full]
    payload = bytes.fromhex(shared["body"])
    if len(payload) <= size:
        return [full]
    may(shared["flags"] & MUST_NOT or shared["source"] == NONE, "MustNot")
    offset, total = shared["fragment"] or (0, len(payload))
    return [piece(full, payload[at:at + size], offset + at, total, at == 0) for at in range(0, len(payload), size)]


def piece(full, octets, offset, total, first):
    shared = {**full["shared"], "flags": full["shared"]["flags"] | FRAGMENT, "fragment": [offset, total],
              "body": octets.hex()}
    if first:
        return {**full, "shared": shared}
    kept = [first or block["flags"] & IN_EACH != 0 for _, block in full["exts"]]
    behind = len(kept) - full["extra6"]["after"]
    exts = [ext for ext, keep in zip(full["exts"], kept) if keep]
    return {**full, "shared": shared, "exts": exts, "extra6": {**full["extra6"], "after": sum(kept[behind:])}}


# ---- joining ----

class Join:
    """What came of one name: its places, and its fragments in the order in which they came."""

    def __init__(self, total):
        self.places, self.came = [None] * total, []

    def add(self, full):
        """Fills the empty places, and says whether there were any."""
        self.came.append(full)
        offset, new = full["shared"]["fragment"][0], False
        for at, octet in enumerate(bytes.fromhex(full["shared"]["body"]), offset):
            if self.places[at] is None:
                self.places[at], new = octet, True
        return new

    def whole(self):
        first = next(full for full in self.came if full["shared"]["fragment"][0] == 0)
        return {**first, "shared": {**first["shared"], "flags": first["shared"]["flags"] & ~FRAGMENT,
                                    "fragment": None, "body": bytes(self.places).hex()}}


class Joiner:
    """The joins in progress."""

    def __init__(self):
        self.names = {}

    def add(self, full):
        """The word of the answer, and the whole where there is one."""
        shared = full["shared"]
        if shared["fragment"] is None:
            return "NotFragment", None
        name = shared["source"], shared["millis"], shared["sequence"]
        total = shared["fragment"][1]
        if total > MOST_TOTAL:
            return "TooLarge", None
        was = self.names.get(name)
        if was is not None and len(was.places) != total:
            return "TotalDiffers", None
        if was is None and len(self.names) == MOST_NAMES:
            return "Full", None
        join = self.names.setdefault(name, Join(total))
        new = join.add(full)
        if None not in join.places and any(each["shared"]["fragment"][0] == 0 for each in join.came):
            del self.names[name]
            return "Whole", join.whole()
        return "Waiting" if new or was is None else "Repeat", None


# ---- running it ----

def cut_lines(bundle, size):
    return [octets_of(view(each, bundle["version"])).hex() for each in pieces(record(bundle), size)]


def join_lines(joiner, bundle):
    word, whole = joiner.add(record(bundle))
    return [word if whole is None else f"{word} {octets_of(view(whole, bundle['version'])).hex()}"]


def answer(words, octets):
    """The lines for bundles end to end, and the status."""
    joiner, lines, fields, number = Joiner(), [], Fields(octets), 0
    while fields.left():
        number += 1
        try:
            bundle = decoded(fields, fields.at)
            lines += cut_lines(bundle, int(words[1])) if words[0] == "cut" else join_lines(joiner, bundle)
        except Refused as refusal:
            return lines + [f"refused {number} {refusal.at} {refusal.cause}"], 1
        except Untranslated as refusal:
            return lines + [f"refused {number} {refusal}"], 1
    return lines, 0


def makes(count, seed):
    """Runs of `cut`, and of `join` over what they gave in some order, with repeats and pieces of other sizes."""
    draw = random.Random(seed)
    bundles = records.makes(50 * count, seed)
    while count > 0:
        octets = b"".join(draws(draw, bundles) for _ in range(3))
        words = ["cut", str(draw.choice([1, 2, 3, 7, 20, 100, MOST_TOTAL]))]
        yield words, octets
        lines = pieces_of(words, octets)
        lines += [line for line in pieces_of(["cut", str(draw.choice([1, 5, 30]))], octets) if draw.random() < 0.5]
        lines += [line for line in lines if draw.random() < 0.2]
        draw.shuffle(lines)
        yield ["join"], b"".join(map(bytes.fromhex, lines)) + draw.choice([b"", b"", octets])
        count -= 2


def pieces_of(words, octets):
    return [line for line in answer(words, octets)[0] if not line.startswith("refused")]


def draws(draw, bundles):
    """A bundle that most often can be cut."""
    for octets in bundles:
        try:
            bundle = decoded(Fields(octets), 0)
            if draw.random() < 0.8:
                bundle["flags"] &= ~MUST_NOT
            record(bundle)
            return octets_of(bundle)
        except (Refused, Untranslated):
            if draw.random() < 0.1:
                return octets
    return b""


def vectors(path):
    passed = failed = 0
    for number, line in enumerate(open(path), 1):
        row = json.loads(line)
        lines, status = answer(row["words"], bytes.fromhex(row["input_hex"]))
        if ("".join(text + "\n" for text in lines), status) == (row["output"], row["status"]):
            passed += 1
            continue
        failed += 1
        wanted = row["output"].splitlines()
        at = next((at for at, pair in enumerate(zip(lines, wanted)) if pair[0] != pair[1]), min(len(lines), len(wanted)))
        print(f"row {number}: line {at + 1}: {lines[at:at + 1]}, wanted {wanted[at:at + 1]} {row['status']}"[:600])
    print(f"{passed} passed, {failed} failed")
    return 1 if failed else 0


def main(words):
    if words[:1] == ["--make"]:
        for run, octets in makes(int(words[1]), int(words[2])):
            print(*run, octets.hex())
        return 0
    if words[:1] == ["--vectors"]:
        return vectors(words[1])
    if words[:1] not in (["cut"], ["join"]):
        sys.stderr.write(__doc__.split("\n\n")[1] + "\n")
        return 2
    lines, status = answer(words, sys.stdin.buffer.read())
    print("".join(line + "\n" for line in lines), end="")
    return status


if __name__ == "__main__":
    sys.exit(main(sys.argv[1:]))
