#!/usr/bin/env python3
"""A slow model of the translation between the bundle versions, from its rules and nothing else.

usage: tools/translate_model.py convert|norm < INPUT     bundles end to end; a line of hex for each
       tools/translate_model.py HEX..                    one line for each: the other version's octets, or the refusal
       tools/translate_model.py --make COUNT SEED        as many bundles, a line of hex for each, the same for a seed
       tools/translate_model.py --laws COUNT SEED        made bundles go there and back, and must be their normal form
       tools/translate_model.py --vectors FILE           rows as json lines

It shares no code with the program: each rule of docs/translation.md is written down once, in the order of the page.
"""
import json
import os
import random
import sys

sys.dont_write_bytecode = True
sys.path.insert(0, os.path.dirname(os.path.abspath(__file__)))
sys.path.insert(0, os.path.join(os.path.dirname(os.path.dirname(os.path.abspath(__file__))), "examples"))
import format_model
from format_model import Fields, Refused, Shortest, STATUSES
from make_bundles import block7, bundle7, dtn, head, ipn, sdnv, NOBODY

COMMON, BLOCK_COMMON = 0x74027, 0x17
MARK = bytes.fromhex("42363747")
RESIDUE, WRAP = 192, 193
TOP = 1 << 64
NONE = "dtn:none"


class Untranslated(Exception):
    """Why a bundle isn't translated."""


# ---- names of bundles, and their octets ----

def singleton(name):
    """One receiver: an ipn name, or a dtn name without /~."""
    return name.startswith("ipn:") or name != NONE and "/~" not in name


def canonical6(bundle):
    """The canonical octets of a version 6 bundle."""
    names = [bundle[key] for key in ("destination", "source", "report_to", "custodian")]
    names += [name for block in bundle["blocks"] for name in block["refs"]]
    bare = all(name == NONE or name.startswith("ipn:") and name != "ipn:0.0" for name in names)
    texts = [] if bare else list(dict.fromkeys(text for name in names for text in name.split(":", 1)))
    places = {text: sum(len(other) + 1 for other in texts[:at]) for at, text in enumerate(texts)}

    def pair(name):
        if texts:
            return b"".join(sdnv(places[text]) for text in name.split(":", 1))
        return b"".join(sdnv(int(n)) for n in ("0.0" if name == NONE else name[4:]).split("."))

    dictionary = b"".join(text.encode() + b"\0" for text in texts)
    rest = b"".join(pair(name) for name in names[:4])
    rest += b"".join(sdnv(n) for n in (*bundle["creation"], bundle["lifetime"], len(dictionary))) + dictionary
    rest += b"".join(sdnv(n) for n in bundle["fragment"] or [])
    octets = b"\6" + sdnv(bundle["flags"]) + sdnv(len(rest)) + rest
    for at, block in enumerate(bundle["blocks"], 1):
        flags = block["flags"] | (8 if at == len(bundle["blocks"]) else 0) | (64 if block["refs"] else 0)
        octets += bytes([block["kind"]]) + sdnv(flags)
        if block["refs"]:
            octets += sdnv(len(block["refs"])) + b"".join(pair(name) for name in block["refs"])
        octets += sdnv(len(block["body"]) // 2) + bytes.fromhex(block["body"])
    return octets


def eid_of(name):
    if name == NONE:
        return NOBODY
    return ipn(*map(int, name[4:].split("."))) if name.startswith("ipn:") else dtn(name[4:])


def octets7(bundle):
    """The octets of a version 7 bundle."""
    blocks = [block7(b["kind"], b["number"], b["flags"], b["crc"], bytes.fromhex(b["body"])) for b in bundle["blocks"]]
    return bundle7(bundle["flags"], bundle["crc"], [eid_of(bundle[k]) for k in ("destination", "source", "report_to")],
                   bundle["creation"], bundle["lifetime"], blocks, bundle["fragment"] or ())


# ---- private blocks ----

def marked(block):
    return block["kind"] in (RESIDUE, WRAP) and bytes.fromhex(block["body"]).startswith(MARK)


def read(body, fields):
    """What a private body says, or None where it is bad."""
    text = Shortest(bytes.fromhex(body), "Bad")
    try:
        text.must(text.many(4) == MARK, "Bad")
        value = fields(text)
        return value if text.left() == 0 else None
    except Refused:
        return None


def residue_old(text):
    slack = text.shortest(lambda n: n < 1000)
    flags = text.shortest(lambda n: n & COMMON == 0)
    crc = text.shortest(lambda n: n <= 2)
    payload_crc = text.shortest(lambda n: n <= 2)
    payload_flags = text.shortest(lambda n: n & BLOCK_COMMON == 0)
    mask = text.shortest(lambda n: n | 0x1D == 0x1D)
    return {"slack": slack, "mask": mask, "extra7": {"flags": flags, "crc": crc, "payload_crc": payload_crc,
                                                     "payload_flags": payload_flags}}


def residue_new(text):
    flags = text.shortest(lambda n: n & (COMMON | 8) == 0)
    custodian = text.name()
    payload_flags = text.shortest(lambda n: n & (BLOCK_COMMON | 72) == 0)
    after = text.shortest()
    rests = [text.shortest(lambda n: n < 1_000_000) for _ in range(4)]
    return {"rests": rests, "extra6": {"flags": flags, "custodian": custodian, "payload_flags": payload_flags,
                                       "after": after}}


def wrap_old(text):
    kind = text.shortest(lambda n: n != 1)
    number = text.shortest(lambda n: n >= 2)
    return {"kind": kind, "number": number, "flags": text.shortest(), "crc": text.shortest(lambda n: n <= 2),
            "body": text.many(text.left()).hex()}


def wrap_new(text):
    kind = text.shortest(lambda n: n <= 255 and n != 1)
    flags = text.shortest(lambda n: n & 72 == 0)
    refs = [text.name() for _ in range(text.shortest())]
    return {"kind": kind, "flags": flags, "refs": refs, "body": text.many(text.left()).hex()}


def private(kind, flags, *parts):
    body = MARK + b"".join(part if isinstance(part, bytes) else sdnv(part) for part in parts)
    return {"kind": kind, "flags": flags, "body": body.hex()}


def text_of(name):
    return sdnv(len(name)) + name.encode()


# ---- status reports ----

MILLI = 1_000_000      # nanoseconds
NO_RESTS = [0, 0, 0, 0]


def report_in(flags, body, reader):
    """The status report that an administrative bundle carries, or None."""
    may(flags & 3 == 3, "AdminFragment")
    if not flags & 2:
        return None
    try:
        return reader(bytes.fromhex(body))
    except Refused as refusal:
        may(refusal.cause in ("CustodySignal", "CustodyReport", "AdminUnknown"), refusal.cause)
        raise Untranslated("BadAdmin")


def takes_mask(report, mask):
    """Whether the statuses of a mask are set ones with the time 0, 0."""
    return not mask or report is not None and all(
        time == [0, 0] for bit, time in zip(STATUSES, report["times"]) if mask & bit)


def takes_rests(report, rests):
    """Whether parts of times below one millisecond other than 0 stand for times alone."""
    return rests == NO_RESTS or report is not None and all(
        isinstance(stamp, list) for stamp, rest in zip(report["stamps"], rests) if rest)


def said6(report, mask):
    """What a report of version 6 says: each status False, True or its time in milliseconds, and the rests."""
    (seconds, sequence), times = report["creation"], report["times"]
    whole = [time and [1000 * time[0] + time[1] // MILLI] for time in times]
    may(any(time and time[0] >= TOP for time in whole) or 1000 * seconds + sequence % 1000 >= TOP, "BadAdmin")
    return {"stamps": [time is not None and (True if mask & bit else time) for bit, time in zip(STATUSES, whole)],
            "rests": [time[1] % MILLI if time else 0 for time in times], "reason": report["reason"],
            "source": report["source"], "creation": [1000 * seconds + sequence % 1000, sequence // 1000],
            "fragment": report["fragment"]}


def said7(report, rests):
    millis, sequence = report["creation"]
    may(1000 * sequence + millis % 1000 >= TOP, "BadAdmin")
    return {**report, "rests": rests}


def body6(report):
    """A report's octets in version 6."""
    (millis, sequence), part = report["creation"], report["fragment"]
    status = sum(bit for bit, stamp in zip(STATUSES, report["stamps"]) if stamp)
    octets = bytes([0x11 if part else 0x10, status, report["reason"]]) + b"".join(map(sdnv, part or []))
    for stamp, rest in zip(report["stamps"], report["rests"]):
        if stamp:
            time = [0, 0] if stamp is True else [stamp[0] // 1000, stamp[0] % 1000 * MILLI + rest]
            octets += b"".join(map(sdnv, time))
    return octets + sdnv(millis // 1000) + sdnv(1000 * sequence + millis % 1000) + text_of(report["source"])


def body7(report):
    """A report's octets in version 7."""
    part = report["fragment"]
    octets = head(4, 2) + head(0, 1) + head(4, 6 if part else 4) + head(4, 4)
    for stamp in report["stamps"]:
        timed = isinstance(stamp, list)
        octets += head(4, 2 if timed else 1) + (b"\xf5" if stamp else b"\xf4") + (head(0, stamp[0]) if timed else b"")
    octets += head(0, report["reason"]) + eid_of(report["source"]) + head(4, 2)
    return octets + b"".join(head(0, n) for n in report["creation"] + (part or []))


def payload(shared, body):
    """A payload's octets: those of the report in a version, or the ones that were read."""
    return body(shared["report"]).hex() if shared["report"] else shared["body"]


def bare(shared):
    """The mask of the report's statuses without a time."""
    stamps = shared["report"]["stamps"] if shared["report"] else []
    return sum(bit for bit, stamp in zip(STATUSES, stamps) if stamp is True)


# ---- records ----

DEFAULT7 = {"flags": 0, "crc": 1, "payload_crc": 0, "payload_flags": 0}


def default6(shared):
    return {"flags": 0x80 | (0x10 if singleton(shared["destination"]) else 0), "custodian": NONE, "payload_flags": 0,
            "after": 0}


def may(condition, cause):
    """A refusal, where its condition holds."""
    if condition:
        raise Untranslated(cause)


def one_residue(blocks, fields, legal):
    found = [block for block in blocks if marked(block) and block["kind"] == RESIDUE]
    may(len(found) > 1, "ResidueBad")
    if not found:
        return None
    value = read(found[0]["body"], fields)
    may(value is None or not legal(value), "ResidueBad")
    return value


def unwrapped(blocks, version, fields):
    """The extension blocks for which some blocks stand, each with its version."""
    exts = []
    for block in blocks:
        if not marked(block):
            exts.append((version, {k: v for k, v in block.items()}))
        elif block["kind"] == WRAP:
            held = read(block["body"], fields)
            may(held is None or marked(held), "WrapBad")
            exts.append((13 - version, held))
    sevens = [block for of, block in exts if of == 7]
    for at, block in enumerate(sevens):
        may(any(other["number"] == block["number"] for other in sevens[:at]), "WrapBad")
        if block["kind"] in (6, 7, 10):
            may(any(other["kind"] == block["kind"] for other in sevens[:at]), "WrapBad")
            may(not format_model.is_body(block["kind"], bytes.fromhex(block["body"])), "WrapBad")
    return exts


def from6(bundle):
    """The record of a version 6 bundle."""
    flags, (seconds, sequence), lifetime = bundle["flags"], bundle["creation"], bundle["lifetime"]
    at = next(at for at, block in enumerate(bundle["blocks"]) if block["kind"] == 1)
    payload, others = bundle["blocks"][at], bundle["blocks"][:at] + bundle["blocks"][at + 1:]
    may(flags & 8, "CustodyAsked")
    may(seconds == 0, "Clockless")
    may(lifetime == 0, "LifetimeZero")
    millis = 1000 * seconds + sequence % 1000
    may(millis >= TOP or 1000 * lifetime - sequence % 1000 >= TOP, "TimeTooLarge")
    may(payload["refs"], "PayloadRefs")
    report = report_in(flags, payload["body"], format_model.report6)
    if report:
        said6(report, 0)
    residue = one_residue(others, residue_old, lambda value: takes_mask(report, value["mask"])
                          and value["slack"] + sequence % 1000 < 1000 * lifetime)
    before = unwrapped(bundle["blocks"][:at], 6, wrap_old)
    exts = unwrapped(others, 6, wrap_old)
    shared = {"destination": bundle["destination"], "source": bundle["source"], "report_to": bundle["report_to"],
              "millis": millis, "sequence": sequence // 1000,
              "expiry": 1000 * (seconds + lifetime) - (residue["slack"] if residue else 0),
              "flags": flags & COMMON, "fragment": bundle["fragment"],
              "payload_flags": payload["flags"] & BLOCK_COMMON, "body": None if report else payload["body"],
              "report": report and said6(report, residue["mask"] if residue else 0)}
    extra6 = {"flags": flags & ~COMMON, "custodian": bundle["custodian"],
              "payload_flags": payload["flags"] & ~BLOCK_COMMON, "after": len(exts) - len(before)}
    return {"shared": shared, "extra6": extra6, "extra7": residue["extra7"] if residue else DEFAULT7, "exts": exts}


def from7(bundle):
    """The record of a version 7 bundle."""
    flags, (millis, sequence), lifetime = bundle["flags"], bundle["creation"], bundle["lifetime"]
    *others, payload = bundle["blocks"]
    may(millis < 1000, "Clockless")
    may(lifetime == 0, "LifetimeZero")
    may(1000 * sequence + millis % 1000 >= TOP, "SequenceTooLarge")
    report = report_in(flags, payload["body"], format_model.report7)
    if report:
        said7(report, NO_RESTS)
    residue = one_residue(others, residue_new, lambda value: takes_rests(report, value["rests"]))
    exts = unwrapped(others, 7, wrap_new)
    shared = {"destination": bundle["destination"], "source": bundle["source"], "report_to": bundle["report_to"],
              "millis": millis, "sequence": sequence, "expiry": millis + lifetime, "flags": flags & COMMON,
              "fragment": bundle["fragment"], "payload_flags": payload["flags"] & BLOCK_COMMON,
              "body": None if report else payload["body"],
              "report": report and said7(report, residue["rests"] if residue else NO_RESTS)}
    extra6 = dict(residue["extra6"]) if residue else default6(shared)
    extra6["after"] = min(extra6["after"], len(exts))
    extra7 = {"flags": flags & ~COMMON, "crc": bundle["crc"], "payload_crc": payload["crc"],
              "payload_flags": payload["flags"] & ~BLOCK_COMMON}
    return {"shared": shared, "extra6": extra6, "extra7": extra7, "exts": exts}


# ---- views ----

def view6(full):
    """The version 6 bundle of a record."""
    shared, extra6, extra7 = full["shared"], full["extra6"], full["extra7"]
    seconds = shared["millis"] // 1000
    lifetime = next(n for n in range((shared["expiry"] - 1000 * seconds) // 1000, TOP)
                    if 1000 * (seconds + n) >= shared["expiry"])
    slack = 1000 * (seconds + lifetime) - shared["expiry"]
    blocks = []
    if extra7 != DEFAULT7 or slack or bare(shared):
        blocks.append(private(RESIDUE, 1, slack, extra7["flags"], extra7["crc"], extra7["payload_crc"],
                              extra7["payload_flags"], bare(shared)))
    for version, block in full["exts"]:
        if version == 7:
            block = private(WRAP, block["flags"] & BLOCK_COMMON, block["kind"], block["number"], block["flags"],
                            block["crc"], bytes.fromhex(block["body"]))
        blocks.append(block)
    may(len(blocks) > 64, "TooManyBlocks")
    blocks = [{"refs": [], **block} for block in blocks]
    blocks.insert(len(blocks) - extra6["after"], {"kind": 1, "flags": shared["payload_flags"] | extra6["payload_flags"],
                                                  "refs": [], "body": payload(shared, body6)})
    return {"version": 6, "flags": shared["flags"] | extra6["flags"], "destination": shared["destination"],
            "source": shared["source"], "report_to": shared["report_to"], "custodian": extra6["custodian"],
            "creation": [seconds, 1000 * shared["sequence"] + shared["millis"] % 1000], "lifetime": lifetime,
            "fragment": shared["fragment"], "blocks": blocks}


def view7(full):
    """The version 7 bundle of a record."""
    shared, extra6, extra7 = full["shared"], full["extra6"], full["extra7"]
    taken = {block["number"] for version, block in full["exts"] if version == 7}
    free = iter(n for n in range(2, 300) if n not in taken)
    blocks = []
    rests = shared["report"]["rests"] if shared["report"] else NO_RESTS
    if extra6 != default6(shared) or rests != NO_RESTS:
        blocks.append({"number": next(free), "crc": 0,
                       **private(RESIDUE, 1, extra6["flags"], text_of(extra6["custodian"]), extra6["payload_flags"],
                                 extra6["after"], *rests)})
    for version, block in full["exts"]:
        if version == 6:
            refs = b"".join(map(text_of, block["refs"]))
            block = {"number": next(free), "crc": 0,
                     **private(WRAP, block["flags"] & BLOCK_COMMON, block["kind"], block["flags"],
                               len(block["refs"]), refs, bytes.fromhex(block["body"]))}
        blocks.append(block)
    may(len(blocks) > 64, "TooManyBlocks")
    blocks.append({"kind": 1, "number": 1, "flags": shared["payload_flags"] | extra7["payload_flags"],
                   "crc": extra7["payload_crc"], "body": payload(shared, body7)})
    return {"version": 7, "flags": shared["flags"] | extra7["flags"], "crc": extra7["crc"],
            "destination": shared["destination"], "source": shared["source"], "report_to": shared["report_to"],
            "creation": [shared["millis"], shared["sequence"]], "lifetime": shared["expiry"] - shared["millis"],
            "fragment": shared["fragment"], "blocks": blocks}


def record(bundle):
    return from6(bundle) if bundle["version"] == 6 else from7(bundle)


def octets_of(bundle):
    return canonical6(bundle) if bundle["version"] == 6 else octets7(bundle)


def translated(bundle):
    """The bundle in the other version."""
    return view7(from6(bundle)) if bundle["version"] == 6 else view6(from7(bundle))


def normal(bundle):
    """The bundle's own view."""
    return view6(from6(bundle)) if bundle["version"] == 6 else view7(from7(bundle))


# ---- running it ----

def decoded(fields, start):
    reader = {6: format_model.bundle6, 0x9F: format_model.bundle7}.get(fields.octets[start])
    if reader is None:
        raise Refused(start, "Version")
    return reader(fields)


def answer(octets, change):
    """The lines for bundles end to end, and the status."""
    lines, fields = [], Fields(octets)
    while fields.left():
        try:
            lines.append(octets_of(change(decoded(fields, fields.at))).hex())
        except Refused as refusal:
            return lines + [f"refused {len(lines) + 1} {refusal.at} {refusal.cause}"], 1
        except Untranslated as refusal:
            return lines + [f"refused {len(lines) + 1} {refusal}"], 1
    return lines, 0


def made_report(draw):
    """A report that both versions can say."""
    stamps = [draw.choice([False, True, [draw.choice([0, 999, 1000, 10 ** 12 + 7, TOP - 1])]]) for _ in STATUSES]
    rests = [draw.choice([0, 0, 1, MILLI - 1]) if isinstance(stamp, list) else 0 for stamp in stamps]
    return {"stamps": stamps, "rests": rests, "reason": draw.randrange(256),
            "source": draw.choice([NONE, "ipn:1.2", "dtn:a/~b"]), "fragment": draw.choice([None, [3, 9]]),
            "creation": [draw.randrange(TOP), draw.randrange(TOP // 1000 - 1)]}


def makes(count, seed):
    """Bundles of both versions, most of which translate, and views of them; some carry a report."""
    from make_inputs import new_bundle, old_bundle
    draw = random.Random(seed)
    while count:
        octets = draw.choice([old_bundle, new_bundle])(draw)
        try:
            bundle = decoded(Fields(octets), 0)
            if draw.random() < 0.8:
                bundle["flags"] &= ~2 & ~(8 if bundle["version"] == 6 else 0)
                bundle["creation"][0] = bundle["creation"][0] % (TOP // 1000) + 1000
                bundle["creation"][1] %= TOP // 1000 - 1
                bundle["lifetime"] = bundle["lifetime"] % (TOP // 1000 - 1) + 1
            if draw.random() < 0.3:
                bundle["flags"], bundle["fragment"] = bundle["flags"] & ~1 | 2, None
                spelled = (body6 if bundle["version"] == 6 else body7)(made_report(draw))
                next(block for block in bundle["blocks"] if block["kind"] == 1)["body"] = spelled.hex()
            if draw.random() < 0.5:
                bundle = translated(bundle)
            yield octets_of(bundle)
        except (Refused, Untranslated):
            yield octets
        count -= 1


def laws(count, seed):
    """There and back is the normal form, and a bundle without private blocks is its own."""
    seen = {"translated": 0, "refused": 0, "plain": 0}
    for octets in makes(count, seed):
        try:
            bundle = decoded(Fields(octets), 0)
            there = translated(bundle)
        except (Refused, Untranslated):
            seen["refused"] += 1
            continue
        seen["translated"] += 1
        norm, wide = normal(bundle), bundle["version"] == 7
        if wide and there["lifetime"] * 1000 - there["creation"][1] % 1000 >= TOP:
            continue
        again = decoded(Fields(octets_of(there)), 0)
        assert record(again) == record(bundle) and octets_of(translated(again)) == octets_of(norm), octets.hex()
        assert octets_of(normal(norm)) == octets_of(norm), octets.hex()
        if not any(marked(block) for block in bundle["blocks"]):
            seen["plain"] += 1
            assert octets_of(norm) == octets_of(bundle), octets.hex()
    print(" ".join(f"{word} {number}" for word, number in seen.items()))
    return 0


def vectors(path):
    passed = failed = 0
    for number, line in enumerate(open(path), 1):
        row = json.loads(line)
        lines, status = answer(bytes.fromhex(row["input_hex"]), translated)
        if ("".join(text + "\n" for text in lines), status) == (row["output"], row["status"]):
            passed += 1
        else:
            failed += 1
            print(f"row {number}: {lines[-1][:160]} {status}, wanted {row['output'][-160:]!r} {row['status']}")
    print(f"{passed} passed, {failed} failed")
    return 1 if failed else 0


def main(words):
    if not words or words[0] == "--help":
        sys.stderr.write(__doc__.split("\n\n")[1] + "\n")
        return 2
    if words[0] == "--make":
        for octets in makes(int(words[1]), int(words[2])):
            print(octets.hex())
        return 0
    if words[0] == "--laws":
        return laws(int(words[1]), int(words[2]))
    if words[0] == "--vectors":
        return vectors(words[1])
    if words[0] in ("convert", "norm"):
        lines, status = answer(sys.stdin.buffer.read(), translated if words[0] == "convert" else normal)
        print("".join(line + "\n" for line in lines), end="")
        return status
    for word in words:
        print("\n".join(answer(bytes.fromhex(word), translated)[0]))
    return 0


if __name__ == "__main__":
    sys.exit(main(sys.argv[1:]))
