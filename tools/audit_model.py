#!/usr/bin/env python3
"""A slow model of the commands `audit` and `record`: the rules of a recorded exchange (RFC 5326), and what an engine records.

usage: tools/audit_model.py audit|record OWN PEER < INPUT    what the command writes, and the status with which it ends
       tools/audit_model.py --made COUNT SEED                of so many made recordings, how many break each rule
       tools/audit_model.py --vectors FILE                   rows as JSON lines, which the model has to answer

It shares no code with the program: an entry is judged over the list of those that were accepted before, octet by octet.
Engines and segments are those of ltp_model.py. A made recording is what came to engine 2 and left it in an exchange in
which datagrams are lost, repeated and swapped; most are then broken at one place.
"""
import collections
import json
import os
import random
import sys

sys.dont_write_bytecode = True
sys.path.insert(0, os.path.dirname(os.path.abspath(__file__)))
from format_model import DONE, LIMIT, LONGEST_LINE, MOST_LINES, MOST_OCTETS, REFUSED, USAGE, Refused, decimal
from ltp_model import CHECKPOINTS, PIECES, RECEIVER_CANCEL, RECEIVER_CANCEL_ACK, RED, REPORT, REPORT_ACK
from ltp_model import SENDER_CANCEL, SENDER_CANCEL_ACK, BadLine, Engine, Node, PastLimit, Policy
from ltp_model import octets_of, read_segment, written

RED_PIECES = (RED, *CHECKPOINTS)
OF_SENDER = (*PIECES, REPORT_ACK, SENDER_CANCEL, RECEIVER_CANCEL_ACK)
CANCEL_OF = {SENDER_CANCEL_ACK: SENDER_CANCEL, RECEIVER_CANCEL_ACK: RECEIVER_CANCEL}


# ---- the rules ----

class Audit:
    """The segments that were accepted, by sessions."""

    def __init__(self, own, peer):
        self.own, self.peer = own, peer
        self.said = collections.defaultdict(list)

    def broken(self, out, datagram):
        """The place and cause of what is no segment, the first rule that one breaks, or None: then it is kept."""
        try:
            kind, name, content = read_segment(datagram)
        except Refused as refusal:
            return f"{refusal.at} {refusal.cause}"
        rule = self.rule(out, kind, name, content)
        if rule is None:
            self.said[name].append((kind, content))
        return rule

    def rule(self, out, kind, name, content):
        earlier = self.said.get(name, [])
        reds = [(piece["offset"], piece["body"]) for one, piece in earlier if one in RED_PIECES]
        if name[0] not in (self.own, self.peer) or out != ((kind in OF_SENDER) == (name[0] == self.own)):
            return "Side"
        if kind == REPORT and not all(holds(reds, *claim) for claim in content["claims"]):
            return "ClaimUnseen"
        checkpoints = [piece["checkpoint"] for one, piece in earlier if one in CHECKPOINTS]
        if kind == REPORT and content["checkpoint"] not in (0, *checkpoints):
            return "CheckpointUnseen"
        if kind == REPORT_ACK and content not in [report["serial"] for one, report in earlier if one == REPORT]:
            return "AckUnseen"
        if kind in RED_PIECES and any(differ(red, (content["offset"], content["body"])) for red in reds):
            return "OctetsDiffer"
        if kind in CANCEL_OF and CANCEL_OF[kind] not in [one for one, _ in earlier]:
            return "CancelUnseen"
        return None


def holds(reds, start, stop):
    """Whether red pieces hold each place from one on and before another."""
    while start < stop:
        ends = [at + len(body) for at, body in reds if at <= start < at + len(body)]
        if not ends:
            return False
        start = max(ends)
    return True


def differ(one, other):
    """Whether two red pieces have different octets for a place."""
    start, stop = max(one[0], other[0]), min(at + len(body) for at, body in (one, other))
    return start < stop and one[1][start - one[0]:stop - one[0]] != other[1][start - other[0]:stop - other[0]]


# ---- lines ----

def lines_in(octets):
    """The lines of an input up to a limit, each with its number, and whether one is passed."""
    passes = len(octets) > MOST_OCTETS
    texts = octets[:MOST_OCTETS].split(b"\n")
    last = texts.pop()
    if last and not passes:
        texts.append(last)
    for number, text in enumerate(texts, 1):
        if number > MOST_LINES or len(text) > LONGEST_LINE:
            yield number, None
            return
        yield number, text
    if passes:
        yield len(texts) + 1, None


def entry_of(line):
    """Whether a datagram left the engine, and its octets."""
    words = line.split(b" ")
    if len(words) != 2 or words[0] not in (b"in", b"out"):
        raise BadLine("Word")
    return words[0] == b"out", octets_of(words[1])


def audit(own, peer, octets):
    """What `audit` answers: its lines and the status."""
    judge, count = Audit(own, peer), 0
    for number, line in lines_in(octets):
        if line is None:
            return [], LIMIT
        try:
            broken = judge.broken(*entry_of(line))
        except BadLine as fault:
            broken = fault
        if broken is not None:
            return [f"refused line {number} {broken}"], REFUSED
        count = number
    return [f"ok {count}"], DONE


def record(own, peer, octets):
    """What `record` answers: its lines and the status."""
    node, lines = Node(own, peer), []
    for number, line in lines_in(octets):
        if line is None:
            return lines, LIMIT
        try:
            effects = node.event(line)
        except BadLine as fault:
            return [*lines, f"refused line {number} {fault}"], REFUSED
        except PastLimit:
            return lines, LIMIT
        came = [octets_of(line[3:])] if line.startswith(b"in ") else []
        lines += lines_of([(False, datagram) for datagram in came] + [(True, sent) for sent, in effects.out])
    return lines, DONE


def lines_of(entries):
    return [f"{'out' if out else 'in'} {datagram.hex()}" for out, datagram in entries]


COMMANDS = {"audit": audit, "record": record}


def answer(words, octets):
    """The octets that a command writes, and its status."""
    lines, status = COMMANDS[words[0]](int(words[1]), int(words[2]), octets)
    return "".join(line + "\n" for line in lines).encode(), status


# ---- made recordings ----

def exchange(draw):
    """The recording of engine 2 in an exchange with engine 1."""
    policy = Policy(draw.choice((2, 5, 1024)), 10, draw.choice((1, 2, 10)), 40)
    ends, entries, under_way, now = {1: Engine(1, 2, 1, policy), 2: Engine(2, 1, 1, policy)}, [], [], 0

    def sends(end, effects):
        for datagram, in effects.out:
            if end == 2:
                entries.append((True, datagram))
            under_way.extend([(3 - end, datagram)] * draw.choice((0, 1, 1, 1, 1, 2)))

    for _ in range(draw.randrange(2, 50)):
        what, end = draw.random(), draw.choice((1, 2))
        if what < 0.15:
            block = bytes(draw.randrange(256) for _ in range(draw.randrange(1, 14)))
            sends(end, ends[end].submit(block, draw.choice((len(block), len(block), len(block) // 2)), now))
        elif what < 0.3:
            now += draw.choice((1, 10, 20))
            sends(end, ends[end].tick(now))
        elif under_way:
            end, datagram = under_way.pop(draw.choice((0, 0, 0, -1)))
            if end == 2:
                entries.append((False, datagram))
            sends(end, ends[end].arrive(datagram, now))
    return entries


def changed(draw, kind, name, content):
    """A segment like this one, with another number or octet in it."""
    if kind in PIECES:
        offset, body = content["offset"], bytearray(content["body"])
        if body and draw.random() < 0.6:
            body[draw.randrange(len(body))] ^= 1
        else:
            offset = draw.choice((offset + 1, max(offset - 1, 0), 1 << 60))
        serials = [content["checkpoint"] + draw.randrange(2), 0] if kind in CHECKPOINTS else []
        return written(kind, name, content["service"], offset, len(body), *serials, body=bytes(body))
    if kind == REPORT:
        upper = content["upper"] + draw.randrange(2)
        checkpoint = draw.choice((content["checkpoint"], content["checkpoint"] + 1, 0))
        claims = content["claims"] if draw.random() < 0.5 else [(0, upper)]
        numbers = [number for start, stop in claims for number in (start, stop - start)]
        return written(REPORT, name, content["serial"] + draw.randrange(2), checkpoint, upper, 0, len(claims), *numbers)
    if kind == REPORT_ACK:
        return written(kind, name, draw.choice((0, content + 1, max(content - 1, 0))))
    another = {SENDER_CANCEL: RECEIVER_CANCEL, RECEIVER_CANCEL: SENDER_CANCEL, SENDER_CANCEL_ACK: RECEIVER_CANCEL_ACK,
               RECEIVER_CANCEL_ACK: SENDER_CANCEL_ACK}
    return written(another[kind], name, body=b"\2" if kind in (SENDER_CANCEL, RECEIVER_CANCEL) else b"")


def acknowledged(draw, kind, name, content):
    """An acknowledgement of this segment, or of its like."""
    if kind == REPORT:
        return written(REPORT_ACK, name, content["serial"] + draw.randrange(2))
    cancels = {SENDER_CANCEL: SENDER_CANCEL_ACK, RECEIVER_CANCEL: RECEIVER_CANCEL_ACK}
    return written(cancels.get(kind, draw.choice((SENDER_CANCEL_ACK, RECEIVER_CANCEL_ACK))), name)


def broken(draw, entries):
    """A recording like this one, in which something is wrong, mostly."""
    entries = list(entries)
    at = draw.randrange(len(entries))
    out, datagram = entries[at]
    kind, name, content = read_segment(datagram)
    what = draw.randrange(8)
    if what == 0:
        del entries[at]
    elif what == 1:
        entries.insert(draw.randrange(len(entries)), entries.pop(at))
    elif what == 2:
        entries[at] = not out, datagram
    elif what == 3:
        octets = bytearray(datagram)
        octets[draw.randrange(len(octets))] = draw.randrange(256)
        entries[at] = out, bytes(octets[:draw.randrange(len(octets) + 1)])
    elif what == 4:
        other = draw.choice(((name[0], name[1] + 1), (3 - name[0], name[1]), (3, name[1])))
        entries[at] = out, datagram[:1] + written(0, other)[1:-1] + datagram[len(written(0, name)) - 1:]
    elif what in (5, 6):
        place = draw.choice((at, at + 1, len(entries)))
        entries.insert(place, (out, changed(draw, kind, name, content)))
    else:
        answer_of = acknowledged(draw, kind, name, content)
        side = (answer_of[0] in OF_SENDER) == (name[0] == 2)
        entries.insert(draw.choice((at, at, at + 1)), (side, answer_of))
    return entries


def made(seed, count):
    """Recordings of engine 2, whose peer is engine 1, as the octets of an input."""
    draw = random.Random(seed)
    for _ in range(count):
        entries = exchange(draw)
        if entries and draw.random() < 0.9:
            entries = broken(draw, entries)
        yield "".join(line + "\n" for line in lines_of(entries)).encode()


# ---- the tool ----

def vectors(path):
    passed = failed = 0
    with open(path, encoding="ascii") as file:
        for number, line in enumerate(file, 1):
            row = json.loads(line)
            octets = bytes.fromhex(row["input_hex"]) if "input_hex" in row else row["input"].encode()
            is_right = answer(row["words"], octets) == (row["output"].encode(), row["status"])
            passed += is_right
            failed += not is_right
            if not is_right:
                print(f"{path}:{number} departs")
    print(f"{passed} passed, {failed} failed")
    return int(failed > 0)


def main(words):
    if words[:1] == ["--vectors"] and len(words) == 2:
        return vectors(words[1])
    if words[:1] == ["--made"] and len(words) == 3:
        said = (audit(2, 1, octets)[0][0].split(" ") for octets in made(int(words[2]), int(words[1])))
        counts = collections.Counter(line[-1] if line[0] == "refused" else "ok" for line in said)
        print("\n".join(f"{rule} {number}" for rule, number in counts.most_common()))
        return DONE
    numbers = [decimal(word.encode()) for word in words[1:]]
    if words[:1] not in (["audit"], ["record"]) or len(numbers) != 2 or None in numbers or numbers[0] == numbers[1]:
        sys.stderr.write(__doc__.split("\n\n")[1] + "\n")
        return USAGE
    text, status = answer(words, sys.stdin.buffer.read())
    sys.stdout.buffer.write(text)
    return status


if __name__ == "__main__":
    sys.exit(main(sys.argv[1:]))
