#!/usr/bin/env python3
"""A model of a drain with picks, on the link of link_model.py: which datagram comes next, and how many events there are.

usage: tools/pick_model.py link < SCRIPT         answers a script as the program does
       tools/pick_model.py --vectors FILE        compares with those rows of JSON whose last line is `drain` and picks
       tools/pick_model.py --make COUNT SEED     writes scripts with picks, a line of JSON for each, with what the model
                                                 answers
       tools/pick_model.py --bounds COUNT SEED   counts the events of made drains, with old copies of every kind, and
                                                 holds them against what docs/completion.md promises
"""
import json
import os
import random
import re
import sys

sys.dont_write_bytecode = True
sys.path.insert(0, os.path.dirname(os.path.abspath(__file__)))
import link_model
from link_model import DONE, REFUSED, USAGE, BadLine, Link, PastLimit, Plan, Script, number_of
from ltp_model import MOMENTS, Policy, read_segment

MOST_PICKS = 100_000
FAR = (1 << 32) - (1 << 22)


def pick_of(word):
    """A pick: an end, or the number of an old datagram."""
    if word in (b"f", b"s"):
        return word.decode()
    if not word.startswith(b"o"):
        raise BadLine("Number")
    return number_of(word[1:])


class Drain:
    """A link that stopped losing: what is new, and how much happened."""

    def __init__(self, link):
        self.link, self.new, self.lines, self.events, self.copies = link, [], [], 0, []

    def happens(self, lines_of):
        before = len(self.link.sent)
        self.lines += lines_of()
        self.new += range(before, len(self.link.sent))
        self.events += 1

    def deliver(self, k):
        self.happens(lambda: self.link.arrive(k))

    def clock(self):
        """Whether there was a deadline."""
        due = min((d for d in (self.link.ends[end].next_deadline() for end in "fs") if d is not None), default=None)
        if due is None:
            return False
        if due >= MOMENTS:
            raise PastLimit()
        self.link.now = due
        self.happens(lambda: self.link.tick(due))
        return True

    def pick(self, pick):
        if isinstance(pick, int):
            if pick < len(self.link.sent) and pick not in self.new:
                self.copies.append(self.link.sent[pick][1])
                self.deliver(pick)
            return
        k = next((k for k in self.new if self.link.sent[k][0] == pick), None)
        if k is not None:
            self.new.remove(k)
            self.deliver(k)
        elif not self.new:
            self.clock()

    def finish(self):
        while True:
            if self.new:
                self.deliver(self.new.pop(0))
            elif not self.clock():
                return


class PickScript(Script):
    """A script whose last line may have picks."""

    def happening(self, words):
        if words[0] != b"drain" or len(words) == 1 or self.windows:
            return super().happening(words)
        if len(words) - 1 > MOST_PICKS:
            raise BadLine("Word")
        picks = [pick_of(word) for word in words[1:]]
        self.drained = True
        return lambda: drained(self.link, picks)


def drained(link, picks):
    drain = Drain(link)
    for pick in picks:
        drain.pick(pick)
    drain.finish()
    return [*drain.lines, f"end {drain.events}"]


def answer(octets):
    link_model.Script, before = PickScript, link_model.Script
    try:
        return link_model.answer(octets)
    finally:
        link_model.Script = before


def vectors(path):
    passed = failed = 0
    with open(path, encoding="ascii") as file:
        for number, line in enumerate(file, 1):
            row = json.loads(line)
            octets = bytes.fromhex(row["input_hex"]) if "input_hex" in row else row["input"].encode()
            if not re.search(rb"(?m)^drain .", octets):
                continue
            is_right = answer(octets) == (row["output"].encode(), row["status"])
            passed += is_right
            failed += not is_right
            if not is_right:
                print(f"{path}:{number} departs")
    print(f"{passed} passed, {failed} failed")
    return int(failed > 0)


# ---- made scripts ----

def made_words(draw):
    """The words of a last line: mostly picks, of which few have another form."""
    words = []
    for _ in range(draw.choice((1, 1, 3, 12, 60))):
        words.append(draw.choice("fs") if draw.randrange(3) else f"o{draw.randrange(60)}")
    if draw.randrange(12) == 0:
        words[draw.randrange(len(words))] = draw.choice(("", "o", "o01", "F", "fs", "o99999999999999999999"))
    return words


def made(draw):
    """A script, as lines: one without windows, but for a few, whose drain may have no picks."""
    lines = link_model.made(draw)
    if draw.randrange(12):
        lines = [line for line in lines if not line.startswith("window ")]
    if lines[-1] == "drain":
        lines.pop()
    return [*lines, " ".join(["drain", *made_words(draw)])]


def made_rows(count, seed):
    draw = random.Random(seed)
    for _ in range(count):
        octets = "\n".join(made(draw)).encode() + draw.choice((b"", b"\n"))
        text, status = answer(octets)
        yield {"words": ["link"], "input": octets.decode(), "status": status, "output": text.decode()}


# ---- bounds ----

def is_hopeful(link):
    for end, peer in ("fs", "sf"):
        here, there = link.ends[end], link.ends[peer]
        if here.next >= FAR:
            return False
        for number, sender in here.senders.items():
            if sender.cancelling or sender.sent >= sender.policy.limit or sender.checkpoint + 1 >= FAR:
                return False
            if number in there.closed:
                return False
        for receiver in here.receivers.values():
            waits = receiver.deadline is not None
            if receiver.cancelling or waits and receiver.sent >= receiver.policy.limit or receiver.serial >= FAR:
                return False
    return True


def has_room(link):
    for end, peer in ("fs", "sf"):
        here, there = link.ends[end], link.ends[peer]
        coming = sum(n not in here.receivers and n not in here.closed for n in there.senders)
        if len(here.senders) > 64 or len(here.receivers) + coming > 64:
            return False
        if here.closed_runs + len(here.receivers) + coming > 65_536:
            return False
    return True


def costs(link):
    """Of each session that is kept at either end q + 16, q being the segments of its block where its sender is kept."""
    cost = {}
    for end, peer in ("fs", "sf"):
        here, there = link.ends[end], link.ends[peer]
        for number in {*here.senders, *there.receivers}:
            sender = here.senders.get(number)
            q = 0
            if sender is not None:
                size, red = sender.policy.segment, sender.red
                q = -(-red // size) - (-(len(sender.block) - red) // size)
            cost[here.own, number] = q + 16
    return cost


def made_link(draw):
    """A link on which blocks were sent, and datagrams lost, repeated and cancelled."""
    policy = Policy(draw.choice((2, 3, 8)), draw.choice((1, 10, 1_000)), draw.choice((1, 2, 3, 10)), 3_600_000)
    link = Link(policy, Plan([]), 0)
    most = draw.choice((1, 2, 5, 70))
    for _ in range(draw.randrange(1, 60)):
        kind = draw.randrange(10)
        if kind < 3 and max(len(link.ends[end].senders) for end in "fs") < most:
            end, block = draw.choice("fs"), draw.randbytes(draw.choice((1, 2, 5, 9, 20)))
            red = draw.choice((len(block), draw.randrange(len(block) + 1)))
            link.told([(end, link.ends[end].submit(block, red, link.contact))])
        elif kind < 8 and link.sent:
            link.arrive(draw.choice((len(link.sent) - 1, draw.randrange(len(link.sent)))))
        elif kind >= 8:
            link.clock(link.now + draw.choice((1, 10, 1_000, 100_000)))
    return link


def made_picks(draw, link):
    picks = []
    for _ in range(draw.choice((0, 3, 20, 60))):
        picks.append(draw.choice("fs") if draw.randrange(3) else draw.randrange(len(link.sent) + 40))
    return picks


KINDS = {0: "piece", 3: "checkpoint", 8: "report", 9: "acknowledgement", 12: "cancel", 13: "cancel's answer",
         14: "cancel", 15: "cancel's answer"}


def bounds(count, seed):
    """Drains that the promise speaks of, and the most that an old copy cost in them."""
    draw, tried, failed, kinds, closest = random.Random(seed), 0, 0, {}, None
    for _ in range(count):
        link = made_link(draw)
        if not is_hopeful(link) or not has_room(link):
            continue
        cost, senders = costs(link), {(end, n) for end in "fs" for n in link.ends[end].senders}
        drain = Drain(link)
        for pick in made_picks(draw, link):
            drain.pick(pick)
        drain.finish()
        text = "\n".join(drain.lines)
        if re.search(r"(?m)^note . (Evicted|HistoryFull) ", text):
            continue
        tried += 1
        tight = sum(cost.values()) + 3 * len(drain.copies)
        wide = sum(cost.values())
        for datagram in drain.copies:
            kind, name, _ = read_segment(datagram)
            wide += cost.get(name, 16) - 16 + 8
            kinds[KINDS.get(kind, "checkpoint" if kind < 4 and kind else "piece")] = 1 + kinds.get(
                KINDS.get(kind, "checkpoint" if kind < 4 and kind else "piece"), 0)
        sent = all(f"note {end} Sent {n}" in text.split("\n") for end, n in senders)
        left = any(link.ends[end].senders for end in "fs")
        if drain.events > tight or tight > wide or not sent or left:
            failed += 1
            print(f"departs: {drain.events} events, {tight} and {wide} allowed, sent {sent}, left {left}")
        if drain.copies:
            room = tight - drain.events
            closest = room if closest is None else min(closest, room)
    print(f"{tried} drains, {failed} depart; old copies of each kind: {kinds}; the closest had {closest} events to spare")
    return int(failed > 0)


def main(words):
    if words[:1] == ["--vectors"] and len(words) == 2:
        return vectors(words[1])
    if words[:1] == ["--bounds"] and len(words) == 3:
        return bounds(int(words[1]), int(words[2]))
    if words[:1] == ["--make"] and len(words) == 3:
        for row in made_rows(int(words[1]), int(words[2])):
            print(json.dumps(row))
        return DONE
    if words == ["link"]:
        text, status = answer(sys.stdin.buffer.read())
        sys.stdout.buffer.write(text)
        return status
    sys.stderr.write(__doc__.split("\n\n")[1] + "\n")
    return USAGE


if __name__ == "__main__":
    sys.exit(main(sys.argv[1:]))
