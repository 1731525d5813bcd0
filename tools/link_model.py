#!/usr/bin/env python3
"""A model of `link`: two LTP engines on a link that may be open in windows alone, from its rules.

usage: tools/link_model.py link < SCRIPT         answers a script as the program does
       tools/link_model.py --vectors FILE        compares with rows of JSON
       tools/link_model.py --make COUNT SEED     writes scripts, a line of JSON for each, with what the model answers

The rules are those of docs/windows.md. Contact time is counted moment by moment where a plan is short, and summed over
its windows where it isn't: both are tried on each plan of up to 10,000 moments.
"""
import json
import os
import random
import re
import sys

sys.dont_write_bytecode = True
sys.path.insert(0, os.path.dirname(os.path.abspath(__file__)))
from ltp_model import (DONE, LIMIT, LONGEST_LINE, MOMENTS, MOST_LINES, MOST_OCTETS, REFUSED, USAGE, BadLine, Engine,
                       PastLimit, Policy, decimal, octets_of)

MOST_SENT = 1 << 28
MOST_WINDOWS = 4096


class Plan:
    """The windows in which a link is open; without any it always is."""

    def __init__(self, windows):
        self.windows = windows or [(0, MOMENTS)]
        if self.windows[-1][1] <= 10_000:
            self.try_counting()

    def is_open(self, now):
        return any(since <= now < until for since, until in self.windows)

    def elapsed(self, now):
        """How many moments below this one lie in a window."""
        return sum(max(0, min(now, until) - since) for since, until in self.windows)

    def moment(self, contact):
        """The moment in a window below which so many lie in one."""
        for since, until in self.windows:
            if contact < until - since:
                return since + contact
            contact -= until - since
        return None

    def try_counting(self):
        contact = 0
        for now in range(self.windows[-1][1] + 2):
            assert self.elapsed(now) == contact
            if self.is_open(now):
                assert self.moment(contact) == now
                contact += 1
        assert self.moment(contact) is None


class Link:
    """Two engines, every datagram that was sent, and a clock that shows contact time."""

    def __init__(self, policy, plan, now):
        self.ends = {"f": Engine(1, 2, 1, policy), "s": Engine(2, 1, 1, policy)}
        self.plan, self.now, self.contact = plan, now, plan.elapsed(now)
        self.sent, self.octets = [], 0

    def told(self, effects):
        """The lines of what ends do: datagrams, red parts, notes."""
        lines = []
        for end, done in effects:
            for datagram, in done.out:
                lines.append(f"sent {len(self.sent)} {'f>s' if end == 'f' else 's>f'} {datagram.hex()}")
                self.sent.append((end, datagram))
                self.octets += len(datagram)
        for end, done in effects:
            lines += [f"up {end} {session} {body.hex()}" for session, body in done.ups]
        for end, done in effects:
            lines += [" ".join(["note", end, *map(str, note)]) for note in done.notes]
        if self.octets > MOST_SENT:
            raise PastLimit()
        return lines

    def submit(self, end, block):
        if not self.plan.is_open(self.now):
            return [f"refused {end} Closed"]
        effects = self.ends[end].submit(block, len(block), self.contact)
        return [f"refused {end} {cause}" for cause, in effects.refused] + self.told([(end, effects)])

    def deliver(self, k):
        if not self.plan.is_open(self.now):
            return ["refused closed"]
        if k >= len(self.sent):
            return ["refused deliver"]
        return self.arrive(k)

    def arrive(self, k):
        end, datagram = self.sent[k]
        other = "s" if end == "f" else "f"
        return self.told([(other, self.ends[other].arrive(datagram, self.contact))])

    def clock(self, now):
        if now < self.now:
            return []
        self.now = now
        return self.tick(self.plan.elapsed(now))

    def tick(self, contact):
        self.contact = contact
        return self.told([(end, self.ends[end].tick(contact)) for end in "fs"])

    def drain(self, has_windows):
        """A drain's lines."""
        lines, passed, events = [], len(self.sent), 0
        while True:
            due = min((d for d in (self.ends[end].next_deadline() for end in "fs") if d is not None), default=None)
            if passed == len(self.sent) and due is None:
                return [*lines, f"end {events}"]
            contact = self.contact if passed < len(self.sent) else due
            moment = self.plan.moment(contact)
            if moment is None:
                if not has_windows:
                    raise PastLimit()
                return [*lines, f"stop {events}"]
            if has_windows and moment != self.now:
                lines.append(f"at {moment}")
            self.now = moment
            if passed < len(self.sent):
                lines += self.arrive(passed)
                passed += 1
            else:
                lines += self.tick(due)
            events += 1


def number_of(word, least=0, most=(1 << 64) - 1):
    number = decimal(word)
    if number is None or not least <= number <= most:
        raise BadLine("Number")
    return number


class Script:
    """What `link` keeps from line to line."""

    def __init__(self):
        self.start, self.windows, self.link, self.drained = None, [], None, False

    def event(self, line):
        """The lines of an event."""
        words = line.split(b" ")
        if self.drained:
            raise BadLine("AfterDrain")
        if (self.start is None) != (words[0] == b"link"):
            raise BadLine("Word")
        if words[0] == b"link" and len(words) == 6:
            return self.begin(words[1:])
        if words[0] == b"window" and len(words) == 3 and self.link is None:
            return self.window(number_of(words[1]), number_of(words[2]))
        happening = self.happening(words)
        if self.link is None:
            self.link = Link(*self.start[:1], Plan(self.windows), self.start[1])
        return happening()

    def begin(self, words):
        segment, timeout = number_of(words[0], 512, 8192), number_of(words[1], 1, 3_600_000)
        limit, cap = number_of(words[2], 1, 100), number_of(words[3], timeout, 3_600_000)
        start = number_of(words[4])
        if start >= MOMENTS:
            raise PastLimit()
        self.start = Policy(segment, timeout, limit, cap), start
        return []

    def window(self, since, until):
        before = self.windows[-1][1] if self.windows else 0
        if len(self.windows) == MOST_WINDOWS or not before <= since < until <= MOMENTS:
            raise BadLine("Window")
        self.windows.append((since, until))
        return []

    def happening(self, words):
        """What a line brings about, once its words are judged."""
        if words[0] == b"send" and 2 <= len(words) <= 3 and words[1] in (b"first", b"second"):
            block = octets_of(words[2] if len(words) == 3 else b"")
            return lambda: self.link.submit("f" if words[1] == b"first" else "s", block)
        if words[0] == b"deliver" and len(words) == 2:
            k = number_of(words[1])
            return lambda: self.link.deliver(k)
        if words[0] == b"clock" and len(words) == 2:
            now = number_of(words[1])
            if now >= MOMENTS:
                raise PastLimit()
            return lambda: self.link.clock(now)
        if words == [b"drain"]:
            self.drained = True
            return lambda: self.link.drain(bool(self.windows))
        raise BadLine("Word")


def link(octets):
    """What `link` answers: its lines and the status."""
    script, lines = Script(), []
    passes = len(octets) > MOST_OCTETS
    texts = octets[:MOST_OCTETS].split(b"\n")
    last = texts.pop()
    if last and not passes:
        texts.append(last)
    for number, text in enumerate(texts or [b""], 1):
        if number > MOST_LINES or len(text) > LONGEST_LINE:
            return lines, LIMIT
        try:
            lines += script.event(text)
        except BadLine as fault:
            return [*lines, f"refused line {number} {fault}"], REFUSED
        except PastLimit:
            return lines, LIMIT
    return lines, LIMIT if passes else DONE


def answer(octets):
    lines, status = link(octets)
    return "".join(line + "\n" for line in lines).encode(), status


# ---- made scripts ----

def made_windows(draw, start):
    """Windows: a few, many, some of one millisecond, some that touch."""
    count = draw.choice((0, 1, 2, 3, 8, 40, MOST_WINDOWS))
    since, windows = max(0, start - draw.choice((0, 0, 5, 3000))), []
    for _ in range(count):
        length = draw.choice((1, 1, 7, 100, 5_000, 12_000, 600_000))
        windows.append((since, since + length))
        since += length + draw.choice((0, 0, 1, 50, 4_000, 86_400_000))
    return windows


def made(draw):
    """A script, as lines."""
    timeout = draw.choice((1, 10, 1_000, 10_000, 3_600_000))
    policy = draw.choice((512, 1024)), timeout, draw.choice((1, 2, 10)), draw.choice((timeout, 3_600_000))
    start = draw.choice((0, 5, 100_000))
    lines = [f"link {policy[0]} {policy[1]} {policy[2]} {policy[3]} {start}"]
    windows = made_windows(draw, start)
    lines += [f"window {since} {until}" for since, until in windows]
    model = Link(Policy(*policy), Plan(windows), start)
    ends = [0, *(moment for window in windows[:50] for moment in window)]
    for _ in range(draw.randrange(0, 30)):
        kind = draw.randrange(10)
        if kind < 3:
            end, block = draw.choice("fs"), draw.randbytes(draw.choice((0, 1, 1, 40, 600, 1_300)))
            lines.append(f"send {'first' if end == 'f' else 'second'} {block.hex()}")
            model.submit(end, block)
        elif kind < 8 and model.sent:
            k = draw.choice((len(model.sent) - 1, draw.randrange(len(model.sent) + 1)))
            lines.append(f"deliver {k}")
            model.deliver(k)
        else:
            now = max(0, draw.choice((model.now + draw.choice((1, timeout)), draw.choice(ends) + draw.choice((-1, 0, 1)))))
            if windows and draw.randrange(12) == 0:
                now = windows[-1][1] + draw.choice((0, 1, 10_000))
            lines.append(f"clock {now}")
            model.clock(now)
    if draw.randrange(5):
        lines.append("drain")
    return lines


def made_rows(count, seed):
    draw = random.Random(seed)
    for _ in range(count):
        octets = "\n".join(made(draw)).encode() + draw.choice((b"", b"\n"))
        text, status = answer(octets)
        yield {"words": ["link"], "input": octets.decode(), "status": status, "output": text.decode()}


def vectors(path):
    passed = failed = 0
    with open(path, encoding="ascii") as file:
        for number, line in enumerate(file, 1):
            row = json.loads(line)
            octets = bytes.fromhex(row["input_hex"]) if "input_hex" in row else row["input"].encode()
            if re.search(rb"(?m)^drain .", octets):
                continue      # orders of delivery, which this model doesn't know
            is_right = answer(octets) == (row["output"].encode(), row["status"])
            passed += is_right
            failed += not is_right
            if not is_right:
                print(f"{path}:{number} departs")
    print(f"{passed} passed, {failed} failed")
    return int(failed > 0)


def main(words):
    if words[:1] == ["--vectors"] and len(words) == 2:
        return vectors(words[1])
    if words[:1] == ["--make"] and len(words) == 3:
        for row in made_rows(int(words[1]), int(words[2])):
            print(json.dumps(row))
        return DONE
    if words != ["link"]:
        sys.stderr.write(__doc__.split("\n\n")[1] + "\n")
        return USAGE
    text, status = answer(sys.stdin.buffer.read())
    sys.stdout.buffer.write(text)
    return status


if __name__ == "__main__":
    sys.exit(main(sys.argv[1:]))
