#!/usr/bin/env python3
"""Makes the script of `make SEED COUNT` from outside, runs it as `world`, and compares the numbers.

usage: tools/made_world.py PROGRAM [SEED COUNT]     7 and 100, where none are given

The script depends on how many datagrams were sent by then, so it is told line by line to a `world` that answers each
one; then the whole of it is given to another `world`, whose transcript is counted. Nothing here is the program's or a
model's: the bundles are spelled by the few lines below.
"""
import subprocess
import sys

PATH = "path ipn:9.0 512 10000 100 4096 1000000"
MARK = "deliver 18446744073709551615"        # no datagram has this number: its answer ends those of the line before it


def draws(seed):
    while True:
        seed = (6364136223846793005 * seed + 1442695040888963407) % 2**64
        yield seed >> 33


def sdnv(number):
    digits = [number & 127]
    while number := number >> 7:
        digits.append(number & 127 | 128)
    return bytes(reversed(digits))


def head(kind, number):
    if number < 24:
        return bytes([kind << 5 | number])
    size = next(size for size in (1, 2, 4, 8) if number < 256**size)
    return bytes([kind << 5 | {1: 24, 2: 25, 4: 26, 8: 27}[size]]) + number.to_bytes(size, "big")


def crc16(octets):
    register = 0xFFFF
    for octet in octets:
        register ^= octet
        for _ in range(8):
            register = register >> 1 ^ 0x8408 if register & 1 else register >> 1
    return (register ^ 0xFFFF).to_bytes(2, "big")


def old_bundle(i, payload):
    """Version 6, from ipn:1.1 to ipn:2.1, without a dictionary; it is a singleton's, and may be cut."""
    fields = [2, 1, 1, 1, 0, 0, 0, 0, 1000, i, 1_000_000, 0]
    rest = b"".join(map(sdnv, fields))
    last = b"\x01" + sdnv(8) + sdnv(len(payload)) + payload
    return b"\x06" + sdnv(0x90) + sdnv(len(rest)) + rest + last


def new_bundle(i, payload):
    """Version 7, from ipn:2.1 to ipn:1.1, whose primary block has a CRC of 16 bits."""
    def node(number):
        return b"\x82\x02\x82" + head(0, number) + b"\x01"
    front = b"\x89\x07\x00\x01" + node(1) + node(2) + b"\x82\x01\x00" + b"\x82" + head(0, 1_000_000 + i) + b"\x00"
    front += head(0, 1_000_000_000) + b"\x42"
    primary = front + crc16(front + b"\x00\x00")
    return b"\x9f" + primary + b"\x85\x01\x01\x00\x00" + head(2, len(payload)) + payload + b"\xff"


class World:
    """A `world` that is told one line at a time."""

    def __init__(self, program):
        self.run = subprocess.Popen([program, "world"], stdin=subprocess.PIPE, stdout=subprocess.PIPE, text=True)
        self.script, self.sent = [], 0
        self.run.stdin.write(PATH + "\n")
        self.script.append(PATH)

    def say(self, line):
        self.script.append(line)
        self.run.stdin.write(f"{line}\n{MARK}\n")
        self.run.stdin.flush()
        while (said := self.run.stdout.readline()) != "refused deliver\n":
            if not said or said.startswith("refused"):
                sys.exit(f"made_world: to {line[:60]} it said {said}")
            self.sent += said.startswith("sent ")

    def end(self):
        self.run.communicate()
        return "".join(line + "\n" for line in [*self.script, "drain"])


def script_of(program, seed, count):
    world, draw, now = World(program), draws(seed), 1_000_000
    for i in range(count):
        payload = bytes([i % 256]) * (1 + next(draw) % 6000)
        world.say(f"send new {new_bundle(i, payload).hex()}" if i % 2 else f"send old {old_bundle(i, payload).hex()}")
        for _ in range(8):
            r, t = next(draw), next(draw)
            if r % 4 == 3:
                now += t % 20000
                world.say(f"clock {now}")
            else:
                world.say(f"deliver {world.sent - 1 - t % min(world.sent, 32)}")
    return world.end()


def counted(transcript):
    """What `make` says of a transcript, but for its first number."""
    total = 0
    for octet in transcript:
        total = (31 * total + octet) % 2**32
    lines = transcript.decode().splitlines()
    sent = sum(line.startswith("sent ") for line in lines)
    ups = sum(line.startswith(("up o ", "up n ")) for line in lines)
    return f"sent {sent} up {ups} events {lines[-1].removeprefix('end ')} sum {total}"


def main(words):
    program, seed, count = words[0], *map(int, words[1:] or [7, 100])
    run = subprocess.run([program, "world"], input=script_of(program, seed, count).encode(), capture_output=True)
    wanted = f"made {count} {counted(run.stdout)}"
    made = subprocess.run([program, "make", str(seed), str(count)], capture_output=True, text=True)
    print(wanted)
    if (run.returncode, made.returncode, made.stdout) != (0, 0, wanted + "\n"):
        sys.exit(f"made_world: world ends with {run.returncode}, make with {made.returncode} and {made.stdout!r}")


if __name__ == "__main__":
    if len(sys.argv) not in (2, 4) or sys.argv[1] == "--help":
        sys.exit(__doc__)
    main(sys.argv[1:])
