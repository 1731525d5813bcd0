#!/usr/bin/env python3
"""How many bundles a second `gate` passes, beside `serve` and beside a plain forwarder of datagrams.

usage: bench/gate.py [PROGRAM] [--seconds S] [--idle S] [--scale PERCENT] [--runs N] [--window N]

The program is the one that this repository builds, where none is named. The nodes are bench/player.rs and the forwarder
is bench/forwarder.rs, both built here by `rustc`: one process for both nodes, with a thread each. Bundles of a size go
over loopback from the old node to the new one, and no datagram is lost. Of so many runs (3), in turn with the others,
that with the most bundles a second is told. The forwarder passes the segments as they are: so it says what the nodes,
the sockets and the machine take, and what is left for a gateway.

Seconds are from the first datagram to the last. A second of the processor is the program's alone, Mbit are millions of
bits of payload, peak MB are of the program's resident memory. `--window` is how many sessions are open at most at a time
(40; of bundles of 10,000 octets 8, of a million 3). Last stands what `gate` does where nothing comes for so many seconds
(60). Each bundle has to come out as tools/gateway_model.py translates it. The program's lines go to /dev/null.

`journal` is `gate` with a journal where the system keeps what is temporary (or where TMPDIR says), `memory` with one in
/dev/shm. Behind their rows stands how many octets more they wrote than `gate` for each octet of payload.
"""
import os
import struct
import subprocess
import sys
import tempfile
import time

sys.dont_write_bytecode = True
ROOT = os.path.dirname(os.path.dirname(os.path.abspath(__file__)))
sys.path.insert(0, os.path.join(ROOT, "tools"))
from gateway_model import SERIALS, SERVED, case_of, system_clock
from live_nodes import GATE, Program, Queues, free_port, options_of, program_of
from translate_model import NONE, canonical6

OPTIONS = {"seconds": 60, "idle": 60, "scale": 100, "runs": 3, "window": 40}
CASES = ((100, 40_000, 40), (1000, 20_000, 40), (10_000, 5000, 8), (1_000_000, 60, 3))     # the last is the window
CUT = SERVED[1]
SESSIONS = 56               # at the gateway, of 64
DAY = 86_400
KINDS = ("forwarder", "serve", "gate", "journal", "memory")
JOURNALED = ("journal", "memory")
COLUMNS = (f"{'octets':>10} {'':<10}{'bundles':>9}{'s':>8}{'bundles/s':>11}{'Mbit/s':>9}{'s proc.':>9}{'us/bundle':>11}"
           f"{'busy':>6}{'peak MB':>9}")


def bundle(at, size, moment):
    """A bundle from the old node."""
    block = {"kind": 1, "flags": 0, "refs": [], "body": (bytes([at % 256]) * size).hex()}
    return canonical6({"version": 6, "flags": 0x90, "destination": "ipn:2.1", "source": "ipn:1.1", "report_to": NONE,
                       "custodian": NONE, "creation": [moment // 1000, at], "lifetime": DAY, "fragment": None,
                       "blocks": [block]})


def built(name, folder):
    """A program of this folder."""
    path = os.path.join(folder, name)
    subprocess.run(["rustc", "-O", "--edition", "2021", "-o", path, os.path.join(ROOT, "bench", name + ".rs")], check=True)
    return path


def written(blocks, path):
    with open(path, "wb") as file:
        for block in blocks:
            file.write(struct.pack(">Q", len(block)) + block)


def blocks_in(path):
    with open(path, "rb") as file:
        octets = file.read()
    at, blocks = 0, []
    while at < len(octets):
        (length,) = struct.unpack_from(">Q", octets, at)
        blocks.append(octets[at + 8:at + 8 + length])
        at += 8 + length
    return blocks


def octets_written(pid):
    with open(f"/proc/{pid}/io", encoding="ascii") as file:
        return int(dict(line.split(": ") for line in file)["wchar"])


class Bench:
    def __init__(self, path, options, folder):
        self.path, self.options, self.folder, self.wrong, self.left = path, options, folder, 0, None
        self.player, self.forwarder = built("player", folder), built("forwarder", folder)
        print(f"{path}, load {os.getloadavg()[0]:.1f} on {os.cpu_count()} processors\n{COLUMNS}", flush=True)

    def start(self, kind, ports):
        old, new, gate_old, gate_new = ports
        if kind == "forwarder":
            words = [self.forwarder, gate_old, old, gate_new, new]
        elif kind == "serve":
            words = [self.path, "serve", GATE, *(f"127.0.0.1:{port}" for port in (gate_old, old, gate_new, new)), 1_000_000_000]
        else:
            file, journal = os.path.join(self.folder, "gate.toml"), self.journal(kind)
            with open(file, "w", encoding="utf-8") as text:
                text.write(f'[gateway]\nendpoint = "{GATE}"\n{journal}metrics = "{self.folder}/gate.prom"\n'
                           f'[old]\nbind = "127.0.0.1:{gate_old}"\npeer = "127.0.0.1:{old}"\n'
                           f'[new]\nbind = "127.0.0.1:{gate_new}"\npeer = "127.0.0.1:{new}"\n')
            words = [self.path, "gate", file]
        program, queues = Program(words[0], list(map(str, words[1:])), keep=False), Queues(False)
        while not {gate_old, gate_new} <= set(queues.read()):
            if program.has_ended():
                sys.exit(f"{kind} ends at once, with {program.end()}")
            time.sleep(0.01)
        time.sleep(0.2)
        return program

    def journal(self, kind):
        """The key of a journal that is begun anew, where the kind has one."""
        if kind not in JOURNALED:
            return ""
        path = os.path.join("/dev/shm" if kind == "memory" else self.folder, f"journal-{os.getpid()}")
        if os.path.exists(path):
            os.unlink(path)
        self.left = path
        return f'journal = "{path}"\n'

    def run(self, kind, blocks, wanted, window):
        """Seconds, those of the processor, the peak in kB, and the octets written, of one run; none where it went wrong."""
        ports = [free_port("127.0.0.1") for _ in range(4)]
        source, came = os.path.join(self.folder, "blocks"), os.path.join(self.folder, "came")
        written(blocks, source)
        program = self.start(kind, ports)
        used = program.processor_seconds()
        pieces = 1 if kind == "forwarder" else len(wanted) // len(blocks)
        most = window if pieces == 1 else SESSIONS
        words = [self.player, *ports, source, came, most, pieces, int(self.options["seconds"])]
        played = subprocess.run(list(map(str, words)), capture_output=True, text=True)
        used, peak = program.processor_seconds() - used, program.kilobytes("VmHWM")
        written_by = octets_written(program.child.pid)
        program.child.kill()
        program.end()
        right = sorted(blocks if kind == "forwarder" else wanted)
        if played.returncode != 0 or sorted(blocks_in(came)) != right:
            print(f"  wrong: {kind}: status {played.returncode}, {played.stdout.strip()} {played.stderr[-300:]}", flush=True)
            self.wrong += 1
            return None
        return float(played.stdout.split()[0]), used, peak, written_by

    def case(self, size, count, window):
        moment, count = system_clock(), max(1, int(count * self.options["scale"] / 100))
        blocks = [bundle(at, size, moment) for at in range(count)]
        wanted = [piece for block in blocks for piece in case_of(block, 6, moment, 64, SERIALS, CUT).out]
        best = {}
        for _ in range(int(self.options["runs"])):
            for kind in KINDS:
                ran = self.run(kind, blocks, wanted, min(window, int(self.options["window"])))
                if ran and ran < best.get(kind, (1e9,)):
                    best[kind] = ran
        for kind, (seconds, used, peak, written_by) in best.items():
            more = f"{(written_by - best['gate'][3]) / (count * size):>8.2f}" if kind in JOURNALED and "gate" in best else ""
            print(f"{size:>10,} {kind:<10}{count:>9,}{seconds:>8.2f}{count / seconds:>11,.0f}"
                  f"{count * size * 8 / 1e6 / seconds:>9.1f}{used:>9.2f}{1e6 * used / count:>11.1f}{used / seconds:>6.2f}"
                  f"{peak / 1024:>9.1f}{more}", flush=True)

    def idle(self, seconds):
        program = self.start("gate", [free_port("127.0.0.1") for _ in range(4)])
        used = program.processor_seconds()
        time.sleep(seconds)
        used = program.processor_seconds() - used
        program.child.kill()
        program.end()
        print(f"{'nothing':>10} {'gate':<10}{'':>9}{seconds:>8.2f}{'':>20}{used:>9.2f}{'':>11}{used / seconds:>6.2f}")


def main(words):
    path, words = program_of(words)
    options = options_of(words, OPTIONS)
    if options is None:
        sys.stderr.write(__doc__.split("\n\n")[1] + "\n")
        return 2
    with tempfile.TemporaryDirectory() as folder:
        bench = Bench(path, options, folder)
        for case in CASES:
            bench.case(*case)
        if options["idle"]:
            bench.idle(options["idle"])
        if bench.left:
            os.unlink(bench.left)
    return int(bench.wrong > 0)


if __name__ == "__main__":
    sys.exit(main(sys.argv[1:]))
