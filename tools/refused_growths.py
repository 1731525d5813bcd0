#!/usr/bin/env python3
"""Refuses the program each growth of its memory in turn, and looks at how it ends.

usage: tools/refused_growths.py [PROGRAM] [--rows N] [--growths N] [--from-then-on] [COMMAND ..]

The program is the one that this repository builds, where none is named. So many rows of each command (12, spread over
its file in rows/) are run over and over, of all commands of the program's table or of those named: with the first call
for memory refused, then with the second, and so on to the last, or to as many as are said (1,000). With --from-then-on
all later calls are refused as well. What refuses them is a small library, made by `cc`, between the program and the C
library.

`serve` and `gate` are played both nodes over loopback: a bundle passes from each node and is claimed, and one that asks
for custody is deleted with a report; then they are stopped. `gate` is run without a journal, with one that is begun
anew, and with one in which an earlier run left a piece, which is sent again. The rows of `gate` are those of `gate check`.

Each such run must end with status 7, and have written a front of what it should, where the moments of lines aren't
looked at; or else do as if nothing had been refused. A run of `gate` may end with status 5 before its first line, where
the system has no memory to watch its sockets. A journal must be one that the next run can read. Prints a line
for each command. Status 0 where all of this holds, and 1 else.
"""
import argparse
import collections
import os
import re
import select
import subprocess
import sys
import tempfile
import threading
import time

sys.dont_write_bytecode = True
sys.path[:0] = [os.path.dirname(os.path.abspath(__file__))]
import journal_model
import rows
from format_model import Refused
from live_nodes import GATE, Node, Queues, gate_words
from ltp_model import Policy

PROGRAM = os.path.join(rows.ROOT, "crates", "bundle_cli", "out", "bundle_cli")
TABLE = os.path.join(rows.ROOT, "crates", "console", "src", "table.rt")
MEMORY = 7
UNWATCHED = 5
LARGEST = 20_000        # octets of a row's input
SECONDS = 60
TURNS = "1000000"       # of `serve`, which is stopped before
POLICY = Policy(1024, 30_000, 10, 30_000)       # of the nodes: nothing is sent twice
# Of version 6 and 7, with the longest life that version 6 has; and one that asks for custody, with its report.
SIX = bytes.fromhex("0681101102010101000000008768058fffffff7f00010803616263")
SEVEN = bytes.fromhex("9f88070000820282010182028202018202820201821a000f4245001b000003e7ffffffff850101000043616263ff")
CUSTODY = bytes.fromhex("06908118110201010101010000" "8768058fffffff7f00010803616263")
# What a run's face says where a block of its own is claimed.
SENT = {"serve": "note g\\.[on] Sent ", "gate": '"event":"sent"'}

LIBRARY = r"""
#include <errno.h>
#include <fcntl.h>
#include <stdlib.h>
#include <sys/mman.h>
#include <unistd.h>

/* How many calls there were, which one is refused, counted from 1, and whether each later one is too. */
static unsigned long here, *asked = &here, refused;
static int is_begun, is_lasting;

/* The count stands in the file that is named, also where the program is stopped. */
static void begin(void) {
    const char *at = getenv("REFUSED_GROWTH"), *name = getenv("REFUSED_TOLD");
    int file = name ? open(name, O_RDWR) : -1;
    void *told = file < 0 ? MAP_FAILED : mmap(0, sizeof here, PROT_READ | PROT_WRITE, MAP_SHARED, file, 0);
    if (file >= 0) close(file);
    if (told != MAP_FAILED) asked = told;
    refused = at ? strtoul(at, 0, 10) : 0;
    is_lasting = getenv("REFUSED_FROM_THEN_ON") != 0;
    is_begun = 1;
}

static int is_refused(void) {
    if (!is_begun) begin();
    *asked += 1;
    if (!refused || *asked < refused || (*asked > refused && !is_lasting)) return 0;
    errno = ENOMEM;
    return 1;
}

extern void *__libc_malloc(size_t), *__libc_calloc(size_t, size_t);
extern void *__libc_realloc(void *, size_t), *__libc_memalign(size_t, size_t);

void *malloc(size_t size) { return is_refused() ? 0 : __libc_malloc(size); }
void *calloc(size_t count, size_t size) { return is_refused() ? 0 : __libc_calloc(count, size); }
void *realloc(void *old, size_t size) { return is_refused() ? 0 : __libc_realloc(old, size); }
void *memalign(size_t align, size_t size) { return is_refused() ? 0 : __libc_memalign(align, size); }
void *aligned_alloc(size_t align, size_t size) { return memalign(align, size); }

int posix_memalign(void **found, size_t align, size_t size) {
    void *room = memalign(align, size);
    if (!room) return ENOMEM;
    *found = room;
    return 0;
}
"""


# What the clock says in a line: its own moment, and when a bundle was made.
MOMENTS = re.compile(rb'"(at|creation)":(?:"[^"]*"|\[[^]]*\])')


class Trial:
    """The program, what refuses it memory, and a folder for both."""

    def __init__(self, program, folder, is_lasting):
        self.program, self.is_lasting = program, is_lasting
        self.library, self.told = os.path.join(folder, "refusing.so"), os.path.join(folder, "told")
        source = os.path.join(folder, "refusing.c")
        with open(source, "w", encoding="ascii") as file:
            file.write(LIBRARY)
        subprocess.run(["cc", "-O2", "-shared", "-fPIC", "-o", self.library, source], check=True)

    def outside(self, growth):
        """The environment of a run in which this growth is refused; none where it is 0."""
        with open(self.told, "wb") as file:
            file.write(bytes(8))
        found = dict(os.environ, LD_PRELOAD=self.library, REFUSED_TOLD=self.told, REFUSED_GROWTH=str(growth))
        if self.is_lasting:
            found["REFUSED_FROM_THEN_ON"] = "1"
        return found

    def growths(self):
        """How many calls for memory the last run made."""
        with open(self.told, "rb") as file:
            return int.from_bytes(file.read(), sys.byteorder)

    def run(self, row, growth):
        """The status of a run, and what it wrote."""
        ended = subprocess.run([self.program, *row.words], input=row.given(), stdout=subprocess.PIPE,
                               stderr=subprocess.DEVNULL, env=self.outside(growth), timeout=SECONDS, check=False)
        return ended.returncode, ended.stdout


class Played(rows.Row):
    """A run of `serve` or of `gate`: the blocks that come, each with the node that sends it; what its journal holds at
    the start, none where it has no journal; the lines that end the wait after each block; and the nodes that answer."""

    def __init__(self, name, word, blocks, journal=None, until=None, answering=(0, 1)):
        super().__init__(name, [word.encode()])
        self.word, self.blocks, self.journal, self.answering = word, blocks, journal, answering
        self.until = re.compile((until or SENT[word]).encode())


class PlayedTrial(Trial):
    """Runs of `serve` and of `gate` between two nodes that are played."""

    def run(self, row, growth):
        """The status of a run, none where it was stopped, and what it wrote."""
        with tempfile.TemporaryDirectory() as folder:
            nodes = [Node(numbers, "127.0.0.1", Queues(False), POLICY) for numbers in ((1, 2), (4, 3))]
            try:
                ended = self.played(row, nodes, words_of(row, nodes, folder), growth)
            finally:
                for node in nodes:
                    node.socket.close()
            self.kept = read_journal(row, os.path.join(folder, "journal"))
        return ended

    def played(self, row, nodes, words, growth):
        with subprocess.Popen([self.program, *words], stdin=subprocess.DEVNULL, stdout=subprocess.PIPE,
                              stderr=subprocess.PIPE, env=self.outside(growth)) as child:
            # (its first line says that both sockets are bound; nothing comes where it ended before)
            is_bound = bool((child.stderr if row.word == "serve" else child.stdout).readline())
            said = []
            reader = threading.Thread(target=lambda: [said.append(line) for line in child.stdout], daemon=True)
            reader.start()
            is_told = is_bound and play(row, nodes, said, reader)
            if is_told or reader.is_alive() and is_bound:
                child.terminate()
            reader.join()
            status = child.wait()
        return None if is_told else status, MOMENTS.sub(rb'"\1":""', b"".join(said))


def words_of(row, nodes, folder):
    """The words of a played run."""
    if row.word == "serve":
        return ["serve", GATE, *(it for node in nodes for it in (node.gate_address, node.address)), TURNS]
    more = f'metrics = "{folder}/metrics"\n'
    if row.journal is not None:
        more += f'journal = "{folder}/journal"\n'
    if row.journal:
        with open(os.path.join(folder, "journal"), "wb") as file:
            file.write(row.journal)
    return gate_words(os.path.join(folder, "gate.toml"), nodes, more, ("first_session = 1\n",) * 2)


def play(row, nodes, said, reader):
    """Sends the blocks of a row in turn, and lets the nodes answer until the lines tell of each: whether they did."""
    until = time.monotonic() + SECONDS
    for count, (at, block) in enumerate(row.blocks, 1):
        if block:
            nodes[at].submit(block)
            nodes[at].send()
        while sum(bool(row.until.search(line)) for line in list(said)) < count:
            if not reader.is_alive() or time.monotonic() > until:
                return False
            if not any([nodes[it].pump() for it in row.answering]):
                select.select([nodes[it].socket for it in row.answering], [], [], 0.005)
    return True


def read_journal(row, path):
    """What a run left in its journal, which the next one must be able to read."""
    if not os.path.exists(path):
        return b""
    with open(path, "rb") as file:
        octets = file.read()
    try:
        if octets:
            journal_model.read(octets)
    except Refused as damage:
        sys.exit(f"refused_growths: {row.name}: its journal is damaged: {damage}")
    return octets


def played_rows(program, folder):
    """The runs of `serve` and of `gate`."""
    blocks = ((0, SIX), (1, SEVEN), (0, CUSTODY))
    trial = PlayedTrial(program, folder, False)
    trial.run(Played("a piece is left", "gate", blocks[:1], b"", '"event":"passed"', (0,)), 0)
    left = trial.kept
    return {"serve": [Played("bundles pass", "serve", blocks)],
            "gate": [Played("bundles pass", "gate", blocks),
                     Played("they pass, with a journal", "gate", blocks, b""),
                     Played("a piece of an earlier run goes", "gate", ((0, None),), left)]}


def spread(found, count):
    """So many of a list, spread over it."""
    return found if len(found) <= count else [found[at * len(found) // count] for at in range(count)]


def rows_by_command():
    """The rows of each command that read standard input to its end and write to a file."""
    found = collections.defaultdict(list)
    for path in rows.files():
        for row in rows.rows_of(path):
            words = [word.decode("utf-8", "replace") for word in row.words] or [""]
            command = " ".join(words[:2]) if words[0] == "gate" else words[0]
            if re.fullmatch("[a-z]+|gate check", command) and row.source is None and row.sink is None and \
                    command not in ("serve", "gate") and len(row.given()) <= LARGEST and row.status in (0, 1, 6):
                found[command].append(row)
    return found


def commands():
    """The commands of the program's table."""
    with open(TABLE, encoding="utf-8") as file:
        return re.findall(r'(?m)^        word: "(\w+)",$', file.read())


def is_unwatched(row, status, said):
    """Whether a run of `gate` ended before its first line, since the system had no memory to watch its sockets."""
    return isinstance(row, Played) and row.word == "gate" and status == UNWATCHED and not said


def tried(trial, row, most):
    """How many growths of a row were refused, how many ended with status 7, and what was wrong."""
    status, output = trial.run(row, 0)
    growths, wrong, ended = trial.growths(), [], 0
    if isinstance(row, Played) and status is not None:
        wrong.append(f"{row.name}: status {status} where nothing is refused")
    for growth in range(1, min(growths, most) + 1):
        found, said = trial.run(row, growth)
        if found == MEMORY and output.startswith(said) or is_unwatched(row, found, said):
            ended += 1
        elif (found, said) != (status, output):
            wrong.append(f"{row.name}: growth {growth} of {growths}: status {found}, {said[-80:]!r}")
    return min(growths, most), ended, wrong


def main():
    parser = argparse.ArgumentParser(description=__doc__, formatter_class=argparse.RawDescriptionHelpFormatter)
    parser.add_argument("--rows", type=int, default=12)
    parser.add_argument("--growths", type=int, default=1000)
    parser.add_argument("--from-then-on", action="store_true")
    parser.add_argument("words", nargs="*", metavar="PROGRAM | COMMAND")
    given = parser.parse_args()
    program = PROGRAM
    if given.words and "/" in given.words[0]:
        program = os.path.abspath(given.words.pop(0))
    if not os.access(program, os.X_OK):
        sys.exit(f"{program} isn't there: run ./fimdahol --build first, or name a program as the first argument")
    bad = 0
    with tempfile.TemporaryDirectory() as folder:
        by_command = {**rows_by_command(), **played_rows(program, folder)}
        for command in [*given.words, *commands()]:
            if command not in by_command:
                sys.exit(f"refused_growths: no rows of {command}")
        for command in given.words or sorted(by_command):
            trial = (PlayedTrial if command in SENT else Trial)(program, folder, given.from_then_on)
            chosen = spread(by_command[command], given.rows)
            counts = [tried(trial, row, given.growths) for row in chosen]
            wrong = [line for _, _, lines in counts for line in lines]
            print(f"{command}: {sum(it for it, _, _ in counts)} growths refused in {len(chosen)} runs, "
                  f"{sum(it for _, it, _ in counts)} ended with status 7, {len(wrong)} wrong", flush=True)
            for line in wrong[:10]:
                print(f"    {line}")
            bad += len(wrong)
    return 1 if bad else 0


if __name__ == "__main__":
    sys.exit(main())
