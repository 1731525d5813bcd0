"""Runs rows on the unproved program: `rt try --cases` compiles it with checks, and runs it once for
each row.

A run takes half a second beside the program's own time, so there are as many `rt try` side by side
as processors and memory allow, each with its share of the rows. What such a run can't be given, or
can't answer in seconds, is told with its reason: it is for the built program alone.
"""
import os
import re
import subprocess
import tempfile
from concurrent.futures import ThreadPoolExecutor

from machine import free_memory, processors
from rows import ROOT, departs

# The program, that without sockets, and that with the commands that decode alone; what compiling each takes, and a
# row, in seconds of a processor.
WHOLE, STREAMS, DECODERS = (
    os.path.join(ROOT, "crates", name) for name in ("bundle_cli", "stream_cli", "decoding_cli"))
COMPILED, EACH = {WHOLE: 220, STREAMS: 75, DECODERS: 30}, 0.4
WITH_SOCKETS = (b"serve", b"gate")
DECODES = (b"receive", b"check", b"show", b"convert", b"cut", b"join")
FEWEST = 3                 # processors; with fewer the program with sockets would be most of the wait
MOST_SIDE_BY_SIDE = 4
MEMORY = 2_500_000_000     # of one `rt try`, most of it while the program is compiled
SECONDS = 300              # of one run: beside other work some take more than a minute
MOST_OUTPUT = 1 << 20
MOST_INPUT = 1 << 20       # 8 MiB take half a minute of processor time
BULK = "another program"   # rows so named are a fifth of all, and tell of no rule of their own
ENDED = re.compile(rb"case=(\w+) run=ended status=(\d+) ")
CASE = re.compile(rb"case=(\w+) ")


def needs_sockets(row):
    """Whether the program without sockets has no answer to a row."""
    return row.words[:1] and row.words[0] in WITH_SOCKETS


def programs_of(row):
    """The programs that have an answer to a row."""
    if needs_sockets(row):
        return (WHOLE,)
    return (STREAMS, DECODERS) if row.words[:1] and row.words[0] in DECODES else (STREAMS,)


def reason(row):
    """Why the unproved program can't be run on a row, or None."""
    if needs_sockets(row) and processors() < FEWEST:
        return f"serve and gate are compiled where there are {FEWEST} processors"
    if row.source:
        return f"standard input is from {row.source.split()[0]}"
    if row.sink:
        return f"standard output goes to {row.sink}"
    if len(row.wanted()) > MOST_OUTPUT:
        return "the answer is longer than 1 MiB"
    if len(row.given()) > MOST_INPUT:
        return "the input is longer than 1 MiB"
    if row.name.startswith(BULK):
        return "they are bulk, made by another program"
    if any(b"\n" in word or word == b"{}" for word in row.words):
        return "a word stands on no line"
    return None


def write_case(folder, name, row):
    """Writes a row as a case. With the wanted output beside it standard error wouldn't be shown."""
    words = b"".join(word + b"\n" for word in row.words)
    for ending, octets in (("", row.given()), (".args", words)):
        with open(os.path.join(folder, name + ending), "wb") as file:
            file.write(octets)


def outputs_in(octets, names):
    """What each case wrote, from the output of `rt try`: its name on a line, then its output."""
    found, parts = {}, re.split(rb"^== (\w+)\n", octets, flags=re.M)
    for name, output in zip(parts[1::2], parts[2::2]):
        found[name.decode()] = output
    return {name: found.get(name, b"") for name in names}


def said_of(row, case, output):
    """What a run of a row did that it shouldn't, from the line of its case, what standard error has
    before it, and its output."""
    line, errors = case
    ended = ENDED.match(line)
    if ended:
        return departs(row, int(ended[2]), output, errors)
    told = (errors + line).decode("utf-8", "replace")[-600:]
    return [f"    {part}" for part in told.splitlines()]


def cases_of(run, names, ran):
    """The line of each case, and what standard error has before it, by the case's name."""
    found, said = {}, b""
    for line in run.stderr:
        case = CASE.match(line)
        if case and case[1].decode() in names:
            found[case[1].decode()] = line, said
            said = b""
            ran()
        else:
            said += line
    return found, said


def tried(crate, folder, rows, runs, ran):
    """Each row of the cases in a folder, and what the run of a crate does that it shouldn't, in lines."""
    words = ["rt", "try", "--steps", "1", "--seconds", str(SECONDS), "--cases", folder]
    with tempfile.TemporaryFile() as output:
        run = subprocess.Popen(words, cwd=crate, stdin=subprocess.DEVNULL, stdout=output,
                               stderr=subprocess.PIPE)
        runs.append(run)
        cases, rest = cases_of(run, rows, ran)
        run.wait()
        output.seek(0)
        outputs = outputs_in(output.read(), rows)
    last = [f"    {part}" for part in rest.decode("utf-8", "replace").splitlines()[-5:]]
    for name, row in rows.items():
        if name in cases:
            yield row, said_of(row, cases[name], outputs[name])
        else:
            yield row, ["    it wasn't run:", *last]


def lanes_of(rows, count):
    """The programs that are compiled, one for each of so many runs of `rt try`: those that some row needs, and
    where there is room the small one, once or more."""
    needed = {WHOLE for row in rows if needs_sockets(row)}
    if any(programs_of(row) != (WHOLE,) for row in rows):
        needed.add(STREAMS)
    return [*needed, *[DECODERS] * max(0, count - len(needed))]


def shares_of(rows, count):
    """The rows in shares, by their names, each with the crate that runs it: each row goes to the share that would be
    through first of those that have an answer to it, and those with one such share come first."""
    shares = [(crate, []) for crate in lanes_of(rows, count)]
    ends = [COMPILED[crate] for crate, _ in shares]
    for row in sorted(rows, key=lambda it: len(programs_of(it))):
        able = [at for at, (crate, _) in enumerate(shares) if crate in programs_of(row)]
        at = min(able, key=ends.__getitem__)
        shares[at][1].append(row)
        ends[at] += EACH
    return [(crate, {f"row{at:05}": row for at, row in enumerate(part)})
            for crate, part in shares if part]


def answers(rows, ran):
    """Each row, and what its run does that it shouldn't, in lines. It calls ran for each run."""
    count = max(1, min(MOST_SIDE_BY_SIDE, processors(), free_memory() // MEMORY, len(rows)))
    runs, room = [], tempfile.TemporaryDirectory(prefix="fimdahol-rows-")
    with room as folder, ThreadPoolExecutor(count) as pool:
        shares = shares_of(rows, count)
        folders = [os.path.join(folder, str(at)) for at in range(len(shares))]
        for it, (_, share) in zip(folders, shares):
            os.mkdir(it)
            for name, row in share.items():
                write_case(it, name, row)
        try:
            found = [pool.submit(lambda *given: [*tried(*given)], crate, it, share, runs, ran)
                     for it, (crate, share) in zip(folders, shares)]
            for answered in found:
                yield from answered.result()
        finally:
            for run in runs:
                run.terminate()
