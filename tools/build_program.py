#!/usr/bin/env python3
"""Proves and builds the program, and says how far it is.

usage: tools/build_program.py            a line that is rewritten on a terminal, else a line a crate
       tools/build_program.py --say      how long that takes here; nothing is built

`rt lib` locks a crate and all that it stands on, so that one clone proves one crate at a time. Here
each lane is a copy of the sources, which gets the libraries that are built by hard links; a crate
is proved in a lane once those below it are built, the longest chain of crates first, and gets the
processors that no other crate can use. Lanes stand in .git, where neither git nor `rt ci` looks.
What a crate's proof kept is moved back into the clone, also where the build is interrupted, so the
next one goes on there.
"""
import contextlib
import fcntl
import os
import shutil
import signal
import subprocess
import sys
import tempfile
import time

sys.dont_write_bytecode = True
from machine import free_memory, processors

ROOT = os.path.dirname(os.path.dirname(os.path.abspath(__file__)))
PROGRAM = "bundle_cli"
PARTS = ("src", "specs", "proofs")
MOST_JOBS = 4          # of one crate: more gain little
EACH = 70              # lines that a crate's libraries cost, which are loaded
PACE = 0.135           # seconds of one processor for a line of code, until something was proved
GIVEN_UP = 9


# ---- the crates ----

def listed():
    """The crates of crates.txt, each with those of them that it names."""
    with open(os.path.join(ROOT, "crates.txt"), encoding="utf-8") as file:
        lines = [line.partition("#")[0].partition(":") for line in file]
    named = {head.split()[0]: tail.split() for head, _, tail in lines if head.strip()}
    return {name: [it for it in deps if it in named] for name, deps in named.items()}


def below(crates, name):
    """All crates that a crate stands on."""
    found = set(crates[name])
    for it in crates[name]:
        found |= below(crates, it)
    return found


def files_of(name):
    for part in PARTS:
        for at, _, names in os.walk(os.path.join(ROOT, "crates", name, part)):
            yield from (os.path.join(at, it) for it in names if it.endswith((".rt", ".antt")))


def lines_of(name):
    """A crate's lines of code: its functions take the time, and definitions and lemmas little."""
    total = EACH
    for path in files_of(name):
        if path.endswith(".rt"):
            with open(path, "rb") as file:
                total += file.read().count(b"\n")
    return total


def out(name, *parts):
    return os.path.join(ROOT, "crates", name, "out", *parts)


def made_at(name):
    """When a crate's library, or the program, was built; 0 where it wasn't."""
    path = out(name, name) if name == PROGRAM else out(name, "rlib", "stamp")
    return os.stat(path).st_mtime if os.path.exists(path) else 0


class Crates:
    """The crates of the program: how they stand on one another, and how large they are."""

    def __init__(self):
        named = listed()
        self.below = {name: below(named, name) for name in below(named, PROGRAM) | {PROGRAM}}
        self.lines = {name: lines_of(name) for name in self.below}
        self.chain = {}
        for name in sorted(self.below, key=lambda it: -len(self.below[it])):
            above = [self.chain[it] for it in self.chain if name in self.below[it]]
            self.chain[name] = self.lines[name] + max(above, default=0)

    def built(self):
        """The crates that are newer than all they are made of. rt looks closer, where one isn't."""
        found = set()
        listing = os.stat(os.path.join(ROOT, "crates.txt")).st_mtime
        for name in sorted(self.below, key=lambda it: len(self.below[it])):
            made = made_at(name)
            parts = [os.stat(path).st_mtime for path in files_of(name)] + [listing]
            parts += map(made_at, self.below[name])
            if made and self.below[name] <= found and max(parts) <= made:
                found.add(name)
        return found

    def memory(self, name, jobs):
        """What the proof of a crate takes at most, in bytes, as seen: it loads the libraries.
        (rt alone reckons 1.2 MB for each of their lines, and so gives the crates at the top one
        job each.)"""
        under = sum(self.lines[it] for it in self.below[name])
        each = 900_000_000 + 80_000 * under + 200_000 * self.lines[name]
        return each * (1 + 0.6 * (jobs - 1))

    def jobs(self, name, spare, memory):
        """The jobs for a crate, at least one, where so many processors and so much memory are
        to spare."""
        jobs = max(1, min(MOST_JOBS, spare))
        while jobs > 1 and self.memory(name, jobs) > memory:
            jobs -= 1
        return jobs


# ---- lanes ----

def link_or_copy(source, target):
    try:
        os.link(source, target)
    except OSError:
        shutil.copy2(source, target)


def moved(source, target):
    """Moves a folder over another one, where it is there."""
    if os.path.isdir(source):
        shutil.rmtree(target, ignore_errors=True)
        os.makedirs(os.path.dirname(target), exist_ok=True)
        shutil.move(source, target)


@contextlib.contextmanager
def alone_in(name):
    """Keeps other rt commands out of a crate's folder."""
    folder = os.open(os.path.join(ROOT, "crates", name), os.O_RDONLY)
    try:
        with contextlib.suppress(OSError):
            fcntl.flock(folder, fcntl.LOCK_EX)
        yield
    finally:
        os.close(folder)


class Lane:
    """A copy of the sources, in which one crate at a time is proved."""

    def __init__(self, at):
        self.at, self.crate, self.run, self.jobs = at, None, None, 0
        for name in ("crates.txt", "HANDLES"):
            shutil.copy2(os.path.join(ROOT, name), os.path.join(at, name))
        for name in os.listdir(os.path.join(ROOT, "crates")):
            for part in PARTS:
                source = os.path.join(ROOT, "crates", name, part)
                if os.path.isdir(source):
                    shutil.copytree(source, os.path.join(at, "crates", name, part))

    def out(self, name, *parts):
        return os.path.join(self.at, "crates", name, "out", *parts)

    def log(self):
        return os.path.join(self.at, "log")

    def begin(self, name, libraries, jobs):
        """Begins to prove a crate over these libraries."""
        for it in libraries:
            if not os.path.isdir(self.out(it, "rlib")):
                shutil.copytree(out(it, "rlib"), self.out(it, "rlib"), copy_function=link_or_copy)
        with alone_in(name):
            for part in ("rlib", "incremental"):
                moved(out(name, part), self.out(name, part))
        self.crate, self.jobs, self.since = name, jobs, time.monotonic()
        with open(self.log(), "wb") as log:
            self.run = subprocess.Popen(
                ["rt", "lib", "--jobs", str(jobs)], cwd=os.path.join(self.at, "crates", name),
                stdin=subprocess.DEVNULL, stdout=log, stderr=log, start_new_session=True)

    def ended(self):
        """The status of the run, or None while it is under way. What it made is moved."""
        status = self.run.poll()
        if status is not None:
            give_back(self.at, self.crate)
        return status

    def stop(self):
        """Ends the run, and keeps what it proved."""
        with contextlib.suppress(ProcessLookupError):
            os.killpg(self.run.pid, signal.SIGTERM)
        self.run.wait()
        give_back(self.at, self.crate)


def give_back(lane, name):
    """Moves what a lane kept of a crate into the clone; a library only where it is whole."""
    made = os.path.join(lane, "crates", name, "out")
    with alone_in(name):
        if os.path.exists(os.path.join(made, "rlib", "stamp")):
            moved(os.path.join(made, "rlib"), out(name, "rlib"))
            os.utime(out(name, "rlib", "stamp"))
        moved(os.path.join(made, "incremental"), out(name, "incremental"))
    shutil.rmtree(made, ignore_errors=True)


def git_folder():
    """The folder of git, in a worktree too; out/ where the sources came without it."""
    git = os.path.join(ROOT, ".git")
    if os.path.isfile(git):
        with open(git, encoding="utf-8") as file:
            git = os.path.join(ROOT, file.read().partition("gitdir: ")[2].strip())
    return git if os.path.isdir(git) else os.path.join(ROOT, "out")


@contextlib.contextmanager
def alone():
    """Waits till no other build is under way in this clone."""
    held = os.open(os.path.join(ROOT, "crates"), os.O_RDONLY)
    try:
        fcntl.flock(held, fcntl.LOCK_EX | fcntl.LOCK_NB)
    except BlockingIOError:
        tell("waits for another build in this clone")
        fcntl.flock(held, fcntl.LOCK_EX)
    try:
        yield
    finally:
        os.close(held)


@contextlib.contextmanager
def room_for_lanes():
    """A folder for lanes, on the clone's own disk, which it is removed from again."""
    room = os.path.join(git_folder(), "fimdahol-build")
    os.makedirs(room, exist_ok=True)
    try:
        # What a build left that was killed.
        for lane in os.listdir(room):
            crates = os.path.join(room, lane, "crates")
            for name in os.listdir(crates) if os.path.isdir(crates) else ():
                if os.path.isdir(os.path.join(crates, name, "out", "incremental")):
                    give_back(os.path.join(room, lane), name)
            shutil.rmtree(os.path.join(room, lane), ignore_errors=True)
        yield room
    finally:
        shutil.rmtree(room, ignore_errors=True)


# ---- progress ----

def tell(line):
    if sys.stderr.isatty():
        sys.stderr.write("\r\033[K")
    print(f"fimdahol: {line}", file=sys.stderr, flush=True)


def minutes(seconds):
    """Seconds, told in minutes."""
    count = max(1, round(seconds / 60))
    return f"{count} minute{'s' * (count > 1)}"


class Progress:
    """How far a build is, and how long the rest will take by the pace so far."""

    def __init__(self, crates, done, lanes):
        self.crates, self.done, self.lanes = crates, done, lanes
        self.began, self.lines, self.seconds, self.shown = time.monotonic(), 0, 0, 0

    def left(self):
        """The seconds that are left: all lines by all lanes, and the longest chain by one."""
        pace = self.seconds / self.lines if self.lines > 2000 else PACE
        rest = [it for it in self.crates.below if it not in self.done]
        lines = sum(self.crates.lines[it] for it in rest)
        chain = max((self.crates.chain[it] for it in rest), default=0)
        return pace * max(lines / self.lanes, chain * 0.6)

    def add(self, name, seconds, jobs):
        """Counts a crate. One that took no time, since rt found it in another clone, says nothing
        of the pace."""
        self.done.add(name)
        if 3 * seconds * jobs > PACE * self.crates.lines[name]:
            self.lines += self.crates.lines[name]
            self.seconds += seconds * jobs
        if not sys.stderr.isatty():
            tell(f"proved {name}, {self}")

    def __str__(self):
        past, left = ((time.monotonic() - self.began) / 60, self.left() / 60)
        rest = f"about {max(1, round(left))} left" if left else "none left"
        return f"{len(self.done)} of {len(self.crates.below)} crates, {round(past)} min, {rest}"

    def show(self, names):
        """Rewrites the line of a terminal, twice a second."""
        if sys.stderr.isatty() and time.monotonic() > self.shown + 0.5:
            self.shown = time.monotonic()
            count, _, rest = str(self).partition(" crates, ")
            under_way = f"{', '.join(names)} under way, " if names else ""
            line = f"proved {count} crates, {under_way}{rest}"
            # (Python before 3.11 says 0 of a terminal that doesn't tell its width)
            width = (shutil.get_terminal_size().columns or 80) - 1
            sys.stderr.write(f"\r{line[:width]}\033[K")
            sys.stderr.flush()


# ---- building ----

def fail(path, name):
    """Ends since a crate wasn't built, with what was said of it last."""
    with open(path, encoding="utf-8", errors="replace") as log:
        lines = log.read().splitlines()[-20:]
    tell(f"{name} wasn't proved; the last that was said of it:")
    print("\n".join(lines), file=sys.stderr)
    sys.exit(GIVEN_UP)


def begin_ready(crates, idle, busy, done, memory):
    """Begins to prove crates that can be: as many as lanes and memory hold."""
    under_way = {lane.crate for lane in busy}
    ready = [it for it in crates.below if it not in done and it not in under_way
             and it != PROGRAM and crates.below[it] <= done]
    ready.sort(key=lambda it: -crates.chain[it])
    for at, name in enumerate(ready):
        spare = len(idle) + len(busy) - sum(lane.jobs for lane in busy)
        room = memory - sum(crates.memory(lane.crate, lane.jobs) for lane in busy)
        jobs = crates.jobs(name, spare // (len(ready) - at), room)
        if spare < 1 or busy and crates.memory(name, jobs) > room:
            return
        lane = idle.pop()
        busy.append(lane)
        lane.begin(name, crates.below[name], jobs)


def prove(crates, progress, idle, memory):
    """Proves and builds all libraries that aren't built."""
    busy = []
    try:
        while len(progress.done) + 1 < len(crates.below):
            begin_ready(crates, idle, busy, progress.done, memory)
            time.sleep(0.2)
            for lane in [*busy]:
                status = lane.ended()
                if status is None:
                    continue
                busy.remove(lane)
                idle.append(lane)
                if status:
                    fail(lane.log(), lane.crate)
                progress.add(lane.crate, time.monotonic() - lane.since, lane.jobs)
            progress.show([lane.crate for lane in busy])
    finally:
        for lane in busy:
            lane.stop()


def link_program(room, progress, jobs):
    """Proves and builds the program itself, over its libraries."""
    log = os.path.join(room, "log")
    words = ["rt", "run", "--jobs", str(jobs), "--", "--version"]
    with open(log, "wb") as file:
        run = subprocess.Popen(
            words, cwd=os.path.join(ROOT, "crates", PROGRAM), stdin=subprocess.DEVNULL,
            stdout=file, stderr=file, start_new_session=True)
    try:
        while run.poll() is None:
            progress.show([PROGRAM])
            time.sleep(0.2)
    finally:
        if run.poll() is None:
            os.killpg(run.pid, signal.SIGTERM)
            run.wait()
    if run.returncode:
        fail(log, PROGRAM)
    os.utime(out(PROGRAM, PROGRAM))
    with open(out(PROGRAM, "kit"), "wb") as kit:
        subprocess.run(["rt", "version"], stdout=kit, check=True)
    progress.add(PROGRAM, 0, 1)


def build(crates):
    done, lanes = crates.built(), processors()
    if len(done) == len(crates.below):
        return tell("the program is built")
    progress = Progress(crates, done, lanes)
    tell(f"proves {len(crates.below) - len(done)} of {len(crates.below)} crates, at most {lanes} "
         f"at a time, in about {minutes(progress.left())}; an interrupted build goes on where it "
         "was")
    with room_for_lanes() as room:
        idle = [Lane(tempfile.mkdtemp(prefix="lane-", dir=room)) for _ in range(lanes)]
        prove(crates, progress, idle, 0.85 * free_memory())
        link_program(room, progress, crates.jobs(PROGRAM, lanes, 0.85 * free_memory()))
    past = time.monotonic() - progress.began
    return tell(f"the program is proved and built, after {minutes(past)}")


def main(words):
    crates = Crates()
    if words == ["--say"]:
        lanes = processors()
        left = Progress(crates, crates.built(), lanes).left()
        print(f"about {minutes(left)} on {lanes} processor{'s' * (lanes > 1)}")
    elif words:
        sys.exit("usage: tools/build_program.py [--say]")
    else:
        # Where a build is told to end, it ends what it began.
        signal.signal(signal.SIGTERM, lambda number, _: sys.exit(128 + number))
        signal.signal(signal.SIGHUP, lambda number, _: sys.exit(128 + number))
        try:
            with alone():
                build(crates)
        except KeyboardInterrupt:
            tell("interrupted; what is proved is kept, and the next build goes on there")
            sys.exit(130)


if __name__ == "__main__":
    main(sys.argv[1:])
