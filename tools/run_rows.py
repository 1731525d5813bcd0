"""Runs rows against a built program."""
import fcntl
import os
import struct
import subprocess
import tempfile
import termios
import threading
import time

from rows import departs

SECONDS = 60


def wait_till_taken(pipe, process):
    """Waits till nothing is left in a pipe, or the program has ended."""
    room = bytearray(4)
    while process.poll() is None:
        fcntl.ioctl(pipe, termios.FIONREAD, room)
        if struct.unpack("i", room)[0] == 0:
            return
        time.sleep(0.00005)


def feed(pipe, end, process, octets, size):
    """Gives octets to a pipe, so many at a time, and closes it."""
    try:
        for at in range(0, len(octets), size):
            os.write(end, octets[at:at + size])
            wait_till_taken(pipe, process)
    except BrokenPipeError:
        pass
    os.close(end)


def sink_of(row):
    """What standard output is, and what the run's caller has to close."""
    if row.sink == "full":
        return os.open("/dev/full", os.O_WRONLY)
    if row.sink == "nobody":
        reader, end = os.pipe()
        os.close(reader)
        return end
    return None


def closing(row):
    """What is done in the child before the program begins, where something is to be closed."""
    ends = [number for number, what in ((0, row.source), (1, row.sink)) if what == "closed"]
    return (lambda: [os.close(end) for end in ends]) if ends else None


def run(program, row):
    """Runs a row: the status, what was written, and standard error."""
    sink = sink_of(row)
    with tempfile.TemporaryFile() as file:
        pieces = row.source.startswith("pieces ") if row.source else False
        pipe, end = os.pipe() if pieces else (None, None)
        if not pieces:
            file.write(row.given())
            file.seek(0)
        source = pipe if pieces else os.open("/", os.O_RDONLY) if row.source == "folder" else file.fileno()
        process = subprocess.Popen([program, *row.words], stdin=source, stderr=subprocess.PIPE,
                                   stdout=subprocess.PIPE if sink is None else sink, preexec_fn=closing(row))
        if pieces:
            size = int(row.source.split()[1])
            threading.Thread(target=feed, args=(pipe, end, process, row.given(), size), daemon=True).start()
        try:
            output, errors = process.communicate(timeout=SECONDS)
        except subprocess.TimeoutExpired:
            process.kill()
            output, errors = process.communicate()
            errors += b"rows: it didn't end\n"
        for used in (sink, None if source == file.fileno() else source):
            if used is not None:
                os.close(used)
    return process.returncode, output or b"", errors


def answers(program, rows):
    """Each row, and what its run does that it shouldn't, in lines."""
    for row in rows:
        yield row, departs(row, *run(program, row))
