r"""The rows of rows/: runs of the program as text. It reads them, and makes more from seeds.

A file holds the rows of one command, its name. A row is a paragraph; a line that begins with '#' is a remark.

  row NAME                    begins a row
  words WORD..                the program's words, in which \xNN is an octet and \e none; without it the file's name.
                              Before a row it gives the words of the rows that follow and have none
  line TEXT                   input: a text and a line feed
  text TEXT                   input: a text
  hex OCTETS                  input: octets
  from folder | closed        standard input is a folder, or is closed
  from pieces COUNT           standard input gives so many octets at a time, each once the last ones were taken
  to full | closed | nobody   standard output is /dev/full, is closed, or is a pipe whose reader has gone
  out TEXT                    a line that is written
  part TEXT                   a part of a line that is written
  err TEXT                    the one line on standard error; without TEXT any that begins with the program's name.
                              A row that has no 'err' wants none where the status is 0 and there is input, and else at most
                              one such: what a refused input looks like is told in rows/mistakes
  status NUMBER               how the run ends, and the end of the row

'repeat COUNT' before an input or an output gives it so many times, and 'count FROM TO' once for each number: '{n}' is
the number in decimal, '{x}' in two hex digits. A table has a row in each line, up to an empty line:

  table lines|hex STATUS NAME
  INPUT = OUTPUT              lines are parted by ' / ', each with its line feed
"""
import itertools
import os
import re
import sys

sys.dont_write_bytecode = True
ROOT = os.path.dirname(os.path.dirname(os.path.abspath(__file__)))
ROWS = os.path.join(ROOT, "rows")
sys.path.insert(0, os.path.join(ROOT, "tools"))
import audit_model
import format_model
import fragment_model
import gateway_model
import link_model
import ltp_model
import make_scripts
import pick_model
import translate_model
from make_inputs import made

DONE = 0


class Row:
    """What a run is given, and how it is to end."""

    def __init__(self, name, words):
        self.name, self.words = name, words
        self.input, self.output = [], []
        self.source = self.sink = self.error = self.status = None

    def given(self):
        return b"".join(self.input)

    def wanted(self):
        return b"".join(self.output)


# ---- reading ----

def word_of(text):
    """A word of a call, in which \\xNN stands for an octet and \\e for none."""
    text = text.replace("\\e", "").encode()
    return re.sub(rb"\\x([0-9a-f]{2})", lambda found: bytes.fromhex(found[1].decode()), text)


def octets_of(kind, text):
    return bytes.fromhex(text) if kind == "hex" else text.encode() + (b"\n" if kind in ("line", "out") else b"")


def times(line):
    """A line's kind and what it gives: 'repeat' and 'count' are spelled out."""
    kind, _, rest = line.partition(" ")
    if kind == "repeat":
        count, kind, rest = (rest.split(" ", 2) + [""])[:3]
        return kind, octets_of(kind, rest) * int(count)
    if kind == "count":
        first, last, kind, rest = (rest.split(" ", 3) + [""])[:4]
        numbers = range(int(first), int(last) + 1)
        if kind in ("hex", "line", "out", "part") and "{n}" not in rest:
            return kind, b"".join(octets_of(kind, rest.replace("{x}", f"{n:02x}")) for n in numbers)
        before, _, after = rest.partition("{n}")
        before, after = octets_of("text", before), octets_of(kind, after)
        return kind, b"".join(b"%s%d%s" % (before, n, after) for n in numbers)
    return kind, rest if kind not in ("line", "text", "hex", "out", "part") else octets_of(kind, rest)


def put(row, kind, rest):
    """Adds a line to a row."""
    if kind in ("line", "text", "hex"):
        row.input.append(rest)
    elif kind in ("out", "part"):
        row.output.append(rest)
    elif kind == "words":
        row.words = words_of(rest)
    elif kind == "from":
        row.source = rest
    elif kind == "to":
        row.sink = rest
    elif kind == "err":
        row.error = rest
    elif kind == "status":
        row.status = int(rest)
    else:
        raise ValueError(f"'{kind}' begins no line of a row")


def words_of(texts):
    """The words of a call, from a line that gives them."""
    return [word_of(word) for word in texts.split()]


def row_of_table(line, head, at, words):
    """The row that a line of a table is."""
    _, kind, status, name = head.split(" ", 3)
    given, parted, wanted = line.partition(" =")
    if kind not in ("lines", "hex") or not parted:
        raise ValueError(f"'{line}' is no row of a table")
    row = Row(f"{name}, {at}", words)
    inputs = given.split(" / ") if kind == "lines" else [given]
    row.input = [octets_of("line" if kind == "lines" else "hex", text) for text in inputs]
    row.output = [octets_of("out", text) for text in wanted.strip().split(" / ") if text]
    row.status = int(status)
    return row


def rows_of(path):
    """The rows of a file."""
    command = os.path.basename(path)
    words = [command.encode()]
    row = head = None
    with open(path, encoding="utf-8", newline="\n") as file:
        for number, line in enumerate(file, 1):
            line = line.rstrip("\n")
            where = f"{command}:{number}"
            try:
                if not line or line.startswith("#"):
                    head = None if not line else head
                elif line.startswith("table "):
                    head = line
                elif head:
                    yield row_of_table(line, head, where, words)
                elif row is None and line.startswith("words "):
                    words = words_of(line[len("words "):])
                elif line.startswith("row ") != (row is None):
                    raise ValueError("this line stands in no row" if row is None else f"'{row.name}' has no status")
                elif row is None:
                    row = Row(f"{line[4:]}, {where}", words)
                else:
                    put(row, *times(line))
                    if row.status is not None:
                        yield row
                        row = None
            except ValueError as fault:
                sys.exit(f"rows: {where}: {fault}")
    if row is not None:
        sys.exit(f"rows: {command}: '{row.name}' has no status")


def made_rows(seed, count):
    """Rows whose input is made, and whose output is the model's."""
    for at, (command, octets) in enumerate(made(int(seed), int(count)), 1):
        row = Row(f"made {command} {at} of seed {seed}: {octets[:60].hex()}..", [command.encode()])
        text, row.status = format_model.answer(command, octets)
        row.input, row.output = [octets], [text]
        yield row


def made_translations(seed, count):
    """Rows whose input is a made bundle, and whose output is its translation by the model."""
    for at, octets in enumerate(translate_model.makes(int(count), int(seed)), 1):
        row = Row(f"made convert {at} of seed {seed}: {octets[:60].hex()}..", [b"convert"])
        lines, row.status = translate_model.answer(octets, translate_model.translated)
        row.input, row.output = [octets], [line.encode() + b"\n" for line in lines]
        yield row


def made_scripts(seed, count):
    """Rows whose input is a made script of `node`, and whose output is the model's."""
    for at, (own, peer, octets) in enumerate(ltp_model.made(int(seed), int(count)), 1):
        row = Row(f"made node {at} of seed {seed}: {octets[:60].decode()}..", [b"node", b"%d" % own, b"%d" % peer])
        text, row.status = ltp_model.answer(own, peer, octets)
        row.input, row.output = [octets], [text]
        yield row


def made_fragments(seed, count):
    """Rows of `cut` and of `join`, of bundles that are made."""
    for at, (words, octets) in enumerate(fragment_model.makes(int(count) // 2, int(seed)), 1):
        row = Row(f"made {' '.join(words)}, {at} of seed {seed}: {octets[:60].hex()}..", [word.encode() for word in words])
        lines, row.status = fragment_model.answer(words, octets)
        row.input, row.output = [octets], [line.encode() + b"\n" for line in lines]
        yield row


def made_worlds(seed, count):
    """Rows whose input is a made script of `world`, and whose output is the model's."""
    for at, octets in enumerate(make_scripts.made(int(seed), int(count) // 10), 1):
        row = Row(f"made world {at} of seed {seed}: {octets[:60].decode()}..", [b"world"])
        lines, row.status = gateway_model.world(octets)
        row.input, row.output = [octets], [line.encode() + b"\n" for line in lines]
        yield row


def made_links(seed, count):
    """Rows whose input is a made script of `link`, and whose output is the model's."""
    half = int(count) // 10
    made = itertools.chain(link_model.made_rows(half, int(seed)), pick_model.made_rows(half, int(seed)))
    for at, made_row in enumerate(made, 1):
        row = Row(f"made link {at} of seed {seed}: {made_row['input'][:60]!r}..", [b"link"])
        row.input, row.output = [made_row["input"].encode()], [made_row["output"].encode()]
        row.status = made_row["status"]
        yield row


def made_audits(seed, count):
    """Rows whose input is a made recording, and whose output is the model's."""
    words = ["audit", "2", "1"]
    for at, octets in enumerate(audit_model.made(int(seed), int(count)), 1):
        row = Row(f"made audit {at} of seed {seed}: {octets[:60].decode()}..", [word.encode() for word in words])
        text, row.status = audit_model.answer(words, octets)
        row.input, row.output = [octets], [text]
        yield row


def made_records(seed, count):
    """Rows of `record` whose input is a made script of `node`, and whose output is the model's."""
    for at, (own, peer, octets) in enumerate(ltp_model.made(int(seed), int(count) // 5), 1):
        words = ["record", str(own), str(peer)]
        row = Row(f"made record {at} of seed {seed}: {octets[:60].decode()}..", [word.encode() for word in words])
        text, row.status = audit_model.answer(words, octets)
        row.input, row.output = [octets], [text]
        yield row


def files():
    """The files of rows, one a command."""
    return [os.path.join(ROWS, name) for name in sorted(os.listdir(ROWS)) if re.fullmatch("[a-z]+", name)]


def all_made(inputs, scripts):
    """All rows that are made: of these seeds and counts, of inputs and of scripts."""
    for rows in (made_rows(*inputs), made_translations(*inputs), made_fragments(*inputs), made_scripts(*scripts),
                 made_audits(*scripts), made_records(*scripts), made_links(*scripts), made_worlds(*scripts)):
        yield from rows


# ---- comparing ----

def is_said(row, errors):
    """Whether standard error is as a row wants it."""
    if row.error:
        return errors == row.error.encode() + b"\n"
    if not errors:
        return row.error is None
    is_line = errors.startswith(b"fimdahol: ") and errors.count(b"\n") == 1 and errors.endswith(b"\n")
    return is_line and (row.status != DONE or not row.given() or row.error is not None)


def first_difference(found, wanted):
    """The first line in which two texts differ."""
    ours, theirs = found.split(b"\n"), wanted.split(b"\n")
    for at in range(max(len(ours), len(theirs))):
        pair = [text[at] if at < len(text) else b"(nothing)" for text in (ours, theirs)]
        if pair[0] != pair[1]:
            return [f"    line {at + 1}: {pair[0][:160].decode('utf-8', 'replace')}",
                    f"    wanted: {pair[1][:160].decode('utf-8', 'replace')}"]
    return []


def departs(row, status, output, errors):
    """What a run of a row did that it shouldn't, in lines."""
    said = []
    if status != row.status:
        said.append(f"    status {status}, wanted {row.status}")
    if output != row.wanted():
        said += first_difference(output, row.wanted())
    if not is_said(row, errors):
        said.append(f"    standard error: {errors[:200].decode('utf-8', 'replace')}")
    return said
