#!/usr/bin/env python3
"""Whether a text is one of metrics as Prometheus reads it, version 0.0.4 of its format.

usage: tools/metrics_format.py < TEXT      status 0, or a line on standard error with what is wrong, and 1

A family has its help, then its type, then its samples, and stands there once; names and labels are spelled as they have
to be; the name of a counter, and of no other family, ends in `_total`; no sample stands there twice; each value is a
number, and a counter's isn't negative. It is what `promtool check metrics` looks at, and what a scraper refuses.
"""
import re
import sys

NAME = r"[a-zA-Z_:][a-zA-Z0-9_:]*"
LABELS = re.compile(r'\{(?:[a-zA-Z_][a-zA-Z0-9_]*="(?:[^"\\\n]|\\["\\n])*"(?:,(?!\})|(?=\})))*\}')
SAMPLE = re.compile(rf"({NAME})(\{{[^ ]*\}})? (-?[0-9]+(?:\.[0-9]+)?)")
TYPES = ("counter", "gauge", "histogram", "summary", "untyped")


class Wrong(Exception):
    """What is wrong with a text."""


def must(holds, what):
    if not holds:
        raise Wrong(what)


def samples_of(text):
    """The values of a text, by their names with labels."""
    must(text.endswith("\n"), "the last line doesn't end")
    helped, types, found, family = set(), {}, {}, None
    for number, line in enumerate(text[:-1].split("\n"), 1):
        place = f"line {number}: {line}"
        if line.startswith("# HELP "):
            family = line.split(" ", 3)[2]
            must(re.fullmatch(NAME, family) and len(line.split(" ", 3)) == 4, place)
            must(family not in helped, f"{place}: the family has its help already")
            helped.add(family)
        elif line.startswith("# TYPE "):
            words = line.split(" ")
            must(len(words) == 4 and words[3] in TYPES, place)
            must(words[2] == family and family not in types, f"{place}: its help doesn't stand before it")
            types[family] = words[3]
            must((words[3] == "counter") == family.endswith("_total"), f"{place}: the name doesn't fit the type")
        else:
            told = SAMPLE.fullmatch(line)
            must(told, place)
            name, labels, value = told.groups()
            must(name == family and family in types, f"{place}: it doesn't stand in its family")
            must(not labels or LABELS.fullmatch(labels), f"{place}: its labels")
            must(name + (labels or "") not in found, f"{place}: it stands there twice")
            must(types[family] != "counter" or float(value) >= 0, f"{place}: a counter below 0")
            found[name + (labels or "")] = float(value)
    must(found, "there are no samples")
    return found


def main():
    try:
        samples_of(sys.stdin.read())
    except Wrong as wrong:
        print(f"metrics_format: {wrong}", file=sys.stderr)
        return 1
    return 0


if __name__ == "__main__":
    sys.exit(main())
