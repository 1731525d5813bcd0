#!/usr/bin/env python3
"""Copies the built program, its manual page and its completions for bash to a prefix, or takes them
away.

usage: tools/install_program.py --install [PREFIX]       /usr/local where no PREFIX is given
       tools/install_program.py --uninstall [PREFIX]
       tools/install_program.py --page                   writes the manual page to standard output

The page and the completions are made from the program's help, as the script fimdahol says it.
"""
import os
import re
import subprocess
import sys

sys.dont_write_bytecode = True
ROOT = os.path.dirname(os.path.dirname(os.path.abspath(__file__)))
CRATE = os.path.join(ROOT, "crates", "bundle_cli")
PAGE = os.path.join("share", "man", "man1", "fimdahol.1")
COMPLETIONS = os.path.join("share", "bash-completion", "completions", "fimdahol")
SECTIONS = {"limits": "LIMITS", "status": "EXIT STATUS"}


def constant(name):
    """A text of help.rt, which begins on the line after its name."""
    with open(os.path.join(ROOT, "crates", "console", "src", "help.rt"), encoding="utf-8") as file:
        found = re.search(rf'^pub const {name}: &str = "\\\n(.*?)^";$', file.read(), re.S | re.M)
    return re.sub(r'\\(["\\])', r"\1", found[1])


def help_text():
    """The help of the program, without that of the script, which makes it of help.rt and table.rt."""
    made = subprocess.run(["bash", os.path.join(ROOT, "fimdahol"), "--help"], stdout=subprocess.PIPE,
                          check=True, encoding="utf-8")
    return made.stdout.split("\n\nwords of the script")[0] + "\n"


def commands(text):
    """The words that a call may begin with."""
    return re.findall(r"^  fimdahol ([a-z]+)", text, re.M) + ["--help", "--version"]


# ---- the manual page ----

def roff(line):
    """A line as roff writes it."""
    line = line.replace("\\", "\\e").replace("-", "\\-")
    return "\\&" + line if line.startswith((".", "'")) else line


def verbatim(lines):
    return [".PP", ".nf", *map(roff, lines), ".fi"]


def paragraph(lines):
    """A paragraph of the help: its text, and the lines that are set in, as they are."""
    made, at = [".PP"], 0
    while at < len(lines):
        end = at
        while end < len(lines) and lines[end].startswith("  "):
            end += 1
        if end > at:
            made += verbatim(lines[at:end])
        else:
            made.append(roff(lines[at]))
            end = at + 1
        at = end
    return made


def page():
    """The manual page."""
    text, version = help_text(), constant("VERSION").split()[-1]
    head, usage, *rest = text.rstrip("\n").split("\n\n")
    name, _, purpose = head.partition(": ")
    made = [f'.TH FIMDAHOL 1 "" "{name} {version}" "User Commands"',
            ".SH NAME", rf"{name} \- {purpose}",
            ".SH SYNOPSIS", ".nf", *(roff(line[2:]) for line in usage.split("\n")[1:]),
            ".fi", ".SH DESCRIPTION"]
    for block in rest:
        word, _, first = block.partition(": ")
        if word in SECTIONS:
            made.append(f".SH {SECTIONS[word]}")
            made += paragraph(first.split("\n"))[1:] if word == "limits" else [
                roff(line.strip()) for line in first.split("\n")]
        else:
            made += paragraph(block.split("\n"))
    return "\n".join(made) + "\n"


def completions():
    """What bash reads to complete the first word of a call."""
    return f"""# Completes the first word of a call of fimdahol.
_fimdahol() {{
  COMPREPLY=()
  if [ "$COMP_CWORD" = 1 ]; then
    mapfile -t COMPREPLY < <(compgen -W '{' '.join(commands(help_text()))}' -- "$2")
  fi
}}
complete -o default -F _fimdahol fimdahol
"""


# ---- installing ----

def files():
    """What is installed: where, its octets, and its mode."""
    with open(os.path.join(CRATE, "out", "bundle_cli"), "rb") as program:
        yield os.path.join("bin", "fimdahol"), program.read(), 0o755
    yield PAGE, page().encode(), 0o644
    yield COMPLETIONS, completions().encode(), 0o644


def install(prefix):
    for place, octets, mode in files():
        path = os.path.join(prefix, place)
        os.makedirs(os.path.dirname(path), exist_ok=True)
        # A program that runs can't be written over, but another one can take its name.
        with open(f"{path}.new", "wb") as file:
            file.write(octets)
        os.chmod(f"{path}.new", mode)
        os.replace(f"{path}.new", path)
        print(path)


def uninstall(prefix):
    for place in (os.path.join("bin", "fimdahol"), PAGE, COMPLETIONS):
        path = os.path.join(prefix, place)
        if os.path.lexists(path):
            os.remove(path)
            print(f"removed {path}")


def main(words):
    if words == ["--page"]:
        return sys.stdout.write(page())
    if len(words) not in (1, 2) or words[0] not in ("--install", "--uninstall"):
        sys.exit("usage: tools/install_program.py --install | --uninstall [PREFIX]")
    try:
        prefix = os.path.abspath((words + ["/usr/local"])[1])
        (install if words[0] == "--install" else uninstall)(prefix)
    except OSError as fault:
        sys.exit(f"fimdahol: {fault.filename}: {fault.strerror}")
    return 0


if __name__ == "__main__":
    main(sys.argv[1:])
