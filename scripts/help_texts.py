"""Read the help of a program, as clap writes it: its commands, arguments, options and what stands below them.

It is asked for by `PROGRAM --help` and, for each command that stands there, by `PROGRAM COMMAND --help`. man-page.py and
completions.py write from it.
"""

import pathlib
import re
import subprocess
import sys
from dataclasses import dataclass, field


@dataclass
class Row:
    """A term and its text: `trace`, `[FILE]` or `-h, --help`, with what stands beside it."""

    term: str
    text: str

    def names(self):
        """The names of an option."""
        return re.findall(r"(?:^|(?<=, ))--?\w[\w-]*", self.term)

    def value(self):
        """What an option's value or an argument is called, or nothing where an option takes no value."""
        found = re.search(r"[<\[]=?<?([^>\]]+)", self.term)
        return found.group(1) if found else ""

    def choices(self):
        """The values that an option takes, where its text tells all of them."""
        found = re.search(r"\[possible values: ([^\]]*)\]", self.text)
        return found.group(1).split(", ") if found else []

    def is_file(self):
        return "FILE" in re.split("[^A-Z]", self.value())

    def is_repeated(self):
        """Whether an option may stand several times, which its text says."""
        return "several times" in self.text


@dataclass
class Help:
    """The help of a program, or of its command of that name. `after` has the blocks below the options, each a list of lines."""

    name: str
    about: str = ""
    usage: list = field(default_factory=list)
    commands: list = field(default_factory=list)
    arguments: list = field(default_factory=list)
    options: list = field(default_factory=list)
    after: list = field(default_factory=list)


def rows(lines):
    """The rows of a table: a term, two or more spaces, and a text, which may go on in lines that are indented further."""
    found = []
    for line in lines:
        start = re.match(r"  (?:    (?=--))?(\S+(?: \S+)*)(?:  +(.*))?$", line)
        if start:
            found.append(Row(start.group(1), start.group(2) or ""))
        elif found:
            found[-1].text = f"{found[-1].text} {line.strip()}".strip()
    return found


def parsed(name, text):
    told = Help(name)
    tables = {"Commands:": told.commands, "Arguments:": told.arguments, "Options:": told.options}
    table = None
    for block in re.split(r"\n\n+", text.strip("\n")):
        first, *lines = block.split("\n")
        if first.startswith("Usage: ") and not told.usage:
            told.usage = [line.strip() for line in (first.removeprefix("Usage: "), *lines)]
        elif not told.usage:
            told.about = " ".join([told.about, first, *lines]).strip()
        elif first in tables:
            table = tables[first]
            table += rows(lines)
        elif first.startswith(" ") and table and not told.after:
            last = table.pop()
            table += rows([f"  {last.term}  {last.text}", first, *lines])
        else:
            told.after.append([first, *lines])
    return told


def asked(program, name, *words):
    """The help that the program prints with these words."""
    line = (str(program), *words, "--help")
    try:
        ran = subprocess.run(line, stdin=subprocess.DEVNULL, capture_output=True, check=True)
    except (OSError, subprocess.CalledProcessError) as error:
        sys.exit(f"no help: {error}")
    told = parsed(name, ran.stdout.decode())
    if not told.usage:
        sys.exit(f"no usage in what {' '.join(line)} prints")
    return told


def help_of(program):
    """The help of the program, and that of each of its commands."""
    told = asked(program, pathlib.Path(program).name)
    return told, [asked(program, row.term, row.term) for row in told.commands]
