#!/usr/bin/env python3
"""Write a man page from a program's help: `man-page.py PROGRAM`, with the page on standard output.

All of its texts are those of `PROGRAM --help` and `PROGRAM COMMAND --help`. It has no date, so the same program gives the same page.
"""

import re
import sys
import textwrap

sys.dont_write_bytecode = True

from help_texts import help_of, rows

SIGNS = {"\\": r"\(rs", "-": r"\-", "'": r"\(aq", '"': r"\(dq", "`": r"\(ga", "^": r"\(ha", "~": r"\(ti"}


def escaped(text):
    """The text with no sign that roff reads otherwise, nor one at its start that makes a request of it."""
    signs = (SIGNS.get(sign, sign if sign.isascii() else rf"\[u{ord(sign):04X}]") for sign in text)
    return re.sub(r"^\.", r"\\&.", "".join(signs))


def marked(term):
    """A usage, or the term of a row: what is typed as it stands is bold, and what stands for something else italic."""
    parts = []
    for part in re.split(r"(<[^<>]*>|\[[^][]*\])", term):
        if re.fullmatch(r"<.*>|\[.*\]", part):
            parts.append(rf"{part[0]}\fI{escaped(part[1:-1])}\fR{part[-1]}")
        elif part.strip():
            parts.append(rf"\fB{escaped(part)}\fR")
        else:
            parts.append(part)
    return "".join(parts)


def sentence(text):
    return text if text.endswith((".", "!", "?")) else f"{text}."


def below(lines):
    """Lines of the page that stand one below the other."""
    return [part for line in lines for part in (".br", line)][1:]


def filled(lines):
    """Lines of text. A line that begins a sentence begins a line of the page too."""
    texts = []
    for line in lines:
        if texts and not line[0].isupper():
            texts[-1] += f" {line}"
        else:
            texts.append(line)
    return [".PP", *below(map(escaped, texts))]


def literal(lines):
    lines = textwrap.dedent("\n".join(lines)).split("\n")
    return [".RS 2", ".nf", *map(escaped, lines), ".fi", ".RE"]


def table(found):
    page = []
    for row in found:
        page += [".TP", marked(row.term), escaped(row.text) or r"\&"]
    return page


def block(lines):
    """A block of the help: lines of text, and indented ones, which are a table where terms stand before their texts."""
    page, group = [], []
    for line, following in zip(lines, [*lines[1:], None]):
        group.append(line)
        indented = line.startswith(" ")
        if following is not None and following.startswith(" ") == indented:
            continue
        if not indented:
            page += filled(group)
        elif re.match(r" +\S.*?  +\S", group[0]):
            page += table(rows(group))
        else:
            page += literal(group)
        group = []
    return page


def section(title, lines, request=".SH"):
    """The lines below a title, or nothing where there are none."""
    if lines[:1] == [".PP"]:
        lines = lines[1:]
    return [f'{request} "{escaped(title)}"', *lines] if lines else []


def titled(lines):
    """Whether the block has a title of its own: a line that ends with a colon, over indented ones."""
    return lines[0].endswith(":") and len(lines) > 1 and lines[1].startswith(" ")


def examples_in(told):
    """The lines of the blocks that are examples."""
    for lines in told.after:
        found = re.match(r"Examples?:(.*)", lines[0])
        if found:
            yield from (line.strip() for line in (found.group(1), *lines[1:]) if line.strip())


def others_in(told):
    return [lines for lines in told.after if not re.match(r"Examples?:", lines[0])]


def usages(*helps):
    return [".PP", *below(marked(line) for told in helps for line in told.usage)]


def command(told):
    page = filled([sentence(told.about)]) if told.about else []
    page += [*usages(told), *table(told.arguments), *table(told.options)]
    for lines in others_in(told):
        page += block(lines)
    return section(told.name, page, ".SS")


def examples(program, commands):
    """Each example once, below what its command does."""
    lines = dict.fromkeys(line for told in (program, *commands) for line in examples_in(told))
    page = []
    for told in commands:
        own = [line for line in lines if line.split()[1:2] == [told.name]]
        if own:
            page += filled([f"{told.about}:"]) + literal(own)
    others = [line for line in lines if line.split()[1:2] not in [[told.name] for told in commands]]
    return page + ([".PP", *literal(others)] if others else [])


def page_of(program, commands):
    about = program.about
    if about[1:2].islower():
        about = about[0].lower() + about[1:]
    description = filled([sentence(program.about)])
    sections = []
    for lines in others_in(program):
        if titled(lines):
            title, comma, _ = lines[0].removesuffix(":").partition(",")
            sections += section(title.upper(), block(lines if comma else lines[1:]))
        else:
            description += block(lines)
    return [
        rf'.\" Written by scripts/man-page.py from the help of {program.name}.',
        f'.TH "{escaped(program.name.upper())}" 1 "" "Muvehyi"',
        ".ad l",
        ".nh",
        *section("NAME", [rf"{escaped(program.name)} \- {escaped(about)}"]),
        *section("SYNOPSIS", usages(program, *commands)),
        *section("DESCRIPTION", description),
        *section("COMMANDS", [line for told in commands for line in command(told)]),
        *section("ARGUMENTS", table(program.arguments)),
        *section("OPTIONS", table(program.options)),
        *sections,
        *section("EXAMPLES", examples(program, commands)),
    ]


def main():
    if len(sys.argv) != 2:
        print("usage: man-page.py PROGRAM", file=sys.stderr)
        sys.exit(2)
    print("\n".join(page_of(*help_of(sys.argv[1]))))


main()
