#!/usr/bin/env python3
"""Write a report for people: a second opinion on its text, which shares no code with the bench.

Standard input is a session, or an object of a `session` and its `edits`. Words are those of
report.py. Standard output is the text that `smp_view report` writes: the numbers of report.py in
their order, and a table of loads for each run.
"""

import fractions
import json
import math
import sys

import advice
import report


def percent(part, whole):
    """How many percent of it, to the nearest tenth; a half goes up."""
    tenths = math.floor(fractions.Fraction(1000 * part, whole) + fractions.Fraction(1, 2))
    return f"{tenths // 10}.{tenths % 10}%"


def loads(session, values, title):
    """The lines of a table of loads; none of a run that takes no time."""
    time, cores = values["run.time"], range(session["cores"])
    if time == 0:
        return
    rows = [
        (name, [values[f"{report.told(name)}.run.{core}"] for core in cores])
        for name in (task["name"] for task in session["tasks"])
    ]
    rows.append(("idle", [values[f"core.{core}.idle"] for core in cores]))
    yield ""
    yield "".join(f"{head:>10} " for head in (*(f"core {core}" for core in cores), "all")) + title
    for name, times in rows:
        cells = (percent(part, time) for part in (*times, sum(times)))
        yield "".join(f"{cell:>10} " for cell in cells) + name


def number_lines(session, run):
    """A line for each number that is not 0."""
    yield f"{'value':>10} number"
    for name in advice.names_of(session):
        if run["values"][name]:
            place = f" from place {run['places'][name]}" if name in run["places"] else ""
            yield f"{run['values'][name]:>10} {name}{place}"


def pair_lines(session, told):
    """A line for each number that is not 0 in both runs."""
    yield f"{'before':>10} {'after':>10} {'change':>10} number"
    for name in advice.names_of(session):
        before, after = told["before"]["values"][name], told["after"]["values"][name]
        if before or after:
            change = f"{after - before:+d}" if after != before else "0"
            yield f"{before:>10} {after:>10} {change:>10} {name}"


def lines(document, words):
    """The lines of the report."""
    session = document.get("session", document)
    told = report.report(document, words)
    if report.units_of(session):
        yield f"time in units, {session['units']} a tick"
    if "values" in told:
        yield from number_lines(session, told)
        yield from loads(session, told["values"], "load")
    else:
        yield from pair_lines(session, told)
        yield from loads(session, told["before"]["values"], "load before")
        yield from loads(session, told["after"]["values"], "load after")


def text(document, words):
    """The whole text."""
    return "".join(f"{line}\n" for line in lines(document, words))


def main():
    """Report on the document on standard input."""
    document = json.loads(sys.stdin.buffer.read())
    sys.stdout.write(text(document, sys.argv[1:]))


if __name__ == "__main__":
    main()
