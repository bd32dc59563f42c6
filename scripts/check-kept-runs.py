#!/usr/bin/env python3
"""Hold the runs that keep work of the built smp_view against scripts/kept.py and scripts/known.py.

    check-kept-runs.py [--compare] [--more-ticks] [COUNT [FIRST]]

COUNT random documents, or 2,000, are those of check-kept.py: each second one has the run of a
workload with edits, and in format 3 there are edits of work too. With either order of calls
`settle --keep-work` is held: the steps of the run, and all of standard error, which are the lines
about refused edits, up to where the run is known, and the line about calls that were not made.

With `--compare` the line of `compare --keep-work` up to where the run is known is held too: it
stands before the row of the step at that place, or behind the last row. With `--more-ticks` half of
the documents are settled once more, with some ticks behind their steps.

A line where one differs, then totals; status 1 where one does. FIRST is the number of the first
document.
"""

import copy
import importlib
import json
import pathlib
import random
import re
import subprocess
import sys
from collections import Counter

import kept
import known
import settle
import workloads

documents = importlib.import_module("check-kept")

PROGRAM = pathlib.Path(__file__).resolve().parent.parent / "crates/smp_view/out/smp_view"
WHY = {
    "end": "has made its last call",
    "got true": "got true where it got false",
    "got false": "got false where it got true",
}
# A row of a comparison: its mark, the place before the edits, and the place after them.
ROW = re.compile(r"[ |+-] (?:\d+|-) (\d+|-) ")


def document_of(number):
    """A document and its kind; formats 1 and 2 have no edits of work."""
    kind, document = documents.document_of(number)
    if document["session"]["format"] < 3:
        document["edits"] = [edit for edit in document["edits"] if edit["edit"] != "work"]
    return kind, document


# What standard error says.


def refusal(session, edit):
    """Why an edit is refused, as people are told; nothing where it may be made."""
    if edit["edit"] != "work":
        return settle.refusal(session, edit)
    at, steps = edit["at"], session["steps"]
    if at < len(steps) and workloads.is_call(steps[at]):
        return ""
    return f"J1: no call begins at step {at}"


def refused_edits(document):
    """A line for each edit that is refused."""
    session, lines = copy.deepcopy(document["session"]), []
    for index, edit in enumerate(document["edits"]):
        if why := refusal(session, edit):
            lines.append(f"edit {index} refused {why}\n")
        elif edit["edit"] != "work":
            settle.apply(session, edit)
    return lines


def refused(document):
    """All of these lines."""
    return "".join(refused_edits(document))


def not_made(session, calls):
    """The line about calls that were not made; nothing where all were."""
    left = Counter(call["by"] for call in calls)
    told = [f"{task['name']} {left[task['name']]}" for task in session["tasks"]]
    told = [words for words in told if not words.endswith(" 0")]
    return f"not made: {', '.join(told)}\n" if told else ""


def known_until(limit):
    """The line about how far the run is known; nothing where all of it is."""
    if limit is None:
        return ""
    return f"known until place {limit['place']}: {limit['task']} {WHY[limit['why']]}\n"


# Runs.


def told(text, words):
    """What the program says of a document: the status, the text and standard error."""
    ran = subprocess.run([PROGRAM, *words], input=text, capture_output=True, text=True, check=False)
    return ran.returncode, ran.stdout, ran.stderr


def settled(text, ties, *more):
    """The run that the program makes: the status, the steps and what standard error says."""
    status, found, said = told(text, ["settle", "--keep-work", "--ties", ties, *more])
    return status, json.loads(found or "{}").get("steps"), said


def wanted(document, ties):
    """What the second opinion makes of a document: the steps, standard error, and how far known."""
    run = kept.kept(copy.deepcopy(document), ties)
    indexed = settle.has_index(run.session)
    steps = [settle.written(step, indexed) for step in run.steps]
    limit = known.limit(document, run)
    notes = refused(document) + known_until(limit) + not_made(run.session, run.left())
    return steps, notes, limit


def with_ticks(document, count):
    """A document whose session has so many ticks more, before the edits.

    Where a tick has several units, what is left of the last one goes by first, and then all of each.
    """
    session = copy.deepcopy(document["session"])
    units, steps, past = session.get("units", 1), session["steps"], 0
    for step in steps:
        past = 0 if step["do"] == "tick" else past + step.get("units", 0)
    for _ in range(count):
        if past < units and units > 1:
            steps.append({"do": "pass", "units": units - past})
        steps.append({"do": "tick"})
        past = 0
    return document | {"session": session}


def tells_known(text, ties, length, limit):
    """Whether a comparison has the line up to where a run is known, and where it has to be."""
    _, found, _ = told(text, ["compare", "--keep-work", "--ties", ties])
    lines = found.splitlines(keepends=True)
    at = [index for index, line in enumerate(lines) if line.startswith("known until place ")]
    if limit is None:
        return not at
    if len(at) != 1 or lines[at[0]] != known_until(limit):
        return False
    row = ROW.match(lines[at[0] + 1])
    if limit["place"] < length:
        return row is not None and row[1] == str(limit["place"])
    return row is None and (at[0] == 0 or ROW.match(lines[at[0] - 1]) is not None)


# All.


class Count:
    """What was right and what was wrong."""

    def __init__(self, flags):
        self.flags, self.wrong, self.runs = flags, 0, 0
        self.kinds, self.documents, self.limits = Counter(), Counter(), Counter()

    def differ(self, number, what):
        """Tell that something differs."""
        self.wrong += 1
        print(f"WRONG document {number}, {what}")

    def hold(self, number, document, ties, *more):
        """Hold the run of a document, which the program reads with more words."""
        steps, notes, limit = wanted(with_ticks(document, int(more[1])) if more else document, ties)
        self.runs += 1
        self.kinds.update(step["do"] for step in steps)
        self.limits[limit["why"] if limit else "all"] += 1
        if settled(json.dumps(document), ties, *more) != (0, steps, notes):
            self.differ(number, " ".join(["ties", ties, *more]))
        return len(steps), limit

    def hold_all(self, number):
        """Hold the runs of the document of a number."""
        kind, document = document_of(number)
        edits = len(document["edits"]) > len(refused_edits(document))
        self.documents[f"{kind} with edits" if edits else f"{kind} without edits"] += 1
        for ties in documents.TIES:
            length, limit = self.hold(number, document, ties)
            text = json.dumps(document)
            if "--compare" in self.flags and not tells_known(text, ties, length, limit):
                self.differ(number, f"ties {ties}, compare")
            if "--more-ticks" in self.flags and number % 4 in (0, 1):
                ticks = random.Random(number).choice((0, 1, 2, 7))
                self.hold(number, document, ties, "--more-ticks", str(ticks))


def main():
    """Compare documents, and say how many differ."""
    if not PROGRAM.is_file():
        sys.exit(f"no program at {PROGRAM}: (cd crates/smp_view && rt run -- --help) builds it")
    flags, numbers = documents.words()
    if not flags <= {"--compare", "--more-ticks"}:
        sys.exit(__doc__)
    many, first = [*numbers, *(2000, 0)[len(numbers) :]]
    count = Count(flags)
    for number in range(first, first + many):
        count.hold_all(number)
    for counter in (count.documents, count.limits):
        print(", ".join(f"{what} {number}" for what, number in sorted(counter.items())))
    steps = f"{count.runs} runs, {sum(count.kinds.values())} steps of {len(count.kinds)} kinds"
    print(f"{steps}, {count.runs - count.limits['all']} known in part, {count.wrong} differ")
    sys.exit(count.wrong > 0)


if __name__ == "__main__":
    main()
