#!/usr/bin/env python3
"""Hold the reports of the built smp_view against scripts/report.py, which shares no code with it.

    check-reports.py [--known] [COUNT [FIRST]]

COUNT random documents, or 1,000, are those of check-settled.py. Of each, the object of `report
--json` is compared, and the text of `report` with that of scripts/tables.py, as the steps stand and
settled. Then the same is done of as many documents of check-kept-runs.py, whose runs keep work, with
calls in either order by turns. With `--known` the known part of these is reported on, too.

A line where one differs, then totals; status 1 where one does. FIRST is the number of the first
document.
"""

import importlib
import json
import random
import sys

import known
import report
import settle
import tables

documents = importlib.import_module("check-settled")
kept_runs = importlib.import_module("check-kept-runs")
kept_documents = kept_runs.documents


def notes_on(document, words):
    """What standard error says."""
    if "--keep-work" not in words:
        return settle.edited(json.loads(json.dumps(document)))[1]
    run = kept_runs.kept.kept(json.loads(json.dumps(document)), words[words.index("--ties") + 1])
    return kept_runs.refused(document) + kept_runs.known_until(known.limit(document, run))


def differs(document, words):
    """Whether the program and the second opinions differ on a document; and of how many numbers."""
    text, notes = json.dumps(document), notes_on(document, words)
    wanted = report.report(json.loads(text), words)
    status, found, said = kept_runs.told(text, ["report", "--json", *words])
    table = (0, tables.text(json.loads(text), words), notes)
    object_differs = (status, json.loads(found or "{}"), said) != (0, wanted, notes)
    numbers = len((wanted if "values" in wanted else wanted["before"])["values"])
    return object_differs or kept_runs.told(text, ["report", *words]) != table, numbers


def asked(number, flags):
    """The reports that are compared: each document with the options."""
    document = documents.document(random.Random(number))
    yield from ((document, words) for words in ([], ["--settle"]))
    ties = kept_documents.TIES[number // 2 % 2]
    _, document = kept_runs.document_of(number)
    yield document, ["--keep-work", "--ties", ties]
    if flags:
        yield document, ["--keep-work", "--ties", ties, "--known"]


def main():
    """Compare reports, and say how many differ."""
    if not documents.PROGRAM.is_file():
        sys.exit(f"no program at {documents.PROGRAM}: build it first")
    flags, given = kept_documents.words()
    if not flags <= {"--known"}:
        sys.exit(__doc__)
    count, first = [*given, *(1000, 0)[len(given) :]]
    reports, numbers, wrong = 0, 0, 0
    for number in range(first, first + count):
        for document, words in asked(number, flags):
            is_wrong, of_run = differs(document, words)
            reports, numbers, wrong = reports + 1, numbers + of_run, wrong + is_wrong
            if is_wrong:
                print(f"WRONG document {number} {' '.join(words)}")
    print(f"{reports} reports, {numbers} numbers of each run, {wrong} reports differ")
    sys.exit(wrong > 0)


if __name__ == "__main__":
    main()
