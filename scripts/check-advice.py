#!/usr/bin/env python3
"""Hold the limits and the advice of the built smp_view against scripts/advice.py, which shares no
code with it.

    check-advice.py [--known] [COUNT [FIRST]]

COUNT random documents, or 1,000, are those of check-settled.py. Of each, `check` with some limits
and `advise` on some number are compared, as the steps stand or settled: status, output and standard
error. Then the same is done of as many documents whose runs keep work, with calls in either order:
they have edits of work too, and each twentieth one has the run of a workload. With `--known` limits
are held by the known part of these, too.

A line where one differs, then totals; status 1 where one does. FIRST is the number of the first
document.
"""

import copy
import importlib
import json
import random
import sys
from collections import Counter

import advice
import known
import report
import settle

documents = importlib.import_module("check-settled")
kept_runs = importlib.import_module("check-kept-runs")
kept_documents = kept_runs.documents
NUMBERS = ("ready", "ready.longest", "blocked.mutex", "blocked.queue", "run", "timeouts")
NUMBERS += ("switches", "not_made", "suspended")


def refused(document, words):
    """A line for each edit that is refused."""
    if "--keep-work" in words:
        return kept_runs.refused(document)
    return settle.edited(copy.deepcopy(document))[1]


def known_until(document, words):
    """Where the run keeps work, up to where it is known."""
    if "--keep-work" not in words:
        return ""
    run = kept_runs.kept.kept(copy.deepcopy(document), words[words.index("--ties") + 1])
    return kept_runs.known_until(known.limit(document, run))


def some_limits(rng, document, words):
    """Limits of numbers of the run, near what they are; now and then of a name that is none."""
    values = report.measure(document, words)["values"]
    limits = []
    for _ in range(rng.randint(1, 5)):
        name = rng.choice(sorted(values))
        limits.append((rng.choice(("most", "least")), name, max(0, values[name] + rng.randint(-1, 1))))
    if rng.random() < 0.05:
        limits.append(("most", "nobody.run", 1))
    return sorted(limits, key=lambda limit: limit[0] != "most")


def check_differs(rng, document, words):
    """Whether the program and the second opinion differ on limits."""
    limits = some_limits(rng, document, words)
    asked = ["check", *words, *(f"--at-{kind}={name}={bound}" for kind, name, bound in limits)]
    status, output, error = advice.check(document, words, limits)
    error = refused(document, words) + known_until(document, words) + error
    return kept_runs.told(json.dumps(document), asked) != (status, output, error)


def advice_differs(rng, document, words):
    """Whether they differ on changes."""
    task = rng.choice(document["session"]["tasks"])["name"]
    number = rng.choice(NUMBERS) if rng.random() < 0.97 else "nothing"
    families = rng.sample(("priority", "mask", "pin", "order"), rng.randint(1, 4))
    count = rng.choice((0, 1, 3, 10, 1000))
    asked = ["advise", "--task", task, "--less", number, "--over", ",".join(families)]
    asked += ["--best", str(count), *words]
    status, output, error = advice.advise(document, words, task, number, families, count)
    error = refused(document, words) + error
    return kept_runs.told(json.dumps(document), asked) != (status, output, error)


def asked_of(number, flags):
    """What is asked of a number: a command, a document, and how its runs are made."""
    rng = random.Random(number)
    document = documents.document(rng)
    for command in COMMANDS:
        yield command, document, ["--settle"] * (rng.random() < 0.5)
    _, document = kept_runs.document_of(number if number % 20 == 1 else 2 * number)
    for ties in kept_documents.TIES:
        yield from ((command, document, ["--keep-work", "--ties", ties]) for command in COMMANDS)
        if flags:
            yield "check", document, ["--keep-work", "--ties", ties, "--known"]


COMMANDS = {"check": check_differs, "advise": advice_differs}


def main():
    """Compare answers, and say how many differ."""
    if not documents.PROGRAM.is_file():
        sys.exit(f"no program at {documents.PROGRAM}: build it first")
    flags, given = kept_documents.words()
    if not flags <= {"--known"}:
        sys.exit(__doc__)
    count, first = [*given, *(1000, 0)[len(given) :]]
    of_commands, wrong = Counter(), 0
    for number in range(first, first + count):
        rng = random.Random(number)
        for command, document, words in asked_of(number, flags):
            of_commands[f"{command} {words[0] if words else 'as written'}"] += 1
            if COMMANDS[command](rng, document, words):
                wrong += 1
                print(f"WRONG document {number}, {command} {' '.join(words)}")
    told = ", ".join(f"{what} {times}" for what, times in sorted(of_commands.items()))
    print(f"{count} documents: {told}; {wrong} differ")
    sys.exit(wrong > 0)


if __name__ == "__main__":
    main()
