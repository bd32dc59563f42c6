"""Up to where a run that keeps work is known: a search over the run and that before the edits.

It is known up to the first place where a step from outside comes though a task is at its end, or
behind the answer of a call that is another one than that of the same call before the edits: true
and not false, or false and not true.
"""

import copy
from collections import Counter

import kept
import settle
import workloads


# Answers.


def answers_along(session, run):
    """Of each step of a run its task and what it answers: nothing where the task waits."""
    table, found = settle.start(session), []
    for step in run:
        answer = None
        if step["do"] == "finish":
            answer = workloads.answer_of_finish(table, table.number[step["by"]])
        elif workloads.is_call(step):
            answer = workloads.answer_of(table, step["core"], table.number[step["by"]], step)
        found.append((step.get("by"), answer))
        kept.make(table, step)
    return found


def numbered_calls(steps):
    """The calls among steps: the place, the task, and how many of its calls come before."""
    counts = Counter()
    for place, step in enumerate(steps):
        if workloads.is_call(step):
            yield place, (step["by"], counts[step["by"]])
            counts[step["by"]] += 1


def answers_of(session, run):
    """Of each call of a run, by its task and number, where it is answered, and what."""
    along, found = answers_along(session, run), {}
    for place, call in numbered_calls(run):
        for later in range(place, len(run)):
            if along[later][0] == call[0] and along[later][1] is not None:
                found[call] = later, along[later][1]
                break
    return found


def origins_of(document):
    """Of each step of the edited list the index of the document's step that it stands for."""
    session = copy.deepcopy(document["session"])
    origins = list(range(len(session["steps"])))
    for edit in document["edits"]:
        if edit["edit"] == "work" or settle.refusal(session, edit):
            continue
        if edit["edit"] == "insert":
            origins.insert(edit["at"], None)
        elif edit["edit"] == "remove":
            del origins[edit["at"]]
        settle.apply(session, edit)
    return origins


def answer_limits(document, run):
    """Behind each answer that is another one than before the edits: the place, why and the task."""
    session, origins = document["session"], origins_of(document)
    before = answers_of(session, settle.settle(copy.deepcopy(session))[0])
    now = answers_of(run.session, run.steps)
    calls = dict(numbered_calls(session["steps"]))
    for place, call in numbered_calls(run.session["steps"]):
        same = calls.get(origins[place])
        if same is not None and same[0] == call[0] and same in before and call in now:
            (_, was), (later, answer) = before[same], now[call]
            if was != answer:
                yield later + 1, "got true" if answer else "got false", call[0]


# Ends.


def worked_at(run, clocks, place, task, name):
    """How long a task worked since its last call before a place; nothing before its last call."""
    steps, calls = run.steps[:place], len(run.queues[task].calls) - 1
    made = [at for at, step in enumerate(steps) if workloads.is_call(step) and step["by"] == name]
    if len(made) < calls:
        return None
    return kept.elapsed(clocks[made[-1]][task] if made else kept.START, clocks[place][task])


def is_at_end(run, table, clocks, place, task):
    """Whether a task is at its end where a step from outside comes."""
    cores = range(table.cores)
    worked = worked_at(run, clocks, place, task, run.names[task - table.cores])
    if worked is None or not any(settle.comes_to(table, core, task, "yield") for core in cores):
        return False
    work, time = run.queues[task].calls[-1][2], kept.time_of(run.steps[place], run.units)
    return worked >= work or (worked[0] >= work[0] and time != 0)


def end_limits(document, run):
    """Where steps from outside come though tasks are at their ends: the place and a task."""
    items = kept.edited_items(copy.deepcopy(document))[0]
    joined = iter([item.joined for item in items if item.step["do"] == "tick"])
    table, clocks = settle.start(run.session), kept.clocks_in(run.session, run.steps)
    for place, step in enumerate(run.steps):
        behind_pass = place > 0 and run.steps[place - 1]["do"] == "pass"
        within = step["do"] == "tick" and next(joined) and behind_pass
        if kept.is_outside(step) and not within:
            for task in sorted(run.queues):
                if is_at_end(run, table, clocks, place, task):
                    yield place, run.names[task - table.cores]
                    break
        kept.make(table, step)


# Both.


def limit(document, run):
    """The first place from which nothing is known, with the task and with why; or none.

    Of two at one place the answer counts.
    """
    limits = list(answer_limits(document, run))
    limits += [(place, "end", task) for place, task in end_limits(document, run)]
    if not limits:
        return None
    place, why, task = min(limits, key=lambda limit: (limit[0], limit[1] == "end", limit[2]))
    return {"place": place, "task": task, "why": why}
