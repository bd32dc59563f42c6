#!/usr/bin/env python3
"""Hold a run to limits, and try changes of it: a second opinion, which shares no code with the bench.

    advice.py check most|least NAME=N.. [WORDS]
    advice.py advise TASK NUMBER FAMILIES COUNT [WORDS]

The numbers are those of report.py, and so are WORDS, which say how runs are made. Each change is
made in a copy of the session, whose whole run is measured. Where runs keep work it is one edit
more, behind those of the document; calls are not exchanged then, since they come when their tasks
have worked for them.

Standard input is a session, or an object of a `session` and its `edits`. It is taken to be well
formed. Standard output is what `smp_view check` or `smp_view advise` prints.
"""

import copy
import itertools
import json
import sys

import report
import settle

COSTS = ("run", "ready", "ready.inverted", "blocked.mutex", "blocked.queue", "timeouts", "not_made")
NO_CALLS = (*settle.NOT_CALLS, *settle.BY_THEMSELVES)


# Changes of a session: each with its size, its words, and how it is made.


def allowed(mask, cores):
    """The cores of a mask that there are."""
    return mask % (1 << cores)


def priorities(session):
    """Each task with each other priority."""
    for number, task in enumerate(session["tasks"]):
        own = task["priority"]
        for priority in range(session["priorities"]):
            if priority != own:
                words = f"priority of {task['name']} {priority}, was {own}"
                yield (0, abs(priority - own)), words, ("priority", number, priority)


def masks(session, families):
    """Each task with each other mask that is tried, or pinned to each core alone."""
    cores = session["cores"]
    every, alone = (1 << cores) - 1, [1 << core for core in range(cores)]
    each = range(1, every + 1) if cores <= 4 else [*alone, every]
    tried = each if "mask" in families else alone
    for number, task in enumerate(session["tasks"]):
        own = task["mask"]
        for mask in tried:
            apart = bin(mask ^ allowed(own, cores)).count("1")
            if apart:
                words = f"mask of {task['name']} {mask}, was {own}"
                yield (1, apart), words, ("mask", number, mask)


def orders(session):
    """Each exchange of two neighbouring calls of different tasks."""
    steps = session["steps"]
    events = [at for at, step in enumerate(steps) if step["do"] not in settle.BY_THEMSELVES]
    for at, later in zip(events, events[1:]):
        one, other = steps[at], steps[later]
        if one["do"] in NO_CALLS or other["do"] in NO_CALLS or one["by"] == other["by"]:
            continue
        yield (2, 0), f"calls at places {at} and {later} exchanged", ("order", at, later)


def as_edit(session, made):
    """The change of a task as an edit."""
    kind, number, other = made
    task = session["tasks"][number]
    told = {name: task[name] for name in ("priority", "mask")} | {kind: other}
    return {"edit": "change", "task": task["name"]} | told


def changed(document, session, words, made):
    """The document, whose edits leave this session, with the change made."""
    kind, one, other = made
    if "--keep-work" in words:
        before, edits = document.get("session", document), document.get("edits", [])
        return {"session": before, "edits": [*edits, as_edit(session, made)]}
    session = copy.deepcopy(session)
    if kind == "order":
        steps = session["steps"]
        steps[one], steps[other] = steps[other], steps[one]
    else:
        session["tasks"][one][kind] = other
    return session


# What is told.


def difference(before, after):
    """How much more or less it is."""
    return f"{after} ({after - before:+d})" if after != before else f"{after} (0)"


def names_of(session):
    """The names of all numbers, in the order of the bench."""
    for task in session["tasks"]:
        name, cores = report.told(task["name"]), range(session["cores"])
        found = ["run", *(f"run.{core}" for core in cores), "ready", "ready.inverted"]
        found += ["blocked.delay", "blocked.notification", "blocked.mutex", "blocked.mutex.held_up"]
        found += [f"blocked.mutex.{mutex}" for mutex in range(session["mutexes"])]
        found += report.queue_waits(session) + report.suspensions(session)
        for one in found:
            yield from (f"{name}.{one}", f"{name}.{one}.longest")
        counts = ["switches", "preempted", "migrations", "inheritances", "top_priority", "timeouts"]
        counts += ["ran_out", "late", "notifications.lost", "unfinished"]
        counts += [f"refused.{code}" for code in report.CODES]
        yield from (f"{name}.{one}" for one in counts)
        for one in ("inherited", "preemption_off"):
            yield from (f"{name}.{one}", f"{name}.{one}.longest")
        for one in report.call_names(session):
            yield from (f"{name}.{one}", f"{name}.{one}.total", f"{name}.{one}.longest")
        yield from (f"{name}.{one}" for one in (*report.JOB_NUMBERS, "not_made"))
    for core in range(session["cores"]):
        for one in ("user", "idle", "due", "held"):
            yield from (f"core.{core}.{one}", f"core.{core}.{one}.longest")
        yield from (f"core.{core}.{one}" for one in ("switches", "interrupts"))
    for mutex in range(session["mutexes"]):
        rest = ["held", "held.longest", "wait", "waits", "refused"]
        yield from (f"mutex.{mutex}.{one}" for one in rest)
    for queue in report.queues_of(session):
        rest = ["messages", "empty", "empty.longest", "full", "full.longest", "waits"]
        yield from (f"queue.{queue}.{one}" for one in rest)
    yield from ("run.time", "run.steps", "run.not_made")


def condition_of(session, name):
    """The condition that a number is of, if it is of one."""
    counts, condition = set(report.all_counts(session)), name.removesuffix(".longest")
    condition = condition.removesuffix(".total") if name not in counts else condition
    return condition if name not in counts and condition in report.all_conditions(session) else None


def job_times_of(name):
    """The times of jobs of which a number is the longest or all of them, if it is of some."""
    times = name.removesuffix(".longest").removesuffix(".total")
    of_jobs = times != name and times.endswith((".response", ".latency", ".period"))
    return times if of_jobs else None


def unit(session, name):
    """What stands behind a number of time, where a tick has more than one unit."""
    of_jobs = any(name.endswith(f".{one}") for one in report.JOB_NUMBERS if one != "jobs")
    of_mutex = name in (f"mutex.{mutex}.wait" for mutex in range(session["mutexes"]))
    of_time = name == "run.time" or of_jobs or of_mutex or condition_of(session, name) is not None
    return " units" if of_time and report.units_of(session) else ""


def unknown(session, name):
    """That no number has the name, and the names that there are: status, output and error."""
    lines = "".join(f"{one}\n" for one in names_of(session))
    return 2, "", f"no number is called {name}; these are:\n{lines}"


def edited(document):
    """The session that the edits of a document leave."""
    document = copy.deepcopy(document)
    if "edits" in document:
        document["edits"] = [edit for edit in document["edits"] if edit["edit"] != "work"]
    return settle.edited_session(document)


def check(document, words, limits):
    """Whether the run after the edits keeps the limits: status, output and error."""
    session, found = edited(document), report.measure(document, words)
    values, places, lines = found["values"], found["places"], []
    for _, name, _ in limits:
        if name not in values:
            return unknown(session, name)
    for kind, name, bound in limits:
        value = values[name]
        if value <= bound if kind == "most" else value >= bound:
            continue
        longest = f"{condition_of(session, name) or job_times_of(name)}.longest"
        begins = f"; the longest stretch begins at place {places[longest]}" if longest in places else ""
        lines.append(f"{name} is {value}{unit(session, name)}, at {kind} {bound}{begins}\n")
    return (1 if lines else 0), "".join(lines), ""


def costs(session, judged, before, after):
    """What the numbers of tasks have become, but for the judged one, where they differ."""
    for task in session["tasks"]:
        for one in COSTS:
            name = f"{report.told(task['name'])}.{one}"
            if name != judged and before.get(name) != after.get(name):
                yield f"   {name} {difference(before[name], after[name])}\n"


def changes(session, words, families):
    """All changes of these families."""
    if "priority" in families:
        yield from priorities(session)
    if "mask" in families or "pin" in families:
        yield from masks(session, families)
    if "order" in families and "--keep-work" not in words:
        yield from orders(session)


def advise(document, words, task, number, families, count):
    """The best changes: status, output and error."""
    session, name = edited(document), f"{report.told(task)}.{number}"
    before = report.measure(document, words)["values"]
    if name not in before:
        return unknown(session, name)
    tried = list(changes(session, words, families))
    judged = []
    for index, (size, what, made) in enumerate(tried):
        after = report.measure(changed(document, session, words, made), words)["values"]
        judged.append(((after[name], size, index), what, after))
    lines = [f"{name} is {before[name]}{unit(session, name)}; {len(tried)} changes tried\n"]
    for rank, (key, what, after) in enumerate(sorted(judged, key=lambda one: one[0])[:count], 1):
        lines.append(f"{rank}. {what}: {difference(before[name], key[0])}\n")
        lines += costs(session, name, before, after)
    return 0, "".join(lines), ""


def main():
    """Answer for the document on standard input."""
    document, words = json.loads(sys.stdin.buffer.read()), sys.argv[1:]
    asked = list(itertools.takewhile(lambda word: not word.startswith("--"), words))
    words = words[len(asked) :]
    if asked[0] == "advise":
        task, number, families, count = asked[1:]
        told = advise(document, words, task, number, families.split(","), int(count))
    else:
        limits = [(kind, *limit.rsplit("=", 1)) for kind, limit in zip(asked[1::2], asked[2::2])]
        told = check(document, words, [(kind, name, int(n)) for kind, name, n in limits])
    sys.stdout.write(told[1])
    sys.stderr.write(told[2])
    sys.exit(told[0])


if __name__ == "__main__":
    main()
