#!/usr/bin/env python3
"""Hold runs that the built smp_view simulates against scripts/workloads.py, which shares no code
with it.

The documents of examples/workloads/ come first: their runs have to be right, and tasks have the
loads that the table there tells, by scripts/report.py. Then come 2,000 random workloads, or as many
as the first argument says. They have calls and interrupts of every kind, loops, branches and lists
of works, and tick counts at both ends of 32 bits. Each run has to be right. Then up to six other
runs are made of it by damage, and each has to be refused. Every other damaged run is settled, so
that its switches and returns are right again. Then the workload is edited, and the run of what that
leaves has to be right. A line where something is wrong, then totals; status 1 where something is. The second argument is the first number of the random workloads. SMP_VIEW
names another program.
"""

import copy
import importlib
import itertools
import json
import os
import pathlib
import random
import re
import subprocess
import sys
from collections import Counter

import report
import settle
import workloads

documents = importlib.import_module("check-settled")

PROGRAM = os.environ.get("SMP_VIEW", documents.PROGRAM)
EXAMPLES = pathlib.Path(__file__).resolve().parent.parent / "examples/workloads"
LAST = documents.LAST
DAMAGED_OF_EACH, MOST_TRIES = 6, 40
NO_PLAIN_CALL = ("finish", "hold_open", "hold_close")
SELDOM = ("suspend", "preempt_off", "priority_set", "affinity_set")
WAITING = ("notify_wait", "notify_take", "mutex_take", "queue_send", "queue_receive")


# Random workloads.


def header(rng):
    """A workload without programs."""
    cores, priorities = rng.choice((2, 2, 3, 4)), rng.randint(1, 5)
    queues = [{"length": 2, "messages": 1}, {"length": 1, "messages": 0}]
    tasks = [
        {
            "name": f"t{number}",
            "priority": rng.randrange(priorities),
            "mask": rng.choice(((1 << cores) - 1, rng.randint(1, (1 << cores) - 1))),
        }
        for number in range(rng.randint(1, 8))
    ]
    return {
        "format": 3,
        "cores": cores,
        "priorities": priorities,
        "slicing": rng.random() < 0.5,
        "tick": rng.choice((0, 5, LAST - 2, LAST, rng.randint(0, LAST))),
        "mutexes": rng.randint(1, 3),
        "notes": rng.randint(1, 2),
        "queues": queues[: rng.randint(0, 2)],
        "units": rng.choice((1, 7, 1000)),
        "tasks": tasks,
        "ticks": rng.choice((0, 2, 9, 20, 20, 40, 40, 60)),
    }


def units(rng, workload):
    """The units of a work: near a tick or a part of one."""
    tick = workload["units"]
    parts = (max(1, tick // 7), max(1, tick // 2), tick, tick + 1)
    return rng.choice((1, *parts, rng.randint(1, 3 * tick)))


def work(rng, workload):
    """A work, or a list of works."""
    if rng.random() < 0.6:
        return {"work": units(rng, workload)}
    return {"work": [units(rng, workload) for _ in range(rng.randint(1, 4))]}


def lasting_work(rng, workload):
    """Works of which none is much shorter than a tick, for a loop without end: so time goes by."""
    tick = workload["units"]
    least = max(1, tick // 3)
    return {"work": [rng.randint(least, 2 * tick), least]}


def ticks(rng, call):
    """The ticks of a call; without end where it waits for something."""
    return rng.choice((0, 1, 1, 2, 3, 5, LAST if call["do"] in WAITING else 7))


def odds_against(do):
    """How often a call of a kind is drawn anew."""
    return 0 if do in WAITING else 0.8 if do in SELDOM else 0.5


def plain_call(rng, workload):
    """A call of a program without branches, and no hold; most wait for something."""
    call = documents.call(rng, workload)
    while call["do"] in NO_PLAIN_CALL or rng.random() < odds_against(call["do"]):
        call = documents.call(rng, workload)
    call = workloads.without(call, workloads.OF_CALLERS)
    if "ticks" in call:
        call["ticks"] = ticks(rng, call)
    return workloads.without(call, ["prev"] if rng.random() < 0.8 else [])


def guarded(rng, workload):
    """A mutex that is taken, held for a while and given back."""
    mutex = {"mutex": rng.randrange(workload["mutexes"])}
    call = {"do": "mutex_take", "ticks": rng.choice((0, 2, LAST))} | mutex
    return call | {"then": [work(rng, workload), {"do": "mutex_give"} | mutex]}


def hold(rng, workload):
    """A hold with what is done in it."""
    inside = (rng.choice((work, plain_call))(rng, workload) for _ in range(rng.randint(0, 3)))
    return [{"do": "hold_open"}, *inside, {"do": "hold_close"}]


def branch(rng, workload, depth, in_loop):
    """The items of a branch, of which the last may end a loop."""
    leave = ["break"] if in_loop and rng.random() < 0.4 else []
    found = items(rng, workload, depth - 1, in_loop) if rng.random() < 0.8 else []
    return found + leave if all(map(goes_on, found)) else found


def call_with_branches(rng, workload, depth, in_loop):
    """A call with branches, of which one may be left out."""
    call, names = plain_call(rng, workload), rng.choice((["then"], ["else"], ["then", "else"]))
    return call | {name: branch(rng, workload, depth, in_loop) for name in names}


def loop(rng, workload, depth):
    """A loop, which may be for ever."""
    body = items(rng, workload, depth - 1, True)
    if rng.random() < 0.5:
        return {"repeat": rng.randint(1, 3), "of": body}
    return {"forever": [lasting_work(rng, workload), *body]}


def is_left(found):
    """Whether a `break` of these items leaves the loop around them."""
    items_in = (item for item in found if item != "break")
    branches = (item.get(name, []) for item in items_in for name in workloads.BRANCHES)
    return "break" in found or any(map(is_left, branches))


def goes_on(item):
    """Whether a walk may come behind an item."""
    return "forever" not in item or is_left(item["forever"])


def items(rng, workload, depth, in_loop):
    """Some items, with loops and branches no deeper than so many."""
    found = []
    for _ in range(rng.randint(1, 4)):
        draw = rng.random()
        if depth == 0 or draw < 0.5:
            found.append(rng.choice((work, guarded, plain_call, plain_call))(rng, workload))
        elif draw < 0.6:
            found += hold(rng, workload)
        elif draw < 0.8:
            found.append(call_with_branches(rng, workload, depth, in_loop))
        else:
            found.append(loop(rng, workload, depth))
        if not goes_on(found[-1]):
            break
    return found


def program(rng, workload):
    """The program of a task; most go on for ever."""
    begin = items(rng, workload, 3, False) if rng.random() < 0.5 else []
    if rng.random() < 0.2 or not all(map(goes_on, begin)):
        return begin
    periodic = {"do": "delay_until", "inc": rng.randint(1, 5)}
    pace = rng.choice(([], [periodic], [{"do": "delay", "ticks": 1}]))
    return [*begin, {"forever": [lasting_work(rng, workload), *pace, loop(rng, workload, 3)]}]


def interrupt(rng, workload):
    """An interrupt of any kind, which may come again and again."""
    tick = workload["units"]
    at = rng.choice((0, rng.randrange(3 * tick), tick * rng.randint(0, workload["ticks"] + 1)))
    every = rng.choice(({}, {"every": tick}, {"every": rng.randint(tick, 5 * tick)}))
    return {"at": at} | every | documents.interrupt(rng, workload)


def workload_of(rng):
    """A random workload."""
    workload = header(rng)
    for task in workload["tasks"]:
        if rng.random() < 0.95:
            task["program"] = program(rng, workload)
    if rng.random() < 0.8:
        workload["interrupts"] = [interrupt(rng, workload) for _ in range(rng.randint(0, 4))]
    return workload


# Edits.


def paths(items, path=()):
    """Each item of a program with its path."""
    for index, item in enumerate(items):
        here = (*path, index)
        yield item, here
        for word in filter(item.__contains__, workloads.LISTS if isinstance(item, dict) else ()):
            yield from paths(item[word], here + (word,) * (word in workloads.BRANCHES))


def change(rng, workload, task):
    """Another priority and mask of a task."""
    priority = rng.randrange(workload["priorities"])
    mask = rng.randint(1, (1 << workload["cores"]) - 1)
    return {"edit": "change", "task": task["name"], "priority": priority, "mask": mask}


def is_plain(item):
    """Whether no loop ends by an item and no hold: a work, or another call without branches."""
    if item == "break" or item.get("do") in NO_PLAIN_CALL:
        return False
    return not any(word in item for word in workloads.LISTS)


def other_item(rng, workload, task):
    """Another work in place of one, or a delay in place of a call, if the task has one."""
    may = [(item, path) for item, path in paths(task.get("program", [])) if is_plain(item)]
    if not may:
        return change(rng, workload, task)
    item, path = rng.choice(may)
    delay = {"do": "delay", "ticks": rng.randint(1, 4)}
    new = work(rng, workload) if "work" in item else delay
    return {"edit": "set", "task": task["name"], "item": list(path)} | new


def with_edits(rng, workload):
    """A document with edits of a workload."""
    document = {"workload": workload, "edits": []}
    for _ in range(rng.randint(1, 3)):
        left = workloads.edited(document)
        edit = rng.choice((change, other_item))(rng, left, rng.choice(left["tasks"]))
        document["edits"].append(edit)
    return document


# Damage.


def places(steps, may):
    """The places of the steps of which something holds."""
    return [place for place, step in enumerate(steps) if may(step)]


def anywhere(rng, steps, may=lambda step: True):
    """One of these places, or none."""
    return rng.choice(places(steps, may) or [None])


def is_pass(step):
    """Whether time goes by."""
    return step["do"] == "pass"


def dropped(rng, steps, _workload):
    """A step goes."""
    del steps[anywhere(rng, steps)]


def doubled(rng, steps, _workload):
    """A step comes twice."""
    at = anywhere(rng, steps)
    steps.insert(at, dict(steps[at]))


def exchanged(rng, steps, _workload):
    """Two neighbours stand the other way round."""
    at = rng.randrange(len(steps))
    steps[at : at + 2] = reversed(steps[at : at + 2])


def moved(rng, steps, may):
    """A step comes some places earlier or later."""
    at = anywhere(rng, steps, may)
    if at is not None:
        step = steps.pop(at)
        steps.insert(max(0, at + rng.choice((-9, -3, -2, -1, 1, 2, 3, 9))), step)


def call_moved(rng, steps, _workload):
    """A call comes earlier or later."""
    moved(rng, steps, workloads.is_call)


def interrupt_moved(rng, steps, _workload):
    """An interrupt comes earlier or later."""
    moved(rng, steps, lambda step: step["do"] in settle.INTERRUPTS)


def tick_moved(rng, steps, _workload):
    """A tick comes earlier or later."""
    moved(rng, steps, lambda step: step["do"] == "tick")


def pass_cut(rng, steps, _workload):
    """A pass is made in two parts."""
    at = anywhere(rng, steps, lambda step: is_pass(step) and step["units"] > 1)
    if at is not None:
        first = rng.randrange(1, steps[at]["units"])
        rest = steps[at]["units"] - first
        steps[at : at + 1] = [{"do": "pass", "units": first}, {"do": "pass", "units": rest}]


def passes_joined(rng, steps, _workload):
    """A pass takes the units of the next one too, and stands in the place of either."""
    found = places(steps, is_pass)
    if len(found) > 1:
        which = rng.randrange(len(found) - 1)
        kept, gone = rng.sample(found[which : which + 2], 2)
        steps[kept] = {"do": "pass", "units": steps[kept]["units"] + steps[gone]["units"]}
        del steps[gone]


def pass_changed(rng, steps, _workload):
    """A pass is longer or shorter, and the next one may make up for it."""
    found = [place for place in places(steps, is_pass) if steps[place]["units"] > 1]
    if found:
        at, more = rng.randrange(len(found)), rng.choice((-1, 1))
        both = found[at : at + 1 + (rng.random() < 0.5)]
        for place, change in zip(both, (more, -more)):
            steps[place] = {"do": "pass", "units": steps[place]["units"] + change}


def other_core(rng, steps, workload):
    """A step is made by another core."""
    at = anywhere(rng, steps, lambda step: "core" in step)
    if at is not None:
        steps[at]["core"] = rng.randrange(workload["cores"])


def other_task(rng, steps, workload):
    """A step is made by another task, or is for another one."""
    at = anywhere(rng, steps, lambda step: "by" in step or "to" in step)
    if at is not None:
        member = rng.choice([name for name in ("by", "to") if name in steps[at]])
        steps[at][member] = documents.name(rng, workload)


def other_number(rng, steps, _workload):
    """A call or an interrupt has another argument."""
    names = ("ticks", "prev", "inc", "value", "bits", "exit", "mask")
    at = anywhere(rng, steps, lambda step: any(name in step for name in names))
    if at is not None:
        name = rng.choice([name for name in names if name in steps[at]])
        steps[at][name] += 1 if steps[at][name] < LAST else -1


def other_step(rng, steps, _workload):
    """A step stands in the place of another one."""
    at = anywhere(rng, steps)
    steps[at] = dict(rng.choice(steps))


def put_in(rng, steps, _workload):
    """A step comes once more, anywhere."""
    steps.insert(rng.randint(0, len(steps)), dict(rng.choice(steps)))


def ended_early(rng, steps, _workload):
    """The last steps are left out."""
    del steps[-rng.randint(1, min(9, len(steps))) :]


DAMAGES = (
    *(dropped, doubled, exchanged, call_moved, interrupt_moved, tick_moved, pass_cut),
    *(passes_joined, pass_changed, other_core, other_task, other_number, other_step, put_in),
    ended_early,
)


def damaged(rng, session, workload):
    """What damage a run gets, and the damaged run."""
    other, damage = copy.deepcopy(session), rng.choice(DAMAGES)
    if other["steps"]:
        damage(rng, other["steps"], workload)
    if rng.random() < 0.5:
        other["steps"] = [settle.written(step, True) for step in settle.settle(other)[0]]
    return damage.__name__, other


# Runs.


def simulated(workload):
    """The run of a workload as the program makes it, what is told of ends, and what is wrong."""
    words, text = [PROGRAM, "simulate"], json.dumps(workload)
    ran = subprocess.run(words, input=text, capture_output=True, text=True, check=False)
    if ran.returncode != 0:
        return None, "", f"status {ran.returncode} {ran.stdout[:99]!r} {ran.stderr[:99]!r}"
    return json.loads(ran.stdout), ran.stderr, ""


class Count:
    """What was right and what was wrong."""

    def __init__(self):
        self.right, self.wrong, self.passed = 0, 0, 0
        self.kinds, self.refused, self.properties = Counter(), Counter(), Counter()

    def hold(self, what, document):
        """Hold the run of a workload, or of what its edits leave, and give it where it is right."""
        session, told, why = simulated(document)
        why = why or workloads.fault(workloads.edited(document), session, told)
        if why:
            self.wrong += 1
            print(f"WRONG {what}: {why}")
            return None
        self.right += 1
        self.kinds.update(step["do"] for step in session["steps"])
        return session

    def damage(self, rng, number, session, workload):
        """Damage a run, and hold the other runs that are made by it to the workload."""
        tries = (damaged(rng, session, workload) for _ in range(MOST_TRIES))
        others = ((kind, other) for kind, other in tries if other != session)
        for kind, other in itertools.islice(others, DAMAGED_OF_EACH):
            why = workloads.fault(workload, other)
            if why:
                self.refused[kind] += 1
                self.properties[why.split(": ")[1]] += 1
            else:
                self.passed += 1
                print(f"WRONG workload {number}, {kind}: the damaged run is not refused")


def loads(text, name):
    """The percents of a core that a table tells of the tasks of an example."""
    row = re.search(rf"^\| `{re.escape(name)}` \|.*\|([^|]*)\|$", text, re.M)
    told = re.findall(r"`(\S+)` ([\d.]+)", row[1]) if row else []
    return {task: float(load) for task, load in told}


def loads_in(session):
    """The percents of a core that tasks have in a run."""
    values = report.report(session, [])["values"]
    run = {task["name"]: values[f"{task['name']}.run"] for task in session["tasks"]}
    return {name: round(100 * time / values["run.time"], 1) for name, time in run.items()}


def hold_examples(count):
    """Hold the runs of the examples, and the loads that are told of their tasks."""
    text = (EXAMPLES / "README.md").read_text()
    for path in sorted(EXAMPLES.glob("*.json")):
        workload = json.loads(path.read_bytes())
        session = count.hold(path.name, workload)
        if session is not None:
            found = loads_in(session)
            if loads(text, path.stem) != found:
                count.wrong += 1
                print(f"WRONG {path.name}: loads {found}")


def main():
    """Hold runs and damaged runs, and say how many are wrong."""
    if not pathlib.Path(PROGRAM).is_file():
        sys.exit(f"no program at {PROGRAM}: build it first")
    many = int(sys.argv[1]) if len(sys.argv) > 1 else 2000
    first = int(sys.argv[2]) if len(sys.argv) > 2 else 0
    count = Count()
    hold_examples(count)
    for number in range(first, first + many):
        rng = random.Random(number)
        workload = workload_of(rng)
        session = count.hold(f"workload {number}", workload)
        if session is not None:
            count.damage(rng, number, session, workload)
        count.hold(f"workload {number} with edits", with_edits(rng, workload))
    steps = f"{sum(count.kinds.values())} steps of {len(count.kinds)} kinds"
    print(f"{count.right} runs right, {count.wrong} wrong, {steps}")
    by = ", ".join(f"{name} {of}" for name, of in sorted(count.properties.items()))
    print(f"refused by: {by}")
    print(f"{sum(count.refused.values())} damaged runs refused, {count.passed} not refused")
    sys.exit(count.wrong + count.passed > 0)


if __name__ == "__main__":
    main()
