#!/usr/bin/env python3
"""Hold a run of a workload to the workload: a second opinion, which shares no code with the bench.

    workloads.py WORKLOAD RUN

WORKLOAD is a file with a workload document, with edits or without, RUN one with a session. Both are
taken to be well formed. The kernel is that of settle.py. The run is gone through once. Nowhere is the next step
worked out: at each place it is asked of the step that stands there whether it may.

- header: the session has the settings and the tasks of the workload
- settled: where a core may switch or a call may return, that step stands, of the least core; and
  such a step stands nowhere else
- program: a call is the next one in the program of its task, for the answers that came; behind the
  program the task suspends itself, again and again
- calls: a call stands where its task has come to it and has done the work before it, and no
  lesser core can make one; no interrupt comes and no time goes by while a core can make its next
  call
- time: a tick stands right behind the unit that fills it; a pass ends where a work or a tick ends
  or an interrupt comes, and goes beyond none of these; an interrupt comes at its time, and those of
  one time come in the order of the workload
- end: no time goes by behind the last tick, and the run ends there when nothing is left to do

A task works while it is on a core and has no unfinished call. Nothing is printed where the run is
right. Else the first place where one fails is, with the first that does, and the status is 1.
"""

import copy
import heapq
import itertools
import json
import pathlib
import sys
from collections import Counter

import settle

NOT_IN_HEADER = ("interrupts", "ticks", "steps")
OF_CALLERS = ("core", "by")
OF_EDITS = ("edit", "task", "item")
BRANCHES = ("then", "else")
LOOPS = {"repeat", "forever"}
LISTS = (*BRANCHES, "of", "forever")
OF_TIME = ("at", "every")


class Wrong(Exception):
    """A property that fails, and how."""


# Programs.


def next_work(item, used):
    """The units of a work, of a list the ones whose turn it is."""
    works = item["work"] if isinstance(item["work"], list) else [item["work"]]
    used[id(item)] += 1
    return works[(used[id(item)] - 1) % len(works)]


def walk(items, used):
    """Give the units of each work, and each call, that a task comes to; and if a `break` ends it.

    Behind each call it is sent whether the task goes on in `then`.
    """
    for item in items:
        if item == "break":
            return True
        if "work" in item:
            yield next_work(item, used)
        elif "repeat" in item or "forever" in item:
            yield from walk_of_loop(item, used)
        else:
            branch = "then" if (yield item) else "else"
            if (yield from walk(item.get(branch, []), used)):
                return True
    return False


def walk_of_loop(item, used):
    """Go through the rounds of a loop."""
    rounds = itertools.repeat(None, item["repeat"]) if "repeat" in item else itertools.repeat(None)
    for _ in rounds:
        if (yield from walk(item["of"] if "repeat" in item else item["forever"], used)):
            return


def lists_in(item):
    """The lists of items that stand in an item."""
    return [] if item == "break" else [item[name] for name in LISTS if name in item]


def is_left(items):
    """Whether a `break` ends the loop whose items these are."""
    inside = (item for item in items if item != "break" and not LOOPS & item.keys())
    return "break" in items or any(is_left(some) for item in inside for some in lists_in(item))


def never_ends(items):
    """Whether there is a loop for ever that no `break` ends."""
    loops = (item["forever"] for item in items if item != "break" and "forever" in item)
    inside = (some for item in items for some in lists_in(item))
    return any(not is_left(body) for body in loops) or any(map(never_ends, inside))


class Task:
    """How far a user task has come: to a work, of which units are left, or to a call."""

    def __init__(self, task, tick):
        self.name, self.wake, self.waits = task["name"], tick, False
        self.never_ends = never_ends(task.get("program", []))
        self.walk, self.ended = self.whole_walk(task), False
        self.go_on(None)

    def whole_walk(self, task):
        """The walk of a task, which suspends itself behind its program, again and again."""
        yield from walk(task.get("program", []), Counter())
        self.ended = True
        while True:
            yield {"do": "suspend", "to": task["name"]}

    def go_on(self, answer):
        """Go on behind a work, or behind a call with its answer."""
        item = self.walk.send(answer)
        self.left, self.call = (item, None) if isinstance(item, int) else (0, item)

    def work(self, units):
        """Do so many units of the work, of which there are as many."""
        self.left -= units
        if self.left == 0:
            self.go_on(None)

    def next_call(self):
        """The call as a session has it, without its caller."""
        call = without(self.call, BRANCHES)
        return call if call["do"] != "delay_until" else {"prev": self.wake} | call


# Answers.


def is_affirmative(table, task, call):
    """Whether a call that neither waits nor is refused answers what is neither false nor 0."""
    do, at = call["do"], call.get("index", 0)
    to = table.number.get(call.get("to"))
    if do == "delay_until":
        return settle.ticks_until(table, call) > 0
    if do == "notify":
        return call["action"] != "set_new" or table.state[to][at] != "received"
    if do in ("notify_wait", "notify_take"):
        return settle.has_notification(table, task, call)
    if do == "state_clear":
        return table.state[to][at] == "received"
    if do == "value_clear":
        return table.value[to][at] > 0
    if do in ("mutex_take", "mutex_give"):
        return (table.holder[call["mutex"]] is None) == (do == "mutex_take")
    return settle.can_pass(table, call) if do in settle.WAYS else True


def answer_of(table, core, task, call):
    """Whether the answer of a call is affirmative; none where the task waits for the answer."""
    if settle.is_misuse(table, core, task, call):
        return False
    waits = call["do"] not in ("delay_until", "suspend") and settle.would_block(table, task, call)
    return None if waits else is_affirmative(table, task, call)


def answer_of_finish(table, task):
    """The same of the call from which a task returns."""
    if settle.would_block(table, task, {"do": "finish"}):
        return None
    call = table.unfinished[task]
    return call["do"] == "delay" or is_affirmative(table, task, call)


# Edits.


def without(members, left_out):
    """An object without some members."""
    return {name: value for name, value in members.items() if name not in left_out}


def place_of(items, path):
    """The list in which the item at a path stands, and its index there."""
    parts = iter(path)
    index = next(parts)
    for part in parts:
        item = items[index]
        word = part if part in BRANCHES else next(filter(item.__contains__, LISTS))
        items, index = item[word], next(parts) if part in BRANCHES else part
    return items, index


def edited(document):
    """The workload that a document is, or what its edits leave of it, made one after another."""
    if "workload" not in document:
        return document
    workload = copy.deepcopy(document["workload"])
    tasks = {task["name"]: task for task in workload["tasks"]}
    for edit in document.get("edits", []):
        task = tasks[edit["task"]]
        if edit["edit"] == "change":
            task.update(priority=edit["priority"], mask=edit["mask"])
        else:
            items, index = place_of(task["program"], edit["item"])
            items[index] = without(edit, OF_EDITS)
    return workload


# The run so far.



def alike(one, other):
    """Whether two steps are the same one."""
    return settle.written(one, True) == settle.written(other, True)


def arrivals(workload):
    """Each time at which an interrupt comes, with the interrupt's index, in order."""
    end = workload["ticks"] * workload.get("units", 1)

    def times(index, interrupt):
        last = end if "every" in interrupt else min(end, interrupt["at"] + 1)
        yield from ((at, index) for at in range(interrupt["at"], last, interrupt.get("every", 1)))

    return heapq.merge(*itertools.starmap(times, enumerate(workload.get("interrupts", []))))


class Run:
    """What the steps so far led to."""

    def __init__(self, workload):
        self.table = settle.start(workload)
        tasks = enumerate(workload["tasks"], workload["cores"])
        self.tasks = {number: Task(task, workload["tick"]) for number, task in tasks}
        self.units, self.last = workload.get("units", 1), workload["ticks"]
        self.time = self.ticks = 0
        self.interrupts, self.arrivals = workload.get("interrupts", []), arrivals(workload)
        self.arrival = next(self.arrivals, None)

    def tick_end(self):
        """The time at which the tick ends."""
        return (self.ticks + 1) * self.units

    def first(self, holds):
        """The least core of which something holds, or none."""
        return next((core for core in range(self.table.cores) if holds(core)), None)

    def may_switch(self, core):
        """Whether a core may switch."""
        return self.table.hold_core is None and settle.is_due(self.table, core)

    def may_finish(self, core):
        """Whether the task of a core may return from its call."""
        task, step = self.table.current[core], {"do": "finish"}
        comes = task in self.tasks and settle.comes_to(self.table, core, task, "finish")
        return comes and not settle.is_misuse(self.table, core, task, step)

    def may_call(self, core):
        """Whether the task of a core has come to its next call, and has done the work before."""
        number = self.table.current[core]
        task = self.tasks.get(number)
        comes = task is not None and task.call is not None
        return comes and settle.comes_to(self.table, core, number, task.call["do"])

    def working(self):
        """The tasks that work, with units left to work."""
        on_cores = (task for task in self.table.current if task in self.tasks)
        free = (self.tasks[task] for task in on_cores if self.table.unfinished[task] is None)
        return [task for task in free if task.left > 0]

    def name_on(self, core):
        """The name of the user task on a core, or none."""
        task = self.tasks.get(self.table.current[core])
        return None if task is None else task.name


# Properties of a step.


def is_call(step):
    """Whether a step is a call of a program."""
    return step["do"] not in settle.NOT_CALLS + settle.BY_THEMSELVES


def look_settled(run, step):
    """A switch and a `finish` stand where they may be made, and nowhere else."""
    switch, finish = run.first(run.may_switch), run.first(run.may_finish)
    if step["do"] == "switch":
        if step["core"] != switch:
            raise Wrong("settled", f"core {step['core']} is not the first that may switch")
    elif switch is not None:
        raise Wrong("settled", f"core {switch} may switch")
    elif step["do"] == "finish":
        if step["core"] != finish or step["by"] != run.name_on(finish):
            raise Wrong("settled", f"{step['by']} is not the first that may return")
    elif finish is not None:
        raise Wrong("settled", f"{run.name_on(finish)} may return from its call")


def look_program(run, step):
    """A call is the next one of its task's program."""
    task = run.tasks[run.table.number[step["by"]]] if is_call(step) else None
    if task and task.call is not None and not alike(without(step, OF_CALLERS), task.next_call()):
        raise Wrong("program", f"{step['by']} comes to {json.dumps(task.next_call())}")


def look_calls(run, step):
    """A call stands where its task has come to it, and nothing but time that is over before it."""
    first = run.first(run.may_call)
    if is_call(step):
        core = step["core"]
        if core >= run.table.cores or run.name_on(core) != step["by"] or not run.may_call(core):
            raise Wrong("calls", f"{step['by']} has not come to a call on core {core}")
        if core != first:
            raise Wrong("calls", f"{run.name_on(first)} calls first, on core {first}")
    elif is_behind_calls(run, step) and first is not None:
        raise Wrong("calls", f"{run.name_on(first)} can make its next call, on core {first}")


def is_behind_calls(run, step):
    """Whether a step comes from outside, but no tick whose time went by before it."""
    return step["do"] in settle.NOT_CALLS and (step["do"] != "tick" or run.units == 1)


def look_time(run, step):
    """Ticks, passes and interrupts stand where the workload says."""
    filled = run.units > 1 and run.time == run.tick_end()
    if filled != (step["do"] == "tick" and run.units > 1):
        raise Wrong("time", "a tick's units have gone by" if filled else "a tick is not at its end")
    if step["do"] == "pass":
        look_pass(run, step["units"])
    elif step["do"] == "tick" and run.units == 1:
        look_going(run, 1)
    elif step["do"] in settle.INTERRUPTS:
        look_interrupt(run, step)


def look_going(run, units):
    """So much time goes by, and goes beyond nothing."""
    if run.ticks == run.last:
        raise Wrong("end", "time goes by behind the last tick")
    if run.time + units > run.tick_end():
        raise Wrong("time", "the tick ends before")
    if run.arrival is not None and run.arrival[0] < run.time + units:
        raise Wrong("time", f"interrupt {run.arrival[1]} comes before")
    for task in run.working():
        if task.left < units:
            raise Wrong("time", f"a work of {task.name} ends before")


def look_pass(run, units):
    """A pass ends where a tick or a work ends or an interrupt comes."""
    if run.units == 1:
        raise Wrong("time", "a tick has one unit")
    look_going(run, units)
    to = run.time + units
    comes = run.arrival is not None and run.arrival[0] == to
    if not (to == run.tick_end() or comes or any(task.left == units for task in run.working())):
        raise Wrong("time", "nothing ends and nothing comes there")


def look_interrupt(run, step):
    """An interrupt is the one that comes now."""
    if run.arrival is None or run.arrival[0] != run.time:
        raise Wrong("time", "no interrupt comes now")
    if not alike(step, without(run.interrupts[run.arrival[1]], OF_TIME)):
        raise Wrong("time", f"interrupt {run.arrival[1]} comes now")


def look_end(run):
    """Behind the last step nothing is left to do."""
    if run.ticks != run.last:
        raise Wrong("end", f"{run.ticks} ticks came")
    left = {"switch": run.may_switch, "return": run.may_finish, "call": run.may_call}
    for what, may in left.items():
        if run.first(may) is not None:
            raise Wrong("end", f"core {run.first(may)} has to {what} yet")


# Steps.


def make_call(run, step):
    """Make a call of a program, and note its answer."""
    table, core, number = run.table, step["core"], run.table.number[step["by"]]
    task = run.tasks[number]
    answer = answer_of(table, core, number, step)
    if step["do"] == "delay_until" and not settle.is_misuse(table, core, number, step):
        task.wake = (step["prev"] + step["inc"]) % settle.WORD
    settle.make_call(table, core, number, step)
    task.waits = answer is None
    if not task.waits:
        task.go_on(answer)


def make_finish(run, step):
    """Make a return; a `delay_until` had its answer as it was called."""
    number = run.table.number[step["by"]]
    task, answer = run.tasks[number], answer_of_finish(run.table, number)
    settle.make_call(run.table, step["core"], number, step)
    if task.waits and answer is not None:
        task.waits = False
        task.go_on(answer)


def go_by(run, units):
    """Let time go by, in which tasks work."""
    for task in run.working():
        task.work(units)
    run.time += units


def make(run, step):
    """Make a step that may stand where it does."""
    do = step["do"]
    if do == "switch":
        settle.switch(run.table, step["core"])
    elif do == "finish":
        make_finish(run, step)
    elif is_call(step):
        make_call(run, step)
    else:
        go_by(run, step["units"] if do == "pass" else int(do == "tick" and run.units == 1))
        settle.come_from_outside(run.table, step)
        run.ticks += do == "tick"
        if do in settle.INTERRUPTS:
            run.arrival = next(run.arrivals, None)


# Documents.


def header_of(document):
    """The settings and the tasks of a workload or a session."""
    header = {"units": 1} | without(document, NOT_IN_HEADER)
    return header | {"tasks": [without(task, ["program"]) for task in document["tasks"]]}


def ends_line(words, names):
    """A line that names tasks; nothing where there is none."""
    return f"{words}: {', '.join(names)}\n" if names else ""


def ends(run):
    """Which tasks are at the end of their programs, and which are not, though that has an end."""
    ended = [task.name for task in run.tasks.values() if task.ended]
    left = [task.name for task in run.tasks.values() if not task.ended and not task.never_ends]
    line = ends_line("at the end of its program", ended)
    return line + ends_line("not at the end of its program", left)


def fault(workload, session, told=None):
    """The first place where a property fails, which, and how; nothing where the run is right.

    What was told of the ends of programs is held too, where it is given.
    """
    if header_of(workload) != header_of(session):
        return "header: other settings or tasks"
    run, place = Run(workload), 0
    try:
        for place, step in enumerate(session["steps"]):
            for look in (look_settled, look_program, look_calls, look_time):
                look(run, step)
            make(run, step)
        place = len(session["steps"])
        look_end(run)
    except Wrong as wrong:
        return f"place {place}: {wrong.args[0]}: {wrong.args[1]}"
    return f"ends: {ends(run)!r}, not {told!r}" if told not in (None, ends(run)) else ""


def main():
    """Hold a run to its workload."""
    if len(sys.argv) != 3:
        print("usage: workloads.py WORKLOAD RUN", file=sys.stderr)
        return 2
    workload, session = (json.loads(pathlib.Path(path).read_bytes()) for path in sys.argv[1:])
    found = fault(edited(workload), session)
    if found:
        print(found)
    return int(found != "")


if __name__ == "__main__":
    sys.exit(main())
