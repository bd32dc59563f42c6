#!/usr/bin/env python3
"""Make the run of an edited session that keeps work: a second opinion, which shares no code with
the bench.

    kept.py [--ties oldest|core] [--known]

The kernel and the settled run are those of settle.py. Steps from outside, which are ticks,
interrupts and passes, stay as they are, in their order. A call comes when its task has worked for
it as long as it had in the settled run of the session before the edits.

A task works at a place where it is on a core and has no unfinished call. Its clock is a pair: the
units of time that found it working, and how many steps from outside that take no time found it
working since the last of these. What elapsed from one clock to a later one is a pair too: where
the units differ, their difference and the second number of the later one; else 0 and the
difference of the second numbers. From a clock to one that is not later nothing elapsed. Pairs are
compared by units first.

Each step of the session before the edits has the clocks of all tasks at its place in the settled
run: of a call that is not made there those of its end; of a `switch` or a `finish` those of the
next step that is neither. An edit moves them with the steps; a step that replaces another one has
those of the other, one that is inserted those of the step before which it is put, or of the end.

The work of a call is what elapsed from its task's clock at the task's call before in the edited
list, or from the start, to that at the call. The clock at the end is that of one more call, which
is never made. A clock that is not later than that of the call before counts as the same one.

A call is timely where it is the first of its task that is not made, nothing of E1 to E5 is said
against it on the core that its task is on, and its task has worked for it since its call before:
what elapsed is not less than the work, or its units alone are not less where the next step from
outside takes time or there is none. Of the run the next step is the first of: a `switch` of the
least core; a `finish` on the least core; of the timely calls the one that stands first in the
edited list, or with `--ties core` that of the least core; else the next step from outside. A pass
is cut where a call, or the end of a task, would become timely within it. Where a pass comes right
before a tick in the settled run, no call comes between them: the last unit of a tick and the tick
are one.

The edits `{"edit": "work", "at": 7, "by": 300}`, and `"less"` for `"by"`, give the call at a place
so many units more of work, or fewer, but not fewer than none: one after another, and the second
number of such a work is 0. They are refused where no call stands. They belong to the call that
stands there then: one that replaces it has none of them.

Standard input is as for settle.py, and so is the output. With `--known` the first place from which
nothing is known is written last, as the member `known`, with the task and with why: `end`, the
first where a step from outside is next though the end of the task is timely; `got true` or `got
false`, behind a step that ends a call of the task with this answer, where the same call had the
other one before the edits. A call that replaces one of the same task is the same; one that is
inserted has none before.
"""

import copy
import json
import sys
from dataclasses import dataclass, field

import settle
import workloads

START = (0, 0)


# Clocks.


def elapsed(earlier, later):
    """What elapsed from one clock to another; nothing to one that is not later."""
    if later <= earlier:
        return START
    if later[0] != earlier[0]:
        return (later[0] - earlier[0], later[1])
    return (0, later[1] - earlier[1])


def time_of(step, units):
    """The units of time that a step takes."""
    if step["do"] == "pass":
        return 0 if units == 1 else step["units"]
    return 1 if step["do"] == "tick" and units == 1 else 0


def is_outside(step):
    """Whether a step comes from outside."""
    return step["do"] in settle.NOT_CALLS


def working(table):
    """The user tasks that work."""
    on_cores = (task for task in table.current if task >= table.cores)
    return [task for task in on_cores if table.unfinished[task] is None]


def clock_after(clock, time):
    """A clock of a task that a step from outside, which takes so much time, found working."""
    return (clock[0] + time, 0) if time > 0 else (clock[0], clock[1] + 1)


def let_go_by(table, clocks, step, units):
    """Let the clocks go on at a step from outside."""
    for task in working(table):
        clocks[task] = clock_after(clocks[task], time_of(step, units))


def make(table, step):
    """Make any step."""
    if step["do"] == "switch":
        settle.switch(table, step["core"])
    elif is_outside(step):
        settle.come_from_outside(table, step)
    else:
        settle.make_call(table, step["core"], table.number[step["by"]], step)


# The document.


def places_in(session, run):
    """Of each step of a session the place where the settled run makes it."""
    outside = iter([place for place, step in enumerate(run) if is_outside(step)])
    calls = {task["name"]: [] for task in session["tasks"]}
    for place, step in enumerate(run):
        if not is_outside(step) and step["do"] not in settle.BY_THEMSELVES:
            calls[step["by"]].append(place)
    made = {name: iter(places) for name, places in calls.items()}
    places, end = [], len(run)
    for step in session["steps"]:
        if step["do"] in settle.BY_THEMSELVES:
            places.append(None)
        else:
            places.append(next(outside if is_outside(step) else made[step["by"]], end))
    following = end
    for index in reversed(range(len(places))):
        if places[index] is None:
            places[index] = following
        following = places[index]
    return places


def clocks_in(session, run):
    """The clocks of all tasks at each place of a run."""
    table, units = settle.start(session), session.get("units", 1)
    clocks = {number: START for number in table.number.values()}
    at_places = [dict(clocks)]
    for step in run:
        if is_outside(step):
            let_go_by(table, clocks, step, units)
        make(table, step)
        at_places.append(dict(clocks))
    return at_places


class Answers:
    """What calls are answered: of each that has its answer, whether it is affirmative."""

    def __init__(self):
        self.waiting, self.of = {}, {}

    def note(self, table, step, name):
        """Note the answer of a step that is next, of a call by its name or its place."""
        if is_outside(step) or step["do"] == "switch":
            return
        core, task = step["core"], table.number[step["by"]]
        if step["do"] == "finish":
            if task in self.waiting and not settle.would_block(table, task, step):
                self.of[self.waiting.pop(task)] = workloads.answer_of_finish(table, task)
            return
        self.waiting.pop(task, None)
        answer = workloads.answer_of(table, core, task, step)
        if answer is None:
            self.waiting[task] = name
        else:
            self.of[name] = answer


def answers_in(session, run):
    """The answers of a run's calls, by their places."""
    table, answers = settle.start(session), Answers()
    for place, step in enumerate(run):
        answers.note(table, step, place)
        make(table, step)
    return answers.of


@dataclass
class Item:
    """A step of the edited list, with the clocks that it has, and how edits change its work.

    Where it is a call of the document or stands for one, that one's task and what it was answered.
    """

    step: dict
    clocks: dict
    joined: bool
    caller: str | None = None
    answer: bool | None = None
    changes: list = field(default_factory=list)

    def answer_before(self):
        """What the same call was answered before the edits."""
        return self.answer if self.step["by"] == self.caller else None


def apply(items, end, edit):
    """Make an edit of the list, which may be made."""
    at = edit.get("at")
    if edit["edit"] == "insert":
        there = items[at] if at < len(items) else end
        items.insert(at, Item(edit["step"], there.clocks, there.joined))
    elif edit["edit"] == "remove":
        del items[at]
    elif edit["edit"] == "replace":
        items[at].step, items[at].changes = edit["step"], []
    elif edit["edit"] == "work" and workloads.is_call(items[at].step):
        items[at].changes.append(edit.get("by", 0) - edit.get("less", 0))


def edited_items(document):
    """The edited list, the session that it is of, and the clocks of the end."""
    session = copy.deepcopy(document.get("session", document))
    run, _left = settle.settle(session)
    at_places, behind_pass = clocks_in(session, run), [step["do"] == "pass" for step in run]
    answers = answers_in(session, run)
    *items, end = (
        Item(step, at_places[place], place > 0 and behind_pass[place - 1])
        for step, place in zip([*session["steps"], None], [*places_in(session, run), len(run)])
    )
    for item, place in zip(items, places_in(session, run)):
        if workloads.is_call(item.step):
            item.caller, item.answer = item.step["by"], answers.get(place)
    for edit in document["edits"] if "session" in document else ():
        session["steps"] = [item.step for item in items]
        if edit["edit"] == "change":
            settle.change(session, edit)
        elif not settle.refusal(session, edit):
            apply(items, end, edit)
    session["steps"] = [item.step for item in items]
    return items, session, end.clocks


# Calls with their works.


@dataclass
class Queue:
    """The calls of a task that are not made, each with its place in the list and its work."""

    calls: list = field(default_factory=list)
    last: tuple = START
    made: int = 0

    def put(self, place, step, clock, changes):
        """Put a call behind the others."""
        self.calls.append((place, step, changed(elapsed(self.last, clock), changes)))
        self.last = max(self.last, clock)

    def first(self):
        """The first call that is not made; the end is one without a step."""
        return self.calls[self.made]


def changed(work, changes):
    """The work of a call with changes in their order."""
    for change in changes:
        work = (min(max(work[0] + change, 0), 2**63 - 1), 0)
    return work


def queues_of(items, end, numbers):
    """Of each task its calls with their works."""
    queues = {number: Queue() for number in numbers.values()}
    for place, item in enumerate(items):
        if workloads.is_call(item.step):
            task = numbers[item.step["by"]]
            queues[task].put(place, item.step, item.clocks[task], item.changes)
    for task, queue in queues.items():
        queue.put(len(items), None, end[task], [])
    return queues


# The run.


class Run:
    """The run so far."""

    def __init__(self, document, ties):
        items, session, end = edited_items(document)
        self.table, self.units = settle.start(session), session.get("units", 1)
        self.names = [task["name"] for task in session["tasks"]]
        self.queues = queues_of(items, end, self.table.number)
        self.clocks = {task: START for task in self.queues}
        self.outside = [dict(item.step) for item in items if is_outside(item.step)]
        self.joined = [
            item.joined and item.step["do"] == "tick" for item in items if is_outside(item.step)
        ]
        self.answers, self.items = Answers(), items
        self.ties, self.session, self.steps, self.known = ties, session, [], None
        self.cuts = 0

    def next_time(self):
        """The time of the next step from outside; none where there is no such step."""
        return time_of(self.outside[0], self.units) if self.outside else None

    def may_call(self, core):
        """Whether the user task of a core comes to make a call."""
        task = self.table.current[core]
        return task in self.queues and settle.comes_to(self.table, core, task, "yield")

    def has_worked(self, task):
        """Whether a task has worked for its next call."""
        work = self.queues[task].first()[2]
        return self.clocks[task] >= work or (
            self.clocks[task][0] >= work[0] and self.next_time() != 0
        )

    def ready(self):
        """The cores whose tasks have worked for their next calls, or for their ends."""
        cores = range(self.table.cores)
        return [c for c in cores if self.may_call(c) and self.has_worked(self.table.current[c])]

    def timely_call(self):
        """The timely call that goes first, with its core, or none."""
        calls = ((self.queues[self.table.current[core]].first(), core) for core in self.ready())
        calls = [(call, core) for call, core in calls if call[1] is not None]
        order = (lambda found: found[1]) if self.ties == "core" else (lambda found: found[0][0])
        return min(calls, key=order, default=None)

    def is_within_tick(self):
        """Whether a pass was made and its tick is next."""
        behind_pass = self.steps and self.steps[-1]["do"] == "pass"
        return behind_pass and bool(self.joined) and self.joined[0]

    def quiet(self):
        """Make a switch, a return or a timely call, and give it."""
        step = settle.quiet_switch(self.table)
        if step is not None:
            return step
        before = copy.deepcopy(self.table)
        step = settle.quiet_finish(self.table, self.names)
        if step is not None:
            self.note(before, step, None)
            return step
        found = None if self.is_within_tick() else self.timely_call()
        if found is None:
            return None
        (place, call, _work), core = found
        step = {**call, "core": core}
        self.note(self.table, step, place)
        task = self.table.number[call["by"]]
        make(self.table, step)
        self.queues[task].made += 1
        self.clocks[task] = START
        return step

    def note(self, table, step, place):
        """Note an answer; behind one that is another than before the edits nothing is known."""
        known = dict(self.answers.of)
        self.answers.note(table, step, place)
        for call in self.answers.of.keys() - known.keys():
            before, now = self.items[call].answer_before(), self.answers.of[call]
            if before not in (None, now):
                why = "got true" if now else "got false"
                self.limit(len(self.steps) + 1, self.items[call].step["by"], why)

    def limit(self, place, task, why):
        """From a place on it is not known what a task does."""
        self.known = self.known or {"place": place, "task": task, "why": why}

    def cut(self):
        """Cut the next pass where a call or an end becomes timely within it."""
        time = self.next_time()
        cores = filter(self.may_call, range(self.table.cores))
        tasks = [self.table.current[core] for core in cores]
        left = (self.queues[task].first()[2][0] - self.clocks[task][0] for task in tasks)
        within = [units for units in left if 0 < units < time]
        if self.outside[0]["do"] == "pass" and within:
            self.cuts += 1
            least = min(within)
            parts = (least, time - least)
            self.outside[:1] = [{"do": "pass", "units": units} for units in parts]
            self.joined[:0] = [False]

    def from_outside(self):
        """Make the next step from outside, and give it."""
        if not self.outside:
            return None
        if not self.is_within_tick() and (ready := self.ready()):
            task = min(self.table.current[core] for core in ready)
            self.limit(len(self.steps), self.names[task - self.table.cores], "end")
        self.cut()
        step = self.outside.pop(0)
        del self.joined[0]
        let_go_by(self.table, self.clocks, step, self.units)
        make(self.table, step)
        return step

    def whole(self):
        """Make the whole run."""
        while (step := self.quiet() or self.from_outside()) is not None:
            self.steps.append(step)
        return self

    def left(self):
        """The calls that are not made, in the order of the list."""
        calls = [call for queue in self.queues.values() for call in queue.calls[queue.made : -1]]
        return [call[1] for call in sorted(calls, key=lambda call: call[0])]


def kept(document, ties="oldest"):
    """The run of a document that keeps work."""
    return Run(document, ties).whole()


def main():
    """Make the run of the document on standard input."""
    words = sys.argv[1:]
    ties = words[words.index("--ties") + 1] if "--ties" in words else "oldest"
    run = kept(json.loads(sys.stdin.buffer.read()), ties)
    indexed = settle.has_index(run.session)
    for step in run.steps:
        sys.stdout.write(settle.line(settle.written(step, indexed)))
    for call in run.left():
        left = {member: value for member, value in call.items() if member != "core"}
        sys.stdout.write(settle.line({"left": settle.written(left, indexed)}))
    if "--known" in words:
        sys.stdout.write(settle.line({"known": run.known}))


if __name__ == "__main__":
    main()
