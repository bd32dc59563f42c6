#!/usr/bin/env python3
"""Measure a run: a second opinion, which shares no code with the bench.

The kernel is that of settle.py, a flat table that is searched. A run is gone through step by step.
Before each step it is asked of every condition whether it holds, and the time that the step takes
is that of those that do. A stretch of a condition ends where it fails. After each step the events
of the step are counted.

    report.py [--settle | --keep-work [--ties oldest|core] [--known]]

Standard input is a session, or an object of a `session` and its `edits`. It is taken to be well
formed. With `--settle` the settled runs are measured, with `--keep-work` those of kept.py. With
`--known` the run after the edits ends where it is known no further, and the one before them at the
first place at which as much time has gone by. Standard output is the object that `smp_view report
--json` writes.
"""

import copy
import dataclasses
import json
import sys

import kept
import settle

BLOCKED_BY = {
    **{"delay": "delay", "delay_until": "delay", "mutex_take": "mutex"},
    **{"notify_wait": "notification", "notify_take": "notification"},
    **{"queue_send": "queue", "queue_receive": "queue"},
}
# How a wait at a queue is called after the queue.
WAYS = {"queue_send": "send", "queue_receive": "receive"}
# The calls by which a task asks for work.
WORK = ("delay", "delay_until", "notify_wait", "notify_take", "queue_receive")
CODES = [f"E{number}" for number in range(1, 10)]
# What names of numbers of no task begin with, and those of tasks that are told behind `task.`.
OWNERS = ("core.", "mutex.", "queue.", "task.")


# Steps as they stand.


def refusal(table, core, task, call):
    """The code of the first reason why a call is refused, or none."""
    in_hold, do = table.hold_core == core, call["do"]
    reasons = (
        ("E1", lambda: table.hold_core not in (None, core)),
        ("E2", lambda: table.current[core] != task),
        ("E3", lambda: settle.is_due(table, core) and not in_hold),
        ("E4", lambda: do != "finish" and table.unfinished[task] is not None),
        ("E5", lambda: do == "finish" and table.unfinished[task] is None),
        ("E6", lambda: in_hold and settle.would_block(table, task, call)),
        ("E7", lambda: do == "hold_close" and not in_hold),
        ("E8", lambda: do == "hold_open" and in_hold and table.depth == settle.DEEPEST),
        ("E9", lambda: do == "mutex_give" and table.holder[call["mutex"]] not in (None, task)),
    )
    return next((code for code, applies in reasons if applies()), None)


def runs_out(table, task):
    """Whether the return from the task's call tells that its ticks ran out."""
    call = table.unfinished[task]
    if settle.waits_in_vain(table, call):
        return settle.is_over(table, task)
    if call["do"] in ("notify_wait", "notify_take"):
        return not settle.has_notification(table, task, call)
    return False


def told(name):
    """What the names of the numbers of a task of this name begin with."""
    return f"task.{name}" if name == "run" or name.startswith(OWNERS) else name


def cause_of(call):
    """What a call waits for, as numbers name it; none where it waits for nothing."""
    cause = BLOCKED_BY.get(call["do"])
    if cause == "mutex":
        return f"mutex.{call['mutex']}"
    return f"queue.{call['queue']}.{WAYS[call['do']]}" if cause == "queue" else cause


def call_events(table, task, call, code):
    """The events that a call is by itself, of which some are told by what stands before it."""
    if code is not None:
        yield ("refused", task, code)
        return
    if cause_of(call) is not None:
        yield ("calls", task, cause_of(call))
    if call["do"] == "delay_until" and not settle.would_block(table, task, call):
        yield ("late", task)
    if call["do"] == "finish":
        if runs_out(table, task):
            yield ("timeouts", task)
            if table.unfinished[task]["do"] == "mutex_take":
                yield ("refused", f"mutex.{table.unfinished[task]['mutex']}")
    elif call["do"] == "mutex_take":
        if table.holder[call["mutex"]] is not None:
            yield ("waits" if call["ticks"] > 0 else "refused", f"mutex.{call['mutex']}")
    elif call["do"] in WAYS and settle.would_block(table, task, call):
        yield ("waits", f"queue.{call['queue']}")


def overruns(table, step):
    """The task that loses one of two values by a notification."""
    if step["do"] in ("notify", "isr_notify") and step["action"] in ("set", "set_new"):
        task = table.number[step["to"]]
        if table.state[task][step.get("index", 0)] == "received":
            yield ("notifications.lost", task)


def made(table, step):
    """Make a step, and give the events of it."""
    do, core = step["do"], step.get("core")
    before, in_use = list(table.current), list(table.in_use)
    events = []
    if do in settle.NOT_CALLS:
        events += overruns(table, step)
        settle.come_from_outside(table, step)
        if do.startswith("isr_"):
            events.append(("interrupts", f"core.{core}"))
    elif do == "switch":
        if table.hold_core is None and settle.is_due(table, core):
            settle.switch(table, core)
            if table.current[core] != before[core]:
                events += [("switches", table.current[core]), ("switches", f"core.{core}")]
                if table.ready[before[core]]:
                    events.append(("preempted", before[core]))
    else:
        task = table.number[step["by"]]
        code = refusal(table, core, task, step)
        events += call_events(table, task, step, code)
        if code is None:
            events += overruns(table, step)
            settle.CALLS[do](table, core, task, step)
    rows = enumerate(zip(in_use, table.in_use, table.base))
    return events + [("inheritances", t) for t, (was, now, base) in rows if was < now and base < now]


# What holds at a place.


def lower_core(table, task):
    """Whether a core that the task may run on has a task of lower effective priority."""
    mine = settle.effective(table, task)
    allowed = [c for c in range(table.cores) if task < table.cores or table.mask[task] >> c & 1]
    return any(settle.effective(table, table.current[c]) < mine for c in allowed)


def held_up(table, task):
    """Whether the mutex of a blocked task has a lower holder that is on no core."""
    holder = table.holder[table.unfinished[task]["mutex"]]
    lower = holder is not None and table.base[holder] < table.base[task]
    return lower and holder not in table.current


def task_conditions(table, task):
    """The names, after the task's, of the conditions of a task that hold."""
    call = table.unfinished[task]
    if call is not None and cause_of(call) is not None:
        yield f"calls.{cause_of(call)}"
    if table.base[task] < table.in_use[task]:
        yield "inherited"
    if not table.preempt[task]:
        yield "preemption_off"
    if task in table.current:
        yield from ("run", f"run.{table.current.index(task)}")
    if table.ready[task]:
        if task not in table.current:
            yield "ready"
            if lower_core(table, task):
                yield "ready.inverted"
        return
    if table.suspended[task]:
        yield "suspended"
        return
    cause = BLOCKED_BY.get(call["do"])
    if cause is None:
        return
    yield f"blocked.{cause}"
    if cause == "mutex":
        yield f"blocked.mutex.{call['mutex']}"
        if held_up(table, task):
            yield "blocked.mutex.held_up"
    if cause == "queue":
        yield f"blocked.queue.{call['queue']}.{WAYS[call['do']]}"


def conditions(table, names):
    """The names of all conditions that hold."""
    for task, name in names.items():
        yield from (f"{name}.{rest}" for rest in task_conditions(table, task))
    for core, task in enumerate(table.current):
        yield f"core.{core}.{'idle' if task < table.cores else 'user'}"
        if table.hold_core == core:
            yield f"core.{core}.held"
        if settle.is_due(table, core):
            yield f"core.{core}.due"
    for mutex, holder in enumerate(table.holder):
        if holder is not None:
            yield f"mutex.{mutex}.held"
    for queue, (length, messages) in enumerate(zip(table.length, table.messages)):
        if messages == 0:
            yield f"queue.{queue}.empty"
        if messages == length:
            yield f"queue.{queue}.full"


def event_name(event, names):
    """The name of what an event is counted by; none of an idle task."""
    kind, of, *code = event
    if isinstance(of, str):
        return f"{of}.{kind}"
    return ".".join([names[of], kind, *code]) if of in names else None


# Jobs: what a task does between two waits for work.


@dataclasses.dataclass
class Job:
    """A job of a task: where it begins, and when; when it was asked for, and had a core first."""

    begins: int
    begun: int
    asked: int
    started: int | None = None
    ends: int | None = None


def rests(table, task):
    """Whether a task waits for work."""
    call = table.unfinished[task]
    waits = call is not None and call["do"] in WORK and not table.ready[task]
    return table.suspended[task] or waits


def asks(table, task, step, code):
    """Whether a task asks for work by a step that is not refused."""
    return code is None and step.get("by") is not None and table.number[step["by"]] == task and step["do"] in WORK


def asked_time(table, task, step, ticks, now):
    """When the job was asked for that a task begins now: of a delay until a count, its tick."""
    own = step.get("by") is not None and table.number[step["by"]] == task
    call = step if own else table.unfinished[task]
    if call is None or call["do"] != "delay_until" or settle.ticks_until(table, call) > 0:
        return now
    ago = (table.tick - call["prev"] - call["inc"]) % settle.WORD
    return ticks[-1 - ago] if ago < len(ticks) else 0


class Jobs:
    """The jobs of one task so far."""

    def __init__(self, table, task):
        self.task, self.done, self.wakes = task, [], []
        self.open = None if rests(table, task) else Job(0, 0, 0)
        self.see_core(table, 0)

    def see_core(self, table, now):
        """Note the first time with a core."""
        if self.open and self.open.started is None and self.task in table.current:
            self.open.started = now

    def note(self, table, step, code, place, before, ticks, now):
        """Note the step at a place, which was made."""
        idle, more = rests(table, self.task), asks(table, self.task, step, code)
        was = self.open
        if was and (idle or more):
            mine = step["do"] == "finish" and table.number[step["by"]] == self.task
            if not (mine and idle and code is None and table.unfinished[self.task] is not None):
                was.ends = before
                self.done.append(was)
            self.open = None
        if not idle and (was is None or more):
            asked = asked_time(table, self.task, step, ticks, now)
            self.open = Job(place + 1, now, asked)
            self.wakes.append((place + 1, now))
        self.see_core(table, now)

    def numbers(self, end):
        """The name, value and place of each number of the jobs of a run that ends then."""
        jobs = self.done + [self.open] * (self.open is not None)
        answers = [(max(0, (end if j.ends is None else j.ends) - j.asked), j.begins) for j in jobs]
        waits = [
            ((end if j.ends is None else j.ends) if j.started is None else j.started, j.begun, j.begins)
            for j in jobs
        ]
        latencies = [(started - begun, begins) for started, begun, begins in waits]
        pairs = zip(self.wakes, self.wakes[1:])
        periods = [(later - first, begins) for (begins, first), (_, later) in pairs]
        yield "jobs", len(jobs), None
        yield "response.total", sum(time for time, _ in answers), None
        yield ("response.longest", *longest(answers))
        yield "response.shortest", min((max(0, j.ends - j.asked) for j in self.done), default=0), None
        yield ("latency.longest", *longest(latencies))
        yield ("period.longest", *longest(periods))
        yield "period.shortest", min((time for time, _ in periods), default=0), None


class Trail:
    """On which cores one task was, and what woke it, so far."""

    def __init__(self, table, task):
        self.task, self.ready, self.by_tick = task, table.ready[task], False
        self.core = table.current.index(task) if task in table.current else None
        self.moves = self.run_outs = 0

    def note(self, table, step, events):
        """Note a step, which was made."""
        self.run_outs += self.by_tick and ("timeouts", self.task) in events
        if not self.ready and table.ready[self.task]:
            self.by_tick = step["do"] == "tick"
        self.ready = table.ready[self.task]
        if self.task in table.current:
            core = table.current.index(self.task)
            self.moves += self.core not in (None, core)
            self.core = core


def takers(table, names, mutex):
    """How many tasks are in a call that takes the mutex."""
    calls = (table.unfinished[task] for task in names)
    return sum(call is not None and call["do"] == "mutex_take" and call["mutex"] == mutex for call in calls)


def longest(times):
    """The greatest of times, and the place of the first that is as great."""
    best = max((time for time, _ in times), default=0)
    return best, next((place for time, place in times if time == best and best > 0), None)


JOB_NUMBERS = ("jobs", "response.total", "response.longest", "response.shortest", "latency.longest")
JOB_NUMBERS += ("period.longest", "period.shortest")

# Numbers.


def time_of(session, step):
    """How many units of time a step takes: a pass its own, and a tick one where it has one."""
    if step["do"] == "pass":
        return step["units"]
    return int(step["do"] == "tick" and session.get("units", 1) == 1)


def queues_of(session):
    """The numbers of the queues."""
    return range(len(session.get("queues", [])))


def queue_waits(session):
    """The names of waits at queues; none where there are no queues."""
    ways = [f"blocked.queue.{queue}.{way}" for queue in queues_of(session) for way in WAYS.values()]
    return ["blocked.queue", *ways] if ways else []


def call_names(session):
    """The names of the calls that may wait."""
    yield from ("calls.delay", "calls.notification")
    yield from (f"calls.mutex.{mutex}" for mutex in range(session["mutexes"]))
    yield from (f"calls.queue.{queue}.{way}" for queue in queues_of(session) for way in WAYS.values())


def suspensions(session):
    """The name of being suspended, where tasks can be."""
    return ["suspended"] if "queues" in session else []


def all_conditions(session):
    """The names of all conditions that may hold."""
    cores, mutexes = range(session["cores"]), range(session["mutexes"])
    for task in session["tasks"]:
        rest = ["run", *(f"run.{core}" for core in cores), "ready", "ready.inverted"]
        rest += ["blocked.delay", "blocked.notification", "blocked.mutex", "blocked.mutex.held_up"]
        rest += [f"blocked.mutex.{mutex}" for mutex in mutexes]
        rest += queue_waits(session) + suspensions(session)
        rest += ["inherited", "preemption_off", *call_names(session)]
        yield from (f"{told(task['name'])}.{one}" for one in rest)
    for core in cores:
        yield from (f"core.{core}.{one}" for one in ("user", "idle", "due", "held"))
    yield from (f"mutex.{mutex}.held" for mutex in mutexes)
    yield from (f"queue.{queue}.{one}" for queue in queues_of(session) for one in ("empty", "full"))


def all_counts(session):
    """The names of all that is counted in steps or calls."""
    for task in session["tasks"]:
        rest = ["switches", "preempted", "inheritances", "top_priority", "timeouts", "not_made"]
        rest += ["late", "notifications.lost", "migrations", "ran_out", "unfinished", *JOB_NUMBERS]
        rest += [f"refused.{code}" for code in CODES] + list(call_names(session))
        yield from (f"{told(task['name'])}.{one}" for one in rest)
    for core in range(session["cores"]):
        yield from (f"core.{core}.{one}" for one in ("switches", "interrupts"))
    for mutex in range(session["mutexes"]):
        yield from (f"mutex.{mutex}.{one}" for one in ("wait", "waits", "refused"))
    for queue in queues_of(session):
        yield from (f"queue.{queue}.{one}" for one in ("messages", "waits"))


def measured(run):
    """The numbers of a run, and the places where the longest stretches begin."""
    session, steps, left = run.session, run.steps, run.left
    table = settle.start(session)
    names = {number: told(name) for name, number in table.number.items()}
    values = dict.fromkeys(all_counts(session), 0)
    # The time in calls has a longer name than their count.
    totals = {name: f"{name}.total" if name in values else name for name in all_conditions(session)}
    for name, total in totals.items():
        values[total] = values[f"{name}.longest"] = 0
    places, stretches = {}, {}
    ticks, now, jobs = [], 0, [Jobs(table, task) for task in names]
    trails = [Trail(table, task) for task in names]
    tops = {task: table.in_use[task] for task in names}
    most = list(table.messages)
    for place, step in enumerate(steps):
        found = set(conditions(table, names))
        stretches = {name: began for name, began in stretches.items() if name in found}
        time = time_of(session, step)
        for name in found if time else ():
            values[totals[name]] += time
            before, began = stretches.get(name, (0, place))
            stretches[name] = (before + time, began)
            if before + time > values[f"{name}.longest"]:
                values[f"{name}.longest"], places[f"{name}.longest"] = before + time, began
        for mutex in range(session["mutexes"]):
            values[f"mutex.{mutex}.wait"] += time * takers(table, names, mutex)
        events = made(table, step)
        for event in events:
            if event_name(event, names):
                values[event_name(event, names)] += 1
        before, now = now, now + time
        if step["do"] == "tick":
            ticks.append(now)
        code = next((rest[0] for kind, _, *rest in events if kind == "refused" and rest), None)
        for one in trails:
            one.note(table, step, events)
        for one in jobs:
            one.note(table, step, code, place, before, ticks, now)
        tops = {task: max(top, table.in_use[task]) for task, top in tops.items()}
        most = [max(pair) for pair in zip(most, table.messages)]
    for task, name in names.items():
        values[f"{name}.top_priority"] = tops[task]
        values[f"{name}.not_made"] = sum(told(call["by"]) == name for call in left)
    for one in trails:
        name = names[one.task]
        values[f"{name}.migrations"], values[f"{name}.ran_out"] = one.moves, one.run_outs
        values[f"{name}.unfinished"] = int(table.unfinished[one.task] is not None)
    for one in jobs:
        for number, value, begins in one.numbers(now):
            name = f"{names[one.task]}.{number}"
            values[name] = value
            if begins is not None:
                places[name] = begins
    values["run.time"] = sum(time_of(session, step) for step in steps)
    values["run.steps"], values["run.not_made"] = len(steps), len(left)
    for queue, messages in enumerate(most):
        values[f"queue.{queue}.messages"] = messages
    return {"places": places, "values": values}


@dataclasses.dataclass
class Run:
    """The run of a session, the calls that it does not make, and where it is known no further."""

    session: dict
    steps: list
    left: list
    limit: int | None = None

    def until(self, place):
        """The part of the run before a place. Of a part the same calls are not made as of all."""
        return dataclasses.replace(self, steps=self.steps[:place])

    def time(self):
        """How much time goes by."""
        return sum(time_of(self.session, step) for step in self.steps)

    def place_at(self, time):
        """The first place at which as much time has gone by; the last one if there is none."""
        places = range(len(self.steps))
        return next((place for place in places if self.until(place).time() >= time), len(self.steps))


def run_of(document, words):
    """The run of a document, with its edits made, which smp_view makes by the options."""
    document = copy.deepcopy(document)
    if "--keep-work" in words:
        ties = words[words.index("--ties") + 1] if "--ties" in words else "oldest"
        run = kept.kept(document, ties)
        return Run(run.session, run.steps, run.left(), run.known and run.known["place"])
    session = settle.edited_session(document)
    settled = "--settle" in words
    return Run(session, *(settle.settle(session) if settled else (session["steps"], [])))


def shown(document, words):
    """That run, or with `--known` the part that is known."""
    run = run_of(document, words)
    return run.until(run.limit) if "--known" in words else run


def before(document, words, after):
    """The run without the edits; with `--known` the part that takes as long as the one after them."""
    run = run_of({"session": document["session"], "edits": []}, words)
    cut = "--known" in words and after.limit is not None
    return run.until(run.place_at(after.time())) if cut else run


def measure(document, words):
    """The numbers of a document's run after its edits."""
    return measured(shown(document, words))


def units_of(session):
    """How many units of time a tick has, where it has more than one."""
    units = session.get("units", 1)
    return {"units": units} if units != 1 else {}


def report(document, words):
    """The report of a session, or of a session and of it after its edits."""
    settled = "--settle" in words or "--keep-work" in words
    rest = {"settled": settled} | units_of(document.get("session", document))
    run = shown(document, words)
    if not document.get("edits"):
        return measured(run) | rest
    was, now = measured(before(document, words, run)), measured(run)
    change = {name: now["values"][name] - value for name, value in was["values"].items()}
    return {"before": was, "after": now, "change": change} | rest


def main():
    """Report on the document on standard input."""
    document = json.loads(sys.stdin.buffer.read())
    print(json.dumps(report(document, sys.argv[1:]), sort_keys=True))


if __name__ == "__main__":
    main()
