#!/usr/bin/env python3
"""Hold runs of a FreeRTOS kernel V9 to the rules. scripts/against-kernel.sh builds the kernel.

    against_runs.py [--uncut] FOLDER [COUNT [FIRST]]

FOLDER has the drivers: `driver0-32` without time slices, `driver1-32` with them, and `driver0-16`
and `driver1-16`, whose timer has 16 bits. COUNT random workloads, or 5,000, of which FIRST is the
number of the first, run on the kernel. All tasks are on core 0, and core 1 idles. V9 departs from
the rules where `departure` says so, of the run by the rules alone: a workload ends with the last
tick before that. Each log has to conform by conform.py, and its steps have to be those of the run
that the rules make of the workload, which workloads.py holds to the workload. In each log that
conforms one thing that was seen is then changed, at the last line or any other, and has to be found
there. A line where something is wrong, then totals; status 1 where something is. Three files are
left in FOLDER for each run that differs.

With --uncut workloads are run in which V9 departs from the rules, and it is told how many of these
runs differ, by their first departure. First come those of against_kernel/departures.json, of which
each has to differ by the departure that it names.
"""

import copy
import json
import pathlib
import random
import subprocess
import sys
from collections import Counter

import conform
import settle
import workloads

DEPARTURES = pathlib.Path(__file__).resolve().parent / "against_kernel/departures.json"
PRIORITIES = 6
WORK, CALL, REPEAT, FOREVER, BREAK = range(5)
# In the order of the calls in driver.c.
CALLS = (
    *("yield", "delay", "delay_until", "delay_until prev", "priority_set", "notify", "notify_wait"),
    *("notify_take", "state_clear", "mutex_take", "mutex_give", "queue_send", "queue_receive"),
    *("suspend", "resume", "hold_open", "hold_close", "isr_notify", "isr_send", "isr_receive"),
    "isr_resume",
)
NUMBERS = ("clear", "entry", "exit", "mutex", "queue", "inc", "prev", "priority", "ticks", "value")
ACTIONS = ("none", "set_bits", "increment", "set", "set_new")
MOST_STEPS = 4000


# Random workloads that V9 has the calls for.


def with_one_greatest(priorities):
    """Priorities of which only the first of the greatest is the greatest."""
    greatest = max(max(priorities), 2)
    first = priorities.index(max(priorities))
    others = [min(priority, greatest - 1) for priority in priorities]
    return [*others[:first], greatest, *others[first + 1 :]]


def header(rng):
    """A workload without programs: mostly no two tasks of one priority."""
    count = rng.choice((1, 2, 3, 4, 4, 5, 5, 6))
    priorities = [rng.randint(1, PRIORITIES - 1) for _ in range(count)]
    if rng.random() < 0.7:
        count = min(count, PRIORITIES - 1)
        priorities = rng.sample(range(1, PRIORITIES), count)
    if rng.random() < 0.9:
        priorities = with_one_greatest(priorities)
    tasks = [
        {"name": f"t{number}", "priority": priority, "mask": 1}
        for number, priority in enumerate(priorities)
    ]
    queues = [{"length": rng.randint(1, 3), "messages": 0} for _ in range(rng.randint(0, 2))]
    for queue in queues:
        queue["messages"] = rng.randint(0, queue["length"])
    return {
        "format": 3,
        "cores": 2,
        "priorities": PRIORITIES,
        "slicing": rng.random() < 0.4,
        "tick": 0,
        "mutexes": rng.choice((1, 1, 2, 3)),
        "notes": 1,
        "queues": queues,
        "units": rng.choice((1, 7, 1000, 1000)),
        "tasks": tasks,
        "ticks": rng.choice((9, 20, 40, 60)),
    }


def work(rng, workload):
    """A work, mostly shorter than a tick."""
    tick = workload["units"]
    most = rng.choice((1, max(1, tick // 7), max(1, tick // 2), tick, 2 * tick))
    return {"work": rng.randint(1, most)}


def lasting_work(rng, workload):
    """Works for a loop without end, so time goes by in it."""
    tick = workload["units"]
    return {"work": [rng.randint(max(1, tick // 5), max(1, tick // 2)), max(1, tick // 5), tick]}


def name(rng, workload):
    """The name of a task."""
    return rng.choice(workload["tasks"])["name"]


def note(rng, workload):
    """Which task a notification is for, and what it does."""
    action = rng.choice(ACTIONS)
    value = {"value": rng.choice((0, 1, 6, 7, settle.ENDLESS))} if action.startswith("set") else {}
    return {"to": name(rng, workload), "action": action} | value


def some_ticks(rng, may_be_endless):
    """The ticks of a call."""
    return {"ticks": rng.choice((0, 1, 1, 2, 3, 5, settle.ENDLESS if may_be_endless else 7))}


def queue(rng, workload):
    """Which queue is meant."""
    return {"queue": rng.randrange(len(workload["queues"]))}


def bits(rng):
    """The bits that a wait clears."""
    return {"entry": rng.choice((0, 1, settle.ENDLESS)), "exit": rng.choice((0, 3, settle.ENDLESS))}


MEMBERS = {
    "yield": lambda rng, workload: {},
    "delay": lambda rng, workload: some_ticks(rng, False),
    "delay_until": lambda rng, workload: {"inc": rng.randint(1, 5)}
    | ({"prev": rng.randint(0, 12)} if rng.random() < 0.2 else {}),
    "priority_set": lambda rng, workload: {
        "to": name(rng, workload),
        "priority": rng.randint(1, PRIORITIES - 1),
    },
    "notify": note,
    "notify_wait": lambda rng, workload: bits(rng) | some_ticks(rng, True),
    "notify_take": lambda rng, workload: {"clear": rng.random() < 0.5} | some_ticks(rng, True),
    "state_clear": lambda rng, workload: {"to": name(rng, workload)},
    "mutex_take": lambda rng, workload: {"mutex": rng.randrange(workload["mutexes"])}
    | some_ticks(rng, True),
    "queue_send": lambda rng, workload: queue(rng, workload) | some_ticks(rng, True),
    "queue_receive": lambda rng, workload: queue(rng, workload) | some_ticks(rng, True),
    "suspend": lambda rng, workload: {"to": name(rng, workload)},
    "resume": lambda rng, workload: {"to": name(rng, workload)},
    "isr_notify": note,
    "isr_send": queue,
    "isr_receive": queue,
    "isr_resume": lambda rng, workload: {"to": name(rng, workload)},
}
# How often each is drawn.
OF_TASKS = (
    *("yield", "delay", "delay", "delay_until", "delay_until", "priority_set", "notify", "notify"),
    *("notify", "notify_wait", "notify_wait", "notify_wait", "notify_take", "notify_take"),
    *("state_clear", "mutex_take", "suspend", "resume", "resume", "resume"),
)
OF_QUEUES = ("queue_send", "queue_receive") * 3
OF_INTERRUPTS = ("isr_notify", "isr_resume")


def drawn(rng, workload, kinds):
    """A call or an interrupt of one of some kinds."""
    do = rng.choice(kinds)
    return {"do": do} | MEMBERS[do](rng, workload)


def plain_call(rng, workload):
    """A call without branches. A mutex is taken apart from this, to be given back."""
    kinds = [do for do in OF_TASKS if do != "mutex_take"]
    return drawn(rng, workload, kinds + list(OF_QUEUES if workload["queues"] else ()))


def guarded(rng, workload, depth):
    """A mutex that is taken, held for a while and given back."""
    call = drawn(rng, workload, ("mutex_take",))
    inside = [{"work": work(rng, workload)["work"] + workload["units"] // 2}]
    if rng.random() < 0.5:
        inside.append({"do": "delay", "ticks": rng.randint(1, 3)})
    if rng.random() < 0.4:
        inside += [plain_call(rng, workload), work(rng, workload)]
    if depth > 0 and rng.random() < 0.4:
        inside.append(guarded(rng, workload, depth - 1))
    give = {"do": "mutex_give", "mutex": call["mutex"]}
    return call | {"then": [*inside, give]}


IN_HOLDS = ("yield", "notify", "notify", "state_clear", "resume", "priority_set", "notify_take")


def hold(rng, workload):
    """A hold with calls that never wait; the target makes no tick in it, so there is no work."""
    kinds = IN_HOLDS + (OF_QUEUES if workload["queues"] else ())
    calls = [drawn(rng, workload, kinds) for _ in range(rng.randint(0, 3))]
    calls = [call | ({"ticks": 0} if "ticks" in call else {}) for call in calls]
    return [{"do": "hold_open"}, *calls, {"do": "hold_close"}]


def with_branches(rng, workload, depth):
    """A call with branches."""
    call = plain_call(rng, workload)
    names = rng.choice((["then"], ["else"], ["then", "else"]))
    return call | {branch: items(rng, workload, depth - 1) for branch in names}


def items(rng, workload, depth):
    """Some items."""
    found = []
    for _ in range(rng.randint(1, 4)):
        draw = rng.random()
        if draw < 0.3:
            found.append(work(rng, workload))
        elif draw < 0.55 or depth == 0:
            found.append(plain_call(rng, workload))
        elif draw < 0.75:
            found.append(guarded(rng, workload, 1))
        elif draw < 0.82:
            found += hold(rng, workload)
        elif draw < 0.92:
            found.append(with_branches(rng, workload, depth))
        else:
            of = items(rng, workload, depth - 1)
            found.append({"repeat": rng.randint(1, 3), "of": of})
    return found


def program(rng, workload):
    """The program of a task; most go on for ever."""
    begin = items(rng, workload, 2) if rng.random() < 0.5 else []
    if rng.random() < 0.15:
        return begin
    delay = {"do": "delay", "ticks": rng.randint(1, 3)}
    pace = rng.choice(([], [{"do": "delay_until", "inc": rng.randint(1, 5)}], [delay], [delay]))
    often = guarded(rng, workload, 1) if rng.random() < 0.5 else plain_call(rng, workload)
    round_ = [lasting_work(rng, workload), *pace, often, *items(rng, workload, 1)]
    return [*begin, {"forever": round_ + (["break"] if rng.random() < 0.05 else [])}]


def interrupt(rng, workload):
    """An interrupt of core 0."""
    of_queues = ("isr_send", "isr_receive") if workload["queues"] else ()
    tick = workload["units"]
    at = rng.choice((0, rng.randrange(3 * tick), tick * rng.randint(0, workload["ticks"])))
    every = rng.choice(({}, {"every": tick}, {"every": rng.randint(tick, 5 * tick)}))
    return {"at": at, "core": 0} | every | drawn(rng, workload, OF_INTERRUPTS + of_queues)


def workload_of(rng):
    """A random workload."""
    workload = header(rng)
    for task in workload["tasks"]:
        task["program"] = program(rng, workload)
    if rng.random() < 0.8:
        workload["interrupts"] = [interrupt(rng, workload) for _ in range(rng.randint(0, 4))]
    return workload


# The run by the rules.


def next_step(run):
    """The next step of a run, or nothing at its end."""
    if run.units > 1 and run.time == run.tick_end():
        return {"do": "tick"}
    if (core := run.first(run.may_switch)) is not None:
        return {"do": "switch", "core": core}
    if (core := run.first(run.may_finish)) is not None:
        return {"do": "finish", "core": core, "by": run.name_on(core)}
    if (core := run.first(run.may_call)) is not None:
        task = run.tasks[run.table.current[core]]
        return {**task.next_call(), "core": core, "by": task.name}
    if run.arrival is not None and run.arrival[0] == run.time:
        return workloads.without(run.interrupts[run.arrival[1]], workloads.OF_TIME)
    if run.ticks == run.last:
        return None
    return {"do": "tick"} if run.units == 1 else {"do": "pass", "units": units_to_go(run)}


def units_to_go(run):
    """How many units go by until something ends or comes."""
    ends = [run.tick_end() - run.time, *(task.left for task in run.working())]
    return min(ends + ([run.arrival[0] - run.time] if run.arrival else []))


# Where V9 departs from the rules.


class Lists:
    """What is known of V9's ready lists: where `pxIndex` stands."""

    def __init__(self):
        # Whether the task of core 0 was picked by a switch, and has stood where it stands since.
        self.picked = False
        # Of each priority whether a task was picked since its list was empty.
        self.used = set()

    def step(self, step, before, after):
        """Follow a step."""
        now = after.current[0]
        if step["do"] == "switch" and step["core"] == 0:
            self.picked = True
            self.used.add(after.in_use[now])
        elif after.stamp[now] != before.stamp[now] or after.in_use[now] != before.in_use[now]:
            self.picked = False
        ready = {priority for priority, is_ready in zip(after.in_use, after.ready) if is_ready}
        self.used &= ready


def entered(before, after):
    """The user tasks that a step put at the end of a ready list, in their order."""
    ready = (task for task in range(after.cores, len(after.ready)) if after.ready[task])
    moved = (task for task in ready if after.stamp[task] != before.stamp[task])
    return sorted(moved, key=lambda task: after.stamp[task])


def is_out_of_order(lists, before, after):
    """Whether V9 may put a task elsewhere than last among ready ones of its priority.

    It does not where `pxIndex` stands at the task that runs, which is of that priority and may block
    afterwards, nor where it stands at the end of the list, since none was picked.
    """
    now = after.current[0]
    for task in entered(before, after):
        priority = after.in_use[task]
        others = [
            other
            for other in range(after.cores, len(after.ready))
            if other != task and after.ready[other] and after.in_use[other] == priority
            and after.stamp[other] < after.stamp[task]
        ]
        was_there = before.ready[now] and before.in_use[now] == priority
        stays = now != task and was_there and after.in_use[now] == priority
        fresh = priority not in lists.used and not was_there and now != task
        if others and not (fresh or (stays and lists.picked)):
            return True
    return False


def yields_for_equal(step, before, after):
    """Whether V9 preempts a task for one of the same priority, where the rules do not."""
    now = before.current[0]
    if step["do"] == "tick" and before.slicing:
        return False
    woken = [task for task in entered(before, after) if not before.ready[task]]
    return any(after.in_use[task] == before.in_use[now] for task in woken)


def departs_in_priority_set(step, before, after):
    """How V9 sets or yields otherwise than the rules, or nothing."""
    to, now, new = before.number[step["to"]], before.current[0], step["priority"]
    old = before.base[to]
    if new != old and before.in_use[to] not in (old, after.in_use[to]):
        return "priority_set goes above an inherited priority"
    raised = new > old and to != now and new >= before.in_use[now]
    lowered = new < old and to == now
    was_due = settle.is_due(before, 0)
    if was_due or (raised or lowered) == settle.is_due(after, 0):
        return ""
    if not after.ready[to]:
        return "priority_set raises a task that is not ready to the one that runs or above it"
    return "priority_set raises a task to the priority of the one that runs"


def departs_in_give(step, before, after):
    """Whether V9 does not yield where the rules do: it lowers the giver, and wakes a lesser one."""
    now, mutex = before.current[0], step["mutex"]
    first = settle.first_waiter(before, ("mutex", mutex))
    lowered = after.in_use[now] < before.in_use[now]
    return lowered and first is not None and after.in_use[first] <= after.in_use[now]


def departs_in_finish(step, before, after):
    """What of the end of a wait V9 does otherwise."""
    task = before.number[step["by"]]
    call = before.unfinished[task]
    if call["do"] == "mutex_take" and after.unfinished[task] is None:
        if after.holder[call["mutex"]] != task and after.in_use != before.in_use:
            return "a holder is lowered after a timeout"
    if call["do"] == "notify_wait" and before.state[task][0] == "idle":
        return "a wait for a notification ends after a state_clear"
    return ""


def departs_in_resume(step, before):
    """Whether V9 takes a task for suspended that waits for a notification without end."""
    to = before.number[step["to"]]
    call = before.unfinished[to]
    waits = call is not None and call["do"] in ("notify_wait", "notify_take")
    return waits and not before.ready[to] and not before.suspended[to] and before.wake[to] is None


def departure(lists, step, before, after):
    """How V9 departs from the rules by a step, or nothing."""
    do = step["do"]
    if do in ("tick", "resume", "isr_resume") and yields_for_equal(step, before, after):
        return f"a {do} makes ready a task of the priority of the one that runs"
    if do == "priority_set" and (found := departs_in_priority_set(step, before, after)):
        return found
    if do == "mutex_give" and departs_in_give(step, before, after):
        return "a give lowers the giver and wakes no greater one"
    if do == "suspend" and before.state[before.number[step["to"]]][0] == "waiting":
        return "a suspend of a task that waits for a notification"
    if do in ("resume", "isr_resume") and departs_in_resume(step, before):
        return "a resume of a task that waits for a notification without end"
    if do == "finish" and (found := departs_in_finish(step, before, after)):
        return found
    if do != "switch" and is_out_of_order(lists, before, after):
        return "a task becomes ready among ready ones of its priority"
    return ""


def departure_at_start(workload):
    """Whether V9 starts with another task: the last of those of the highest priority."""
    priorities = [task["priority"] for task in workload["tasks"]]
    return priorities.count(max(priorities)) > 1


class TooLong(Exception):
    """A run of too many steps."""


def snapshot(table):
    """The table as it is: a step changes lists in it, and lists in these, and nothing else."""
    copied = copy.copy(table)
    copied.__dict__ = {
        name: value[:] if isinstance(value, list) else value for name, value in vars(table).items()
    }
    copied.waiting = {event: tasks[:] for event, tasks in table.waiting.items()}
    copied.state = [states[:] for states in table.state]
    return copied


def simulated(workload, cut=True):
    """The steps by the rules, and where V9 departs from them: when first, and how; or nothing.

    With a cut there are no steps behind that.
    """
    run, lists, steps, first = workloads.Run(workload), Lists(), [], None
    while (step := next_step(run)) is not None:
        if len(steps) == MOST_STEPS:
            raise TooLong
        before = snapshot(run.table)
        time = run.time
        workloads.make(run, step)
        if first is None and (found := departure(lists, step, before, run.table)):
            first = time + (step["do"] == "tick" and run.units == 1), found
            if cut:
                break
        lists.step(step, before, run.table)
        steps.append(step)
    return steps, first


def within(workload):
    """The workload, cut where V9 departs from the rules, its steps, and how V9 departs."""
    if departure_at_start(workload):
        return None, [], "several tasks of the highest priority at the start"
    steps, found = simulated(workload)
    if found is None:
        return workload, steps, ""
    ticks = (found[0] - 1) // workload["units"] if found[0] > 0 else 0
    if ticks == 0:
        return None, [], found[1]
    cut = workload | {"ticks": ticks}
    steps, again = simulated(cut)
    assert again is None
    return cut, steps, found[1]


# The kernel.


def numbers_of_call(workload, call):
    """The number of a call, and its three numbers."""
    tasks = {task["name"]: place for place, task in enumerate(workload["tasks"])}
    do = call["do"] + (" prev" if "prev" in call else "")
    to = [tasks[call["to"]]] if "to" in call else []
    action = [ACTIONS.index(call["action"])] if "action" in call else []
    rest = [int(call[member]) for member in NUMBERS if member in call]
    return [CALLS.index(do), *(to + action + rest + [0, 0, 0])[:3]]


def numbers_of(workload, found):
    """A list of items as the driver reads it."""
    numbers = [len(found)]
    for item in found:
        if item == "break":
            numbers.append(BREAK)
        elif "work" in item:
            works = item["work"] if isinstance(item["work"], list) else [item["work"]]
            numbers += [WORK, len(works), *works]
        elif "repeat" in item:
            numbers += [REPEAT, item["repeat"], *numbers_of(workload, item["of"])]
        elif "forever" in item:
            numbers += [FOREVER, *numbers_of(workload, item["forever"])]
        else:
            numbers += [CALL, *numbers_of_call(workload, item)]
            for branch in workloads.BRANCHES:
                numbers += numbers_of(workload, item.get(branch, []))
    return numbers


def written(rng, workload, first_time):
    """A workload as the driver reads it. Some queues are semaphores."""
    words = [workload["units"], workload["ticks"], first_time, workload["mutexes"]]
    words.append(len(workload["queues"]))
    for of in workload["queues"]:
        words += [of["length"], of["messages"], rng.randint(0, 1)]
    words.append(len(workload["tasks"]))
    for task in workload["tasks"]:
        words += [task["name"], task["priority"], *numbers_of(workload, task["program"])]
    interrupts = workload.get("interrupts", [])
    words.append(len(interrupts))
    for one in interrupts:
        words += [one["at"], one.get("every", 0), *numbers_of_call(workload, one)]
    return " ".join(map(str, words)) + "\n"


def settings_of(workload):
    """The session document of a workload, with no steps."""
    tasks = [workloads.without(task, ["program"]) for task in workload["tasks"]]
    return workloads.without(workload, ["ticks", "interrupts"]) | {"tasks": tasks, "steps": []}


# Comparing.


def comparable(steps, left_out):
    """Steps as both have them: time goes by in one piece, and steps at some places are left out."""
    found = []
    for place, step in enumerate(steps):
        if step["do"] == "pass" and found and found[-1]["do"] == "pass":
            found[-1] = {"do": "pass", "units": found[-1]["units"] + step["units"]}
        elif place not in left_out:
            found.append(settle.written(step, True))
    while found and found[-1]["do"] == "pass":
        found.pop()
    return found


def is_unseen(table, step):
    """Whether a kernel of one core does not show a step.

    That is a switch of core 1, or of core 0 from an idle task to the other one, and a resume that
    does nothing.
    """
    if step["do"] == "switch":
        before = table.current[0]
        taken = settle.pick(table, 0) if before < table.cores else before
        return step["core"] == 1 or (before < table.cores and taken < table.cores)
    of_resume = step["do"] in ("resume", "isr_resume")
    return of_resume and not table.suspended[table.number[step["to"]]]


def unseen(workload, steps):
    """The places of the steps that a kernel of one core does not show."""
    table, found = settle.start(settings_of(workload)), set()
    for place, step in enumerate(steps):
        if is_unseen(table, step):
            found.add(place)
        conform.made(table, step)
    return found


def difference(workload, steps, log, bits, first_time):
    """How a log is not what it should be, or nothing."""
    settings = settings_of(workload)
    try:
        lines = conform.read_log(settings, log, bits)
    except conform.BadLine as bad:
        return f"bad log: {bad.args[0]}"
    if found := conform.difference(settings, lines):
        return f"does not conform:\n{found}"
    seen = conform.imported(settings, lines, bits, first_time)["steps"]
    wanted = comparable(steps, unseen(workload, steps))
    made = comparable(seen, set())
    for place, pair in enumerate(zip(wanted, made)):
        if pair[0] != pair[1]:
            return f"step {place} by the rules: {pair[0]}\n  on the kernel: {pair[1]}"
    if len(wanted) != len(made):
        return f"{len(wanted)} steps by the rules, {len(made)} on the kernel"
    return ""


def with_other_sight(rng, settings, log):
    """A log in which the target saw something else at one line, and its number; or nothing."""
    lines = log.splitlines()
    places = [place for place, line in enumerate(lines) if ": " in line]
    if not places:
        return None
    place = rng.choice((places[-1], rng.choice(places)))
    words, _, seen = lines[place].partition(": ")
    names = [task["name"] for task in settings["tasks"]] + ["IDLE1"]
    others = names if words.split(" ")[1] == "switch" else ["done", "blocked", "true", "false"]
    lines[place] = f"{words}: {rng.choice([other for other in others if other != seen] or ['?'])}"
    return "\n".join(lines), place + 1


def is_missed(rng, workload, log):
    """Whether another thing that the target saw is not found where it stands."""
    settings = settings_of(workload)
    other = with_other_sight(rng, settings, log)
    if other is None:
        return False
    found = conform.difference(settings, conform.read_log(settings, other[0]))
    return f"line {other[1]}: " not in found


class Count:
    """What was found."""

    def __init__(self):
        self.conform, self.differ, self.missed, self.seen = 0, 0, 0, 0
        self.steps, self.cut, self.left_out = Counter(), Counter(), Counter()
        self.departed, self.same = Counter(), Counter()

    def log(self, log):
        """Count the lines of a log."""
        lines = log.splitlines()
        self.steps.update(line.split(" ")[1].rstrip(":") for line in lines)
        self.seen += sum(": " in line for line in lines)

    def told(self):
        """The totals."""
        cut, left_out = sum(self.cut.values()), sum(self.left_out.values())
        runs = f"{self.conform} runs conform, {self.differ} differ"
        yield f"{runs}; {cut} of them are cut, {left_out} left out"
        kinds = ", ".join(f"{do} {count}" for do, count in sorted(self.steps.items()))
        yield f"{sum(self.steps.values())} lines, {self.seen} with what was seen: {kinds}"
        yield f"{self.missed} logs with another thing seen are not found"
        for what, counts in (("cut", self.cut), ("left out", self.left_out)):
            yield from (f"  {what} {count}: {why}" for why, count in counts.most_common())

    def told_of_departures(self):
        """How many runs differ by each departure."""
        for why in sorted(self.departed | self.same):
            yield f"{self.departed[why]} runs differ, {self.same[why]} do not: {why}"


# Runs.


def run_on_kernel(folder, rng, number, workload, steps):
    """The log of a run, and how it is not what it should be."""
    bits = rng.choice((32, 32, 16))
    first_time = rng.choice((0, (1 << bits) - rng.randint(1, 3000)))
    text = written(rng, workload, first_time)
    driver = folder / f"driver{int(workload['slicing'])}-{bits}"
    ran = subprocess.run([driver], input=text, capture_output=True, text=True, check=False)
    found = f"status {ran.returncode}: {ran.stderr}" if ran.returncode else ""
    found = found or workloads.fault(workload, settings_of(workload) | {"steps": steps})
    found = found or difference(workload, steps, ran.stdout, bits, first_time)
    if found:
        (folder / f"workload-{number}.json").write_text(json.dumps(workload))
        (folder / f"workload-{number}.txt").write_text(text)
        (folder / f"workload-{number}.log").write_text(ran.stdout)
    return ran.stdout, found


def run_within(folder, number, count):
    """Run a workload as far as V9 does not depart from the rules."""
    rng = random.Random(number)
    workload, steps, why = within(workload_of(rng))
    if workload is None:
        count.left_out[why] += 1
        return
    if why:
        count.cut[why] += 1
    log, found = run_on_kernel(folder, rng, number, workload, steps)
    count.log(log)
    if found:
        count.differ += 1
        print(f"DIFFERS workload {number}: {found}")
        return
    count.conform += 1
    if is_missed(rng, workload, log):
        count.missed += 1
        print(f"WRONG workload {number}: another thing that was seen is not found")


def first_departure(workload):
    """The steps of a workload by the rules, and how V9 first departs from them, or nothing."""
    steps, found = simulated(workload, False)
    if departure_at_start(workload):
        return steps, "several tasks of the highest priority at the start"
    return steps, found[1] if found else ""


def run_uncut(folder, number, count):
    """Run a whole workload where V9 departs from the rules, and count whether the run differs."""
    rng = random.Random(number)
    workload = workload_of(rng)
    steps, why = first_departure(workload)
    if why:
        differs = run_on_kernel(folder, rng, number, workload, steps)[1]
        (count.departed if differs else count.same)[why] += 1


def run_departures(folder, count):
    """Run a workload for each departure: it has to be that, and the run has to differ."""
    for number, known in enumerate(json.loads(DEPARTURES.read_bytes())):
        steps, why = first_departure(known["workload"])
        rng = random.Random(number)
        differs = run_on_kernel(folder, rng, f"of-departure-{number}", known["workload"], steps)[1]
        (count.departed if differs else count.same)[why] += 1
        if why != known["departure"] or not differs:
            count.missed += 1
            print(f"WRONG departure {number}, {known['departure']}: {why}, {differs or 'the same'}")


def main():
    """Run workloads, and say how many conform."""
    words = sys.argv[1:]
    run = run_uncut if words[:1] == ["--uncut"] else run_within
    words = words[1:] if run is run_uncut else words
    if len(words) not in (1, 2, 3):
        print("usage: against_runs.py [--uncut] FOLDER [COUNT [FIRST]]", file=sys.stderr)
        return 2
    many, first = (int(word) for word in (words[1:] + ["5000", "0"][len(words) - 1 :]))
    count = Count()
    if run is run_uncut:
        run_departures(pathlib.Path(words[0]), count)
    for number in range(first, first + many):
        try:
            run(pathlib.Path(words[0]), number, count)
        except TooLong:
            count.left_out["more steps than are tried"] += 1
    print("\n".join(count.told() if run is run_within else count.told_of_departures()))
    return int(count.differ + count.missed > 0 or run is run_within and count.conform == 0)


if __name__ == "__main__":
    sys.exit(main())
