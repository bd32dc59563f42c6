#!/usr/bin/env python3
"""Settle a session: a second opinion, which shares no code with the bench.

The kernel is one flat table. Each task has a stamp, and the later it came to where it stands, the
greater its stamp; so the end of a list is a new stamp, and the front of a list is the least one.
A task that is blocked for some ticks has the tick of its wake, and a suspended one a flag. The
tick grows without end here, and is cut to 32 bits only where a call reads it. Every choice is a
search of all tasks or cores.

The settled run of a session is made of its events, which are all of its steps but each `switch`
and `finish`: those the port and the return from a call make by themselves. The run is the start,
then quiet work, and then each event in order, with quiet work after each. A tick, an interrupt or
a pass is made as it stands, and a call is put behind the calls that wait. Quiet work is, until
there is none, the first of these:

1. the `switch` of the least core where it is not refused;
2. the `finish` of the current user task of the least core where it is not refused;
3. the first waiting call whose task runs on a core and could make it there now.

So a call waits until its task comes to it. What it is answered then, a misuse too, is its answer.

Standard input is a session, or an object of a `session` and its `edits`, which are made first. It
is taken to be well formed. Standard output has a line of JSON for each step of the run, and then
one for each call whose task never came to it: the call without its core, as the member `left`.
"""

import json
import sys
from dataclasses import dataclass

WORD = 1 << 32
ENDLESS = WORD - 1
DEEPEST = 255
MOST_STEPS = 1_000_000
BY_THEMSELVES = ("switch", "finish")
# What comes from outside. A `pass` lets units of time go by, in which nothing happens.
NOT_CALLS = ("tick", "pass", "isr_notify", "isr_send", "isr_receive", "isr_resume")
OF_NOTES = ("isr_notify", "notify", "notify_wait", "notify_take", "state_clear", "value_clear")
# Of each step at a queue the way that its message goes, and the way that one goes the other way.
WAYS = {"queue_send": "in", "isr_send": "in", "queue_receive": "out", "isr_receive": "out"}
OTHER_WAY = {"in": "out", "out": "in"}


@dataclass
class Table:
    """The kernel: idle tasks 0 to cores - 1 come first, then the user tasks of the header."""

    cores: int
    priorities: int
    slicing: bool
    tick: int
    stamps: int
    hold_core: int | None
    depth: int
    number: dict[str, int]
    # Of each core.
    current: list[int]
    pend: list[bool]
    asked: list[bool]
    # Of each mutex.
    holder: list[int | None]
    # Of each queue: how many messages it holds at most, and how many it has.
    length: list[int]
    messages: list[int]
    # Of each event list the tasks that wait in it, the first one first. A mutex has one, and a
    # queue one for each way.
    waiting: dict[tuple, list[int]]
    # Of each task.
    base: list[int]
    in_use: list[int]
    mask: list[int]
    preempt: list[bool]
    ready: list[bool]
    suspended: list[bool]
    stamp: list[int]
    wake: list[int | None]
    awaited: list[tuple | None]
    wait_priority: list[int]
    # In format 3 each task has a list value.
    values: list[int] | None
    unfinished: list[dict | None]
    mark: list[bool]
    deadline: list[int | None]
    # Of each task, of each index.
    value: list[list[int]]
    state: list[list[str]]


# Words.


def all_cores(table):
    """The mask of every core."""
    return (1 << table.cores) - 1


def is_due(table, core):
    """Whether the core has been asked to switch and has not done so."""
    return table.pend[core] or table.asked[core]


def core_of(table, task):
    """The core whose current task this is, or none."""
    return table.current.index(task) if task in table.current else None


def running_core(table, task):
    """The core on which the task is running: one that no other core has asked. Else none."""
    core = core_of(table, task)
    return None if core is None or table.asked[core] else core


def effective(table, task):
    """The priority that counts where a core is sought; an idle task is below all others."""
    return -1 if task < table.cores else table.in_use[task]


def ask(table, acting, core):
    """Ask a core to switch."""
    if core == acting:
        table.pend[core] = True
    else:
        table.asked[core] = True


def ask_its_core(table, acting, task):
    """Ask the core on which a task is running, if there is one."""
    core = running_core(table, task)
    if core is not None:
        ask(table, acting, core)


def to_the_end(table, task):
    """The task goes to the end of the list in which it stands."""
    table.stamp[task] = table.stamps
    table.stamps += 1


# Cores.


def gives_way(table, core, task):
    """Whether a core may be asked to switch for the sake of a task."""
    now = table.current[core]
    lower = effective(table, now) < effective(table, task)
    return not is_due(table, core) and table.preempt[now] and lower


def seek(table, acting, task, among):
    """Ask the core with the least of the lesser priorities, the last of several, to make room."""
    if running_core(table, task) is not None:
        return
    found = [c for c in range(table.cores) if among >> c & 1 and gives_way(table, c, task)]
    if found:
        ask(table, acting, min(found, key=lambda c: (effective(table, table.current[c]), -c)))


def leave(table, task):
    """Let a task wait in no event list."""
    if table.awaited[task] is not None:
        table.waiting[table.awaited[task]].remove(task)
        table.awaited[task] = None


def wake(table, acting, task):
    """Make a task ready, last in its list, and seek a core for it."""
    table.ready[task], table.suspended[task] = True, False
    table.wake[task] = None
    leave(table, task)
    to_the_end(table, task)
    seek(table, acting, task, table.mask[task])


def pick(table, core):
    """The first of the highest ready tasks that may run on this core and are on no other."""
    tasks = [
        task
        for task in range(len(table.ready))
        if table.ready[task]
        and table.mask[task] >> core & 1
        and core_of(table, task) in (None, core)
    ]
    return min(tasks, key=lambda task: (-table.in_use[task], table.stamp[task]))


def switch(table, core):
    """Switch a core, and seek another one for the task that lost it."""
    table.pend[core] = table.asked[core] = False
    lost = table.current[core]
    if table.ready[lost]:
        to_the_end(table, lost)
    taken = pick(table, core)
    table.current[core] = taken
    if taken != lost and table.ready[lost]:
        among = table.mask[lost]
        if among >> core & 1:
            among &= ~table.mask[taken]
        seek(table, core, lost, among)


def tick(table):
    """Count a tick, wake the tasks whose ticks are over, and end slices; core 0 acts."""
    table.tick += 1
    over = [task for task in range(len(table.wake)) if table.wake[task] == table.tick]
    for task in sorted(over, key=lambda task: table.stamp[task]):
        wake(table, 0, task)
    if table.slicing:
        for core in range(table.cores):
            if ends_slice(table, core):
                ask(table, 0, core)


def ends_slice(table, core):
    """Whether a core's current task shares its ready list, so that its turn ends."""
    now = table.current[core]
    if is_due(table, core) or not table.preempt[now] or not table.ready[now]:
        return False
    alike = [r and p == table.in_use[now] for r, p in zip(table.ready, table.in_use)]
    return sum(alike) > 1


def block(table, core, task, call, ticks):
    """Block a task for a number of ticks, or without end where there is none."""
    table.ready[task] = False
    table.wake[task] = None if ticks is None else table.tick + ticks
    table.unfinished[task] = call
    to_the_end(table, task)
    ask(table, core, core)


def bounded(ticks):
    """The ticks of a wait that may be without end."""
    return None if ticks == ENDLESS else ticks


# Delays.


def delay(table, core, task, call):
    """Block for some ticks, or ask for a switch where there are none."""
    if call["ticks"] > 0:
        block(table, core, task, call, call["ticks"])
    else:
        ask(table, core, core)


def ticks_until(table, call):
    """How many ticks a delay until a tick count has to wait, 0 where its time has passed."""
    now = table.tick % WORD
    then = (call["prev"] + call["inc"]) % WORD
    wrapped, later = then < call["prev"], then > now
    waits = (wrapped and later) if now < call["prev"] else (wrapped or later)
    return (then - now) % WORD if waits else 0


def delay_until(table, core, task, call):
    """Block until a tick count, or ask for a switch where its time has passed."""
    delay(table, core, task, {**call, "ticks": ticks_until(table, call)})


# Settings of tasks.


def priority_set(table, core, _task, call):
    """Set the base priority of a task."""
    to, new = table.number[call["to"]], min(call["priority"], table.priorities - 1)
    old = table.base[to]
    if new == old:
        return
    table.base[to] = new
    if table.in_use[to] == old or table.in_use[to] < new:
        table.in_use[to] = new
    revalue(table, to, new)
    if table.ready[to]:
        to_the_end(table, to)
    if new > old and table.ready[to]:
        seek(table, core, to, table.mask[to])
    elif new < old and table.preempt[to]:
        ask_its_core(table, core, to)


def affinity_set(table, core, _task, call):
    """Set on which cores a task may run."""
    to = table.number[call["to"]]
    table.mask[to] = call["mask"] & all_cores(table)
    runs = running_core(table, to)
    if runs is not None and not table.mask[to] >> runs & 1:
        ask(table, core, runs)
    elif runs is None and table.ready[to]:
        seek(table, core, to, table.mask[to])


def preempt_off(table, _core, _task, call):
    """Keep a task from being preempted."""
    table.preempt[table.number[call["to"]]] = False


def preempt_on(table, core, _task, call):
    """Let a task be preempted again, and ask its core."""
    to = table.number[call["to"]]
    table.preempt[to] = True
    ask_its_core(table, core, to)


# Notifications.


def notify(table, core, _task, step):
    """Notify a task at an index, by a call or an interrupt, and wake it where it waits for it."""
    to, at, action = table.number[step["to"]], step.get("index", 0), step["action"]
    before, old = table.state[to][at], table.value[to][at]
    table.state[to][at] = "received"
    if action == "set_bits":
        table.value[to][at] = old | step["value"]
    elif action == "increment":
        table.value[to][at] = (old + 1) % WORD
    elif action == "set" or action == "set_new" and before != "received":
        table.value[to][at] = step["value"]
    if before == "waiting":
        wake(table, core, to)


def has_notification(table, task, call):
    """Whether a wait for a notification has something to complete with."""
    at = call.get("index", 0)
    if call["do"] == "notify_wait":
        return table.state[task][at] == "received"
    return table.value[task][at] != 0


def notify_wait(table, core, task, call):
    """Wait for a notification, or complete with the one that has come or with none."""
    at = call.get("index", 0)
    if not has_notification(table, task, call):
        if call["do"] == "notify_wait":
            table.value[task][at] &= ~call["entry"]
        table.state[task][at] = "waiting"
        if call["ticks"] > 0:
            block(table, core, task, call, bounded(call["ticks"]))
            return
    complete(table, task, call)


def complete(table, task, call):
    """End a wait for a notification."""
    at = call.get("index", 0)
    value = table.value[task][at]
    if call["do"] == "notify_wait":
        if table.state[task][at] == "received":
            table.value[task][at] = value & ~call["exit"]
    elif value != 0:
        table.value[task][at] = 0 if call["clear"] else value - 1
    table.state[task][at] = "idle"


def state_clear(table, _core, _task, call):
    """Forget that a notification has come."""
    to, at = table.number[call["to"]], call.get("index", 0)
    if table.state[to][at] == "received":
        table.state[to][at] = "idle"


def value_clear(table, _core, _task, call):
    """Clear bits of a notification value."""
    table.value[table.number[call["to"]]][call.get("index", 0)] &= ~call["bits"]


# Suspended tasks.


def suspend(table, core, _task, call):
    """Let a task neither be ready nor wait for anything until it is resumed, and ask its core.

    What it has of its call stays: the call, and the tick at which that is to end.
    """
    to = table.number[call["to"]]
    if table.suspended[to]:
        return
    table.ready[to], table.suspended[to] = False, True
    table.wake[to] = None
    leave(table, to)
    table.state[to] = ["idle" if state == "waiting" else state for state in table.state[to]]
    ask_its_core(table, core, to)


def resume(table, core, _task, step):
    """Make a suspended task ready, by a call or an interrupt; another one stays as it is."""
    to = table.number[step["to"]]
    if table.suspended[to]:
        wake(table, core, to)


# Holds.


def hold_open(table, core, _task, _call):
    """Open the hold of a core, or open it once more."""
    table.hold_core = core
    table.depth += 1


def hold_close(table, _core, _task, _call):
    """Close the hold once; the last time it ends."""
    table.depth -= 1
    if table.depth == 0:
        table.hold_core = None


# Event lists.


def first_waiter(table, event):
    """The first task of an event list, or none."""
    return next(iter(table.waiting[event]), None)


def revalue(table, task, value):
    """Give a task another list value, where there are list values; no waiter moves."""
    if table.values is not None:
        table.values[task] = table.wait_priority[task] = value


def begin_to_wait(table, core, task, event, call, ticks):
    """Put a task before the first of an event list with a lesser priority, as it is now."""
    rank = table.in_use[task] if table.values is None else table.values[task]
    others = table.waiting[event]
    lesser = (place for place, other in enumerate(others) if table.wait_priority[other] < rank)
    others.insert(next(lesser, len(others)), task)
    table.awaited[task], table.wait_priority[task] = event, rank
    table.deadline[task] = None if ticks is None else table.tick + ticks
    block(table, core, task, call, ticks)


def is_over(table, task):
    """Whether the deadline of a task's wait in an event list is reached."""
    return table.deadline[task] is not None and table.deadline[task] <= table.tick


def ticks_left(table, task):
    """The ticks that are left to the deadline of a wait, or none where it has no end."""
    deadline = table.deadline[task]
    return None if deadline is None else deadline - table.tick


# Mutexes.


def lower(table, core, task, new):
    """Give a task that inherited a priority another one, and ask its core where that changes."""
    if table.in_use[task] == new:
        return
    table.in_use[task] = new
    revalue(table, task, new)
    if table.ready[task]:
        to_the_end(table, task)
    ask_its_core(table, core, task)


def inherit(table, core, task, holder):
    """Raise the holder for the sake of a task that waits, and tell whether its base is below."""
    if holder == task:
        return False
    if table.in_use[holder] < table.in_use[task]:
        table.in_use[holder] = table.in_use[task]
        revalue(table, holder, table.in_use[task])
        if table.ready[holder]:
            to_the_end(table, holder)
            seek(table, core, holder, table.mask[holder])
    return table.base[holder] < table.in_use[task]


def wait_for(table, core, task, call, ticks):
    """Wait for a mutex that is held."""
    mutex = call["mutex"]
    table.mark[task] = inherit(table, core, task, table.holder[mutex])
    begin_to_wait(table, core, task, ("mutex", mutex), call, ticks)


def mutex_take(table, core, task, call):
    """Take a mutex that is free, or wait for it where there are ticks."""
    if table.holder[call["mutex"]] is None:
        table.holder[call["mutex"]] = task
    elif call["ticks"] > 0:
        wait_for(table, core, task, call, bounded(call["ticks"]))


def finish_take(table, core, task, call):
    """End a wait for a mutex by taking it or in vain, or go on waiting to the same deadline."""
    mutex = call["mutex"]
    if table.holder[mutex] is None:
        table.holder[mutex] = task
    elif is_over(table, task):
        time_out(table, core, task, mutex)
    else:
        wait_for(table, core, task, call, ticks_left(table, task))
        return
    table.unfinished[task] = None


def time_out(table, core, task, mutex):
    """Take back from a holder what it inherited from a task that waits no longer."""
    holder = table.holder[mutex]
    if table.mark[task] and holder != task and table.holder.count(holder) == 1:
        first = first_waiter(table, ("mutex", mutex))
        base = table.base[holder]
        lower(table, core, holder, base if first is None else max(base, table.wait_priority[first]))


def mutex_give(table, core, task, call):
    """Give a mutex back, and with the last one what was inherited; wake its first waiter."""
    if table.holder[call["mutex"]] != task:
        return
    table.holder[call["mutex"]] = None
    if task not in table.holder:
        lower(table, core, task, table.base[task])
    first = first_waiter(table, ("mutex", call["mutex"]))
    if first is not None:
        wake(table, core, first)


# Queues.


def can_pass(table, step):
    """Whether a message can go at once: into a queue that is not full, out of one that has any."""
    queue = step["queue"]
    if WAYS[step["do"]] == "in":
        return table.messages[queue] < table.length[queue]
    return table.messages[queue] > 0


def pass_message(table, core, _task, step):
    """Let a message go where it can, and wake the first task that waits for one the other way."""
    if not can_pass(table, step):
        return
    queue, way = step["queue"], WAYS[step["do"]]
    table.messages[queue] += 1 if way == "in" else -1
    first = first_waiter(table, (OTHER_WAY[way], queue))
    if first is not None:
        wake(table, core, first)


def wait_to_pass(table, core, task, call, ticks):
    """Wait until a message can go."""
    begin_to_wait(table, core, task, (WAYS[call["do"]], call["queue"]), call, ticks)


def queue_call(table, core, task, call):
    """Send or receive at once, or wait where there are ticks."""
    if can_pass(table, call):
        pass_message(table, core, task, call)
    elif call["ticks"] > 0:
        wait_to_pass(table, core, task, call, bounded(call["ticks"]))


def finish_queue(table, core, task, call):
    """End a wait at a queue with a message or in vain, or go on waiting to the same deadline."""
    if can_pass(table, call) or is_over(table, task):
        table.unfinished[task] = None
        pass_message(table, core, task, call)
    else:
        wait_to_pass(table, core, task, call, ticks_left(table, task))


# Steps.


def come_from_outside(table, step):
    """Make a step that is no call: a tick, an interrupt of a core, or time that goes by."""
    if step["do"] == "tick":
        tick(table)
    elif step["do"] in INTERRUPTS:
        INTERRUPTS[step["do"]](table, step["core"], None, step)


def finish(table, core, task, _call):
    """Return from the call that blocked the task."""
    call = table.unfinished[task]
    if call["do"] == "mutex_take":
        finish_take(table, core, task, call)
        return
    if call["do"] in WAYS:
        finish_queue(table, core, task, call)
        return
    if call["do"] in ("notify_wait", "notify_take"):
        complete(table, task, call)
    table.unfinished[task] = None


def waits_in_vain(table, call):
    """Whether a call waits in an event list, for what is not there now."""
    if call["do"] == "mutex_take":
        return table.holder[call["mutex"]] is not None
    return call["do"] in WAYS and not can_pass(table, call)


def would_block(table, task, call):
    """Whether a call would block its task, or suspend it."""
    do = call["do"]
    if do == "finish":
        return not is_over(table, task) and waits_in_vain(table, table.unfinished[task])
    if do == "delay_until":
        return ticks_until(table, call) > 0
    if do in ("notify_wait", "notify_take"):
        return call["ticks"] > 0 and not has_notification(table, task, call)
    if do == "mutex_take" or do in WAYS:
        return call["ticks"] > 0 and waits_in_vain(table, call)
    if do == "suspend":
        return table.number[call["to"]] == task
    return do == "delay" and call["ticks"] > 0


def comes_to(table, core, task, do):
    """Whether a core's task comes to make a call there: nothing that it runs into keeps it."""
    if table.hold_core not in (None, core) or table.current[core] != task:
        return False
    if is_due(table, core) and table.hold_core is None:
        return False
    return (table.unfinished[task] is not None) == (do == "finish")


def is_misuse(table, core, task, call):
    """Whether a call that its task comes to is refused: blocking in a hold, and the like."""
    do, in_hold = call["do"], table.hold_core == core
    if in_hold and would_block(table, task, call):
        return True
    if do == "hold_close":
        return not in_hold
    if do == "hold_open":
        return in_hold and table.depth == DEEPEST
    return do == "mutex_give" and table.holder[call["mutex"]] not in (None, task)


def make_call(table, core, task, call):
    """Make a call that its task comes to; a misuse changes nothing."""
    if not is_misuse(table, core, task, call):
        CALLS[call["do"]](table, core, task, call)


CALLS = {
    "yield": lambda table, core, _task, _call: ask(table, core, core),
    "delay": delay,
    "delay_until": delay_until,
    "priority_set": priority_set,
    "affinity_set": affinity_set,
    "preempt_off": preempt_off,
    "preempt_on": preempt_on,
    "notify": notify,
    "notify_wait": notify_wait,
    "notify_take": notify_wait,
    "state_clear": state_clear,
    "value_clear": value_clear,
    "hold_open": hold_open,
    "hold_close": hold_close,
    "mutex_take": mutex_take,
    "mutex_give": mutex_give,
    "queue_send": queue_call,
    "queue_receive": queue_call,
    "suspend": suspend,
    "resume": resume,
    "finish": finish,
}
INTERRUPTS = {
    "isr_notify": notify,
    "isr_send": pass_message,
    "isr_receive": pass_message,
    "isr_resume": resume,
}


def start(session):
    """The table after the start: every task is ready, and the cores have selected in order."""
    cores, tasks = session["cores"], session["tasks"]
    count, notes = cores + len(tasks), session.get("notes", 1)
    every = (1 << cores) - 1
    queues = session.get("queues", [])
    events = [("mutex", mutex) for mutex in range(session["mutexes"])]
    events += [(way, queue) for queue in range(len(queues)) for way in OTHER_WAY]
    listed = [0] * cores + [task["priority"] for task in tasks]
    table = Table(
        cores=cores, priorities=session["priorities"], slicing=session["slicing"],
        tick=session["tick"], stamps=count, hold_core=None, depth=0,
        number={task["name"]: cores + place for place, task in enumerate(tasks)},
        current=list(range(cores)), pend=[False] * cores, asked=[False] * cores,
        holder=[None] * session["mutexes"],
        length=[queue["length"] for queue in queues],
        messages=[queue["messages"] for queue in queues],
        waiting={event: [] for event in events},
        base=[0] * cores + [task["priority"] for task in tasks],
        in_use=[0] * cores + [task["priority"] for task in tasks],
        mask=[every] * cores + [task["mask"] & every for task in tasks],
        preempt=[True] * count, ready=[True] * count, suspended=[False] * count,
        stamp=[len(tasks) + core for core in range(cores)] + list(range(len(tasks))),
        wake=[None] * count, awaited=[None] * count, wait_priority=[0] * count,
        values=listed if session["format"] == 3 else None,
        unfinished=[None] * count, mark=[False] * count, deadline=[None] * count,
        value=[[0] * notes for _ in range(count)],
        state=[["idle"] * notes for _ in range(count)],
    )
    for core in range(cores):
        switch(table, core)
    return table


# Settling.


def quiet_switch(table):
    """Make the switch of the first core that is due, if no hold is open, and give it."""
    if table.hold_core is None:
        for core in range(table.cores):
            if is_due(table, core):
                switch(table, core)
                return {"do": "switch", "core": core}
    return None


def quiet_finish(table, names):
    """Make the return of the first core whose user task comes to one, and give it."""
    for core, task in enumerate(table.current):
        if task >= table.cores and comes_to(table, core, task, "finish"):
            step = {"do": "finish", "core": core, "by": names[task - table.cores]}
            if not is_misuse(table, core, task, step):
                make_call(table, core, task, step)
                return step
    return None


def quiet_call(table, waiting):
    """Make the first waiting call whose task comes to it, and give it."""
    for place, call in enumerate(waiting):
        task = table.number[call["by"]]
        core = core_of(table, task)
        if core is not None and comes_to(table, core, task, call["do"]):
            del waiting[place]
            make_call(table, core, task, call)
            return {**call, "core": core}
    return None


def quiet_work(table, names, waiting):
    """Make all quiet work, and give its steps in order."""
    while True:
        step = quiet_switch(table) or quiet_finish(table, names) or quiet_call(table, waiting)
        if step is None:
            return
        yield step


def settle(session):
    """The steps of a session's settled run, and the calls that were not made."""
    table, names = start(session), [task["name"] for task in session["tasks"]]
    waiting = []
    run = list(quiet_work(table, names, waiting))
    for step in session["steps"]:
        if step["do"] in BY_THEMSELVES:
            continue
        if step["do"] in NOT_CALLS:
            come_from_outside(table, step)
            run.append(step)
        else:
            waiting.append(step)
        run.extend(quiet_work(table, names, waiting))
    return run, waiting


# Documents.


def change(session, edit):
    """Change with which priority and on which cores a task is created, where it may be so."""
    fits = edit["priority"] < session["priorities"] and edit["mask"] % (1 << session["cores"])
    for task in session["tasks"]:
        if fits and task["name"] == edit["task"]:
            task["priority"], task["mask"] = edit["priority"], edit["mask"]


def refusal(session, edit):
    """Why an edit is refused, as people are told; nothing where it may be made."""
    kind, count = edit["edit"], len(session["steps"])
    if kind != "change" and edit["at"] > (count if kind == "insert" else count - 1):
        return f"J1: the session has {count} step{'' if count == 1 else 's'}"
    if kind == "insert" and count == MOST_STEPS:
        return f"J2: the session has {count} steps, the most that it may have"
    return ""


def apply(session, edit):
    """Make an edit that may be made."""
    steps, at = session["steps"], edit.get("at")
    if edit["edit"] == "change":
        change(session, edit)
    elif edit["edit"] == "insert":
        steps.insert(at, edit["step"])
    else:
        steps[at : at + 1] = [edit["step"]] if edit["edit"] == "replace" else []


def edited(document):
    """The session of a document, with its edits made, and a line for each edit that is refused."""
    session, lines = document.get("session", document), []
    for index, edit in enumerate(document["edits"] if "session" in document else ()):
        if why := refusal(session, edit):
            lines.append(f"edit {index} refused {why}\n")
        else:
            apply(session, edit)
    return session, "".join(lines)


def edited_session(document):
    """The session of a document, with its edits made."""
    return edited(document)[0]


def has_index(session):
    """The bench writes the index of a notification where a task has several, and in format 3."""
    return session["format"] == 3 or session.get("notes", 1) > 1


def written(step, indexed):
    """A step as the bench writes it, with the index of a notification or without."""
    step = {member: value for member, value in step.items() if member != "index"} | (
        {"index": step.get("index", 0)} if indexed and step["do"] in OF_NOTES else {}
    )
    return dict(sorted(step.items()))


def line(value):
    """A value as a line of compact JSON."""
    return json.dumps(value, separators=(",", ":"), ensure_ascii=False) + "\n"


def main():
    """Settle the session on standard input."""
    session = edited_session(json.loads(sys.stdin.buffer.read()))
    run, waiting = settle(session)
    indexed = has_index(session)
    for step in run:
        sys.stdout.write(line(written(step, indexed)))
    for call in waiting:
        left = {member: value for member, value in call.items() if member != "core"}
        sys.stdout.write(line({"left": written(left, indexed)}))


if __name__ == "__main__":
    main()
