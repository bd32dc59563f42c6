#!/usr/bin/env python3
"""Hold what the built smp_view settles against scripts/settle.py, which shares no code with it.

2,000 random documents, or as many as the first argument says, have steps of every kind, edits of
every kind, and tick counts at both ends of 32 bits. Of each the steps of the settled session, the
lines about refused edits and the one about calls that were not made are compared. A line where
one differs, then a total; status 1 where one does. The second argument is the first number of the
random documents.
"""

import json
import pathlib
import random
import subprocess
import sys
from collections import Counter

import settle

PROGRAM = pathlib.Path(__file__).resolve().parent.parent / "crates/smp_view/out/smp_view"
LAST = (1 << 32) - 1
ACTIONS = ("none", "increment", "set_bits", "set", "set_new")
KINDS = (
    *("yield", "finish", "hold_open", "hold_close", "delay", "delay", "delay_until"),
    *("priority_set", "affinity_set", "preempt_off", "preempt_on", "notify", "notify"),
    *("notify_wait", "notify_take", "state_clear", "value_clear", "mutex_take", "mutex_give"),
)
OF_QUEUES = ("queue_send", "queue_send", "queue_receive", "queue_receive")
SUSPENDING = ("suspend", "suspend", "resume", "resume")
TARGETED = (
    *("priority_set", "affinity_set", "preempt_off", "preempt_on"),
    *("state_clear", "value_clear", "suspend", "resume"),
)

# Names of the first tasks, which begin as names of other numbers do.
NAMES = ("core.0", "run", "queue.1")


def header(rng):
    """A session without steps."""
    cores, priorities = rng.choice((2, 2, 3, 4, 8)), rng.randint(1, 6)
    queues = [{"length": 2, "messages": 1}, {"length": 1, "messages": 0}]
    units = rng.choice(({}, {}, {"units": 1}, {"units": 1000}))
    third = (3, {"notes": 1, "queues": queues[: rng.randint(0, 2)], **units})
    form, several = rng.choice(((1, {}), (2, {"notes": 3}), third, third))
    tasks = [
        {
            "name": dict(enumerate(NAMES)).get(number, f"t{number}"),
            "priority": rng.randrange(priorities),
            "mask": rng.choice(((1 << cores) - 1, rng.randint(1, (1 << cores) - 1))),
        }
        for number in range(rng.randint(1, 9))
    ]
    return {
        "format": form,
        "cores": cores,
        "priorities": priorities,
        "slicing": rng.random() < 0.5,
        "tick": rng.choice((0, 5, LAST - 2, LAST, rng.randint(0, LAST))),
        "mutexes": rng.randint(1, 3),
        **several,
        "tasks": tasks,
        "steps": [],
    }


def note(rng, session):
    """The members of a notification."""
    action = rng.choice(ACTIONS)
    value = {"value": rng.choice((0, 1, 7, LAST))} if action.startswith("set") else {}
    return {"to": name(rng, session), "action": action} | value | index(rng, session)


def name(rng, session):
    return rng.choice(session["tasks"])["name"]


def index(rng, session):
    return {"index": rng.randrange(session["notes"])} if "notes" in session else {}


def prev(rng, session):
    """A tick count near those of the run."""
    return (session["tick"] + rng.randint(-3, 9)) % (LAST + 1)


def ticks(rng):
    return {"ticks": rng.choice((0, 1, 1, 2, 3, 4, 7, LAST))}


def queue(rng, session):
    return {"queue": rng.randrange(len(session["queues"]))}


def call(rng, session):
    """A call of any kind, by any task on any core."""
    kinds = KINDS + (OF_QUEUES if session.get("queues") else ())
    kinds += SUSPENDING if "queues" in session else ()
    do, cores = rng.choice(kinds), session["cores"]
    members = {
        "delay": lambda: ticks(rng),
        "delay_until": lambda: {"prev": prev(rng, session), "inc": rng.randint(1, 9)},
        "priority_set": lambda: {"priority": rng.randrange(session["priorities"])},
        "affinity_set": lambda: {"mask": rng.randint(1, (1 << cores) - 1)},
        "notify": lambda: note(rng, session),
        "notify_wait": lambda: {"entry": 0, "exit": LAST} | ticks(rng) | index(rng, session),
        "notify_take": lambda: {"clear": rng.random() < 0.5} | ticks(rng) | index(rng, session),
        "state_clear": lambda: index(rng, session),
        "value_clear": lambda: {"bits": rng.choice((1, LAST))} | index(rng, session),
        "mutex_take": lambda: {"mutex": rng.randrange(session["mutexes"])} | ticks(rng),
        "mutex_give": lambda: {"mutex": rng.randrange(session["mutexes"])},
        "queue_send": lambda: queue(rng, session) | ticks(rng),
        "queue_receive": lambda: queue(rng, session) | ticks(rng),
    }
    target = {"to": name(rng, session)} if do in TARGETED else {}
    head = {"do": do, "core": rng.randrange(cores), "by": name(rng, session)}
    return head | target | members.get(do, dict)()


def interrupt(rng, session):
    """An interrupt of any kind that the session may have."""
    kinds = ["isr_notify", "isr_notify"]
    kinds += ["isr_send", "isr_receive"] if session.get("queues") else []
    kinds += ["isr_resume"] if "queues" in session else []
    do = rng.choice(kinds)
    members = {"isr_notify": note, "isr_resume": lambda *_: {"to": name(rng, session)}}
    return {"do": do, "core": rng.randrange(session["cores"])} | members.get(do, queue)(rng, session)


def step(rng, session):
    """A step of any kind."""
    draw = rng.random()
    if draw < 0.25:
        return {"do": "tick"}
    if draw < 0.4:
        return interrupt(rng, session)
    if draw < 0.5:
        return {"do": "switch", "core": rng.randrange(session["cores"])}
    if draw < 0.6 and session.get("units", 1) > 1:
        return {"do": "pass", "units": rng.choice((1, 40, 250, 999))}
    return call(rng, session)


def edit(rng, session):
    """An edit of any kind; some are at no place."""
    kind = rng.choice(("insert", "remove", "replace", "change"))
    if kind == "change":
        mask = rng.randint(1, (1 << session["cores"]) - 1)
        priority = rng.randrange(session["priorities"])
        return {"edit": kind, "task": name(rng, session), "priority": priority, "mask": mask}
    new = {} if kind == "remove" else {"step": step(rng, session)}
    return {"edit": kind, "at": rng.randint(0, len(session["steps"]) + 1)} | new


def document(rng):
    """A session with edits."""
    session = header(rng)
    session["steps"] = [step(rng, session) for _ in range(rng.randint(0, rng.choice((9, 60, 200))))]
    return {"session": session, "edits": [edit(rng, session) for _ in range(rng.randint(0, 6))]}


def wanted(text):
    """What the second opinion makes of a document: the steps, and what standard error says."""
    session, refused = settle.edited(json.loads(text))
    run, waiting = settle.settle(session)
    left = Counter(call["by"] for call in waiting)
    names = [task["name"] for task in session["tasks"]]
    told = [f"{task} {left[task]}" for task in names if left[task]]
    steps = [settle.written(made, settle.has_index(session)) for made in run]
    return steps, refused + (f"not made: {', '.join(told)}\n" if told else "")


def settled(text):
    """What the program makes of it: the status, the steps and what standard error says."""
    words = [PROGRAM, "settle"]
    ran = subprocess.run(words, input=text, capture_output=True, text=True, check=False)
    return ran.returncode, json.loads(ran.stdout or "{}").get("steps"), ran.stderr


def main():
    """Compare documents, and say how many differ."""
    if not PROGRAM.is_file():
        sys.exit(f"no program at {PROGRAM}: (cd crates/smp_view && rt run -- --help) builds it")
    count = int(sys.argv[1]) if len(sys.argv) > 1 else 2000
    first = int(sys.argv[2]) if len(sys.argv) > 2 else 0
    kinds, wrong = Counter(), 0
    for number in range(first, first + count):
        text = json.dumps(document(random.Random(number)))
        steps, told = wanted(text)
        kinds.update(made["do"] for made in steps)
        if settled(text) != (0, steps, told):
            wrong += 1
            print(f"WRONG document {number}")
    made = f"{sum(kinds.values())} steps of {len(kinds)} kinds"
    print(f"{count} documents, {made}, {wrong} documents differ")
    sys.exit(wrong > 0)


if __name__ == "__main__":
    main()
