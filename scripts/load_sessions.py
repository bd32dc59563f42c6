#!/usr/bin/env python3
"""Writes a session that is to be settled: so many cores, tasks and events. The events are ticks and calls, each by chance from a
fixed beginning, so that the session is the same each time.

    load_sessions.py CORES TASKS EVENTS
"""

import json
import random
import sys


def header(cores, tasks):
    everywhere = 2**cores - 1
    return {
        "format": 1,
        "cores": cores,
        "priorities": 32,
        "slicing": True,
        "tick": 0,
        "mutexes": 8,
        "tasks": [
            {"name": f"t{task}", "priority": 1 + task % 30, "mask": everywhere}
            for task in range(tasks)
        ],
    }


def call(chance, cores, tasks):
    by = f"t{chance.randrange(tasks)}"
    core = chance.randrange(cores)
    kind = chance.randrange(10)
    if kind < 5:
        return {"do": "delay", "core": core, "by": by, "ticks": chance.randrange(1, 40)}
    if kind < 6:
        return {"do": "notify_take", "core": core, "by": by, "clear": True, "ticks": chance.randrange(1, 60)}
    if kind < 7:
        to = f"t{chance.randrange(tasks)}"
        return {"do": "notify", "core": core, "by": by, "to": to, "action": "increment"}
    if kind < 8:
        return {"do": "yield", "core": core, "by": by}
    mutex = chance.randrange(8)
    if kind < 9:
        return {"do": "mutex_take", "core": core, "by": by, "mutex": mutex, "ticks": chance.randrange(1, 20)}
    return {"do": "mutex_give", "core": core, "by": by, "mutex": mutex}


def main():
    if len(sys.argv) != 4:
        print(__doc__, file=sys.stderr)
        return 2
    cores, tasks, events = map(int, sys.argv[1:])
    chance = random.Random(1)
    session = header(cores, tasks)
    session["steps"] = [
        {"do": "tick"} if chance.random() < 0.4 else call(chance, cores, tasks) for _ in range(events)
    ]
    json.dump(session, sys.stdout, separators=(",", ":"))
    print()
    return 0


if __name__ == "__main__":
    sys.exit(main())
