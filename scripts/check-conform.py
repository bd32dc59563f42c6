#!/usr/bin/env python3
"""Hold scripts/conform.py to the examples.

Each session in examples/ with an output of a replay is read, and its edits are made. Each of its
steps, written as a line of a log with the reply of that output, has to be read back as that step
and that reply; and by conform.py the reply, and the tasks that the cores run behind it, have to be
those of the output. A line where something is wrong, then totals; status 1 where something is.
"""

import json
import pathlib
import sys

import conform
import settle

EXAMPLES = pathlib.Path(__file__).resolve().parent.parent / "examples"
OF_OTHERS = ("workload", "ticks", "scripts")


def session_of(path):
    """The session of a document with its edits made, or nothing where it is none that is accepted."""
    try:
        document = json.loads(path.read_bytes())
    except ValueError:
        return None
    if not isinstance(document, dict) or any(name in document for name in OF_OTHERS):
        return None
    session = document.get("session", document)
    if not isinstance(session, dict) or session.get("format") not in (1, 2, 3):
        return None
    return {"notes": 1, "queues": []} | settle.edited_session(document)


def words_of(session, step):
    """The words of a step."""
    words = [step["do"]]
    for member in conform.MEMBERS[step["do"]]:
        if conform.has_member(session, step, member):
            value = step.get(member, 0)
            words += [member, conform.flag(value) if isinstance(value, bool) else str(value)]
    return " ".join(words)


def fault(session, table, step, told):
    """What is wrong with a step, of which a replay tells the reply and the tasks; or nothing."""
    cores = session["cores"]
    reply, names = " ".join(told[1:-cores]), told[-cores:]
    if step["do"] != "pass":
        line = f"7 {words_of(session, step)}: {reply}"
        time, read, seen = conform.read_line(session, line)
        wanted = settle.written(step, True)
        if (time, settle.written(read, True), seen) != (7, wanted, reply):
            return f"{line} is read as {read}: {seen}"
    given = conform.made(table, step)
    taken = step["do"] == "switch" and given == names[step["core"]]
    on_cores = [conform.name_of(table, task) for task in table.current]
    if on_cores != names or (given != reply and not (taken and reply == "done")):
        return f"{reply} {names}, by conform.py {given} {on_cores}"
    return ""


def main():
    """Hold the examples, and say how many steps are wrong."""
    sessions, steps, wrong = 0, 0, 0
    for output in sorted(EXAMPLES.rglob("*.out")):
        path = output.with_suffix(".json")
        session = session_of(path) if path.is_file() else None
        lines = [line.split(" ") for line in output.read_text().splitlines() if line[:1].isdigit()]
        if session is None or len(lines) != len(session["steps"]):
            continue
        table = settle.start(session)
        sessions += 1
        for step, told in zip(session["steps"], lines):
            steps += 1
            if found := fault(session, table, step, told):
                wrong += 1
                print(f"WRONG {path.relative_to(EXAMPLES)}, step {told[0]}: {found}")
    print(f"{sessions} sessions, {steps} steps, {wrong} wrong")
    sys.exit(wrong > 0 or sessions == 0)


if __name__ == "__main__":
    main()
