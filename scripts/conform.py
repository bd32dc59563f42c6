#!/usr/bin/env python3
"""Hold the log of a target to the rules: a second opinion, which shares no code with the bench.

    conform.py [--import] [--timer-bits N] [--start TIME] SETTINGS LOG

SETTINGS is a file with a session document of format 3 that has no steps, LOG one with the lines of
a log, `TIME WORDS` or `TIME WORDS: SEEN`, as docs/TARGET.md has them. The kernel is that of
settle.py.

With --import the session is printed that the log is: its steps, and where a tick has more than one
unit a `pass` for the time that went by before a line, by the difference of two times modulo 2^N (32
where --timer-bits is left out). Before the first line no time went by, or with --start what went by
from TIME on.

Else the steps are made one after another. The first line is told at which the rules refuse the
step, or at which what the target saw is not what they give: a reply, or behind a `switch` the task
that the core took. Before it come up to ten lines, and behind it what stood there. Status 0 where
there is none, with a line `conforms: 5120 steps, 640 switches`; 1 where there is one; 2 for a bad
call or a bad line.
"""

import argparse
import json
import pathlib
import sys

import settle

USAGE = "conform.py [--import] [--timer-bits N] [--start TIME] SETTINGS LOG"
NAMES = ("by", "to")
NOTE = ("to", "action", "value", "index")
# What the words of a step have behind its `do`, in their order.
OUTSIDE = {
    "tick": (),
    "switch": ("core",),
    "isr_notify": ("core", *NOTE),
    "isr_send": ("core", "queue"),
    "isr_receive": ("core", "queue"),
    "isr_resume": ("core", "to"),
}
OF_CALLS = {
    "yield": (),
    "delay": ("ticks",),
    "delay_until": ("prev", "inc"),
    "priority_set": ("to", "priority"),
    "affinity_set": ("to", "mask"),
    "preempt_off": ("to",),
    "preempt_on": ("to",),
    "notify": NOTE,
    "notify_wait": ("entry", "exit", "ticks", "index"),
    "notify_take": ("clear", "ticks", "index"),
    "state_clear": ("to", "index"),
    "value_clear": ("to", "bits", "index"),
    "mutex_take": ("mutex", "ticks"),
    "mutex_give": ("mutex",),
    "queue_send": ("queue", "ticks"),
    "queue_receive": ("queue", "ticks"),
    "suspend": ("to",),
    "resume": ("to",),
    "finish": (),
    "hold_open": (),
    "hold_close": (),
}
MEMBERS = OUTSIDE | {do: ("core", "by", *members) for do, members in OF_CALLS.items()}
WITH_VALUE = ("set_bits", "set", "set_new")
WITHOUT_VALUE = ("none", "increment")


class BadLine(Exception):
    """A line that is none of a log, and why."""


# Lines.


class Words:
    """The words of a line that are not read yet, and whether a colon ended the step."""

    def __init__(self, text):
        self.words, self.ended = text.split(" "), False

    def next(self, what, may_end=True):
        """The next word, without the colon at the end of a step. A name may end with one too."""
        if not self.words or self.ended:
            raise BadLine(f"{what} is missing")
        word = self.words.pop(0)
        self.ended = may_end and word.endswith(":") and bool(self.words)
        return word[:-1] if self.ended else word

    def seen(self):
        """What stands behind the colon, or nothing; no other word is left."""
        if self.words and not self.ended:
            raise BadLine(f"{self.words[0]} stands where the step has ended")
        return " ".join(self.words) if self.ended else None


def number(word, what):
    """A number of 32 bits."""
    if not (word.isascii() and word.isdigit() and int(word) < settle.WORD):
        raise BadLine(f"{what} is {word}, and no number from 0 to {settle.ENDLESS}")
    return int(word)


def below(count, value, what):
    """A number that is below another one."""
    if value >= count:
        raise BadLine(f"{what} is {value}, and has to be below {count}")
    return value


def value_of(session, member, word):
    """What a word says of a member."""
    if member in NAMES:
        if word not in [task["name"] for task in session["tasks"]]:
            raise BadLine(f"no task is named {word}")
        return word
    if member == "clear":
        if word not in ("true", "false"):
            raise BadLine(f"clear is {word}")
        return word == "true"
    if member == "action":
        if word not in WITH_VALUE + WITHOUT_VALUE:
            raise BadLine(f"there is no action {word}")
        return word
    counts = {
        "core": session["cores"],
        "mutex": session["mutexes"],
        "queue": len(session["queues"]),
        "index": session["notes"],
    }
    return below(counts.get(member, settle.WORD), number(word, member), member)


def has_member(session, step, member):
    """Whether the words of a step name a member: a value and an index are not always named."""
    if member == "value":
        return step["action"] in WITH_VALUE
    return member != "index" or session["notes"] > 1


def ends_with_name(session, members):
    """Whether a name is the last word of a step, where these members stand behind it."""
    return all(member == "index" and session["notes"] == 1 for member in members)


def read_line(session, line, bits=32):
    """The time, of so many bits, the step and what was seen, of a line."""
    words = Words(line)
    time, do = words.next("the time", False), words.next("the step")
    if do not in MEMBERS:
        raise BadLine(f"there is no step {do}")
    step, members = {"do": do}, MEMBERS[do]
    for place, member in enumerate(members, 1):
        if has_member(session, step, member):
            if words.next(member, False) != member:
                raise BadLine(f"{member} has to stand where another word does")
            may_end = member not in NAMES or ends_with_name(session, members[place:])
            step[member] = value_of(session, member, words.next(member, may_end))
    if step.get("inc") == 0:
        raise BadLine("inc has to be 1 or more")
    return below(1 << bits, number(time, "the time"), "the time"), step, words.seen()


def read_log(session, text, bits=32):
    """The lines of a log with their numbers, times, steps and what was seen."""
    lines = []
    for place, line in enumerate(text.splitlines(), 1):
        try:
            lines.append((place, line, *read_line(session, line, bits)))
        except BadLine as bad:
            raise BadLine(f"line {place}: {bad.args[0]}: {line}") from None
    return lines


def imported(session, lines, bits=32, start=None):
    """The session that a log is."""
    steps, last = [], start
    for _, _, time, step, _ in lines:
        gone = 0 if last is None else (time - last) % (1 << bits)
        if gone > 0 and session.get("units", 1) > 1:
            steps.append({"do": "pass", "units": gone})
        steps.append(step)
        last = time
    return {**session, "steps": steps}


# Replies.


def flag(answer):
    """Yes or no."""
    return "true" if answer else "false"


def refusal(table, step):
    """Why a step is refused, or nothing."""
    core, do = step.get("core"), step["do"]
    if do == "switch":
        held, due = table.hold_core is not None, settle.is_due(table, core)
        return "E1" if held else "" if due else "E10"
    if do in settle.NOT_CALLS:
        return ""
    task = table.number[step["by"]]
    unfinished = table.unfinished[task] is not None
    found = [
        ("E1", table.hold_core not in (None, core)),
        ("E2", table.current[core] != task),
        ("E3", settle.is_due(table, core) and table.hold_core is None),
        ("E4", unfinished and do != "finish"),
        ("E5", not unfinished and do == "finish"),
    ]
    code = next((code for code, holds in found if holds), "")
    return code or misuse(table, core, task, step)


def misuse(table, core, task, step):
    """Why a call that its task comes to is refused, or nothing."""
    do, in_hold = step["do"], table.hold_core == core
    if in_hold and settle.would_block(table, task, step):
        return "E6"
    if do == "hold_close" and not in_hold:
        return "E7"
    if do == "hold_open" and in_hold and table.depth == settle.DEEPEST:
        return "E8"
    wrong_giver = do == "mutex_give" and table.holder[step["mutex"]] not in (None, task)
    return "E9" if wrong_giver else ""


def completion(table, task, call):
    """The reply of a wait for a notification that completes."""
    at = call.get("index", 0)
    if call["do"] == "notify_take":
        return f"value {table.value[task][at]}"
    came = table.state[task][at] == "received"
    cleared = 0 if came or table.unfinished[task] is not None else call["entry"]
    return f"waited {flag(came)} {table.value[task][at] & ~cleared}"


def end_of_call(table, task, call):
    """The reply of a call that neither is refused nor waits, or the one of its end."""
    do = call["do"]
    if do in ("notify_wait", "notify_take"):
        return completion(table, task, call)
    if do == "mutex_take":
        return flag(table.holder[call["mutex"]] is None)
    if do in settle.WAYS:
        return flag(settle.can_pass(table, call))
    return "done"


def reply_of_call(table, task, step):
    """The reply of a call that is not refused."""
    do, at = step["do"], step.get("index", 0)
    to = table.number.get(step.get("to"))
    if do == "delay_until":
        ahead = settle.ticks_until(table, step) > 0
        return f"until {flag(ahead)} {(step['prev'] + step['inc']) % settle.WORD}"
    if do == "notify":
        return flag(step["action"] != "set_new" or table.state[to][at] != "received")
    if do == "state_clear":
        return flag(table.state[to][at] == "received")
    if do == "value_clear":
        return f"value {table.value[to][at]}"
    if do == "mutex_give":
        return flag(table.holder[step["mutex"]] is not None)
    if do != "suspend" and settle.would_block(table, task, step):
        return "blocked"
    return end_of_call(table, task, table.unfinished[task] if do == "finish" else step)


def passes(table, step):
    """Whether an interrupt passes what it is to pass."""
    if step["do"] == "isr_notify":
        state = table.state[table.number[step["to"]]][step.get("index", 0)]
        return step["action"] != "set_new" or state != "received"
    if step["do"] == "isr_resume":
        return table.suspended[table.number[step["to"]]]
    return settle.can_pass(table, step)


def name_of(table, task):
    """The name of a task, also of an idle one."""
    names = {place: name for name, place in table.number.items()}
    return names.get(task, f"IDLE{task}")


def made(table, step):
    """Make a step, and give what there is to see of it: its reply, or the task that a core took."""
    code, do = refusal(table, step), step["do"]
    if code:
        return f"refused {code}"
    if do == "switch":
        settle.switch(table, step["core"])
        return name_of(table, table.current[step["core"]])
    if do in settle.INTERRUPTS:
        passed = passes(table, step)
        settle.come_from_outside(table, step)
        return f"isr {flag(passed)} {flag(table.pend[step['core']])}"
    if do in settle.NOT_CALLS:
        settle.come_from_outside(table, step)
        return "done"
    task = table.number[step["by"]]
    reply = reply_of_call(table, task, step)
    settle.make_call(table, step["core"], task, step)
    return reply


# Differences.


def standing(table):
    """The tick count, and what each core runs and whether it is due."""
    cores = [
        f"core {core} {name_of(table, task)}{', due' if settle.is_due(table, core) else ''}"
        for core, task in enumerate(table.current)
    ]
    return "; ".join([f"tick {table.tick % settle.WORD}", *cores])


def difference(session, lines):
    """The first line at which target and rules differ, with the lines before; or nothing."""
    table = settle.start(session)
    for index, (place, line, _, step, seen) in enumerate(lines):
        before = standing(table)
        given = made(table, step)
        if given.startswith("refused") or seen not in (None, given):
            told = [f"  {other[0]}: {other[1]}" for other in lines[max(0, index - 10) : index]]
            return "\n".join([*told, f"line {place}: {line}", f"by the rules: {given}", before])
    return ""


def main():
    """Import a log, or hold it to the rules."""
    parser = argparse.ArgumentParser(usage=USAGE)
    parser.add_argument("--import", action="store_true", dest="imports")
    parser.add_argument("--timer-bits", type=int, default=32, choices=range(1, 33), metavar="N")
    parser.add_argument("--start", type=int)
    parser.add_argument("settings")
    parser.add_argument("log")
    words = parser.parse_args()
    session = json.loads(pathlib.Path(words.settings).read_bytes())
    try:
        lines = read_log(session, pathlib.Path(words.log).read_text(), words.timer_bits)
    except BadLine as bad:
        print(bad.args[0], file=sys.stderr)
        return 2
    if words.imports:
        print(json.dumps(imported(session, lines, words.timer_bits, words.start)))
        return 0
    found = difference(session, lines)
    switches = sum(step["do"] == "switch" for _, _, _, step, _ in lines)
    print(found or f"conforms: {len(lines)} steps, {switches} switches")
    return int(found != "")


if __name__ == "__main__":
    sys.exit(main())
