"""Pictures against traces: see check-pictures.sh."""
import collections
import json
import os
import pathlib
import random
import re
import shutil
import subprocess
import sys
import tempfile
import time
import xml.etree.ElementTree

# Of each picture of docs/pictures the words that draw it.
PICTURES = {
    "held-kernel": ["examples/held-kernel.json"],
    "priority-inversion-ended": ["examples/priority-inversion-ended.json"],
    "shared-mutex": ["examples/questions/shared-mutex.json"],
    "shorter-timeout": ["--settle", "examples/settled/shorter-timeout.json"],
    "shorter-timeout-by-ticks": ["--settle", "--axis", "tick", "examples/settled/shorter-timeout.json"],
    "producer-and-consumer": ["--settle", "examples/settled/producer-and-consumer.json"],
    "first-design": ["--axis", "time", "examples/workloads/first-design.json"],
    "time-stamps-by-time": ["--settle", "--axis", "time", "examples/settled/time-stamps.json"],
}
# And of other examples that a browser is shown.
EXAMPLES = {name: [f"examples/{name}.json"] for name in ("first-run", "periodic-task", "another-call", "two-notifications")}
WIDTHS = (800, 1600)
SCHEMES = {"dark": 0, "light": 1}
SVG = "{http://www.w3.org/2000/svg}"
LEGEND = {
    "running", "ready", "blocked", "suspended", "idle task", "core due to switch", "core holds the kernel", "priority inherited",
    "preemption off", "mutex held", "messages in a queue", "interrupt", "refused", "not known",
}

INTERRUPT = r"step \d+: isr_(notify|send|receive|resume) "

passed = failed = 0


def hold(what, holds, more=""):
    global passed, failed
    if holds:
        passed += 1
    else:
        failed += 1
        print(f"WRONG {what} {more}"[:400])


def view(words, text):
    done = subprocess.run([VIEWER, *words], input=text, capture_output=True, text=True)
    return done.returncode, done.stdout, done.stderr


# ---- a run, as its trace tells it


class Run:
    """What a trace tells of each place, as lists by place. From the place that is known on, if there is one, the run is not known."""

    def __init__(self, trace, tasks, queues, known=None):
        self.ticks, self.cores, self.holds, self.steps = [], [], [], []
        self.tasks = tasks
        self.known = known
        self.blocked, self.priorities, self.masks, self.unpreempted, self.holders = [], [], [], [], []
        self.suspended = []
        blocked, suspended = {}, set()
        masks = {task["name"]: task["mask"] for task in tasks}
        priority = {task["name"]: (task["priority"], task["priority"]) for task in tasks}
        self.messages = []
        unpreempted, holders = set(), {}
        messages = dict(enumerate(queue["messages"] for queue in queues))
        for line in trace.splitlines():
            if line.startswith("place "):
                parts = line.split("; ")
                self.ticks.append(int(parts[0].split(", tick ")[1]))
                held = [part for part in parts[1:] if part.startswith("held by ")]
                self.holds.append(held[0] if held else None)
                self.cores.append([part.split(" ", 2)[2] for part in parts[1:] if part.startswith("core ")])
                self.blocked.append(dict(blocked))
                self.suspended.append(set(suspended))
                self.priorities.append(dict(priority))
                self.masks.append(dict(masks))
                self.unpreempted.append(set(unpreempted))
                self.holders.append(dict(holders))
                self.messages.append(dict(messages))
            elif line.startswith("step "):
                self.steps.append([line])
            else:
                if len(self.steps[-1]) == 1:
                    self.steps[-1].append(line.strip())
                words = line.split()
                if len(words) >= 2 and words[1] == "blocked" and words[0] != "blocked:":
                    blocked[words[0]] = " ".join(words[1:])
                elif words[1:] == ["woken"]:
                    del blocked[words[0]]
                elif words[1:] == ["suspended"]:
                    blocked.pop(words[0], None)
                    suspended.add(words[0])
                elif words[1:] == ["resumed"]:
                    suspended.remove(words[0])
                elif words[1:4] == ["priority", "in", "use"]:
                    priority[words[0]] = (int(words[6]), priority[words[0]][1])
                elif words[1:3] == ["base", "priority"]:
                    priority[words[0]] = (priority[words[0]][0], int(words[5]))
                elif words[1:2] == ["mask"]:
                    masks[words[0]] = int(words[4])
                elif words[1:] == ["preemption", "off"]:
                    unpreempted.add(words[0])
                elif words[1:] == ["preemption", "on"]:
                    unpreempted.discard(words[0])
                elif words[0] == "mutex" and words[2:4] == ["taken", "by"]:
                    holders[int(words[1])] = words[4]
                elif words[0] == "mutex" and words[2:4] == ["given", "by"]:
                    del holders[int(words[1])]
                elif words[0] == "queue" and words[2:3] == ["messages"]:
                    assert messages[int(words[1])] == int(words[3])
                    messages[int(words[1])] = int(words[5])

    def is_pale(self):
        return self.known is not None and self.known < len(self.ticks)

    def current(self, place, core):
        return self.cores[place][core].split(", due by ")[0]

    def changed_queues(self):
        """The queues that have not the same number of messages at all places."""
        return [queue for queue in self.messages[0] if len({messages[queue] for messages in self.messages}) > 1]

    def due(self, place, core):
        return (self.cores[place][core].split(", due by ") + [None])[1]

    def stance(self, place, name):
        if name in self.suspended[place]:
            return "suspended"
        if name in self.blocked[place]:
            return self.blocked[place][name]
        for core in range(len(self.cores[place])):
            if self.current(place, core) == name:
                return f"runs on core {core}"
        return "ready"

    def terms(self, place, name):
        """Its base priority, and its mask where that has not all cores."""
        mask, cores = self.masks[place][name], len(self.cores[0])
        all_cores = all(mask >> core & 1 for core in range(cores))
        return f"priority {self.priorities[place][name][1]}" + ("" if all_cores else f", mask {mask}")

    def in_the_way(self, place, name):
        """What keeps each core from a ready task, a line for each, those of its mask first."""
        own, mask, hold = self.priorities[place][name][0], self.masks[place][name], self.holds[place]
        inside, outside = [], []
        for core in range(len(self.cores[0])):
            rival = self.current(place, core)
            level = self.priorities[place].get(rival, (0, 0))[0]
            # The kernel compares effective priorities: that of an idle task is below 0.
            effective = level if rival in self.priorities[place] else -1
            if not mask >> core & 1:
                outside.append(f"core {core}: not in its mask")
            elif hold:
                inside = ["the kernel is " + hold.split(" depth ")[0]]
            elif self.due(place, core):
                inside.append(f"core {core}: due, has not switched yet")
            else:
                more = "" if own <= effective else " with preemption off"
                if own > effective and rival not in self.unpreempted[place]:
                    more = ", which is lower; the core was not asked"
                inside.append(f"core {core}: {rival} of priority {level} runs{more}")
        if hold and inside:
            return inside
        told = inside + outside
        more = len(told) - 8
        return told[:8] + [f"and {more} more core" + "s" * (more > 1)] * (more > 0)


def over(first, last):
    return f"place {first}: " if first == last else f"places {first} to {last}: "


def stretches(values):
    """(first, last, value) of each stretch of equal values; those of None are left out."""
    found = []
    for place, value in enumerate(values):
        if found and found[-1][2] == value and found[-1][1] == place - 1:
            found[-1][1] = place
        else:
            found.append([place, place, value])
    return [tuple(it) for it in found if it[2] is not None]


def pose(run, place, name):
    stance = run.stance(place, name)
    return "\n".join([stance] + (run.in_the_way(place, name) if stance == "ready" else []))


def opened(run, name, stances):
    """The stretches of how a task stands, with what is in its way at the first place of each."""
    return [(first, last, "\n".join([value, f"at place {first}:"] + run.in_the_way(first, name)) if value == "ready" else value)
            for first, last, value in stances]


def wanted(run):
    """Of each kind of bar what the picture has to show: its stretches."""
    places = range(len(run.ticks))
    bars = {("tick",): stretches([str(tick) for tick in run.ticks])}
    for core in range(len(run.cores[0])):
        bars["current", core] = stretches([run.current(p, core) for p in places])
        bars["due", core] = stretches([run.due(p, core) for p in places])
    bars[("hold",)] = stretches(run.holds)
    poses = {task["name"]: stretches([pose(run, p, task["name"]) for p in places]) for task in run.tasks}
    pieces = sum(value.startswith("ready") for found in poses.values() for _, _, value in found)
    each = pieces <= 4096 and len(run.ticks) * len(run.tasks) * len(run.cores[0]) <= 2097152
    for task in run.tasks:
        name = task["name"]
        bars["stance", name] = poses[name] if each else opened(run, name, stretches([run.stance(p, name) for p in places]))
        bars["preemption", name] = stretches(["off" if name in run.unpreempted[p] else None for p in places])
        bars["priority", name] = stretches([x if x[0] != x[1] else None for x in (run.priorities[p][name] for p in places)])
    for mutex in range(64):
        bars["mutex", mutex] = stretches([run.holders[p].get(mutex) for p in places])
    for queue in run.changed_queues():
        bars["queue", queue] = stretches([run.messages[p][queue] or None for p in places])
    return {key: value for key, value in bars.items() if value}


def legend_of(run):
    names = {task["name"] for task in run.tasks}
    used = set()
    for place in range(len(run.ticks)):
        for core in range(len(run.cores[0])):
            used.add("running" if run.current(place, core) in names else "idle task")
            if run.due(place, core):
                used.add("core due to switch")
        for name in names:
            stance = run.stance(place, name)
            kind = stance.split()[0]
            used.add(kind if kind in ("blocked", "ready", "suspended") else "running")
            if len(set(run.priorities[place][name])) == 2:
                used.add("priority inherited")
        if run.holds[place]:
            used.add("core holds the kernel")
        if run.unpreempted[place]:
            used.add("preemption off")
        if run.holders[place]:
            used.add("mutex held")
    for step in run.steps:
        if step[1].startswith("refused "):
            used.add("refused")
        elif re.match(INTERRUPT, step[0]):
            used.add("interrupt")
    if run.changed_queues():
        used.add("messages in a queue")
    if run.is_pale():
        used.add("not known")
    return used


# ---- a picture


def title(element):
    found = element.find(SVG + "title")
    return None if found is None else found.text


def shown(elements):
    """Of each kind of bar its stretches, as hovering tells them."""
    bars = collections.defaultdict(list)
    for element in elements:
        told = re.match(r"places? (\d+)(?: to (\d+))?: (.*)", title(element) or "", re.S)
        if not told:
            continue
        first, last, words = int(told[1]), int(told[2] or told[1]), told[3]
        kinds = [
            (r"tick (\d+)$", lambda m: (("tick",), m[1])),
            (r"core (\d+), due by (.*)$", lambda m: (("due", int(m[1])), m[2])),
            (r"core (\d+) (\S+)$", lambda m: (("current", int(m[1])), m[2])),
            (r"(held by core \d+ depth \d+)$", lambda m: (("hold",), m[1])),
            (r"mutex (\d+) held by (\S+)$", lambda m: (("mutex", int(m[1])), m[2])),
            (r"queue (\d+) messages (\d+)$", lambda m: (("queue", int(m[1])), int(m[2]))),
            (r"(\S+) priority in use (\d+), base priority (\d+)$", lambda m: (("priority", m[1]), (int(m[2]), int(m[3])))),
            (r"(\S+) (runs on core \d+)$", lambda m: (("stance", m[1]), m[2])),
            (r"(\S+) (blocked (?:until tick \d+|without end))(?: \([^)]*\))?$", lambda m: (("stance", m[1]), m[2])),
            (r"(\S+) (ready(?:\n.*)?|suspended)$", lambda m: (("stance", m[1]), m[2])),
            (r"(\S+) preemption (off)$", lambda m: (("preemption", m[1]), m[2])),
        ]
        for pattern, of in kinds:
            match = re.match(pattern, words, re.S)
            if match:
                key, value = of(match)
                bars[key].append((first, last, value))
                break
    return dict(bars)


def terms_of(run, name):
    """What stands below the name of a task, and what hovering tells of it."""
    found = stretches([run.terms(p, name) for p in range(len(run.ticks))])
    lines = [over(first, last) + value for first, last, value in found]
    return found[0][2] + " .." * (len(found) > 1), "\n".join([name] + lines)


def number(element, name):
    return int(element.get(name, "0"))


def check_panel(what, elements, run):
    bars, want = shown(elements), wanted(run)
    for key in sorted(set(bars) | set(want), key=str):
        got = bars.get(key)
        hold(f"{what}: {key}", got == want.get(key), f"{got} and not {want.get(key)}")
    told = [(e.text, title(e)) for e in elements if e.tag == SVG + "text" and title(e)]
    terms = [terms_of(run, task["name"]) for task in run.tasks]
    hold(f"{what}: priorities and masks", told == terms, f"{told} and not {terms}")
    cells = [title(e).split("\n") for e in elements if e.get("class") == "z"]
    hold(f"{what}: steps", cells == run.steps, f"{cells[:2]} and not {run.steps[:2]}")
    marks = [(title(e).split("\n"), e.get("class")) for e in elements if e.tag == SVG + "path" and e.get("class") in ("x", "n")]
    steps = [(step, "x" if step[1].startswith("refused ") else "n") for step in run.steps
             if step[1].startswith("refused ") or re.match(INTERRUPT, step[0])]
    hold(f"{what}: marks", marks == steps, f"{marks[:2]} and not {steps[:2]}")
    # A place begins at one column in all rows, and ends where the next one begins.
    begins = {}
    alike = True
    for element in elements:
        told = re.match(r"places? (\d+)(?: to (\d+))?: ", title(element) or "")
        if told and element.tag == SVG + "rect":
            first, last = int(told[1]), int(told[2] or told[1])
            alike &= begins.setdefault(first, number(element, "x")) == number(element, "x")
            end = number(element, "x") + number(element, "width")
            alike &= begins.setdefault(last + 1, end) == end
    hold(f"{what}: columns", alike and [begins[p] for p in sorted(begins)] == sorted(set(begins.values())), str(begins))
    numbered = {(number(e, "x"), number(e, "y")): e.text for e in elements if e.get("class") == "l"}
    labels = [(numbered.get((number(e, "x") + 3, number(e, "y") + 11), ""), title(e).split()[-1], number(e, "width"))
              for e in elements if e.get("class") == "q"]
    told = all(label == (words if 8 * len(words) + 4 <= width else "") for label, words, width in labels)
    hold(f"{what}: numbers of messages", told, str(labels))
    names = [e.text for e in elements if e.tag == SVG + "text" and e.get("x") == "8" and (e.text or "").startswith("queue ")]
    wanted_names = [f"queue {queue}" for queue in run.changed_queues()]
    hold(f"{what}: rows of queues", names == wanted_names, f"{names} and not {wanted_names}")
    check_rows(what, elements)
    check_pale(what, elements, run, begins)
    rules = [int(re.match(r"M(\d+) ", e.get("d"))[1]) for e in elements if e.get("class") == "g"]
    ticks = [begins[first] for first, _, _ in want[("tick",)]]
    ruled = "--axis tick" in what or "--axis time" in what
    hold(f"{what}: rules", rules == (ticks if ruled else []), f"{rules} and not {ticks}")
    return ticks


def box(element):
    """Where it stands: left, top, right, bottom."""
    if element.tag == SVG + "rect":
        x, y = number(element, "x"), number(element, "y")
        return x, y, x + number(element, "width"), y + number(element, "height")
    if element.tag == SVG + "text":
        wide, high = (6.02, 8) if element.get("class") == "s" else (7.23, 9)
        x, y = number(element, "x"), number(element, "y")
        return x, y - high, x + wide * len(element.text or ""), y + 2
    found = re.match(r"M(\d+) (\d+)(?:h8|l8 8)", element.get("d", ""))
    return (int(found[1]), int(found[2]), int(found[1]) + 8, int(found[2]) + 8) if found else None


def meet(a, b):
    return a[0] < b[2] and b[0] < a[2] and a[1] < b[3] and b[1] < a[3]


def check_rows(what, elements):
    words = [box(e) for e in elements if e.tag == SVG + "text"]
    marks = [box(e) for e in elements if e.tag == SVG + "path" and e.get("class") in ("x", "n")]
    hold(f"{what}: a mark covers a name", not any(meet(a, b) for a in marks for b in words))
    lines = [box(e) for e in elements if e.get("class") in ("d", "h", "u", "p")]
    hold(f"{what}: a line covers a name", not any(meet(a, b) for a in lines for b in words))
    names = [box(e) for e in elements if e.tag == SVG + "text" and e.get("x") == "8"]
    bars = [box(e) for e in elements if e.tag == SVG + "rect"]
    hold(f"{what}: a bar covers what stands beside it", not any(meet(a, b) for a in bars for b in names))
    words.sort()
    hold(f"{what}: names run into one another", not any(meet(a, b) for k, a in enumerate(words) for b in words[k + 1 : k + 40]))
    # Rows: what is told of one core, task, mutex or queue keeps out of what is told of another.
    rows = collections.defaultdict(list)
    for element in elements:
        told = re.match(r"places? \d+(?: to \d+)?: (core \d+|tick|mutex \d+|queue \d+|\S+)", title(element) or "")
        if told and element.tag == SVG + "rect" and not told[1].startswith("held"):
            rows[told[1]].append(box(element))
    spans = sorted((min(b[1] for b in boxes), max(b[3] for b in boxes), name) for name, boxes in rows.items())
    hold(f"{what}: rows", all(a[1] <= b[0] for a, b in zip(spans, spans[1:])), str(spans))


def check_pale(what, elements, run, begins):
    """From where the run is not known one pale part covers the bars of all rows, and a dashed line stands at its left."""
    pale = [box(e) for e in elements if e.get("class") == "b f"]
    edges = [e.get("d") for e in elements if e.get("class") == "y"]
    bars = [box(e) for e in elements if e.tag == SVG + "rect" and title(e)]
    if run.is_pale():
        left, right = begins[run.known], begins[len(run.ticks)]
        top, bottom = min(b[1] for b in bars), max(b[3] for b in bars)
        hold(f"{what}: pale part", [(x, end) for x, _, end, _ in pale] == [(left, right)], f"{pale} and not {left} to {right}")
        hold(f"{what}: pale rows", all(y <= top and bottom <= foot for _, y, _, foot in pale), f"{pale} and not {top} to {bottom}")
        hold(f"{what}: where it begins", edges == [f"M{x} {y}v{foot - y}" for x, y, _, foot in pale], str(edges))
    else:
        hold(f"{what}: pale part", not pale and not edges, f"{pale} {edges}")


def check_picture(what, svg, runs):
    root = xml.etree.ElementTree.fromstring(svg)
    width, height = (int(n) for n in root.get("viewBox").split()[2:])
    hold(f"{what}: scales with its page", root.get("width") == "100%" and f"min-width:{width * 3 // 4}px" in root.get("style"))
    elements = [e for e in root.iter() if e.tag in (SVG + "rect", SVG + "text", SVG + "path")]
    groups = [group for group in root.findall(SVG + "g") if group.get("transform")]
    told = [title(group) for group in root.findall(SVG + "g") if not group.get("transform")]
    unknown = [f"not known from place {run.known} on" for run in runs if run.is_pale()]
    hold(f"{what}: from where it is not known", told == unknown, f"{told} and not {unknown}")
    in_groups = {id(e) for g in groups for e in g.iter()} | {id(e) for g in root.findall(SVG + "pattern") for e in g.iter()}
    drawn = [e for e in elements if id(e) not in in_groups and e.get("class") != "b"]
    boxes = [box(e) for e in drawn if box(e)]
    hold(f"{what}: clipped", all(b[0] >= 0 and b[1] >= 0 and b[2] <= width and b[3] <= height for b in boxes))
    legend = []
    for group in groups:
        x, y = (int(n) for n in re.match(r"translate\((\d+),(\d+)\)", group.get("transform")).groups())
        text = group.find(SVG + "text").text
        legend.append((x, y, text))
        hold(f"{what}: the legend is clipped", x + 26 + 6.02 * len(text) <= width and y + 14 <= height)
        hold(f"{what}: the legend runs into the rows", y >= max(b[3] for b in boxes))
    cells = {(x, y) for x, y, _ in legend}
    hold(f"{what}: signs stand on one another", len(cells) == len(legend))
    used = set().union(*(legend_of(run) for run in runs))
    told = {text for _, _, text in legend if text in LEGEND}
    hold(f"{what}: legend", told == used, f"{sorted(told)} and not {sorted(used)}")
    panels = [[]]
    for element in drawn:
        if element.get("class") == "k":
            if panels[-1]:
                panels.append([])
        else:
            panels[-1].append(element)
    hold(f"{what}: runs", len(panels) == len(runs), str(len(panels)))
    ticks = [check_panel(f"{what}, run {k}", panel, run) for k, (panel, run) in enumerate(zip(panels, runs))]
    if "--axis tick" in what and len(ticks) == 2:
        hold(f"{what}: ticks of both runs", all(a == b for a, b in zip(*ticks)), str(ticks))


def check_document(name, document, modes, known=(None, None)):
    """Its picture in each mode. `known`: from which place on the run before the edits is not known, and that after them."""
    session = document.get("session", document)
    edits = document.get("edits", [])
    for mode in modes:
        what = " ".join([name, *mode])
        settle = [word for word in mode if word == "--settle"]
        status, svg, errors = view(["timeline", *mode], json.dumps(document))
        if status:
            hold(f"{what}: status {status}", False, errors)
            continue
        runs = []
        givens = [{"session": session, "edits": []}] + [{"session": session, "edits": edits}] * bool(edits)
        for given, place in zip(givens, known):
            trace = view(["trace", *settle], json.dumps(given))[1]
            checked = json.loads(view(["session"], json.dumps(given))[1])
            runs.append(Run(trace, checked["tasks"], checked.get("queues", []), place))
        check_picture(what, svg, runs)


def long_session(steps, seed):
    """A session of so many calls, ticks and interrupts of six tasks on three cores, which a settled run makes sensible."""
    random.seed(seed)
    names = ["network", "control", "storage", "telemetry", "watchdog_timer", "ui"]
    tasks = [{"name": n, "priority": 1 + k % 4, "mask": random.choice([7, 7, 3, 5])} for k, n in enumerate(names)]
    made = []
    held = collections.defaultdict(list)
    while len(made) < steps:
        name = random.choice(names)
        core = random.randrange(3)
        kind = random.randrange(12)
        call = None
        if kind < 4:
            made.append({"do": "tick"})
        elif kind == 4:
            made.append({"do": "isr_notify", "core": core, "to": name, "action": "increment"})
        elif kind == 5:
            call = {"do": "delay", "ticks": random.randrange(1, 5)}
        elif kind in (6, 7) and len(held[name]) < 3:
            mutex = random.choice([m for m in range(4) if m not in held[name]])
            held[name].append(mutex)
            call = {"do": "mutex_take", "mutex": mutex, "ticks": 6}
        elif kind == 8 and held[name]:
            call = {"do": "mutex_give", "mutex": held[name].pop()}
        elif kind == 9:
            call = {"do": "notify_take", "clear": False, "ticks": 3}
        elif kind == 10:
            call = {"do": random.choice(["preempt_off", "preempt_on"]), "to": name}
        elif kind == 11:
            call = {"do": "yield"}
        if call:
            made.append({**call, "core": core, "by": name})
    return {"format": 1, "cores": 3, "priorities": 5, "slicing": True, "mutexes": 4, "tick": 4294967290,
            "tasks": tasks, "steps": made}


def woken_among_idle():
    """A session in which a ready task of priority 0 stands beside an idle task whose core was not asked for it."""
    tasks = [{"name": "A", "priority": 1, "mask": 3}, {"name": "Z", "priority": 0, "mask": 3}]
    made = [{"do": "delay", "core": 0, "by": "A", "ticks": 9}, {"do": "switch", "core": 0},
            {"do": "delay", "core": 1, "by": "Z", "ticks": 1}, {"do": "switch", "core": 1},
            {"do": "tick"}, {"do": "tick"}, {"do": "switch", "core": 1}]
    return {"format": 1, "cores": 2, "priorities": 2, "slicing": False, "mutexes": 0, "tick": 0, "tasks": tasks, "steps": made}


def suspended_tasks():
    """A session in which a running, a waiting and the calling task are suspended, and each is resumed in some way."""
    tasks = [{"name": "A", "priority": 3, "mask": 3}, {"name": "B", "priority": 2, "mask": 3}, {"name": "C", "priority": 1, "mask": 3}]
    made = [{"do": "suspend", "core": 0, "by": "A", "to": "B"}, {"do": "switch", "core": 1}, {"do": "pass", "units": 250},
            {"do": "isr_resume", "core": 1, "to": "B"}, {"do": "isr_resume", "core": 1, "to": "B"}, {"do": "switch", "core": 1},
            {"do": "queue_receive", "core": 1, "by": "B", "queue": 0, "ticks": 9}, {"do": "switch", "core": 1},
            {"do": "suspend", "core": 0, "by": "A", "to": "B"}, {"do": "tick"}, {"do": "resume", "core": 1, "by": "C", "to": "B"},
            {"do": "switch", "core": 1}, {"do": "finish", "core": 1, "by": "B"}, {"do": "suspend", "core": 0, "by": "A", "to": "A"},
            {"do": "switch", "core": 0}, {"do": "tick"}, {"do": "resume", "core": 0, "by": "C", "to": "A"}, {"do": "switch", "core": 0}]
    return {"format": 3, "cores": 2, "priorities": 4, "slicing": False, "mutexes": 0, "tick": 0, "notes": 1, "units": 1000,
            "queues": [{"length": 1, "messages": 0}], "tasks": tasks, "steps": made}


# ---- what a browser makes of it


def elements_of(text):
    """The elements of a picture, each with its attributes and its own text."""
    return [(e.tag, sorted(e.attrib.items()), (e.text or "").strip()) for e in xml.etree.ElementTree.fromstring(text).iter()]


def browse(words, path):
    flags = ["--headless=new", "--no-sandbox", "--disable-gpu", "--hide-scrollbars"]
    done = subprocess.run([BROWSER, *flags, *words, path.resolve().as_uri()], capture_output=True, text=True)
    return done.stdout


def check_in_browser(name, words, folder):
    """The picture in a browser: it has the same elements there, and is shown at each width in each scheme."""
    drawn = view(["timeline", *words], "")[1]
    path = folder / f"{name}.svg"
    path.write_text(drawn)
    hold(f"{name} in the browser", elements_of(browse(["--dump-dom"], path)) == elements_of(drawn))
    height = int(re.search(r"viewBox='0 0 \d+ (\d+)'", drawn)[1]) * 2
    for width in WIDTHS:
        for scheme, number in SCHEMES.items():
            shot = folder / f"{name}-{width}-{scheme}.png"
            shot.unlink(missing_ok=True)
            browse([f"--window-size={width},{height}", f"--blink-settings=preferredColorScheme={number}", f"--screenshot={shot}"], path)
            hold(f"{shot} is not shown", shot.exists())


def check_in_browsers(folder):
    for name, words in (PICTURES | EXAMPLES).items():
        check_in_browser(name, words, folder)


def main():
    options = [word for word in sys.argv[2:] if word == "--write"]
    folders = [word for word in sys.argv[2:] if not word.startswith("-")]
    if len(options) + len(folders) < len(sys.argv[2:]) or len(options) > 1 or len(folders) > 1:
        print("usage: check-pictures.sh [--write] [FOLDER]", file=sys.stderr)
        sys.exit(2)
    for name, words in PICTURES.items():
        path = pathlib.Path("docs/pictures", name + ".svg")
        drawn = view(["timeline", *words], "")[1]
        if options:
            path.write_text(drawn)
        hold(f"{path} is not what is drawn", path.exists() and path.read_text() == drawn)
    hold("docs/pictures", {p.stem for p in pathlib.Path("docs/pictures").glob("*.svg")} == set(PICTURES))
    documents = sorted(p for p in pathlib.Path("examples").rglob("*.json") if not {"rigs", "refusals", "workloads"} & set(p.parts))
    for path in documents:
        check_document(str(path), json.loads(path.read_text()), MODES)
    check_document("200 steps", long_session(200, 7), MODES)
    check_document("woken among idle tasks", woken_among_idle(), MODES)
    check_document("suspended tasks", suspended_tasks(), MODES)
    begun = time.monotonic()
    status, svg, errors = view(["timeline"], json.dumps(long_session(3999, 11)))
    took = time.monotonic() - begun
    hold("a picture of 4000 places", status == 0 and len(svg) < 10_000_000 and took < 0.5, f"{status} {len(svg)} {took:.2f}")
    if shutil.which(BROWSER) is None:
        print(f"left out, since {BROWSER} is not here: what a browser shows")
    elif folders:
        pathlib.Path(folders[0]).mkdir(parents=True, exist_ok=True)
        check_in_browsers(pathlib.Path(folders[0]).resolve())
    else:
        with tempfile.TemporaryDirectory() as folder:
            check_in_browsers(pathlib.Path(folder))
    print(f"{passed} passed, {failed} failed")
    sys.exit(failed > 0)


VIEWER = sys.argv[1]
BROWSER = os.environ.get("BROWSER", "chromium")
AXES = [[], ["--axis", "tick"], ["--axis", "time"]]
MODES = [[*axis, *settled] for axis in AXES for settled in ([], ["--settle"])]
main()
