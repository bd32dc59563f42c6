#!/usr/bin/env python3
"""Hold runs that keep work, as scripts/kept.py makes them, to their properties and to true ones.

    check-kept.py [--shares] [COUNT [FIRST]]

COUNT random documents, or 400, are those of check-settled.py; but each second one has the run of a
workload, a random one or an example, with edits. In each there are edits of work too. With either
order of calls at one time

- steps from outside are all there, in their order, each as long after the start as it was
- the calls of each task are its calls in order, and then those that are not made
- settling the run changes nothing
- it is known as far as a search over it and the run before the edits says
- of calls that stand first in the list first, the run without edits is the settled run, of which no
  pass is cut and all is known

Then workloads are changed, the examples and random ones, and the run of the changed workload is
what is true. The document has the run of the workload that was not changed, and edits that say the
change. Of the changes of which it can tell, as no task comes to another call than those of the
document, it is printed how many runs are right: the run as it stands, the settled one, and those
that keep work, with either order; and of all changes how many are right as far as they are known.

A line where a property fails, then totals; status 1 where one does. FIRST is the number of the first
document. With `--shares` COUNT changes of the examples alone, or 300, are shared out among them, no
property is held, and a table tells how many runs are right: it is that of docs/WHATIF.md.
"""

import copy
import importlib
import json
import random
import sys
from collections import Counter, defaultdict

import kept
import known
import settle
import workloads

documents = importlib.import_module("check-settled")
random_workloads = importlib.import_module("check-workloads")

TIES = ("oldest", "core")
MOST_STEPS, MOST_TICKS, TRIES = 6000, 40, 20
# The runs that are held against true ones, and what they are called in the table of shares.
RUNS = {
    "unedited": "no edits",
    "as written": "as it stands",
    "settled": "`--settle`",
    "oldest": "`--keep-work`",
    "core": "`--ties core`",
    "oldest as far as known": "`--keep-work`, known part",
    "core as far as known": "`--ties core`, known part",
}
KEPT_CALLS = ("delay", "delay_until", "hold_open", "hold_close")


# Runs of workloads.


def next_step(run):
    """The next step of the run of a workload, or none."""
    for may, do in ((run.may_switch, "switch"), (run.may_finish, "finish")):
        core = run.first(may)
        if core is not None:
            return {"do": do, "core": core} | ({"by": run.name_on(core)} if do == "finish" else {})
    if run.units > 1 and run.time == run.tick_end():
        return {"do": "tick"}
    core = run.first(run.may_call)
    if core is not None:
        call = run.tasks[run.table.current[core]].next_call()
        return {**call, "core": core, "by": run.name_on(core)}
    if run.arrival is not None and run.arrival[0] == run.time:
        return workloads.without(run.interrupts[run.arrival[1]], workloads.OF_TIME)
    if run.ticks == run.last:
        return None
    return {"do": "tick"} if run.units == 1 else {"do": "pass", "units": pass_units(run)}


def pass_units(run):
    """How long time goes by until something ends or comes."""
    ends = [run.tick_end() - run.time, *(task.left for task in run.working())]
    return min(ends + ([run.arrival[0] - run.time] if run.arrival is not None else []))


class LoggedTask(workloads.Task):
    """A task that logs the items of its works and calls, in order."""

    latest = None

    def __init__(self, task, tick):
        self.log = []
        super().__init__(task, tick)

    def go_on(self, answer):
        """Go on, and log where to."""
        super().go_on(answer)
        self.log.append(LoggedTask.latest if self.call is None else self.call)


def logged_work(item, used, next_work=workloads.next_work):
    """The units of a work, of which the item is noted."""
    LoggedTask.latest = item
    return next_work(item, used)


workloads.Task, workloads.next_work = LoggedTask, logged_work


class Simulated:
    """The run of a workload: its session, the items of its calls, and the logs of its tasks."""

    def __init__(self, workload):
        self.workload, self.items, steps = workload, [], []
        run = workloads.Run(workload)
        while (step := next_step(run)) is not None:
            if len(steps) == MOST_STEPS:
                raise OverflowError
            is_call = workloads.is_call(step)
            self.items.append(run.tasks[run.table.number[step["by"]]].call if is_call else None)
            steps.append(dict(step))
            workloads.make(run, step)
        self.session = workloads.header_of(workload) | {"steps": steps}
        self.logs = {task.name: task.log for task in run.tasks.values()}

    def places(self, item):
        """The places of the calls of an item."""
        return [place for place, of in enumerate(self.items) if of is item]

    def works(self, name, item):
        """Of each call of a task that comes behind works of an item: its place, and how many."""
        steps = self.session["steps"]
        places = (p for p, s in enumerate(steps) if workloads.is_call(s) and s["by"] == name)
        count = 0
        for logged in self.logs[name]:
            if "work" in logged:
                count += logged is item
                continue
            place = next(places, None)
            if place is not None and count > 0:
                yield place, count
            count = 0


# Changes: a changed workload, and the edits that say so; none where the change does not fit.


def changed_task(rng, ran, workload, number):
    """A task has another priority or may run on other cores."""
    task, cores = workload["tasks"][number], (1 << workload["cores"]) - 1
    if rng.random() < 0.6:
        task["priority"] = rng.randrange(workload["priorities"])
    else:
        task["mask"] = rng.randint(1, cores)
    if task == ran.workload["tasks"][number]:
        return None
    told = {name: task[name] for name in ("priority", "mask")}
    return [{"edit": "change", "task": task["name"]} | told]


def dropped_interrupt(rng, ran, workload, _number):
    """An interrupt comes no more."""
    index = rng.randrange(len(workload["interrupts"])) if workload.get("interrupts") else None
    if index is None:
        return None
    del workload["interrupts"][index]
    steps = ran.session["steps"]
    places = (place for place, step in enumerate(steps) if step["do"] in settle.INTERRUPTS)
    came = zip(places, workloads.arrivals(ran.workload))
    return [{"edit": "remove", "at": at} for at, (_time, which) in came if which == index][::-1]


def added_interrupt(rng, ran, workload, _number):
    """An interrupt comes where time goes by."""
    time, places, steps = 0, [], ran.session["steps"]
    for place, step in enumerate(steps):
        passed = kept.time_of(step, workload.get("units", 1))
        places += [(place, time)] if passed > 0 else []
        time += passed
    if not places:
        return None
    place, time = rng.choice(places)
    interrupt = documents.interrupt(rng, {"notes": 1, **workload})
    workload.setdefault("interrupts", []).append({"at": time, **interrupt})
    return [{"edit": "insert", "at": place, "step": interrupt}]


def all_items(items):
    """The items of a program, those in loops and branches too, each with the list it stands in."""
    for item in items:
        if item != "break":
            yield item, items
            for inside in workloads.lists_in(item):
                yield from all_items(inside)


def an_item(rng, ran, workload, number, may):
    """An item of a task's program as it was, as it is to be changed, and its list; or none."""
    both = (some["tasks"][number].get("program", []) for some in (ran.workload, workload))
    before, after = (list(all_items(program)) for program in both)
    found = [(old, new, of) for (old, _), (new, of) in zip(before, after) if may(old)]
    return rng.choice(found) if found else (None, None, None)


def may_drop(item):
    """Whether an item is a call without branches that may go."""
    branches = any(name in item for name in workloads.BRANCHES)
    return "do" in item and item["do"] not in KEPT_CALLS and not branches


def dropped_call(rng, ran, workload, number):
    """A task makes a call no more."""
    old, new, items = an_item(rng, ran, workload, number, may_drop)
    if old is None:
        return None
    items[:] = [item for item in items if item is not new]
    return [{"edit": "remove", "at": at} for at in reversed(ran.places(old))]


def other_ticks(rng, ran, workload, number):
    """A task waits for other ticks."""
    old, new, _ = an_item(rng, ran, workload, number, lambda item: 0 < item.get("ticks", 0) < 1000)
    if old is None:
        return None
    new["ticks"] = max(1, new["ticks"] + rng.choice((-1, 1, 2)))
    steps = ran.session["steps"]
    places = ran.places(old) if new != old else []
    return [
        {"edit": "replace", "at": at, "step": {**steps[at], "ticks": new["ticks"]}} for at in places
    ]


def other_work(rng, ran, workload, number):
    """A work takes longer or shorter."""
    old, new, _ = an_item(rng, ran, workload, number, lambda item: "work" in item)
    if old is None:
        return None
    units, works = workload.get("units", 1), old["work"]
    more = rng.choice((-1, 1)) * max(1, units // rng.choice((3, 10)))
    if min(works if isinstance(works, list) else [works]) + more < 1:
        return None
    new["work"] = [work + more for work in works] if isinstance(works, list) else works + more
    member = "by" if more > 0 else "less"
    found = ran.works(workload["tasks"][number]["name"], old)
    return [{"edit": "work", "at": at, member: abs(more) * count} for at, count in found]


CHANGES = (
    *(changed_task, changed_task, changed_task, dropped_interrupt, added_interrupt),
    *(dropped_call, other_ticks, other_work, other_work),
)


def changes_of(rng, ran, count):
    """Some changes of a workload: their kinds, the runs of what they make, and the edits."""
    for _ in range(count * TRIES):
        workload, change = copy.deepcopy(ran.workload), rng.choice(CHANGES)
        edits = change(rng, ran, workload, rng.randrange(len(workload["tasks"])))
        try:
            truth = Simulated(workload) if edits else None
        except (OverflowError, RecursionError):
            continue
        if truth is not None:
            count -= 1
            yield change.__name__, truth, edits
        if count == 0:
            return


# Runs that are compared.


def times_in(steps, units):
    """Each step but a pass with the time at which it stands, and the time of all."""
    time, found = 0, []
    for step in steps:
        if step["do"] != "pass":
            found.append((time, json.dumps(settle.written(step, True))))
        time += kept.time_of(step, units)
    return found, time


def calls_in(steps):
    """The calls of each task."""
    calls = defaultdict(list)
    for step in steps:
        if workloads.is_call(step):
            calls[step["by"]].append(workloads.without(step, ["core"]))
    return calls


class Count:
    """What was right and what was wrong."""

    def __init__(self):
        self.wrong, self.shares = Counter(), defaultdict(Counter)
        self.limits, self.documents = Counter(), Counter()
        self.of_kinds, self.known = defaultdict(Counter), Counter()

    def fail(self, what, why):
        """Tell that a property fails."""
        self.wrong[why] += 1
        print(f"WRONG {what}: {why}")

    def hold(self, what, document):
        """Hold the runs of a document to their properties."""
        units = document["session"].get("units", 1)
        for ties in TIES:
            run = kept.kept(copy.deepcopy(document), ties)
            steps, wanted = run.steps, run.session["steps"]
            outside, all_of_it = (list(filter(kept.is_outside, some)) for some in (steps, wanted))
            if times_in(outside, units) != times_in(all_of_it, units):
                self.fail(what, f"{ties}: steps from outside")
            made, left, calls = calls_in(steps), calls_in(run.left()), calls_in(wanted)
            if any(made[task] + left[task] != calls[task] for task in list(calls) + list(made)):
                self.fail(what, f"{ties}: calls")
            if settle.settle(run.session | {"steps": copy.deepcopy(steps)}) != (steps, []):
                self.fail(what, f"{ties}: settled")
            if run.known != known.limit(document, run):
                self.fail(what, f"{ties}: known")
            self.limits[run.known["why"] if run.known else "all"] += 1
        run = kept.kept({"session": copy.deepcopy(document["session"]), "edits": []})
        settled, left = settle.settle(copy.deepcopy(document["session"]))
        if (run.steps, run.left(), run.cuts, run.known) != (settled, left, 0, None):
            self.fail(what, "unedited")

    def compare(self, label, kind, ran, truth, edits):
        """Compare the runs that a change is told to lead to with the true one."""
        document = {"session": ran.session, "edits": edits}
        units, share = ran.session.get("units", 1), self.shares[label]
        of_kind = self.shares[f"{label}, {kind}"]
        true, _ = times_in(truth.session["steps"], units)
        edited = [edit for edit in edits if edit["edit"] != "work"]
        session = settle.edited_session(copy.deepcopy({**document, "edits": edited}))
        calls, told = calls_in(truth.session["steps"]), calls_in(session["steps"])
        settled, _left = settle.settle(copy.deepcopy(session))
        runs = {"unedited": ran.session["steps"], "as written": session["steps"], "settled": settled}
        kept_runs = {ties: kept.kept(copy.deepcopy(document), ties) for ties in TIES}
        runs |= {ties: run.steps for ties, run in kept_runs.items()}
        right = {name for name, run in runs.items() if times_in(run, units)[0] == true}
        for ties, run in kept_runs.items():
            place = run.known["place"] if run.known else len(run.steps)
            part = times_in(run.steps[:place], units)[0]
            self.known.update({ties: place, f"{ties}, all": len(run.steps)})
            if true[: len(part)] == part:
                share[f"{ties} as far as known"] += 1
                right.add(f"{ties} as far as known")
        share["all"] += 1
        self.of_kinds[kind].update(["all", *right])
        if all(told[task][: len(made)] == made for task, made in calls.items()):
            for counter in (share, of_kind):
                counter.update(["told", *filter(runs.__contains__, right)])


# All.


def document_of(number):
    """A document, and of what kind it is: "random", or "simulated" if it has the run of a workload.

    Each second one has, but for those whose runs are too long.
    """
    rng = random.Random(number)
    document = documents.document(rng)
    document["edits"] = with_works(rng, document["session"], document["edits"])
    simulated = simulated_document(rng) if number % 2 else None
    return ("simulated", simulated) if simulated else ("random", document)


def simulated_document(rng):
    """The run of a workload, which is an example or a random one, with edits; none if too long."""
    examples = list(examples_of())
    workload = rng.choice(examples) if rng.random() < 0.2 else random_workloads.workload_of(rng)
    # Calls of mutexes are among the edits.
    workload["mutexes"] = max(workload["mutexes"], 1)
    try:
        session = {"notes": 1} | Simulated(shorter(workload)).session
    except OverflowError:
        return None
    edits = [documents.edit(rng, session) for _ in range(rng.randint(1, 6))]
    return {"session": session, "edits": with_works(rng, session, edits)}


def with_works(rng, session, edits):
    """Edits with edits of work among them; some are at no place, or where no call stands."""
    units = session.get("units", 1)
    for _ in range(rng.randint(0, 3)):
        at = rng.randint(0, len(session["steps"]))
        work = {rng.choice(("by", "less")): rng.choice((1, max(units // 3, 1), 2 * units))}
        edits.insert(rng.randint(0, len(edits)), {"edit": "work", "at": at, **work})
    return edits


def shorter(workload):
    """A workload of not too many ticks."""
    return workload | {"ticks": min(workload["ticks"], MOST_TICKS)}


def examples_of():
    """The workloads of the examples."""
    for path in sorted(random_workloads.EXAMPLES.glob("*.json")):
        yield shorter(workloads.edited(json.loads(path.read_bytes())))


def workloads_of(count, first):
    """The examples and some random workloads, each under its label."""
    yield from (("examples", workload) for workload in examples_of())
    for number in range(first, first + count):
        yield "random", shorter(random_workloads.workload_of(random.Random(number)))


def compare_changes(count, rng, label, workload, many):
    """Compare the runs of so many changes of a workload."""
    try:
        ran = Simulated(workload)
    except OverflowError:
        return
    for kind, truth, edits in changes_of(rng, ran, many):
        count.compare(label, kind, ran, truth, edits)


def hold_all(many, first):
    """Hold the runs of documents, and compare runs with true ones; give what was right."""
    count, rng = Count(), random.Random(first)
    for number in range(first, first + many):
        kind, document = document_of(number)
        count.documents[kind] += 1
        count.hold(f"document {number}", document)
    kinds = ", ".join(f"{number} {kind}" for kind, number in sorted(count.documents.items()))
    print(f"{many} documents, {kinds}: {sum(count.wrong.values())} properties fail")
    print("known:", ", ".join(f"{why} {number}" for why, number in sorted(count.limits.items())))
    for label, workload in workloads_of(many // 4, first):
        compare_changes(count, rng, label, workload, 20 if label == "examples" else 3)
    for label, share in sorted(count.shares.items()):
        names = filter(share.__contains__, ("all", "told", *RUNS))
        print(f"{label}:", ", ".join(f"{name} {share[name]}" for name in names))
    return count


def tell_shares(many, first):
    """Tell of so many changes of the examples how many runs are right, as a table."""
    count, rng, examples = Count(), random.Random(first), list(examples_of())
    for index, workload in enumerate(examples):
        part = many * (index + 1) // len(examples) - many * index // len(examples)
        compare_changes(count, rng, "examples", workload, part)
    of_all = sum(count.of_kinds.values(), Counter())
    rows = {change.__doc__.rstrip("."): count.of_kinds[change.__name__] for change in CHANGES}
    print("| change | what-ifs |", " | ".join(RUNS.values()), "|")
    print("|---" * (2 + len(RUNS)) + "|")
    for words_of, right in [*rows.items(), ("all", of_all)]:
        print(f"| {words_of} | {right['all']} |", " | ".join(str(right[run]) for run in RUNS), "|")
    known_of = (100 * count.known[ties] / count.known[f"{ties}, all"] for ties in TIES)
    print("known:", ", ".join(f"{part:.0f} of 100 steps ({ties})" for part, ties in zip(known_of, TIES)))


def words():
    """The flags of the command line, and its numbers."""
    flags = {word for word in sys.argv[1:] if word.startswith("--")}
    return flags, [int(word) for word in sys.argv[1:] if word not in flags]


def main():
    """Hold runs to their properties, and compare runs with true ones."""
    flags, numbers = words()
    many, first = [*numbers, *(300 if flags else 400, 0)[len(numbers) :]]
    if flags == {"--shares"}:
        tell_shares(many, first)
    elif flags:
        sys.exit(__doc__)
    else:
        sys.exit(sum(hold_all(many, first).wrong.values()) > 0)


if __name__ == "__main__":
    main()
