"""The work of check-schemas.sh, which see. The documents are made from a fixed seed."""

import copy
import json
import pathlib
import random
import re
import subprocess
import sys

from jsonschema import Draft202012Validator
from referencing import Registry, Resource

SEED = 38
ACCEPTED = {"session": 400, "bench": 400, "rig": 200}
WRONG = {"session": 360, "bench": 110, "rig": 240}
UNTELLABLE = {"session": 15, "bench": 15}
NUMBERS = [0, 0, 1, 2, 3, 5, 7, 31, 4294967294, 4294967295]
# The members of a step after `core` and `by`, or after `core` for an interrupt.
STEPS = {
    "tick": [], "switch": [], "isr_notify": ["to", "action"], "yield": [], "delay": ["ticks"],
    "delay_until": ["prev", "inc"], "priority_set": ["to", "priority"], "affinity_set": ["to", "mask"],
    "preempt_off": ["to"], "preempt_on": ["to"], "notify": ["to", "action"],
    "notify_wait": ["entry", "exit", "ticks"], "notify_take": ["clear", "ticks"], "state_clear": ["to"],
    "value_clear": ["to", "bits"], "mutex_take": ["mutex", "ticks"], "mutex_give": ["mutex"],
    "queue_send": ["queue", "ticks"], "queue_receive": ["queue", "ticks"], "isr_send": ["queue"], "isr_receive": ["queue"],
    "suspend": ["to"], "resume": ["to"], "isr_resume": ["to"], "pass": ["units"],
    "finish": [], "hold_open": [], "hold_close": [],
}
INTERRUPTS = ("isr_notify", "isr_send", "isr_receive", "isr_resume")
# The steps that format 3 alone has. A rig has no `pass`.
THIRD = ("queue_send", "queue_receive", "isr_send", "isr_receive", "suspend", "resume", "isr_resume", "pass")
ACTION_STEPS = tuple(do for do in STEPS if do != "pass")
# The steps that are for a notification: in formats 2 and 3 they may have its index.
INDEXED = ("isr_notify", "notify", "notify_wait", "notify_take", "state_clear", "value_clear")
ACTIONS = {"none": False, "set_bits": True, "increment": False, "set": True, "set_new": True}
EDITS = ("insert", "remove", "replace", "change")
# How the output begins where the input is accepted; that of a recording is a session.
FINE = r"(edit|start) |\{"
NAMES = ["A", "B", "pump", "valve-2", "~", "!", "idle0", "\"quoted\"", "back\\slash", "fifteen_letters"]


# ---- documents that are accepted

def mask(rng, cores):
    return rng.choice([1, 3, 4294967295, 1 << rng.randrange(cores)])


def queue(rng):
    length = rng.choice([1, 2, 5, 4294967295])
    return {"length": length, "messages": rng.choice([0, 1, length])}


def form(rng):
    notes = rng.choice([None, 1, 2, 8])
    if not notes:
        return {"format": 1}
    if rng.random() < 0.5:
        return {"format": 2, "notes": notes}
    queues = [queue(rng) for _ in range(rng.choice([0, 1, 2, 32]))]
    return {"format": 3, "notes": notes, "queues": queues, **rng.choice([{}, {"units": 1}, {"units": 2}, {"units": 1000000}])}


def header(rng):
    cores, priorities = rng.randint(2, 32), rng.randint(1, 32)
    names = rng.sample(NAMES, rng.randint(1, 6))
    return {
        **form(rng), "cores": cores, "priorities": priorities, "slicing": rng.random() < 0.5,
        "tick": rng.choice(NUMBERS), "mutexes": rng.choice([0, 1, 2, 32]),
        "tasks": [{"name": name, "priority": rng.randrange(priorities), "mask": mask(rng, cores)}
                  for name in names],
    }


def member(rng, name, head):
    if name == "to":
        return rng.choice(head["tasks"])["name"]
    if name == "mutex":
        return rng.randrange(head["mutexes"])
    if name == "queue":
        return rng.randrange(len(head["queues"]))
    if name == "mask":
        return mask(rng, head["cores"])
    if name in ("inc", "units"):
        return max(1, rng.choice(NUMBERS))
    if name == "clear":
        return rng.random() < 0.5
    if name == "action":
        return rng.choice(list(ACTIONS))
    return rng.choice(NUMBERS)


def has_step(head, do):
    """Whether a session of these settings may have such a step."""
    if do in THIRD and head["format"] != 3 or do == "pass" and head.get("units", 1) == 1:
        return False
    return not ("mutex" in STEPS[do] and not head["mutexes"] or "queue" in STEPS[do] and not head["queues"])


def action(rng, head, kinds):
    """A step without `core` and `by`."""
    do = rng.choice([k for k in kinds if has_step(head, k)])
    step = {"do": do}
    for name in STEPS[do]:
        step[name] = member(rng, name, head)
    if ACTIONS.get(step.get("action")):
        step["value"] = rng.choice(NUMBERS)
    if head["format"] != 1 and do in INDEXED and rng.random() < 0.7:
        step["index"] = rng.randrange(head["notes"])
    return step


def step(rng, head, kinds=tuple(STEPS)):
    made = action(rng, head, kinds)
    if made["do"] not in ("tick", "pass"):
        made["core"] = rng.randrange(head["cores"])
    if made["do"] not in ("tick", "switch", "pass", *INTERRUPTS):
        made["by"] = rng.choice(head["tasks"])["name"]
    return mixed(rng, made)


def mixed(rng, made):
    """The members in any order."""
    names = list(made)
    rng.shuffle(names)
    return {name: made[name] for name in names}


def edit(rng, head, kinds=EDITS):
    kind = rng.choice(kinds)
    if kind == "change":
        task = rng.choice(head["tasks"])["name"]
        priority = rng.randrange(head["priorities"])
        return {"edit": kind, "task": task, "priority": priority, "mask": mask(rng, head["cores"])}
    made = {"edit": kind, "at": rng.choice(NUMBERS)}
    if kind != "remove":
        made["step"] = step(rng, head)
    return made


def document(rng, kind):
    head = header(rng)
    if kind == "rig":
        head.pop("units", None)
        late = [k for k in ACTION_STEPS if k != "tick"]
        scripts = [[action(rng, head, late if core else ACTION_STEPS) for _ in range(rng.randrange(5))]
                   for core in range(head["cores"])]
        limit = rng.choice([0, 1, 100, 1000000])
        return {"session": {**head, "steps": []}, "limit": limit, "scripts": scripts}
    session = mixed(rng, {**head, "steps": [step(rng, head) for _ in range(rng.randrange(12))]})
    if kind == "session":
        return session
    return {"session": session, "edits": [edit(rng, head) for _ in range(rng.randrange(6))]}


# ---- documents of wrong shape

def places(value, path=()):
    """The path of each value in a document, that of the document first."""
    yield path
    inner = value.items() if isinstance(value, dict) else enumerate(value) if isinstance(value, list) else ()
    for key, item in inner:
        yield from places(item, path + (key,))


def at(value, path):
    for key in path:
        value = value[key]
    return value


def other_kind(rng, value):
    kinds = [None, [], {}, "1", 1, True]
    return rng.choice([kind for kind in kinds if type(kind) is not type(value)])


def wrong_value(rng, path, value):
    if path and path[-1] in ("do", "action", "edit"):
        return rng.choice(["", "sleep", "TICK", 1, None])
    if type(value) is int:
        return rng.choice([-1, 4294967296, 1.5, 1e300, str(value), None, value == 1, [value]])
    return other_kind(rng, value)


def needed_of(value):
    """The members that an object can't be without. A step needs its `units`, and a session doesn't."""
    if not isinstance(value, dict):
        return []
    return [name for name in value if name != "index" and (name != "units" or "do" in value)]


def damaged(rng, good):
    """A document with one fault of its shape."""
    bad = copy.deepcopy(good)
    path = rng.choice(list(places(bad)))
    here = at(bad, path)
    way = rng.random()
    needed = needed_of(here)
    if needed and way < 0.4:
        del here[rng.choice(needed)]
    elif isinstance(here, dict) and way < 0.8:
        here[rng.choice(["note", "Core", "", "value "])] = rng.choice([0, None, "A"])
    elif not path:
        return other_kind(rng, here)
    else:
        at(bad, path[:-1])[path[-1]] = wrong_value(rng, path, here)
    return bad


def faults(rng, good):
    """An object without each of its members, with each ill-typed, and with one more."""
    for name in needed_of(good):
        yield {key: value for key, value in good.items() if key != name}
    for name in good:
        yield {**good, name: wrong_value(rng, (name,), good[name])}
    yield {**good, "note": 0}


def faults_of_value(good):
    """A notification with each action, without its value or with one too many."""
    if "action" in good:
        bare = {key: value for key, value in good.items() if key != "value"}
        for word, has_value in ACTIONS.items():
            yield {**bare, "action": word, **({} if has_value else {"value": 1})}


def parts_of(rng, kind, head):
    """A step, edit or action of each kind, and what makes a document that has it."""
    bare = {**head, "steps": []}
    if kind == "session":
        return ([step(rng, head, (do,)) for do in STEPS if has_step(head, do)],
                lambda piece: {**head, "steps": [step(rng, head), piece, step(rng, head)]})
    if kind == "bench":
        return ([edit(rng, head, (name,)) for name in EDITS],
                lambda piece: {"session": bare, "edits": [edit(rng, head), piece]})
    return ([action(rng, head, (do,)) for do in ACTION_STEPS if has_step(head, do)],
            lambda piece: {"session": bare, "limit": 5, "scripts": [[piece]] + [[]] * (head["cores"] - 1)})


def faults_of_parts(rng, kind):
    """Documents of which one step, edit, action, task or the outermost object has each fault."""
    head = {**header(rng), "mutexes": 2, "format": 3, "notes": 2, "queues": [queue(rng)], "units": 1 if kind == "rig" else 10}
    pieces, whole = parts_of(rng, kind, head)
    yield from faults(rng, document(rng, kind))
    if kind == "session":
        for bad in faults(rng, head["tasks"][0]):
            yield {**head, "tasks": [bad] + head["tasks"][1:], "steps": []}
    for piece in pieces:
        for bad in [*faults(rng, piece), *faults_of_value(piece)]:
            yield whole(bad)


def faults_of_format(rng, kind):
    """Documents of format 1 with a member that only later formats have, and of format 2 with one that only format 3 has."""
    head = {**header(rng), "mutexes": 2, "format": 1}
    head.pop("notes", None)
    head.pop("queues", None)
    head.pop("units", None)
    pieces, whole = parts_of(rng, kind, head)
    noted = {**head, "notes": 1, "steps": []}
    yield noted if kind == "session" else {**whole(pieces[0]), "session": noted}
    queued = {**noted, "format": 2, "queues": []}
    yield queued if kind == "session" else {**whole(pieces[0]), "session": queued}
    timed = {**noted, "format": 2, "units": 1}
    yield timed if kind == "session" else {**whole(pieces[0]), "session": timed}
    name = head["tasks"][0]["name"]
    for piece in pieces:
        if piece.get("do") in INDEXED:
            yield whole({**piece, "index": 0})
        if "step" in piece:
            yield whole({**piece, "step": {"do": "isr_notify", "core": 0, "to": name, "action": "none", "index": 0}})
            yield whole({**piece, "step": {"do": "isr_send", "core": 0, "queue": 0}})
    yield from steps_of_format_3(rng, kind)


def steps_of_format_3(rng, kind):
    """Documents of formats 1 and 2 with a step that only format 3 has, and rigs of format 3 with a `pass`."""
    head = {**header(rng), "mutexes": 2, "format": 3, "notes": 2, "queues": [queue(rng)], "units": 10}
    first = {key: value for key, value in head.items() if key not in ("notes", "queues", "units")}
    second = {**first, "notes": 2}
    if kind == "bench":
        pieces = [{"edit": "insert", "at": 0, "step": step(rng, head, (do,))} for do in THIRD]
    else:
        pieces = [(step if kind == "session" else action)(rng, head, (do,)) for do in THIRD]
    if kind == "rig":
        yield parts_of(rng, kind, {**head, "units": 1})[1](pieces[-1])
    for piece in pieces:
        yield parts_of(rng, kind, {**first, "format": 1})[1](piece)
        yield parts_of(rng, kind, {**second, "format": 2})[1](piece)


def with_odd_number(rng, good):
    """The text of a document with one number that is whole, but not written so."""
    odd = copy.deepcopy(good)
    path = rng.choice([p for p in places(odd) if type(at(odd, p)) is int])
    number = at(odd, path)
    text = rng.choice(["%d.0" % number, "%de0" % number, "%dE+0" % number] + ["-0"] * (number == 0))
    at(odd, path[:-1])[path[-1]] = "<odd>"
    return json.dumps(odd).replace('"<odd>"', text)


# ---- what is held

class Check:
    def __init__(self, program):
        self.program, self.faults = program, 0
        folder = pathlib.Path("docs/schema")
        self.schemas = {p.name: json.loads(p.read_text()) for p in sorted(folder.glob("*.schema.json"))}
        base = "file:///docs/schema/"
        registry = Registry().with_resources(
            [(base + name, Resource.from_contents(schema)) for name, schema in self.schemas.items()])

        def validator(place):
            return Draft202012Validator({"$ref": base + place}, registry=registry)
        kinds = ("session", "bench", "rig", "workload", "edited-workload")
        self.valid = {name: validator(name + ".schema.json").is_valid for name in kinds}
        self.valid_step = validator("session.schema.json#/$defs/step").is_valid
        edits = [validator(name + ".schema.json#/$defs/edit") for name in ("bench", "edited-workload")]
        self.valid_edit = lambda value: any(edit.is_valid(value) for edit in edits)

    def fault(self, why, text):
        self.faults += 1
        print("WRONG %s: %s" % (why, text[:300]))

    def first_line(self, kind, text):
        command = "record" if kind == "rig" else "replay"
        run = subprocess.run([self.program, command], input=text.encode(), capture_output=True)
        return run.stdout.split(b"\n")[0].decode()

    def hold(self, kind, text, line, valid):
        # No command of this program reads workloads.
        if "workload" not in kind and not re.match(line, self.first_line(kind, text)):
            self.fault("%s, which the program answers otherwise than %s" % (kind, line), text)
        if self.valid[kind](json.loads(text)) != valid:
            self.fault("%s %s" % (kind, "not valid" if valid else "valid"), text)


def described(name, schema, check):
    """Each member has a description with its unit. `if`, and what is no type of its own, has none."""
    if isinstance(schema, dict):
        if schema.get("type") == "object":
            for member_name, inner in schema.get("properties", {}).items():
                if "Unit: " not in inner.get("description", ""):
                    check.fault("no unit", "%s, %s" % (name, member_name))
        schema = list(schema.values())
    if isinstance(schema, list):
        for inner in schema:
            described(name, inner, check)


def kind_of(value):
    names = {"scripts": "rig", "session": "bench", "workload": "edited-workload", "ticks": "workload"}
    return next((kind for member, kind in names.items() if member in value), "session")


def written(check):
    """The documents of examples/ that the program accepts, and the JSON of the docs."""
    count = 0
    for path in sorted(pathlib.Path("examples").rglob("*.json")):
        output = path.with_suffix(".out")
        if not (output.exists() and output.read_text().startswith("refused ")):
            value = json.loads(path.read_text())
            if "workloads" not in path.parts:
                check.hold(kind_of(value), path.read_text(), FINE, True)
            elif not check.valid[kind_of(value)](value):
                check.fault("workload not valid", path.read_text())
            count += 1
    for path in sorted(pathlib.Path("docs").glob("*.md")):
        text = path.read_text()
        fenced = r"^```json\n(.*?)^```"
        lines = re.findall(r"^    (\{.*\})$", re.sub(fenced, "", text, flags=re.M | re.S), re.M)
        for block in re.findall(fenced, text, re.M | re.S) + lines:
            values = json.loads("[%s]" % block.rstrip().removesuffix(","))
            for value in values:
                fine = (check.valid_step if "do" in value else check.valid_edit if "edit" in value
                        else check.valid[kind_of(value)])
                if not fine(value):
                    check.fault("not valid, in %s" % path, json.dumps(value))
                count += 1
    print("%d documents of examples/ and blocks of docs/" % count)


def accepted(check, rng):
    for kind, many in ACCEPTED.items():
        for _ in range(many):
            check.hold(kind, json.dumps(document(rng, kind)), FINE, True)
        print("%d accepted, %s" % (many, kind))


def of_wrong_shape(check, rng):
    for kind, many in WRONG.items():
        parts = [*faults_of_parts(rng, kind), *faults_of_format(rng, kind)]
        assert len(parts) <= many
        for bad in parts + [damaged(rng, document(rng, kind)) for _ in range(many - len(parts))]:
            check.hold(kind, json.dumps(bad), "refused H2 ", False)
        print("%d of wrong shape, %s, %d of them part by part" % (many, kind, len(parts)))
    for kind, many in UNTELLABLE.items():
        for _ in range(many):
            check.hold(kind, with_odd_number(rng, document(rng, kind)), "refused H2 ", True)
        print("%d of a wrong shape that a schema can't tell, %s" % (many, kind))


def works(check, rng):
    """Edits of work, which format 3 alone has. The program reads none, so the schema is held alone."""
    first = {key: value for key, value in header(rng).items() if key not in ("notes", "queues", "units")}
    heads = [{**first, "format": 1}, {**first, "format": 2, "notes": 1}, {**first, "format": 3, "notes": 1, "queues": []}]
    edit = {"edit": "work", "at": 7}
    good = [{**edit, "by": 300}, {**edit, "less": 300}, {**edit, "by": 0}, {**edit, "less": 4294967295}]
    bad = [edit, {**edit, "by": 1, "less": 1}, {**edit, "by": -1}, {**edit, "less": 4294967296}, {**edit, "by": "1"},
           {**edit, "by": 1, "step": {"do": "tick"}}, {"edit": "work", "by": 1}, {"edit": "works", "at": 7, "by": 1}]
    for head in heads:
        for made, fine in [(made, head["format"] == 3) for made in good] + [(made, False) for made in bad]:
            document = {"session": {**head, "steps": []}, "edits": [{"edit": "remove", "at": 0}, made]}
            if check.valid["bench"](document) != fine:
                check.fault("bench %s" % ("not valid" if fine else "valid"), json.dumps(document))
    print("%d documents with an edit of work" % (len(heads) * len(good + bad)))


def main():
    check = Check(sys.argv[1])
    rng = random.Random(SEED)
    for name, schema in check.schemas.items():
        Draft202012Validator.check_schema(schema)
        described(name, schema, check)
    written(check)
    accepted(check, rng)
    of_wrong_shape(check, rng)
    works(check, rng)
    told, odd = sum(WRONG.values()), sum(UNTELLABLE.values())
    print("%d accepted, %d of wrong shape of which a schema can't tell %d: %d wrong"
          % (sum(ACCEPTED.values()), told + odd, odd, check.faults))
    return check.faults > 0


if __name__ == "__main__":
    sys.exit(main())
