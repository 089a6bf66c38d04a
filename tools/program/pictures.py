"""`draw`: each picture is well-formed, and what is read back from it is what its schedule's events, report and frames say (`happened.py`)."""
import dataclasses
import json
import os
import random
from collections import Counter
from xml.etree import ElementTree

from .drawings import BARS, WAYS, read
from .happened import due_of, last_sent, run_of, told_one_by_one
from .running import Case, Wrong, wanted
from .schedules import CHANGED, MADE, TOP, USED, config, stop, use

# Names and ids as they may be: those that a picture would show as something else, if it wrote them as they are.
NODES = ("n1", "<use href='#cross'/>", '&lt;"\\', "n2", "ü\n\t\0\x7f")
VOLUMES = ("v", "</text><script>alert(1)</script>", "a&b\"'\\", "]]>é\r", "w")
TARGETS = ("/a", "/<!--", "/&#60;&amp;", "/\ud7ff\uffff\U0001f600", "no slash")
STEPS = 40  # of a random schedule, each of a few events


def drawn(box, config, events):
    """What is drawn of a schedule, once it was compared with what has to be drawn."""
    run = run_of(box, config, events)
    box.put("schedule", json.dumps({"config": config, "events": events}).encode())
    ran = box.run("draw", "schedule")
    wanted("how it is drawn", (ran.status, ran.error), (0, b""))
    try:
        came = read(ran.out)
    except (ElementTree.ParseError, UnicodeDecodeError) as error:
        raise Wrong(f"the picture is no XML in ASCII: {error}") from None
    compared(came, due_of(run))
    return came


def compared(came, due):
    """Fails at the first thing that is drawn and hasn't to be, or the other way round. Of what has no order only what there is counts."""
    for it in dataclasses.fields(due):
        one, right = getattr(came, it.name), getattr(due, it.name)
        if isinstance(right, str) or it.name == "lanes":
            wanted(it.name, one, right)
            continue
        more, fewer = Counter(one) - Counter(right), Counter(right) - Counter(one)
        wanted(f"{it.name}: what is drawn besides", sorted(more.elements()), [])
        wanted(f"{it.name}: what isn't drawn", sorted(fewer.elements()), [])


def example(box, name):
    """A schedule of examples/."""
    with open(f"{TOP}/examples/{name}", "rb") as file:
        schedule = json.load(file)
    drawn(box, schedule["config"], schedule["events"])


def told(events):
    """Events without what comes of them."""
    return [event for event, _ in events]


def changed(box, events):
    """A schedule over the nodes n1 and n2."""
    drawn(box, config("n1", "n2"), events)


LISTS = [{"restart_orchestrator": ["n1", "n3"]}, {"restart_controller": config("n1", "n3")}]
TWO = [use("n1"), {"deliver": 3}, {"deliver": 4}, {"deliver": 5}, {"deliver": 6}, {"deliver": 7}]
EVENTS = [
    ("a node of a new id", [*told(MADE), {"join": "n3"}, *LISTS, use("n3"), {"settle": "v"}, {"lose": "n3"}, {"restart_node": "n3"}, {"join": "n3"}]),
    ("a frame that comes too soon alone", [*told(MADE), use("n1"), {"deliver": 4}, {"deliver": 3}]),
    ("calls that come again", [*told(MADE), *TWO, {"deliver": 3}, {"deliver": 5}, {"deliver": 7}, stop("n1"), {"settle": "v"}, {"deliver": 7}]),
    ("what is published at a second target", [*told(USED), {"lose": "n2"}, use("n1", "/b"), stop("n1"), {"settle": "v"}]),
]


def named(box):
    """Each name, id and target in a command, and as a reply's detail."""
    nodes = {"greatest": 1000, "nodes": [{"id": it, "slots": 1} for it in NODES]}
    events = []
    for at, node in enumerate(NODES):
        name, target = VOLUMES[at], TARGETS[at]
        place = {"name": name, "node": node, "target": target}
        events += [{"create": made_of(name)}, {"settle": name}, {"use": {"capability": block(1), "readonly": False, **place}}, {"settle": name}]
        events += [{"stop": place}, {"timeout": name}, {"delete": name}, {"restart_node": node}]
    found = drawn(box, nodes, events + [{"lose": it} for it in NODES])
    wanted("how many are published", sum(bar[0] == "published" for bar in found.bars), 4)


# ---- at random


def block(mode):
    return {"access": "block", "mode": mode}


def made_of(name):
    return {"capabilities": [block(1), block(5)], "limit": 0, "name": name, "required": 10}


def use_of(luck, name):
    node, target = luck.choice(NODES), luck.choice(TARGETS)
    return {"capability": block(luck.choice((1, 5, 5, 5, 5, 5))), "name": name, "node": node, "readonly": False, "target": target}


def stop_of(luck, name):
    return {"name": name, "node": luck.choice(NODES), "target": luck.choice(TARGETS)}


def command_of(luck):
    """A command, a timeout, or what settles a volume."""
    name, chance = luck.choice(VOLUMES), luck.random()
    if chance < 0.1:
        return {"create": made_of(name)}
    if chance < 0.5:
        return {"use": use_of(luck, name)}
    if chance < 0.7:
        return {"stop": stop_of(luck, name)}
    return {"delete" if chance < 0.73 else "settle" if chance < 0.8 else "timeout": name}


def nodes_of(luck):
    return {"greatest": 1000, "nodes": [{"id": it, "slots": 3} for it in NODES if luck.random() < 0.8]}


def change_of(luck):
    """A restart, or a node that comes or goes."""
    node, chance = luck.choice(NODES), luck.random()
    if chance < 0.3:
        return {"restart": luck.choice(("orchestrator", "controller"))}
    if chance < 0.4:
        return {"restart_orchestrator": list(NODES)}
    if chance < 0.5:
        return {"restart_controller": nodes_of(luck)}
    return {"join" if chance < 0.75 else "lose" if chance < 0.9 else "restart_node": node}


def events_of(luck, told, last):
    """Events behind those that were told, by which so many frames were sent: a command or a change; deliveries of frames that wait, and of their
    replies; and one of a frame late, again, or too soon."""
    yield change_of(luck) if luck.random() < 0.15 else command_of(luck)
    done = {event.get("deliver") for event in told}
    for number in [it for it in range(max(1, last - 5), last + 1) if it not in done] + [last + 1, last + 2]:
        if luck.random() < 0.8:
            yield {"deliver": number}
    if luck.random() < 0.3:
        yield {"deliver": luck.randint(1, last + 4)}


def at_random(box, seed, count):
    """So many schedules, each of which goes on from the frames that were sent so far; each kind of thing is drawn in some."""
    found = Counter()
    for turn in range(count):
        luck = random.Random(seed + turn)
        first, events = nodes_of(luck), [{"create": made_of(name)} for name in VOLUMES[:3]]
        told = events  # the same, where nothing settles
        try:
            for _ in range(STEPS):
                told, outcomes, _ = told_one_by_one(box, first, told)
                more = list(events_of(luck, told, last_sent(outcomes)))
                events, told = events + more, told + more
            found += drawn(box, first, events).found()
        except Wrong as error:
            raise Wrong(f"seed {seed + turn}: {error}") from None
    kinds = (*BARS, *WAYS, "stub", "again", "command", "clock", "restart", "cross")
    wanted("what no schedule has", [it for it in kinds if not found[it]], [])


def cases(seed):
    for name in sorted(os.listdir(f"{TOP}/examples")):
        if name.endswith(".json"):
            yield Case(f"pictures: examples/{name}", lambda box, name=name: example(box, name))
    for name, events in [*EVENTS, *((name, told(events)) for name, events, _ in CHANGED)]:
        yield Case(f"pictures: {name}", lambda box, events=events: changed(box, events))
    yield Case("pictures: names that would open elements", named)
    for turn in range(4):
        yield Case(f"pictures: schedules at random, {turn + 1}", lambda box, turn=turn: at_random(box, seed + 1000 * turn, 15))
