"""The program at full size: stores of 4,096 volumes, of which one is at 64 nodes, or at 16 targets, or at 16 targets of each of 64 nodes; and a stream of
more calls than that."""
from . import stores
from .frames import attach, block, create, delete, mount, publish, reply, stage
from .orchestrators import record_line, volume_line
from .running import Case, ended, of_rows, wanted
from .talks import about, first, line

VOLUMES, NODES, TARGETS = 4096, 64, 16
CONFIG = b'{"greatest":1000,"nodes":[%s]}' % b",".join(b'{"id":"n%02d","slots":4096}' % at for at in range(NODES))
ONCE_MORE = (1, 9001)  # the number of a call that asks for what is so already
NEXT = (2, 1)


# ---- a controller, of whose volumes all but the first are deleted; the line of its record


def attached(last, version=3):
    held = [(f"n{at:02}", block(5), at % 2 == 1) for at in range(NODES)]
    return stores.volume(1, "v1", stores.kept("ControllerPublishVolume", last), capabilities=[block(5)], held=held, version=version)


def controller(version=3):
    gone = [stores.volume(at, f"v{at}", stores.kept("DeleteVolume", (1, at)), live=False, version=version) for at in range(2, VOLUMES + 1)]
    return [stores.controller_head(VOLUMES + 1, 1, version), attached((1, 9000), version), *gone]


def controller_line(next_id, session, rows):
    volumes = b",".join(
        b'{"attached":[%s],"capabilities":[{"access":"block","mode":%d}],"capacity":10,"id":%d,"last":{"call":%d,"session":%d},"live":%s,"name":"%s"}'
        % (held, mode, at, last[1], last[0], live, name)
        for at, name, mode, held, last, live in rows
    )
    return b'{"next_id":%d,"plugin":"controller","session":%d,"volumes":[%s]}\n' % (next_id, session, volumes)


def attached_row(last):
    way = b'{"capability":{"access":"block","mode":5},"node":"n%02d","readonly":%s}'
    held = b",".join(way % (at, b"true" if at % 2 == 1 else b"false") for at in range(NODES))
    return 1, b"v1", 5, held, last, b"true"


def controller_lines():
    """Of the store as it is, and after each of the two runs."""
    gone = [(at, b"v%d" % at, 1, b"", (1, at), b"false") for at in range(2, VOLUMES + 1)]
    made = (VOLUMES + 1, b"w", 1, b"", NEXT, b"true")
    yield controller_line(VOLUMES + 1, 1, [attached_row((1, 9000)), *gone])
    yield controller_line(VOLUMES + 1, 1, [attached_row(ONCE_MORE), *gone])
    yield controller_line(VOLUMES + 2, 2, [attached_row(ONCE_MORE), made])


# What it is asked in its session, and then in the next one, with the replies.
OF_CONTROLLER = [
    (create((1, 9000), "w"), reply("CreateVolume", (1, 9000), 8, 0, "volumes")),
    (attach(ONCE_MORE, 1, "n00", block(5)), reply("ControllerPublishVolume", ONCE_MORE)),
]
NEXT_OF_CONTROLLER = [(create(NEXT, "w"), reply("CreateVolume", NEXT, 0, VOLUMES + 1))]


# ---- a node, on which all volumes but the first are unstaged


def node(version=3):
    targets = [(f"/t{at:02}", at % 2 == 1) for at in range(TARGETS)]
    there = stores.staged(1, block(5), stores.kept("NodePublishVolume", (1, 9000)), targets, version=version)
    gone = [stores.staged(at, None, stores.kept("NodeUnstageVolume", (1, at)), version=version) for at in range(2, VOLUMES + 1)]
    return [stores.node_head("n1", 1, version), there, *gone]


def node_line(session, rows):
    volumes = b",".join(
        b'{"id":%d,"last":{"call":%d,"session":%d},"published":[%s],"staged":%s}' % (at, last[1], last[0], there, staged)
        for at, there, staged, last in rows
    )
    return b'{"node":"n1","plugin":"node","session":%d,"volumes":[%s]}\n' % (session, volumes)


def node_lines():
    way = b'{"readonly":%s,"target":"/t%02d"}'
    there = b",".join(way % (b"true" if at % 2 == 1 else b"false", at) for at in range(TARGETS))
    first = [(1, there, b'{"access":"block","mode":5}', last) for last in ((1, 9000), ONCE_MORE)]
    gone = [(at, b"", b"null", (1, at)) for at in range(2, VOLUMES + 1)]
    yield node_line(1, [first[0], *gone])
    yield node_line(1, [first[1], *gone])
    yield node_line(2, [first[1], (9999, b"", b'{"access":"block","mode":1}', NEXT)])


OF_NODE = [
    (stage((1, 9000), 9999), reply("NodeStageVolume", (1, 9000), 8, 0, "rows")),
    (publish(ONCE_MORE, 1, "/t00", block(5)), reply("NodePublishVolume", ONCE_MORE)),
]
NEXT_OF_NODE = [(stage(NEXT, 9999), reply("NodeStageVolume", NEXT))]


# ---- an orchestrator of the longest texts, whose first volume is to be used at the last target of the last node. The others are used at one target of one
# node each, but for the last

IDS = [f"{at:02}".ljust(255, "n") for at in range(NODES)]
PATHS = [f"/{at:02}".ljust(255, "t") for at in range(TARGETS)]
LAST = IDS[-1], PATHS[-1]
LONGEST = "v" * 128
WAYS = {mount("f" * 128, 5): {"access": "mount", "fs": "f" * 128, "mode": 5}, block(5): {"access": "block", "mode": 5}}
MOUNT, BLOCK = WAYS


def use_of(name, way):
    return {"use": {"capability": WAYS[way], "name": name, "node": LAST[0], "readonly": False, "target": LAST[1]}}


def known(place, name, way, at, goal=(stores.NO_GOAL, None), tries=0):
    """A volume as a part, and in the line; it is attached at these nodes, and published at these targets, or left there where there are none."""
    sure = lambda published: "yes" if published else "no"
    there = [stores.at_node(node, way, "yes", sure(published), published) for node, published in at]
    told = [
        {"attached": "yes", "capability": WAYS[way], "node": node, "readonly": False, "staged": sure(published)}
        | {"published": [{"known": it, "target": target} for target, it in published]}
        for node, published in at
    ]
    ways = 8 if place == 1 else 1
    part = stores.known(place, name, goal[0], tries, 1, 0, [way] * ways, place, "yes", there)
    return part, volume_line(at=told, capabilities=[WAYS[way]] * ways, goal=goal[1], id=place, name=name, required=1, tries=tries)


def name_of(place):
    return LONGEST if place == 1 else f"v{9999 - place}"


def orchestrator(session, is_served, is_lost=False):
    """Its parts, and the line of its record: before it was served and behind, and once the last node was lost then."""
    nodes = IDS[:-1] if is_lost else IDS
    everywhere = [(node, [(path, "maybe" if (node, path) == LAST else "yes") for path in PATHS]) for node in IDS]
    at = {1: everywhere, VOLUMES: [(LAST[0], [(LAST[1], "yes")])] if is_served else []}
    goal, tries = (stores.use(*LAST, MOUNT), use_of(LONGEST, MOUNT)), 1 + is_served
    if is_lost:
        goal, tries = (stores.stop(*LAST), {"stop": {"name": LONGEST, "node": LAST[0], "target": LAST[1]}}), 0
    parts, told = [stores.orchestrator_head(session, nodes)], []
    for place in range(1, VOLUMES + 1):
        there = at.get(place, [(IDS[place % NODES], [(PATHS[place % TARGETS], "yes")])])
        there = [(node, published if node in nodes else []) for node, published in there]
        wants = (goal, tries) if place == 1 else ()
        part, volume = known(place, name_of(place), BLOCK if place > 1 else MOUNT, there, *wants)
        parts.append(part)
        told.append(volume)
    return parts, record_line(session, *sorted(told, key=lambda it: it["name"]), nodes=nodes)


def sent(kind, call, frame):
    plugin = "controller" if kind == "ControllerPublishVolume" else f"node:{LAST[0]}"
    return {"call": call, "frame": frame.hex(), "kind": kind, "plugin": plugin, "session": 2}


def of_orchestrator():
    """The last volume is used at the last target of the last node, another one isn't made, and the first one's call is sent once more."""
    name, node, target = name_of(VOLUMES), *LAST
    goal = use_of(name, BLOCK)
    calls = [
        ("ControllerPublishVolume", attach((2, 1), VOLUMES, node, BLOCK)),
        ("NodeStageVolume", stage((2, 2), VOLUMES, BLOCK, node)),
        ("NodePublishVolume", publish((2, 3), VOLUMES, target, BLOCK, node=node)),
    ]
    given, outcome = line(goal), "sent"
    for call, (kind, frame) in enumerate(calls, 1):
        yield given, about(name, goal, outcome, sent(kind, call, frame))
        given, outcome = line({"reply": reply(kind, (2, call), node=node).hex()}), "taken"
    yield given, about(name, None, outcome)
    yield line({"create": {"capabilities": [WAYS[BLOCK]], "limit": 0, "name": "w", "required": 1}}), about("w", None, "refused 15 Full")
    again = sent("NodePublishVolume", 4, publish((2, 4), 1, target, MOUNT, node=node))
    yield line({"timeout": LONGEST}), about(LONGEST, use_of(LONGEST, MOUNT), "sent", again)


def of_orchestrators_store(box):
    """A store is told, opened and served; and a node is lost, by which every row is another one."""
    config = b'{"greatest":1000,"nodes":[%s]}' % b",".join(b'{"id":"%s","slots":1}' % it.encode() for it in IDS)
    box.put("config", config)
    parts, told = orchestrator(1, False)
    wanted("the bytes of the longest row", len(parts[1][1]), 290_044)
    wanted("the bytes of the head", len(parts[0][1]), 16_395)
    stores.make(box.at("db"), parts)
    box.wants(ended(0, out=told), "record", "db", told="record before")
    given, right = (b"".join(side) for side in zip(*of_orchestrator()))
    box.wants(ended(0, out=first(2, LONGEST) + right), "orchestrator", "db", "config", given=given, told="a session")
    parts, told = orchestrator(2, True)
    wanted("the parts once it was served", stores.parts_of(box.at("db")) == parts, True)
    box.wants(ended(0, out=told), "record", "db", told="record behind")
    lost = line({"node": LAST[0], "outcome": "lost", "session": 4})
    box.wants(ended(0, out=first(3, LONGEST) + lost), "orchestrator", "db", "config", given=line({"lose": LAST[0]}), told="a loss")
    wanted("the parts once a node was lost", stores.parts_of(box.at("db")) == orchestrator(4, True, True)[0], True)


# ---- cases

PLUGINS = {
    "controller": ("config", controller, controller_lines, OF_CONTROLLER, NEXT_OF_CONTROLLER),
    "node": ("n1", node, node_lines, OF_NODE, NEXT_OF_NODE),
}


def of_store(box, name, version):
    """A store in this version is told, opened, which makes it one of version 3, served, and told again; by the next session it is nearly empty."""
    word, parts, lines, calls, later = PLUGINS[name]
    box.put("config", CONFIG)
    told, after, then = lines()
    stores.make(box.at("db"), parts(version))
    box.wants(ended(0, out=told), "record", "db")
    box.wants(ended(0), name, "db", word)
    wanted("the parts once it was opened", stores.parts_of(box.at("db")), parts(3))
    for pairs, line in ((calls, after), (later, then)):
        given, right = (b"".join(side) for side in zip(*pairs))
        box.wants(ended(0, out=right), name, "db", word, given=given)
        box.wants(ended(0, out=line), "record", "db")


def of_stream(box):
    """A new controller makes as many volumes as there can be, refuses one more, and forgets all by a session; whole, and at a pipe."""
    pairs = [(create((1, at), f"v{at}"), reply("CreateVolume", (1, at), 0, at)) for at in range(1, VOLUMES + 1)]
    pairs.append((create((1, 5000), "w"), reply("CreateVolume", (1, 5000), 8, 0, "volumes")))
    pairs += [(delete((1, 5000 + at), at), reply("DeleteVolume", (1, 5000 + at))) for at in range(1, VOLUMES + 1)]
    pairs.append((create(NEXT, "v1"), reply("CreateVolume", NEXT, 0, VOLUMES + 1)))
    given, right = (b"".join(side) for side in zip(*pairs))
    box.put("f", given)
    box.wants(ended(0, out=right), "answer", "f", told="answer of a file")
    box.wants(ended(0, out=right), "answer", "/dev/stdin", given=given, told="answer at a pipe")


def cases():
    for name in PLUGINS:
        yield from of_rows(f"full size: {name}", [(f"a store of version {version}", of_store, name, version) for version in (1, 2, 3)])
    yield Case("full size: answer", of_stream)
    yield Case("full size: orchestrator", of_orchestrators_store)
