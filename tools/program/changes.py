"""`orchestrator` where a session begins: names that are forgotten, other lists of nodes, and nodes that are lost."""
from . import stores
from .configs import NODE as SLOTS
from .configs import with_nodes
from .frames import block, reply
from .orchestrators import CONFIG, LAST, at_node, held, record_line, volume_line, wanted_row
from .running import ended, of_rows, wanted
from .talks import IGNORED, Talk, about, first, life, line

IN_USE = ended(1, "node in use")
MADE = {"volume": 1, "exists": "yes"}
SETTLED = stores.at_node("n1", block(1), "yes", "yes", [("/a", "yes")])


def config_of(*nodes):
    return with_nodes(*(SLOTS % (node.encode(), 4) for node in nodes))


def left(node, attached="yes"):
    """What is left of a lost node, in a part and in a line."""
    return stores.at_node(node, block(1), attached, "no", []), {**at_node(attached, "no", "no")[0], "node": node, "published": []}


def used(talk):
    """Of a talk: the volume is made and used."""
    talk.makes()
    talk.uses()
    return talk


# ---- other lists of nodes


def other_nodes(box, *nodes):
    """Over a store of n1 and n2 at which nothing is used, any list is taken; its record has it."""
    box.put("config", CONFIG)
    box.put("other", config_of(*nodes))
    stores.make(box.at("db"), [stores.orchestrator_head(1), wanted_row(1, "v")])
    box.wants(ended(0, out=first(2, "v")), "orchestrator", "db", "other")
    wanted("the parts", stores.parts_of(box.at("db")), [stores.orchestrator_head(2, nodes), wanted_row(1, "v")])
    box.wants(ended(0, out=first(3, "v")), "orchestrator", "db", "config")


OTHERS = [
    ("the same ones", "n1", "n2"),
    ("another one", "n1", "n3"),
    ("one more", "n1", "n2", "n3"),
    ("one less", "n2"),
    ("another order", "n2", "n1"),
    ("none",),
    ("64 others", *(f"m{at}" for at in range(64))),
]


def in_use(box, right, nodes, row, listed=("n1", "n2"), session=1):
    """Where a volume may be attached at a node that is left out, the store isn't opened, no line is read, and nothing is changed."""
    parts = [stores.orchestrator_head(session, listed), stores.known(1, "v", **{**MADE, **row})]
    stores.make(box.at("db"), parts)
    box.put("config", config_of(*nodes))
    ran = box.run("orchestrator", "db", "config")
    wanted("how it ends", (ran.status, ran.error), (right.status, right.error))
    head = stores.orchestrator_head(session + (right.status == 0), listed if right.status else nodes)
    wanted("the parts", stores.parts_of(box.at("db")), [head, parts[1]])
    if right.status:
        box.wants(right, "orchestrator", "db", "config", given=line({"timeout": "v"}))
        wanted("the parts", stores.parts_of(box.at("db")), parts)


def on_the_way(attached, staged, published, goal):
    return {"goal": goal, "tries": 1, "at": [stores.at_node("n1", block(1), attached, staged, [("/a", published)])]}


USE, STOP = stores.use("n1", "/a", block(1)), stores.stop("n1", "/a")
IN_USES = [
    ("used", IN_USE, ["n2"], {"at": [SETTLED]}),
    ("used, and another order", ended(0), ["n2", "n1"], {"at": [SETTLED]}),
    ("used, and none is listed", IN_USE, [], {"at": [SETTLED]}),
    ("to be used, and maybe attached", IN_USE, ["n2"], on_the_way("maybe", "no", "no", USE)),
    ("to be used, and maybe staged", IN_USE, ["n2"], on_the_way("yes", "maybe", "no", USE)),
    ("to be stopped, and maybe attached", IN_USE, ["n2"], on_the_way("maybe", "no", "no", STOP)),
    ("to be stopped, and maybe published", IN_USE, ["n2"], on_the_way("yes", "yes", "maybe", STOP)),
    ("used elsewhere", ended(0), ["n1"], {"at": [SETTLED]}),
    ("what a lost node left, unlisted", ended(0), ["n2"], {"at": [left("n1")[0]]}, ["n2"]),
    ("what a lost node left, listed again", ended(0), ["n2", "n1"], {"at": [left("n1")[0]]}, ["n2"]),
    ("what a lost node left, and listed again", IN_USE, ["n2"], {"at": [left("n1")[0]]}),
    ("what a lost node may have left, and listed again", IN_USE, ["n2"], {"at": [left("n1", "maybe")[0]]}),
    ("used, in the last session", ended(1, "numbers spent"), ["n2"], {"at": [SETTLED]}, ["n1", "n2"], LAST),
    ("used, in the last session but one", IN_USE, ["n2"], {"at": [SETTLED]}, ["n1", "n2"], LAST - 1),
]

# ---- nodes that are lost


def worked(box):
    """A node is lost with a volume used there: it is detached, and used elsewhere; one that is started with the node lists it again."""
    box.put("config", CONFIG)
    talk = used(Talk(1))
    talk.loses("n1")
    talk.says(line(talk.delete), about("v", None, "refused 12 InUse"))
    talk.says(line(talk.use), about("v", None, "refused 5 NoSuchNode"))
    talk.turns_to("n2")
    talk.says(line(talk.use), about("v", None, "refused 7 HeldElsewhere"))
    talk.says(line(talk.timeout), about("v", None, "refused 13 Idle"))
    talk.turns_to("n1", "/any")
    talk.asks(talk.stop, talk.stop, "ControllerUnpublishVolume")
    talk.hears(None)
    talk.turns_to("n2")
    talk.uses()
    talk.says(line({"reply": reply("NodePublishVolume", (1, 4)).hex()}), IGNORED)
    held(box, talk)
    told = volume_line(at=[{**at_node("yes", "yes", "yes")[0], "node": "n2"}])
    box.wants(ended(0, out=record_line(2, told, nodes=["n2"])), "record", "db")
    held(box, Talk(3))
    box.wants(ended(0, out=record_line(3, told)), "record", "db")


def at_rest(box):
    """What is used at a lost node is left there: attached, neither staged nor published; the store has that, and so has the next session."""
    box.put("config", CONFIG)
    talk = used(Talk(1))
    talk.loses("n1")
    held(box, talk)
    part, told = left("n1")
    row = stores.known(1, "v", **MADE, at=[part])
    wanted("the parts", stores.parts_of(box.at("db")), [stores.orchestrator_head(2, ["n2"]), row])
    box.wants(ended(0, out=record_line(2, volume_line(at=[told]), nodes=["n2"])), "record", "db")
    held(box, Talk(3))
    wanted("the parts", stores.parts_of(box.at("db")), [stores.orchestrator_head(3), row])


def use_becomes_stop(box, calls):
    """A use on the way to a lost node is its stop, of which nothing was sent yet. A timeout sends the call to the controller; a late reply is ignored."""
    box.put("config", CONFIG)
    talk = Talk(1)
    talk.makes()
    talk.asks(talk.use, talk.use, "ControllerPublishVolume")
    for kind in ("NodeStageVolume", "NodePublishVolume")[:calls]:
        talk.hears(talk.use, kind)
    late = reply(talk.kind, (1, talk.calls))
    talk.loses("n1")
    held(box, talk)
    attached = "yes" if calls else "maybe"
    part, told = left("n1", attached)
    wanted("the row", stores.parts_of(box.at("db"))[1], stores.known(1, "v", STOP, 0, **MADE, at=[part]))
    box.wants(ended(0, out=record_line(2, volume_line(at=[told], goal=talk.stop), nodes=["n2"])), "record", "db")
    later = Talk(3, wanted=["v"])
    later.says(line({"reply": late.hex()}), IGNORED)
    later.says(line(later.stop), about("v", later.stop, "refused 4 Busy"))
    for _ in range(5):
        later.asks(later.timeout, later.stop, "ControllerUnpublishVolume")
    held(box, later)
    told = left("n1", "maybe")[1]  # once the call was sent
    box.wants(ended(0, out=record_line(3, volume_line(at=[told], goal=talk.stop, tries=3))), "record", "db")
    last = Talk(4, wanted=["v"])
    last.asks(last.timeout, last.stop, "ControllerUnpublishVolume")
    last.hears(last.stop, status=10, detail="late")
    last.asks(last.timeout, last.stop, "ControllerUnpublishVolume")
    last.hears(None)
    last.deletes()
    held(box, last)


def stop_goes_on(box, calls):
    """A stop on the way to a lost node stays one; it needs the controller alone."""
    box.put("config", CONFIG)
    talk = used(Talk(1))
    talk.asks(talk.stop, talk.stop, "NodeUnpublishVolume")
    for kind in ("NodeUnstageVolume", "ControllerUnpublishVolume")[:calls]:
        talk.hears(talk.stop, kind)
    talk.loses("n1")
    talk.asks(talk.timeout, talk.stop, "ControllerUnpublishVolume")
    talk.hears(None)
    talk.turns_to("n2")
    talk.uses()
    held(box, talk)


def elsewhere(box):
    """What is wanted at another node stays so, and what is wanted of other volumes; calls are sent again once they time out."""
    box.put("config", CONFIG)
    talk = Talk(1)
    talk.makes()
    talk.asks(talk.use, talk.use, "ControllerPublishVolume")
    late = reply("ControllerPublishVolume", (1, 2))
    talk.loses("n2")
    talk.says(line({"reply": late.hex()}), IGNORED)
    talk.says(line(talk.use), about("v", talk.use, "refused 4 Busy"))
    talk.asks(talk.timeout, talk.use, "ControllerPublishVolume")
    talk.hears(talk.use, "NodeStageVolume")
    talk.hears(talk.use, "NodePublishVolume")
    talk.hears(None)
    held(box, talk)


def any_node(box):
    """Any node may be lost, listed or not, and once more: each time a session begins."""
    box.put("config", CONFIG)
    talk = Talk(1)
    for node in ("n2", "n2", "never", "n" * 255, "\u00e9\n", "n1"):
        talk.loses(node)
    talk.makes()
    held(box, talk)
    box.wants(ended(0, out=record_line(7, volume_line(), nodes=[])), "record", "db")


def at_once(box):
    """A loss is committed before it is answered."""
    box.put("config", CONFIG)
    talk = used(Talk(1))
    running = box.start("orchestrator", "db", "config")
    for given, right in talk.pairs:
        running.asks(given, right)
    running.asks(line({"lose": "n1"}), line({"node": "n1", "outcome": "lost", "session": 2}))
    told = record_line(2, volume_line(at=[left("n1")[1]]), nodes=["n2"])
    box.wants(ended(0, out=told), "record", "db")
    running.kill()
    box.wants(ended(0, out=told), "record", "db")


def last_session(box):
    """In the last session no node can be lost, and nothing is changed."""
    box.put("config", CONFIG)
    row = stores.known(1, "v", **MADE, at=[SETTLED])
    stores.make(box.at("db"), [stores.orchestrator_head(LAST - 1), row])
    refused = line({"node": "n1", "outcome": "refused 14 NumbersSpent", "session": LAST})
    box.wants(ended(0, out=first(LAST) + refused * 2), "orchestrator", "db", "config", given=line({"lose": "n1"}) * 2)
    wanted("the parts", stores.parts_of(box.at("db")), [stores.orchestrator_head(LAST), row])


def of_the_node(box):
    """What a lost node's store is to one of its id that joins: the session tells it."""
    box.put("config", CONFIG)
    talk = Talk(1)
    talk.loses("n1")
    held(box, talk)
    box.wants(ended(0), "node", "new.db", "n1", "2")
    box.wants(ended(0, out=line({"node": "n1", "plugin": "node", "session": 2, "volumes": []})), "record", "new.db")
    box.wants(ended(0), "node", "old.db", "n1")
    box.wants(ended(1, "store of an earlier session"), "node", "old.db", "n1", "2")


# ---- names that are forgotten


def again(box, lost):
    """A deleted volume's name is free once a session began, not before; it gets another id."""
    box.put("config", CONFIG)
    talk = life(1)
    talk.says(line(talk.create), about("v", None, "refused 1 NameUsed"))
    if lost:
        talk.loses("n9")
        talk.volume = 2
        talk.says(line(talk.delete), about("v", None, "refused 2 NoSuchVolume"))
        talk.makes()
    held(box, talk)
    if not lost:
        held(box, Talk(2))
        box.wants(ended(0, out=record_line(2)), "record", "db")
        held(box, life(3, volume=2))
        wanted("the parts", len(stores.parts_of(box.at("db"))), 2)


def move_up(box, lost):
    """Rows of names that are forgotten are gone; those behind move up. What may be there isn't forgotten."""
    box.put("config", CONFIG)
    deleted = {"volume": 1, "exists": "no"}
    rows = [("a", deleted), ("b", {"goal": stores.CREATE, "tries": 1}), ("c", deleted), ("d", {}), ("e", MADE), ("f", deleted), ("g", {**MADE, "at": [SETTLED]})]
    stores.make(box.at("db"), [stores.orchestrator_head(1), *(stores.known(at, name, **keys) for at, (name, keys) in enumerate(rows, 1))])
    given, said = (line({"lose": "n2"}), line({"node": "n2", "outcome": "lost", "session": 3})) if lost else (b"", b"")
    box.wants(ended(0, out=first(2, "b") + said), "orchestrator", "db", "config", given=given)
    kept = [(name, keys) for name, keys in rows if keys != deleted]
    head = stores.orchestrator_head(3, ["n1"]) if lost else stores.orchestrator_head(2)
    wanted("the parts", stores.parts_of(box.at("db")), [head, *(stores.known(at, name, **keys) for at, (name, keys) in enumerate(kept, 1))])


def full(box):
    """Of 4,096 deleted volumes no row is left; with 4,096 names, one of them a deleted volume's, another is taken in the next session."""
    box.put("config", CONFIG)
    gone = [stores.known(at, f"v{at}", volume=at, exists="no") for at in range(1, 4097)]
    stores.make(box.at("db"), [stores.orchestrator_head(1), *gone])
    held(box, Talk(2))
    wanted("the parts", stores.parts_of(box.at("db")), [stores.orchestrator_head(2)])
    names = [f"v{at}" for at in range(2, 4097)]
    rows = [stores.known(at, name, stores.CREATE, 1) for at, name in enumerate(names, 2)]
    stores.make(box.at("full.db"), [stores.orchestrator_head(1), gone[0], *rows])
    talk = Talk(2, "w", wanted=names)
    talk.asks(talk.create, talk.create, "CreateVolume")
    other = Talk(2, "x")
    talk.says(line(other.create), about("x", None, "refused 15 Full"))
    held(box, talk, "full.db")


LOSSES = [
    ("the worked run", worked),
    ("what is left", at_rest),
    *((f"a use, after {calls} of its calls", use_becomes_stop, calls) for calls in (0, 1, 2)),
    *((f"a stop, after {calls} of its calls", stop_goes_on, calls) for calls in (0, 1, 2)),
    ("what is wanted elsewhere", elsewhere),
    ("any node", any_node),
    ("committed at once", at_once),
    ("in the last session", last_session),
    ("a store of one that joins", of_the_node),
]
NAMES = [
    ("free after a restart", again, False),
    ("free after a loss", again, True),
    ("rows move up at a restart", move_up, False),
    ("rows move up at a loss", move_up, True),
    ("4,096 names", full),
]


ROWS = [
    *((f"other nodes: {name}", other_nodes, *nodes) for name, *nodes in OTHERS),
    *((f"a node left out: {name}", in_use, *rest) for name, *rest in IN_USES),
    *((f"a node lost: {name}", *rest) for name, *rest in LOSSES),
    *((f"names: {name}", *rest) for name, *rest in NAMES),
]


def cases():
    yield from of_rows("orchestrator", ROWS)
