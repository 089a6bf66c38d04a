"""What is refused at full size: the last of 4,096 rows is damaged, or is what a call or a line is about; inputs of a megabyte, and lines of 65,536 bytes."""
from . import full, stores
from .configs import NO_CONFIG, with_nodes
from .configs import NODE as SLOTS
from .configs import refused as config_refused
from .frames import attach, block, create, delete, detach, publish, reply, stage, unstage
from .orchestrators import CONFIG, LAST, MOST, held, wanted_row
from .plugins import given_of, replies_of
from .records import damages
from .running import ended, of_rows, wanted
from .schedules import EVENT, NOT_JSON, refused, schedule
from .talks import Talk, about, fault, first, line

VOLUMES = full.VOLUMES
LAST_NAME = f"v{VOLUMES}"
STALE = (1, 1)  # the number of a call that is stale to each row


# ---- the last row of a store


def rows_of_orchestrator():
    return [stores.orchestrator_head(1), *(wanted_row(at, f"v{at}") for at in range(1, VOLUMES + 1))]


OWN = {"controller": ("config", full.controller), "node": ("n1", full.node), "orchestrator": ("config", rows_of_orchestrator)}
DAMAGES = ("cut by a byte", "a text", "under a key of nine bytes")


def damaged(box, name):
    """`record` and who serves it say where, and change nothing."""
    word, parts = OWN[name]
    box.put("config", CONFIG)
    right = ended(1, f"record fault at {VOLUMES}")
    for what, others in damages(parts(), VOLUMES):
        if what in DAMAGES:
            stores.make(box.at(what), others)
            box.wants(right, "record", what)
            box.wants(right, name, what, word)
            wanted(f"the parts, of which one is {what}", stores.parts_of(box.at(what)) == others, True)


def left_out(box):
    """A node that is left out is in use by the last row; and no session is left, with so many rows."""
    settled = stores.at_node("n1", block(1), "yes", "yes", [("/a", "yes")])
    parts = rows_of_orchestrator()
    parts[-1] = stores.known(VOLUMES, LAST_NAME, volume=1, exists="yes", at=[settled])
    box.put("config", with_nodes(SLOTS % (b"n2", 4)))
    stores.make(box.at("db"), parts)
    box.wants(ended(1, "node in use"), "orchestrator", "db", "config")
    wanted("the parts", stores.parts_of(box.at("db")) == parts, True)
    parts[0] = stores.orchestrator_head(LAST)
    stores.make(box.at("spent.db"), parts)
    box.wants(ended(1, "numbers spent"), "orchestrator", "spent.db", "config")
    wanted("the parts", stores.parts_of(box.at("spent.db")) == parts, True)


# ---- what is asked about it


OF_CONTROLLER = [
    (create((1, 5001), LAST_NAME, required=11), reply("CreateVolume", (1, 5001), 6, 0, "name")),
    (attach((1, 5002), VOLUMES, "n1"), reply("ControllerPublishVolume", (1, 5002), 5, 0, "volume")),
    (detach(STALE, VOLUMES, "n1"), reply("ControllerUnpublishVolume", STALE, 10, 0, "stale")),
    (delete((1, 5003), VOLUMES), reply("DeleteVolume", (1, 5003))),
]
OF_NODE = [
    (publish((1, 5001), VOLUMES, "/a"), reply("NodePublishVolume", (1, 5001), 9, 0, "not staged")),
    (unstage(STALE, VOLUMES), reply("NodeUnstageVolume", STALE, 10, 0, "stale")),
    (stage((1, 5002), VOLUMES + 1), reply("NodeStageVolume", (1, 5002), 8, 0, "rows")),
    (unstage((1, 5003), VOLUMES), reply("NodeUnstageVolume", (1, 5003))),
]


def calls(box, name, pairs):
    """Calls of the last row of a full store, which are refused, stale or done."""
    word, parts = OWN[name]
    box.put("config", CONFIG)
    stores.make(box.at("db"), parts())
    box.wants(ended(0, out=replies_of(pairs)), name, "db", word, given=given_of(pairs))


def commands(box):
    """Commands about the last of 4,096 names are refused, and so is a loss in the last session; each says why, and changes nothing."""
    box.put("config", CONFIG)
    parts = [stores.orchestrator_head(LAST - 1), *rows_of_orchestrator()[1:]]
    stores.make(box.at("db"), parts)
    talk = Talk(LAST, LAST_NAME, wanted=[f"v{at}" for at in range(1, VOLUMES + 1)])
    other = Talk(LAST, "w")
    for given, name, why in (
        (talk.create, LAST_NAME, "1 NameUsed"),
        (talk.use, LAST_NAME, "3 NotCreated"),
        (talk.delete, LAST_NAME, "3 NotCreated"),
        (other.create, "w", "15 Full"),
        (other.use, "w", "2 NoSuchVolume"),
        (other.delete, "w", "2 NoSuchVolume"),
        (other.timeout, "w", "2 NoSuchVolume"),
    ):
        talk.says(line(given), about(name, talk.create if name == LAST_NAME else None, f"refused {why}"))
    talk.says(line({"lose": "n1"}), line({"node": "n1", "outcome": "refused 14 NumbersSpent", "session": LAST}))
    held(box, talk)
    wanted("the parts", stores.parts_of(box.at("db")) == [stores.orchestrator_head(LAST), *parts[1:]], True)


# ---- long inputs


NODES = b",".join(SLOTS % (b"n%d" % at, 4) for at in range(40_000))
LONG_CONFIGS = [  # of about a megabyte each, with the fault that a schedule tells of it
    ("that is no JSON", 1, b"x" * 10**6),
    ("that isn't JSON at its end", 1, b'{"greatest":1000,"nodes":[%s]' % NODES),
    ("of 40,000 nodes", 2, with_nodes(NODES)),
    ("with a key too many", 2, b'{"greatest":1000,"nodes":[],%s"x":1}' % (b" " * 10**6)),
    ("that has a greatest of 0", 2, b'{"greatest":0,%s"nodes":[]}' % (b" " * 10**6)),
]
LONG_SCHEDULES = [
    ("that is no JSON", NOT_JSON, b"x" * 10**6),
    ("that isn't JSON at its end", NOT_JSON, schedule(b",".join([EVENT] * 20_000))[:-1]),
    ("with a bad event at the end of 10,001", "schedule fault 2 at 10001", schedule(b",".join([*[EVENT] * 10_000, b"{}"]))),
]
LONG_LINES = [  # of 65,536 bytes each
    ("NotJson", b"x" * MOST),
    ("NotJson", b"[" * 64 + b" " * (MOST - 64)),
    ("NotJson", b'{"delete":"v"' + b" " * (MOST - 13)),
    ("BadLine", b'{"delete":"%s"}' % (b"v" * (MOST - 13))),
    ("BadLine", b'{"delete":1%s}' % (b" " * (MOST - 12))),
    ("BadLine", b'{"lose":"%s"}' % (b"n" * (MOST - 11))),
    ("BadFrame", b'{"reply":"%s"}' % (b"x" * (MOST - 12))),
    ("BadFrame", b'{"reply":"%s"}' % (b"00" * (MOST // 2 - 6))),
]


def lines(box):
    box.put("config", CONFIG)
    wanted("how long the lines are", {len(it) for _, it in LONG_LINES}, {MOST})
    given = b"".join(it + b"\n" for _, it in LONG_LINES)
    box.wants(ended(0, out=first(1) + b"".join(fault(name) for name, _ in LONG_LINES)), "orchestrator", "db", "config", given=given)


def cases():
    yield from of_rows("largest: the last of 4,096 rows is damaged", [(name, damaged, name) for name in OWN])
    rows = [("calls to a controller", calls, "controller", OF_CONTROLLER), ("calls to a node", calls, "node", OF_NODE)]
    yield from of_rows("largest: the last of 4,096 rows", [*rows, ("commands", commands), ("an orchestrator that isn't opened", left_out)])
    yield from of_rows("largest: a configuration", [(name, config_refused, NO_CONFIG, content, at) for name, at, content in LONG_CONFIGS])
    yield from of_rows("largest: a schedule", [(name, refused, said, content) for name, said, content in LONG_SCHEDULES])
    yield from of_rows("largest", [("lines that are no request", lines)])
