"""The rows of an orchestrator's record, by the table in docs/RECORDS.md, "Records": `record` tells those that are one, and says where one isn't."""
from . import stores
from .configs import NODE, with_nodes
from .frames import block, mount
from .records import ASKING, bad_parts, told
from .running import ended, of_rows, wanted
from .talks import first, line

MADE = {"volume": 1, "exists": "yes"}
HERE = {"goal": stores.use("n1", "/a", block(1)), "tries": 1, **MADE}


def at_n1(*known, capability=block(1), targets=("/a",)):
    """What is known at the node n1, attached, staged and published."""
    return stores.at_node("n1", capability, known[0], known[1], [(target, known[2]) for target in targets])


def left(node, attached="yes", capability=block(1), staged="no", published=()):
    """What is left of a node that was lost."""
    return stores.at_node(node, capability, attached, staged, published)


STOP = stores.stop("n1", "/a")
STOP_LEFT = {"goal": stores.stop("n3", "/any"), **MADE}
SHARED = {**MADE, "capabilities": [block(5), mount("", 5)]}
BAD_ROWS = {  # of an orchestrator: what is wrong, and the row
    "tries without a goal": {**MADE, "tries": 1},
    "a goal without tries": {"goal": stores.CREATE},
    "four tries": {"goal": stores.CREATE, "tries": 4},
    "a goal of 5": {"goal": b"\5", "tries": 1},
    "to be created, with an id": {"goal": stores.CREATE, "tries": 1, **MADE},
    "to be deleted, without an id": {"goal": stores.DELETE, "tries": 1},
    "there without an id": {"exists": "yes"},
    "an id, but not known": {"volume": 1},
    "an id of 0": {"volume": 0, "exists": "yes"},
    "deleted, with a goal": {"volume": 1, "exists": "no", "goal": stores.DELETE, "tries": 1},
    "to be used, without an entry": HERE,
    "used at an unlisted node": {**MADE, "at": [stores.at_node("n3", block(1), "yes", "yes", [("/a", "yes")])]},
    "used in a capability that it lacks": {**MADE, "at": [at_n1("yes", "yes", "yes", capability=block(2))]},
    "used at a node twice": {**MADE, "capabilities": [block(5)], "at": [at_n1("yes", "yes", "yes", capability=block(5))] * 2},
    "used at two nodes in a mode for one": {**MADE, "at": [at_n1("yes", "yes", "yes"), stores.at_node("n2", block(1), "yes", "yes", [("/a", "yes")])]},
    "two targets in a mode for one": {**MADE, "at": [at_n1("yes", "yes", "yes", targets=("/a", "/b"))]},
    "a target twice": {**MADE, "capabilities": [block(5)], "at": [at_n1("yes", "yes", "yes", capability=block(5), targets=("/a", "/a"))]},
    "no target": {**MADE, "at": [at_n1("yes", "yes", "yes", targets=())]},
    "not settled, without a goal": {**MADE, "at": [at_n1("yes", "maybe", "no")]},
    "all known, with a goal": {**HERE, "at": [at_n1("yes", "yes", "yes")]},
    "staged, but not attached": {**HERE, "at": [at_n1("no", "maybe", "no")]},
    "another target than the goal's": {**HERE, "at": [at_n1("maybe", "no", "no", targets=("/b",))]},
    "another flag than the goal's": {**HERE, "at": [stores.at_node("n1", block(1), "maybe", "no", [("/a", "no")], True)]},
    "deleted and used": {"volume": 1, "exists": "no", "at": [at_n1("yes", "yes", "yes")]},
    "left, and staged": {**MADE, "at": [left("n3", staged="yes")]},
    "left, and maybe staged": {**MADE, "at": [left("n3", staged="maybe")]},
    "left, and not attached": {**MADE, "at": [left("n3", "no")]},
    "left, with a target": {**MADE, "at": [left("n3", published=[("/a", "no")])]},
    "left at a listed node, with a target": {**MADE, "at": [left("n1", published=[("/a", "no")])]},
    "left in a capability that it lacks": {**MADE, "at": [left("n3", capability=block(5))]},
    "left at a node twice": {**SHARED, "at": [left("n3", capability=block(5)), left("n3", capability=mount("", 5))]},
    "left at two nodes in a mode for one": {**MADE, "at": [left("n3"), left("n4")]},
    "left, and used elsewhere, in a mode for one": {**MADE, "at": [left("n3"), at_n1("yes", "yes", "yes")]},
    "left at 65 nodes": {**SHARED, "at": [left(f"m{at}", capability=block(5)) for at in range(65)]},
    "left, and deleted": {"volume": 1, "exists": "no", "at": [left("n3")]},
    "left, and to be deleted": {"volume": 1, "goal": stores.DELETE, "tries": 1, "at": [left("n3")]},
    "left, and to be created": {"goal": stores.CREATE, "tries": 1, "at": [left("n3")]},
    "left, without an id": {"at": [left("n3")]},
    "left, and to be used": {"goal": stores.use("n3", "/any", block(1)), "tries": 1, **MADE, "at": [left("n3")]},
    "left, and tries without a goal": {**MADE, "tries": 1, "at": [left("n3")]},
    "left, to be stopped, and four tries": {**STOP_LEFT, "tries": 4, "at": [left("n3")]},
    "left, and another to be stopped": {"goal": STOP, **MADE, "at": [left("n3")]},
    "to be stopped, without an entry": {"goal": STOP, "tries": 1, **MADE},
    "to be stopped, and no try": {"goal": STOP, **MADE, "at": [at_n1("yes", "maybe", "no")]},
    "to be used, and no try": {**HERE, "tries": 0, "at": [at_n1("maybe", "no", "no")]},
    "to be stopped at a settled one": {"goal": STOP, "tries": 1, **MADE, "at": [at_n1("yes", "yes", "yes")]},
    "two on the way": {
        **SHARED, "goal": STOP, "tries": 1,
        "at": [at_n1("yes", "maybe", "no", capability=block(5)), stores.at_node("n2", block(5), "maybe", "no", [("/a", "no")])],
    },
    "to be used, and its target isn't the last": {
        **SHARED, "goal": stores.use("n1", "/a", block(5)), "tries": 1,
        "at": [stores.at_node("n1", block(5), "yes", "yes", [("/a", "maybe"), ("/b", "yes")])],
    },
}


def told_at(node, attached, staged="no", *published):
    """What a line has of an entry, in block/5."""
    targets = [{"known": known, "target": target} for target, known in published]
    return {"attached": attached, "capability": BLOCK_5, "node": node, "published": targets, "readonly": False, "staged": staged}


BLOCK_5 = {"access": "block", "mode": 5}
AT_N1 = {"name": "v", "node": "n1", "target": "/a"}
USE_5 = stores.use("n1", "/a", block(5))
USE_5_LINE = {"use": {**AT_N1, "capability": BLOCK_5, "readonly": False}}
GOOD_ROWS = [  # of an orchestrator: what it has, its entries, its goal and tries, and what the line has
    ("left", [left("n3", capability=block(5))], {}, [told_at("n3", "yes")], None),
    ("maybe left", [left("n3", "maybe", block(5))], {}, [told_at("n3", "maybe")], None),
    ("left at a listed node", [left("n1", capability=block(5))], {}, [told_at("n1", "yes")], None),
    ("left at 64 nodes", [left(f"m{at}", capability=block(5)) for at in range(64)], {}, [told_at(f"m{at}", "yes") for at in range(64)], None),
    *(
        (f"left and to be stopped, {tries} tries, {attached}", [left("n3", attached, block(5))], {"goal": stores.stop("n3", "/x"), "tries": tries},
            [told_at("n3", attached)], {"stop": {"name": "v", "node": "n3", "target": "/x"}})
        for tries in range(4)
        for attached in ("yes", "maybe")
    ),
    ("left at a listed node and to be stopped", [left("n1", capability=block(5))], {"goal": STOP}, [told_at("n1", "yes")], {"stop": AT_N1}),
    (
        "to be used, and left elsewhere", [left("n3", capability=block(5)), at_n1("maybe", "no", "no", capability=block(5))], {"goal": USE_5, "tries": 1},
        [told_at("n3", "yes"), told_at("n1", "maybe", "no", ("/a", "no"))], USE_5_LINE,
    ),
    (
        "to be used, and others behind it", [
            at_n1("yes", "maybe", "no", capability=block(5)), stores.at_node("n2", block(5), "yes", "yes", [("/b", "yes")]), left("n3", "maybe", block(5)),
        ], {"goal": USE_5, "tries": 3},
        [told_at("n1", "yes", "maybe", ("/a", "no")), told_at("n2", "yes", "yes", ("/b", "yes")), told_at("n3", "maybe")], USE_5_LINE,
    ),
    (
        "to be used at a second target", [stores.at_node("n1", block(5), "yes", "yes", [("/b", "yes"), ("/a", "maybe")])], {"goal": USE_5, "tries": 2},
        [told_at("n1", "yes", "yes", ("/b", "yes"), ("/a", "maybe"))], USE_5_LINE,
    ),
    (
        "to be stopped at the first of two targets", [stores.at_node("n1", block(5), "yes", "yes", [("/a", "maybe"), ("/b", "yes")])],
        {"goal": STOP, "tries": 2}, [told_at("n1", "yes", "yes", ("/a", "maybe"), ("/b", "yes"))], {"stop": AT_N1},
    ),
    (
        "to be stopped in the middle", [
            left("n3", capability=block(5)), at_n1("maybe", "no", "no", capability=block(5)),
            stores.at_node("n2", block(5), "yes", "yes", [("/b", "yes")]),
        ], {"goal": STOP, "tries": 1},
        [told_at("n3", "yes"), told_at("n1", "maybe", "no", ("/a", "no")), told_at("n2", "yes", "yes", ("/b", "yes"))], {"stop": AT_N1},
    ),
]


def good_row(box, entries, keys, at, goal):
    """A row is told as it is, and opened, which doesn't change it."""
    row = stores.known(1, "v", **{**MADE, "capabilities": [block(5)], "at": entries, **keys})
    stores.make(box.at("db"), [ASKING, row])
    volume = {"at": at, "capabilities": [BLOCK_5], "exists": "yes", "goal": goal, "id": 1, "limit": 0, "name": "v", "required": 10, "tries": keys.get("tries", 0)}
    told(box, ended(0, out=line({"nodes": ["n1", "n2"], "plugin": "orchestrator", "session": 1, "volumes": [volume]})))
    box.put("config", with_nodes(NODE % (b"n1", 4), NODE % (b"n2", 4)))
    box.wants(ended(0, out=first(2, *(["v"] if goal else []))), "orchestrator", "db", "config")
    wanted("the parts", stores.parts_of(box.at("db")), [stores.orchestrator_head(2), row])


def cases():
    bad = [(name, bad_parts, 1, [ASKING, stores.known(1, "v", **keys)]) for name, keys in BAD_ROWS.items()]
    yield from of_rows("record: an orchestrator's bad row", bad)
    yield from of_rows("record: an orchestrator's row", [(name, good_row, *rest) for name, *rest in GOOD_ROWS])
