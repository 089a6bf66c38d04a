"""Stores as SQLite files and records as parts, written from docs/RECORDS.md alone."""
import contextlib
import sqlite3

from .frames import KINDS, block, counted, flag, mount, number, text

TABLE = "CREATE TABLE parts (key BLOB NOT NULL PRIMARY KEY, value BLOB NOT NULL)"


def kept(kind, at, status=0, volume=0, detail=""):
    """The kept call of a row: its number, and its reply."""
    return number(at[0]) + number(at[1]) + bytes([KINDS[kind] + 128, status]) + number(volume) + text(detail)


def controller_head(next_id, session, version=3):
    return number(0), bytes([version, 0]) + number(next_id) + (number(session) if version == 3 else b"")


def node_head(node, session, version=3):
    return number(0), bytes([version, 1]) + text(node) + (number(session) if version == 3 else b"")


def volume(at, name, last, capacity=10, capabilities=(block(1),), held=(), live=True, version=3):
    """A controller's row; `held` has a node, a capability and a flag for each node that holds it."""
    holdings = counted([text(node) + capability + flag(readonly) for node, capability, readonly in held])
    fields = text(name) + number(capacity) + counted(capabilities) + holdings
    return number(at), bytes([version, 1 if live else 2]) + fields + last


def staged(at, capability, last, targets=(), version=3):
    """A node's row; `targets` has a text and a flag for each."""
    there = b"\0" if capability is None else b"\1" + capability
    return number(at), bytes([version]) + there + counted([text(target) + flag(readonly) for target, readonly in targets]) + last


# ---- an orchestrator's parts

KNOWN = {"no": 0, "yes": 1, "maybe": 2}
NO_GOAL, CREATE, DELETE = b"\0", b"\1", b"\4"


def use(node, target, capability, readonly=False):
    return b"\2" + text(node) + text(target) + capability + flag(readonly)


def stop(node, target):
    return b"\3" + text(node) + text(target)


def orchestrator_head(session, nodes=("n1", "n2"), version=3):
    return number(0), bytes([version, 2]) + number(session) + counted([text(node) for node in nodes])


def at_node(node, capability, attached, staged, published, readonly=False):
    """What is known of a volume at a node; `published` has a target and what is known of it, for each."""
    targets = counted([text(target) + bytes([KNOWN[it]]) for target, it in published])
    return text(node) + capability + flag(readonly) + bytes([KNOWN[attached], KNOWN[staged]]) + targets


def known(place, name, goal=NO_GOAL, tries=0, required=10, limit=0, capabilities=(block(1),), volume=None, exists="maybe", at=()):
    """An orchestrator's row."""
    there = b"\0" if volume is None else b"\1" + number(volume)
    fields = text(name) + number(required) + number(limit) + counted(capabilities) + there + bytes([KNOWN[exists]])
    return number(place), b"\3" + fields + goal + bytes([tries]) + counted(at)


@contextlib.contextmanager
def opened(path):
    """A database, by Python's SQLite; what is done is committed."""
    database = sqlite3.connect(path, isolation_level=None)
    try:
        yield database
    finally:
        database.close()


def make(path, parts, table=TABLE, *more):
    """A store that has these parts, made by SQLite."""
    with opened(path) as database:
        database.execute(table)
        for statement in more:
            database.execute(statement)
        database.execute("BEGIN")
        database.executemany("INSERT INTO parts (key, value) VALUES (?, ?)", parts)
        database.execute("COMMIT")


def parts_of(path):
    """The parts of a store, by rising key, by SQLite, which may play the log back into it."""
    with opened(path) as database:
        return database.execute("SELECT key, value FROM parts ORDER BY key").fetchall()


# A controller's record with each kind of row, and the line of it: by hand, from "The line of a record".
CONTROLLER = [
    controller_head(5, 2),
    volume(
        1,
        "v",
        kept("ControllerPublishVolume", (1, 9)),
        capacity=2**63 - 1,
        capabilities=[block(5), mount('"\\\n\u00e9', 3)],
        held=[("n2", block(5), True), ("n1", mount('"\\\n\u00e9', 3), False)],
    ),
    volume(2, "w", kept("CreateVolume", (2, 1), 0, 2), capacity=1, capabilities=[mount("", 7), mount("", 7)]),
    volume(3, "x", kept("DeleteVolume", (2, 3)), live=False),
    volume(4, "y", kept("DeleteVolume", (1, 3), 9, 0, "n1"), held=[("n1", block(1), False)]),
]
CONTROLLER_LINE = (
    b'{"next_id":5,"plugin":"controller","session":2,"volumes":['
    b'{"attached":[{"capability":{"access":"block","mode":5},"node":"n2","readonly":true},'
    b'{"capability":{"access":"mount","fs":"\\"\\\\\\n\xc3\xa9","mode":3},"node":"n1","readonly":false}],'
    b'"capabilities":[{"access":"block","mode":5},{"access":"mount","fs":"\\"\\\\\\n\xc3\xa9","mode":3}],'
    b'"capacity":9223372036854775807,"id":1,"last":{"call":9,"session":1},"live":true,"name":"v"},'
    b'{"attached":[],"capabilities":[{"access":"mount","fs":"","mode":7},{"access":"mount","fs":"","mode":7}],'
    b'"capacity":1,"id":2,"last":{"call":1,"session":2},"live":true,"name":"w"},'
    b'{"attached":[],"capabilities":[{"access":"block","mode":1}],"capacity":10,"id":3,"last":{"call":3,"session":2},"live":false,"name":"x"},'
    b'{"attached":[{"capability":{"access":"block","mode":1},"node":"n1","readonly":false}],"capabilities":[{"access":"block","mode":1}],'
    b'"capacity":10,"id":4,"last":{"call":3,"session":1},"live":true,"name":"y"}]}\n'
)
NODE = [
    node_head("n1", 7),
    staged(1, mount("ext4", 5), kept("NodePublishVolume", (6, 2)), [("/b", True), ("/a\t", False)]),
    staged(2**33, block(6), kept("NodePublishVolume", (7, 1), 6, 0, "published otherwise"), [("/", False)]),
    staged(2**34, None, kept("NodeUnstageVolume", (7, 9))),
]
NODE_LINE = (
    b'{"node":"n1","plugin":"node","session":7,"volumes":['
    b'{"id":1,"last":{"call":2,"session":6},"published":[{"readonly":true,"target":"/b"},{"readonly":false,"target":"/a\\t"}],'
    b'"staged":{"access":"mount","fs":"ext4","mode":5}},'
    b'{"id":8589934592,"last":{"call":1,"session":7},"published":[{"readonly":false,"target":"/"}],"staged":{"access":"block","mode":6}},'
    b'{"id":17179869184,"last":{"call":9,"session":7},"published":[],"staged":null}]}\n'
)
NEW_CONTROLLER_LINE = b'{"next_id":1,"plugin":"controller","session":0,"volumes":[]}\n'
NEW_NODE_LINE = b'{"node":"n1","plugin":"node","session":0,"volumes":[]}\n'
# An orchestrator's, of four volumes: one that is used at a node and is to be used at another, one to be created, one that was deleted, and one that was used
# at a node that was lost, which is to be detached.
WAYS = [block(5), mount('"\\\n\u00e9', 3)]
SETTLED = at_node("n2", block(5), "yes", "yes", [("/b", "yes"), ("/a\t", "yes")], True)
ORCHESTRATOR = [
    orchestrator_head(7),
    known(1, "v", use("n1", "/c", block(5)), 2, 1, 20, WAYS, 1, "yes", [SETTLED, at_node("n1", block(5), "yes", "maybe", [("/c", "no")])]),
    known(2, "b", CREATE, 3, 2**64 - 1, 0, []),
    known(3, "a", volume=2**33, exists="no"),
    known(4, "w", stop("n3", "/any"), volume=3, exists="yes", at=[at_node("n3", block(1), "maybe", "no", [], True)]),
]
ORCHESTRATOR_LINE = (
    b'{"nodes":["n1","n2"],"plugin":"orchestrator","session":7,"volumes":['
    b'{"at":[],"capabilities":[{"access":"block","mode":1}],"exists":"no","goal":null,"id":8589934592,"limit":0,"name":"a","required":10,"tries":0},'
    b'{"at":[],"capabilities":[],"exists":"maybe","goal":{"create":{"capabilities":[],"limit":0,"name":"b","required":18446744073709551615}},'
    b'"id":null,"limit":0,"name":"b","required":18446744073709551615,"tries":3},'
    b'{"at":[{"attached":"yes","capability":{"access":"block","mode":5},"node":"n2",'
    b'"published":[{"known":"yes","target":"/b"},{"known":"yes","target":"/a\\t"}],"readonly":true,"staged":"yes"},'
    b'{"attached":"yes","capability":{"access":"block","mode":5},"node":"n1",'
    b'"published":[{"known":"no","target":"/c"}],"readonly":false,"staged":"maybe"}],'
    b'"capabilities":[{"access":"block","mode":5},{"access":"mount","fs":"\\"\\\\\\n\xc3\xa9","mode":3}],"exists":"yes",'
    b'"goal":{"use":{"capability":{"access":"block","mode":5},"name":"v","node":"n1","readonly":false,"target":"/c"}},'
    b'"id":1,"limit":20,"name":"v","required":1,"tries":2},'
    b'{"at":[{"attached":"maybe","capability":{"access":"block","mode":1},"node":"n3","published":[],"readonly":true,"staged":"no"}],'
    b'"capabilities":[{"access":"block","mode":1}],"exists":"yes","goal":{"stop":{"name":"w","node":"n3","target":"/any"}},'
    b'"id":3,"limit":0,"name":"w","required":10,"tries":0}]}\n'
)
