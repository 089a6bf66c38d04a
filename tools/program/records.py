"""`record` over stores that are damaged, of other programs, beside a journal, or being written; it changes no file."""
import os
import threading

from . import stores
from .configs import NODE, PLAIN, with_nodes
from .frames import block, create, reply
from .plugins import CALLS, CONFIG, NOT_OPENED, given_of
from .running import Case, ended, of_rows, wanted

ROW = "INSERT INTO parts (key, value) VALUES (?, ?)"


def told(box, right, path="db"):
    """`record` says so, and changes nothing."""
    before = box.files()
    box.wants(right, "record", path)
    wanted("the folder after record", box.files(), before)


# ---- parts that are no record


def damages(parts, at):
    """Each way in which the part at this position is none: what it is called, and the parts. They stay in order."""
    key, value = parts[at]
    before, after = parts[:at], parts[at + 1 :]
    values = {
        "cut by a byte": value[:-1],
        "a byte too long": value + b"\0",
        "empty": b"",
        "of version 0": b"\0" + value[1:],
        "of version 4": b"\4" + value[1:],
        "of a version that isn't the head's": bytes([2 if at else 7]) + value[1:],
        "with another second byte": value[:1] + b"\x03" + value[2:],
        "a text": "text",
        "a number": 7,
    }
    for name, other in values.items():
        yield name, [*before, (key, other), *after]
    if at:
        yield "under a key of nine bytes", [*before, (key + b"\0", value), *after]


def damaged(box, parts, name, word, config=CONFIG):
    """`record` and who serves it say where, for each part and each damage, and change nothing."""
    box.put("config", config)
    for at in range(len(parts)):
        for what, others in damages(parts, at):
            path = f"{at} {what}"
            stores.make(box.at(path), others)
            right = ended(1, f"record fault at {at}")
            told(box, right, path)
            box.wants(right, name, path, word, given=given_of(CALLS))
            wanted(f"the parts of {path}", stores.parts_of(box.at(path)), others)


LAST = stores.kept("CreateVolume", (1, 1), 0, 1)
OTHER_LAST = stores.kept("CreateVolume", (1, 2), 0, 2)
HEAD = stores.controller_head(9, 1)
NODE_HEAD = stores.node_head("n1", 1)
STAGED = stores.kept("NodeStageVolume", (1, 1))
TWO = [("n1", block(5), False), ("n1", block(5), False)]
APART = [("n1", block(1), False), ("n2", block(1), False)]
ASKING = stores.orchestrator_head(1)
BAD_PARTS = [  # by the rules of a record: what is wrong, where, and the parts
    ("no parts", 0, []),
    ("no head", 0, [stores.volume(1, "v", LAST)]),
    ("a head alone, and a text's key before it", 0, [("x", b"x"), HEAD]),
    ("a key of seven bytes, before it", 0, [(b"\0" * 7, b"x"), HEAD]),
    ("a key of nine bytes, behind it", 1, [HEAD, (b"\0" * 9, b"x")]),
    ("a row of the next id", 1, [stores.controller_head(1, 1), stores.volume(1, "v", LAST)]),
    ("the second row of a name", 2, [HEAD, stores.volume(1, "v", LAST), stores.volume(2, "v", OTHER_LAST)]),
    ("a capacity of 0", 1, [HEAD, stores.volume(1, "v", LAST, capacity=0)]),
    ("a capacity of 2^63", 1, [HEAD, stores.volume(1, "v", LAST, capacity=2**63)]),
    ("no capabilities", 1, [HEAD, stores.volume(1, "v", LAST, capabilities=[])]),
    ("nine capabilities", 1, [HEAD, stores.volume(1, "v", LAST, capabilities=[block(1)] * 9)]),
    ("a mode of 8", 1, [HEAD, stores.volume(1, "v", LAST, capabilities=[block(8)])]),
    ("an empty name", 1, [HEAD, stores.volume(1, "", LAST)]),
    ("a name of 129 bytes", 1, [HEAD, stores.volume(1, "v" * 129, LAST)]),
    ("a name that isn't UTF-8", 1, [HEAD, stores.volume(1, b"\xff", LAST)]),
    ("held at a node twice", 1, [HEAD, stores.volume(1, "v", LAST, capabilities=[block(5)], held=TWO)]),
    ("held at two nodes in a mode for one", 1, [HEAD, stores.volume(1, "v", LAST, held=APART)]),
    ("held in a capability that it lacks", 1, [HEAD, stores.volume(1, "v", LAST, held=[("n1", block(2), False)])]),
    ("deleted and held", 1, [HEAD, stores.volume(1, "v", LAST, held=[("n1", block(1), False)], live=False)]),
    ("a last call of a later session", 1, [HEAD, stores.volume(1, "v", stores.kept("CreateVolume", (2, 1), 0, 1))]),
    ("deleted in an earlier session", 1, [stores.controller_head(2, 2), stores.volume(1, "v", stores.kept("DeleteVolume", (1, 2)), live=False)]),
    ("a kept reply of a node", 1, [HEAD, stores.volume(1, "v", STAGED)]),
    ("a kept reply without an id", 1, [HEAD, stores.volume(1, "v", stores.kept("CreateVolume", (1, 1), 0, 0))]),
    ("a kept status of 17", 1, [HEAD, stores.volume(1, "v", stores.kept("DeleteVolume", (1, 1), 17))]),
    ("a target twice", 1, [NODE_HEAD, stores.staged(1, block(5), STAGED, [("/a", False), ("/a", False)])]),
    ("a target without a slash", 1, [NODE_HEAD, stores.staged(1, block(5), STAGED, [("a", False)])]),
    ("a target, but nothing staged", 1, [NODE_HEAD, stores.staged(1, None, STAGED, [("/a", False)])]),
    ("two targets in a mode for one", 1, [NODE_HEAD, stores.staged(1, block(1), STAGED, [("/a", False), ("/b", False)])]),
    ("seventeen targets", 1, [NODE_HEAD, stores.staged(1, block(5), STAGED, [(f"/{at}", False) for at in range(17)])]),
    ("unstaged in an earlier session", 1, [stores.node_head("n1", 2), stores.staged(1, None, STAGED)]),
    ("a node's id that is empty", 0, [stores.node_head("", 1)]),
    ("an orchestrator's node twice", 0, [stores.orchestrator_head(1, ["n1", "n1"])]),
    ("an orchestrator's 65 nodes", 0, [stores.orchestrator_head(1, [f"n{at}" for at in range(65)])]),
    ("an orchestrator's head in version 2", 0, [stores.orchestrator_head(1, version=2)]),
    ("an orchestrator's first row at 2", 1, [ASKING, stores.known(2, "v", stores.CREATE, 1)]),
    ("an orchestrator's name twice", 2, [ASKING, stores.known(1, "v", stores.CREATE, 1), stores.known(2, "v", stores.CREATE, 1)]),
    ("4,097 rows", 4097, [stores.node_head("n1", 1), *(stores.staged(at, block(1), STAGED) for at in range(1, 4098))]),
]


def bad_parts(box, at, parts):
    stores.make(box.at("db"), parts)
    told(box, ended(1, f"record fault at {at}"))


# ---- files that are no store


def of_another(*statements, parts=()):
    """A database of another program."""

    def making(path):
        with stores.opened(path) as database:
            for statement in statements:
                database.execute(statement)
            if parts:
                database.executemany(ROW, parts)

    return making


def edited(at, content):
    """A store with other bytes there."""

    def making(path):
        stores.make(path, stores.CONTROLLER)
        with open(path, "r+b") as file:
            file.seek(at)
            file.write(content)

    return making


def cut(size):
    def making(path):
        stores.make(path, stores.CONTROLLER)
        os.truncate(path, size)

    return making


def no_store(box, making):
    """Not opened by `record`, `controller` or `node`; nothing of it is changed, and nothing lies beside it."""
    box.put("config", CONFIG)
    making(box.at("db"))
    before = box.files()
    box.wants(NOT_OPENED, "record", "db")
    box.wants(NOT_OPENED, "controller", "db", "config", given=given_of(CALLS))
    box.wants(NOT_OPENED, "node", "db", "n1", given=given_of(CALLS))
    wanted("the folder", box.files(), before)


WITHOUT_KEY = "CREATE TABLE parts (key BLOB NOT NULL, value BLOB NOT NULL)"
PARTS = stores.TABLE
OTHERWISE = [  # tables that are declared otherwise
    ("other columns", "name TEXT, size INTEGER"),
    ("no key", "key BLOB NOT NULL, value BLOB NOT NULL"),
    ("a key that is unique alone", "key BLOB NOT NULL UNIQUE, value BLOB NOT NULL"),
    ("the value as its key", "key BLOB NOT NULL, value BLOB NOT NULL PRIMARY KEY"),
    ("a key that may be NULL", "key BLOB PRIMARY KEY, value BLOB NOT NULL"),
    ("a text as its key", "key TEXT NOT NULL PRIMARY KEY, value BLOB NOT NULL"),
    ("a number as its key", "key INTEGER PRIMARY KEY, value BLOB NOT NULL"),
    ("another order", "key BLOB COLLATE NOCASE NOT NULL PRIMARY KEY, value BLOB NOT NULL"),
    ("a column more", "key BLOB NOT NULL PRIMARY KEY, value BLOB NOT NULL, more BLOB"),
    ("a value that may be NULL", "key BLOB NOT NULL PRIMARY KEY, value BLOB"),
    ("a value that is unique", "key BLOB NOT NULL PRIMARY KEY, value BLOB NOT NULL UNIQUE"),
    ("a default", "key BLOB NOT NULL PRIMARY KEY, value BLOB NOT NULL DEFAULT x'00'"),
]
NO_STORES = [
    ("one table of another name", of_another("CREATE TABLE volumes (key BLOB NOT NULL PRIMARY KEY, value BLOB NOT NULL)")),
    ("a name that begins so", of_another("CREATE TABLE parts2 (key BLOB NOT NULL PRIMARY KEY, value BLOB NOT NULL)")),
    ("another table beside it", of_another(PARTS, "CREATE TABLE other (x)", parts=stores.CONTROLLER)),
    ("a view beside it", of_another(PARTS, "CREATE VIEW other AS SELECT * FROM parts", parts=stores.CONTROLLER)),
    ("an index beside it", of_another(PARTS, "CREATE INDEX other ON parts (value)", parts=stores.CONTROLLER)),
    ("a trigger beside it", of_another(PARTS, "CREATE TRIGGER other AFTER INSERT ON parts BEGIN DELETE FROM parts; END", parts=stores.CONTROLLER)),
    ("a sequence beside it", of_another("CREATE TABLE parts (x INTEGER PRIMARY KEY AUTOINCREMENT)")),
    ("a table without a key, and an index", of_another(WITHOUT_KEY, "CREATE INDEX other ON parts (key)", parts=stores.CONTROLLER)),
    ("a table without a key, and a unique index", of_another(WITHOUT_KEY, "CREATE UNIQUE INDEX other ON parts (key)", parts=stores.CONTROLLER)),
    ("a view alone", of_another("CREATE VIEW parts AS SELECT 1 AS key, 2 AS value")),
    *((f"a table with {name}", of_another(f"CREATE TABLE parts ({columns})")) for name, columns in OTHERWISE),
    ("the front of a header", cut(99)),
    ("another magic", edited(0, b"sqlite")),
    ("another format", edited(18, b"\3\3")),
    ("another page size", edited(16, b"\x02\0")),
    ("reserved bytes", edited(20, b"\x20")),
    ("a list of tables that is none", edited(100, b"\xff" * 3996)),
]


def beside_journal(box, content, making=None):
    """A rollback journal beside a store: only SQLite can play it back."""
    box.put("config", CONFIG)
    stores.make(box.at("db"), stores.CONTROLLER)
    if making:
        making(box.at("db-journal"))
    else:
        box.put("db-journal", content)
    before = box.files()
    box.wants(NOT_OPENED, "record", "db")
    box.wants(NOT_OPENED, "controller", "db", "config", given=given_of(CALLS))
    wanted("the folder", box.files(), before)


def beside_none(box):
    """An empty journal is none."""
    stores.make(box.at("db"), stores.CONTROLLER)
    box.put("db-journal", b"")
    told(box, ended(0, out=stores.CONTROLLER_LINE))


# ---- links, and stores that are being used


def by_links(box):
    """The log is looked for beside the file that the link leads to."""
    os.mkdir(box.at("folder"))
    box.put("config", CONFIG)
    running = box.start("controller", "folder/db", "config")
    running.asks(*CALLS[0])
    os.symlink("folder/db", box.at("link"))
    os.symlink("link", box.at("second"))
    right = box.run("record", "folder/db")
    wanted("the record", (right.status, b'"next_id":2' in right.out), (0, True))
    for path in ("link", "second", "folder/../link"):
        told(box, right, path)
    running.end()


def missing(box):
    told(box, NOT_OPENED, "nothing")


def line_after(count):
    """The line of a controller that made so many volumes, `v1` and so on, in as many calls."""
    rows = [
        b'{"attached":[],"capabilities":[{"access":"block","mode":1}],"capacity":10,"id":%d,"last":{"call":%d,"session":1},"live":true,"name":"v%d"}'
        % (at, at, at)
        for at in range(1, count + 1)
    ]
    return b'{"next_id":%d,"plugin":"controller","session":%d,"volumes":[%s]}\n' % (count + 1, count > 0, b",".join(rows))


def while_committing(box):
    """Beside a plugin that commits: each line is that of a state, no earlier than the one before, or the log changed meanwhile. At first the store
    may be there without its head."""
    count = 400
    box.put("config", PLAIN)
    lines = {line_after(made): made for made in range(count + 1)}
    running = box.start("controller", "db", "config")
    given = b"".join(create((1, at), f"v{at}") for at in range(1, count + 1))
    replies = []
    serving = threading.Thread(target=lambda: replies.append(running.end(given)))
    serving.start()
    last, seen = 0, 0
    while serving.is_alive():
        came = box.run("record", "db")
        if came == NOT_OPENED or (seen == 0 and came == ended(1, "record fault at 0")):
            continue
        wanted("a record", (came.status, came.error, came.out in lines), (0, b"", True))
        wanted("the state isn't an earlier one", lines[came.out] >= last, True)
        last, seen = lines[came.out], seen + 1
    serving.join()
    right = b"".join(reply("CreateVolume", (1, at), 0, at) for at in range(1, count + 1))
    wanted("the plugin's end", replies[0], ended(0, out=right))
    told(box, ended(0, out=line_after(count)))


def cut_logs(box):
    """A log that was cut anywhere: the store has a front of the commits, and all with all of the log; a plugin opens it too."""
    count = 6
    box.put("config", PLAIN)
    running = box.start("controller", "db", "config")
    for at in range(1, count + 1):
        running.asks(create((1, at), f"v{at}"), reply("CreateVolume", (1, at), 0, at))
    file, log = box.get("db"), box.get("db-wal")
    running.end()
    lines = [line_after(made) for made in range(count + 1)]
    last = -1
    for size in sorted({0, *range(32, len(log) + 1, 4120), *range(2092, len(log), 3 * 4120), len(log) - 1}):
        box.put("cut.db", file)
        box.put("cut.db-wal", log[:size])
        before = box.files()
        came = box.run("record", "cut.db")
        wanted("the folder after record", box.files(), before)
        # Before its head is committed there is no table, or none has parts.
        if last >= 0 or came not in (NOT_OPENED, ended(1, "record fault at 0")):
            wanted(f"record of {size} bytes", (came.status, came.error, came.out in lines), (0, b"", True))
            wanted("a front as long as before", lines.index(came.out) >= last, True)
            last = lines.index(came.out)
        at = max(last, 0)
        right = b"".join(reply("CreateVolume", (1, made), 0, made) for made in range(at + 1, count + 1))
        given = b"".join(create((1, made), f"v{made}") for made in range(at + 1, count + 1))
        box.wants(ended(0, out=right), "controller", "cut.db", "config", given=given, told=f"served over {size} bytes of the log")
        box.wants(ended(0, out=lines[-1]), "record", "cut.db")
    wanted("the state with the whole log", last, count)


def cases():
    yield Case("record: a store that is missing", missing)
    yield Case("record: a controller's damaged parts", lambda box: damaged(box, stores.CONTROLLER, "controller", "config"))
    yield Case("record: a node's damaged parts", lambda box: damaged(box, stores.NODE, "node", "n1"))
    both = with_nodes(NODE % (b"n1", 4), NODE % (b"n2", 4))
    yield Case("record: an orchestrator's damaged parts", lambda box: damaged(box, stores.ORCHESTRATOR, "orchestrator", "config", both))
    yield from of_rows("record: parts", [(name, bad_parts, *rest) for name, *rest in BAD_PARTS])
    yield from of_rows("no store", [(name, no_store, making) for name, making in NO_STORES])
    yield Case("record: beside a journal", lambda box: beside_journal(box, b"\xd9\xd5\x05\xf9\x20\xa1\x63\xd7" + bytes(504)))
    yield Case("record: beside a folder of that name", lambda box: beside_journal(box, b"", os.mkdir))
    yield Case("record: beside an empty journal", beside_none)
    yield Case("record: by links", by_links)
    yield Case("record: while a plugin commits", while_committing)
    yield Case("record: a log that was cut", cut_logs)
