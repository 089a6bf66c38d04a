"""`controller` and `node` over stores: what they reply, when, and what the store then has."""
import os
import stat
import subprocess
import sys

from . import stores
from .configs import PLAIN
from .frames import attach, create, delete, detach, number, publish, reply, stage, unpublish, unstage, block
from .running import LIMIT, Case, as_nobody, ended, of_rows, wanted

NOT_OPENED = ended(3, "store not opened")
EARLIER = ended(1, "store of an earlier session")
CONFIG = b'{"greatest":1000,"nodes":[{"id":"n1","slots":4}]}'

CALLS = [  # each call of a controller and of a node, with its reply
    (create((1, 1), "v"), reply("CreateVolume", (1, 1), 0, 1)),
    (attach((1, 2), 1, "n1"), reply("ControllerPublishVolume", (1, 2))),
    (stage((1, 3), 1), reply("NodeStageVolume", (1, 3))),
    (publish((1, 4), 1, "/a"), reply("NodePublishVolume", (1, 4))),
    (unpublish((1, 5), 1, "/a"), reply("NodeUnpublishVolume", (1, 5))),
    (unstage((1, 6), 1), reply("NodeUnstageVolume", (1, 6))),
    (detach((1, 7), 1, "n1"), reply("ControllerUnpublishVolume", (1, 7))),
    (delete((1, 8), 1), reply("DeleteVolume", (1, 8))),
]
OF_CONTROLLER = [CALLS[at] for at in (0, 1, 6, 7)]
OF_NODE = CALLS[2:6]
PLUGINS = {"controller": ("config", OF_CONTROLLER), "node": ("n1", OF_NODE)}
DELETED = (
    b'{"next_id":2,"plugin":"controller","session":1,"volumes":[{"attached":[],"capabilities":[{"access":"block","mode":1}],'
    b'"capacity":10,"id":1,"last":{"call":8,"session":1},"live":false,"name":"v"}]}\n'
)
UNSTAGED = b'{"node":"n1","plugin":"node","session":1,"volumes":[{"id":1,"last":{"call":6,"session":1},"published":[],"staged":null}]}\n'
ENDS = {"controller": DELETED, "node": UNSTAGED}
STORES = {
    "controller": (stores.CONTROLLER, stores.CONTROLLER_LINE, stores.NEW_CONTROLLER_LINE),
    "node": (stores.NODE, stores.NODE_LINE, stores.NEW_NODE_LINE),
}


def given_of(pairs):
    return b"".join(call for call, _ in pairs)


def replies_of(pairs):
    return b"".join(answer for _, answer in pairs)


def alone(box, path, name="alone.db"):
    """A copy of the database file without its log."""
    return box.put(name, box.get(path))


def replies(box, name):
    """Replies to its own calls, none to others; the file alone then has the store, and a second run goes on from it."""
    box.put("config", CONFIG)
    word, pairs = PLUGINS[name]
    others = given_of(CALLS) + reply("DeleteVolume", (9, 9))
    box.wants(ended(0, out=replies_of(pairs)), name, "db", word, given=others)
    box.wants(ended(0, out=ENDS[name]), "record", alone(box, "db"))
    last = pairs[-1]
    box.wants(ended(0, out=last[1]), name, "db", word, given=last[0], told="a duplicate")
    stale = {"controller": reply("CreateVolume", (1, 1), 10, 0, "stale"), "node": reply("NodeStageVolume", (1, 3), 10, 0, "stale")}[name]
    box.wants(ended(0, out=stale), name, "db", word, given=pairs[0][0], told="a stale call")
    box.wants(ended(0, out=ENDS[name]), "record", "db")


def worked(box):
    """A controller is run twice on a new store, in literal bytes, and a node refuses that store."""
    box.put("config", PLAIN)
    given = "00000028 01 01 0000000000000001 0000000000000001 00 0176 000000000000000a 0000000000000000 01 00 01"
    given = bytes.fromhex(given + "0000001b 01 02 0000000000000001 0000000000000002 00 0000000000000001")
    made = "0000001d 01 81 0000000000000001 0000000000000001 00 00 0000000000000001 00"
    stale = "00000022 01 81 0000000000000001 0000000000000001 00 0a 0000000000000000 05 7374616c65"
    deleted = "0000001d 01 82 0000000000000001 0000000000000002 00 00 0000000000000000 00"
    box.wants(ended(0, out=bytes.fromhex(made + deleted)), "controller", "db", "config", given=given)
    box.wants(ended(0, out=bytes.fromhex(stale + deleted)), "controller", "db", "config", given=given)
    box.wants(ended(1, "record fault at 0"), "node", "db", "n1", given=given)
    box.wants(ended(0, out=bytes.fromhex(stale + deleted)), "controller", "db", "config", given=given)


def at_once(box, name):
    """Each reply comes before the next call is sent, and what it tells is committed by then."""
    box.put("config", CONFIG)
    word, pairs = PLUGINS[name]
    running = box.start(name, "db", word)
    for given, right in pairs:
        running.asks(given, right)
        told = box.run("record", "db")
        wanted("record beside it", (told.status, told.error, b'"call":%d,' % call_of(given) in told.out), (0, b"", True))
    wanted("the end", running.end(), ended(0))


def call_of(frame):
    return int.from_bytes(frame[14:22], "big")


def in_pieces(box, name):
    """Calls that come byte by byte."""
    box.put("config", CONFIG)
    word, pairs = PLUGINS[name]
    running = box.start(name, "db", word)
    for byte in given_of(pairs):
        running.send(bytes([byte]))
    wanted("the end", running.end(), ended(0, out=replies_of(pairs)))


def layout(box):
    """The file is as RECORDS says, to SQLite too, and the parts are those of the page's example."""
    box.put("config", PLAIN)
    box.wants(ended(0, out=reply("CreateVolume", (1, 1), 0, 1)), "controller", "db", "config", given=create((1, 1), "v"))
    header = box.get("db")[:100]
    wanted("the page size", header[16:18], b"\x10\0")
    wanted("WAL mode", header[18:20], b"\2\2")
    wanted("reserved bytes", header[20], 0)
    with stores.opened(box.at("db")) as database:
        listed = database.execute("SELECT type, name, tbl_name, sql FROM sqlite_schema").fetchall()
        checked = database.execute("PRAGMA integrity_check").fetchall()
        parts = database.execute("SELECT key, value, typeof(key), typeof(value) FROM parts ORDER BY key").fetchall()
    index = ("index", "sqlite_autoindex_parts_1", "parts", None)
    listed = [(kind, name, of, sql and sql.replace("IF NOT EXISTS ", "")) for kind, name, of, sql in listed]
    wanted("what is listed", sorted(listed, key=str), [index, ("table", "parts", "parts", stores.TABLE)])
    wanted("the check", checked, [("ok",)])
    head = bytes.fromhex("03 00 0000000000000002 0000000000000001")
    row = bytes.fromhex("03 01 0176 000000000000000a 01 00 01 00 0000000000000001 0000000000000001 81 00 0000000000000001 00")
    wanted("the parts", parts, [(number(0), head, "blob", "blob"), (number(1), row, "blob", "blob")])


def new(box, name, line):
    """A store without calls has a head."""
    box.put("config", PLAIN)
    box.wants(ended(0), name, "db", PLUGINS[name][0])
    box.wants(ended(0, out=line), "record", alone(box, "db"))


def blank(box, name, line):
    """An empty file becomes a store, and so does a database of SQLite that lists nothing."""
    box.put("config", PLAIN)
    box.put("empty.db", b"")
    with stores.opened(box.at("blank.db")) as database:
        database.execute("CREATE TABLE gone (x)")
        database.execute("DROP TABLE gone")
    for path in ("empty.db", "blank.db"):
        box.wants(ended(0), name, path, PLUGINS[name][0])
        box.wants(ended(0, out=line), "record", path)


def half_made(box, name, line):
    """A new file that was cut off while it got its first page, and lost its log, is no store until it is opened again: whole, short, and with an
    empty log. One that begins otherwise, one with more than a page and one with a log stay as they are."""
    box.put("config", PLAIN)
    page = bytes(1) + b"QLite format 3\0" + bytes(4096 - 16)
    for path, content, log in (("page.db", page, None), ("short.db", page[:2], None), ("logged.db", page, b"")):
        box.put(path, content)
        if log is not None:
            box.put(f"{path}-wal", log)
        box.wants(NOT_OPENED, "record", path)
        box.wants(ended(0), name, path, PLUGINS[name][0])
        box.wants(ended(0, out=line), "record", path)
    for path, content in (("other.db", b"S" + page[1:]), ("longer.db", page + bytes(1))):
        box.put(path, content)
        box.wants(NOT_OPENED, name, path, PLUGINS[name][0])
        with open(box.at(path), "rb") as file:
            wanted("the file", file.read(), content)


def found(box, name, parts, line):
    """A store that SQLite made is opened, with each kind of row; nothing is changed in it."""
    box.put("config", CONFIG)
    stores.make(box.at("db"), parts)
    box.wants(ended(0, out=line), "record", "db")
    box.wants(ended(0), name, "db", PLUGINS[name][0])
    box.wants(ended(0, out=line), "record", "db")
    wanted("the parts", stores.parts_of(box.at("db")), parts)


def older(box, name, version):
    """A store of an earlier version is told as it is, and rewritten when its plugin opens it."""
    box.put("config", CONFIG)
    if name == "controller":
        last = stores.kept("CreateVolume", (4, 2), 0, 1)
        build = lambda it: [stores.controller_head(2, 4, it), stores.volume(1, "v", last, version=it)]
        head, row = '"next_id":2,"plugin":"controller","session":4', '"attached":[],"capabilities":[{"access":"block","mode":1}],"capacity":10,'
        tail = '"live":true,"name":"v"'
    else:
        last = stores.kept("NodeStageVolume", (4, 2))
        build = lambda it: [stores.node_head("n1", 4, it), stores.staged(1, block(1), last, version=it)]
        head, row, tail = '"node":"n1","plugin":"node","session":4', "", '"published":[],"staged":{"access":"block","mode":1}'
    line = f'{{{head},"volumes":[{{{row}"id":1,"last":{{"call":2,"session":4}},{tail}}}]}}\n'.encode()
    stores.make(box.at("db"), build(version))
    box.wants(ended(0, out=line), "record", "db")
    wanted("the parts after record", stores.parts_of(box.at("db")), build(version))
    box.wants(ended(0), name, "db", PLUGINS[name][0])
    wanted("the parts after its plugin", stores.parts_of(box.at("db")), build(3))
    box.wants(ended(0, out=line), "record", "db")


def of_another(box):
    """A store of the other plugin, or of another node, is refused untouched."""
    box.put("config", CONFIG)
    stores.make(box.at("c.db"), stores.CONTROLLER)
    stores.make(box.at("n.db"), stores.NODE)
    fault = ended(1, "record fault at 0")
    given = given_of(CALLS)
    box.wants(fault, "node", "c.db", "n1", given=given)
    box.wants(fault, "controller", "n.db", "config", given=given)
    box.wants(fault, "node", "n.db", "n2", given=given)
    box.wants(fault, "node", "n.db", "N1", given=given)
    wanted("the controller's parts", stores.parts_of(box.at("c.db")), stores.CONTROLLER)
    wanted("the node's parts", stores.parts_of(box.at("n.db")), stores.NODE)


def joined(box):
    """A node joins with a session, and is run with it again; what was under way to the lost node of its id is stale."""
    late = [publish((1, 4), 1, "/a"), stage((1, 3), 1), unstage((0, 9), 7)]
    kinds = ["NodePublishVolume", "NodeStageVolume", "NodeUnstageVolume"]
    stale = b"".join(reply(kind, at, 10, 0, "stale") for kind, at in zip(kinds, [(1, 4), (1, 3), (0, 9)]))
    box.wants(ended(0, out=stale), "node", "db", "n1", "2", given=b"".join(late))
    wanted("a new store", stores.parts_of(box.at("db")), [stores.node_head("n1", 2)])
    own = [(stage((2, 3), 1), reply("NodeStageVolume", (2, 3))), (publish((2, 4), 1, "/a"), reply("NodePublishVolume", (2, 4)))]
    box.wants(ended(0, out=replies_of(own)), "node", "db", "n1", "2", given=given_of(own))
    before = stores.parts_of(box.at("db"))
    for word in (["2"], ["1"], ["0"], []):
        box.wants(ended(0, out=stale), "node", "db", "n1", *word, given=b"".join(late), told="a check that passes")
    for word in ("3", "18446744073709551615"):
        box.wants(EARLIER, "node", "db", "n1", word, given=given_of(own))
    wanted("the parts", stores.parts_of(box.at("db")), before)


def of_an_earlier_session(box, version):
    """A lost node's store, in each version: refused under a later session than its own, and DB stays byte for byte."""
    last = [stores.kept("NodeStageVolume", (4, 2)), stores.kept("NodeUnstageVolume", (2, 9))]
    rows = [stores.staged(1, block(1), last[0], version=version)]
    if version < 3:
        rows.append(stores.staged(2, None, last[1], version=version))  # forgotten where the store is rewritten
    parts = [stores.node_head("n1", 4, version), *rows]
    stores.make(box.at("db"), parts)
    before = box.get("db")
    for word in ("5", "6", "18446744073709551615"):
        box.wants(EARLIER, "node", "db", "n1", word, given=stage((9, 9), 1))
        wanted("the file", box.get("db"), before)
    box.wants(ended(1, "record fault at 0"), "node", "db", "n2", "5", given=stage((9, 9), 1))
    wanted("the parts", stores.parts_of(box.at("db")), parts)
    duplicate = stage((4, 2), 1), reply("NodeStageVolume", (4, 2))
    box.wants(ended(0, out=duplicate[1]), "node", "db", "n1", "4", given=duplicate[0])
    wanted("the parts then", stores.parts_of(box.at("db")), [stores.node_head("n1", 4), stores.staged(1, block(1), last[0])])


def second(box, name):
    """A second process on one store, of either plugin; once the first ended, the next is served."""
    box.put("config", CONFIG)
    word, pairs = PLUGINS[name]
    running = box.start(name, "db", word)
    running.asks(*pairs[0])
    os.symlink("db", box.at("link"))
    for path in ("db", "link", f"../{os.path.basename(box.folder)}/db"):
        box.wants(NOT_OPENED, "controller", path, "config", given=create((9, 9), "w"))
        box.wants(NOT_OPENED, "node", path, "n1", given=stage((9, 9), 1))
    wanted("the first", running.end(given_of(pairs[1:])), ended(0, out=replies_of(pairs[1:])))
    box.wants(ended(0, out=pairs[-1][1]), name, "db", word, given=pairs[-1][0])
    box.wants(ended(0, out=ENDS[name]), "record", "db")


def by_sqlite(box, mode):
    """A store that SQLite holds locked is in use; SQLite finds one locked that a plugin has."""
    box.put("config", CONFIG)
    stores.make(box.at("db"), stores.CONTROLLER, stores.TABLE)
    with stores.opened(box.at("db")) as database:
        database.execute(f"PRAGMA journal_mode={mode}")
        database.execute("BEGIN EXCLUSIVE")
        database.execute("UPDATE parts SET value = value")
        box.wants(NOT_OPENED, "controller", "db", "config", given=create((9, 9), "w"))
        # Nothing of the change is seen; a rollback journal that SQLite has begun to write is told.
        told = box.run("record", "db")
        wanted(f"record of it: {told}", told in (NOT_OPENED, ended(0, out=stores.CONTROLLER_LINE)), True)
        database.execute("ROLLBACK")
    box.wants(ended(0, out=stores.CONTROLLER_LINE), "record", "db")


def locks_out(box):
    """SQLite finds a store locked while a plugin has it."""
    box.put("config", CONFIG)
    running = box.start("controller", "db", "config")
    running.asks(*CALLS[0])
    reading = "import sqlite3, sys; print(sqlite3.connect(sys.argv[1], timeout=0).execute('SELECT count(*) FROM parts').fetchall())"
    ran = subprocess.run([sys.executable, "-c", reading, box.at("db")], capture_output=True, timeout=LIMIT, check=False)
    wanted("another process's read", (ran.stdout, b"locked" in ran.stderr), (b"", True))
    wanted("the plugin's end", running.end(), ended(0))


# ---- where DB is


def served_at(box, path, real=None, making=None):
    """A store at this path, which leads to the file `real`; its log lies beside that while it is served."""
    box.put("config", CONFIG)
    if making:
        making(box)
    running = box.start("controller", path, "config")
    running.asks(*CALLS[0])
    wanted("the log", os.path.isfile(box.at((real or path) + "-wal")), True)
    shown = box.run("record", path)
    wanted("the end", running.end(), ended(0))
    box.wants(shown, "record", real or path)
    wanted("what record says", (shown.status, shown.error, b'"next_id":2' in shown.out), (0, b"", True))


def unopened(box, path, making=None, shown=NOT_OPENED):
    """Not opened by any of the three, and nothing is made or changed."""
    box.put("config", CONFIG)
    if making:
        making(box)
    before = box.files()
    box.wants(NOT_OPENED, "controller", path, "config", given=given_of(CALLS))
    box.wants(NOT_OPENED, "node", path, "n1", given=given_of(CALLS))
    box.wants(shown, "record", path)
    wanted("the folder", box.files(), before)


def linked(name, target):
    return lambda box: os.symlink(target, box.at(name))


def with_file(name, content):
    return lambda box: box.put(name, content)


def with_two_names(box):
    stores.make(box.at("db"), stores.CONTROLLER)
    os.link(box.at("db"), box.at("other"))


def with_link(name, target):
    """A link to an empty file."""

    def making(box):
        box.put(target, b"")
        os.symlink(target, box.at(name))

    return making


def in_folder(box):
    os.mkdir(box.at("folder"))
    with_link("second", "folder/real")(box)
    os.symlink("second", box.at("link"))


WHERE = [
    ("blanks at its ends", served_at, "  db \t"),
    ("blanks alone", served_at, " "),
    ("a name that isn't ASCII", served_at, "\u00e9\n"),
    ("a link", served_at, "link", "db", with_link("link", "db")),
    ("a link to a link into a folder", served_at, "link", "folder/real", in_folder),
    ("a folder of its path goes back", served_at, "folder/../db", "db", lambda box: os.mkdir(box.at("folder"))),
]
UNOPENED = [
    ("an empty name", "", None),
    ("a folder", "folder", lambda box: os.mkdir(box.at("folder"))),
    ("in a folder that is missing", "nothing/db", None),
    ("a link to itself", "link", linked("link", "link")),
    ("a link to a file that is missing", "link", linked("link", "db")),
    ("a link to a folder", "link", linked("link", ".")),
    ("a pipe", "pipe", lambda box: os.mkfifo(box.at("pipe"))),
    ("a device", "/dev/null", None),
    ("a file for a folder", "f/db", with_file("f", b"")),
    ("a name of 256 bytes", "d" * 256, None),
    ("a file of another kind", "f", with_file("f", b"no database\n" * 1000)),
    ("a short file of another kind", "f", with_file("f", b"xx")),
    ("a file with two names", "db", with_two_names, ended(0, out=stores.CONTROLLER_LINE)),
]


def without_rights(box, mode, folder_mode, shown):
    """As nobody, over a store of another user."""
    before = as_nobody()
    os.mkdir(box.at("folder"))
    box.put("config", CONFIG)
    stores.make(box.at("folder/db"), stores.CONTROLLER)
    os.chmod(box.at("folder/db"), mode)
    os.chmod(box.at("folder"), folder_mode)
    found = box.files()
    box.wants(NOT_OPENED, "controller", "folder/db", "config", before=before, given=given_of(CALLS))
    box.wants(shown, "record", "folder/db", before=before)
    wanted("the folder", box.files(), found)


def new_without_rights(box):
    """As nobody, where no file can be made."""
    before = as_nobody()
    os.mkdir(box.at("folder"), 0o755)
    box.put("config", CONFIG)
    box.wants(NOT_OPENED, "controller", "folder/db", "config", before=before)
    box.wants(NOT_OPENED, "node", "folder/db", "n1", before=before)
    wanted("the folder", os.listdir(box.at("folder")), [])


def log_rights(box):
    """The log has the rights of the file that it belongs to."""
    box.put("config", CONFIG)
    box.put("db", b"")
    os.chmod(box.at("db"), 0o640)
    running = box.start("controller", "db", "config")
    running.asks(*CALLS[0])
    mode = stat.S_IMODE(os.stat(box.at("db-wal")).st_mode)
    running.end()
    wanted("the log's rights", oct(mode), "0o640")


RIGHTS = [
    ("a store that may only be read", 0o444, 0o755, ended(0, out=stores.CONTROLLER_LINE)),
    ("a store that may not be read", 0o000, 0o777, NOT_OPENED),
    ("a folder that may not be entered", 0o666, 0o700, NOT_OPENED),
    ("a folder where no log can be made", 0o666, 0o755, ended(0, out=stores.CONTROLLER_LINE)),
]


def cases():
    for name in PLUGINS:
        parts, line, new_line = STORES[name]
        rows = [
            ("what it replies", replies, name),
            ("each reply at once", at_once, name),
            ("calls byte by byte", in_pieces, name),
            ("a second process", second, name),
            ("a store of version 1", older, name, 1),
            ("a store of version 2", older, name, 2),
            ("a new store", new, name, new_line),
            ("a blank database", blank, name, new_line),
            ("a new file that was cut off", half_made, name, new_line),
            ("a store that SQLite made", found, name, parts, line),
        ]
        yield from of_rows(name, rows)
    yield Case("controller: the worked runs", worked)
    yield Case("controller: the layout of its file", layout)
    yield Case("both: a store of another plugin or node", of_another)
    yield Case("node: one that joins with a session", joined)
    yield from of_rows("node", [(f"a store of an earlier session, version {it}", of_an_earlier_session, it) for it in (1, 2, 3)])
    yield Case("controller: a store in use by SQLite", lambda box: by_sqlite(box, "delete"))
    yield Case("controller: a store in WAL mode in use by SQLite", lambda box: by_sqlite(box, "wal"))
    yield Case("controller: SQLite is locked out", locks_out)
    yield from of_rows("DB", WHERE)
    yield from of_rows("DB", [(name, unopened, *rest) for name, *rest in UNOPENED])
    yield from of_rows("DB", [(name, without_rights, *rest) for name, *rest in RIGHTS])
    yield Case("DB: no rights to make it", new_without_rights)
    yield Case("DB: the rights of its log", log_rights)
