"""`orchestrator` over stores: what it answers to lines, when, and what its store then has."""
import json

from . import stores
from .configs import NODE as SLOTS
from .configs import with_nodes
from .frames import create, number, reply
from .plugins import NOT_OPENED, alone
from .running import ended, of_rows, wanted
from .talks import BLOCK, IGNORED, Talk, about, fault, first, life, line

CONFIG = with_nodes(SLOTS % (b"n1", 4), SLOTS % (b"n2", 4))
MOST = 65_536  # the bytes of the longest line, without its newline
LAST = 2**64 - 1  # the last session


# ---- its store: parts, and the line of its record


def wanted_row(place, name):
    """The row of a volume that is to be created."""
    return stores.known(place, name, stores.CREATE, 1)


def volume_line(**keys):
    return {"at": [], "capabilities": [BLOCK], "exists": "yes", "goal": None, "id": 1, "limit": 0, "name": "v", "required": 10, "tries": 0, **keys}


def record_line(session, *volumes, nodes=("n1", "n2")):
    return line({"nodes": nodes, "plugin": "orchestrator", "session": session, "volumes": list(volumes)})


def at_node(attached, staged, published):
    return [
        {"attached": attached, "capability": BLOCK, "node": "n1", "published": [{"known": published, "target": "/a"}], "readonly": False, "staged": staged}
    ]


# ---- what it answers


def held(box, talk, path="db", told=None, config="config"):
    """A run on the lines of a talk ends well, with its answers."""
    box.wants(ended(0, out=talk.right()), "orchestrator", path, config, given=talk.given(), told=told)


def whole_life(box):
    """Each command and each reply, to the end; then the file alone has what is known, and the next session begins with nothing."""
    box.put("config", CONFIG)
    held(box, life(1))
    told = volume_line(exists="no")
    box.wants(ended(0, out=record_line(1, told)), "record", alone(box, "db"))
    held(box, Talk(2), told="the second session")
    box.wants(ended(0, out=record_line(2)), "record", "db")


def at_once(box):
    """Each answer comes before the next line is sent, and what it tells is committed by then."""
    box.put("config", CONFIG)
    talk = life(1)
    running = box.start("orchestrator", "db", "config")
    for given, right in talk.pairs:
        running.asks(given, right)
        told = box.run("record", "db")
        wanted("record beside it", (told.status, told.error), (0, b""))
        goal = json.loads(right).get("goal")
        volumes = json.loads(told.out)["volumes"]
        wanted("what is wanted by the record", [it["goal"] for it in volumes], [] if given == b"" else [goal])
    wanted("the end", running.end(), ended(0))


def in_pieces(box):
    """Lines that come byte by byte, the last without its newline."""
    box.put("config", CONFIG)
    talk = life(1)
    running = box.start("orchestrator", "db", "config")
    for byte in talk.given()[:-1]:
        running.send(bytes([byte]))
    wanted("the end", running.end(), ended(0, out=talk.right()))


def refusals(box):
    """Commands that are refused or met change nothing; so does a timeout where nothing is wanted."""
    box.put("config", CONFIG)
    talk = Talk(1)
    for given, why in (
        (talk.delete, "2 NoSuchVolume"),
        (talk.timeout, "2 NoSuchVolume"),
        (talk.use, "2 NoSuchVolume"),
    ):
        talk.says(line(given), about("v", None, f"refused {why}"))
    talk.asks(talk.create, talk.create, "CreateVolume")
    for given, why in ((talk.create, "1 NameUsed"), (talk.use, "3 NotCreated"), (talk.delete, "3 NotCreated")):
        talk.says(line(given), about("v", talk.create, f"refused {why}"))
    talk.hears(None)
    talk.says(line(talk.timeout), about("v", None, "refused 13 Idle"))
    elsewhere = {"use": {**talk.use["use"], "node": "n3"}}
    talk.says(line(elsewhere), about("v", None, "refused 5 NoSuchNode"))
    talk.asks(talk.use, talk.use, "ControllerPublishVolume")
    talk.says(line(talk.stop), about("v", talk.use, "refused 4 Busy"))
    talk.hears(talk.use, "NodeStageVolume")
    talk.hears(talk.use, "NodePublishVolume")
    talk.hears(None)
    talk.says(line(talk.use), about("v", None, "met"))
    talk.says(line(talk.delete), about("v", None, "refused 12 InUse"))
    held(box, talk)
    box.wants(ended(0, out=record_line(1, volume_line(at=at_node("yes", "yes", "yes")))), "record", "db")


def failing(box):
    """A use that a plugin refuses is stopped; a stop that is refused waits for a timeout; a creation that is refused isn't wanted any more."""
    box.put("config", CONFIG)
    talk = Talk(1)
    talk.asks(talk.create, talk.create, "CreateVolume")
    talk.hears(None, status=8, detail="volumes")
    talk.makes()
    talk.asks(talk.use, talk.use, "ControllerPublishVolume")
    talk.hears(talk.stop, "ControllerUnpublishVolume", 8, "slots")
    talk.hears(talk.stop, status=10, detail="late")
    talk.asks(talk.timeout, talk.stop, "ControllerUnpublishVolume")
    talk.hears(None)
    held(box, talk)
    box.wants(ended(0, out=record_line(1, volume_line())), "record", "db")


def timeouts(box):
    """A call that times out is sent again, under a new number; after the third, a use is stopped. Late replies are ignored."""
    box.put("config", CONFIG)
    talk = Talk(1)
    talk.makes()
    talk.asks(talk.use, talk.use, "ControllerPublishVolume")
    for _ in range(2):
        talk.asks(talk.timeout, talk.use, "ControllerPublishVolume")
    talk.asks(talk.timeout, talk.stop, "ControllerUnpublishVolume")
    for at in range(1, 6):
        talk.says(line({"reply": reply("ControllerPublishVolume", (1, at)).hex()}), IGNORED)
    for _ in range(4):
        talk.asks(talk.timeout, talk.stop, "ControllerUnpublishVolume")
    held(box, talk)
    told = volume_line(at=at_node("maybe", "no", "no"), goal=talk.stop, tries=3)
    box.wants(ended(0, out=record_line(1, told)), "record", "db")


# ---- sessions


def next_session(box, killed):
    """Opened again, it is in the next session, says what is wanted, gives up its open call, and sends it again where it is told to."""
    box.put("config", CONFIG)
    talk = Talk(1)
    talk.makes()
    talk.asks(talk.use, talk.use, "ControllerPublishVolume")
    running = box.start("orchestrator", "db", "config")
    for given, right in talk.pairs:
        running.asks(given, right)
    wanted("the end", (running.kill() if killed else running.end()).out, b"")
    told = volume_line(at=at_node("maybe", "no", "no"), goal=talk.use, tries=1)
    box.wants(ended(0, out=record_line(1, told)), "record", "db")
    later = Talk(2, wanted=["v"])
    later.says(line({"reply": reply("ControllerPublishVolume", (1, 2)).hex()}), IGNORED)
    later.says(line(later.use), about("v", later.use, "refused 4 Busy"))
    later.asks(later.timeout, later.use, "ControllerPublishVolume")
    later.hears(later.use, "NodeStageVolume")
    later.hears(later.use, "NodePublishVolume")
    later.hears(None)
    later.stops()
    held(box, later)
    box.wants(ended(0, out=record_line(2, volume_line())), "record", "db")
    held(box, Talk(3))


def begun(box):
    """A session that is asked for begins where it is later than the next one; in each what was wanted goes on."""
    box.put("config", CONFIG)
    talk = Talk(1)
    talk.asks(talk.create, talk.create, "CreateVolume")
    held(box, talk)
    before = stores.parts_of(box.at("db"))
    for asked, session in ((0, 2), (1, 2), (2, 2), (3, 3), (1_700_000_000, 1_700_000_000), (LAST, LAST)):
        path = f"{asked}.db"
        stores.make(box.at(path), before)
        later = Talk(session, wanted=["v"])
        later.asks(later.timeout, later.create, "CreateVolume")
        later.hears(None)
        box.wants(ended(0, out=later.right()), "orchestrator", path, "config", str(asked), given=later.given())
        box.wants(ended(0, out=record_line(session, volume_line())), "record", path)
    box.wants(ended(1, "numbers spent"), "orchestrator", f"{LAST}.db", "config", str(LAST))
    box.wants(ended(1, "numbers spent"), "orchestrator", f"{LAST}.db", "config", "1")


def older(box):
    """A reply that says of an open call that it was stale ends it: its line isn't answered, and what stands before is committed. Of a call that isn't open it is
    ignored, and so is a detail that says more."""
    box.put("config", CONFIG)
    talk = Talk(1)
    talk.makes()
    talk.asks(talk.use, talk.use, "ControllerPublishVolume")
    kind = "ControllerPublishVolume"
    for came in (reply(kind, (1, 3), 10, 0, "stale"), reply(kind, (0, 2), 10, 0, "stale"), reply("CreateVolume", (1, 2), 10, 0, "stale")):
        talk.says(line({"reply": came.hex()}), IGNORED)
    stale = line({"reply": reply(kind, (1, 2), 10, 0, "stale").hex()})
    told = record_line(1, volume_line(at=at_node("maybe", "no", "no"), goal=talk.use, tries=1))
    for path, more in (("db", b""), ("more.db", line(talk.timeout) + line(talk.delete))):
        box.wants(ended(1, "older store", talk.right()), "orchestrator", path, "config", given=talk.given() + stale + more)
        box.wants(ended(0, out=told), "record", path)
    running = box.start("orchestrator", "at_once.db", "config")
    for given, right in talk.pairs:
        running.asks(given, right)
    wanted("the end", running.end(stale), ended(1, "older store"))
    later = Talk(2, wanted=["v"])
    later.asks(later.timeout, later.use, kind)
    later.hears(later.stop, "ControllerUnpublishVolume", 10, "stale ")
    later.hears(later.stop, status=9, detail="stale")
    held(box, later)


def in_order(box):
    """The names of which something is wanted are ordered by bytes."""
    box.put("config", CONFIG)
    names = ["b", "a", "\u00e9", "B", "aa", '"\n']
    given = b"".join(line(Talk(1, name).create) for name in names)
    ran = box.run("orchestrator", "db", "config", given=given)
    wanted("the first run", (ran.status, ran.out.count(b'"outcome":"sent"')), (0, len(names)))
    box.wants(ended(0, out=first(2, *names)), "orchestrator", "db", "config")


def last_session(box):
    """In the last session but one it is opened, and then no more; the store stays as it is."""
    box.put("config", CONFIG)
    stores.make(box.at("db"), [stores.orchestrator_head(LAST - 1), wanted_row(1, "v")])
    held(box, Talk(LAST, wanted=["v"]))
    parts = [stores.orchestrator_head(LAST), wanted_row(1, "v")]
    for _ in range(2):
        box.wants(ended(1, "numbers spent"), "orchestrator", "db", "config", given=line({"timeout": "v"}))
        wanted("the parts", stores.parts_of(box.at("db")), parts)


def found(box):
    """A store that SQLite made is opened, with each kind of row; its session is another one, and the deleted volume's row is gone, whose key the next one
    has."""
    box.put("config", CONFIG)
    stores.make(box.at("db"), stores.ORCHESTRATOR)
    box.wants(ended(0, out=stores.ORCHESTRATOR_LINE), "record", "db")
    box.wants(ended(0, out=first(8, "b", "v", "w")), "orchestrator", "db", "config")
    rows = [*stores.ORCHESTRATOR[1:3], (number(3), stores.ORCHESTRATOR[4][1])]
    wanted("the parts", stores.parts_of(box.at("db")), [stores.orchestrator_head(8), *rows])


def parts_as_told(box):
    """The parts are those of docs/RECORDS.md."""
    box.put("config", CONFIG)
    box.run("orchestrator", "db", "config", given=line(Talk(1).create))
    wanted("the parts", stores.parts_of(box.at("db")), [stores.orchestrator_head(1), wanted_row(1, "v")])
    talk = Talk(2, wanted=["v"])
    talk.asks(talk.timeout, talk.create, "CreateVolume")
    talk.hears(None)
    held(box, talk)
    talk = Talk(3)
    talk.asks(talk.use, talk.use, "ControllerPublishVolume")
    held(box, talk)
    row = "03 0176 000000000000000a 0000000000000000 01 00 01 01 0000000000000001 01 02 026e31 022f61 00 01 00 01 01 026e31 00 01 00 02 00 01 022f61 00"
    wanted("the parts", stores.parts_of(box.at("db")), [stores.orchestrator_head(3), (number(1), bytes.fromhex(row))])


def full(box):
    """With 4,096 names no other is taken; all are told again."""
    names = [f"v{at}" for at in range(1, 4097)]
    box.put("config", CONFIG)
    stores.make(box.at("db"), [stores.orchestrator_head(1), *(wanted_row(at, name) for at, name in enumerate(names, 1))])
    for session in (2, 3):
        talk = Talk(session, "w", wanted=names)
        talk.says(line(talk.create), about("w", None, "refused 15 Full"))
        held(box, talk)
    volumes = [volume_line(name=name, id=None, exists="maybe", goal=Talk(1, name).create, tries=1) for name in sorted(names)]
    box.wants(ended(0, out=record_line(3, *volumes)), "record", "db")


# ---- lines that are no request

FRAME = reply("DeleteVolume", (1, 2))
NO_REQUESTS = [  # a line without its newline, and its fault
    (b"", "NotJson"),
    (b" ", "NotJson"),
    (b"{", "NotJson"),
    (b'{"delete":"v"}\0', "NotJson"),
    (b'{"delete":"\xff"}', "NotJson"),
    (b'{"delete":1e999}', "NotJson"),
    (b'{"delete":' + b"[" * 127 + b"]" * 127 + b"}", "NotJson"),
    (b"null", "BadLine"),
    (b'"delete"', "BadLine"),
    (b"[]", "BadLine"),
    (b"{}", "BadLine"),
    (b'{"delete":"v","timeout":"v"}', "BadLine"),
    (b'{"Delete":"v"}', "BadLine"),
    (b'{"delete":""}', "BadLine"),
    (b'{"delete":"%s"}' % (b"v" * 129), "BadLine"),
    (b'{"delete":1}', "BadLine"),
    (b'{"create":{"capabilities":[],"limit":0,"name":"v"}}', "BadLine"),
    (b'{"deliver":1}', "BadLine"),
    (b'{"restart":"orchestrator"}', "BadLine"),
    (b'{"restart_node":"n1"}', "BadLine"),
    (b'{"restart_orchestrator":["n1"]}', "BadLine"),
    (b'{"join":"n1"}', "BadLine"),
    (b'{"lose":""}', "BadLine"),
    (b'{"lose":"%s"}' % (b"n" * 256), "BadLine"),
    (b'{"lose":1}', "BadLine"),
    (b'{"lose":["n1"]}', "BadLine"),
    (b'{"lose":"n1","timeout":"v"}', "BadLine"),
    (b'{"reply":""}', "BadFrame"),
    (b'{"reply":1}', "BadFrame"),
    (b'{"reply":"%s"}' % (b"7f" * 32_762), "BadFrame"),  # as long as a line may be
    (b'{"reply":"%s"}' % FRAME.hex().encode()[:-1], "BadFrame"),
    (b'{"reply":"%s"}' % FRAME.hex().encode()[:-2], "BadFrame"),
    (b'{"reply":"%s00"}' % FRAME.hex().encode(), "BadFrame"),
    (b'{"reply":"%s"}' % (FRAME * 2).hex().encode(), "BadFrame"),
    (b'{"reply":"%s"}' % FRAME.hex().upper().encode(), "BadFrame"),
    (b'{"reply":" %s"}' % FRAME.hex().encode(), "BadFrame"),
    (b'{"reply":"%s"}' % FRAME.hex().encode().replace(b"82", b"92", 1), "BadFrame"),
]


def no_requests(box):
    """Each gets its fault; nothing changes, and the next line is answered."""
    box.put("config", CONFIG)
    talk = Talk(1)
    talk.asks(talk.create, talk.create, "CreateVolume")
    for given, name in NO_REQUESTS:
        talk.says(given + b"\n", fault(name))
    talk.hears(None)
    held(box, talk)
    box.wants(ended(0, out=record_line(1, volume_line())), "record", "db")


def ignored(box):
    """A reply that no open call waits for, or a call, is ignored."""
    box.put("config", CONFIG)
    talk = Talk(1)
    talk.asks(talk.create, talk.create, "CreateVolume")
    others = [
        reply("CreateVolume", (1, 2), 0, 1),
        reply("CreateVolume", (2, 1), 0, 1),
        reply("DeleteVolume", (1, 1)),
        reply("NodeStageVolume", (1, 1)),
        create((1, 1), "v"),
    ]
    for frame in others:
        talk.says(line({"reply": frame.hex()}), IGNORED)
    talk.hears(None)
    held(box, talk)


def padded(given, size):
    """The same line, with blanks up to so many bytes before its newline."""
    return given[:-1].ljust(size) + b"\n"


def long_lines(box):
    """A line of 65,536 bytes is answered; a longer one ends all, after the lines before it."""
    box.put("config", CONFIG)
    talk = life(1)
    given = b"".join(padded(it, MOST) if it else b"" for it, _ in talk.pairs)
    box.wants(ended(0, out=talk.right()), "orchestrator", "db", "config", given=given)
    rows = [
        (1, b"x" * (MOST + 1), b""),
        (2, line({"timeout": "v"}) + padded(b"{}\n", MOST + 1), about("v", None, "refused 2 NoSuchVolume")),
        (3, b"\n\n" + b" " * 10**6, fault("NotJson") * 2),
    ]
    for session, (at, given, right) in enumerate(rows, 2):
        box.wants(ended(1, f"line fault at {at}", first(session) + right), "orchestrator", "db", "config", given=given)
    box.wants(ended(0, out=record_line(4)), "record", "db")


# ---- other slots, and stores of others


def other_slots(box):
    """Another CONFIG over its store, with other slots and another greatest capacity, is the same to it."""
    box.put("config", CONFIG)
    held(box, life(1))
    box.put("other", b'{"greatest":1,"nodes":[{"id":"n1","slots":0},{"id":"n2","slots":9}]}')
    held(box, Talk(2), config="other")


def of_others(box):
    """A plugin's store is refused, and a plugin refuses its store; both stay as they are."""
    box.put("config", CONFIG)
    stores.make(box.at("c.db"), stores.CONTROLLER)
    stores.make(box.at("n.db"), stores.NODE)
    parts = [stores.orchestrator_head(1), wanted_row(1, "v")]
    stores.make(box.at("o.db"), parts)
    told = ended(1, "record fault at 0")
    box.wants(told, "orchestrator", "c.db", "config", given=line({"timeout": "v"}))
    box.wants(told, "orchestrator", "n.db", "config", given=line({"timeout": "v"}))
    box.wants(told, "controller", "o.db", "config", given=create((1, 1), "v"))
    box.wants(told, "node", "o.db", "n1")
    for path, right in (("c.db", stores.CONTROLLER), ("n.db", stores.NODE), ("o.db", parts)):
        wanted(f"the parts of {path}", stores.parts_of(box.at(path)), right)


def in_use(box):
    """A store that it has is in use to all others, and one that a plugin has to it."""
    box.put("config", CONFIG)
    running = box.start("orchestrator", "db", "config")
    running.asks(b"", first(1))
    box.wants(NOT_OPENED, "orchestrator", "db", "config", given=line({"timeout": "v"}))
    box.wants(NOT_OPENED, "controller", "db", "config", given=create((9, 9), "w"))
    wanted("the first", running.end(life(1).given()), ended(0, out=life(1).right(1)))
    running = box.start("controller", "c.db", "config")
    running.asks(create((1, 1), "v"), reply("CreateVolume", (1, 1), 0, 1))
    box.wants(NOT_OPENED, "orchestrator", "c.db", "config", given=line({"timeout": "v"}))
    wanted("the controller", running.end(), ended(0))


ROWS = [
    ("a whole life", whole_life),
    ("each answer at once", at_once),
    ("lines byte by byte", in_pieces),
    ("what it refuses", refusals),
    ("plugins that refuse", failing),
    ("timeouts", timeouts),
    ("the next session", next_session, False),
    ("the next session, after a kill", next_session, True),
    ("a session that is asked for", begun),
    ("a stale reply to an open call", older),
    ("names in order", in_order),
    ("the last session", last_session),
    ("a store that SQLite made", found),
    ("the layout of its parts", parts_as_told),
    ("4,096 names", full),
    ("lines that are no request", no_requests),
    ("frames that are ignored", ignored),
    ("long lines", long_lines),
    ("other slots, another greatest", other_slots),
    ("stores of others", of_others),
    ("a store in use", in_use),
]


def cases():
    yield from of_rows("orchestrator", ROWS)
