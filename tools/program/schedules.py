"""`run`, `frames` and `draw` on schedules, and `answer` on frames: the examples, and what is refused."""
import json
import os

from .frames import attach, create, delete, detach, publish, reply, stage
from .running import Case, ended, of_rows, wanted

TOP = os.path.dirname(os.path.dirname(os.path.dirname(os.path.realpath(__file__))))
THREE = ("run", "frames", "draw")
NO_FRAME = (
    b'{"attached":[],"events":[%s],"frames":0,"known":[],"published":[],"safe":true,"session":1,"staged":[],"volumes":[]}\n'
)


def schedule(events=b"", config=b'{"greatest":1000,"nodes":[]}'):
    return b'{"config":%s,"events":[%s]}' % (config, events)


def refused(box, line, given):
    """Each of the three says so, from a file and from a pipe, and gives nothing."""
    box.put("f", given)
    for name in THREE:
        box.wants(ended(1, line), name, "f")
        box.wants(ended(1, line), name, "/dev/stdin", given=given)


def reported(box, out, given):
    box.put("f", given)
    box.wants(ended(0, out=out), "run", "f")
    box.wants(ended(0, out=out), "run", "/dev/stdin", given=given)


EVENT = b'{"deliver":1}'
CREATE = b'{"create":{"capabilities":[{"access":"block","mode":%s}],"limit":%s,"name":"%s","required":10}}'


def bad_event(*lines):
    """Events of which the last alone is refused, at its number from 1."""
    return f"schedule fault 2 at {len(lines)}", schedule(b",".join(lines))


NOT_JSON = "schedule fault 1 at 0"
BAD = "schedule fault 2 at 0"
TOO_MANY = "schedule fault 3 at 0"
REFUSED = [
    ("an empty file", NOT_JSON, b""),
    ("no JSON", NOT_JSON, b"{"),
    ("bytes behind the object", NOT_JSON, schedule() + b"x"),
    ("a number too large", NOT_JSON, schedule(b'{"deliver":1e999}')),
    ("nested 128 deep", NOT_JSON, b"[" * 128 + b"]" * 128),
    ("a list", BAD, b"[]"),
    ("a null", BAD, b"null"),
    ("nested 127 deep", BAD, b"[" * 127 + b"]" * 127),
    ("no events", BAD, b'{"config":{"greatest":1000,"nodes":[]}}'),
    ("no configuration", BAD, b'{"events":[]}'),
    ("a key too many", BAD, b'{"config":{"greatest":1000,"nodes":[]},"events":[],"x":0}'),
    ("events that are no list", BAD, b'{"config":{"greatest":1000,"nodes":[]},"events":{}}'),
    ("a greatest of 0", BAD, schedule(config=b'{"greatest":0,"nodes":[]}')),
    ("a last greatest of 0", BAD, schedule(config=b'{"greatest":1,"greatest":0,"nodes":[]}')),
    ("100,001 events", TOO_MANY, schedule(b",".join([EVENT] * 100_001))),
    ("100,001 events, one of them bad", TOO_MANY, schedule(b",".join([b"0"] + [EVENT] * 100_000))),
    ("a bad first event", *bad_event(b"0")),
    ("a bad third event", *bad_event(EVENT, EVENT, b'{"deliver":-0}')),
    ("an unknown event", *bad_event(b'{"attach":1}')),
    ("two keys in an event", *bad_event(b'{"deliver":1,"timeout":"v"}')),
    ("a number with a point", *bad_event(EVENT, b'{"deliver":1.0}')),
    ("a number with an exponent", *bad_event(EVENT, b'{"deliver":1e2}')),
    ("a number above 2^64", *bad_event(b'{"deliver":18446744073709551616}')),
    ("a mode of 8", *bad_event(CREATE % (b"8", b"0", b"v"))),
    ("no name", *bad_event(CREATE % (b"1", b"0", b""))),
    ("a name of 129 bytes", *bad_event(CREATE % (b"1", b"0", b"v" * 129))),
    ("a restart of nothing", *bad_event(b'{"restart":"node"}')),
    ("a restart with a list that is none", *bad_event(b'{"restart_orchestrator":"n1"}')),
    ("a list with an empty id", *bad_event(EVENT, b'{"restart_orchestrator":["n1",""]}')),
    ("a restart with a bad configuration", *bad_event(b'{"restart_controller":{"greatest":0,"nodes":[]}}')),
    ("an empty id that joins", *bad_event(b'{"join":""}')),
    ("a loss of 256 bytes", *bad_event(b'{"lose":"%s"}' % (b"n" * 256))),
    ("an empty name that is to settle", *bad_event(EVENT, b'{"settle":""}')),
    ("a name of 129 bytes that is to settle", *bad_event(b'{"settle":"%s"}' % (b"v" * 129))),
    ("a recovery without a session", *bad_event(EVENT, b'{"recover":{"given":[],"nodes":[]}}')),
    ("a recovery with a key too many", *bad_event(b'{"recover":{"given":[],"nodes":[],"session":2,"x":0}}')),
    ("a recovery with an empty id", *bad_event(b'{"recover":{"given":[""],"nodes":[],"session":2}}')),
    ("a recovery with a list that is none", *bad_event(b'{"recover":{"given":[],"nodes":{},"session":2}}')),
    ("a recovery, and another key", *bad_event(b'{"recover":{"given":[],"nodes":[],"session":2},"deliver":1}')),
    ("a bad event behind a recovery", *bad_event(b'{"recover":{"given":[],"nodes":[],"session":2}}', EVENT, b'{"recover":2}')),
    ("100,001 events, one of them a recovery", TOO_MANY, schedule(b",".join([b'{"recover":{"given":[],"nodes":[],"session":2}}'] + [EVENT] * 100_000))),
    ("nine capabilities", *bad_event((CREATE % (b"1", b"0", b"v")).replace(b"}]", b'}' + b',{"access":"block","mode":1}' * 8 + b"]"))),
    ("a bad event at the end of 100,000", *bad_event(*[EVENT] * 99_999, b"{}")),
    ("no UTF-8", "not UTF-8", b"\xff"),
    ("no UTF-8 in a name", "not UTF-8", schedule(b'{"delete":"\xc3"}')),
    ("a cut character at the end", "not UTF-8", schedule() + b"\xe2\x82"),
]

SENT = b'{"create":{"capabilities":[{"access":"block","mode":1}],"limit":0,"name":"v","required":10}}'
REPORTED = [
    ("no events", NO_FRAME % b"", schedule()),
    ("a frame that there isn't", NO_FRAME % b'"no such frame"', schedule(b'{"deliver":99}')),
    (
        "nodes that come and go",
        (NO_FRAME % b'"no such node","joined","node there","restarted","lost","no such node","restarted","lost","restarted"').replace(b'"session":1', b'"session":4'),
        schedule(
            b'{"lose":"n1"},{"join":"n1"},{"join":"n1"},{"restart_node":"n1"},{"lose":"n1"},{"lose":"n1"},{"restart_orchestrator":["n1"]},'
            b'{"lose":"n1"},{"restart_controller":{"greatest":1,"nodes":[{"id":"n1","slots":1}]}}'
        ),
    ),
    (
        "volumes that settle, and one that no node answers",
        (
            b'{"attached":[],"events":["settled 0","restarted","restarted","sent 1","settled 3","settled 0","sent 4","not settled 4","lost","settled 3"]'
            b',"frames":9,"known":[{"known":"yes","name":"v","thing":"exists"}],"published":[],"safe":true,"session":3,"staged":[],"volumes":'
            b'[{"capacity":10,"id":1,"name":"v"}]}\n'
        ),
        schedule(
            b'{"settle":"v"},{"restart_controller":{"greatest":1000,"nodes":[{"id":"n1","slots":1}]}},{"restart_orchestrator":["n1"]},'
            + SENT
            + b',{"settle":"v"},{"settle":"v"},{"use":{"capability":{"access":"block","mode":1},"name":"v","node":"n1","readonly":false,"target":"/a"}},'
            b'{"settle":"v"},{"lose":"n1"},{"settle":"v"}'
        ),
    ),
    ("a recovery at first", (NO_FRAME % b'"recovered"').replace(b'"session":1', b'"session":2'), schedule(b'{"recover":{"session":2,"nodes":["n1"],"given":[]}}')),
    ("100,000 events", NO_FRAME % b",".join([b'"no such frame"'] * 100_000), schedule(b",".join([EVENT] * 100_000))),
    ("other keys' order, blanks, a repeated key", NO_FRAME % b"", b' { "events" : [ ] , "config" : [ ] , "config" : {"nodes":[],"greatest":1} } \n'),
    (
        "texts behind backslashes",
        b'{"attached":[],"events":["sent 1"],"frames":1,"known":[{"known":"maybe","name":"\\u0000\\b\\t\\n\\f\\r\\u001f\\"\\\\/\x7f'
        b'\xc3\xa9","thing":"exists"}],"published":[],"safe":true,"session":1,"staged":[],"volumes":[]}\n',
        schedule(SENT.replace(b'"v"', b'"\\u0000\\b\\t\\n\\f\\r\\u001f\\"\\\\\\/\x7f\\u00e9"')),
    ),
]


# ---- nodes, lists and configurations that change: events with their outcomes, and keys of the report


def config(*nodes):
    return {"greatest": 1000, "nodes": [{"id": node, "slots": 1} for node in nodes]}


def delivered(first, last, sent=()):
    """From this frame on to that one, of which the replies are taken, and those here have a call sent: the calls are even or odd, as the first is."""
    for at in range(first, last + 1):
        is_call = (at - first) % 2 == 0
        yield {"deliver": at}, f"answered {at + 1}" if is_call else f"taken, sent {at + 1}" if at in sent else "taken"


MAKES_V = {"create": {"capabilities": [{"access": "block", "mode": 1}], "limit": 0, "name": "v", "required": 10}}


def use(node, target="/a"):
    return {"use": {"capability": {"access": "block", "mode": 1}, "name": "v", "node": node, "readonly": False, "target": target}}


def stop(node, target="/a"):
    return {"stop": {"name": "v", "node": node, "target": target}}


MADE = [(MAKES_V, "sent 1"), *delivered(1, 2)]
USED = [*MADE, (use("n1"), "sent 3"), *delivered(3, 8, (4, 6))]
def recover(session, given, nodes):
    return {"recover": {"given": given, "nodes": nodes, "session": session}}


BOTH = ["n1", "n2"]
AT_N1 = {"id": 1, "mode": 1, "node": "n1", "readonly": False}
MORE = [f"m{at}" for at in range(126)]  # nodes beside n1 and n2
CHANGED = [
    ("a list without a used node", [
        *USED, ({"restart_orchestrator": ["n2"]}, "refused 17 NodeInUse"), ({"restart_orchestrator": []}, "refused 17 NodeInUse"),
        ({"restart_orchestrator": ["n3", "n1"]}, "restarted"), (use("n2"), "refused 5 NoSuchNode"),
    ], {"session": 2, "attached": [AT_N1]}),
    ("a configuration without a used node", [
        *USED, ({"restart_controller": config("n2")}, "restarted"), (stop("n1"), "sent 9"), *delivered(9, 14, (10, 12)),
        (use("n1"), "sent 15"), *delivered(15, 18, (16,)), (use("n2"), "sent 19"), *delivered(19, 20, (20,)),
    ], {"session": 1, "attached": [{**AT_N1, "node": "n2"}]}),
    ("a configuration that keeps what is attached", [*USED, ({"restart_controller": config()}, "restarted")], {"session": 1, "attached": [AT_N1]}),
    ("a lost node, and one of its id that joins", [
        *USED, ({"lose": "n1"}, "lost"), ({"deliver": 7}, "no such node"), (use("n1"), "refused 5 NoSuchNode"), (use("n2"), "refused 7 HeldElsewhere"),
        ({"delete": "v"}, "refused 12 InUse"), ({"restart_node": "n1"}, "no such node"), ({"join": "n1"}, "joined"), ({"join": "n2"}, "node there"),
        ({"deliver": 5}, "answered 9"), ({"deliver": 9}, "ignored"), (stop("n1", "/any"), "sent 10"), *delivered(10, 11),
    ], {"session": 2, "attached": [], "staged": [], "published": [], "known": [{"known": "yes", "name": "v", "thing": "exists"}]}),
    ("a lost node, of which the attachment is left", [*USED, ({"lose": "n1"}, "lost")], {
        "session": 2, "attached": [AT_N1], "staged": [], "published": [],
        "known": [{"known": "yes", "name": "v", "thing": "exists"}, {"known": "yes", "name": "v", "node": "n1", "thing": "attached"}],
    }),
    ("a node that is lost in a use", [
        *MADE, (use("n1"), "sent 3"), ({"deliver": 3}, "answered 4"), ({"lose": "n1"}, "lost"), ({"deliver": 4}, "ignored"),
        (stop("n1"), "refused 4 Busy"), ({"timeout": "v"}, "sent 5"), *delivered(5, 6),
    ], {"session": 2, "attached": [], "known": [{"known": "yes", "name": "v", "thing": "exists"}]}),
    ("a node that is listed, and isn't there", [
        *MADE, ({"restart_controller": config("n9")}, "restarted"), ({"restart_orchestrator": ["n9"]}, "restarted"), (use("n9"), "sent 3"),
        *delivered(3, 4, (4,)), ({"deliver": 5}, "no such node"), ({"lose": "n9"}, "lost"), ({"lose": "n9"}, "no such node"),
        ({"timeout": "v"}, "sent 6"), *delivered(6, 7),
    ], {"session": 3, "attached": []}),
    ("a node that is there, and isn't listed", [
        ({"restart_orchestrator": ["n2"]}, "restarted"), ({"restart_node": "n1"}, "restarted"), ({"lose": "n1"}, "lost"), ({"lose": "n1"}, "no such node"),
    ], {"session": 3}),
    ("more nodes than any list has, all of them lost", [
        *(({"join": node}, "joined") for node in MORE), ({"join": "n2"}, "node there"), ({"restart_orchestrator": MORE[:64]}, "restarted"),
        ({"restart_controller": config(*MORE[62:])}, "restarted"), *(({"lose": node}, "lost") for node in ["n1", "n2", *MORE]),
        ({"lose": "n1"}, "no such node"),
    ], {"session": 1 + 1 + 128}),
    ("a recovery", [
        *USED, (recover(9, BOTH, BOTH), "recovered"), ({"deliver": 7}, "answered 9"), ({"deliver": 9}, "ignored"), (use("n1"), "met"),
        (stop("n1"), "sent 10"), *delivered(10, 15, (11, 13)),
    ], {"session": 9, "attached": [], "staged": [], "published": [], "known": [{"known": "yes", "name": "v", "thing": "exists"}]}),
    ("a recovery of which a node isn't given", [
        *USED, (recover(9, ["n2"], ["n2"]), "recovered"), ({"deliver": 7}, "no such node"), (use("n2"), "refused 7 HeldElsewhere"),
        (stop("n1", "/any"), "sent 9"), *delivered(9, 10), (use("n2"), "sent 11"), *delivered(11, 16, (12, 14)), ({"join": "n1"}, "joined"),
    ], {"session": 9, "attached": [{**AT_N1, "node": "n2"}]}),
    ("a recovery with a node that isn't there", [
        *USED, (recover(9, ["n9", "n1"], ["n1", "n9"]), "recovered"), ({"restart_node": "n2"}, "no such node"), ({"restart_node": "n9"}, "no such node"),
        ({"restart_node": "n1"}, "restarted"), ({"restart": "orchestrator"}, "restarted"), (use("n1"), "met"),
    ], {"session": 10, "attached": [AT_N1]}),
    ("a recovery in a session that isn't later than the lost one's", [
        *USED, (recover(0, BOTH, BOTH), "not recovered NotLater"), (recover(1, BOTH, BOTH), "not recovered NotLater"),
        ({"restart": "orchestrator"}, "restarted"), (recover(2, BOTH, BOTH), "not recovered NotLater"), ({"deliver": 7}, "answered 9"), (use("n1"), "met"),
        (recover(3, BOTH, BOTH), "recovered"),
    ], {"session": 3, "attached": [AT_N1]}),
    ("a recovery whose list leaves out a node with something staged", [
        *USED, (recover(9, BOTH, ["n2"]), "not recovered BadRow"), (recover(9, BOTH, []), "not recovered BadRow"), (use("n1"), "met"),
        (recover(9, ["n2"], []), "recovered"), (use("n2"), "refused 5 NoSuchNode"),
    ], {"session": 9, "attached": [AT_N1], "staged": []}),
    ("a recovery whose list isn't one", [
        *USED, (recover(9, BOTH, ["n1", "n2", "n1"]), "not recovered BadNodes"), (recover(9, BOTH, [*BOTH, *MORE[:63]]), "not recovered BadNodes"),
        (recover(9, BOTH, [*BOTH, *MORE[:62]]), "recovered"),
    ], {"session": 9, "attached": [AT_N1]}),
    ("a recovery of a use that was cut short", [
        *MADE, (use("n1"), "sent 3"), *delivered(3, 4, (4,)), ({"deliver": 5}, "answered 6"), (recover(9, BOTH, BOTH), "recovered"), ({"deliver": 6}, "ignored"),
        (use("n2"), "refused 4 Busy"), ({"settle": "v"}, "settled 5"), ({"deliver": 5}, "answered 11"), (use("n2"), "sent 12"), *delivered(12, 17, (13, 15)),
    ], {"session": 9, "attached": [{**AT_N1, "node": "n2"}], "frames": 17}),
    ("two recoveries", [
        *USED, (recover(9, BOTH, BOTH), "recovered"), (stop("n1"), "sent 9"), ({"deliver": 9}, "answered 10"), (recover(9, BOTH, BOTH), "not recovered NotLater"),
        (recover(12, ["n1"], ["n1"]), "recovered"), ({"deliver": 10}, "ignored"), ({"settle": "v"}, "settled 5"), ({"deliver": 9}, "answered 15"),
        ({"deliver": 15}, "ignored"), ({"deliver": 7}, "answered 16"),
    ], {"session": 12, "attached": [], "frames": 16}),
    ("a name that is free again", [
        *MADE, ({"delete": "v"}, "sent 3"), *delivered(3, 4), (MAKES_V, "refused 1 NameUsed"), ({"restart": "orchestrator"}, "restarted"),
        ({"delete": "v"}, "refused 2 NoSuchVolume"), (MAKES_V, "sent 5"), ({"deliver": 1}, "answered 6"), ({"deliver": 6}, "ignored"),
        ({"deliver": 5}, "answered 7"), ({"deliver": 7}, "taken"), ({"deliver": 3}, "answered 8"),
    ], {"session": 2, "volumes": [{"capacity": 10, "id": 2, "name": "v"}]}),
    ("a name that is free again after a loss", [
        *MADE, ({"delete": "v"}, "sent 3"), *delivered(3, 4), ({"lose": "n2"}, "lost"), (MAKES_V, "sent 5"), *delivered(5, 6),
    ], {"session": 2, "volumes": [{"capacity": 10, "id": 2, "name": "v"}]}),
]


def changed(box, events, keys):
    """A schedule over the nodes n1 and n2: the outcome of each event, and what the report has at the end."""
    box.put("f", json.dumps({"config": config("n1", "n2"), "events": [event for event, _ in events]}).encode())
    ran = box.run("run", "f")
    wanted("how it ends", (ran.status, ran.error), (0, b""))
    report = json.loads(ran.out)
    wanted("the outcomes", report["events"], [outcome for _, outcome in events])
    wanted("the report", {"safe": True, **{key: report[key] for key in keys}}, {"safe": report["safe"], **keys})


def settled_often(box):
    """As many events as a schedule may have, half of which settle: a call that was sent isn't answered, and is sent again by the timeout."""
    told, sent, rounds = [(MAKES_V, "sent 1"), ({"settle": "v"}, "settled 3")], 3, 24_999
    for _ in range(rounds):
        for command in (use("n1"), stop("n1")):
            told += [(command, f"sent {sent + 1}"), ({"settle": "v"}, "settled 7")]
            sent += 7
    told += [({"settle": "v"}, "settled 0")] * 2
    wanted("how many events", len(told), 100_000)
    changed(box, told, {"session": 1, "frames": sent, "attached": []})
    drawn = box.run("draw", "f")
    head = f"{1 + 3 + rounds * 2 * (1 + 7)} events, {sent} frames".encode()
    wanted("how the picture ends, and what it counts", (drawn.status, drawn.error, head in drawn.out[:10_000]), (0, b"", True))


def frames_of(box):
    """The frames that a schedule sends, as bytes: the orchestrator's calls and what they are answered."""
    use = b'{"use":{"capability":{"access":"block","mode":1},"name":"v","node":"n1","readonly":false,"target":"/a"}}'
    events = [SENT, b'{"deliver":1}', b'{"deliver":2}', use, b'{"deliver":3}', b'{"deliver":4}', b'{"deliver":5}', b'{"deliver":6}']
    events += [b'{"deliver":7}', b'{"deliver":8}', b'{"restart_node":"n2"}']
    right = [
        *(create((1, 1), "v"), reply("CreateVolume", (1, 1), 0, 1)),
        *(attach((1, 2), 1, "n1"), reply("ControllerPublishVolume", (1, 2))),
        *(stage((1, 3), 1), reply("NodeStageVolume", (1, 3))),
        *(publish((1, 4), 1, "/a"), reply("NodePublishVolume", (1, 4))),
    ]
    box.put("f", schedule(b",".join(events), b'{"greatest":1000,"nodes":[{"id":"n1","slots":1}]}'))
    box.wants(ended(0, out=b"".join(right)), "frames", "f")


def examples(box):
    """Each schedule of examples/ has the report beside it, and the pictures of the README are drawn."""
    folder = f"{TOP}/examples"
    names = sorted(name for name in os.listdir(folder) if name.endswith(".json"))
    wanted("how many schedules examples/ has", len(names) > 7, True)
    for name in names:
        with open(f"{folder}/{name[:-5]}.report", "rb") as file:
            box.wants(ended(0, out=file.read()), "run", f"{folder}/{name}")
    for name in ("late_detach", "lost_node", "recovered", "settled"):
        with open(f"{TOP}/docs/{name}.svg", "rb") as file:
            box.wants(ended(0, out=file.read()), "draw", f"{folder}/{name}.json")


def answered(box):
    """A new controller without nodes, that makes volumes of any size."""
    frames = [
        (create((1, 1), "v"), reply("CreateVolume", (1, 1), 0, 1)),
        (create((1, 2), "w", 2**63 - 1), reply("CreateVolume", (1, 2), 0, 2)),
        (create((1, 3), "x", 2**63), reply("CreateVolume", (1, 3), 3, 0, "capacity")),
        (attach((1, 4), 1, "n1"), reply("ControllerPublishVolume", (1, 4), 5, 0, "node")),
        (create((1, 2), "w"), reply("CreateVolume", (1, 2), 0, 2)),
        (stage((1, 5), 1), b""),
        (reply("DeleteVolume", (9, 9)), b""),
        (create((1, 1), "v"), reply("CreateVolume", (1, 1), 10, 0, "stale")),
        (detach((1, 5), 1, "n1"), reply("ControllerUnpublishVolume", (1, 5))),
        (delete((2, 1), 1), reply("DeleteVolume", (2, 1))),
        (create((1, 9), "v"), reply("CreateVolume", (1, 9), 10, 0, "stale")),
        (create((2, 2), "v"), reply("CreateVolume", (2, 2), 6, 0, "name")),
        (create((3, 1), "v"), reply("CreateVolume", (3, 1), 0, 3)),
    ]
    given, right = (b"".join(side) for side in zip(*frames))
    box.put("f", given)
    box.wants(ended(0, out=right), "answer", "f")
    box.wants(ended(0, out=right), "answer", "/dev/stdin", given=given)


def nothing(box):
    """An empty file has no frames."""
    box.put("f", b"")
    for name in ("answer", "show"):
        box.wants(ended(0), name, "f")


def cases():
    rows = [(f"refused: {name}", refused, *rest) for name, *rest in REFUSED]
    rows += [(f"reported: {name}", reported, *rest) for name, *rest in REPORTED]
    rows += [(f"changes: {name}", changed, *rest) for name, *rest in CHANGED]
    yield from of_rows("schedules", rows)
    yield Case("schedules: 100,000 events that settle", settled_often)
    yield Case("schedules: the frames of one", frames_of)
    yield Case("schedules: the examples", examples)
    yield Case("answer: a new controller", answered)
    yield Case("answer and show: an empty file", nothing)
