"""An orchestrator that lost its store: `csi-driver recover` makes a new one of what the plugins' stores have, and the host goes on over it."""
import json
import os
import subprocess

from program import stores
from program.frames import block
from program.running import LIMIT, LeftOut, wanted

from .hosting import LIBRARY, PROGRAM, Host, audited, state
from .losing import create, listed, said, stop, use
from .requests import attach, detach, stage
from .requests import create as request
from .servers import over as over_etcd

ABOVE = 1 << 20


def recover(box, *words):
    ran = subprocess.run([f"{box.built}/csi-driver", "recover", *words], capture_output=True, timeout=LIMIT, check=False)
    return ran.returncode, ran.stdout, ran.stderr


def told(session, volumes, lost=(), names=()):
    return (json.dumps({"lost": list(lost), "session": session, "volumes": volumes, "wanted": list(names)}, separators=(",", ":")) + "\n").encode()


def recovered(over):
    def body(box):
        """A host's store is gone, and a node too; the new one is made of the others', and the host goes on; what the lost one sent is stale."""
        listed(box, "n1", "n2")
        drivers = box.controller(), box.node(), box.node(node="n2")
        host = Host(box, over, nodes=("n1", "n2"))
        for name in ("v", "w", "x"):
            host.ask(name, create(name))
        host.ask("v", use("v", "n1"))
        host.ask("w", use("w", "n2"))
        host.end()
        for driver in drivers:
            wanted("a driver's end", driver.stop(), 0)
        os.remove(box.at("orchestrator.db"))
        listed(box, "n1")
        words = [box.at("orchestrator.db"), box.at("config"), "0", box.at("controller.db"), box.at("n1.db")]
        wanted("the recovery", recover(box, *words), (0, told(ABOVE + 1, 3, ["n2"]), b""))
        wanted("once more", recover(box, *words), (1, b"", b"csi-driver: store not new\n"))
        wanted("the sessions", [box.record(it)["session"] for it in ("controller.db", "n1.db", "orchestrator.db")], [ABOVE + 1, ABOVE + 1, ABOVE + 2])
        controller, node = box.controller(), box.node()
        controller.wants((10, "stale"), "ControllerPublishVolume", attach(3), (1, 99))
        node.wants((10, "stale"), "NodeStageVolume", stage(3), (1, 99))
        host = Host(box, over)
        host.comes("its session", lambda: bool(host.lines))
        wanted("at the lost node", said(host, use("v", "n2", "/u")), "refused 5 NoSuchNode")
        wanted("a lost node's", said(host, use("w", "n1")), "refused 7 HeldElsewhere")
        host.ask("w", stop("w", "n2", "/any"))
        host.ask("w", use("w", "n1"))
        host.ask("x", {"delete": "x"})
        host.ask("v", stop("v", "n1"))
        host.end()
        wanted("the volumes", state(audited(box)), [("v", "yes", 0, None), ("w", "yes", 1, None), ("x", "no", 0, None)])

    return body


# ---- what is refused, and what is told of stores that are written here

V = stores.volume(1, "v", stores.kept("ControllerPublishVolume", (1, 3)), held=[("n1", block(1), False)])
W = stores.volume(2, "w", stores.kept("ControllerPublishVolume", (1, 5)), held=[("n2", block(1), False)])
STAGED = stores.staged(1, block(1), stores.kept("NodePublishVolume", (1, 5)), [("/a", False)])
CUT = stores.staged(1, block(1), stores.kept("NodeStageVolume", (1, 4)))
ELSEWHERE = stores.staged(2, block(1), stores.kept("NodeStageVolume", (1, 4)))
OLDER = [stores.node_head("n1", 1, 2), stores.staged(1, block(1), stores.kept("NodePublishVolume", (1, 5)), [("/a", False)], version=2)]
FILES = {
    "controller": [stores.controller_head(3, 1), V, W],
    "other": [stores.controller_head(3, 1), V, W],
    "n1": [stores.node_head("n1", 1), STAGED],
    "older": OLDER,
    "cut": [stores.node_head("n1", 1), CUT],
    "disagrees": [stores.node_head("n1", 1), ELSEWHERE],
    "n2": [stores.node_head("n2", 9)],
    "damaged": [stores.node_head("n2", 1), (STAGED[0], STAGED[1][:-1])],
    "last": [stores.node_head("n2", (1 << 64) - 1 - ABOVE)],
    "used": [stores.node_head("n2", 1), stores.staged(2, block(1), stores.kept("NodePublishVolume", (1, 6)), [("/b", False)])],
}
CONFIG = json.dumps({"greatest": 100, "nodes": [{"id": "n1", "slots": 9}]})

# CONFIG, SESSION, the stores, and what comes: the line, or a status and what it says.
CASES = [
    (CONFIG, "0", ["controller", "n1", "n2"], told(ABOVE + 9, 2)),
    (CONFIG, "77", ["controller", "n1"], told(ABOVE + 77, 2, ["n2"])),
    (CONFIG, "0", ["controller"], told(ABOVE + 1, 2, ["n1", "n2"])),
    (CONFIG, "0", ["controller", "older"], told(ABOVE + 1, 2, ["n2"])),
    (CONFIG, "0", ["controller", "cut", "n2"], told(ABOVE + 9, 2, (), ["v"])),
    (CONFIG, "0", ["controller", "n2", "disagrees"], (1, "stores disagree, store 3")),
    (CONFIG, "0", ["controller", "n1", "n2", "older"], (1, "stores disagree, store 4")),
    (CONFIG, "0", ["controller", "n1", "damaged"], (1, "record fault, store 3")),
    (CONFIG, "0", ["n1", "n2"], (1, "record fault, store 1")),
    (CONFIG, "0", ["controller", "other"], (1, "record fault, store 2")),
    (CONFIG, "0", ["controller", "n1", "used"], (1, "node in use")),
    (CONFIG, "0", ["controller", "n1", "last"], (1, "numbers spent")),
    (CONFIG, str((1 << 64) - 1), ["controller", "n1"], (1, "numbers spent")),
    ("{}", "0", ["controller", "n1"], (1, "config refused")),
    (CONFIG, "00", ["controller", "n1"], (2, "usage")),
    (CONFIG, "-1", ["controller", "n1"], (2, "usage")),
    (CONFIG, "0", [], (2, "usage")),
    (CONFIG, "0", ["controller", "missing"], (3, "store not opened")),
    (CONFIG, "0", ["controller", "n1", "n1"], (3, "store not opened")),  # which is open already
]


def written(box, names):
    """The stores of these names, each in a file, and what is in them."""
    for name in names:
        for file in (box.at(f"{name}.db"), box.at(f"{name}.db.beside")):
            if os.path.exists(file):
                os.remove(file)
        if name in FILES:
            stores.make(box.at(f"{name}.db"), FILES[name])
    return {name: stores.parts_of(box.at(f"{name}.db")) for name in names if os.path.exists(box.at(f"{name}.db"))}


def tells(box, case, run):
    """Runs a case by a program: what came of it, without what may stand behind a second colon or of where in a record, and the stores."""
    config, session, names, right = case
    box.put("config", config)
    before = written(box, names)
    if os.path.exists(box.at("new.db")):
        os.remove(box.at("new.db"))
    status, out, error = run(box.at("new.db"), box.at("config"), session, *(box.at(f"{name}.db") for name in names))
    after = {name: stores.parts_of(box.at(f"{name}.db")) for name in before}
    if isinstance(right, bytes):
        wanted(f"of {names}", (status, out, error), (0, right, b""))
    else:
        said_of = error.decode().split(": ")[1].strip().replace(" at 0,", ",").replace(" at 1,", ",") if error else ""
        wanted(f"of {names}", (status, out, said_of), (right[0], b"", right[1]))
        wanted(f"of {names}, the stores", after, before)
    return after


def lines(box):
    """What is told, and what is refused: then nothing is changed."""
    for case in CASES:
        tells(box, case, lambda *words: recover(box, *words))
    return f"{len(CASES)} recoveries"


def beside(box):
    """The same by csi-replay: the same lines and statuses, and the same of the plugins' stores; the new store is one session behind."""
    if b"recover" not in box.replay("--help")[1]:
        raise LeftOut("csi-replay has no such command")
    for case in CASES:
        both = [tells(box, case, run) for run in (lambda *words: recover(box, *words), lambda *words: box.replay("recover", *words))]
        wanted(f"of {case[2]}, the stores", both[0], both[1])


@over_etcd(1)
def etcd(box, cluster):
    """The controller's store is in etcd, and the new one too: it waits to lead, and each is changed under that condition."""
    driver = cluster.driver("controller")
    driver.wants(0, "CreateVolume", request("v"), (1, 1))
    driver.wants(0, "ControllerPublishVolume", attach(1), (1, 2))
    wanted("its end", driver.stop(), 0)
    words = ["--etcd", ",".join(cluster.clients), "--prefix", "/t", "--lease-seconds", "2"]
    waits = b"csi-driver: waits to lead /t\n"
    wanted("into a file", recover(box, *words, box.at("new.db"), box.at("config"), "0"), (0, told(ABOVE + 1, 1, ["n1"]), waits))
    into = ["--new-prefix", "/new", box.at("config"), "0"]
    both = b"csi-driver: waits to lead /new\n" + waits
    wanted("into etcd", recover(box, *words, *into), (0, told(2 * ABOVE + 1, 1, ["n1"]), both))
    wanted("once more", recover(box, *words, *into), (1, b"", both + b"csi-driver: store not new\n"))
    wanted("the controller's head", cluster.parts()[0], (b"\0" * 8, stores.controller_head(2, 2 * ABOVE + 1)[1]))
    driver = cluster.driver("again")
    driver.wants((10, "stale"), "ControllerUnpublishVolume", detach(1), (1, 3))


def cases(_drawn, _seed):
    yield "recovery: lines", lines
    yield "recovery: beside csi-replay", beside
    for over in (LIBRARY, PROGRAM):
        yield f"recovery: a host over {over}", recovered(over)
    yield "recovery: etcd", etcd
