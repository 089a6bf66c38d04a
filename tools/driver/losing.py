"""Nodes that join, are left out and are lost, by the orchestrator's host: their drivers are killed for good, and others join with a new store."""
import json
import os
import random
import signal
import time

from program import stores
from program.running import wanted

from .box import put_to_sleep
from .hosting import BLOCK, LIBRARY, PROGRAM, Host, audited, state
from .requests import publish, stage, unstage

SHORT = 5  # seconds, well below a deadline


def listed(box, *nodes):
    """The configuration of controller and orchestrator from now on."""
    box.put("config", json.dumps({"greatest": 1 << 40, "nodes": [{"id": node, "slots": 64} for node in nodes]}))


def create(name):
    return {"create": {"capabilities": [BLOCK], "limit": 0, "name": name, "required": 10}}


def use(name, node, target="/t"):
    return {"use": {"capability": BLOCK, "name": name, "node": node, "readonly": False, "target": target}}


def stop(name, node, target="/t"):
    return {"stop": {"name": name, "node": node, "target": target}}


def said(host, line):
    """A line that is answered at once, with nothing else under way: its outcome."""
    return host.say(json.dumps(line).encode()).get("outcome")


def loses(host, node, session):
    host.send(json.dumps({"lose": node}).encode())
    told = {"node": node, "outcome": "lost", "session": session}
    host.comes(f"the loss of {node}", lambda: told in host.lines)


def at_rest(host, *names, within=SHORT):
    host.comes(f"nothing is wanted of {names}", lambda: all(host.goals[name] is None for name in names), within)


def lost(over):
    def body(box):
        """A node dies with a volume; once it is lost, the volume is detached and used elsewhere; one of its id joins, to which late calls are stale."""
        listed(box, "n1", "n2")
        box.controller(), box.node(node="n2")
        node = box.node()
        host = Host(box, over, nodes=("n1", "n2"))
        host.ask("v", create("v"))
        host.ask("v", use("v", "n1"))
        node.kill()
        wanted("before it is lost", said(host, use("v", "n2")), "refused 7 HeldElsewhere")
        loses(host, "n1", 2)
        wanted("detached it is not", said(host, use("v", "n2")), "refused 7 HeldElsewhere")
        wanted("it is not listed", said(host, use("v", "n1")), "refused 5 NoSuchNode")
        wanted("nor given up", said(host, {"delete": "v"}), "refused 12 InUse")
        host.ask("v", stop("v", "n1", "/any"))
        host.ask("v", use("v", "n2"))
        host.end()
        wanted("the volume", state(audited(box, ("n2",))), [("v", "yes", 1, None)])
        wanted("where", [it["node"] for it in box.record("controller.db")["volumes"][0]["attached"]], ["n2"])
        comes_again(box, over)

    return body


def comes_again(box, over):
    """The lost node's store is refused; a new one finds late calls stale, and serves the sessions that come."""
    old = box.node(session=2, serves=False)
    wanted("the lost node's store", (old.close(), old.said), (1, b"csi-driver: store of an earlier session\n"))
    for name in ("n1.db", "n1.db.driver", "n1.db.beside"):
        os.remove(box.at(name))
    new = box.node(session=2)
    for late in (("NodePublishVolume", publish(1, "/t"), (1, 4)), ("NodeStageVolume", stage(1), (1, 3)), ("NodeUnstageVolume", unstage(1), (1, 9))):
        new.wants((10, "stale"), *late)
    host = Host(box, over, nodes=("n1", "n2"))
    host.ask("w", create("w"))
    host.ask("w", use("w", "n1"))
    host.end()
    wanted("the volumes", state(audited(box, ("n1", "n2"))), [("v", "yes", 1, None), ("w", "yes", 1, None)])
    wanted("the sessions", (box.record("orchestrator.db")["session"], box.record("n1.db")["session"]), (3, 3))


def under_way(over):
    def body(box):
        """A node is lost while calls are under way, to it and to others: they are given up at once, and what is wanted goes on."""
        listed(box, "n1", "n2")
        box.controller()
        node, other = box.node(), box.node(node="n2")
        host = Host(box, over, 60.0, ("n1", "n2"))
        for name in ("v", "w", "x", "y"):
            host.ask(name, create(name))
        host.ask("y", use("y", "n1", "/y"))
        put_to_sleep(node.process)
        put_to_sleep(other.process)
        for command in (use("v", "n1"), use("w", "n2"), stop("y", "n1", "/y")):
            host.send(json.dumps(command).encode())
        wait = [("v", "NodeStageVolume"), ("w", "NodeStageVolume"), ("y", "NodeUnpublishVolume")]
        host.comes("they are under way", lambda: all(any(it.get("name") == name and it.get("send", {}).get("kind") == kind for it in host.lines) for name, kind in wait))
        node.kill()
        loses(host, "n1", 2)
        at_rest(host, "v", "y")
        other.process.send_signal(signal.SIGCONT)
        at_rest(host, "w")
        host.ask("v", use("v", "n2", "/v"))
        host.ask("y", {"delete": "y"})
        since = time.monotonic()
        host.end()
        wanted("it ends at once", time.monotonic() - since < SHORT, True)
        there = [("v", "yes", 1, None), ("w", "yes", 1, None), ("x", "yes", 0, None), ("y", "no", 0, None)]
        wanted("the volumes", state(audited(box, ("n2",))), there)

    return body


def joins(over):
    def body(box):
        """A node joins by the next start; one that is left out while it is used is refused, and nothing is changed."""
        listed(box, "n1")
        controller, _ = box.controller(), box.node()
        host = Host(box, over)
        host.ask("v", create("v"))
        wanted("a node that isn't listed", said(host, use("v", "n2")), "refused 5 NoSuchNode")
        host.end()
        listed(box, "n2", "n1")
        controller.stop()
        controller = box.controller()
        box.node(node="n2")
        host = Host(box, over, nodes=("n1", "n2"))
        host.ask("v", use("v", "n2"))
        host.end()
        audited(box, ("n1", "n2"))
        listed(box, "n1")
        before = stores.parts_of(box.at("orchestrator.db"))
        program = "csi-replay: node in use\ncsi-host: the orchestrator: EOF\n"
        Host(box, over, nodes=("n1", "n2")).end((3, program.encode()) if over == PROGRAM else (1, b"csi-host: node in use\n"))
        wanted("the store", stores.parts_of(box.at("orchestrator.db")), before)
        listed(box, "n1", "n2")
        host = Host(box, over, nodes=("n1", "n2"))
        host.ask("v", stop("v", "n2"))
        host.end()
        listed(box, "n1")
        host = Host(box, over)
        wanted("the session", host.lines[0] if host.lines else host.say(b"{}") and host.lines[0], {"session": 4, "wanted": []})
        host.ask("v", use("v", "n1"))
        host.end()
        wanted("the volume", state(audited(box)), [("v", "yes", 1, None)])

    return body


def forgets(over):
    def body(box):
        """Names of deleted volumes are free after a start and after a loss; what stands behind them in the record is found still."""
        listed(box, "n1")
        box.controller(), box.node()
        host = Host(box, over)
        for name in ("a", "b", "c", "d"):
            host.ask(name, create(name))
        for name in ("a", "c"):
            host.ask(name, {"delete": name})
        wanted("within the session", said(host, create("a")), "refused 1 NameUsed")
        host.end()
        host = Host(box, over)
        host.ask("d", use("d", "n1", "/d"))
        wanted("a forgotten name", said(host, {"delete": "c"}), "refused 2 NoSuchVolume")
        host.ask("a", create("a"))
        host.ask("b", {"delete": "b"})
        loses(host, "n9", 3)
        wanted("a forgotten name", said(host, {"delete": "b"}), "refused 2 NoSuchVolume")
        host.ask("d", stop("d", "n1", "/d"))
        host.ask("b", create("b"))
        host.end()
        volumes = [(it["name"], it["id"]) for it in audited(box)]
        wanted("the names and ids", volumes, [("a", 5), ("b", 6), ("d", 4)])

    return body


class Turns:
    """Volumes that are used at three nodes, of which one dies for good in each turn, while calls are under way."""

    NODES = ("n1", "n2", "n3")

    def __init__(self, box, seed):
        self.box, self.drawn, self.sessions, self.made, self.losses, self.lines = box, random.Random(seed), dict.fromkeys(self.NODES, 0), 0, 0, 0

    def commands(self):
        """New volumes, each used at some node, and some of the older ones used, stopped or deleted."""
        for _ in range(4):
            self.made += 1
            name = f"v{self.made}"
            yield create(name)
            yield use(name, self.drawn.choice(self.NODES))
        for _ in range(12):
            name, node = f"v{self.drawn.randint(1, self.made)}", self.drawn.choice(self.NODES)
            yield self.drawn.choice([use(name, node), stop(name, node), stop(name, node), {"delete": name}])

    def turn(self, over):
        box = self.box
        drivers = {node: box.node(node=node, session=self.sessions[node]) for node in self.NODES}
        controller = box.controller()
        host = Host(box, over, 0.5, self.NODES)
        for command in self.commands():
            host.send(json.dumps(command).encode())
            time.sleep(self.drawn.random() * 0.02)
        dead = self.drawn.choice(self.NODES)
        drivers.pop(dead).kill()
        time.sleep(self.drawn.random() * 0.3)
        host.send(json.dumps({"lose": dead}).encode())
        host.comes(f"the loss of {dead}", lambda: any(it.get("outcome") == "lost" for it in host.lines))
        for command in self.commands():
            host.send(json.dumps(command).encode())
        time.sleep(self.drawn.random() * 0.3)
        if self.drawn.random() < 0.5:
            host.kill()
        else:
            host.end()
        self.lines += len(host.lines)
        for it in (controller, *drivers.values()):
            it.kill()
        audited(box, tuple(drivers))
        for name in (f"{dead}.db{more}" for more in ("", "-wal", "-shm", ".driver", ".driver-wal", ".driver-shm", ".beside", ".beside-wal", ".beside-shm")):
            if os.path.exists(box.at(name)):
                os.remove(box.at(name))
        self.sessions[dead] = box.record("orchestrator.db")["session"]
        self.losses += 1


def by_turns(turns, seed):
    def body(box):
        """In the end, all nodes joined again, what is wanted is done."""
        listed(box, *Turns.NODES)
        played = Turns(box, seed)
        for turn in range(turns):
            played.turn((LIBRARY, PROGRAM)[turn % 2])
        box.controller()
        for node in Turns.NODES:
            box.node(node=node, session=played.sessions[node])
        host = Host(box, LIBRARY, nodes=Turns.NODES)
        host.end()
        wanted("what is wanted still", [it["goal"] for it in audited(box, Turns.NODES) if it["goal"]], [])
        return f"{played.losses} losses, {played.made} volumes, {played.lines} lines"

    return body


def cases(drawn, seed):
    for over in (LIBRARY, PROGRAM):
        yield f"losing: a node that dies with a volume, over {over}", lost(over)
        yield f"losing: calls under way, over {over}", under_way(over)
        yield f"losing: nodes that join, over {over}", joins(over)
        yield f"losing: names that are free again, over {over}", forgets(over)
    yield "losing: by turns", by_turns(20 if drawn > 1000 else 2, seed)
