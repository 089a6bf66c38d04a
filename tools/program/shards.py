"""A shard in processes that a case drives: an orchestrator, a controller and nodes, each over its store. The case carries their frames, loses, keeps and repeats
them."""
import json
import os
import time

from auditing.clauses import found as violations
from auditing.lines import system_of

from .frames import split
from .running import Wrong, ended, wanted
from .talks import line

WAYS = {  # how the volume of a name can be used
    "v1": [{"access": "block", "mode": 1}],
    "v3": [{"access": "block", "mode": 3}, {"access": "mount", "fs": "", "mode": 5}],
    "v4": [{"access": "mount", "fs": "ext4", "mode": 4}],
    "v5": [{"access": "block", "mode": 5}],
    "v6": [{"access": "block", "mode": 6}],
    "v7": [{"access": "mount", "fs": "xfs", "mode": 7}],
}
NODES, TARGETS = ("n1", "n2", "n3"), ("/a", "/b", "/c")
CONTROLLER, ORCHESTRATOR = "controller", "orchestrator"
MOST = 12  # deliveries that settle a volume
STALE = b"\x0a" + bytes(8) + b"\5stale"  # how the body of such a reply ends


def config_of(nodes, greatest=1000, slots=9):
    return line({"greatest": greatest, "nodes": [{"id": node, "slots": slots} for node in nodes]})


class Shard:
    """`goals`: what is wanted, by name. `calls`: all that were ever sent, with the plugin of each; `under_way`: frames that may come, with whom they go to."""

    def __init__(self, box, drawn, store="o.db"):
        self.box, self.drawn, self.store = box, drawn, store
        self.parts, self.goals, self.calls, self.replies, self.under_way = {}, {}, [], [], []
        self.uses, self.session = [], 0

    # ---- processes

    def stores(self):
        """Each part's store, by its name."""
        return {name: self.store if name == ORCHESTRATOR else f"{name}.db" for name in self.parts}

    def start(self, nodes, config="config", joining=()):
        """Starts all; those that join have a new store, and the orchestrator's session. The answer is its first line."""
        self.parts[ORCHESTRATOR] = self.box.start("orchestrator", self.store, config)
        first = json.loads(self.line())
        self.session = first["session"]
        self.goals = {it["name"]: it["goal"] for it in self.record(ORCHESTRATOR)["volumes"] if it["goal"]}
        self.open(CONTROLLER, "controller", config)
        for node in (*nodes, *joining):
            self.open(node, "node", node, *([str(self.session)] if node in joining else []))
        return first

    def open(self, name, *words):
        """Starts a plugin; one that has no store yet opens it and ends, so that there is one from now on."""
        kind, *others = words
        if not os.path.exists(self.box.at(f"{name}.db")):
            self.box.wants(ended(0), kind, f"{name}.db", *others)
        self.parts[name] = self.box.start(kind, f"{name}.db", *others)

    def end(self, is_killed=False):
        """Ends all, or kills it."""
        for name, running in self.parts.items():
            ran = running.kill() if is_killed else running.end()
            if not is_killed:
                wanted(f"the end of {name}", ran, ended(0))

    def line(self):
        """The orchestrator's next line."""
        line = self.parts[ORCHESTRATOR].process.stdout.readline()
        if not line:
            raise Wrong(f"the orchestrator says nothing more: {self.parts[ORCHESTRATOR].end()}")
        return line

    # ---- what comes to a part

    def tell(self, event):
        """Gives the orchestrator an event: its answer."""
        self.parts[ORCHESTRATOR].send(line(event))
        answer = json.loads(self.line())
        if "name" in answer:
            self.goals[answer["name"]] = answer["goal"]
        if "send" in answer:
            plugin, frame = answer["send"]["plugin"].removeprefix("node:"), bytes.fromhex(answer["send"]["frame"])
            self.calls.append((plugin, frame))
            self.under_way.append((plugin, frame))
        return answer

    def ask(self, plugin, frame):
        """Gives a plugin a call: its reply."""
        self.parts[plugin].send(frame)
        head = self.parts[plugin].take(4)
        reply = head + self.parts[plugin].take(int.from_bytes(head, "big"))
        wanted(f"whether {plugin} answers by a frame", split(reply)[0], [reply])
        return reply

    def deliver(self, to, frame):
        if to == ORCHESTRATOR:
            self.tell({"reply": frame.hex()})
        elif to in self.parts:
            reply = self.ask(to, frame)
            self.replies.append(reply)
            self.under_way.append((ORCHESTRATOR, reply))

    # ---- what happens at random

    def turns(self, count):
        """Commands, deliveries, losses, timeouts and repeats, so many."""
        for _ in range(count):
            self.drawn.choices([self.command, self.come, self.lose, self.time_out, self.repeat], [30, 60, 4, 5, 6])[0]()

    def command(self):
        name, drawn = self.drawn.choice(list(WAYS)), self.drawn
        if drawn.random() < 0.25:
            return self.tell({"create": {"capabilities": WAYS[name], "limit": 0, "name": name, "required": 10}})
        if drawn.random() < 0.07:
            return self.tell({"delete": name})
        if self.uses and drawn.random() < 0.35:
            return self.tell({"stop": drawn.choice(self.uses)})
        where = {"name": name, "node": drawn.choice(NODES), "target": drawn.choice(TARGETS)}
        self.uses.append(where)
        return self.tell({"use": {**where, "capability": drawn.choice(WAYS[name]), "readonly": drawn.random() < 0.3}})

    def come(self):
        """A frame comes, mostly the oldest."""
        if self.under_way:
            at = 0 if self.drawn.random() < 0.8 else self.drawn.randrange(len(self.under_way))
            self.deliver(*self.under_way.pop(at))

    def lose(self):
        if self.under_way:
            self.under_way.pop(self.drawn.randrange(len(self.under_way)))

    def time_out(self):
        if wanting := [name for name, goal in self.goals.items() if goal]:
            self.tell({"timeout": self.drawn.choice(wanting)})

    def repeat(self):
        if self.calls:
            self.deliver(*self.drawn.choice(self.calls[-8:]))

    # ---- what has to hold

    def record(self, name):
        """What a part's store has. It is asked for again where something is committed just then, as by a process that has only been started."""
        for _ in range(40):
            ran = self.box.run("record", self.stores()[name])
            if (ran.status, ran.error) != (3, b"csi-replay: store not opened\n"):
                break
            time.sleep(0.05)
        wanted(f"record of {name}", (ran.status, ran.error), (0, b""))
        return json.loads(ran.out)

    def audit(self, told):
        """The five clauses; of a listed node that isn't there, there is no line."""
        records = {name: self.record(name) for name in self.parts}
        absent = [node for node in records[ORCHESTRATOR]["nodes"] if node not in records]
        system = system_of(((name, json.dumps(it).encode()) for name, it in records.items()), absent)
        wanted(f"{told}: what an audit finds", violations(system), [])
        return records

    def old_frames(self, calls, replies):
        """Calls of before are all stale, and replies of before are all ignored; they change nothing."""
        before = {name: self.record(name) for name in self.parts}
        for plugin, frame in calls:
            if plugin in self.parts:
                reply = self.ask(plugin, frame)
                wanted(f"{plugin} is given {frame.hex()}, and replies {reply.hex()}; so whether that is stale", reply.endswith(STALE), True)
        for frame in replies:
            wanted(f"the orchestrator is given the reply {frame.hex()}", self.tell({"reply": frame.hex()}), {"outcome": "ignored"})
        wanted("the records then", {name: self.record(name) for name in self.parts}, before)

    def settle(self, event):
        """A command or a timeout, of which nothing is wanted any more once all that is sent has come."""
        sent = len(self.calls)
        answer = self.tell(event)
        count = 0
        while self.goals.get(answer["name"]):
            wanted(f"{event}: settled by {MOST} deliveries, {answer}, {self.goals}", sent < len(self.calls) and count < MOST, True)
            reply = self.ask(*self.calls[sent])
            self.tell({"reply": reply.hex()})
            sent, count = sent + 1, count + 2
        return answer["outcome"]

    def empties(self):
        """Each use is stopped, what is left at a lost node by any target, and each volume is deleted."""
        for volume in self.record(ORCHESTRATOR)["volumes"]:
            name = volume["name"]
            for at in volume["at"]:
                for target in [it["target"] for it in at["published"]] or ["/any"]:
                    stop = {"stop": {"name": name, "node": at["node"], "target": target}}
                    wanted(f"the outcome of {stop}", self.settle(stop), "sent")
            if volume["exists"] == "yes":
                wanted(f"the outcome of a delete of {name}", self.settle({"delete": name}), "sent")
        for name, record in self.audit("once all was deleted").items():
            left = [it for it in record["volumes"] if it.get("live") or it.get("staged") or it.get("exists", "no") != "no"]
            wanted(f"what is left in {name}", left, [])
