"""Lines to an orchestrator and from it, written from docs/LINES.md alone: a talk is what is said to it in one session, and what it says."""
import json

from .frames import attach, create, delete, detach, publish, reply, stage, unpublish, unstage

BLOCK = {"access": "block", "mode": 1}
NODE, TARGET = "n1", "/a"
CONTROLLERS = ("CreateVolume", "DeleteVolume", "ControllerPublishVolume", "ControllerUnpublishVolume")


def line(value):
    """A value of JSON as a report has it, and a newline."""
    return json.dumps(value, sort_keys=True, separators=(",", ":"), ensure_ascii=False).encode() + b"\n"


def first(session, *wanted):
    """The first line out: the session, and the names of which something is wanted."""
    return line({"session": session, "wanted": sorted(wanted, key=str.encode)})


def about(name, goal, outcome, send=None):
    """An answer about a volume."""
    return line({"goal": goal, "name": name, "outcome": outcome, **({"send": send} if send else {})})


IGNORED = line({"outcome": "ignored"})


def fault(name):
    return line({"fault": name})


class Talk:
    """A talk about one volume, to be used at one target of one node at a time. Each line with its answer; what is due after it, the goal and the kind of
    the call; and how it is said in another talk."""

    def __init__(self, session, name="v", volume=1, wanted=()):
        self.session, self.name, self.volume = session, name, volume
        self.calls, self.kind = 0, None
        self.pairs, self.due, self.steps = [(b"", first(session, *wanted))], [(None, None)], [None]
        self.create = {"create": {"capabilities": [BLOCK], "limit": 0, "name": name, "required": 10}}
        self.delete, self.timeout = {"delete": name}, {"timeout": name}
        self.turns_to(NODE)

    def turns_to(self, node, target=TARGET):
        """From here on it is about another node or target."""
        self.node, self.target = node, target
        self.use = {"use": {"capability": BLOCK, "name": self.name, "node": node, "readonly": False, "target": target}}
        self.stop = {"stop": {"name": self.name, "node": node, "target": target}}

    def frame(self, kind, at):
        """The call of this kind and number."""
        return {
            "CreateVolume": lambda: create(at, self.name),
            "DeleteVolume": lambda: delete(at, self.volume),
            "ControllerPublishVolume": lambda: attach(at, self.volume, self.node),
            "ControllerUnpublishVolume": lambda: detach(at, self.volume, self.node),
            "NodeStageVolume": lambda: stage(at, self.volume, node=self.node),
            "NodeUnstageVolume": lambda: unstage(at, self.volume, self.node),
            "NodePublishVolume": lambda: publish(at, self.volume, self.target, node=self.node),
            "NodeUnpublishVolume": lambda: unpublish(at, self.volume, self.target, self.node),
        }[kind]()

    def says(self, given, right):
        """A line that changes nothing, and its answer."""
        self.pairs.append((given, right))
        self.due.append(self.due[-1])
        self.steps.append(lambda talk: talk.says(given, right))

    def answered(self, given, goal, outcome, kind):
        """A line about the volume, and its answer, with a call of this kind to be sent, if one is."""
        send = None
        if kind:
            self.calls, self.kind = self.calls + 1, kind
            plugin = "controller" if kind in CONTROLLERS else f"node:{self.node}"
            frame = self.frame(kind, (self.session, self.calls))
            send = {"call": self.calls, "frame": frame.hex(), "kind": kind, "plugin": plugin, "session": self.session}
        self.pairs.append((line(given), about(self.name, goal, outcome, send)))
        self.due.append((goal, goal and self.kind))

    def asks(self, given, goal, kind):
        """A command or a timeout that has a call sent."""
        self.answered(given, goal, "sent", kind)
        self.steps.append(lambda talk: talk.asks(given, goal, kind))

    def hears(self, goal, kind=None, status=0, detail=""):
        """A reply to the last call, after which this is wanted, and sent."""
        volume = self.volume if self.kind == "CreateVolume" and status == 0 else 0
        came = reply(self.kind, (self.session, self.calls), status, volume, detail, self.node)
        self.answered({"reply": came.hex()}, goal, "taken", kind)
        self.steps.append(lambda talk: talk.hears(goal, kind, status, detail))

    def makes(self):
        self.asks(self.create, self.create, "CreateVolume")
        self.hears(None)

    def uses(self):
        self.asks(self.use, self.use, "ControllerPublishVolume")
        self.hears(self.use, "NodeStageVolume")
        self.hears(self.use, "NodePublishVolume")
        self.hears(None)

    def stops(self):
        self.asks(self.stop, self.stop, "NodeUnpublishVolume")
        self.hears(self.stop, "NodeUnstageVolume")
        self.hears(self.stop, "ControllerUnpublishVolume")
        self.hears(None)

    def deletes(self):
        self.asks(self.delete, self.delete, "DeleteVolume")
        self.hears(None)

    def loses(self, node):
        """A node is lost: a session begins."""
        self.session, self.calls = self.session + 1, 0
        self.says(line({"lose": node}), line({"node": node, "outcome": "lost", "session": self.session}))

    def given(self, at=0):
        return b"".join(given for given, _ in self.pairs[at:])

    def right(self, at=0, end=None):
        return b"".join(right for _, right in self.pairs[at:end])


def life(session, name="v", volume=1, wanted=()):
    """A volume is made, used, no longer used, and deleted."""
    talk = Talk(session, name, volume, wanted)
    talk.makes()
    talk.uses()
    talk.stops()
    talk.deletes()
    return talk
