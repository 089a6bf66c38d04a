"""Schedules of 100,000 events, of 4,096 volumes and of 64 nodes, by the rules of the lifecycle: the report of each, its frames, and how large its
picture is. And streams that end near the most bytes that are read at once."""
import itertools
import json

from .frames import create, delete, framed, reply
from .running import Case, ended, of_rows, wanted

VOLUMES, NODES, TARGETS, MOST = 4096, 64, 16, 100_000
READ = 65_536  # the most bytes that are read at once


def plain(value):
    return json.dumps(value, sort_keys=True, separators=(",", ":")).encode()


def config(first):
    """64 nodes, from the one of this number on."""
    return {"greatest": 1000, "nodes": [{"id": f"n{at}", "slots": VOLUMES} for at in range(first, first + NODES)]}


class Script:
    """Events, and what is to come of each, where each call is answered by the next frame. Volume 1 is `v1000`, volume 2 `v1001` and so on."""

    def __init__(self):
        self.events, self.outcomes, self.frames = [], [], 0
        self.report = {"attached": [], "known": [], "published": [], "safe": True, "session": 1, "staged": [], "volumes": []}

    def happens(self, event, outcome):
        self.events.append(event)
        self.outcomes.append(outcome)

    def answered(self, call):
        """A call comes to its plugin, and the next frame is its reply."""
        self.frames += 1
        self.happens({"deliver": call}, f"answered {self.frames}")

    def asks(self, event, calls):
        """A command of so many calls, each of which is sent when the reply to the one before is taken."""
        self.frames += 1
        self.happens(event, f"sent {self.frames}")
        for left in range(calls - 1, -1, -1):
            self.answered(self.frames)
            taken = self.frames
            self.frames += left > 0
            self.happens({"deliver": taken}, f"taken, sent {self.frames}" if left else "taken")

    def comes_again(self, number):
        """A frame comes once more: a call is answered again, a reply ignored."""
        if number % 2:
            self.answered(number)
        else:
            self.happens({"deliver": number}, "ignored")

    def fills(self, numbers):
        """These frames come once more, in turn, until there are as many events as a schedule may have."""
        for number in itertools.islice(itertools.cycle(numbers), MOST - len(self.events)):
            self.comes_again(number)

    # ---- commands, and what the report has of them

    def creates(self, volume, mode=5):
        way = {"capabilities": [{"access": "block", "mode": mode}], "limit": 0, "name": f"v{volume + 999}", "required": 10}
        self.asks({"create": way}, 1)

    def deletes(self, volume):
        self.asks({"delete": f"v{volume + 999}"}, 1)

    def uses(self, volume, node, target, calls):
        at = {"name": f"v{volume + 999}", "node": f"n{node}", "target": f"/t{target}"}
        self.asks({"use": {**at, "capability": {"access": "block", "mode": 5}, "readonly": False}}, calls)

    def stops(self, volume, node, target, calls):
        self.asks({"stop": {"name": f"v{volume + 999}", "node": f"n{node}", "target": f"/t{target}"}}, calls)

    def knows(self, volume, thing, **where):
        self.report["known"].append({"known": "yes", "name": f"v{volume + 999}", "thing": thing, **where})

    def has(self, volume, places):
        """The volume is there, and at these targets of nodes, of rising numbers."""
        self.report["volumes"].append({"capacity": 10, "id": volume, "name": f"v{volume + 999}"})
        self.knows(volume, "exists")
        for number, targets in places:
            node = {"node": f"n{number}"}
            self.report["attached"].append({"id": volume, "mode": 5, "readonly": False, **node})
            self.report["staged"].append({"id": volume, "mode": 5, **node})
            self.knows(volume, "attached", **node)
            self.knows(volume, "staged", **node)
            for target in targets:
                self.report["published"].append({"id": volume, "readonly": False, "target": f"/t{target}", **node})
                self.knows(volume, "published", target=f"/t{target}", **node)

    # ---- runs

    def runs(self, box, first):
        """Has the schedule run to its report, and drawn."""
        box.put("f", plain({"config": config(first), "events": self.events}))
        report = plain({**self.report, "events": self.outcomes, "frames": self.frames})
        box.wants(ended(0, out=report + b"\n"), "run", "f")
        drawn = box.run("draw", "f")
        head = f"{len(self.events)} events, {self.frames} frames".encode()
        wanted("how the picture ends, and what it counts", (drawn.status, drawn.error, drawn.out[-7:], head in drawn.out[:10_000]), (0, b"", b"</svg>\n", True))


def places_of(volume):
    """Volume 1 is at sixteen targets of each node, each other one at one target of one."""
    if volume > 1:
        return [(volume % NODES + 10, [10])]
    return [(node, range(10, 10 + TARGETS)) for node in range(10, 10 + NODES)]


def full(box, is_left):
    """All volumes are used, or then left and deleted; and then frames come once more."""
    script = Script()
    volumes = range(1, VOLUMES + 1)
    for volume in volumes:
        script.creates(volume)
    for volume in volumes:
        for node, targets in places_of(volume):
            for target in targets:
                script.uses(volume, node, target, 3 if target == 10 else 1)
    for volume in volumes if is_left else ():
        for node, targets in places_of(volume):
            for target in reversed(targets):
                script.stops(volume, node, target, 3 if target == 10 else 1)
    for volume in volumes:
        if is_left:
            script.deletes(volume)
        else:
            script.has(volume, places_of(volume))
    script.fills(range(1, script.frames + 1))
    script.runs(box, 10)


def joining(box):
    """Beside the 64 nodes that are there from the first 64 more join, are listed and configured; a volume is used at each, and the others are lost."""
    script, joined = Script(), range(10 + NODES, 10 + 2 * NODES)
    for node in joined:
        script.happens({"join": f"n{node}"}, "joined")
    script.happens({"restart_orchestrator": [f"n{node}" for node in joined]}, "restarted")
    script.happens({"restart_controller": config(joined[0])}, "restarted")
    for volume, node in enumerate(joined, 1):
        script.creates(volume)
        script.uses(volume, node, 10, 3)
        script.has(volume, [(node, [10])])
    for outcome in ("lost", "no such node"):
        for node in range(10, 10 + NODES):
            script.happens({"lose": f"n{node}"}, outcome)
    script.report["session"] = 2 + NODES
    script.runs(box, 10)


def frames(box):
    """4,096 volumes are made, and then their calls come again, and get the same replies: the frames that are sent."""
    script = Script()
    for volume in range(1, VOLUMES + 1):
        script.creates(volume, 1)
    script.fills(range(1, 2 * VOLUMES, 2))
    box.put("f", plain({"config": config(10), "events": script.events}))
    replies = [reply("CreateVolume", (1, volume), 0, volume) for volume in range(1, VOLUMES + 1)]
    made = b"".join(create((1, volume), f"v{volume + 999}") + replies[volume - 1] for volume in range(1, VOLUMES + 1))
    again = itertools.islice(itertools.cycle(replies), MOST - 3 * VOLUMES)
    box.wants(ended(0, out=made + b"".join(again)), "frames", "f")


def cut(box):
    """A stream that ends before, at and behind the most bytes that are read at once, within a frame or between two; and one with a fault far behind."""
    one, answer, line = delete((1, 2), 1), reply("DeleteVolume", (1, 2)), b"%d 1.2 controller DeleteVolume 1\n"
    streams = [((one * 3000)[:size], size // 31, f"frame fault 1 at {size}" if size % 31 else None) for size in range(READ - 35, READ + 36)]
    streams.append((one * 3000 + framed(one[4:] + b"\0") + one, 3000, "frame fault 13 at 93031"))
    for given, whole, fault in streams:
        for name, right in (("answer", answer * whole), ("show", b"".join(line % (31 * at) for at in range(whole)))):
            box.wants(ended(1 if fault else 0, fault, right), name, "/dev/stdin", given=given, told=f"{name} of {len(given)} bytes")


def cases():
    yield from of_rows("full size", [("a world that is used", full, False), ("a world that is left", full, True)])
    yield Case("full size: more nodes join than are listed", joining)
    yield Case("full size: the frames of a schedule", frames)
    yield Case("full size: streams that are cut, and one that is damaged", cut)
