"""A driver, and an orchestrator, whose library is refused one allocation, each in a run of its own: a start ends then, a call is 8 `memory`, and an
orchestrator ends at any line. Nothing was changed."""
import itertools
import os
import subprocess

from program import stores
from program.frames import block
from program.running import BARE, LIMIT, LeftOut, wanted
from program.talks import life, line

from .requests import attach, create, delete, detach, publish, stage, unpublish, unstage
from .starting import older

# Stores of version 2, so that a start writes; and calls, of a later session too, in which what was deleted or isn't staged is forgotten.
OF_CONTROLLER = [
    ("CreateVolume", create("x"), (1, 2)),
    ("ControllerPublishVolume", attach(1), (1, 3)),
    ("DeleteVolume", delete(3), (1, 4)),
    ("ControllerUnpublishVolume", detach(1), (2, 1)),
]
OF_NODE = [
    ("NodePublishVolume", publish(1), (1, 2)),
    ("NodeUnpublishVolume", unpublish(1), (1, 3)),
    ("NodeUnstageVolume", unstage(1), (1, 4)),
    ("NodeStageVolume", stage(2), (2, 1)),
]
STAGED = [stores.node_head("n1", 1, 2), stores.staged(1, block(1), stores.kept("NodeStageVolume", (1, 1)), version=2)]


class Refusing:
    """Drivers of a controller or a node over one store, which is made anew for each."""

    def __init__(self, box, of_node):
        self.box, self.name = box, "n1.db" if of_node else "controller.db"
        self.start = box.node if of_node else box.controller
        self.parts, self.calls = (STAGED, OF_NODE) if of_node else (older(2), OF_CONTROLLER)
        self.ends = None  # what is in the store where nothing was refused

    def run(self, which):
        """Refuses this allocation, or none where it is 0. Whether that was at the start, and how often it was in a call."""
        box, path = self.box, self.box.at(self.name)
        for name in (path, f"{path}.driver", f"{path}.beside"):
            if os.path.exists(name):
                os.remove(name)
        stores.make(path, self.parts)
        box.program_words = ["env", f"REFUSED={which}", f"{box.built}/csi-driver-refused"]
        driver = self.start(serves=False)
        if not driver.serves_within(60):
            wanted(f"allocation {which}, its end", (driver.close(), driver.said), (3, b"csi-driver: memory\n"))
            wanted(f"allocation {which}, the store", stores.parts_of(path), self.parts)
            return True, 0
        driver.await_serving()
        count = sum(self.is_refused(driver, which, call) for call in self.calls)
        wanted("its end", driver.stop(), 0)
        ends = stores.parts_of(path)
        self.ends = self.ends or ends
        wanted(f"allocation {which}, the store at the end", ends, self.ends)
        return False, count

    def is_refused(self, driver, which, call):
        """Makes a call, and again where it was refused memory: then the record was as before."""
        before = self.box.record(self.name)
        came = driver.ask(*call)[:2]
        if came == (8, "memory"):
            wanted(f"allocation {which}, the record", self.box.record(self.name), before)
            driver.wants(0, *call)
            return True
        wanted(f"allocation {which}, {call[0]}", came, (0, ""))
        return False


def each(of_node, step):
    """Each allocation, or each of so many."""

    def body(box):
        if not os.path.exists(f"{box.built}/csi-driver-refused"):
            raise LeftOut("there is no driver that refuses")
        refusing = Refusing(box, of_node)
        wanted("with memory", refusing.run(0), (False, 0))
        starts = calls = 0
        for which in itertools.count(1, step):
            at_start, in_calls = refusing.run(which)
            if not at_start and not in_calls:
                wanted("some are refused at the start, and some in calls", starts > 0 and calls > 0, True)
                return f"{starts} allocations refused at the start, {calls} in calls"
            starts += at_start
            calls += in_calls

    return body


# An orchestrator's store in session 1, of which a volume is deleted, and what it is asked in the next one, which forgets that name: a life, and two losses.
DELETED = [stores.orchestrator_head(1), stores.known(1, "w", volume=9, exists="no")]
TALK = life(2)
TALK.says(line({"lose": "n1"}), line({"node": "n1", "outcome": "lost", "session": 3}))
TALK.says(line({"lose": "n2"}), line({"node": "n2", "outcome": "lost", "session": 4}))


def answered(box, which, lines):
    """What comes of an orchestrator that is asked so many lines and is refused this allocation, and what is in its store then."""
    path = box.at("db")
    if os.path.exists(path):
        os.remove(path)
    stores.make(path, DELETED)
    words = [f"{box.built}/csi-orchestrator-refused", path, box.at("config")]
    given = b"".join(given for given, _ in TALK.pairs[:lines])
    ran = subprocess.run(words, input=given, env={**BARE, "REFUSED": str(which)}, capture_output=True, timeout=LIMIT, check=False)
    return ran.returncode, ran.stdout, ran.stderr, stores.parts_of(path)


def orchestrator(box):
    """What it answered before is committed, and nothing else is."""
    if not os.path.exists(f"{box.built}/csi-orchestrator-refused"):
        raise LeftOut("there is no orchestrator that refuses")
    after, lines = [DELETED], len(TALK.pairs)  # what is in the store after so many lines
    for at in range(1, lines + 1):
        status, out, error, parts = answered(box, 0, at)
        wanted("with memory", (status, out, error), (0, TALK.right(0, at), b""))
        after.append(parts)
    refused = set()
    for which in itertools.count(1):
        status, out, error, parts = answered(box, which, lines)
        count = out.count(b"\n")
        wanted(f"allocation {which}, its lines and its store", (out, parts), (TALK.right(0, count), after[count]))
        if status == 0:
            wanted("the lines that were refused memory", refused, set(range(lines)))
            return f"{which - 1} allocations refused"
        wanted(f"allocation {which}, its end", (status, error), (3, b"csi-orchestrator: memory\n"))
        refused.add(count)


def cases(drawn, _seed):
    for of_node, name in ((False, "a controller"), (True, "a node")):
        yield f"memory: {name}", each(of_node, 1 if drawn > 1000 else 9)
    if drawn > 1000:
        yield "memory: an orchestrator", orchestrator
