"""A plugin's calls, or an orchestrator's lines; what a run that nothing stops leaves of them, and what has to hold after one that was stopped.

They come in groups, of which each is committed whole, and answered whole, or not at all.
"""
import os
import shutil
import sqlite3
from dataclasses import dataclass

from . import stores
from .frames import attach, block, create, delete, detach, mount, publish, reply, split, stage, unpublish, unstage
from .plugins import NOT_OPENED
from .running import ended, wanted
from .talks import Talk, life

NAME = "v" * 100


@dataclass
class Said:
    """A call of a volume, its reply, and the one that it gets once a later call of the volume passed."""

    call: bytes
    right: bytes
    late: bytes
    volume: int


def said(session, steps):
    """Calls one after another, each of a kind and a volume, how it is built of its number, and what refuses it, if it is refused; the first of a volume makes
    it, if it can."""
    for n, (kind, volume, build, *refusal) in enumerate(steps, 1):
        made = volume if kind == "CreateVolume" else 0
        status, detail = refusal or (0, "")
        yield Said(build((session, n)), reply(kind, (session, n), status, made, detail), reply(kind, (session, n), 10, 0, "stale"), volume)


def scripted_calls(session, ids):
    """Two volumes of these ids: one is made, attached, refused elsewhere, detached and deleted, and then the other is made."""
    one, other = ids
    steps = [
        ("CreateVolume", one, lambda n: create(n, "v")),
        ("ControllerPublishVolume", one, lambda n: attach(n, one, "n1")),
        ("ControllerPublishVolume", one, lambda n: attach(n, one, "n2"), 9, "n1"),
        ("ControllerUnpublishVolume", one, lambda n: detach(n, one, "n1")),
        ("DeleteVolume", one, lambda n: delete(n, one)),
        ("CreateVolume", other, lambda n: create(n, "w")),
    ]
    return list(said(session, steps))


def controller_calls(session, ids):
    """Calls on volumes of these ids, of which the first makes each."""
    steps = []
    for it in ids:
        steps += [
            ("CreateVolume", it, lambda n, it=it: create(n, f"{NAME}{it}", capabilities=[block(5), mount("ext4", 1)])),
            ("ControllerPublishVolume", it, lambda n, it=it: attach(n, it, "n1", block(5))),
            ("ControllerPublishVolume", it, lambda n, it=it: attach(n, it, "n2", block(5), True)),
            ("ControllerUnpublishVolume", it, lambda n, it=it: detach(n, it, "n1")),
        ]
    steps.append(("ControllerUnpublishVolume", ids[0], lambda n: detach(n, ids[0], "n2")))
    steps.append(("DeleteVolume", ids[0], lambda n: delete(n, ids[0])))
    return list(said(session, steps))


def node_calls(session, ids):
    steps, target = [], "/" + "t" * 100
    for it in ids:
        steps += [
            ("NodeStageVolume", it, lambda n, it=it: stage(n, it, block(5))),
            ("NodePublishVolume", it, lambda n, it=it: publish(n, it, target, block(5))),
            ("NodePublishVolume", it, lambda n, it=it: publish(n, it, "/b", block(5), True)),
            ("NodeUnpublishVolume", it, lambda n, it=it: unpublish(n, it, target)),
        ]
    steps.append(("NodeUnpublishVolume", ids[0], lambda n: unpublish(n, ids[0], "/b")))
    steps.append(("NodeUnstageVolume", ids[0], lambda n: unstage(n, ids[0])))
    return list(said(session, steps))


def ends_of(count, sizes, at=0):
    """Where groups of these sizes end, from a place on; what is left then is the last one."""
    ends = []
    for size in sizes:
        if (at := at + size) < count:
            ends.append(at)
    return [*ends, count]


APART, TOGETHER = [1] * 99, []  # each alone; all in one group


CONFIG = b'{"greatest":1000,"nodes":[{"id":"n1","slots":9},{"id":"n2","slots":9}]}'


def parts_beside(box, path, alone=False):
    """The parts in a copy of the file and its log, or of the file alone; none where SQLite finds no table there."""
    for end in ("", "-wal"):
        copy = box.at("copy.db" + end)
        if os.path.exists(box.at(path + end)) and not (alone and end):
            shutil.copy(box.at(path + end), copy)
        elif os.path.exists(copy):
            os.remove(copy)
    if os.path.exists(box.at("copy.db-shm")):
        os.remove(box.at("copy.db-shm"))
    try:
        return stores.parts_of(box.at("copy.db"))
    except sqlite3.DatabaseError:
        return []


def earlier(plugin, version):
    """The parts of a store of an earlier version, of which that of a row is left out once it is opened."""
    if plugin == "controller":
        dead = stores.volume(1, "v", stores.kept("DeleteVolume", (1, 5)), live=False, version=version)
        return [stores.controller_head(4, 2, version), dead, stores.volume(3, "w", stores.kept("CreateVolume", (2, 1), 0, 3), version=version)]
    unstaged = stores.staged(1, None, stores.kept("NodeUnstageVolume", (1, 5)), version=version)
    return [stores.node_head("n1", 2, version), unstaged, stores.staged(3, block(1), stores.kept("NodeStageVolume", (2, 1)), version=version)]


class Whole:
    """A plugin's calls over a store that is new, used, one whose log is left, or one of an earlier version; the parts after each of them, without a stop."""

    def __init__(self, box, plugin, over):
        self.box, self.plugin, self.over = box, plugin, over
        self.word = {"controller": "config", "node": "n1"}[plugin]
        box.put("config", CONFIG)
        calls = {"controller": controller_calls, "node": node_calls}[plugin]
        if over == "new":
            self.calls = calls(1, [1, 2])
        elif over == "script":
            self.calls = scripted_calls(1, [1, 2])
        elif over in ("used", "log"):
            self.calls = calls(2, [4, 5])
            self.prepare([(it.call, it.right) for it in calls(1, [1, 2, 3])])
        else:
            self.calls = calls(3, [4])[:1]
            stores.make(box.at("before.db"), earlier(plugin, int(over[-1])))
        self.pairs = [(it.call, it.right) for it in self.calls]
        self.states = self.follow()

    def prepare(self, pairs):
        """Makes the store `before.db`, closed, or with its log beside it."""
        running = self.box.start(self.plugin, "before.db", self.word)
        for call, right in pairs:
            running.asks(call, right)
        if self.over == "log":
            running.kill()
        else:
            running.end()

    def fresh(self, path):
        """The store before the calls, at this path."""
        for end in ("", "-wal", "-shm", "-journal"):
            if os.path.exists(self.box.at(path + end)):
                os.remove(self.box.at(path + end))
            if os.path.exists(self.box.at("before.db" + end)):
                shutil.copy(self.box.at("before.db" + end), self.box.at(path + end))
        return path

    def parts(self, path, alone=False):
        return parts_beside(self.box, path, alone)

    def follow(self):
        """The parts before each call, and at the end."""
        path = self.fresh("whole.db")
        states = [self.parts(path)]
        running = self.box.start(self.plugin, path, self.word)
        for call, right in self.pairs:
            running.asks(call, right)
            states.append(self.parts(path))
        self.largest = max(os.path.getsize(self.box.at(it)) for it in (path, f"{path}-wal"))
        wanted("the end", running.end(), ended(0))
        self.head = self.parts_opened()
        return states

    def parts_opened(self):
        """The parts once the store was opened, and nothing else done."""
        path = self.fresh("opened.db")
        self.box.wants(ended(0), self.plugin, path, self.word)
        return self.parts(path)

    def given(self, at=0):
        return b"".join(call for call, _ in self.pairs[at:])

    def right(self, at=0, end=None):
        return b"".join(answer for _, answer in self.pairs[at:end])

    # ---- groups

    def ends(self, sizes, at=0):
        """Where groups of these sizes end, from a call on."""
        return ends_of(len(self.pairs), sizes, at)

    def pieces(self, ends, at=0):
        """What is given, a piece for each group."""
        groups = [b"".join(call for call, _ in self.pairs[since:end]) for since, end in zip([at, *ends], ends)]
        return [it for it in groups if it]

    def told(self, at, carried):
        """The replies from a call on where so many were carried out before, and of some of these nobody heard: each of them gets the kept reply, if it is its
        volume's last one, and else is stale."""
        heard = [self.calls[it] for it in range(at, carried)]
        again = [one.late if any(it.volume == one.volume for it in heard[place:]) else one.right for place, one in enumerate(heard, 1)]
        return b"".join(again) + self.right(max(at, carried))

    def carried_out(self, told, path, answered, ends, before=0):
        """How many calls the store has after a run that was stopped after so many replies: those of the groups that were replied, or of one group more.
        `before`: so many it had before the run."""
        wanted(f"{told}: {answered} replies, so those of whole groups", answered in (0, *ends) or answered <= before, True)
        found = self.parts(path)
        places = [max(before, it) for it in [answered, *(it for it in ends if it > answered)][:2]]
        allowed = [self.states[it] for it in places]
        if places[0] == 0 and self.head is not None:
            places, allowed = [*places, 0], [*allowed, self.head]
        wanted(f"{told}: after {answered} replies the store has the commits of these, or of one group more", found in allowed, True)
        return places[allowed.index(found)], found

    def judge(self, told, path, out, ends):
        """After a run that was stopped: what was replied is committed, and one run more does the rest. The answer is how many replies came."""
        answered = len(split(out)[0])
        wanted(f"{told}: the replies", out[: len(self.right(0, answered))], self.right(0, answered))
        carried, found = self.carried_out(told, path, answered, ends)
        self.record(told, path, found)
        self.finish(told, path, answered, carried)
        return answered

    def finish(self, told, path, answered, carried):
        """One run more does the rest."""
        again = self.box.run(self.plugin, path, self.word, given=self.given(answered))
        wanted(f"{told}: run again on the rest", again, ended(0, out=self.told(answered, carried)))
        wanted(f"{told}: the parts then", self.parts(path), self.states[-1])

    def record(self, told, path, found):
        """`record` tells a store that has parts."""
        shown = self.box.run("record", path)
        if found:
            wanted(f"{told}: record's end", (shown.status, shown.error), (0, b""))
        else:
            is_known = shown in (NOT_OPENED, ended(1, "record fault at 0"))
            wanted(f"{told}: record of a store without parts gave {shown}", is_known, True)


MIDWAY = 5  # how many answers a store is midway behind: the volume is attached, and is to be staged


def resumed(talk, count):
    """The rest of a talk in the next session, where so many of its answers came: a timeout has the call that is due sent again."""
    goal, kind = talk.due[count - 1]
    rest = Talk(talk.session + 1, talk.name, talk.volume, wanted=[talk.name])
    rest.due[0] = (goal, kind)
    rest.asks(rest.timeout, goal, kind)
    for step in talk.steps[count:]:
        step(rest)
    return rest


class WholeTalk(Whole):
    """The same of an orchestrator, and of a volume's life. It begins a session whenever it is run."""

    def __init__(self, box, plugin, over):
        self.box, self.plugin, self.over, self.word = box, plugin, over, "config"
        box.put("config", CONFIG)
        if over == "midway":
            begun = life(1, NAME, 5)
            self.prepare(begun.pairs[:MIDWAY])
            self.talk = resumed(begun, MIDWAY)
        else:
            if over != "new":
                self.prepare(life(1, "w" * 100, 4).pairs)
            self.talk = life(1 if over == "new" else 2, NAME, 5)
        self.pairs = self.talk.pairs
        self.states = self.follow()

    def parts_opened(self):
        """Not asked for: the first line is one of the answers."""

    def ends(self, sizes, at=0):
        """The first line comes of itself."""
        return [1, *ends_of(len(self.pairs), sizes, 1)]

    def judge(self, told, path, out, ends):
        """After a run that was stopped: what was answered is committed, and of what is wanted then a timeout sends the call again, from where all
        goes on. The answer is how many lines came."""
        answered = out.count(b"\n")
        wanted(f"{told}: the answers", out, self.right()[: len(out)])
        done, found = self.carried_out(told, path, answered, ends)
        self.record(told, path, found)
        goal, kind = self.talk.due[max(done, 1) - 1]
        session = int.from_bytes(found[0][1][2:10], "big") + 1 if found else 1
        rest = Talk(session, NAME, 5, wanted=[NAME] if goal else [])
        if goal and done > 1:
            rest.asks(rest.timeout, goal, kind)
        for step in self.talk.steps[max(done, 1) :]:
            step(rest)
        again = self.box.run(self.plugin, path, self.word, given=rest.given())
        wanted(f"{told}: run again on the rest", again, ended(0, out=rest.right()))
        # A volume that was deleted by then was forgotten where the session began.
        wanted(f"{told}: the rows then", self.parts(path)[1:], self.states[-1][1:] if done < len(self.pairs) else [])
        return answered


WHOLES = {"controller": Whole, "node": Whole, "orchestrator": WholeTalk}


def whole_of(box, plugin, over):
    return WHOLES[plugin](box, plugin, over)
