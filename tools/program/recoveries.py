"""`recover`: an orchestrator's store, made of what its plugins keep, held against what `recovering` makes of the same parts: sets by hand, and their sessions."""
import os

from . import stores
from .configs import NODE as SLOTS
from .configs import with_nodes
from .frames import block, mount
from .orchestrators import LAST
from .recovering import ROOT, SESSIONS_ABOVE, Recovery
from .running import LeftOut, ended, of_rows, wanted
from .talks import first
from .whole import parts_beside

NEW, CONTROLLER = "new.db", "controller.db"


def can_recover(box):
    """Left out where the program has no such subcommand."""
    if b"\n  recover " not in box.run("--help").out:
        raise LeftOut("the program has no recover")


class Set:
    """A controller's store and nodes' stores in a box, by the names of their files, in the order of the words; CONFIG's nodes, and SESSION."""

    def __init__(self, box, names, listed, session=0, new=NEW):
        self.box, self.names, self.listed, self.session, self.new = box, names, listed, session, new
        box.put("config", with_nodes(*(SLOTS % (node.encode(), 4) for node in listed)))

    @classmethod
    def made(cls, box, controller, nodes, listed, session=0, new=NEW):
        """Written by SQLite."""
        names = [CONTROLLER, *(f"given{place}.db" for place in range(2, 2 + len(nodes)))]
        for name, parts in zip(names, (controller, *nodes)):
            stores.make(box.at(name), parts)
        return cls(box, names, listed, session, new)

    def words(self):
        return ["recover", self.new, "config", str(self.session), *self.names]

    def parts(self):
        """The parts of each store, beside what runs: NEW.db's first."""
        return [parts_beside(self.box, name) for name in (self.new, *self.names)]

    def recovery(self):
        _, controller, *nodes = self.parts()
        return Recovery(self.listed, self.session, controller, nodes)

    def run(self, **how):
        return self.box.run(*self.words(), **how)

    def whole(self, made):
        """The parts once all is done."""
        return [made.new, *made.raised]

    def recovers(self, told="recover"):
        """It does what the documents say of these parts: what it made."""
        made = self.recovery().made()
        wanted(told, self.run(), ended(0, out=made.line))
        self.is_whole(made, told)
        return made

    def is_whole(self, made, told):
        for name, came, right in zip((self.new, *self.names), self.parts(), self.whole(made)):
            wanted(f"{told}: the parts of {name}", came, right)
        for name in (self.new, *self.names):
            self.box.is_closed(name, told)

    def refuses(self, right, told="recover", **how):
        """It ends so, no store is changed, and NEW.db has no parts but those that it had."""
        before = self.parts()
        wanted(told, self.run(**how), right)
        wanted(f"{told}: the parts", self.parts(), before)


# ---- a set by hand: volume 1 is used at two nodes, 3 is staged at one and published nowhere, 4 is attached at one that is lost; 2 was deleted, 5 is unused

EXT4 = mount("ext4", 1)
GONE = stores.kept("DeleteVolume", (5, 2))
CONTROLLER_PARTS = [
    stores.controller_head(7, 5),
    stores.volume(1, "v", stores.kept("ControllerPublishVolume", (5, 8)), 20, [block(5), EXT4], [("n2", block(5), True), ("n1", block(5), False)]),
    stores.volume(2, "gone", GONE, live=False),
    stores.volume(3, "w", stores.kept("ControllerPublishVolume", (4, 9)), 2**63 - 1, [EXT4], [("n1", EXT4, True)]),
    stores.volume(4, "a", stores.kept("ControllerUnpublishVolume", (5, 9), 9, 0, "x"), 1, [block(4)], [("n3", block(4), False), ("n1", block(4), True)]),
    stores.volume(5, "\u00e9", stores.kept("CreateVolume", (5, 1), 0, 5)),
]
N1 = [
    stores.node_head("n1", 4),
    stores.staged(1, block(5), stores.kept("NodePublishVolume", (4, 5)), [("/b", False), ("/a", False)]),
    stores.staged(3, EXT4, stores.kept("NodeUnpublishVolume", (4, 7))),
    stores.staged(9, None, stores.kept("NodeUnstageVolume", (4, 6))),
]
N2 = [stores.node_head("n2", 5), stores.staged(1, block(5), stores.kept("NodePublishVolume", (3, 9)), [("/b", True)])]
LISTED = ["n1", "n2"]
# What comes of them, by hand.
NEW_PARTS = [
    stores.orchestrator_head(5 + SESSIONS_ABOVE, LISTED),
    stores.known(
        *(1, "v"),
        **{"required": 20, "capabilities": [block(5), EXT4], "volume": 1, "exists": "yes"},
        at=[
            stores.at_node("n2", block(5), "yes", "yes", [("/b", "yes")], True),
            stores.at_node("n1", block(5), "yes", "yes", [("/b", "yes"), ("/a", "yes")]),
        ],
    ),
    stores.known(
        *(2, "w", stores.stop("n1", ROOT), 1),
        **{"required": 2**63 - 1, "capabilities": [EXT4], "volume": 3, "exists": "yes"},
        at=[stores.at_node("n1", EXT4, "yes", "maybe", [(ROOT, "no")], True)],
    ),
    stores.known(
        *(3, "a"),
        **{"required": 1, "capabilities": [block(4)], "volume": 4, "exists": "yes"},
        at=[stores.at_node("n3", block(4), "yes", "no", []), stores.at_node("n1", block(4), "yes", "no", [], True)],
    ),
    stores.known(4, "\u00e9", volume=5, exists="yes"),
]
LINE = b'{"lost":["n3"],"session":1048581,"volumes":4,"wanted":["w"]}\n'


def by_hand(box):
    """Each part, in literal bytes; and then it is an orchestrator's store, and no new one any more."""
    can_recover(box)
    it = Set.made(box, CONTROLLER_PARTS, [N1, N2], LISTED)
    box.wants(ended(0, out=LINE), *it.words())
    head = bytes.fromhex("03 00 0000000000000007 0000000000100005"), bytes.fromhex("03 01 026e31 0000000000100005")
    rows = [CONTROLLER_PARTS[at] for at in (1, 3, 4, 5)]
    for name, right in ((NEW, NEW_PARTS), (CONTROLLER, [(bytes(8), head[0]), *rows]), ("given2.db", [(bytes(8), head[1]), N1[1], N1[2]])):
        wanted(f"the parts of {name}", parts_beside(box, name), right)
    wanted("the oracle's", it.whole(Recovery(LISTED, 0, CONTROLLER_PARTS, [N1, N2]).made())[0], NEW_PARTS)
    box.wants(ended(0, out=first(5 + SESSIONS_ABOVE + 1, "w")), "orchestrator", NEW, "config")
    it.refuses(ended(1, "store not new"), "once more")


def line_of_the_page(box):
    """The line of the page: two volumes, one of which is to be undone, and the other left at a node that isn't given."""
    can_recover(box)
    last = stores.kept("ControllerPublishVolume", (5, 1))
    volumes = [stores.volume(at, name, last, held=[(node, block(1), False)]) for at, name, node in ((1, "v", "n1"), (2, "w", "n2"))]
    controller = [stores.controller_head(3, 5), *volumes]
    it = Set.made(box, controller, [[stores.node_head("n1", 5), stores.staged(1, block(1), stores.kept("NodeStageVolume", (5, 2)))]], LISTED)
    box.wants(ended(0, out=b'{"lost":["n2"],"session":1048581,"volumes":2,"wanted":["v"]}\n'), *it.words())


def nothing_there(box):
    """New stores, and none of a node: an orchestrator that has no rows."""
    can_recover(box)
    for at, nodes in enumerate(([], [[stores.node_head("n1", 0)]])):
        os.mkdir(box.at(str(at)))
        it = Set.made(type(box)(box.program, box.at(str(at))), [stores.controller_head(1, 0)], nodes, ["n1"])
        wanted("the line", it.recovers().line, b'{"lost":[],"session":1048576,"volumes":0,"wanted":[]}\n')


def over(box, how):
    """NEW.db may be there, without parts."""
    can_recover(box)
    it = Set.made(box, CONTROLLER_PARTS, [N1, N2], LISTED)
    if how == "empty":
        box.put(NEW, b"")
    elif how == "no parts":
        stores.make(box.at(NEW), [])
    elif how == "half made":
        box.put(NEW, bytes(4096))
    it.recovers()


# ---- sessions


def sessions(box):
    """S is above the greatest of SESSION and all stores' sessions, whoever has it; the last that can be is 2^64 - 2."""
    can_recover(box)
    most = LAST - 1 - SESSIONS_ABOVE
    rows = [(0, 5, 5, 5), (6, 5, 4, 5), (5, 6, 0, 1), (1, 2, 7, 3), (0, 2, 3, 7), (1_700_000_000, 9, 9, 9)]
    rows += [(most, 1, 1, 1), (0, most, 1, 1), (0, 1, most, 1), (0, 1, 1, most)]
    for at, (session, *others) in enumerate(rows):
        os.mkdir(box.at(str(at)))
        it = of_sessions(type(box)(box.program, box.at(str(at))), session, others)
        made = it.recovers(f"sessions {rows[at]}")
        wanted("S", made.session, max(rows[at]) + SESSIONS_ABOVE)
    for spent in (most + 1, LAST - SESSIONS_ABOVE + 1, LAST):
        for place in range(4):
            folder = f"{spent}.{place}"
            os.mkdir(box.at(folder))
            session, *others = [spent if at == place else 1 for at in range(4)]
            of_sessions(type(box)(box.program, box.at(folder)), session, others).refuses(ended(1, "numbers spent"), f"{spent} at {place}")


def of_sessions(box, session, others):
    controller, *nodes = others
    return Set.made(box, [stores.controller_head(1, controller)], [[stores.node_head(f"n{at}", it)] for at, it in enumerate(nodes, 1)], LISTED, session)


def of_versions(box):
    """Stores of versions 1 and 2 are read by the greatest session of their rows, without empty rows of earlier ones; and are of version 3 then."""
    can_recover(box)
    for version in (1, 2):
        os.mkdir(box.at(str(version)))
        controller = [stores.controller_head(7, 0, version), *(in_version(it, version) for it in CONTROLLER_PARTS[1:])]
        n1 = [stores.node_head("n1", 0, version), *(in_version(it, version) for it in N1[1:])]
        it = Set.made(type(box)(box.program, box.at(str(version))), controller, [n1, N2], LISTED)
        made = it.recovers(f"version {version}")
        wanted("the line", made.line, LINE)
        wanted("the parts", made.new, NEW_PARTS)


def in_version(part, version):
    return part[0], bytes([version]) + part[1][1:]


ROWS = [
    ("a set by hand", by_hand),
    ("the line of the page", line_of_the_page),
    ("new stores, and no node", nothing_there),
    ("over an empty NEW.db", over, "empty"),
    ("over a NEW.db without parts", over, "no parts"),
    ("over a NEW.db that is half made", over, "half made"),
    ("sessions", sessions),
    ("stores of versions 1 and 2", of_versions),
]


def cases():
    yield from of_rows("recover", ROWS)
