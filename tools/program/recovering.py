"""What `csi-replay recover` makes of the parts of a controller's and of nodes' stores, and why it refuses them: from docs/RECORDS.md ("Recovery") alone.

Parts are read as far as a recovery has to know them; whether they are a record is for who gives them.
"""
from dataclasses import dataclass

from . import stores
from .talks import line

SESSIONS_ABOVE = 2**20
LAST = 2**64 - 1
ROOT = "/"


class Bytes:
    """Bytes that are read from the left."""

    def __init__(self, content):
        self.content, self.at = content, 0

    def take(self, size):
        self.at += size
        return self.content[self.at - size : self.at]

    def number(self, size=8):
        return int.from_bytes(self.take(size), "big")

    def text(self):
        return self.take(self.number(1)).decode()

    def capability(self):
        """As bytes: an access, a text if it is a mount, and a mode."""
        begin = self.at
        if self.number(1):
            self.text()
        self.number(1)
        return self.content[begin : self.at]

    def listed(self, read):
        return [read() for _ in range(self.number(1))]

    def session(self):
        """That of the kept call, which stands last."""
        return self.number()


@dataclass
class Held:
    node: str
    capability: bytes
    readonly: bool


@dataclass
class Row:
    """A controller's or a node's; `is_empty`: the volume was deleted, or isn't staged."""

    part: tuple
    volume: int
    is_empty: bool
    session: int  # of its last call
    name: str = ""
    capacity: int = 0
    capabilities: tuple = ()
    held: tuple = ()
    capability: bytes = b""  # in which it is staged
    targets: tuple = ()  # a text and a flag each


def controllers_row(key, value):
    it = Bytes(value)
    it.take(1)
    is_live = it.number(1) == 1
    name, capacity, capabilities = it.text(), it.number(), it.listed(it.capability)
    held = it.listed(lambda: Held(it.text(), it.capability(), bool(it.number(1))))
    return Row((key, value), int.from_bytes(key, "big"), not is_live, it.session(), name, capacity, capabilities, held)


def nodes_row(key, value):
    it = Bytes(value)
    it.take(1)
    capability = it.capability() if it.number(1) else None
    targets = it.listed(lambda: (it.text(), bool(it.number(1))))
    return Row((key, value), int.from_bytes(key, "big"), capability is None, it.session(), capability=capability, targets=targets)


class Store:
    """A plugin's parts."""

    def __init__(self, parts):
        (_, head), *rows = parts
        it = Bytes(head)
        version, kind = it.number(1), it.number(1)
        self.node = None if kind == 0 else it.text()
        self.next_id = it.number() if kind == 0 else None
        self.rows = [(controllers_row if kind == 0 else nodes_row)(key, value) for key, value in rows]
        self.session = it.number() if version == 3 else max((row.session for row in self.rows), default=0)
        self.kept = {row.volume: row for row in self.rows if not row.is_empty}

    def raised(self, session):
        """The parts once a session began, in version 3."""
        head = stores.controller_head(self.next_id, session) if self.node is None else stores.node_head(self.node, session)
        return [head, *((key, b"\3" + value[1:]) for key, value in (row.part for row in self.kept.values()))]


@dataclass
class Recovered:
    """What a recovery leaves: its session, the parts of NEW.db, those of the controller's and of each node's store, and the line."""

    session: int
    new: list
    raised: list
    line: bytes


class Recovery:
    """CONFIG's nodes, SESSION, and the parts of the controller's store and of the given nodes'."""

    def __init__(self, listed, session, controller, nodes):
        self.listed, self.stores = listed, [Store(parts) for parts in (controller, *nodes)]
        self.controller, *self.nodes = self.stores
        self.session = max(session, *(it.session for it in self.stores)) + SESSIONS_ABOVE
        self.given = {it.node: it for it in reversed(self.nodes)}
        self.unsure = {}  # by volume: the nodes at which it is staged and published nowhere

    # ---- why it is refused

    def refusals(self):
        """The lines of all that is wrong; the first of them is said. No store is counted from 0: the controller's is 1, the first node's 2."""
        ids = [it.node for it in self.nodes]
        yield from (disagree(place) for place, node in enumerate(ids, 2) if node in ids[: place - 2])
        if self.session >= LAST:
            yield "numbers spent"
        yield from (disagree(place) for place, it in enumerate(self.nodes, 2) if not all(self.agrees(it.node, row) for row in it.kept.values()))
        for row in self.controller.kept.values():
            yield from self.refusals_of(row)

    def agrees(self, node, row):
        """It is attached there in the staged capability, and what is published has the attachment's flag."""
        volume = self.controller.kept.get(row.volume)
        found = [held for held in volume.held if held.node == node] if volume else []
        return bool(found) and found[0].capability == row.capability and all(readonly == found[0].readonly for _, readonly in row.targets)

    def refusals_of(self, row):
        """What no row of an orchestrator may have: something staged at a node that isn't listed, and two stagings to be undone."""
        there = [(held.node, it) for held in row.held if (it := self.staged(held.node, row.volume))]
        yield from ("node in use" for node, _ in there if node not in self.listed)
        unsure = [node for node, it in there if not it.targets]
        if len(unsure) > 1:
            yield disagree(self.place_of_unsure(unsure))

    def place_of_unsure(self, unsure):
        """The first store among the words by which there is more than one."""
        return sorted(place for place, it in enumerate(self.nodes, 2) if it.node in unsure)[1]

    def staged(self, node, volume):
        """The node's row of the volume, if its store is given and it is staged there."""
        return self.given[node].kept.get(volume) if node in self.given else None

    # ---- what it makes

    def entry(self, held, volume):
        """As a part of a row, and whether it is to be undone."""
        row = self.staged(held.node, volume)
        known, targets = "no", []
        if row and row.targets:
            known, targets = "yes", [(target, "yes") for target, _ in row.targets]
        elif row:
            known, targets = "maybe", [(ROOT, "no")]
        return stores.at_node(held.node, held.capability, "yes", known, targets, held.readonly), known == "maybe"

    def row(self, place, row):
        """The part of a volume, and whether something is wanted of it."""
        found = [(held.node, *self.entry(held, row.volume)) for held in row.held]
        undone = [node for node, _, is_undone in found if is_undone]
        goal, tries = (stores.stop(undone[0], ROOT), 1) if undone else (stores.NO_GOAL, 0)
        made = {"required": row.capacity, "capabilities": row.capabilities, "volume": row.volume, "exists": "yes"}
        return stores.known(place, row.name, goal, tries, at=[entry for _, entry, _ in found], **made), bool(undone)

    def made(self):
        """What is left where nothing is refused."""
        live = [row for _, row in sorted(self.controller.kept.items())]
        rows = [self.row(place, row) for place, row in enumerate(live, 1)]
        lost = {held.node for row in live for held in row.held if held.node not in self.given}
        wanted = [row.name for row, (_, is_wanted) in zip(live, rows) if is_wanted]
        told = {"lost": by_bytes(lost), "session": self.session, "volumes": len(live), "wanted": by_bytes(wanted)}
        new = [stores.orchestrator_head(self.session, self.listed), *(part for part, _ in rows)]
        return Recovered(self.session, new, [it.raised(self.session) for it in self.stores], line(told))


def disagree(place):
    return f"stores disagree, store {place}"


def by_bytes(texts):
    return sorted(texts, key=str.encode)
