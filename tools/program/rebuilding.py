"""What `csi-replay recover-controller` makes of the parts of an orchestrator's store, and why it refuses them: from docs/RECORDS.md ("A controller's") alone.

Parts are read as far as it has to know them; whether they are a record is for who gives them.
"""
from dataclasses import dataclass, field

from . import stores
from .recovering import LAST, Bytes, Held, Recovered, Store, by_bytes, disagree
from .talks import line

GRANTED, MOST = 2**30, 2**63 - 1
NO = stores.KNOWN["no"]


@dataclass
class Entry:
    node: str
    capability: bytes
    readonly: bool
    attached: int


@dataclass
class Row:
    """An orchestrator's, at this place."""

    place: int
    name: str
    required: int
    limit: int
    capabilities: list
    volume: int = None
    exists: int = NO
    entries: list = field(default_factory=list)

    def is_made(self):
        return self.volume is not None and self.exists != NO

    def capacity(self):
        return self.required or min(GRANTED, self.limit)

    def held(self):
        return [Held(it.node, it.capability, it.readonly) for it in self.entries if it.attached != NO]


def entry_of(it):
    found = Entry(it.text(), it.capability(), bool(it.number(1)), it.number(1))
    it.number(1)
    it.listed(lambda: (it.text(), it.number(1)))
    return found


def pass_goal(it):
    kind = it.number(1)
    if kind in (2, 3):
        it.text(), it.text()
    if kind == 2:
        it.capability(), it.number(1)


def row_of(key, value):
    it = Bytes(value)
    it.take(1)
    row = Row(int.from_bytes(key, "big"), it.text(), it.number(), it.number(), it.listed(it.capability))
    row.volume = it.number() if it.number(1) else None
    row.exists = it.number(1)
    pass_goal(it)
    it.take(1)
    row.entries = it.listed(lambda: entry_of(it))
    return row


class Rebuilding:
    """NEXT, and the parts of the orchestrator's store and of the given nodes'."""

    def __init__(self, next_id, orchestrator, nodes):
        (_, head), *rows = orchestrator
        it = Bytes(head)
        it.take(2)
        self.next_id, self.last = next_id, it.number()
        self.rows = [row_of(key, value) for key, value in rows]
        self.nodes = [Store(parts) for parts in nodes]
        self.kept = [orchestrator, *nodes]
        self.made_rows = sorted((row for row in self.rows if row.is_made()), key=lambda row: row.volume)

    def refusals(self):
        """The lines of all that is wrong; the first of them is said. The orchestrator's store is 1, the first node's 2."""
        if self.last == LAST:
            yield "numbers spent"
        if not self.next_id or any(row.volume is not None and row.volume >= self.next_id for row in self.rows):
            yield "id taken"
        ids = []
        for row in self.rows:
            if row.is_made():
                if not row.capabilities or not 1 <= row.capacity() <= MOST or row.volume in ids:
                    yield f"record fault at {row.place}, store 1"
                ids.append(row.volume)
        names = [it.node for it in self.nodes]
        yield from (disagree(place) for place, node in enumerate(names, 2) if node in names[: place - 2])
        if any(it.session > self.last for it in self.nodes):
            yield "older store"
        yield from (disagree(place) for place, it in enumerate(self.nodes, 2) if not all(self.agrees(it.node, row) for row in it.kept.values()))

    def agrees(self, node, staged):
        """It may be attached there in the staged capability, and what is published has the attachment's flag."""
        for row in self.made_rows:
            for held in row.held():
                if (row.volume, held.node) == (staged.volume, node):
                    return held.capability == staged.capability and all(readonly == held.readonly for _, readonly in staged.targets)
        return False

    def made(self):
        """What is left where nothing is refused."""
        new = [stores.controller_head(self.next_id, self.last + 1)]
        for row in self.made_rows:
            held = [(it.node, it.capability, it.readonly) for it in row.held()]
            new.append(stores.volume(row.volume, row.name, stores.kept("CreateVolume", (0, 0), 0, row.volume), row.capacity(), row.capabilities, held))
        told = {
            "attached": sum(len(row.held()) for row in self.made_rows),
            "creating": by_bytes(row.name for row in self.rows if row.volume is None),
            "next": self.next_id,
            "session": self.last + 1,
            "volumes": len(self.made_rows),
        }
        return Recovered(self.last + 1, new, self.kept, line(told))
