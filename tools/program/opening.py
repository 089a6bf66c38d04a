"""A store that is opened in a process that may have little memory: at each limit either it is opened, or that is told as out of memory, and the store
is as it was. Contracts allow an answer of out of memory without a cause, and a process alone sees what the system refuses."""
import os
import signal

from . import full, stores
from .largest import OWN
from .orchestrators import CONFIG
from .running import ended, of_rows, wanted
from .streams import FULL_ROOM, MB, limited

STEP = MB // 16
NEAR, FAR = 40, 8  # how many limits are tried: a step from one another below the least that suffices, and from there to the program's own needs
MEMORY = ended(3, "memory")
FILES = "db", "db-wal"


class Opening:
    """A plugin or an orchestrator that is opened over the file of these bytes, or a new one, and ends at once."""

    def __init__(self, box, name, content):
        box.put("config", CONFIG)
        self.box, self.words, self.content = box, (name, "db", OWN[name][0]), content

    def run(self, limit=None):
        """Over what was found, in so many bytes of addresses, or in as many as it wants."""
        for name in FILES:
            if os.path.exists(self.box.at(name)):
                os.remove(self.box.at(name))
        if self.content is not None:
            self.box.put("db", self.content)
        return self.again(limit)

    def again(self, limit=None):
        """Over what is there."""
        return self.box.run(*self.words, preexec_fn=limited(limit) if limit else None)

    def least(self, suffices, low=0, high=FULL_ROOM):
        """The least limit, in steps, that suffices; the greatest one does."""
        wanted(f"whether {high // 1024} kilobytes suffice", suffices(high), True)
        while high - low > STEP:
            middle = (low + high) // (2 * STEP) * STEP
            low, high = (low, middle) if suffices(middle) else (middle, high)
        return high

    def files(self):
        """What is there."""
        return [self.box.get(name) if os.path.exists(self.box.at(name)) else None for name in FILES]


def starts(box, limit):
    """Whether a process that may have so much says something of its own: else the system doesn't load the program."""
    return box.run("--help", preexec_fn=limited(limit)).status in (0, 3)


def stays(opening, rows, told):
    """What was found is as it was: the file of a record; of a new or an empty one there may be a new store. With memory it is opened then."""
    if rows:
        wanted(f"{told}: the file", opening.box.get("db") == opening.content, True)
    opened = opening.again()
    wanted(f"{told}: opened with memory", (opened.status, opened.error), (0, b""))
    wanted(f"{told}: the rows then", stores.parts_of(opening.box.at("db"))[1:] == rows, True)


def judged(opening, rows):
    """Each limit at which the process starts and the store isn't opened is told, and changes nothing. Where its stack can't grow the system kills it."""
    whole = opening.run()
    wanted("with memory", (whole.status, whole.error), (0, b""))
    least = opening.least(lambda limit: opening.run(limit) == whole)
    start = opening.least(lambda limit: starts(opening.box, limit), high=least)
    near = max(start, least - NEAR * STEP)
    told, seen = 0, []
    for limit in [*range(start, near, max(STEP, (near - start) // FAR)), *range(near, least, STEP)]:
        ran, at = opening.run(limit), f"{limit // 1024} kilobytes"
        if ran == whole:
            continue
        if ran.status != -signal.SIGSEGV:
            wanted(f"{at}: its end", (ran.status, ran.error), (MEMORY.status, MEMORY.error))
            told += 1
        if (files := opening.files()) not in seen:
            seen.append(files)
            stays(opening, rows, at)
    wanted(f"how many of the limits are told, {told}", told > NEAR // 2, True)


def over_nothing(box, name, content):
    judged(Opening(box, name, content), [])


def over_record(box, name, *version):
    _, parts = OWN[name]
    stores.make(box.at("found"), parts(*version))
    judged(Opening(box, name, box.get("found")), parts()[1:])


def cases():
    for name in OWN:
        rows = [("a new file", over_nothing, name, None), ("an empty file", over_nothing, name, b""), ("a record of 4,096 rows", over_record, name)]
        if name in full.PLUGINS:
            rows.append(("such a record in version 1", over_record, name, 1))
        yield from of_rows(f"memory: {name} is opened with little of it over", rows)
