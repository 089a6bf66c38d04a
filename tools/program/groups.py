"""What is there after one read is answered, committed in one transaction, and then said; and nothing of it waits for more."""
from . import stores
from .frames import block, create, delete, reply, stage
from .orchestrators import CONFIG
from .running import PIECE, Pieces, Pipe, ended, of_rows, wanted
from .talks import Talk, about, first, line
from .whole import APART, TOGETHER, parts_beside, whole_of

PARTS = 1024  # where so many wait, they are committed before anything else is answered


def commits(box, path):
    """How many transactions the log has: the frames of it that have the size of the file behind a commit (sqlite.org, "Database File Format", 4)."""
    log = box.get(f"{path}-wal")
    size = 24 + int.from_bytes(log[8:12], "big")
    frames = [log[at : at + 24] for at in range(32, len(log) - size + 1, size)]
    return sum(frame[8:16] == log[16:24] and frame[4:8] != bytes(4) for frame in frames)


class Grouped:
    """A program that is given, piece by piece, what it reads at once."""

    def __init__(self, box, *words):
        self.box, self.pieces = box, Pieces()
        self.running = box.start(*words, pipe=self.pieces)
        self.commits = 0  # in its log

    def begins(self, given, right):
        """It opens its store, and answers this."""
        self.pieces.write(given)
        wanted("what it says first", self.running.take(len(right)), right)
        self.commits = commits(self.box, "db")

    def asks(self, told, given, right, count=1):
        """All of this is there together, and answered before more is sent, in so many transactions."""
        self.pieces.write(given)
        wanted(f"{told}: what is said", self.running.take(len(right)), right)
        now = commits(self.box, "db")
        wanted(f"{told}: its transactions", now - self.commits, count)
        self.commits = now

    def has(self, told, parts):
        wanted(f"{told}: the parts are as the documents say", parts_beside(self.box, "db") == parts, True)

    def end(self):
        self.pieces.end()
        wanted("the end", self.running.end(), ended(0))


# ---- nothing waits over a read


def nothing_waits(box, plugin, sizes):
    """Groups, each with half of what comes next behind it: their answers come, and are committed, before the other half is sent."""
    whole = whole_of(box, plugin, "new")
    running = box.start(plugin, whole.fresh("db"), whole.word)
    since, sent = 0, 0
    given = whole.given()
    for end in whole.ends(sizes):
        group, behind = len(b"".join(call for call, _ in whole.pairs[:end])), whole.pairs[end][0] if end < len(whole.pairs) else b""
        until = group + len(behind) // 2
        running.send(given[sent:until])
        wanted(f"what is said up to {end}", running.take(len(whole.right(since, end))), whole.right(since, end))
        wanted(f"the parts up to {end}", whole.parts("db"), whole.states[end])
        since, sent = end, until
    wanted("the end", running.end(), ended(0))


# ---- many that wait


def creates(since, count):
    """Calls that make volumes; their replies, and the rows."""
    ids = range(since, since + count)
    rows = [stores.volume(at, f"v{at}", stores.kept("CreateVolume", (1, at), 0, at)) for at in ids]
    return b"".join(create((1, at), f"v{at}") for at in ids), b"".join(reply("CreateVolume", (1, at), 0, at) for at in ids), rows


def stages(since, count):
    ids = range(since, since + count)
    rows = [stores.staged(at, block(1), stores.kept("NodeStageVolume", (1, at))) for at in ids]
    return b"".join(stage((1, at), at) for at in ids), b"".join(reply("NodeStageVolume", (1, at)) for at in ids), rows


def orders(since, count):
    """Lines that ask for volumes; what is answered, and the rows."""
    lines, answers = [], []
    ids = range(since, since + count)
    for at in ids:
        goal = Talk(1, f"v{at}").create
        send = {"call": at, "frame": create((1, at), f"v{at}").hex(), "kind": "CreateVolume", "plugin": "controller", "session": 1}
        lines.append(line(goal))
        answers.append(about(f"v{at}", goal, "sent", send))
    return b"".join(lines), b"".join(answers), [stores.known(at, f"v{at}", stores.CREATE, 1) for at in ids]


def used_names(since, count):
    """What is answered to those lines when they come again."""
    return b"".join(about(f"v{at}", Talk(1, f"v{at}").create, "refused 1 NameUsed") for at in range(since, since + count))


# Its word, what is asked, how much of that fits into a piece, its first line, and its head after so many.
MANY = {
    "controller": ("config", creates, 64, b"", lambda count: stores.controller_head(count + 1, 1)),
    "node": ("n1", stages, 64, b"", lambda count: stores.node_head("n1", 1)),
    "orchestrator": ("config", orders, 32, first(1), lambda count: stores.orchestrator_head(1)),
}


def many(box, plugin, sizes):
    """Groups of these sizes: a transaction for each, and none for what changes nothing."""
    word, asked, _, line_out, head = MANY[plugin]
    box.put("config", CONFIG)
    grouped = Grouped(box, plugin, "db", word)
    given, right, rows = asked(1, 1)
    grouped.begins(given, line_out + right)
    for size in sizes:
        since = len(rows) + 1
        given, right, more = asked(since, size)
        rows = rows + more
        grouped.asks(f"{size} at once, {len(rows)} in all", given, right)
    grouped.has(f"{len(rows)} in all", [head(len(rows)), *rows])
    grouped.asks("the last ones again", given, used_names(since, size) if plugin == "orchestrator" else right, 0)
    grouped.end()
    wanted("the parts at the end are as the documents say", stores.parts_of(box.at("db")) == [head(len(rows)), *rows], True)


def in_a_pipe(box, plugin):
    """1,024 wait in a pipe and before it when the program is started: each read brings what it has room for, which is one transaction."""
    word, asked, _, line_out, head = MANY[plugin]
    box.put("config", CONFIG)
    given, right, rows = asked(1, 1024)
    pipe, room = Pipe(), 16 * PIECE  # of a pipe
    pipe.write(given[:room])
    running = box.start(plugin, "db", word, pipe=pipe)
    pipe.feed([given[room:]], ends=False)
    wanted("what is said", running.take(len(line_out + right)), line_out + right)
    came, pieces = commits(box, "db"), len(given) // PIECE + 1  # before its end, which empties the log
    pipe.end()
    wanted(f"{came} transactions, some of them of opening, for {pieces} pieces", 1 < came <= 2 * pieces, True)
    wanted("the end", running.end(), ended(0))
    wanted("the parts are as the documents say", stores.parts_of(box.at("db")) == [head(1024), *rows], True)


# ---- many parts


def forgotten(box):
    """A call by which many rows are forgotten is committed before the next one is answered; those behind it are committed together."""
    box.put("config", CONFIG)
    gone = [stores.volume(at, f"v{at}", stores.kept("DeleteVolume", (1, at)), live=False) for at in range(1, PARTS + 1)]
    stores.make(box.at("db"), [stores.controller_head(PARTS + 1, 1), *gone])
    grouped = Grouped(box, "controller", "db", "config")
    grouped.begins(delete((0, 1), 1), reply("DeleteVolume", (0, 1), 10, 0, "stale"))
    made = {"w": ((2, 2), PARTS + 1), "x": ((2, 3), PARTS + 2)}
    given = [delete((2, 1), 9999), *(create(at, name) for name, (at, _) in made.items())]
    right = [reply("DeleteVolume", (2, 1)), *(reply("CreateVolume", at, 0, volume) for at, volume in made.values())]
    grouped.asks("a session, and two calls", b"".join(given), b"".join(right), 2)
    rows = [stores.volume(volume, name, stores.kept("CreateVolume", at, 0, volume)) for name, (at, volume) in made.items()]
    grouped.has("at the end", [stores.controller_head(PARTS + 3, 2), *rows])
    grouped.end()


def losses(box, names, count):
    """Two losses at once tell the whole record twice: in one transaction, or in two where the first one has too many parts to wait."""
    box.put("config", CONFIG)
    rows = [stores.known(at, f"v{at}", stores.CREATE, 1) for at in range(1, names + 1)]
    stores.make(box.at("db"), [stores.orchestrator_head(1), *rows])
    grouped = Grouped(box, "orchestrator", "db", "config")
    grouped.begins(b"", first(2, *(f"v{at}" for at in range(1, names + 1))))
    right = b"".join(line({"node": node, "outcome": "lost", "session": session}) for node, session in (("n1", 3), ("n9", 4)))
    grouped.asks("two losses", line({"lose": "n1"}) + line({"lose": "n9"}), right, count)
    grouped.has("at the end", [stores.orchestrator_head(4, ["n2"]), *rows])
    grouped.end()


WAYS = {"each alone": APART, "some together": [2, 1, 3], "all together": TOGETHER}


def cases():
    for plugin, (_, _, most, _, _) in MANY.items():
        rows = [(f"nothing waits over a read, {how}", nothing_waits, plugin, sizes) for how, sizes in WAYS.items()]
        many_of = lambda count: [most] * (count // most) + [count % most] * (count % most > 0)
        rows += [("64", many, plugin, many_of(64)), ("1,024", many, plugin, [1, 2, 5, *many_of(1015)])]
        yield from of_rows(f"groups: {plugin}", [*rows, ("1,024 in a pipe", in_a_pipe, plugin)])
    rows = [("a session that forgets many", forgotten), ("two losses of few names", losses, PARTS // 2 - 1, 1), ("two losses of many names", losses, PARTS, 2)]
    yield from of_rows("groups: many parts", rows)
