"""A stream takes no more memory the longer it is, and 4,096 rows no more than their own: in a process that may have so much and no more."""
import resource

from . import full, stores
from .frames import block, create, mount, reply, stage
from .largest import OWN
from .orchestrators import CONFIG, MOST, padded
from .plugins import given_of
from .running import Pipe, ended, of_rows, wanted
from .talks import Talk, about, first, line

MB = 2**20
ROOM = 24 * MB  # of addresses that a process may have over a small store, where it has 14
FULL_ROOM = 32 * MB  # and over a full one, where it has 18, or 24 where it tells it
GROWTH = 256  # kilobytes, between a tenth of a stream and its end
AT_ONCE = 4096  # frames or lines that are written at once
MILLION = 1_000_000 // AT_ONCE + 1


def limited(size):
    return lambda: resource.setrlimit(resource.RLIMIT_AS, (size, size))


def memory_of(running):
    """The most kilobytes that it had so far: of addresses, and of memory."""
    with open(f"/proc/{running.process.pid}/status", encoding="utf-8") as file:
        found = dict(line.split(":", 1) for line in file)
    return [int(found[key].split()[0]) for key in ("VmPeak", "VmHWM")]


def stream(box, words, pieces, line_out=b""):
    """Pieces with what comes of them, one after another: it all comes, and from a tenth on no more memory is taken."""
    box.put("config", CONFIG)
    pipe = Pipe()
    running = box.start(*words, pipe=pipe)
    resource.prlimit(running.process.pid, resource.RLIMIT_AS, (ROOM, ROOM))
    pipe.feed((given for given, _ in pieces), ends=False)
    wanted("the first line", running.take(len(line_out)), line_out)
    before = []
    for at, (_, right) in enumerate(pieces):
        came = running.take(len(right))
        if came != right:
            wanted(f"what comes of piece {at}", came, right)
        if at == len(pieces) // 10:
            before = memory_of(running)
    after = memory_of(running)
    pipe.end()
    wanted("the end", running.end(), ended(0))
    grown = [now - was for now, was in zip(after, before)]
    wanted(f"of {before} kilobytes it came to {after}, so to more than {GROWTH} more", max(grown) <= GROWTH, True)


LONGEST = create((1, 1), "v" * 128, capabilities=[mount("f" * 128, 5)] * 8)


def again(given, right, count=AT_ONCE, times=MILLION):
    return [(given * count, right * count)] * times


def sent_again():
    """A call to stop using a volume is sent again and again, each time under a new number."""
    talk = Talk(1)
    talk.makes()
    talk.uses()
    talk.asks(talk.stop, talk.stop, "NodeUnpublishVolume")
    for _ in range(12_000):
        talk.asks(talk.timeout, talk.stop, "NodeUnpublishVolume")
    return [(b"".join(given for given, _ in talk.pairs[at : at + 100]), b"".join(right for _, right in talk.pairs[at : at + 100])) for at in range(1, len(talk.pairs), 100)]


REFUSED = line(Talk(1).timeout), about("v", None, "refused 2 NoSuchVolume")
STREAMS = [  # the words, the pieces, and the first line
    ("a million frames, answered", ("answer", "/dev/stdin"), lambda: again(create((1, 1), "v"), reply("CreateVolume", (1, 1), 0, 1))),
    ("80 MB of the longest frames, answered", ("answer", "/dev/stdin"), lambda: again(LONGEST, reply("CreateVolume", (1, 1), 0, 1), 64, 1000)),
    ("a million frames to a controller", ("controller", "db", "config"), lambda: again(create((1, 1), "v"), reply("CreateVolume", (1, 1), 0, 1))),
    ("250,000 frames to a node", ("node", "db", "n1"), lambda: again(stage((1, 1), 1), reply("NodeStageVolume", (1, 1)), times=MILLION // 4)),
    ("a million lines", ("orchestrator", "db", "config"), lambda: again(*REFUSED), first(1)),
    ("65 MB of the longest lines", ("orchestrator", "db", "config"), lambda: again(padded(REFUSED[0], MOST), REFUSED[1], 1, 1000), first(1)),
    ("a call that is sent again 12,000 times", ("orchestrator", "db", "config"), sent_again, first(1)),
]


CHANGES_ALL = {  # what changes each row of a full store
    "controller": given_of(full.NEXT_OF_CONTROLLER),
    "node": given_of(full.NEXT_OF_NODE),
    "orchestrator": line({"lose": "n1"}),
}


def full_store(box, name):
    """A full store is told, opened, and changed as a whole in so much room."""
    word, parts = OWN[name]
    box.put("config", full.CONFIG if name != "orchestrator" else CONFIG)
    stores.make(box.at("db"), parts())
    for words, given in ((("record", "db"), b""), ((name, "db", word), b""), ((name, "db", word), CHANGES_ALL[name])):
        ran = box.run(*words, given=given, preexec_fn=limited(FULL_ROOM))
        wanted(f"{words} in {FULL_ROOM // MB} MB", (ran.status, ran.error), (0, b""))


def small_store(box):
    """Whatever is asked of a small one fits into less."""
    box.put("config", CONFIG)
    box.put("schedule", b'{"config":%s,"events":[]}' % CONFIG)
    box.put("frames", create((1, 1), "v", capabilities=[block(1)]))
    for words in (
        ("controller", "c.db", "config"),
        ("node", "n.db", "n1"),
        ("orchestrator", "o.db", "config"),
        *(("record", f"{it}.db") for it in "cno"),
        *((name, "schedule") for name in ("run", "frames", "draw")),
        *((name, "frames") for name in ("answer", "show")),
    ):
        ran = box.run(*words, preexec_fn=limited(ROOM))
        wanted(f"{words} in {ROOM // MB} MB", (ran.status, ran.error), (0, b""))


def cases():
    yield from of_rows("memory", [(name, lambda box, words, pieces, *rest: stream(box, words, pieces(), *rest), *row) for name, *row in STREAMS])
    yield from of_rows("memory: a full store", [(name, full_store, name) for name in OWN])
    yield from of_rows("memory", [("small stores", small_store)])
