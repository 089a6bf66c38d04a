"""`recover-controller`: a controller's store, made of the orchestrator's, held against what `rebuilding` makes of the same parts: by hand, drawn, and of shards in
processes, which go on with it; and what it refuses. Each refusal has its line, and no store changes."""
import os
import random

from . import stores
from .configs import PLAIN
from .drawn_recoveries import is_refused, may_join
from .frames import block, mount
from .plugins import NOT_OPENED
from .rebuilding import Rebuilding
from .records import BAD_PARTS, NO_STORES, damages
from .recoveries import Set
from .recovering import LAST
from .refused_recoveries import DEVICE, changed, one_of
from .running import Case, LeftOut, ended, of_rows, wanted
from .shards import CONTROLLER, NODES, STALE, Shard, config_of
from .whole import parts_beside
from .words import NO_SESSIONS, USAGE

ORCHESTRATOR, NEW = "o.db", "new.db"
WORDS = "NEW.db CONFIG NEXT ORCHESTRATOR.db NODE.db.."


def can_rebuild(box):
    """Left out where the program has no such subcommand."""
    if b"\n  recover-controller " not in box.run("--help").out:
        raise LeftOut("the program has no recover-controller")


class Lost(Set):
    """An orchestrator's store and nodes' stores in a box, by the names of their files, in the order of the words; and NEXT."""

    def __init__(self, box, names, next_id, new=NEW):
        super().__init__(box, names, ["n1"], next_id, new)

    @classmethod
    def made(cls, box, orchestrator, nodes, next_id, new=NEW):
        names = [ORCHESTRATOR, *(f"given{place}.db" for place in range(2, 2 + len(nodes)))]
        for name, parts in zip(names, (orchestrator, *nodes)):
            stores.make(box.at(name), parts)
        return cls(box, names, next_id, new)

    def words(self):
        return ["recover-controller", self.new, "config", str(self.session), *self.names]

    def recovery(self):
        _, orchestrator, *nodes = self.parts()
        return Rebuilding(self.session, orchestrator, nodes)


# ---- a set by hand: volume 7 is used at two nodes, 3 may be attached at one, 4 was deleted, 5 is being deleted; w is being created, and x was refused

EXT4 = mount("ext4", 1)
PARTS = [
    stores.orchestrator_head(5, ["n1", "n2"]),
    stores.known(
        *(1, "v"),
        **{"required": 20, "limit": 40, "capabilities": [block(5), EXT4], "volume": 7, "exists": "yes"},
        at=[stores.at_node("n2", block(5), "yes", "yes", [("/b", "yes")], True), stores.at_node("n1", block(5), "yes", "yes", [("/b", "yes"), ("/a", "yes")])],
    ),
    stores.known(2, "w", stores.CREATE, 3),
    stores.known(
        *(3, "a", stores.use("n1", "/c", EXT4, True), 1, 0, 2**63 - 1, [EXT4], 3, "yes"),
        at=[stores.at_node("n1", EXT4, "maybe", "no", [("/c", "no")], True)],
    ),
    stores.known(4, "gone", volume=4, exists="no"),
    stores.known(5, "going", stores.DELETE, 2, 0, 9, volume=5, exists="maybe"),
    stores.known(6, "\u00e9", volume=6, exists="yes", required=2**63 - 1),
    stores.known(7, "x"),
]
N1 = [
    stores.node_head("n1", 4),
    stores.staged(7, block(5), stores.kept("NodePublishVolume", (4, 5)), [("/b", False), ("/a", False)]),
    stores.staged(9, None, stores.kept("NodeUnstageVolume", (4, 6))),
]
N2 = [stores.node_head("n2", 5), stores.staged(7, block(5), stores.kept("NodePublishVolume", (3, 9)), [("/b", True)])]
# What comes of it, by hand.
KEPT = lambda volume: stores.kept("CreateVolume", (0, 0), 0, volume)
NEW_PARTS = [
    stores.controller_head(8, 6),
    stores.volume(3, "a", KEPT(3), 2**30, [EXT4], [("n1", EXT4, True)]),
    stores.volume(5, "going", KEPT(5), 9),
    stores.volume(6, "\u00e9", KEPT(6), 2**63 - 1),
    stores.volume(7, "v", KEPT(7), 20, [block(5), EXT4], [("n2", block(5), True), ("n1", block(5), False)]),
]
LINE = b'{"attached":3,"creating":["w","x"],"next":8,"session":6,"volumes":4}\n'


def by_hand(box):
    """Each part, in literal bytes, with nodes' stores and without; it is a controller's store then, and no new one any more; the orchestrator goes on."""
    can_rebuild(box)
    it = Lost.made(box, PARTS, [N1, N2], 8)
    wanted("the oracle's", (it.recovery().made().new, it.recovery().made().line, list(it.recovery().refusals())), (NEW_PARTS, LINE, []))
    before = it.parts()
    box.wants(ended(0, out=LINE), *it.words())
    wanted("the parts", it.parts(), [NEW_PARTS, *before[1:]])
    it.refuses(ended(1, "store not new"), "once more")
    box.wants(ended(0), "controller", NEW, "config")
    box.put("config", config_of(["n1", "n2"]))
    box.wants(ended(0, out=b'{"session":6,"wanted":["a","going","w"]}\n'), "orchestrator", ORCHESTRATOR, "config")
    os.mkdir(box.at("alone"))
    it = Lost.made(type(box)(box.program, box.at("alone")), PARTS, [], 8)
    wanted("the line", it.recovers("alone").line, LINE)


def line_of_the_page(box):
    """The line of the page."""
    can_rebuild(box)
    parts = [stores.orchestrator_head(5, ["n1"]), stores.known(1, "v", volume=1, exists="yes", at=[stores.at_node("n1", block(1), "yes", "yes", [("/a", "yes")])]), stores.known(2, "w", stores.CREATE, 1)]
    it = Lost.made(box, parts, [], 3)
    box.wants(ended(0, out=b'{"attached":1,"creating":["w"],"next":3,"session":6,"volumes":1}\n'), *it.words())


def nothing_there(box):
    """An orchestrator that has no rows."""
    can_rebuild(box)
    for at, (session, next_id) in enumerate(((0, 1), (1, 2), (LAST - 1, LAST))):
        os.mkdir(box.at(str(at)))
        it = Lost.made(type(box)(box.program, box.at(str(at))), [stores.orchestrator_head(session)], [[stores.node_head("n1", session)]], next_id)
        wanted("the session", it.recovers().session, session + 1)


def over(box, how):
    """NEW.db may be there, without parts."""
    can_rebuild(box)
    it = Lost.made(box, PARTS, [N1, N2], 99)
    if how == "empty":
        box.put(NEW, b"")
    elif how == "no parts":
        stores.make(box.at(NEW), [])
    elif how == "half made":
        box.put(NEW, bytes(4096))
    it.recovers()


# ---- what is refused

USED = lambda **how: stores.known(1, "v", **{"volume": 1, "exists": "yes", **how})
HEAD = stores.orchestrator_head(5, ["n1", "n2"])
GONE = stores.known(1, "gone", volume=1, exists="no", required=0)
REFUSED = [  # the line, NEXT, the parts of the orchestrator and of the nodes
    ("no session is left", "numbers spent", 99, [stores.orchestrator_head(LAST)], []),
    ("NEXT is 0", "id taken", 0, [stores.orchestrator_head(1)], []),
    ("NEXT is a known id", "id taken", 7, PARTS, []),
    ("NEXT is below a known id", "id taken", 6, PARTS, [N1]),
    ("NEXT is the id of a volume that was deleted", "id taken", 9, [HEAD, stores.known(1, "v", volume=9, exists="no")], []),
    ("two rows of one id", "record fault at 2, store 1", 9, [HEAD, USED(), stores.known(2, "w", volume=1, exists="yes")], []),
    ("no capability, behind a deleted volume of another's id", "record fault at 3, store 1", 9, [HEAD, GONE, stores.known(2, "v", volume=1, exists="yes"), stores.known(3, "w", volume=2, exists="yes", capabilities=[])], []),
    ("no capability", "record fault at 1, store 1", 9, [HEAD, USED(capabilities=[])], []),
    ("no capacity", "record fault at 2, store 1", 9, [HEAD, stores.known(1, "w"), stores.known(2, "v", volume=1, exists="yes", required=0)], []),
    ("too much capacity", "record fault at 1, store 1", 9, [HEAD, USED(required=2**63)], []),
    ("two stores of one node", "stores disagree, store 3", 8, PARTS, [N1, [stores.node_head("n1", 1)], N2]),
    ("a node of a later session", "older store", 8, PARTS, [N1, [stores.node_head("n2", 6), *N2[1:]]]),
    ("staged, not attached there", "stores disagree, store 2", 8, PARTS, [[N1[0], stores.staged(6, block(1), stores.kept("NodeStageVolume", (4, 5)))]]),
    ("staged, and there is no such volume", "stores disagree, store 3", 8, PARTS, [N1, [N2[0], stores.staged(4, block(1), stores.kept("NodeStageVolume", (4, 5)))]]),
    ("staged in another mode", "stores disagree, store 2", 8, PARTS, [[N2[0], stores.staged(7, block(3), stores.kept("NodeStageVolume", (4, 5)))], N1]),
    ("published with another flag", "stores disagree, store 2", 8, PARTS, [[N2[0], stores.staged(7, block(5), stores.kept("NodeStageVolume", (4, 5)), [("/b", False)])]]),
]


def refused(box, right, next_id, orchestrator, nodes):
    can_rebuild(box)
    it = Lost.made(box, orchestrator, nodes, next_id)
    wanted("the oracle's", next(it.recovery().refusals()), right)
    it.refuses(ended(1, right))


def not_new(box, parts):
    """NEW.db has parts, whatever they are."""
    can_rebuild(box)
    it = Lost.made(box, PARTS, [N1, N2], 8)
    stores.make(box.at(NEW), parts)
    it.refuses(ended(1, "store not new"))


def no_record(box, place, parts, at):
    can_rebuild(box)
    given = [PARTS, N1, N2]
    given[place - 1] = parts
    Lost.made(box, given[0], given[1:], 8).refuses(ended(1, f"record fault at {at}, store {place}"))


def bad_parts(box):
    """Each of the parts that are no record, as the orchestrator's; one of another kind is at fault from its head on."""
    can_rebuild(box)
    for what, at, parts in BAD_PARTS:
        kind = parts[0][1][1:2] if parts and parts[0][0] == bytes(8) else None
        if len(parts) > 100 or parts[:1] == [("x", b"x")]:
            continue
        os.mkdir(box.at(what.replace("/", " ")))
        is_foreign = any(len(key) != 8 for key, _ in parts)
        no_record(type(box)(box.program, box.at(what.replace("/", " "))), 1, parts, at if is_foreign or kind == b"\2" else 0)


def damaged(box):
    can_rebuild(box)
    for place, parts in ((1, PARTS), (2, N1)):
        for at in range(len(parts)):
            for what, others in damages(parts, at):
                folder = f"{place} {at} {what}"
                os.mkdir(box.at(folder))
                no_record(type(box)(box.program, box.at(folder)), place, others, at)


def of_others(box):
    """A store of another kind."""
    can_rebuild(box)
    for place, parts in ((1, N1), (1, NEW_PARTS), (2, NEW_PARTS), (2, PARTS), (3, PARTS)):
        folder = f"{place} {parts[0][1][1]}"
        os.mkdir(box.at(folder))
        no_record(type(box)(box.program, box.at(folder)), place, parts, 0)


def no_stores(box):
    """What is no store is opened by nobody, as the orchestrator's, a node's or as NEW.db; it stays, and so do all others."""
    can_rebuild(box)
    for at, (what, making) in enumerate(NO_STORES):
        folder, place = f"{what} {at % 3}", at % 3
        os.mkdir(box.at(folder))
        it = Lost.made(type(box)(box.program, box.at(folder)), PARTS, [N1, N2], 8)
        name = (NEW, *it.names)[place]
        if place:
            os.remove(it.box.at(name))
        making(it.box.at(name))
        before, parts = it.box.files()[name], it.parts()
        wanted(f"{what} as {name}", it.run(), NOT_OPENED)
        wanted(f"{what} as {name}: the file and the parts", (it.box.files()[name], it.parts()), (before, parts))


def missing(box):
    """A store that is missing isn't made; nor is one that is in use taken."""
    can_rebuild(box)
    it = Lost.made(box, PARTS, [N1, N2], 8)
    for name in it.names:
        os.rename(box.at(name), box.at("away"))
        it.refuses(NOT_OPENED, f"without {name}")
        wanted(f"whether {name} is there", os.path.exists(box.at(name)), False)
        os.rename(box.at("away"), box.at(name))
    box.put("config", config_of(["n1", "n2"]))
    running = box.start("orchestrator", ORCHESTRATOR, "config")
    running.asks(b"", b'{"session":6,"wanted":["a","going","w"]}\n')
    it.refuses(NOT_OPENED, "beside the orchestrator")
    wanted("its end", running.end(), ended(0))
    it.recovers()


def twice(box):
    """One file as two stores, or as NEW.db too, is refused, and nothing changes."""
    can_rebuild(box)
    it = Lost.made(box, PARTS, [N1, N2], 8)
    names = it.names
    for others in ([*names, names[1]], [*names, names[2]], [names[0], *names], [names[0], names[0]]):
        it.names = others
        one_of(it, others, NOT_OPENED, ended(1, "stores disagree, store 4"), ended(1, "record fault at 0, store 2"))
    it.names = names
    for name in names:
        it.new = name
        one_of(it, name, NOT_OPENED, ended(1, "store not new"))


def no_config(box):
    """CONFIG is read before a store is opened or made; what it grants judges nothing."""
    can_rebuild(box)
    it = Lost.made(box, PARTS, [N1, N2], 8)
    os.remove(box.at("config"))
    before = box.files()
    box.wants(DEVICE, *it.words())
    wanted("the folder", box.files(), before)
    for content, right in [(b"\xff", ended(1, "not UTF-8")), *((it, ended(1, "config refused")) for it in (b"", b"{}", b"[]", PLAIN[:-1], PLAIN + b"x"))]:
        box.put("config", content)
        before = box.files()
        box.wants(right, *it.words())
        wanted("the folder", box.files(), before)
    box.put("config", config_of([], greatest=1))
    it.recovers()


def words(box):
    """Too few words, and words that are no number; nothing is read or made."""
    can_rebuild(box)
    it = Lost.made(box, PARTS, [N1, N2], 8)
    before = box.files()
    name, *rest = it.words()
    for count in range(4):
        box.wants(USAGE, name, *rest[:count])
    for word in (*NO_SESSIONS, "-1", "-0"):
        box.wants(USAGE, name, *rest[:2], word, *rest[3:])
        box.wants(USAGE, name, rest[0], "nothing", word, "nothing", "nothing")
    box.wants(USAGE, name, "-x", *rest[1:])
    box.wants(USAGE, name, *rest, "-n")
    box.wants(USAGE, name, *rest, "--help")
    box.wants(USAGE, *(it.encode() for it in (name, *rest)), b"\xff")
    wanted("the folder", box.files(), before)
    ran = box.run(name, "--help")
    wanted("the help", (ran.status, ran.out.splitlines()[:1], ran.error), (0, [f"Usage: csi-replay recover-controller {WORDS}".encode()], b""))
    box.wants(ended(0, out=LINE), name, "--", *rest)


# ---- drawn sets


def drawn_rows(drawn, nodes):
    """Rows of an orchestrator at rest, and what its nodes have of them."""
    rows, staged = [], {node: {} for node in nodes}
    ids = drawn.sample(range(1, 60), 12)
    for place in range(1, drawn.randint(1, 9)):
        name, volume = f"v{place}", ids.pop()
        ways = [drawn.choice((block, lambda mode: mount(drawn.choice(("", "ext4")), mode)))(drawn.randint(1, 7)) for _ in range(drawn.randint(1, 3))]
        made = {"required": drawn.choice((0, 7, 2**40)), "limit": drawn.choice((2**20, 2**50)), "capabilities": ways}
        kind = drawn.random()
        if kind < 0.15:
            rows.append(stores.known(place, name, *drawn.choice(((stores.NO_GOAL, 0), (stores.CREATE, 2))), **made))
        elif kind < 0.25:
            rows.append(stores.known(place, name, stores.DELETE, 1, volume=volume, exists="maybe", **made))
        elif kind < 0.35:
            rows.append(stores.known(place, name, volume=volume, exists="no", **made))
        else:
            rows.append(stores.known(place, name, volume=volume, exists="yes", at=drawn_entries(drawn, nodes, ways, volume, staged), **made))
    return rows, staged


def drawn_entries(drawn, nodes, ways, volume, staged):
    entries, held = [], []
    for node in drawn.sample(nodes, drawn.randint(0, len(nodes))):
        way, readonly = drawn.choice(ways), drawn.random() < 0.4
        if held and not may_join(held, way, readonly):
            continue
        held.append((node, way, readonly))
        if drawn.random() < 0.3:  # left, as of a lost node
            entries.append(stores.at_node(node, way, drawn.choice(("yes", "maybe")), "no", [], readonly))
            continue
        targets = drawn.sample("abcd", 1 if way[-1] in (1, 2, 6) else drawn.randint(1, 3))
        entries.append(stores.at_node(node, way, "yes", "yes", [(f"/{it}", "yes") for it in targets], readonly))
        staged[node][volume] = (way, [(f"/{it}", readonly) for it in targets])
    return entries


def spoiled(drawn, staged, node):
    """Something else is staged there, or staged otherwise, or the session is a later one."""
    others = dict(staged)
    volume = drawn.randint(1, 60)
    others[volume] = (block(drawn.choice((1, 5))), [("/a", drawn.random() < 0.5)])
    return others


def drawn_sets(box, seed, count, spoils):
    can_rebuild(box)
    drawn, refused_sets = random.Random(seed), 0
    for at in range(count):
        os.mkdir(box.at(str(at)))
        nodes = [f"n{it}" for it in range(drawn.randint(1, 5))]
        session = drawn.randint(2, 9)
        rows, staged = drawn_rows(drawn, nodes)
        given = []
        for node in drawn.sample(nodes, drawn.randint(0, len(nodes))):
            has = spoiled(drawn, staged[node], node) if spoils and drawn.random() < 0.3 else staged[node]
            later = 1 if spoils and drawn.random() < 0.1 else 0
            parts = [stores.staged(it, way, stores.kept("NodeStageVolume", (1, 3)), targets) for it, (way, targets) in sorted(has.items())]
            given.append([stores.node_head(node, drawn.randint(1, session) if not later else session + later), *parts])
        it = Lost.made(type(box)(box.program, box.at(str(at))), [stores.orchestrator_head(session, nodes), *rows], given, drawn.randint(30, 60) if spoils else 60)
        told = f"seed {seed}, set {at}"
        if right := list(it.recovery().refusals()):
            refused_sets += 1
            is_refused(it, right, told)
        else:
            it.recovers(told)
    wanted(f"{refused_sets} of {count} are refused, so whether some are, and not all", 0 < refused_sets < count if spoils else refused_sets == 0, True)


# ---- a shard that goes on


def goes_on(box, seed, count):
    """A shard runs, and is killed or ended; its controller's store is lost, and made anew. Every call that the lost one was ever sent is stale then, each old
    reply is ignored; what is late at a node comes as ever; all is used, stopped and deleted."""
    can_rebuild(box)
    drawn = random.Random(seed)
    for at in range(count):
        told = f"seed {seed}, shard {at}"
        os.mkdir(box.at(str(at)))
        inner = type(box)(box.program, box.at(str(at)))
        inner.put("config", config_of(NODES))
        old = Shard(inner, drawn)
        old.start(NODES)
        old.turns(drawn.randint(5, 150))
        next_id = old.record(CONTROLLER)["next_id"] + drawn.choice((0, 0, 5))
        old.end(is_killed=drawn.random() < 0.5)
        for end in ("", "-wal", "-shm"):
            if os.path.exists(inner.at(f"{CONTROLLER}.db{end}")):
                os.remove(inner.at(f"{CONTROLLER}.db{end}"))
        it = Lost(inner, [ORCHESTRATOR, *(f"{node}.db" for node in NODES if drawn.random() < 0.6)], next_id, f"{CONTROLLER}.db")
        wanted(f"{told}: what is refused", list(it.recovery().refusals()), [])
        made = it.recovers(told)
        inner.put("config", config_of(NODES))
        shard = Shard(inner, drawn)
        said = shard.start(NODES)
        wanted(f"{told}: the session", said["session"], made.session)
        shard.audit(f"{told}, at the start")
        stale(shard, old, told)
        shard.under_way = list(old.calls) + [("orchestrator", reply) for reply in old.replies]
        shard.turns(drawn.randint(20, 120))
        shard.audit(f"{told}, later")
        stale(shard, old, told)
        for name in [name for name, goal in shard.goals.items() if goal]:
            shard.settle({"timeout": name})
        shard.audit(f"{told}, at rest")
        shard.empties()
        shard.end()


def stale(shard, old, told):
    """All calls of before are stale at the controller, and all replies of before are ignored."""
    before = shard.record(CONTROLLER)
    for plugin, frame in old.calls:
        if plugin == CONTROLLER:
            wanted(f"{told}: whether an old call is stale", shard.ask(CONTROLLER, frame).endswith(STALE), True)
    for frame in old.replies:
        wanted(f"{told}: an old reply", shard.tell({"reply": frame.hex()}), {"outcome": "ignored"})
    wanted(f"{told}: the record then", shard.record(CONTROLLER), before)


ROWS = [
    ("a set by hand", by_hand),
    ("the line of the page", line_of_the_page),
    ("no rows", nothing_there),
    *((f"over a NEW.db that is {how}", over, how) for how in ("empty", "no parts", "half made")),
    *((f"refused: {name}", refused, *rest) for name, *rest in REFUSED),
    ("NEW.db is a controller's", not_new, NEW_PARTS),
    ("NEW.db has a head alone", not_new, [stores.controller_head(1, 0)]),
    ("NEW.db is the orchestrator's", not_new, PARTS),
    ("NEW.db has parts that are no record", not_new, [("x", b"x")]),
    ("parts that are no record", bad_parts),
    ("damaged parts", damaged),
    ("stores of others", of_others),
    ("files that are no store", no_stores),
    ("stores that are missing, and in use", missing),
    ("one file twice", twice),
    ("CONFIG", no_config),
    ("words", words),
]


def cases(seed):
    yield from of_rows("recover-controller", ROWS)
    yield Case("recover-controller: sets that agree", lambda box: drawn_sets(box, seed, 25, False))
    yield Case("recover-controller: sets of which some don't", lambda box: drawn_sets(box, seed, 40, True))
    for part in range(2):
        yield Case(f"recover-controller: a shard goes on, {part + 1}", lambda box, part=part: goes_on(box, seed * 2 + part, 3))
