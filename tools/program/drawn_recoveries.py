"""`recover` over sets that are drawn, written by SQLite, and over the stores of shards in processes, which go on with what was made; all that was ever sent to
them comes late."""
import os
import random

from . import stores
from .frames import block, mount
from .recoveries import CONTROLLER, NEW, Set, can_recover
from .running import Case, ended, of_rows, wanted
from .shards import NODES, Shard, config_of
from .talks import first, line
from .whole import parts_beside

MODES = {1: (1, 2, 3, 4, 5)}


def drawn_set(drawn, version):
    """The parts of a controller and of nodes that agree, in a version: as runs of one orchestrator leave them, but for the numbers of the calls."""
    nodes = [f"n{at}" for at in range(drawn.randint(1, 5))]
    modes = MODES.get(version, (1, 2, 3, 4, 5, 6, 7))
    volumes, staged = [], {node: [] for node in nodes}
    ids = sorted(drawn.sample(range(1, 40), drawn.randint(0, 8)))
    session = drawn.randint(1, 9)
    for at in ids:
        call = (drawn.randint(1, session), drawn.randint(1, 99))
        if drawn.random() < 0.2:
            volumes.append(stores.volume(at, f"v{at}", stores.kept("DeleteVolume", (session, call[1])), live=False, version=version))
            continue
        ways = [drawn.choice((block, lambda mode: mount(drawn.choice(("", "ext4")), mode)))(drawn.choice(modes)) for _ in range(drawn.randint(1, 3))]
        held, used = [], []
        for node in drawn.sample(nodes, drawn.randint(0, len(nodes))):
            way, readonly = drawn.choice(ways), drawn.random() < 0.4
            if held and not may_join(held, way, readonly):
                continue
            held.append((node, way, readonly))
            used.append((node, way, readonly))
        undone = False
        for node, way, readonly in used:
            count = drawn.choice((0, 1, 1, 2, 3)) if way[-1] not in (1, 2, 6) else drawn.randint(0, 1)
            if drawn.random() < 0.25 or count == 0 and undone:
                continue
            undone = undone or count == 0
            targets = [(f"/{it}", readonly) for it in drawn.sample("abcd", count)]
            staged[node].append((at, way, targets))
        volumes.append(stores.volume(at, f"v{at}", stores.kept("ControllerPublishVolume", call), drawn.randint(1, 99), ways, held, version=version))
    controller = [stores.controller_head(drawn.choice((0, 99)), session, version), *volumes]
    return controller, [parts_of_node(drawn, node, rows, version) for node, rows in staged.items()]


def may_join(held, way, readonly):
    """Whether a volume that is held so may be held so too: modes for several nodes, and one writer where one of them says so."""
    for _, other, its in held:
        if way[-1] not in (3, 4, 5) or other[-1] not in (3, 4, 5):
            return False
        writes = [mode != 3 and not only for mode, only in ((way[-1], readonly), (other[-1], its))]
        if 4 in (way[-1], other[-1]) and all(writes):
            return False
    return True


def parts_of_node(drawn, node, rows, version):
    session, parts = drawn.randint(1, 9), {}
    for at, way, targets in rows:
        parts[at] = stores.staged(at, way, stores.kept("NodeStageVolume", (drawn.randint(1, session), 3)), targets, version)
    for at in drawn.sample(range(50, 60), drawn.randint(0, 3)):
        parts[at] = stores.staged(at, None, stores.kept("NodeUnstageVolume", (session, 4)), version=version)
    return [stores.node_head(node, session, version), *(parts[at] for at in sorted(parts))]


def spoiled(drawn, nodes):
    """A row of a node is of another volume, or staged otherwise, or published with another flag, or nowhere."""
    at = drawn.randrange(len(nodes))
    staged = [place for place, (_, value) in enumerate(nodes[at]) if place and value[1] == 1]
    if not staged:
        return nodes
    place = drawn.choice(staged)
    key, value = nodes[at][place]
    last, version = value[-27:], value[0]
    way = block(5) if drawn.random() < 0.4 else block(1) if drawn.random() < 0.3 else value[2 : 2 + way_size(value)]
    targets = [("/a", drawn.random() < 0.5)] if drawn.random() < 0.6 else []
    other = stores.staged(int.from_bytes(key, "big"), way, last, targets, version)
    return [*nodes[:at], [*nodes[at][:place], other, *nodes[at][place + 1 :]], *nodes[at + 1 :]]


def way_size(value):
    return 2 if value[2] == 0 else 3 + value[3]


def drawn_sets(box, seed, count, spoils):
    """Sets by SQLite: each is recovered, or refused, as the oracle says."""
    can_recover(box)
    drawn, refused = random.Random(seed), 0
    for at in range(count):
        folder = f"{at}"
        os.mkdir(box.at(folder))
        controller, nodes = drawn_set(drawn, drawn.choice((1, 2, 3, 3, 3)))
        for _ in range(drawn.randint(1, 3) if spoils else 0):
            nodes = spoiled(drawn, nodes)
        given = [it for it in nodes if drawn.random() < 0.8]
        drawn.shuffle(given)
        if spoils and given and drawn.random() < 0.1:
            given.append(drawn.choice(given))
        listed = [f"n{it}" for it in range(6) if drawn.random() < (0.9 if spoils else 1)]
        it = Set.made(type(box)(box.program, box.at(folder)), controller, given, listed, drawn.choice((0, 3, 12)))
        told = f"seed {seed}, set {at}"
        if right := list(it.recovery().refusals()):
            refused += 1
            is_refused(it, right, told)
        else:
            it.recovers(told)
    wanted(f"{refused} of {count} are refused, so whether some are, and not all", 0 < refused < count or not spoils, True)


def is_refused(it, right, told):
    """By one of the lines of what is wrong."""
    came = it.run()
    wanted(f"{told}: {came}, so whether it is one of {right}", came in [ended(1, one) for one in right], True)
    it.refuses(came, told)


# ---- a shard that goes on


def recovered_shard(box, drawn, turns, told):
    """A shard runs, and is killed or ended at some moment; its orchestrator's store is lost, and some nodes."""
    shard = Shard(box, drawn)
    box.put("config", config_of(NODES))
    shard.start(NODES)
    shard.turns(turns)
    session = shard.session
    shard.end(is_killed=drawn.random() < 0.5)
    given = [node for node in NODES if drawn.random() < 0.75]
    drawn.shuffle(given)
    os.remove(box.at(shard.store))
    it = Set(box, [CONTROLLER, *(f"{node}.db" for node in given)], list(NODES), drawn.choice((0, session, session + 5)))
    left = {node: parts_beside(box, f"{node}.db") for node in NODES if node not in given}
    wanted(f"{told}: what is refused", list(it.recovery().refusals()), [])
    made = it.recovers(told)
    wanted(f"{told}: the nodes that aren't given", {node: parts_beside(box, f"{node}.db") for node in left}, left)
    return shard, given, made


def goes_on(box, seed, count):
    """The new orchestrator says what is wanted, undoes it, and uses, stops and deletes; all calls of before are stale, all replies of before ignored."""
    can_recover(box)
    drawn, wants = random.Random(seed), 0
    for at in range(count):
        folder, told = f"{at}", f"seed {seed}, shard {at}"
        os.mkdir(box.at(folder))
        inner = type(box)(box.program, box.at(folder))
        old, given, made = recovered_shard(inner, drawn, drawn.randint(5, 150), told)
        shard = Shard(inner, drawn, NEW)
        joining = [node for node in NODES if node not in given and drawn.random() < 0.5]
        for node in joining:
            for end in ("", "-wal", "-shm"):
                if os.path.exists(inner.at(f"{node}.db{end}")):
                    os.remove(inner.at(f"{node}.db{end}"))
        said = shard.start(given, joining=joining)
        wanted(f"{told}: the first line", (line(said), sorted(shard.goals)), (first(made.session + 1, *shard.goals), said["wanted"]))
        wanted(f"{told}: what is wanted", line(said).split(b'"wanted":')[1], made.line.split(b'"wanted":')[1])
        shard.audit(f"{told}, at the start")
        shard.old_frames(old.calls, old.replies)
        for name in list(shard.goals):
            wanted(f"{told}: a timeout of {name}", shard.settle({"timeout": name}), "sent")
            wants += 1
        shard.audit(f"{told}, once all is undone")
        shard.turns(drawn.randint(0, 40))
        shard.old_frames(old.calls[-20:], old.replies[-20:])
        rest(shard)
        shard.empties()
        shard.old_frames(old.calls, old.replies)
        shard.end()
    return wants


def rest(shard):
    """Nothing is wanted any more; of a node that isn't there first it is told that it is lost."""
    for node in NODES:
        if node not in shard.parts:
            shard.tell({"lose": node})
    shard.goals = {it["name"]: it["goal"] for it in shard.record("orchestrator")["volumes"] if it["goal"]}
    for name in list(shard.goals):
        shard.settle({"timeout": name})
    shard.audit("at rest")


def staged_alone(box):
    """A volume that is staged and published nowhere, as a use that was cut short leaves it: its stop is wanted, and then it is free."""
    can_recover(box)
    drawn = random.Random(1)
    box.put("config", config_of(["n1"]))
    old = Shard(box, drawn)
    old.start(["n1"])
    old.settle({"create": {"capabilities": [{"access": "block", "mode": 1}], "limit": 0, "name": "v", "required": 10}})
    use = {"use": {"capability": {"access": "block", "mode": 1}, "name": "v", "node": "n1", "readonly": False, "target": "/a"}}
    sent = old.tell(use)["send"]
    for _ in range(2):  # it is attached, and staged
        sent = old.tell({"reply": old.ask(sent["plugin"].removeprefix("node:"), bytes.fromhex(sent["frame"])).hex()})["send"]
    wanted("what is under way", sent["kind"], "NodePublishVolume")
    old.end(is_killed=True)
    os.remove(box.at("o.db"))
    it = Set(box, [CONTROLLER, "n1.db"], ["n1"])
    wanted("the line", it.recovers().line, b'{"lost":[],"session":1048577,"volumes":1,"wanted":["v"]}\n')
    shard = Shard(box, drawn, NEW)
    wanted("the first line", shard.start(["n1"]), {"session": 1048578, "wanted": ["v"]})
    wanted("what is wanted", shard.goals, {"v": {"stop": {"name": "v", "node": "n1", "target": "/"}}})
    wanted("whether it is busy", shard.tell(use)["outcome"], "refused 4 Busy")
    shard.old_frames(old.calls, old.replies)
    wanted("the timeout", shard.settle({"timeout": "v"}), "sent")
    wanted("what was sent", [plugin for plugin, _ in shard.calls], ["n1", "controller"])
    wanted("the use", shard.settle(use), "sent")
    shard.audit("used again")
    shard.end()


def name_is_free(box):
    """A volume that was being created, and isn't made yet: its name is free, and the call that comes late makes none. One that was made is there."""
    can_recover(box)
    drawn = random.Random(2)
    box.put("config", config_of(["n1"]))
    create = lambda name: {"create": {"capabilities": [{"access": "block", "mode": 1}], "limit": 20, "name": name, "required": 10}}
    old = Shard(box, drawn)
    old.start(["n1"])
    for name in ("late", "made"):
        old.tell(create(name))
    old.deliver(*old.calls[-1])
    old.end()
    os.remove(box.at("o.db"))
    it = Set(box, [CONTROLLER, "n1.db"], ["n1"])
    wanted("the line", it.recovers().line, b'{"lost":[],"session":1048577,"volumes":1,"wanted":[]}\n')
    shard = Shard(box, drawn, NEW)
    shard.start(["n1"])
    shard.old_frames(old.calls, old.replies)
    wanted("the one that was made", shard.tell(create("made"))["outcome"], "refused 1 NameUsed")
    wanted("the other", shard.settle(create("late")), "sent")
    wanted("the names", sorted(it["name"] for it in shard.audit("created")["controller"]["volumes"]), ["late", "made"])
    shard.end()

def cases(seed):
    yield from of_rows("recover", [("staged and published nowhere", staged_alone), ("names", name_is_free)])
    yield Case("recover: sets that agree", lambda box: drawn_sets(box, seed, 25, False))
    yield Case("recover: sets of which some don't", lambda box: drawn_sets(box, seed, 40, True))
    for part in range(2):
        yield Case(f"recover: a shard goes on, {part + 1}", lambda box, part=part: goes_on(box, seed * 2 + part, 3))
