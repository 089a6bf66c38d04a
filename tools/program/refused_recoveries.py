"""What `recover` refuses: stores that disagree, parts and files that are no store, what is in use, CONFIG and words. Each has its line, and no store changes."""
import os

from . import stores
from .configs import NODE as SLOTS
from .configs import PLAIN, with_nodes
from .frames import block, create, mount, reply, stage
from .plugins import NOT_OPENED
from .records import BAD_PARTS, NO_STORES, damages
from .recoveries import CONTROLLER, CONTROLLER_PARTS, EXT4, LINE, LISTED, N1, N2, NEW, Set, can_recover
from .running import ended, of_rows, wanted
from .talks import first
from .words import NO_SESSIONS, USAGE

WORDS = "NEW.db CONFIG SESSION CONTROLLER.db NODE.db.."
DEVICE = ended(3, "device")


def changed(parts, at, other):
    return [*parts[:at], other, *parts[at + 1 :]]


HELD = lambda *held, at=1, name="v": stores.volume(at, name, stores.kept("ControllerPublishVolume", (5, 8)), 20, [block(5), EXT4], held)
KEPT = stores.kept("NodePublishVolume", (4, 5))
ALONE = [stores.node_head("n2", 5), stores.staged(1, block(5), stores.kept("NodeStageVolume", (3, 9)))]
DISAGREEING = [  # which store, and the parts of the controller and of the nodes
    ("two stores of one node", 4, CONTROLLER_PARTS, [N1, N2, [stores.node_head("n1", 1)]]),
    ("two stores of one node that aren't its first", 4, CONTROLLER_PARTS, [N1, N2, [stores.node_head("n2", 5)]]),
    ("three stores, of which two are of one node", 3, CONTROLLER_PARTS, [[stores.node_head("n4", 1)], [stores.node_head("n4", 2)], N1]),
    ("staged, not attached there", 2, changed(CONTROLLER_PARTS, 1, HELD(("n2", block(5), True))), [N1, N2]),
    ("staged, not attached there, in the second store", 3, changed(CONTROLLER_PARTS, 1, HELD(("n1", block(5), False))), [N1, N2]),
    ("staged, the volume was deleted", 2, CONTROLLER_PARTS, [[*N1, stores.staged(2**40, block(5), KEPT)]]),
    ("staged, and there is no such volume", 2, CONTROLLER_PARTS, [[N1[0], stores.staged(2, block(1), KEPT, [("/x", False)])]]),
    ("staged in another mode", 2, CONTROLLER_PARTS, [changed(N1, 1, stores.staged(1, block(3), KEPT, [("/b", False)])), N2]),
    ("staged in another access", 2, CONTROLLER_PARTS, [changed(N1, 1, stores.staged(1, mount("", 5), KEPT, [("/b", False)])), N2]),
    ("staged in another file system", 2, CONTROLLER_PARTS, [changed(N1, 2, stores.staged(3, mount("ext3", 1), KEPT)), N2]),
    ("published readonly, attached to write", 2, CONTROLLER_PARTS, [changed(N1, 1, stores.staged(1, block(5), KEPT, [("/b", False), ("/a", True)])), N2]),
    ("published to write, attached readonly", 3, CONTROLLER_PARTS, [N1, changed(N2, 1, stores.staged(1, block(5), KEPT, [("/b", False)]))]),
    ("the first of two that disagree", 3, CONTROLLER_PARTS, [[stores.node_head("n3", 1)], *([stores.node_head(it, 5), *N2[1:]] for it in ("n4", "n5"))]),
]


def disagree(box, place, controller, nodes):
    can_recover(box)
    it = Set.made(box, controller, nodes, ["n1", "n2", "n3", "n4", "n5"])
    wanted("the oracle's", next(it.recovery().refusals()), f"stores disagree, store {place}")
    it.refuses(ended(1, f"stores disagree, store {place}"))


def two_unsure(box):
    """A volume that is staged and published nowhere at two nodes; at one of them, or at two that aren't both given, it is undone."""
    can_recover(box)
    n1 = changed(N1, 1, stores.staged(1, block(5), KEPT))
    it = Set.made(box, CONTROLLER_PARTS, [n1, ALONE], LISTED)
    came = it.run()
    wanted(f"{came}, so whether it says which stores disagree", came in [ended(1, f"stores disagree, store {place}") for place in (1, 2, 3)], True)
    it.refuses(came)
    it.names.pop()
    wanted("what is wanted", sorted(it.recovers().line.split(b'"wanted":')[1:]), [b'["v","w"]}\n'])


def left_out(box):
    """CONFIG leaves out a given node with something staged; one that isn't given may be left out, and one that has nothing staged."""
    can_recover(box)
    for listed in (["n1"], ["n2", "n3"], ["n3"], []):
        Set.made(box, CONTROLLER_PARTS, [N1, N2], listed).refuses(ended(1, "node in use"), f"with {listed}")
        for name in (CONTROLLER, "given2.db", "given3.db"):
            os.remove(box.at(name))
    it = Set.made(box, CONTROLLER_PARTS, [N1, [stores.node_head("n3", 2)]], ["n1"])
    wanted("the line", it.recovers().line, b'{"lost":["n2"],"session":1048581,"volumes":4,"wanted":["w"]}\n')


def not_new(box, parts):
    """NEW.db has parts, whatever they are."""
    can_recover(box)
    it = Set.made(box, CONTROLLER_PARTS, [N1, N2], LISTED)
    stores.make(box.at(NEW), parts)
    it.refuses(ended(1, "store not new"))


def no_record(box, place, parts, at):
    can_recover(box)
    given = [CONTROLLER_PARTS, N1, N2]
    given[place - 1] = parts
    Set.made(box, given[0], given[1:], LISTED).refuses(ended(1, f"record fault at {at}, store {place}"))


def bad_parts(box):
    """Each of the parts that are no record, as the controller's and as a node's; one of another kind is at fault from its head on."""
    can_recover(box)
    for count, (what, at, parts) in enumerate(BAD_PARTS):
        kind = parts[0][1][1:2] if parts and parts[0][0] == bytes(8) else None
        if len(parts) > 100 or parts[:1] == [("x", b"x")]:
            continue
        for place in (1, 2 + count % 2):
            folder = f"{what}, store {place}".replace("/", " ")
            os.mkdir(box.at(folder))
            is_foreign = any(len(key) != 8 for key, _ in parts)  # no list of parts: what is none is at fault, whatever the head says
            fault = at if is_foreign or kind == (b"\0" if place == 1 else b"\1") else 0
            no_record(type(box)(box.program, box.at(folder)), place, parts, fault)


def damaged(box):
    can_recover(box)
    for place, parts in ((1, CONTROLLER_PARTS), (2, N1), (3, N2)):
        for at in range(len(parts)):
            for what, others in damages(parts, at):
                folder = f"{place} {at} {what}"
                os.mkdir(box.at(folder))
                no_record(type(box)(box.program, box.at(folder)), place, others, at)


def of_others(box):
    """A store of another kind."""
    can_recover(box)
    for place, parts in ((1, N1), (1, stores.ORCHESTRATOR), (2, CONTROLLER_PARTS), (2, stores.ORCHESTRATOR), (3, CONTROLLER_PARTS)):
        os.mkdir(box.at(f"{place} {parts[0][1][1]}"))
        no_record(type(box)(box.program, box.at(f"{place} {parts[0][1][1]}")), place, parts, 0)


# ---- files


def no_stores(box):
    """What is no store is opened by nobody, as a plugin's or as NEW.db; it stays, and so do all others, and nothing lies beside them."""
    can_recover(box)
    for at, (what, making) in enumerate(NO_STORES):
        for place in {at % 4, (at + 1) % 4}:
            folder = f"{what} {place}"
            os.mkdir(box.at(folder))
            it = Set.made(type(box)(box.program, box.at(folder)), CONTROLLER_PARTS, [N1, N2], LISTED)
            name = (NEW, *it.names)[place]
            if place:
                os.remove(it.box.at(name))
            making(it.box.at(name))
            before, parts = it.box.files()[name], it.parts()
            wanted(f"{what} as {name}", it.run(), NOT_OPENED)
            wanted(f"{what} as {name}: the file", it.box.files()[name], before)
            wanted(f"{what} as {name}: the parts", it.parts(), parts)


def blank(box):
    """A file that a plugin would make a new store of has no record: it isn't a store that was lost, and nothing else changes."""
    can_recover(box)
    for place in (1, 2, 3):
        for size in (0, 1, 4096):
            folder = f"{place} {size}"
            os.mkdir(box.at(folder))
            it = Set.made(type(box)(box.program, box.at(folder)), CONTROLLER_PARTS, [N1, N2], LISTED)
            it.box.put(it.names[place - 1], bytes(size))
            one_of(it, f"{size} bytes as store {place}", NOT_OPENED, ended(1, f"record fault at 0, store {place}"))


def missing(box):
    """A store that is missing isn't made."""
    can_recover(box)
    it = Set.made(box, CONTROLLER_PARTS, [N1, N2], LISTED)
    for place, name in enumerate(it.names, 1):
        os.rename(box.at(name), box.at("away"))
        it.refuses(NOT_OPENED, f"without {name}")
        wanted(f"whether {name} is there", os.path.exists(box.at(name)), False)
        os.rename(box.at("away"), box.at(name))
    it.recovers()


def in_use(box):
    """A store that another process has, whichever; once it ended, all goes well."""
    can_recover(box)
    it = Set.made(box, CONTROLLER_PARTS, [N1, N2], LISTED)
    late = {"controller": (create((1, 1), "v"), reply("CreateVolume", (1, 1), 10, 0, "stale"))}
    late |= {node: (stage((1, 1), 1, node=node), reply("NodeStageVolume", (1, 1), 10, 0, "stale", node)) for node in LISTED}
    for words, which in ((["controller", CONTROLLER, "config"], "controller"), (["node", "given2.db", "n1"], "n1"), (["node", "given3.db", "n2"], "n2")):
        running = box.start(*words)
        running.asks(*late[which])
        it.refuses(NOT_OPENED, f"beside {words}")
        wanted(f"the end of {words}", running.end(), ended(0))
    running = box.start("orchestrator", "other.db", "config")
    running.asks(b"", first(1))
    it.new = "other.db"
    it.refuses(NOT_OPENED, "beside an orchestrator over NEW.db")
    running.kill()
    it.new = NEW
    it.recovers()


def twice(box):
    """One file as two stores, or as NEW.db too, is refused, and nothing changes."""
    can_recover(box)
    it = Set.made(box, CONTROLLER_PARTS, [N1, N2], LISTED)
    names = it.names
    rows = [[*names, names[1]], [*names, names[2]], [names[0], *names], [names[0], names[0]]]
    for others in rows:
        it.names = others
        one_of(it, others, NOT_OPENED, *(ended(1, f"stores disagree, store {at}") for at in (3, 4)), *(ended(1, f"record fault at 0, store {at}") for at in (2,)))
    it.names = names
    for name in names:
        it.new = name
        one_of(it, name, NOT_OPENED, ended(1, "store not new"))


def one_of(it, told, *allowed):
    came = it.run()
    wanted(f"{told}: {came}, so whether it is one of {[str(one) for one in allowed]}", came in allowed, True)
    it.refuses(came, told)


def no_config(box):
    """CONFIG is read before a store is opened or made."""
    can_recover(box)
    it = Set.made(box, CONTROLLER_PARTS, [N1, N2], LISTED)
    os.remove(box.at("config"))
    before = box.files()
    box.wants(DEVICE, *it.words())
    wanted("the folder", box.files(), before)
    rows = [(b"\xff", ended(1, "not UTF-8"))]
    lists = (with_nodes(SLOTS % (b"n1", 4), SLOTS % (b"n1", 4)), with_nodes(*(SLOTS % (b"n%d" % at, 4) for at in range(65))))
    rows += [(content, ended(1, "config refused")) for content in (b"", b"{}", b"[]", PLAIN[:-1], PLAIN + b"x", *lists)]
    for content, right in rows:
        box.put("config", content)
        before = box.files()
        box.wants(right, *it.words())
        wanted("the folder", box.files(), before)


def words(box):
    """Too few words, and words that are no session; nothing is read or made."""
    can_recover(box)
    it = Set.made(box, CONTROLLER_PARTS, [N1, N2], LISTED)
    before = box.files()
    recover, *rest = it.words()
    for count in range(4):
        box.wants(USAGE, recover, *rest[:count])
    for word in (*NO_SESSIONS, "-1", "-0"):
        box.wants(USAGE, recover, *rest[:2], word, *rest[3:])
        box.wants(USAGE, recover, rest[0], "nothing", word, "nothing", "nothing")
    box.wants(USAGE, recover, "-x", *rest[1:])
    box.wants(USAGE, recover, *rest, "-n")
    box.wants(USAGE, recover, *rest, "--help")
    box.wants(USAGE, *(it.encode() for it in (recover, *rest)), b"\xff")
    wanted("the folder", box.files(), before)
    ran = box.run("recover", "--help")
    wanted("the help", (ran.status, ran.out.splitlines()[:1], ran.error), (0, [b"Usage: csi-replay recover " + WORDS.encode()], b""))
    box.wants(ended(0, out=LINE), recover, "--", *rest)


ROWS = [
    *((f"stores that disagree: {name}", disagree, *rest) for name, *rest in DISAGREEING),
    ("stores that disagree: two stagings to be undone", two_unsure),
    ("nodes that CONFIG leaves out", left_out),
    ("NEW.db is an orchestrator's", not_new, stores.ORCHESTRATOR),
    ("NEW.db has a head alone", not_new, [stores.orchestrator_head(1)]),
    ("NEW.db is a controller's", not_new, CONTROLLER_PARTS),
    ("NEW.db has parts that are no record", not_new, [("x", b"x")]),
    ("parts that are no record", bad_parts),
    ("damaged parts", damaged),
    ("stores of others", of_others),
    ("files that are no store", no_stores),
    ("files that are blank", blank),
    ("stores that are missing", missing),
    ("a store in use", in_use),
    ("one file twice", twice),
    ("CONFIG", no_config),
    ("words", words),
]


def cases():
    yield from of_rows("recover", ROWS)
