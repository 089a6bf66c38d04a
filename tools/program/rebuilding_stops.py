"""`recover-controller` that is killed at each call of the system that writes, or whose device or memory fails: NEW.db has no parts or all, and each other store has
what it had; run once more it does all, or says that it is done. And at full size."""
from . import stores
from .frames import block
from .rebuildings import N1, N2, NEW, PARTS, Lost, can_rebuild
from .recovery_stops import NODES, VOLUMES, Stopped, fail, in_time, kill, limit_files, lose_output, take_memory
from .running import Case, ended, wanted
from .shards import config_of


class Cut(Stopped):
    """A set of which a controller's store is made."""

    def __init__(self, box):
        can_rebuild(box)
        super().__init__(box, Lost.made(box, PARTS, [N1, N2], 8))

    def judge(self, told, ran):
        """What is left of a run: whether it is done; and what isn't is done by one run more."""
        new, *others = self.it.parts()
        wanted(f"{told}, {ran}: the other stores", others, self.before[1:])
        wanted(f"{told}, {ran}: whether NEW.db has all parts or none", new in (self.before[0], self.made.new), True)
        if new == self.made.new:
            self.it.refuses(ended(1, "store not new"), f"{told}: once more")
            self.box.wants(ended(0), "controller", NEW, "config")
        else:
            self.it.recovers(f"{told}: once more")
        return int(new == self.made.new)


# ---- full size


def full_set(box):
    """Each of 4,096 volumes is used at two of 64 nodes; the ids stand in another order than the names."""
    rows, nodes = [stores.orchestrator_head(7, NODES)], {node: {} for node in NODES}
    for place in range(1, VOLUMES + 1):
        volume = (place * 2731) % 4099
        entries = []
        for node in sorted({NODES[place % 64], NODES[(place * 7 + 1 + place // 64) % 64]}):
            entries.append(stores.at_node(node, block(5), "yes", "yes", [(f"/{place}", "yes")]))
            nodes[node][volume] = stores.staged(volume, block(5), stores.kept("NodePublishVolume", (7, 2)), [(f"/{place}", False)])
        rows.append(stores.known(place, f"v{place}", volume=volume, exists="yes", capabilities=[block(5)], at=entries))
    return Lost.made(box, rows, [[stores.node_head(node, 7), *(it for _, it in sorted(parts.items()))] for node, parts in nodes.items()], 4100)


def at_full_size(box):
    can_rebuild(box)
    it = full_set(box)
    in_time(it)
    box.put("config", config_of(NODES))
    box.wants(ended(0), "controller", NEW, "config")
    box.wants(ended(0, out=b'{"session":8,"wanted":[]}\n'), "orchestrator", it.names[0], "config")


def cases():
    yield Case("killed: recover-controller, at each call", lambda box: kill(Cut(box), 1))
    yield Case("full disk: recover-controller, at each call", lambda box: fail(Cut(box)))
    yield Case("full disk: recover-controller, a limit", lambda box: limit_files(Cut(box)))
    yield Case("output: recover-controller", lambda box: lose_output(Cut(box)))
    yield Case("memory: recover-controller has little of it", lambda box: take_memory(Cut(box)))
    yield Case("recover-controller: full size", at_full_size)
