"""`recover` that is killed at each call of the system that writes, or whose device or memory fails: each store is as it was or raised, the controller's only
after each node's and NEW.db only after all; and run once more it does the rest, in a later session, or says that all is done. And at full size."""
import os
import resource
import signal
import time

from . import stores
from .devices import DEVICE, can_trace, counted, limited, traced_by
from .frames import attach, block, publish
from .frames import reply as answer
from .opening import MEMORY, NEAR, STEP
from .plugins import NOT_OPENED
from .recoveries import CONTROLLER_PARTS, LISTED, N1, N2, NEW, Set, can_recover
from .running import Case, ended, of_rows, wanted
from .shards import config_of
from .streams import MB
from .streams import limited as with_memory

WRITING = {"pwrite64": "ENOSPC", "ftruncate": "EIO", "fsync": "EIO", "fdatasync": "EIO"}
ENDS = ("", "-wal", "-shm", "-journal")
SECONDS, FULL_ROOM = 30, 1024 * MB  # beside two proofs it took 1.6 to 2.1 s; and 550 MB, 8 for each store


class Stopped:
    """A set in a box of which stores are made again and again, each time over what it was at first; a run may be cut off. `commits`: how many it has."""

    commits = 1

    def __init__(self, box, it):
        self.box, self.it = box, it
        self.found = {name: box.get(name) for name in box.names()}
        self.before, self.made = it.parts(), it.recovery().made()
        self.names = (NEW, *it.names)

    def fresh(self):
        for name in self.names:
            for end in ENDS:
                if os.path.exists(path := self.box.at(name + end)):
                    os.remove(path)
        for name, content in self.found.items():
            self.box.put(name, content)


class Cut(Stopped):
    """A set that is recovered."""

    commits = 4

    def __init__(self, box, over):
        can_recover(box)
        self.box, self.it = box, Set.made(box, CONTROLLER_PARTS, [N1, N2], LISTED)
        if over == "logs":
            self.leave_logs()
        super().__init__(box, self.it)

    def leave_logs(self):
        """The plugins' stores are as kills leave them: a file, and a log that has the last commit."""
        controller, *nodes = self.it.names
        for words, call, reply in (
            (("controller", controller, "config"), attach((6, 1), 1, "n2", block(5), True), answer("ControllerPublishVolume", (6, 1))),
            (("node", nodes[0], "n1"), publish((6, 2), 1, "/b", block(5)), answer("NodePublishVolume", (6, 2))),
            (("node", nodes[1], "n2"), publish((6, 3), 1, "/b", block(5), True, "n2"), answer("NodePublishVolume", (6, 3), node="n2")),
        ):
            running = self.box.start(*words)
            running.asks(call, reply)
            running.kill()

    def judge(self, told, ran):
        """What is left of a run: how many of its commits are done; and the rest is done by one run more."""
        parts = self.it.parts()
        done = [came == right for came, right in zip(parts, self.it.whole(self.made))]
        for name, came, before, is_done in zip(self.names, parts, self.before, done):
            wanted(f"{told}, {ran}: whether the parts of {name} are these of before or behind", is_done or came == before, True)
        new, controller, *nodes = done
        wanted(f"{told}: what is done, {done}, so whether all nodes are where the controller is", all(nodes) or not controller, True)
        wanted(f"{told}: what is done, {done}, so whether all plugins are where NEW.db is", controller or not new, True)
        self.again(told, new)
        return sum(done)

    def again(self, told, is_done):
        if is_done:
            self.it.refuses(ended(1, "store not new"), f"{told}: once more")
            self.box.wants(ended(0), "controller", self.it.names[0], "config")
            return
        before = self.it.recovery().session
        made = self.it.recovers(f"{told}: once more")
        wanted(f"{told}: the session", (made.session, made.session >= self.made.session), (before, True))


def strace(cut, inject=None):
    return traced_by(cut.box, cut.it.words(), inject)


def whole_run(cut):
    """The calls of the system that write in a run that nothing stops."""
    can_trace(cut.box)
    cut.fresh()
    ran, calls = strace(cut)
    wanted("the run that is traced", ran, ended(0, out=cut.made.line))
    wanted("calls that write otherwise", sorted({*calls} - {*WRITING, "write"}), [])
    return counted(calls)


def killed(box, over):
    """At each call; over logs that kills left, at each third."""
    kill(Cut(box, over), 1 if over == "closed" else 3)


def kill(cut, step):
    seen = set()
    for name, count in whole_run(cut).items():
        for at in range(1, count + 1, step):
            cut.fresh()
            inject = f"{name}:signal=KILL:when={at}"
            ran, _ = strace(cut, inject)
            wanted(f"{inject}: it was killed", ran.status, -signal.SIGKILL)
            seen.add(cut.judge(inject, ran))
    wanted(f"{seen}: after how many commits it was killed, so whether after none, and all", {0, cut.commits} <= seen, True)


def failing(box):
    fail(Cut(box, "closed"))


def fail(cut):
    """No room is left at a call, or the device is gone; or, at every other one, from there on."""
    seen = set()
    for name, count in whole_run(cut).items():
        for at in range(1, count + 1 if name in WRITING else 0):
            cut.fresh()
            inject = f"{name}:error={WRITING[name]}:when={at}{'+' if at % 2 else ''}"
            ran, _ = strace(cut, inject)
            is_told = (ran.status, ran.error) in [(it.status, it.error) for it in (DEVICE, NOT_OPENED)]
            wanted(f"{inject}: {ran}, so whether it is told", is_told and ran.out in (b"", cut.made.line), True)
            seen.add(cut.judge(inject, ran))
    wanted(f"{seen}: after how many commits it failed, so whether after none, and all", {0, cut.commits} <= seen, True)


def by_limit(box):
    limit_files(Cut(box, "closed"))


def limit_files(cut):
    """A limit on the size of files."""
    for size in [0, 31, *range(4095, 40_000, 2060)]:
        cut.fresh()
        ran = cut.box.run(*cut.it.words(), preexec_fn=limited(size))
        if ran != ended(0, out=cut.made.line):
            is_told = (ran.status, ran.error) in [(it.status, it.error) for it in (DEVICE, NOT_OPENED)]
            wanted(f"files of {size} bytes: {ran}, so whether it is told", is_told, True)
        cut.judge(f"files of {size} bytes", ran)


def output(box):
    lose_output(Cut(box, "closed"))


def lose_output(cut):
    """Where its line can't be written all is done."""
    with open("/dev/full", "wb") as to:
        ran = cut.box.run(*cut.it.words(), stdout=to)
    wanted("its end", ran, DEVICE)
    wanted("how many commits are done", cut.judge("without output", ran), cut.commits)


def little_memory(box):
    take_memory(Cut(box, "closed"))


def take_memory(cut):
    """At each limit at which it starts and has too little it says so."""

    def run(limit):
        cut.fresh()
        return cut.box.run(*cut.it.words(), preexec_fn=with_memory(limit))

    low, least = 0, 64 * MB
    whole = ended(0, out=cut.made.line)
    wanted("with memory", run(least), whole)
    while least - low > STEP:
        middle = (low + least) // (2 * STEP) * STEP
        low, least = (low, middle) if run(middle) == whole else (middle, least)
    told = 0
    for limit in range(least - NEAR * STEP, least, 2 * STEP):
        ran = run(limit)
        if ran == whole or cut.box.run("--help", preexec_fn=with_memory(limit)).status not in (0, 3):
            continue
        if ran.status != -signal.SIGSEGV:
            wanted(f"{limit // 1024} kilobytes", ran, MEMORY)
            told += 1
        cut.judge(f"{limit // 1024} kilobytes", ran)
    wanted(f"how many of the limits are told, {told}", told > 0, True)


# ---- full size

VOLUMES, NODES = 4096, [f"n{at:02}" for at in range(64)]


def full_set(box):
    """Each volume is attached at two nodes, staged at both, and published at one target."""
    last = stores.kept("ControllerPublishVolume", (7, 1))
    where = lambda at: [NODES[at % 64], NODES[(at * 7 + 1 + at // 64) % 64]]
    held = {at: sorted({*where(at)}) for at in range(1, VOLUMES + 1)}
    controller = [stores.controller_head(VOLUMES + 1, 7)]
    nodes = {node: [stores.node_head(node, 7)] for node in NODES}
    for at in range(1, VOLUMES + 1):
        controller.append(stores.volume(at, f"v{at}", last, 10, [block(5)], [(node, block(5), False) for node in held[at]]))
        for node in held[at]:
            nodes[node].append(stores.staged(at, block(5), stores.kept("NodePublishVolume", (7, 2)), [(f"/{at}", False)]))
    box.put("config", config_of(NODES))
    it = Set.made(box, controller, list(nodes.values()), NODES)
    box.put("config", config_of(NODES))
    return it


def at_full_size(box):
    can_recover(box)
    in_time(full_set(box))
    ran = box.run("orchestrator", NEW, "config")
    wanted("the orchestrator then", (ran.status, ran.out), (0, b'{"session":1048584,"wanted":[]}\n'))


def in_time(it):
    """4,096 volumes and 64 nodes' stores take at most so many seconds, beside other cases, and so much memory."""
    made = it.recovery().made()
    since = time.monotonic()
    ran = it.run(preexec_fn=with_memory(FULL_ROOM))
    seconds = time.monotonic() - since
    wanted("its end", ran, ended(0, out=made.line))
    it.is_whole(made, "full size")
    most = resource.getrusage(resource.RUSAGE_CHILDREN).ru_maxrss
    wanted(f"it took {seconds:.2f} s and at most {most} kilobytes; so whether that is at most {SECONDS} s", seconds <= SECONDS, True)


def cases():
    yield from of_rows("killed: recover over stores", [("that are closed", killed, "closed"), ("that have logs", killed, "logs")])
    yield Case("full disk: recover, at each call", failing)
    yield Case("full disk: recover, a limit", by_limit)
    yield Case("output: recover", output)
    yield Case("memory: recover has little of it", little_memory)
    yield Case("recover: full size", at_full_size)
