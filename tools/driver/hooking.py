"""Hooks: which calls run them, what a failure leaves, and calls whose callers gave up."""
import os
import signal
import time

from program.running import LIMIT, Wrong, wanted

from .box import state_of
from .requests import BLOCK, capability, publish, stage, unpublish, unstage

HOOK = """#!/bin/sh
echo "$TUFAYON_CALL $TUFAYON_VOLUME $TUFAYON_STAGING $TUFAYON_TARGET $TUFAYON_ACCESS $TUFAYON_FS_TYPE $TUFAYON_MODE $TUFAYON_READONLY" >> {log}
[ ! -e {slow} ] || sleep "$(cat {slow})"
[ ! -e {broken} ] || {{ echo "one thing"; echo "the disk burns" >&2; exit 1; }}
"""


class Hooked:
    """A node whose four hooks write what they are asked."""

    def __init__(self, box, *options):
        self.box = box
        hook = box.put("hook", HOOK.format(**{name: box.at(name) for name in ("log", "slow", "broken")}), 0o700)
        words = [word for name in ("stage", "unstage", "publish", "unpublish") for word in (f"--on-{name}", hook)]
        self.driver = box.node(*words, *options)

    def ran(self, *lines):
        """Fails unless the hooks ran so since they were asked last."""
        try:
            with open(self.box.at("log"), encoding="utf-8") as file:
                came = [line.rstrip() for line in file]
            os.remove(self.box.at("log"))
        except FileNotFoundError:
            came = []
        wanted("what the hooks were asked", came, list(lines))

    def switch(self, name, on, how=""):
        if on:
            self.box.put(name, how)
        else:
            os.remove(self.box.at(name))

    def wants(self, right, name, request, number):
        return self.driver.wants(right, name, request, number)


def which(box):
    """Fresh calls that are done run them, in any state of the thing; refused, stale and repeated ones don't."""
    node, how = Hooked(box), capability(5, "ext4")
    node.wants(0, "NodeStageVolume", stage(1, how, "/s"), (1, 1))
    node.ran("NodeStageVolume 1 /s  mount ext4 5 false")
    node.wants(0, "NodeStageVolume", stage(1, how, "/s"), (1, 1))
    node.ran()
    node.wants(0, "NodeStageVolume", stage(1, how, "/s"), (1, 2))
    node.ran("NodeStageVolume 1 /s  mount ext4 5 false")
    node.wants((10, "stale"), "NodeUnstageVolume", unstage(1, "/s"), (1, 1))
    node.wants((6, "staged otherwise"), "NodeStageVolume", stage(1, BLOCK, "/s"), (1, 3))
    node.ran()
    node.wants(0, "NodePublishVolume", publish(1, "/t", how, True, "/s"), (1, 4))
    node.ran("NodePublishVolume 1 /s /t mount ext4 5 true")
    node.wants((9, "/t"), "NodeUnstageVolume", unstage(1, "/s"), (1, 5))
    node.wants(0, "NodeUnpublishVolume", unpublish(1, "/t"), (1, 6))
    node.wants(0, "NodeUnstageVolume", unstage(1, "/s"), (1, 7))
    node.ran("NodeUnpublishVolume 1 /s /t", "NodeUnstageVolume 1 /s")
    node.wants(0, "NodeUnstageVolume", unstage(1, "/s"), (1, 8))  # what isn't there isn't undone
    node.ran()


def published(box):
    return [it["target"] for it in box.record("n1.db")["volumes"][0]["published"]]


def failing(box):
    """No reply: 14, with its last line. What does something is in the store then, and what undoes something still; each is tried again by the same number."""
    node = Hooked(box)
    node.wants(0, "NodeStageVolume", stage(1), (1, 1))
    node.switch("broken", True)
    for _ in range(2):
        node.wants((14, "the disk burns"), "NodePublishVolume", publish(1, "/t"), (1, 2))
    wanted("the targets", published(box), ["/t"])
    node.switch("broken", False)
    for _ in range(2):
        node.wants(0, "NodePublishVolume", publish(1, "/t"), (1, 2))
    node.ran("NodeStageVolume 1 /staging/1  block  1 false", *["NodePublishVolume 1 /staging/1 /t block  1 false"] * 3)
    node.switch("broken", True)
    for _ in range(2):
        node.wants((14, "the disk burns"), "NodeUnpublishVolume", unpublish(1, "/t"), (2, 1))
    record = box.record("n1.db")
    wanted("the record", (record["session"], record["volumes"][0]["last"], published(box)), (1, {"call": 2, "session": 1}, ["/t"]))
    node.switch("broken", False)
    for _ in range(2):
        node.wants(0, "NodeUnpublishVolume", unpublish(1, "/t"), (2, 1))
    node.ran(*["NodeUnpublishVolume 1 /staging/1 /t"] * 3)
    wanted("the targets", published(box), [])
    wanted("the status", node.driver.stop(), 0)


def slow(box):
    """One that takes too long is killed; a caller that gave up finds the call carried out, by the same number or by another one that came meanwhile."""
    node = Hooked(box, "--hook-seconds", "1")
    node.switch("slow", True, "50")
    since = time.monotonic()
    node.wants((14, f"{box.at('hook')}: it took longer than 1s"), "NodeStageVolume", stage(1), (1, 1))
    wanted("it was killed", time.monotonic() - since < 30, True)
    node.driver.stop()
    os.remove(box.at("log"))
    node = Hooked(box)
    node.switch("slow", True, "3")
    wanted("the caller gave up", node.driver.ask("NodeStageVolume", stage(2), (1, 2), timeout=1)[0], 4)
    waits = node.driver.start("NodeUnstageVolume", unstage(2), (1, 3), timeout=0.5)
    wanted("one that waited gave up", waits.code().value[0], 4)
    node.wants(0, "NodeStageVolume", stage(2), (1, 4))
    node.wants(0, "NodeStageVolume", stage(2), (1, 4))
    node.ran("NodeStageVolume 2 /staging/2  block  1 false")
    wanted("what is staged", [it["id"] for it in box.record("n1.db")["volumes"]], [1, 2])


SIDE = """#!/bin/sh
[ "$TUFAYON_VOLUME" != 1 ] || sleep {seconds}
"""


def beside(count, seconds):
    def body(box):
        """Stages behind a slow hook at another volume take what they take without it; the next call of its own volume waits."""
        took = []
        for slow in (0, seconds):
            hook = box.put("hook", SIDE.format(seconds=slow), 0o700)
            node = box.node("--on-stage", hook, node=f"n{slow + 1}")
            first = node.start("NodeStageVolume", stage(1), (1, 1))
            if not slow:
                wanted("the first", first.code().value[0], 0)
            else:
                time.sleep(0.3)
            next_one = node.start("NodeUnstageVolume", unstage(1), (1, 2))
            since = time.monotonic()
            calls = [node.start("NodeStageVolume", stage(at), (1, at + 2)) for at in range(2, count + 2)]
            wanted("the stages", {call.code().value[0] for call in calls}, {0})
            took.append(time.monotonic() - since)
            if slow and took[-1] < slow - 1:
                wanted("what is of the slow one's volume waits", (first.done(), next_one.done()), (False, False))
            wanted("the slow one, and the next", (first.code().value[0], next_one.code().value[0]), (0, 0))
        wanted(f"that {took[1]:.2f} s isn't the hook's time, but about {took[0]:.2f} s", took[1] < max(seconds - 1, 3 * took[0]), True)
        return f"{count} stages: {took[0]:.2f} s alone, {took[1]:.2f} s behind a hook of {seconds} s"

    return body


def ending(box):
    """After SIGTERM it ends in time, and so do its hooks; the call gets no reply, and the next driver carries it out again."""
    script = f"#!/bin/sh\n(sleep 300; echo late > {box.at('late')}) & echo $! > {box.at('pid')}\nwait\n"
    node = box.node("--on-stage", box.put("hook", script, 0o700))
    call = node.start("NodeStageVolume", stage(1), (1, 1))
    until(lambda: os.path.exists(box.at("pid")))
    since = time.monotonic()
    node.process.send_signal(signal.SIGTERM)
    wanted("the call", call.code().value[0], 14)
    wanted("its status", node.close(), 0)
    wanted("it ends in time", time.monotonic() - since < 15, True)
    until(lambda: not is_alive(box.at("pid")))
    box.node("--on-stage", box.put("hook", "#!/bin/sh\n", 0o700)).wants(0, "NodeStageVolume", stage(1), (1, 1))


def until(holds):
    """Waits until something holds."""
    since = time.monotonic()
    while not holds():
        if time.monotonic() - since > LIMIT:
            raise Wrong("it doesn't come")
        time.sleep(0.02)


def is_alive(file):
    """Whether the process runs whose id is in a file."""
    with open(file, encoding="utf-8") as said:
        return state_of(f"/proc/{said.read().strip()}/stat") not in "ZX"


def orphaned(box):
    """A driver is killed while a hook runs: it runs on, and the next driver's deed at its volume ends it first, with what it started."""
    script = f"#!/bin/sh\n(sleep 300; echo late) & echo $! > {box.at('pid')}\nwait\n"
    node = box.node("--on-stage", box.put("hook", script, 0o700))
    call = node.start("NodeStageVolume", stage(1), (1, 1))
    until(lambda: os.path.exists(box.at("pid")) and os.path.getsize(box.at("pid")) > 0)
    node.kill()
    wanted("the call", call.code().value[0] != 0, True)
    wanted("it runs on", is_alive(box.at("pid")), True)
    node = box.node("--on-stage", box.put("hook", "#!/bin/sh\n", 0o700))
    node.wants(0, "NodeStageVolume", stage(2), (1, 2))
    wanted("it runs on", is_alive(box.at("pid")), True)
    node.wants(0, "NodeUnstageVolume", unstage(1), (1, 3))
    wanted("it was ended", is_alive(box.at("pid")), False)
    wanted("what is staged", [it["id"] for it in box.record("n1.db")["volumes"] if it["staged"]], [2])


# Does what it is asked in the folder `there`, and kills its driver before that, or after, where it is told to.
DEED = """#!/bin/sh
thing={there}/$TUFAYON_VOLUME
case $TUFAYON_CALL in NodePublishVolume | NodeUnpublishVolume) thing=$thing.published ;; esac
die() {{ [ ! -e {folder}/$1 ] || {{ rm {folder}/$1; kill -9 $PPID; }}; }}
die before
case $TUFAYON_CALL in NodeStageVolume | NodePublishVolume) touch $thing ;; *) rm -f $thing ;; esac
die after
"""
LIFE = (
    ("NodeStageVolume", stage(1), ["1"]),
    ("NodePublishVolume", publish(1, "/t"), ["1", "1.published"]),
    ("NodeUnpublishVolume", unpublish(1, "/t"), ["1"]),
    ("NodeUnstageVolume", unstage(1), []),
)


def in_store(box):
    """The things of volume 1 that the store has."""
    for it in box.record("n1.db")["volumes"]:
        return (["1"] if it["staged"] else []) + (["1.published"] if it["published"] else [])
    return []


def killed(box):
    """A driver is killed by each call's hook, before the deed or after it; the repeat, by the same number or by another one, carries it out. Whatever is
    there is in the store, and an OK is given only for what is done."""
    os.mkdir(box.at("there"))
    hook = box.put("hook", DEED.format(there=box.at("there"), folder=box.folder), 0o700)
    words = [word for name in ("stage", "unstage", "publish", "unpublish") for word in (f"--on-{name}", hook)]
    node, number = box.node(*words), 0
    for when in ("before", "after"):
        for again in (0, 1):
            for name, request, right in LIFE:
                number += 1
                box.put(when, "")
                wanted(f"{name} of the killed one", node.ask(name, request, (1, number))[0], 14)
                node.close()
                node = box.node(*words)
                there = sorted(os.listdir(box.at("there")))
                wanted(f"{name}, killed {when}: {there} is in the store {in_store(box)}", set(there) <= set(in_store(box)), True)
                number += again
                node.wants(0, name, request, (1, number))
                wanted(f"{name}, killed {when}", (sorted(os.listdir(box.at("there"))), in_store(box)), (right, right))
    return f"{number} numbers"


def cases(drawn, _seed):
    yield "hooks: which calls run them", which
    yield "hooks: one that fails", failing
    yield "hooks: one that is slow", slow
    yield "hooks: volumes side by side", beside(*((1000, 5) if drawn > 1000 else (100, 3)))
    yield "hooks: at the end", ending
    yield "hooks: of a killed driver", orphaned
    yield "hooks: that kill their driver", killed
