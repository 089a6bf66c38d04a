"""A late ControllerUnpublishVolume: refused by its number, and carried out where calls have none."""
import os

from program import frames, stores
from program.running import wanted

from .requests import BLOCK, attach, capability, create, delete, detach, publish, stage, unpublish, unstage

TOP = os.path.dirname(os.path.dirname(os.path.dirname(os.path.realpath(__file__))))


def attached(box):
    return [it["node"] for it in box.record("controller.db")["volumes"][0]["attached"]]


def numbered(box):
    driver = box.controller()
    driver.wants(0, "CreateVolume", create("v"), (1, 1))
    driver.wants(0, "ControllerPublishVolume", attach(1), (1, 2))
    # (1, 3) detaches, and is delayed; its retry is (1, 4).
    driver.wants(0, "ControllerUnpublishVolume", detach(1), (1, 4))
    driver.wants(0, "ControllerPublishVolume", attach(1), (1, 5))
    driver.wants((10, "stale"), "ControllerUnpublishVolume", detach(1), (1, 3))
    wanted("attached", attached(box), ["n1"])
    driver.wants(0, "ControllerPublishVolume", attach(1), (1, 5))
    driver.wants((9, "n1"), "ControllerPublishVolume", attach(1, "n2"), (1, 6))


def by_arrival(box):
    """The smaller promise: the late call is taken for a new one."""
    driver = box.controller("--numbers", "arrival")
    promise = driver.said.decode().split("\n")[0].removeprefix("csi-driver: ")
    with open(f"{TOP}/docs/CSI.md", encoding="utf-8") as page:
        wanted(f"what it says, in docs/CSI.md: {promise}", f"when it starts: *{promise}.*" in " ".join(page.read().split()), True)
    driver.wants((9, "number"), "CreateVolume", create("v"), (1, 1))
    driver.wants(0, "CreateVolume", create("v"))
    for name, request in (("ControllerPublishVolume", attach(1)), ("ControllerUnpublishVolume", detach(1)), ("ControllerPublishVolume", attach(1))):
        driver.wants(0, name, request)
    driver.wants(0, "ControllerUnpublishVolume", detach(1))  # the late one
    wanted("attached", attached(box), [])
    driver.wants(0, "ControllerPublishVolume", attach(1, "n2"))
    driver.wants((9, "n2"), "ControllerPublishVolume", attach(1, "n1"))


def staged(box):
    """A late call of a node is stale, also where the volume is staged at another path by now."""
    driver = box.node()
    driver.wants(0, "NodeStageVolume", stage(1, path="/s"), (1, 5))
    for name, request in (
        ("NodeStageVolume", stage(1, path="/o")),
        ("NodePublishVolume", publish(1, path="/o")),
        ("NodeUnstageVolume", unstage(1, "/o")),
    ):
        driver.wants((10, "stale"), name, request, (1, 4))
        driver.wants((9, "staged otherwise"), name, request, (1, 5))
        driver.wants((9, "staged otherwise"), name, request, (1, 6))
    driver.wants(0, "NodeUnstageVolume", unstage(1, "/s"), (2, 1))
    driver.wants(0, "NodeStageVolume", stage(1, path="/o"), (2, 2))
    driver.wants((10, "stale"), "NodeStageVolume", stage(1, path="/s"), (1, 9))
    wanted("what is staged", [it["last"] for it in box.record("n1.db")["volumes"]], [{"call": 2, "session": 2}])


def from_all(box):
    """By arrival a volume is detached from all nodes where none is named; by metadata one number is one call."""
    how = capability(5)
    driver = box.controller("--numbers", "arrival")
    driver.wants(0, "CreateVolume", create("v", capabilities=[how]))
    for node in ("n1", "n2"):
        driver.wants(0, "ControllerPublishVolume", attach(1, node, how))
    wanted("attached", attached(box), ["n1", "n2"])
    for _ in range(2):
        driver.wants(0, "ControllerUnpublishVolume", detach(1, ""))
        wanted("attached", attached(box), [])
    for volume in ("x", 9):
        driver.wants(0, "ControllerUnpublishVolume", detach(volume, ""))
    driver.wants((3, "volume_id"), "ControllerUnpublishVolume", detach("", ""))
    driver.stop()
    driver = box.controller()
    driver.wants((3, "node_id"), "ControllerUnpublishVolume", detach(1, ""), (9, 1))


def sessions(box):
    """By arrival a session begins at each start, and where a name or a row is wanted after a deletion: then what was deleted is forgotten."""
    driver = box.controller("--numbers", "arrival")
    driver.wants(0, "CreateVolume", create("v"))
    for volume in (1, 2, 3):
        driver.wants(0, "DeleteVolume", delete(volume))
        made = driver.wants(0, "CreateVolume", create("v"))
        wanted("the volume", made.volume.volume_id, str(volume + 1))
        record = box.record("controller.db")
        wanted("the record", (record["session"], [it["id"] for it in record["volumes"]]), (volume + 1, [volume + 1]))
    driver.wants(0, "CreateVolume", create("w"))
    driver.wants(0, "ControllerPublishVolume", attach(4))
    wanted("the session", box.record("controller.db")["session"], 4)
    driver.stop()
    driver = box.controller("--numbers", "arrival")
    driver.wants(0, "CreateVolume", create("v"))
    wanted("the session", box.record("controller.db")["session"], 5)


MOST = 4096  # volumes of a controller, and of a node
GONE = 20


def full(box):
    """By arrival there is room for as many volumes as were deleted, at once; at a node for as many as were unstaged, and none goes to ids that nobody has."""
    rows = [stores.volume(at, f"v{at}", stores.kept("CreateVolume", (1, at), 0, at)) for at in range(1, MOST + 1)]
    stores.make(box.at("controller.db"), [stores.controller_head(MOST + 1, 1), *rows])
    rows = [stores.staged(at, frames.block(1), stores.kept("NodeStageVolume", (1, at))) for at in range(1, MOST)]
    stores.make(box.at("n1.db"), [stores.node_head("n1", 1), *rows])
    driver, node = box.controller("--numbers", "arrival"), box.node("--numbers", "arrival")
    driver.wants((8, "volumes"), "CreateVolume", create("w"))
    for at in range(1, GONE + 1):
        driver.wants(0, "DeleteVolume", delete(at))
    for at in range(1, GONE + 1):
        driver.wants(0, "CreateVolume", create(f"v{at}"))
    driver.wants((8, "volumes"), "CreateVolume", create("w"))
    for at in range(GONE):
        unknown = 10**6 + at
        node.wants(0, "NodeUnpublishVolume", unpublish(unknown))
        node.wants((9, "not staged"), "NodePublishVolume", publish(unknown + 1000))
        node.wants(0, "NodeUnstageVolume", unstage(unknown + 2000))
    node.wants(0, "NodeStageVolume", stage(MOST, BLOCK))
    node.wants((8, "rows"), "NodeStageVolume", stage(MOST + 1, BLOCK))
    node.wants(0, "NodeUnpublishVolume", unpublish(10**6))
    node.wants(0, "NodeUnstageVolume", unstage(10**6))
    for at in range(1, GONE + 1):
        node.wants(0, "NodeUnstageVolume", unstage(at))
    for at in range(1, GONE + 1):
        node.wants(0, "NodeStageVolume", stage(MOST + at, BLOCK))
    node.wants((8, "rows"), "NodeStageVolume", stage(1, BLOCK))


def cases(_drawn, _seed):
    yield "late: with a number", numbered
    yield "late: at a node", staged
    yield "late: by arrival", by_arrival
    yield "late: from all nodes", from_all
    yield "late: sessions by arrival", sessions
    yield "late: room by arrival", full
