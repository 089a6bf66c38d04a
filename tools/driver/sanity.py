"""A driver as a client knows it that has read CSI's spec.md alone: after the groups of csi-sanity, by both kinds of numbers."""
import glob
import os
import shutil

import csi_pb2
from program.running import LeftOut, wanted

from .box import ended
from .mounting import is_mounted, options_at, own_namespace
from .requests import BLOCK, attach, capability, create, delete, detach, publish, stage, unpublish, unstage, validate

OK, INVALID, NOT_FOUND, EXISTS, PRECONDITION, UNIMPLEMENTED = 0, 3, 5, 6, 9, 12
MORE = {"secrets": {"user": "u", "key": "k"}}
MOUNT = capability(1, "ext4")
SHARED = capability(5, "ext4")


class Client:
    """Calls drivers, and numbers calls where they have to be."""

    def __init__(self, box, numbers, hooks):
        self.box, self.numbers, self.call = box, numbers, 0
        self.controller = box.controller("--numbers", numbers)
        self.node = box.node("--numbers", numbers, "--hooks", hooks)

    def __call__(self, status, name, request, driver=None):
        """Fails unless the call ends with this status, whatever its message."""
        self.call += 1
        number = (1, self.call) if self.numbers == "metadata" else None
        driver = driver or (self.node if name.startswith("Node") else self.controller)
        came, detail, response = driver.ask(name, request, number)
        wanted(f"{name} {request!s}: {detail!r}", came, status)
        return response

    def made(self, name, how=MOUNT, **more):
        return self(OK, "CreateVolume", create(name, 1 << 30, capabilities=[how], **more)).volume.volume_id


def identity(client):
    for driver in (client.controller, client.node):
        info = client(OK, "GetPluginInfo", csi_pb2.GetPluginInfoRequest(), driver)
        wanted("a domain name of at most 63 characters, and a version", (0 < len(info.name) < 64, "." in info.name, info.vendor_version != ""), (True,) * 3)
        kinds = [it.service.type for it in client(OK, "GetPluginCapabilities", csi_pb2.GetPluginCapabilitiesRequest(), driver).capabilities]
        wanted("CONTROLLER_SERVICE", kinds, [1])
        wanted("ready", client(OK, "Probe", csi_pb2.ProbeRequest(), driver).ready.value, True)


# ---- the controller


def creating(client):
    client(INVALID, "CreateVolume", create("", capabilities=[MOUNT], **MORE))
    client(INVALID, "CreateVolume", create("no-capabilities", capabilities=[], **MORE))
    client(INVALID, "CreateVolume", create("below-nothing", -1))
    first = client(OK, "CreateVolume", create("v", 1 << 30, 2 << 30, [MOUNT, BLOCK], parameters={"type": "fast"}, **MORE)).volume
    wanted("the volume", (first.volume_id != "", 1 << 30 <= first.capacity_bytes <= 2 << 30), (True, True))
    again = client(OK, "CreateVolume", create("v", 1 << 30, 2 << 30, [MOUNT, BLOCK], parameters={"type": "fast"}, **MORE)).volume
    wanted("the same volume", (again.volume_id, again.capacity_bytes), (first.volume_id, first.capacity_bytes))
    client(EXISTS, "CreateVolume", create("v", 10 << 30, capabilities=[MOUNT]))
    client(11, "CreateVolume", create("above-its-limit", 2 << 30, 1 << 30, [MOUNT]))
    bare = client(OK, "CreateVolume", csi_pb2.CreateVolumeRequest(name="bare", volume_capabilities=[MOUNT])).volume
    wanted("a capacity of its own", bare.capacity_bytes > 0, True)
    longest = client.made("x" * 128)
    wanted("their ids", len({first.volume_id, bare.volume_id, longest}), 3)
    for mode in range(1, 8):
        client.made(f"mode-{mode}", capability(mode, "xfs"))
    client(INVALID, "CreateVolume", create("unknown-mode", capabilities=[capability(0, "ext4")]))
    client(INVALID, "CreateVolume", create("of-a-snapshot", volume_content_source={"snapshot": {"snapshot_id": "s"}}))


def deleting(client):
    client(INVALID, "DeleteVolume", delete("", **MORE))
    client(OK, "DeleteVolume", delete("no-such-volume", **MORE))
    client(OK, "DeleteVolume", delete(9999, **MORE))
    volume = client.made("v", SHARED)
    client(OK, "ControllerPublishVolume", attach(volume, "n1", SHARED))
    client(PRECONDITION, "DeleteVolume", delete(volume, **MORE))
    client(OK, "ControllerUnpublishVolume", detach(volume, "n1"))
    for _ in range(2):
        client(OK, "DeleteVolume", delete(volume, **MORE))
    client(NOT_FOUND, "ValidateVolumeCapabilities", validate(volume, [SHARED]))


def validating(client):
    volume = client.made("v")
    client(INVALID, "ValidateVolumeCapabilities", validate("", [MOUNT], **MORE))
    client(INVALID, "ValidateVolumeCapabilities", validate(volume, [], **MORE))
    client(NOT_FOUND, "ValidateVolumeCapabilities", validate("no-such-volume", [MOUNT], **MORE))
    response = client(OK, "ValidateVolumeCapabilities", validate(volume, [MOUNT], **MORE))
    wanted("confirmed", list(response.confirmed.volume_capabilities), [MOUNT])
    response = client(OK, "ValidateVolumeCapabilities", validate(volume, [capability(5, "ext4")], **MORE))
    wanted("not confirmed, and why", (response.HasField("confirmed"), response.message != ""), (False, True))


def attaching(client):
    volume, shared = client.made("v"), client.made("shared", SHARED)
    client(INVALID, "ControllerPublishVolume", attach("", "n1", MOUNT, **MORE))
    client(INVALID, "ControllerPublishVolume", attach(volume, "", MOUNT, **MORE))
    client(INVALID, "ControllerPublishVolume", csi_pb2.ControllerPublishVolumeRequest(volume_id=volume, node_id="n1", **MORE))
    client(NOT_FOUND, "ControllerPublishVolume", attach("no-such-volume", "n1", MOUNT, **MORE))
    client(NOT_FOUND, "ControllerPublishVolume", attach(9999, "n1", MOUNT, **MORE))
    client(NOT_FOUND, "ControllerPublishVolume", attach(volume, "no-such-node", MOUNT, **MORE))
    for _ in range(2):
        client(OK, "ControllerPublishVolume", attach(volume, "n1", MOUNT, volume_context={"a": "b"}, **MORE))
    client(EXISTS, "ControllerPublishVolume", attach(volume, "n1", MOUNT, True, **MORE))
    client(PRECONDITION, "ControllerPublishVolume", attach(volume, "n2", MOUNT, **MORE))
    for node in ("n1", "n2"):
        client(OK, "ControllerPublishVolume", attach(shared, node, SHARED, **MORE))
    client(INVALID, "ControllerUnpublishVolume", detach("", "n1", **MORE))
    for _ in range(2):
        client(OK, "ControllerUnpublishVolume", detach(volume, "n1", **MORE))
    client(OK, "ControllerPublishVolume", attach(volume, "n2", MOUNT, **MORE))
    client(OK, "ControllerUnpublishVolume", detach("no-such-volume", "n1", **MORE))
    by_arrival = client.numbers == "arrival"
    client(OK if by_arrival else INVALID, "ControllerUnpublishVolume", detach(shared, "", **MORE))
    client(OK if by_arrival else PRECONDITION, "DeleteVolume", delete(shared))


def capabilities(client):
    kinds = [it.rpc.type for it in client(OK, "ControllerGetCapabilities", csi_pb2.ControllerGetCapabilitiesRequest()).capabilities]
    wanted("the controller's, each once", (sorted(set(kinds)), len(set(kinds))), (sorted(kinds), len(kinds)))
    for name in ("ListVolumes", "GetCapacity", "CreateSnapshot", "DeleteSnapshot", "ListSnapshots", "ControllerExpandVolume", "ControllerGetVolume"):
        client(UNIMPLEMENTED, name, b"")
    kinds = [it.rpc.type for it in client(OK, "NodeGetCapabilities", csi_pb2.NodeGetCapabilitiesRequest()).capabilities]
    wanted("STAGE_UNSTAGE_VOLUME", 1 in kinds, True)
    for name in ("NodeGetVolumeStats", "NodeExpandVolume"):
        client(UNIMPLEMENTED, name, b"")
    info = client(OK, "NodeGetInfo", csi_pb2.NodeGetInfoRequest())
    wanted("the node", (0 < len(info.node_id) <= 256, info.max_volumes_per_node >= 0), (True, True))


# ---- a node


def missing(client):
    """Each field that CSI requires of a node's calls."""
    volume = client.made("v")
    client(INVALID, "NodeStageVolume", stage("", MOUNT, "/staging", **MORE))
    client(INVALID, "NodeStageVolume", stage(volume, MOUNT, "", **MORE))
    client(INVALID, "NodeStageVolume", csi_pb2.NodeStageVolumeRequest(volume_id=volume, staging_target_path="/staging", **MORE))
    client(INVALID, "NodeUnstageVolume", unstage("", "/staging"))
    client(INVALID, "NodeUnstageVolume", unstage(volume, ""))
    client(INVALID, "NodePublishVolume", publish("", "/target", MOUNT, path="/staging", **MORE))
    client(INVALID, "NodePublishVolume", publish(volume, "", MOUNT, path="/staging", **MORE))
    without = csi_pb2.NodePublishVolumeRequest(volume_id=volume, staging_target_path="/staging", target_path="/target", **MORE)
    client(INVALID, "NodePublishVolume", without)
    client(PRECONDITION, "NodePublishVolume", publish(volume, "/target", MOUNT, path="", **MORE))  # staging path not set
    client(PRECONDITION, "NodePublishVolume", publish(volume, "/target", MOUNT, path="/staging", **MORE))  # not staged
    client(INVALID, "NodeUnpublishVolume", unpublish("", "/target"))
    client(INVALID, "NodeUnpublishVolume", unpublish(volume, ""))
    client(NOT_FOUND, "NodeStageVolume", stage("no-such-volume", MOUNT, "/staging", **MORE))
    client(NOT_FOUND, "NodePublishVolume", publish("no-such-volume", "/target", MOUNT, path="/staging", **MORE))


def life(client):
    """From created to deleted, each call twice, with what CSI says of calls out of order; the volume is at its target from the one to the other."""
    box = client.box
    staging, target = box.at("staging"), box.at("target")
    os.mkdir(staging)
    volume = client.made("v", SHARED, parameters={"type": "fast"}, **MORE)
    node = client(OK, "NodeGetInfo", csi_pb2.NodeGetInfoRequest()).node_id

    def twice(name, request):
        for _ in range(2):
            client(OK, name, request)

    twice("ControllerPublishVolume", attach(volume, node, SHARED, **MORE))
    client(PRECONDITION, "NodePublishVolume", publish(volume, target, SHARED, path=staging))
    twice("NodeStageVolume", stage(volume, SHARED, staging, publish_context={"a": "b"}, **MORE))
    client(EXISTS, "NodeStageVolume", stage(volume, capability(5, "xfs"), staging, **MORE))
    twice("NodePublishVolume", publish(volume, target, SHARED, path=staging, **MORE))
    wanted("the target", is_mounted(target), client.mounts)
    client(EXISTS, "NodePublishVolume", publish(volume, target, SHARED, True, path=staging, **MORE))
    client(PRECONDITION, "NodeUnstageVolume", unstage(volume, staging))
    twice("NodeUnpublishVolume", unpublish(volume, target))
    wanted("the target", os.path.exists(target), False)
    client(OK, "NodeUnpublishVolume", unpublish(volume, box.at("never")))
    twice("NodeUnstageVolume", unstage(volume, staging))
    os.rmdir(staging)  # as the platform may, which made it
    twice("ControllerUnpublishVolume", detach(volume, node, **MORE))
    twice("DeleteVolume", delete(volume, **MORE))


def unknown(client):
    """A volume that no call was about is nowhere: what undoes it is done."""
    for volume in ("no-such-volume", 9999):
        client(OK, "NodeUnpublishVolume", unpublish(volume, "/target"))
        client(OK, "NodeUnstageVolume", unstage(volume, "/staging"))


def together(client):
    """Eight calls at once that ask the same: by arrival each is done, by metadata those that a later one overtook are 10; the thing is there once."""
    box = client.box
    staging, target = box.at("staging"), box.at("target")
    os.mkdir(staging)

    def at_once(name, request):
        client.call += 8
        number = (lambda at: (1, client.call - 7 + at)) if client.numbers == "metadata" else lambda _: None
        driver = client.node if name.startswith("Node") else client.controller
        came = [ended(it) for it in [driver.start(name, request, number(at)) for at in range(8)]]
        may = {OK} if client.numbers == "arrival" else {OK, 10}
        wanted(f"{name}: {[it[:2] for it in came]}", ({it[0] for it in came} <= may, OK in {it[0] for it in came}), (True, True))
        return [it[2] for it in came if it[0] == OK]

    made = {it.volume.volume_id for it in at_once("CreateVolume", create("v", 1 << 30, capabilities=[SHARED], **MORE))}
    wanted("the volumes", len(made), 1)
    volume = made.pop()
    at_once("ControllerPublishVolume", attach(volume, "n1", SHARED))
    at_once("NodeStageVolume", stage(volume, SHARED, staging))
    at_once("NodePublishVolume", publish(volume, target, SHARED, path=staging))
    wanted("the mounts at the target", len(options_at(target)), int(client.mounts))
    at_once("NodeUnpublishVolume", unpublish(volume, target))
    wanted("the target", os.path.exists(target), False)
    at_once("NodeUnstageVolume", unstage(volume, staging))
    at_once("ControllerUnpublishVolume", detach(volume, "n1"))
    at_once("DeleteVolume", delete(volume))


GROUPS = (identity, creating, deleting, validating, attaching, capabilities, missing, life, unknown, together)


def forget(box):
    """Takes away what a group left."""
    for path in (*glob.glob(box.at("*.db*")), box.at("staging")):
        if os.path.isdir(path):
            shutil.rmtree(path)
        elif os.path.exists(path):
            os.remove(path)


def hooks_here():
    """Mounts, where they may be made."""
    try:
        own_namespace()
        return "mounts"
    except LeftOut:
        return "none"


def suite(numbers):
    def body(box):
        hooks = hooks_here()
        calls = 0
        for group in GROUPS:
            client = Client(box, numbers, hooks)
            client.mounts = hooks == "mounts"
            group(client)
            wanted(f"{group.__name__}: their ends", [client.controller.stop(), client.node.stop()], [0, 0])
            calls += client.call
            forget(box)
        return f"{len(GROUPS)} groups, {calls} calls, hooks {hooks}"

    return body


def cases(_drawn, _seed):
    for numbers in ("metadata", "arrival"):
        yield f"sanity: by {numbers}", suite(numbers)
