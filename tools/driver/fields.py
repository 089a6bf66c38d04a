"""What becomes of each field of each request, and the responses: by the tables of docs/DRIVER.md, "From CSI to a frame"."""
import os
import stat
import subprocess

import csi_pb2
from program.running import LIMIT, wanted

from .box import ended
from .requests import BLOCK, attach, capability, create, delete, detach, publish, stage, unpublish, unstage, validate

UNKNOWN = b"\xf8\x3f\x01"  # field 1023, which no message has
LONG = "x" * 4097
TOO_MUCH = {"k": LONG[1:]}  # a map of one byte more than CSI has in one
SECRETS = {"secrets": TOO_MUCH}
CONTEXT = {"volume_context": {"k": LONG[2:]}}
PATHS = ("", LONG, "/a\0", "a", "../a", "/a/..", "/a/../b")
FS_TYPES = ("x" * 129, "x\0", "ext 4", "ext4,ro", "a/b", "ext4\n", "e\u0301", "-t")


def bad_capabilities(made, fields):
    """Requests that `made` makes of a bad capability, and what they get."""
    flags, group = capability(1, "ext4"), capability(1, "ext4")
    flags.mount.mount_flags.extend(["noatime", LONG[7:]])  # a byte too many together
    group.mount.volume_mount_group = "g"
    yield made(csi_pb2.VolumeCapability(access_mode={"mode": 1})), "access_type"
    yield made(capability(0)), "access_mode"
    yield made(capability(8)), "access_mode"
    yield made(csi_pb2.VolumeCapability(block={})), "access_mode"
    for fs_type in FS_TYPES:
        yield made(capability(1, fs_type)), "fs_type"
    yield made(flags), "mount_flags"
    yield made(group), "volume_mount_group"
    if fields:
        yield made(csi_pb2.VolumeCapability.FromString(BLOCK.SerializeToString() + UNKNOWN)), "unknown field"


def bad_of_controller():
    """Each request that no controller's frame can carry, and the text of its refusal, status 3."""
    for request in (create("v"), delete(1), attach(1), detach(1), validate(1), csi_pb2.ControllerGetCapabilitiesRequest()):
        yield request.SerializeToString() + UNKNOWN, type(request).DESCRIPTOR.name, "unknown field"
    rows = [
        (create(""), "name"),
        (create("x" * 129), "name"),
        (create("v\0"), "name"),
        (create("v", -1), "capacity"),
        (create("v", 1, -1), "capacity"),
        (create("v", capabilities=[BLOCK] * 9), "volume_capabilities"),
        (create("v", parameters=TOO_MUCH), "parameters"),
        (create("v", **SECRETS), "secrets"),
        (create("v", volume_content_source={}), "volume_content_source"),
        (create("v", volume_content_source={"snapshot": {"snapshot_id": "s"}}), "volume_content_source"),
        (create("v", accessibility_requirements={}), "accessibility_requirements"),
        (create("", **SECRETS), "name"),
        (delete(""), "volume_id"),
        (delete(1, **SECRETS), "secrets"),
        (delete("x", **SECRETS), "secrets"),
        (attach(""), "volume_id"),
        (attach(1, ""), "node_id"),
        (attach(1, "x" * 256), "node_id"),
        (attach(1, "n\0"), "node_id"),
        (attach(1, **SECRETS), "secrets"),
        (attach(1, volume_context=TOO_MUCH), "volume_context"),
        (csi_pb2.ControllerPublishVolumeRequest(volume_id="1", node_id="n1"), "volume_capability"),
        (detach(""), "volume_id"),
        (detach(1, ""), "node_id"),
        (detach(1, "x" * 256), "node_id"),
        (detach(1, **SECRETS), "secrets"),
        (validate(""), "volume_id"),
        (validate(1, []), "volume_capabilities"),
        (validate(1, **SECRETS), "secrets"),
        (validate(1, volume_context=TOO_MUCH), "volume_context"),
        (validate(1, parameters=TOO_MUCH), "parameters"),
        *bad_capabilities(lambda it: create("v", capabilities=[BLOCK, it]), True),
        *bad_capabilities(lambda it: attach(1, how=it), True),
        *bad_capabilities(lambda it: validate(1, [it]), True),
    ]
    for request, text in rows:
        yield request.SerializeToString(), type(request).DESCRIPTOR.name, text


def bad_of_node():
    for request in (stage(1), unstage(1), publish(1), unpublish(1), csi_pb2.NodeGetCapabilitiesRequest(), csi_pb2.NodeGetInfoRequest()):
        yield request.SerializeToString() + UNKNOWN, type(request).DESCRIPTOR.name, "unknown field"
    rows = [
        (stage(""), "volume_id"),
        *((stage(1, path=it), "staging_target_path") for it in PATHS),
        (stage(1, **SECRETS), "secrets"),
        (stage(1, publish_context=TOO_MUCH), "publish_context"),
        (stage(1, volume_context=TOO_MUCH), "volume_context"),
        (csi_pb2.NodeStageVolumeRequest(volume_id="1", staging_target_path="/s"), "volume_capability"),
        (unstage(""), "volume_id"),
        *((unstage(1, path=it), "staging_target_path") for it in PATHS),
        (publish(""), "volume_id"),
        *((publish(1, path=it), "staging_target_path") for it in PATHS[1:]),
        *((publish(1, it), "target_path") for it in ("", "/" + "x" * 255, "/a\0", "../a", "/a/..", "/a/../b")),
        (publish(1, "a"), "target"),  # by the plugin
        (publish(1, **SECRETS), "secrets"),
        (publish(1, publish_context=TOO_MUCH), "publish_context"),
        (publish(1, volume_context=TOO_MUCH), "volume_context"),
        (unpublish(""), "volume_id"),
        (unpublish(1, ""), "target_path"),
        (unpublish(1, "/a/../b"), "target_path"),
        *bad_capabilities(lambda it: stage(1, it), True),
        *bad_capabilities(lambda it: publish(1, how=it), True),
    ]
    for request, text in rows:
        yield request.SerializeToString(), type(request).DESCRIPTOR.name, text


def refused(driver, rows):
    count = 0
    for count, (content, name, text) in enumerate(rows, 1):
        driver.wants((3, text), name.removesuffix("Request"), content, (1, count))
    return count


def controller(box):
    """What a frame can't carry is refused; what it can is carried."""
    driver = box.controller()
    count = refused(driver, bad_of_controller())
    wanted("the record", box.record("controller.db")["session"], 0)
    bare = csi_pb2.CreateVolumeRequest(name="w", volume_capabilities=[BLOCK])
    made = driver.wants(0, "CreateVolume", bare, (2, 1))
    wanted("the volume", (made.volume.volume_id, made.volume.capacity_bytes), ("1", 1 << 30))
    made = driver.wants(0, "CreateVolume", create("v", 10, 20, [capability(5, "ext4"), BLOCK]), (2, 2))
    wanted("the volume", made.SerializeToString(), csi_pb2.CreateVolumeResponse(volume={"volume_id": "2", "capacity_bytes": 10}).SerializeToString())
    made = driver.wants(0, "CreateVolume", create("v", 5, 0, [BLOCK]), (2, 3))
    wanted("the same volume", made.volume.capacity_bytes, 10)
    driver.wants((3, "capabilities"), "CreateVolume", create("u", capabilities=[]), (2, 4))
    driver.wants((3, "capacity"), "CreateVolume", create("u", 0, 0), (2, 5))
    made = driver.wants(0, "CreateVolume", create("u", 0, 7), (2, 6))
    wanted("the capacity", made.volume.capacity_bytes, 7)
    for at, volume in enumerate(("x", "0", "01", "+1", " 1", str(1 << 64), "-1", "\u0661")):
        driver.wants((5, "volume"), "ControllerPublishVolume", attach(volume), (2, 10 + at))
        driver.wants((5, "volume"), "ValidateVolumeCapabilities", validate(volume))
        driver.wants(0, "DeleteVolume", delete(volume), (2, 20 + at))
        driver.wants(0, "ControllerUnpublishVolume", detach(volume), (2, 30 + at))
    taken = flagged(capability(5, "ext4"))
    driver.wants(0, "ControllerPublishVolume", attach(2, "n1", taken, True, secrets={"k": "v"}, **CONTEXT), (2, 40))
    driver.wants((9, "n1"), "DeleteVolume", delete(2), (2, 41))
    driver.wants((9, "number"), "DeleteVolume", delete(1), (2, 1))
    driver.wants((12, "unknown service csi.v1.Node"), "NodeGetInfo", csi_pb2.NodeGetInfoRequest())
    for content in (b"\x0a\x01\xff", b"\x0a\x02v"):
        wanted("no message", driver.ask("CreateVolume", content, (2, 60))[0], 13)
    wanted("ListVolumes", driver.ask("ListVolumes", b"")[0], 12)
    validated(driver)
    record = box.record("controller.db")
    wanted("attached", record["volumes"][1]["attached"], [{"capability": {"access": "mount", "fs": "ext4", "mode": 5}, "node": "n1", "readonly": True}])
    wanted("the status", driver.stop(), 0)
    return f"{count} requests refused by the driver"


def flagged(how):
    """The capability with mount flags, as many bytes as CSI has in them."""
    how.mount.mount_flags.extend(["noatime", LONG[8:]])
    return how


def validated(driver):
    """Of volume 2, which has a mount in mode 5, and a block device in mode 1; volume 1 is deleted, and 9 isn't there."""
    driver.wants(0, "DeleteVolume", delete(1), (2, 50))
    for volume in (1, 9):
        driver.wants((5, "volume"), "ValidateVolumeCapabilities", validate(volume))
    response = driver.wants(0, "ValidateVolumeCapabilities", validate(2, [BLOCK, capability(5, "ext4")], **CONTEXT))
    confirmed = csi_pb2.ValidateVolumeCapabilitiesResponse(confirmed={"volume_capabilities": [BLOCK, capability(5, "ext4")]})
    wanted("confirmed", str(response), str(confirmed))
    response = driver.wants(0, "ValidateVolumeCapabilities", validate(2, [BLOCK, capability(5, "xfs")]))
    wanted("not confirmed", (response.HasField("confirmed"), response.message), (False, "capability"))
    response = driver.wants(0, "ValidateVolumeCapabilities", validate(2, parameters={"k": "v"}))
    wanted("not confirmed", (response.HasField("confirmed"), response.message), (False, "parameters"))


def node(box):
    driver = box.node("--max-volumes", "7")
    count = refused(driver, bad_of_node())
    driver.wants((9, "staging_target_path"), "NodePublishVolume", publish(1, path=""), (1, 1000))  # CSI's own status
    for at, volume in enumerate(("x", "0", "01")):
        driver.wants((5, "volume"), "NodeStageVolume", stage(volume), (2, 10 + at))
        driver.wants((5, "volume"), "NodePublishVolume", publish(volume), (2, 20 + at))
        driver.wants(0, "NodeUnstageVolume", unstage(volume), (2, 30 + at))
        driver.wants(0, "NodeUnpublishVolume", unpublish(volume), (2, 40 + at))
    how, told = flagged(capability(7, "")), {"publish_context": {"k": "v"}, "secrets": {"k": "v"}, **CONTEXT}
    driver.wants(0, "NodeStageVolume", stage(1 << 63, how, **told), (3, 1))
    driver.wants(0, "NodePublishVolume", publish(1 << 63, "/t", how, True, **told), (3, 2))
    info = driver.wants(0, "NodeGetInfo", csi_pb2.NodeGetInfoRequest())
    wanted("NodeGetInfo", str(info), str(csi_pb2.NodeGetInfoResponse(node_id="n1", max_volumes_per_node=7)))
    kinds = [it.rpc.type for it in driver.wants(0, "NodeGetCapabilities", csi_pb2.NodeGetCapabilitiesRequest()).capabilities]
    wanted("NodeGetCapabilities", kinds, [1, 5])
    wanted("the record", box.record("n1.db")["volumes"][0]["published"], [{"readonly": True, "target": "/t"}])
    wanted("another service", driver.ask("CreateVolume", create("v"), (3, 3))[0], 12)
    return f"{count} requests refused"


def identity(box):
    for driver in (box.controller("--name", "a.example"), box.node("--name", "a.example")):
        info = driver.wants(0, "GetPluginInfo", csi_pb2.GetPluginInfoRequest())
        told = subprocess.run([f"{box.built}/csi-driver", "--version"], capture_output=True, timeout=LIMIT, check=False, text=True)
        wanted("GetPluginInfo", (info.name, f"csi-driver {info.vendor_version}\n"), ("a.example", told.stdout))
        told = driver.wants(0, "GetPluginCapabilities", csi_pb2.GetPluginCapabilitiesRequest())
        wanted("GetPluginCapabilities", [it.service.type for it in told.capabilities], [1])
        wanted("Probe", driver.wants(0, "Probe", csi_pb2.ProbeRequest()).ready.value, True)
        for name in ("GetPluginInfo", "GetPluginCapabilities", "Probe"):
            driver.wants((3, "unknown field"), name, UNKNOWN)
        wanted("health: SERVING", driver.channel.unary_unary("/grpc.health.v1.Health/Check")(b""), b"\x08\x01")
    kinds = box.drivers[0].wants(0, "ControllerGetCapabilities", csi_pb2.ControllerGetCapabilitiesRequest()).capabilities
    wanted("ControllerGetCapabilities", [it.rpc.type for it in kinds], [1, 2, 8, 13])


# Of each request its fields by rising number: the text of the refusal, a wrong value and a right one. No volume can have the id "x".
IDS = ("volume_id", "", "x")
HIDDEN, OF_VOLUME, OF_NODE = (("secrets", TOO_MUCH, {"k": "v"}), ("volume_context", TOO_MUCH, {"k": "v"}), ("publish_context", TOO_MUCH, {"k": "v"}))
PATH, WAY = ("staging_target_path", "s", "/s"), ("volume_capability", None, BLOCK)
FIELDS = {
    "CreateVolume": [
        ("name", "", "v"),
        ("capacity_range", {"required_bytes": -1}, None),
        ("volume_capabilities", [BLOCK] * 9, [BLOCK]),
        ("parameters", TOO_MUCH, {"k": "v"}),
        HIDDEN,
        ("volume_content_source", {}, None),
        ("accessibility_requirements", {}, None),
    ],
    "DeleteVolume": [IDS, HIDDEN],
    "ControllerPublishVolume": [IDS, ("node_id", "", "n1"), WAY, HIDDEN, OF_VOLUME],
    "ControllerUnpublishVolume": [IDS, ("node_id", "", "n1"), HIDDEN],
    "ValidateVolumeCapabilities": [IDS, OF_VOLUME, ("volume_capabilities", [], [BLOCK]), ("parameters", TOO_MUCH, {}), HIDDEN],
    "NodeStageVolume": [IDS, OF_NODE, PATH, WAY, HIDDEN, OF_VOLUME],
    "NodeUnstageVolume": [IDS, PATH],
    "NodePublishVolume": [IDS, OF_NODE, PATH, ("target_path", "", "/t"), WAY, HIDDEN, OF_VOLUME],
    "NodeUnpublishVolume": [IDS, ("target_path", "", "/t")],
}
MOUNT = [("fs_type", "x y", ""), ("mount_flags", [LONG], ["ro"]), ("volume_mount_group", "g", "")]


def mended(fields):
    """Fields that are all wrong; and those with the first one mended, the first two, and so on. With each the field that is the first wrong one."""
    for at in range(len(fields) + 1):
        yield {name: right if place < at else wrong for place, (name, wrong, right) in enumerate(fields)}, fields[at][0] if at < len(fields) else None


def by_number(box):
    """Judged are the call's number, unknown fields, the fields by rising number, the session that has the plugin, and last the id."""
    drivers, count = (box.controller(), box.node()), 0
    for name, fields in FIELDS.items():
        driver, request = drivers[name.startswith("Node")], getattr(csi_pb2, f"{name}Request")
        for given, text in mended(fields):
            content = request(**given).SerializeToString()
            if name != "ValidateVolumeCapabilities":
                driver.wants((9, "number"), name, content + UNKNOWN)
            driver.wants((3, "unknown field"), name, content + UNKNOWN, (10000001, 1))
            if text:
                driver.wants((3, text.removesuffix("_range")), name, content, (10000001, 1))
            count += 3
        undoes = name.startswith("Delete") or "Un" in name
        driver.wants((9, "session") if name == "CreateVolume" else 0 if undoes else (5, "volume"), name, content, (10000001, 1))
    for given, text in mended(MOUNT):
        for mode, right in ((0, text or "access_mode"), (1, text)):
            made = csi_pb2.VolumeCapability(mount=given, access_mode={"mode": mode})
            if right:
                drivers[0].wants((3, right), "CreateVolume", create("v", capabilities=[made]), (1, 1))
    wanted("the record", box.record("controller.db")["session"], 0)
    return f"{count} requests"


def numbers(box):
    """A number is one, in decimal, and not of a session that is far above the latest."""
    driver = box.controller()
    for number in (None, "1", "1.", ".1", "1.x", "01.1", "1.1 ", "1.1.1", "-1.1", f"{1 << 64}.1"):
        driver.wants((9, "number"), "CreateVolume", create("v"), number)
    driver.wants((9, "session"), "CreateVolume", create("v"), (10000001, 1))
    driver.wants(0, "CreateVolume", create("v"), (10000000, 1))
    driver.wants((9, "session"), "CreateVolume", create("w"), (20000001, 1))
    driver.wants((10, "stale"), "CreateVolume", create("w"), (9999999, 9))
    driver.wants(0, "CreateVolume", create("w"), (20000000, 1))
    wanted("the status", driver.stop(), 0)
    driver = box.controller("--sessions-above", "0")
    driver.wants(0, "CreateVolume", create("u"), ((1 << 64) - 1, 1))
    driver.stop()
    driver = box.controller("--numbers", "arrival", serves=False)
    wanted("the status", driver.close(), 1)
    wanted("the line", driver.said, b"csi-driver: numbers spent\n")


def replies(box):
    """What the plugin replied has its number as trailer, and no refusal of the driver's own has one."""
    driver = box.controller()
    for right, request, number, trailer in (
        (0, create("v"), (1, 1), "1.1"),
        (0, create("v"), (1, 1), "1.1"),
        (6, create("v", 20), (1, 2), "1.2"),
        (3, create(""), (1, 3), None),
        (9, create("w"), None, None),
        (9, create("w"), (20000000, 1), None),
    ):
        call = driver.start("CreateVolume", request, number)
        wanted(f"{request!s} {number}", ended(call)[0], right)
        wanted(f"the trailer of {request!s}", dict(call.trailing_metadata()).get("tufayon-reply"), trailer)
    wanted("a message that is too long", driver.ask("CreateVolume", create("v", parameters={"k": "x" * (128 << 10)}), (1, 4))[0], 8)
    driver.wants(0, "CreateVolume", create("v"), (1, 4))


def sockets(box):
    """Nobody else gets in, and a driver is ended where they might."""
    driver = box.controller()
    modes = [stat.S_IMODE(os.stat(it).st_mode) for it in (driver.socket, os.path.dirname(driver.socket))]
    wanted("the modes of socket and folder", modes, [0o600, 0o700])
    second = box.controller(socket="other", serves=False)
    wanted("a second driver over the store", (second.close(), second.said[:34]), (3, b"csi-driver: store not opened: data"))
    third = box.controller(store="third.db", serves=False)
    wanted("another driver at its socket", (third.close(), third.said), (3, f"csi-driver: the socket: {driver.socket} is served by another process\n".encode()))
    status, _, error = box.replay("controller", box.at("controller.db"), box.at("config"))
    wanted("csi-replay over the store", (status, error), (3, b"csi-replay: store not opened\n"))
    driver.kill()
    box.controller().stop()
    os.mkdir(box.at("open.d"), 0o755)
    driver = box.controller(socket="open", serves=False)
    wanted("a folder that others read", (driver.close(), driver.said[:23]), (3, b"csi-driver: the socket:"))


def cases(_drawn, _seed):
    yield "fields: a controller's", controller
    yield "fields: a node's", node
    yield "fields: Identity", identity
    yield "fields: by rising number", by_number
    yield "fields: numbers", numbers
    yield "fields: replies", replies
    yield "fields: sockets", sockets
