"""What a platform's sidecars call in a volume's life, of ten volumes at once, each call twice, by arrival."""
import os
import threading

import csi_pb2
from program.running import LeftOut, Wrong, wanted

from .mounting import is_mounted, own_namespace
from .requests import attach, capability, create, delete, detach, publish, stage, unpublish, unstage, validate

HOW = capability(7, "ext4")


def life(box, controller, node, at, mounts):
    """From nothing to nothing, with the volume mounted, if anything may be."""
    for driver in (controller, node):
        driver.wants(0, "GetPluginInfo", csi_pb2.GetPluginInfoRequest())
        driver.wants(0, "GetPluginCapabilities", csi_pb2.GetPluginCapabilitiesRequest())
        wanted("Probe", driver.wants(0, "Probe", csi_pb2.ProbeRequest()).ready.value, True)
    controller.wants(0, "ControllerGetCapabilities", csi_pb2.ControllerGetCapabilitiesRequest())
    node.wants(0, "NodeGetCapabilities", csi_pb2.NodeGetCapabilitiesRequest())
    there = node.wants(0, "NodeGetInfo", csi_pb2.NodeGetInfoRequest()).node_id
    made = twice(controller, "CreateVolume", create(f"pvc-{at}", 1 << 30, 0, [HOW])).volume
    volume, staging, target = made.volume_id, box.at(f"globalmount/{at}"), box.at(f"pods/{at}/mount")
    os.makedirs(staging)
    os.makedirs(os.path.dirname(target))  # as platforms do
    controller.wants(0, "ValidateVolumeCapabilities", validate(volume, [HOW], volume_context=made.volume_context))
    context = {"volume_context": {"storage.kubernetes.io/csiProvisionerIdentity": "1-2-csi"}}
    twice(controller, "ControllerPublishVolume", attach(volume, there, HOW, **context))
    twice(node, "NodeStageVolume", stage(volume, HOW, staging, **context))
    twice(node, "NodePublishVolume", publish(volume, target, HOW, path=staging, **context))
    wanted("the target", is_mounted(target), mounts)
    node.wants((9, "staged otherwise"), "NodeStageVolume", stage(volume, HOW, staging + "/other"))
    node.wants((9, target), "NodeUnstageVolume", unstage(volume, staging))
    controller.wants((9, there), "DeleteVolume", delete(volume))
    twice(node, "NodeUnpublishVolume", unpublish(volume, target))
    wanted("the target", os.path.exists(target), False)
    twice(node, "NodeUnstageVolume", unstage(volume, staging))
    twice(controller, "ControllerUnpublishVolume", detach(volume, there))
    twice(controller, "DeleteVolume", delete(volume))


def twice(driver, name, request):
    first = driver.wants(0, name, request)
    wanted(f"{name} again", str(driver.wants(0, name, request)), str(first))
    return first


def at_once(box):
    try:
        own_namespace()
        mounts = True
    except LeftOut:
        mounts = False  # said by the cases of mounts
    hooks = "mounts" if mounts else "none"
    controller, node = box.controller("--numbers", "arrival"), box.node("--numbers", "arrival", "--hooks", hooks)
    faults = []

    def one(at):
        try:
            life(box, controller, node, at, mounts)
        except Wrong as why:
            faults.append(str(why))

    threads = [threading.Thread(target=one, args=[at]) for at in range(10)]
    for thread in threads:
        thread.start()
    for thread in threads:
        thread.join()
    wanted("faults", faults, [])
    wanted("what lives", [it for it in box.record("controller.db")["volumes"] if it["live"]], [])
    wanted("what is staged", [it for it in box.record("n1.db")["volumes"] if it["staged"]], [])
    wanted("their ends", [controller.stop(), node.stop()], [0, 0])


def cases(_drawn, _seed):
    yield "lives: ten volumes at once", at_once
