"""Requests of CSI, short."""
import csi_pb2

MODES = range(1, 8)


def capability(mode=1, fs_type=None):
    """A block device, or a mount of this fs type."""
    made = csi_pb2.VolumeCapability(access_mode={"mode": mode})
    if fs_type is None:
        made.block.SetInParent()
    else:
        made.mount.SetInParent()
        made.mount.fs_type = fs_type
    return made


BLOCK = capability()


def create(name, required=10, limit=0, capabilities=(BLOCK,), **more):
    bounds = {"required_bytes": required, "limit_bytes": limit}
    return csi_pb2.CreateVolumeRequest(name=name, capacity_range=bounds, volume_capabilities=capabilities, **more)


def delete(volume, **more):
    return csi_pb2.DeleteVolumeRequest(volume_id=str(volume), **more)


def attach(volume, node="n1", how=BLOCK, readonly=False, **more):
    return csi_pb2.ControllerPublishVolumeRequest(volume_id=str(volume), node_id=node, volume_capability=how, readonly=readonly, **more)


def detach(volume, node="n1", **more):
    return csi_pb2.ControllerUnpublishVolumeRequest(volume_id=str(volume), node_id=node, **more)


def validate(volume, capabilities=(BLOCK,), **more):
    return csi_pb2.ValidateVolumeCapabilitiesRequest(volume_id=str(volume), volume_capabilities=capabilities, **more)


def at(volume, path):
    """Where the volume is staged, if nothing is said of it."""
    return f"/staging/{volume}" if path is None else path


def stage(volume, how=BLOCK, path=None, **more):
    return csi_pb2.NodeStageVolumeRequest(volume_id=str(volume), staging_target_path=at(volume, path), volume_capability=how, **more)


def unstage(volume, path=None, **more):
    return csi_pb2.NodeUnstageVolumeRequest(volume_id=str(volume), staging_target_path=at(volume, path), **more)


def publish(volume, target="/a", how=BLOCK, readonly=False, path=None, **more):
    where = {"staging_target_path": at(volume, path), "target_path": target}
    return csi_pb2.NodePublishVolumeRequest(volume_id=str(volume), volume_capability=how, readonly=readonly, **where, **more)


def unpublish(volume, target="/a", **more):
    return csi_pb2.NodeUnpublishVolumeRequest(volume_id=str(volume), target_path=target, **more)
