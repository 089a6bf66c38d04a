"""Frames as bytes, written from docs/FRAMES.md alone."""

KINDS = {
    "CreateVolume": 1,
    "DeleteVolume": 2,
    "ControllerPublishVolume": 3,
    "ControllerUnpublishVolume": 4,
    "NodeStageVolume": 5,
    "NodeUnstageVolume": 6,
    "NodePublishVolume": 7,
    "NodeUnpublishVolume": 8,
}


def number(value, size=8):
    return value.to_bytes(size, "big")


def text(value):
    value = value if isinstance(value, bytes) else value.encode()
    return bytes([len(value)]) + value


def block(mode):
    return b"\0" + bytes([mode])


def mount(fs_type, mode):
    return b"\1" + text(fs_type) + bytes([mode])


def flag(readonly):
    return bytes([readonly])


def counted(items):
    return bytes([len(items)]) + b"".join(items)


def party_of(kind, node):
    """The plugin that is called, or replies: the controller, or a node."""
    return b"\0" if KINDS[kind] <= 4 else b"\1" + text(node)


def framed(body):
    return number(len(body), 4) + body


def body_of(kind, at, fields, node="n1", version=1, reply=False):
    session, call = at
    head = bytes([version, KINDS[kind] + 128 * reply]) + number(session) + number(call)
    return head + party_of(kind, node) + fields


def call(kind, at, *fields, node="n1", version=1):
    """A call of this kind and number, with these fields."""
    return framed(body_of(kind, at, b"".join(fields), node, version))


def reply(kind, at, status=0, volume=0, detail="", node="n1"):
    """A reply to a call of this kind and number."""
    return framed(body_of(kind, at, bytes([status]) + number(volume) + text(detail), node, reply=True))


def create(at, name, required=10, limit=0, capabilities=(block(1),), version=1):
    return call("CreateVolume", at, text(name), number(required), number(limit), counted(capabilities), version=version)


def delete(at, volume):
    return call("DeleteVolume", at, number(volume))


def attach(at, volume, node, capability=block(1), readonly=False, version=1):
    return call("ControllerPublishVolume", at, number(volume), text(node), capability, flag(readonly), version=version)


def detach(at, volume, node):
    return call("ControllerUnpublishVolume", at, number(volume), text(node))


def stage(at, volume, capability=block(1), node="n1", version=1):
    return call("NodeStageVolume", at, number(volume), capability, node=node, version=version)


def unstage(at, volume, node="n1"):
    return call("NodeUnstageVolume", at, number(volume), node=node)


def publish(at, volume, target, capability=block(1), readonly=False, node="n1", version=1):
    fields = [number(volume), text(target), capability, flag(readonly)]
    return call("NodePublishVolume", at, *fields, node=node, version=version)


def unpublish(at, volume, target, node="n1"):
    return call("NodeUnpublishVolume", at, number(volume), text(target), node=node)


def split(stream):
    """The whole frames of a stream, and what is left behind them."""
    frames = []
    while len(stream) >= 4 and len(stream) >= (end := 4 + int.from_bytes(stream[:4], "big")):
        frames.append(stream[:end])
        stream = stream[end:]
    return frames, stream
