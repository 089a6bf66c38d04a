"""Frames as values, read by docs/FRAMES.md alone: as much of each as a network, and who watches it, has to know."""
from dataclasses import dataclass

from program.frames import KINDS

KIND_NAMES = {code: name for name, code in KINDS.items()}
REPLY = 128  # added to a call's kind by its reply


@dataclass(frozen=True)
class Told:
    """A call or a reply. A CreateVolume has a name, every other call a volume; a reply has a status, a volume or 0, and a detail."""

    kind: str
    number: tuple  # session, call
    node: str | None  # the plugin that is called, or replies; None: the controller
    is_reply: bool
    name: str = ""
    volume: int = 0
    status: int = 0
    detail: str = ""

    @property
    def plugin(self):
        """As the orchestrator's lines name it."""
        return "controller" if self.node is None else f"node:{self.node}"

    def __str__(self):
        """In words, for a person."""
        what = f"{self.kind} {self.number[0]}.{self.number[1]} {'from' if self.is_reply else 'to'} {self.plugin}"
        if self.is_reply:
            return f"{what}: {self.status} {self.volume} {self.detail}".rstrip()
        return f"{what} of {self.name or self.volume}"


def whole(content):
    return int.from_bytes(content, "big")


def text(content):
    """The text that these bytes begin with, and the bytes behind it."""
    end = 1 + content[0]
    return content[1:end].decode(), content[end:]


def read(frame):
    """A whole frame."""
    code, number, rest = frame[5], (whole(frame[6:14]), whole(frame[14:22])), frame[22:]
    node, rest = (None, rest[1:]) if rest[0] == 0 else text(rest[1:])
    if code > REPLY:
        return Told(KIND_NAMES[code - REPLY], number, node, True, status=rest[0], volume=whole(rest[1:9]), detail=text(rest[9:])[0])
    if KIND_NAMES[code] == "CreateVolume":
        return Told("CreateVolume", number, node, False, name=text(rest)[0])
    return Told(KIND_NAMES[code], number, node, False, volume=whole(rest[:8]))
