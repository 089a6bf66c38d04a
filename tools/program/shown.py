"""`show`: each frame's line, held against `shown.lines`, which was written by hand from docs/FRAMES.md."""
import os

from .frames import (
    KINDS,
    attach,
    block,
    create,
    delete,
    detach,
    mount,
    publish,
    reply,
    stage,
    unpublish,
    unstage,
)
from .running import Case, ended, wanted

ALL_BITS = 2**64 - 1
USES = [block(1), mount("ext4", 2), block(3), mount("", 4), block(5), mount("a b", 1), mount('"\\', 2), block(4)]
PLAIN = bytes(range(128))  # each byte that is a character by itself
TRAILING = bytes(it for byte in range(0x80, 0xC0) for it in (0xC2, byte))  # each that goes on with one
LEADING = (
    bytes(it for byte in range(0xC3, 0xE0) for it in (byte, 0x80))
    + b"\xe0\xa0\x80"
    + bytes(it for byte in range(0xE1, 0xF0) for it in (byte, 0x80, 0x80))
    + b"\xf0\x90\x80\x80"
    + bytes(it for byte in range(0xF1, 0xF5) for it in (byte, 0x80, 0x80, 0x80))
)  # each that one can begin with
DETAILS = ["", "capabilities", "canceled", "capacity", "late", "node", "name", "no rights", "volumes", "in use", "stale", "range"]
DETAILS += ["none", "internal", "away", "lost", "who"]

FRAMES = [
    # each call and its reply
    create((1, 1), "v"),
    delete((1, 2), 1),
    attach((1, 3), 1, "n1"),
    detach((1, 4), 1, "n1"),
    stage((1, 5), 1),
    unstage((1, 6), 1),
    publish((1, 7), 1, "/a"),
    unpublish((1, 8), 1, "/a"),
    *(reply(kind, (1, at), 0, int(at == 1)) for kind, at in KINDS.items()),
    # none to eight capabilities, in both versions
    *(create((2, count), "v", 1, 2, USES[:count]) for count in range(9)),
    *(create((3, count), "v", 2, 1, USES[: count - 1] + [block(6)], version=2) for count in range(1, 9)),
    create((3, 9), "v", 0, 0, [mount("xfs", 7), block(1)], version=2),
    # modes and flags
    *(attach((4, mode), 1, "n", block(mode), False) for mode in range(1, 6)),
    *(attach((4, mode), 1, "n", mount("ext4", mode), True, version=2) for mode in (6, 7)),
    *(stage((5, mode), 1, mount("", mode), "n") for mode in range(1, 6)),
    *(stage((5, mode), 1, block(mode), "n", version=2) for mode in (6, 7)),
    *(publish((6, mode), 1, "/", mount("f", mode), True, "n") for mode in range(1, 6)),
    *(publish((6, mode), 1, "/", block(mode), False, "n", version=2) for mode in (6, 7)),
    # each status
    *(reply("DeleteVolume", (7, status), status, 0, DETAILS[status]) for status in range(17)),
    reply("CreateVolume", (7, 17), 6, 0, "name"),
    # large numbers
    create((2**32, 2**32 + 1), "v", ALL_BITS, 2**63),
    create((0, 0), "v", 0, ALL_BITS, []),
    reply("CreateVolume", (ALL_BITS, ALL_BITS), 0, ALL_BITS),
    reply("CreateVolume", (10**19, 256), 0, 2**32),
    delete((ALL_BITS, 2**63), ALL_BITS),
    attach((2**40, 9), 2**32 + 1, "n"),
    detach((9, 2**40), 2**33, "n"),
    stage((1, 1), 2**34),
    unstage((1, 1), 2**35),
    publish((1, 1), 2**36, "/"),
    unpublish((1, 1), 2**37, "/"),
    # each byte that a text may have, and the longest texts
    create((8, 1), PLAIN),
    reply("DeleteVolume", (8, 2), 2, 0, TRAILING),
    reply("NodeUnpublishVolume", (8, 3), 2, 0, LEADING, node=PLAIN),
    create((8, 4), "v", 1, 1, [mount(PLAIN, 1), mount(TRAILING, 2)]),
    attach((8, 5), 1, LEADING, mount("\t", 3), True),
    publish((8, 6), 1, PLAIN, mount("\n", 4), True, node=TRAILING),
    unpublish((8, 7), 1, LEADING, node='"'),
    detach((8, 8), 1, "\u00e9"),
    create((8, 9), "n" * 128, 1, 1, [mount("f" * 128, 1)]),
    stage((8, 10), 1, mount("\x7f", 5), node="i" * 255),
    publish((8, 11), 1, "t" * 255),
    reply("NodeStageVolume", (8, 12), 6, 0, "d" * 255, node="i" * 255),
]


def lines():
    with open(os.path.join(os.path.dirname(__file__), "shown.lines"), "rb") as file:
        return file.read().splitlines(keepends=True)


def moved(line, by):
    """The line of a frame that lies so many bytes further back."""
    place, rest = line.split(b" ", 1)
    return b"%d %s" % (int(place) + by, rest)


def compared(ran, frames, right):
    """Compares line by line, so that a failure names the frame."""
    came = ran.out.splitlines(keepends=True)
    for at, (frame, line, one) in enumerate(zip(frames, right, came)):
        wanted(f"line {at + 1}, of the frame {frame.hex()}", one, line)
    wanted("the lines", len(came), len(right))
    wanted("the end", (ran.status, ran.error), (0, b""))


def golden(box):
    """The whole file, as a file and at a pipe."""
    stream = b"".join(FRAMES)
    box.put("frames", stream)
    compared(box.run("show", "frames"), FRAMES, lines())
    compared(box.run("show", "/dev/stdin", given=stream), FRAMES, lines())


def far(box):
    """The same frames behind 2^16 bytes and more."""
    count = 2200
    before = [delete((1, at), at) for at in range(1, count + 1)]
    first = [b"%d 1.%d controller DeleteVolume %d\n" % (31 * (at - 1), at, at) for at in range(1, count + 1)]
    box.put("frames", b"".join(before + FRAMES))
    compared(box.run("show", "frames"), before + FRAMES, first + [moved(line, 31 * count) for line in lines()])


def cut(box):
    """A frame that ends the stream too soon, after each of the others: their lines come before the fault."""
    for at, frame in enumerate(FRAMES):
        start = sum(map(len, FRAMES[:at]))
        end = start + len(frame) - 1
        given = b"".join(FRAMES[:at]) + frame[:-1]
        right = ended(1, f"frame fault 1 at {end}", b"".join(lines()[:at]))
        box.wants(right, "show", "/dev/stdin", given=given, told=f"show of {end} bytes")


def cases():
    yield Case("show: each frame's line", golden)
    yield Case("show: places above 2^16", far)
    yield Case("show: a stream that ends within a frame", cut)
