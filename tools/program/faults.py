"""Bytes that begin with no frame, each with the kind and the place of its fault by docs/FRAMES.md: what `show`, `answer`,
`controller` and `node` say, and do before."""
from .frames import block, counted, create, delete, flag, framed, mount, number, publish, reply, stage, text, unstage
from .running import Case, ended


def head(kind, version=1):
    """A body before the party, which ends at 22."""
    return bytes([version, kind]) + number(1) + number(2)


def of_controller(kind, *fields, version=1):
    """A frame whose fields begin at 23."""
    return framed(head(kind, version) + b"\0" + b"".join(fields))


def of_node(kind, *fields, version=1):
    """A frame of node `n1`, whose fields begin at 26."""
    return framed(head(kind, version) + b"\1" + text("n1") + b"".join(fields))


def made(*capabilities, name=text("v"), count=None, version=1):
    """A CreateVolume, whose name is at 23, and whose count is at 41."""
    listed = counted(capabilities) if count is None else bytes([count]) + b"".join(capabilities)
    return of_controller(1, name, number(10), number(0), listed, version=version)


ONE = number(1)
GOOD = delete((1, 2), 7)  # 31 bytes

FAULTS = [
    # 1, the input ends first; 2, a length above 1280
    *((1, size, GOOD[:size]) for size in range(1, 31)),
    (1, 4, number(1280, 4)),
    (1, 1283, number(1280, 4) + bytes(1279)),
    (2, 0, number(1281, 4)),
    (2, 0, b"\xff\xff\xff\xff" + GOOD),
    (2, 0, b"\1\0\0\0"),
    # 3, the version; 4, the kind; 5, the party
    *((3, 4, framed(bytes([version]) + GOOD[5:])) for version in (0, 3, 128, 255)),
    *((4, 5, framed(bytes([1, kind]) + GOOD[6:])) for kind in (0, 9, 127, 128, 137, 255)),
    *((4, 5, framed(bytes([2, kind]) + GOOD[6:])) for kind in (2, 4, 6, 8, *range(129, 137))),
    *((5, 22, framed(head(kind) + b"\1" + text("n1") + ONE)) for kind in (1, 2, 3, 4, 129, 130, 131, 132)),
    *((5, 22, framed(head(kind) + b"\0" + ONE)) for kind in (5, 6, 7, 8, 133, 134, 135, 136)),
    *((5, 22, framed(head(kind) + b"\2" + ONE)) for kind in (2, 6)),
    # 6, texts: a node's id, a name, a node id in a call, a target, an fs type; too short, too long, no UTF-8
    (6, 23, framed(head(6) + b"\1" + text("") + ONE)),
    (6, 23, framed(head(6) + b"\1" + text(b"n\xff") + ONE)),
    (6, 23, made(block(1), name=text(""))),
    (6, 23, made(block(1), name=text("v" * 129))),
    *((6, 23, made(block(1), name=text(it))) for it in (b"\x80", b"\xc0\x80", b"\xc3", b"\xe0\x80\x80", b"\xed\xa0\x80")),
    *((6, 23, made(block(1), name=text(it))) for it in (b"\xf0\x80\x80\x80", b"\xf4\x90\x80\x80", b"\xf5\x80\x80\x80")),
    (6, 31, of_controller(3, ONE, text(""), block(1), flag(False))),
    (6, 31, of_controller(4, ONE, text(b"\xff"))),
    (6, 34, of_node(7, ONE, text(""), block(1), flag(False))),
    (6, 34, of_node(8, ONE, text(b"/\xff"))),
    (6, 35, of_node(5, ONE, mount("f" * 129, 1))),
    (6, 43, made(mount(b"\xff", 1))),
    (6, 32, of_controller(130, b"\0", number(0), text(b"\xff"))),
    # 7, modes
    *((7, 35, of_node(5, ONE, block(mode))) for mode in (0, 6, 7, 8, 255)),
    *((7, 35, of_node(5, ONE, block(mode), version=2)) for mode in (0, 1, 2, 3, 4, 5, 8, 255)),
    (7, 35, of_controller(3, ONE, text("n1"), block(6), flag(False))),
    (7, 36, of_node(5, ONE, mount("", 9))),
    (7, 45, made(block(1), block(8))),
    (7, 45, made(block(1), block(5), version=2)),
    (7, 43, made(block(0), block(6), version=2)),
    # 8, accesses; 9, flags
    (8, 34, of_node(5, ONE, b"\2\1")),
    (8, 42, made(b"\xff\1")),
    (9, 36, of_controller(3, ONE, text("n1"), block(1), b"\2")),
    (9, 39, of_node(7, ONE, text("/a"), block(1), b"\xff")),
    # 10, statuses; 11, ids
    *((10, 23, of_controller(130, bytes([status]), number(0), text(""))) for status in (17, 255)),
    *((11, 23, of_controller(kind, number(0), *rest)) for kind, rest in ((2, []), (3, [text("n"), block(1), b"\0"]), (4, [text("n")]))),
    *((11, 26, of_node(kind, number(0), *rest)) for kind, rest in ((5, [block(1)]), (6, []), (8, [text("/")]))),
    (11, 24, of_controller(129, b"\0", number(0), text(""))),
    (11, 24, of_controller(129, b"\6", number(1), text(""))),
    *((11, 24, of_controller(kind, b"\0", number(1), text(""))) for kind in (130, 131, 132)),
    (11, 27, of_node(133, b"\0", number(1), text(""))),
    # 12, counts
    (12, 41, made(*[block(1)] * 9)),
    (12, 41, made(count=255)),
    (12, 41, made(version=2)),
    # 13, bytes behind the last field, and a text that would run into the next frame
    (13, 31, framed(GOOD[4:] + b"\0")),
    (13, 44, framed(made(block(1))[4:] + GOOD)),
    (13, 42, made(block(1), count=0)),
    (13, 46, made(block(1), block(1), count=3)),
    (13, 31, of_controller(4, ONE, b"\3n1") + GOOD),
    (13, 32, of_controller(130, b"\0", number(0), b"\1") + GOOD),
]

# Frames, and where their fields begin: cut there, or within the field, the field runs past the body's end.
STARTS = [0, 1, 2, 10, 18]
CUT = [
    (delete((1, 2), 7), [*STARTS, 19]),
    (unstage((1, 2), 7), [*STARTS, 19, 22]),
    (create((1, 2), "vv", 1, 2, [block(1), mount("ext4", 2)]), [*STARTS, 19, 22, 30, 38, 39, 40, 41, 42, 47]),
    (publish((1, 2), 7, "/a", mount("x", 3), True), [*STARTS, 19, 22, 30, 33, 34, 36, 37]),
    (stage((1, 2), 7), [*STARTS, 19, 22, 30, 31]),
    (reply("NodeStageVolume", (1, 2), 6, 0, "name"), [*STARTS, 19, 22, 23, 31]),
]


def all_faults():
    yield from FAULTS
    for frame, starts in CUT:
        for size in range(len(frame) - 4):
            yield 13, 4 + max(start for start in starts if start <= size), framed(frame[4 : 4 + size])


def told(kind, place, given, before):
    return f"fault {kind} at {place} of {given.hex()}, behind {before} bytes"


def shown(box):
    line = b"0 1.2 controller DeleteVolume 7\n"
    for kind, place, given in all_faults():
        for front, out in ((b"", b""), (GOOD, line)):
            box.put("f", front + given)
            right = ended(1, f"frame fault {kind} at {len(front) + place}", out)
            box.wants(right, "show", "f", told=told(kind, place, given, len(front)))


def answered(box):
    out = reply("DeleteVolume", (1, 2))
    for kind, place, given in all_faults():
        for front, out in ((b"", b""), (GOOD, out)):
            box.put("f", front + given)
            right = ended(1, f"frame fault {kind} at {len(front) + place}", out)
            box.wants(right, "answer", "f", told=told(kind, place, given, len(front)))


def served(box, name, word, front, reply_of, line):
    """A plugin replies to what came before the fault, and its store has that: one store for each."""
    box.put("config", b'{"greatest":1000,"nodes":[]}')
    right_line = ended(0, out=line)
    for at, (kind, place, given) in enumerate(FAULTS):
        right = ended(1, f"frame fault {kind} at {len(front) + place}", reply_of)
        box.wants(right, name, f"{at}.db", word, given=front + given, told=told(kind, place, given, len(front)))
    for at in range(len(FAULTS)):
        box.wants(right_line, "record", f"{at}.db")


CONTROLLER = (
    b'{"next_id":2,"plugin":"controller","session":1,"volumes":[{"attached":[],"capabilities":[{"access":"block","mode":1}],'
    b'"capacity":10,"id":1,"last":{"call":1,"session":1},"live":true,"name":"v"}]}\n'
)
NODE = (
    b'{"node":"n1","plugin":"node","session":1,"volumes":[{"id":1,"last":{"call":1,"session":1},"published":[],'
    b'"staged":{"access":"block","mode":1}}]}\n'
)


def controller(box):
    served(box, "controller", "config", create((1, 1), "v"), reply("CreateVolume", (1, 1), 0, 1), CONTROLLER)


def node(box):
    served(box, "node", "n1", stage((1, 1), 1), reply("NodeStageVolume", (1, 1)), NODE)


def cases():
    for name, body in (("show", shown), ("answer", answered), ("controller", controller), ("node", node)):
        yield Case(f"frame faults: {name}", body)
