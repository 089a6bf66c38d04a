"""A picture, read back from its SVG: what stands in which lane, from which row to which. Places are those of docs/LINES.md, "Pictures"."""
import re
from collections import Counter
from dataclasses import dataclass, field
from xml.etree import ElementTree

from .running import Wrong

SPACE = "{http://www.w3.org/2000/svg}"
BARS = ("attached", "staged", "published")
WAYS = ("taken", "refused", "ignored")
# How far below a row's top things stand: what happens in it, what is sent from it, and the names that are told again; and a lane's ends.
HAPPENS, SENT, AGAIN, TOP, BOTTOM = 20, 74, 68, 75, 30
MIDDLE, BAR, BAND = 45, 36, 90  # of a lane


@dataclass
class Drawing:
    """What is drawn. Rows and lanes are told by their numbers; a lane's parts go from row to row, where 0 is the top and None the bottom."""

    counts: str = ""  # the first line
    audit: str = ""  # the second
    lanes: list = field(default_factory=list)  # name, parts
    again: list = field(default_factory=list)  # lane, row, name
    bars: list = field(default_factory=list)  # what, lane, column, row, last row
    arrows: list = field(default_factory=list)  # way, lane, its row, lane, its row
    stubs: list = field(default_factory=list)  # lane, row, whether it goes to the right
    rows: list = field(default_factory=list)  # number, class, words, outcome
    marks: list = field(default_factory=list)  # shape, lane, row
    labels: list = field(default_factory=list)  # lane, row, class, text

    def found(self):
        """How many there are of each kind, by its name."""
        ways = Counter(arrow[0] for arrow in self.arrows)
        shapes = Counter(mark[0] for mark in self.marks)
        return ways + shapes + Counter(bar[0] for bar in self.bars) + Counter(stub=len(self.stubs), again=len(self.again))


def numbers(pattern, text):
    """The numbers in a text of this form."""
    found = re.fullmatch(pattern, text)
    if not found:
        raise Wrong(f"{text!r} isn't of the form {pattern}")
    return [int(it) for it in found.groups()]


def place(value, unit, *offsets):
    """The number of a row or a lane, by a place in it so far behind its beginning, and which of these places it is."""
    number, offset = divmod(value, unit)
    if number < 1 or offset not in offsets:
        raise Wrong(f"{value} is no place {offsets} behind a multiple of {unit}")
    return number, offset


def row(value, offset):
    return place(value, 100, offset)[0]


def moved(element):
    """How far a group is moved."""
    return numbers(r"translate\((\d+) (\d+)\)", element.get("transform"))


def texts(element):
    """The class and the text of each `text` below an element, in which nothing else is written."""
    return [(it.get("class"), it.text or "") for it in element.iter(f"{SPACE}text")]


def part(drawing, begin, end, below):
    """A part of a lane's band."""
    top = 0 if begin == TOP else row(begin, HAPPENS)
    return top, None if end == 100 * below + BOTTOM else row(end, HAPPENS)


def lane(drawing, element, x, below):
    number = place(x, 1000, MIDDLE)[0]
    path = element.find(f"{SPACE}path").get("d")
    if not re.fullmatch(r"(M0 \d+V\d+)*", path):
        raise Wrong(f"the band {path!r} has other parts")
    parts = [part(drawing, int(begin), int(end), below) for begin, end in re.findall(r"M0 (\d+)V(\d+)", path)]
    (above, name), (_, again) = texts(element)
    if (above, name, number) != ("h", again, len(drawing.lanes) + 1):
        raise Wrong(f"lane {number} has the names {name!r} and {again!r}, behind {len(drawing.lanes)} lanes")
    drawing.lanes.append((name, parts))


def group(drawing, element, below):
    """A lane, a lane's name told again, or a reply's label."""
    x, y = moved(element)
    if y == 0:
        lane(drawing, element, x, below)
        return
    ((what, text),) = texts(element)
    if what == "h label":
        drawing.again.append((place(x, 1000, MIDDLE)[0], row(y, AGAIN), text))
    else:
        drawing.labels.append((place(x, 1000, 0)[0], row(y, HAPPENS), what, text))


def path(drawing, element, below):
    """A bar, or the stub of a frame that nobody delivers."""
    what, way = element.get("class"), element.get("d")
    if what in BARS:
        x, y, one, two, end = numbers(r"M(\d+) (\d+)m(\d+) 0m(\d+) 0V(\d+)", way)
        drawing.bars.append((what, place(x, 1000, BAR)[0], (one + two) // 20, row(y, HAPPENS), row(end, HAPPENS)))
        return
    x, y, far = numbers(r"M(\d+) (\d+)l(-?\d+) 15", way)
    number, side = place(x, 1000, 0, BAND)
    if what != "lost" or (far > 0) != (side == BAND):
        raise Wrong(f"a path {what!r} goes {way!r}")
    drawing.stubs.append((number, row(y, SENT), far > 0))


def line(drawing, element, below):
    """A delivery: from the side of a band that looks to the other one."""
    x, y, to, end = (int(element.get(name)) for name in ("x1", "y1", "x2", "y2"))
    way, sides = element.get("class"), (0, BAND)
    (sender, side), (receiver, other) = place(x, 1000, *sides), place(to, 1000, *sides)
    if way not in WAYS or (side, other) != ((BAND, 0) if sender < receiver else (0, BAND)):
        raise Wrong(f"an arrow {way!r} goes from {x} to {to}")
    drawing.arrows.append((way, sender, row(y, SENT), receiver, row(end, HAPPENS)))


def use(drawing, element, below):
    """A mark, by its shape, which is one of this picture."""
    shape = element.get("href")
    if not shape.startswith("#"):
        raise Wrong(f"a mark is of {shape!r}")
    drawing.marks.append((shape[1:], place(int(element.get("x")), 1000, MIDDLE)[0], row(int(element.get("y")), HAPPENS)))


def words(drawing, element, below):
    """A call's label, or the texts of an event."""
    y = int(element.get("y"))
    if element.get("x"):
        ((what, text),) = texts(element)
        drawing.labels.append((place(int(element.get("x")), 1000, 100)[0], row(y, HAPPENS), what, text))
        return
    (what, told), (other, came) = texts(element)
    if other != f"{what} o":
        raise Wrong(f"words of class {what!r} have an outcome of class {other!r}")
    drawing.rows.append((row(y, 0), what, told, came))


READERS = {"g": group, "path": path, "line": line, "use": use, "svg": words}


def read(svg):
    """The drawing in these bytes, of which each element is known."""
    svg.decode("ascii")
    top = ElementTree.fromstring(svg)
    tags = [it.tag.removeprefix(SPACE) for it in top]
    first = tags.index("g")  # before the lanes stand the style, the shapes, the two lines and what the shapes mean
    counts, audit = [it.text for it in top if it.tag == f"{SPACE}text"][:2]
    drawing = Drawing(counts, audit)
    below = numbers(r"(\d+) events, \d+ frames", counts)[0] + 1
    for tag, element in zip(tags[first:], top[first:]):
        if tag not in READERS:
            raise Wrong(f"there is an element {element.tag!r}")
        READERS[tag](drawing, element, below)
    return drawing
