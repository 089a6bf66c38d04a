"""What has to be drawn of a schedule, by docs/LINES.md ("Pictures"): derived from its events, what `csi-replay run` reports of them, and the
frames that `csi-replay frames` writes."""
import json
import re
from dataclasses import dataclass

from .drawings import Drawing
from .frames import KINDS, split
from .running import wanted

NAMES = {number: name for name, number in KINDS.items()}
STATUSES = ("OK", "CANCELLED", "UNKNOWN", "INVALID_ARGUMENT", "DEADLINE_EXCEEDED", "NOT_FOUND", "ALREADY_EXISTS", "PERMISSION_DENIED")
STATUSES += ("RESOURCE_EXHAUSTED", "FAILED_PRECONDITION", "ABORTED", "OUT_OF_RANGE", "UNIMPLEMENTED", "INTERNAL", "UNAVAILABLE", "DATA_LOSS")
STATUSES += ("UNAUTHENTICATED",)
WRONG = r"refused .*|no such frame|no such node|node there|not settled \d+|not recovered .*"


@dataclass
class Frame:
    """A frame, as far as it is drawn."""

    kind: int
    is_reply: bool
    at: tuple
    node: str | None
    status: int | None = None
    detail: str = ""
    volume: int = 0
    place: str = ""  # the node or the target that a call names behind the volume


class Fields:
    """The fields of a body, one behind the other."""

    def __init__(self, body):
        self.body = body

    def number(self, size):
        taken, self.body = self.body[:size], self.body[size:]
        return int.from_bytes(taken, "big")

    def text(self):
        size = self.number(1)
        taken, self.body = self.body[:size], self.body[size:]
        return taken.decode()


def frame_of(spelled):
    fields = Fields(spelled[5:])
    kind = fields.number(1)
    at = fields.number(8), fields.number(8)
    node = fields.text() if fields.number(1) else None
    frame = Frame(kind % 128, kind > 128, at, node)
    if frame.is_reply:
        frame.status, _, frame.detail = fields.number(1), fields.number(8), fields.text()
    elif kind > 1:
        frame.volume = fields.number(8)
        frame.place = fields.text() if kind in (3, 4, 7, 8) else ""
    return frame


def escaped(text):
    """A name or a detail as it is read in a picture."""
    return "".join(chr(it) if 32 <= it <= 126 and it not in b'"\\' else f"\\x{it:02x}" for it in text.encode())


# ---- the run


@dataclass
class Run:
    """A schedule's configuration, its events, what came of each, all of its report, and its frames by their numbers."""

    config: dict
    events: list
    outcomes: list
    report: dict
    frames: dict


def reported(box, config, events):
    box.put("schedule", json.dumps({"config": config, "events": events}).encode())
    ran = box.run("run", "schedule")
    wanted("how the run ends", (ran.status, ran.error), (0, b""))
    report = json.loads(ran.out)
    return report.pop("events"), report


def sent_by(outcome):
    """The number of the frame that an event sent, or None."""
    found = re.fullmatch(r"(?:taken, )?sent (\d+)|answered (\d+)", outcome)
    return int(found[1] or found[2]) if found else None


def last_sent(outcomes):
    """The number of the last frame that was sent, or 0."""
    return max([0, *filter(None, map(sent_by, outcomes))])


def told_one_by_one(box, config, events):
    """The events of a schedule, what came of each, and the report. One that settles a volume is told by its timeout and its deliveries, which lead to the
    same report."""
    outcomes, report = reported(box, config, events)
    whole = report
    while any("settle" in it for it in events):
        at = next(at for at, it in enumerate(events) if "settle" in it)
        count = int(outcomes[at].split()[-1])
        last = last_sent(outcomes[:at])
        steps = [{"timeout": events[at]["settle"]}, *({"deliver": last + it} for it in range(1, count))]
        events = events[:at] + steps[:count] + events[at + 1 :]
        outcomes, report = reported(box, config, events)
        wanted("the report of a schedule that tells what settles", report, whole)
    return events, outcomes, report


def run_of(box, config, events):
    """The run of a schedule, in which nothing settles."""
    events, outcomes, report = told_one_by_one(box, config, events)
    frames, _ = split(box.run("frames", "schedule").out)
    return Run(config, events, outcomes, report, {at + 1: frame_of(it) for at, it in enumerate(frames)})


# ---- what has to be drawn


class Lanes:
    """The lanes: their names, in which of them nodes are, and the parts that are drawn."""

    def __init__(self, run):
        ids = [it["id"] for it in run.config["nodes"]]
        joined = [it["join"] for it, came in zip(run.events, run.outcomes) if came == "joined"]
        self.ids = list(dict.fromkeys([*ids, *joined]))
        self.parts = {it: [(0, None)] if it in ids else [] for it in self.ids}
        for at, (event, came) in enumerate(zip(run.events, run.outcomes)):
            if came == "joined":
                self.parts[event["join"]].append((at + 1, None))
            for parts in map(self.parts.get, self.lost_by(event, came)):
                if parts and parts[-1][1] is None:
                    parts[-1] = parts[-1][0], at + 1

    def lost_by(self, event, came):
        """The nodes that are no more after an event: the one that is lost, and those whose stores a recovery doesn't have."""
        if came == "lost":
            return [event["lose"]]
        return [it for it in self.ids if it not in event["recover"]["given"]] if came == "recovered" else []

    def names(self):
        return ["orchestrator", "controller", *(f"node {escaped(it)}" for it in self.ids)]

    def of(self, node):
        """The lane of a plugin: of the controller, or of a node, the one behind the last where there never was one."""
        return 2 if node is None else 3 + (self.ids.index(node) if node in self.ids else len(self.ids))

    def drawn(self):
        return list(zip(self.names(), [[(0, None)], [(0, None)], *self.parts.values()]))


BEGINS = {3: "attached", 5: "staged", 7: "published"}
ENDS = {4: "attached", 6: "staged", 8: "published"}


def bars_of(run, lanes):
    """The bars, and those of things that are there at the end."""
    bars, there = [], {}
    for at, (event, came) in enumerate(zip(run.events, run.outcomes)):
        lost = {lanes.of(node) for node in lanes.lost_by(event, came)}
        gone = [it for it in there if it[0] in lost]
        if came.startswith("answered") and run.frames[sent_by(came)].status == 0:
            call = run.frames[event["deliver"]]
            thing = lanes.of(call.node), BEGINS.get(call.kind) or ENDS.get(call.kind), call.volume, call.place
            if call.kind in ENDS and thing in there:
                gone = [thing]
            elif call.kind in BEGINS and thing not in there:
                taken = [column for other, (column, _) in there.items() if other[0] == thing[0]]
                there[thing] = min(set(range(len(taken) + 1)) - set(taken)), at + 1
        for thing in gone:
            bars.append((thing, *there.pop(thing), at + 1))
    bars += [(thing, *begun, len(run.events) + 1) for thing, begun in there.items()]
    return sorted((thing[1], thing[0], *bar) for thing, *bar in bars), there


def at_the_end(there, lanes):
    """The things that are there at the end, as a report has them."""
    found = {"attached": [], "staged": [], "published": []}
    for lane, what, volume, place in there:
        node = place if what == "attached" else lanes.ids[lane - 3]
        found[what].append((volume, node, place if what == "published" else ""))
    return {what: sorted(it) for what, it in found.items()}


def reported_there(report):
    return {what: sorted((it["id"], it["node"], it.get("target", "")) for it in report[what]) for what in ("attached", "staged", "published")}


def told(event):
    """An event's words."""
    ((key, value),) = event.items()
    if key in ("use", "stop"):
        return f"{key} {escaped(value['name'])} at {escaped(value['node'])} {escaped(value['target'])}"
    if key == "create":
        return f"create {escaped(value['name'])}"
    if key == "recover":
        return f"recover {value['session']}"
    if key == "restart_orchestrator":
        return "restart orchestrator with a list"
    if key == "restart_controller":
        return "restart controller with a configuration"
    return f"{key.replace('_', ' ')} {escaped(str(value))}"


def class_of(outcome):
    return "wrong" if re.fullmatch(WRONG, outcome) else "odd" if outcome == "ignored" else "plain"


def mark_of(lanes, event, outcome):
    """The shape and the lane of an event's mark; a delivery has none."""
    ((key, value),) = event.items()
    comes = key.startswith("restart") or key in ("join", "lose", "recover")
    shape = "cross" if class_of(outcome) == "wrong" else "clock" if key == "timeout" else "restart" if comes else "command"
    at_controller = key == "restart_controller" or (key, value) == ("restart", "controller")
    return shape, lanes.of(value) if key in ("restart_node", "join", "lose") else 2 if at_controller else 1


def label_of(lanes, number, frame):
    """The lane, the class and the text of a frame's label."""
    if not frame.is_reply:
        return 1, "label", f"{number} {NAMES[frame.kind]} {frame.at[0]}.{frame.at[1]}"
    class_ = "bad b" if frame.status else "label b"
    return lanes.of(frame.node), class_, f"{number} {NAMES[frame.kind]} {STATUSES[frame.status]} {escaped(frame.detail)}"


def way_of(run, outcome):
    """How a delivery is drawn."""
    if outcome == "ignored":
        return "ignored"
    refused = outcome == "no such node" or outcome.startswith("refused")
    return "refused" if refused or (outcome.startswith("answered") and run.frames[sent_by(outcome)].status) else "taken"


def ways_of(run, lanes, due):
    """The arrows of deliveries, and the stubs of frames that nobody delivers."""
    sent = {sent_by(came): at + 1 for at, came in enumerate(run.outcomes)}
    ends = {number: (lanes.of(it.node), 1) if it.is_reply else (1, lanes.of(it.node)) for number, it in run.frames.items()}
    arrived = set()
    for at, (event, came) in enumerate(zip(run.events, run.outcomes)):
        if "deliver" in event and came != "no such frame":
            number = event["deliver"]
            arrived.add(number)
            due.arrows.append((way_of(run, came), ends[number][0], sent[number], ends[number][1], at + 1))
    due.stubs = [(ends[it][0], sent[it], ends[it][0] == 1) for it in run.frames if it not in arrived]


def due_of(run):
    """What has to be drawn of a run, of which the report tells the same at the end."""
    lanes = Lanes(run)
    audit = "Audit: nothing wrong" if run.report["safe"] else "Audit: something wrong"
    due = Drawing(f"{len(run.events)} events, {len(run.frames)} frames", audit, lanes.drawn())
    due.bars, there = bars_of(run, lanes)
    wanted("what is there at the end, by the calls and by the report", at_the_end(there, lanes), reported_there(run.report))
    ways_of(run, lanes, due)
    for at, (event, came) in enumerate(zip(run.events, run.outcomes)):
        row = at + 1
        due.rows.append((row, class_of(came), f"{row} {told(event)}", came))
        if "deliver" not in event:
            shape, lane = mark_of(lanes, event, came)
            due.marks.append((shape, lane, row))
        if (number := sent_by(came)) is not None:
            lane, *label = label_of(lanes, number, run.frames[number])
            due.labels.append((lane, row, *label))
        if row % 30 == 0:
            due.again += [(lane + 1, row, name) for lane, name in enumerate(lanes.names())]
    return due
