"""What happened in a run: the frames that were sent, by number, and the events, as a schedule has them; and whether `csi-replay run`
says the same of that schedule.

A process that is killed may have carried out the last thing that it was given, though it never said so. Its store tells. Then that event stands in
the schedule too, and the frame that it sent is one that nobody has (None): a run with kills is a schedule as well.
"""
import json
import subprocess

from program.frames import split
from program.running import LIMIT, short

from .parts import Found
from .reading import read


def by_bytes(items):
    """Objects of a report in one order, whichever it was."""
    return sorted(json.dumps(it, sort_keys=True) for it in items)


class History:
    def __init__(self, config):
        self.config = config
        self.frames = []  # by number, from 1
        self.replies = {}  # of a call's number: the first reply to it
        self.delivered = {}  # of a plugin: the numbers of the calls that it got, each once
        self.former = {}  # of a plugin: those that lost nodes of its id got
        self.events = []
        self.outcomes = []
        self.unheard = 0
        self.until = None  # how many events and frames a schedule tells: those before the first recovery, of which it has no event

    def sent(self, frame):
        """The number of a frame that is sent now; None: nobody has it."""
        self.unheard += frame is None
        self.frames.append(frame)
        return len(self.frames)

    def frame(self, number):
        return self.frames[number - 1]

    def happened(self, event, outcome):
        self.events.append(event)
        self.outcomes.append(outcome)

    def answered(self, plugin, number, reply):
        """A plugin got a call, and sent this reply, or one that nobody has."""
        self.delivered.setdefault(plugin, {})[number] = None
        if reply is not None:
            self.replies.setdefault(number, reply)
        answer = self.sent(reply)
        self.happened({"deliver": number}, f"answered {answer}")
        return answer

    def lost(self, plugin):
        """A plugin is no more."""
        self.former.setdefault(plugin, []).extend(self.delivered.pop(plugin, ()))

    def compared(self):
        """The events that a schedule tells, their outcomes, and the frames that were sent by then."""
        events, frames = self.until or (len(self.events), len(self.frames))
        return self.events[:events], self.outcomes[:events], self.frames[:frames]

    def schedule(self):
        """One event a line."""
        events = ",\n  ".join(json.dumps(it, ensure_ascii=False) for it in self.compared()[0])
        return f'{{"config":{json.dumps(self.config, ensure_ascii=False)},\n "events":[\n  {events}\n]}}\n'

    def told(self):
        """The events with their outcomes, as lines that a person reads."""
        for at, (event, outcome) in enumerate(zip(self.events, self.outcomes), 1):
            number = event.get("deliver")
            what = f"deliver {number}: {read(self.frame(number))}" if number and self.frame(number) else json.dumps(event, ensure_ascii=False)
            yield f"{at} {what} -> {outcome}\n"

    def compare(self, program, path):
        """Has `csi-replay` run the schedule, which is put into a file, and holds its outcomes and its frames against what the processes did: the report."""
        with open(path, "w", encoding="utf-8") as file:
            file.write(self.schedule())
        report = json.loads(said(program, "run", path))
        _, outcomes, sent = self.compared()
        for at, (right, came) in enumerate(zip(report["events"], outcomes), 1):
            if right != came:
                raise Found(f"event {at}, {json.dumps(self.events[at - 1])[:200]}: the processes say `{came}`, a run of the schedule `{right}`")
        frames = split(said(program, "frames", path))[0]
        for number, (right, came) in enumerate(zip(frames, sent), 1):
            if came not in (None, right):
                raise Found(f"frame {number}: the processes sent {came.hex()}, a run of the schedule {right.hex()}")
        counts, right = (len(outcomes), len(sent)), (len(report["events"]), len(frames))
        if counts != right:
            raise Found(f"the processes had {counts[0]} events and sent {counts[1]} frames, a run of the schedule has {right[0]} and {right[1]}")
        return report

    def compare_end(self, report, lines):
        """Holds a report against what the processes have at the end."""
        found = {**reported(lines), "frames": len(self.frames), "safe": True}
        for key, came in found.items():
            right = report[key]
            if isinstance(came, list):
                came, right = by_bytes(came), by_bytes(right)
            if came != right:
                raise Found(f"`{key}` at the end: the processes have {short(str(came).encode())}, a run of the schedule {short(str(right).encode())}")


def said(program, *words):
    ran = subprocess.run([program, *words], env={}, stdin=subprocess.DEVNULL, capture_output=True, timeout=LIMIT, check=False)
    if ran.returncode:
        raise Found(f"csi-replay {' '.join(words)}: status {ran.returncode}, {ran.stderr.decode(errors='replace').strip()}")
    return ran.stdout


def reported(lines):
    """What a report says of the end, by the lines of the records: of the orchestrator, of the controller, and of each node."""
    orchestrator, controller, *nodes = [json.loads(line) for line in lines]
    live = [it for it in controller["volumes"] if it["live"]]
    rows = [(node["node"], row) for node in nodes for row in node["volumes"]]
    return {
        "session": orchestrator["session"],
        "volumes": [{"capacity": it["capacity"], "id": it["id"], "name": it["name"]} for it in live],
        "attached": [
            {"id": it["id"], "mode": at["capability"]["mode"], "node": at["node"], "readonly": at["readonly"]}
            for it in controller["volumes"]
            for at in it["attached"]
        ],
        "staged": [{"id": row["id"], "mode": row["staged"]["mode"], "node": node} for node, row in rows if row["staged"]],
        "published": [
            {"id": row["id"], "node": node, "readonly": at["readonly"], "target": at["target"]} for node, row in rows for at in row["published"]
        ],
        "known": [it for volume in orchestrator["volumes"] for it in known(volume)],
    }


def known(volume):
    """What the orchestrator doesn't know as undone."""
    name = volume["name"]
    marks = [(volume["exists"], {"name": name, "thing": "exists"})]
    for at in volume["at"]:
        where = {"name": name, "node": at["node"]}
        marks += [(at[thing], {**where, "thing": thing}) for thing in ("attached", "staged")]
        marks += [(it["known"], {**where, "target": it["target"], "thing": "published"}) for it in at["published"]]
    return [{"known": mark, **what} for mark, what in marks if mark != "no"]
