"""What is watched: of each reply as it comes, and of the records and of frames that are repeated once all parts are at rest."""
import json

from auditing.clauses import found
from auditing.lines import Bad, system_of

from .cluster import CONTROLLER, ORCHESTRATOR
from .fence import Fence, stale
from .parts import Found
from .reading import read
from .watcher import Watcher

REPEATED = 4  # how many frames of each plugin are repeated at an audit
FORMER = 2  # and of those that a lost node of its id got
MOST = 12  # how many deliveries settle a volume


class Watch(Watcher):
    """Keeps what may never go back: sessions, the numbers of rows, ids."""

    def __init__(self, cluster, drawn):
        self.cluster, self.drawn = cluster, drawn
        self.sessions = {}  # of each part
        self.last = {}  # of a plugin, and an id: the number of its last call
        self.rows = set()  # the names that the orchestrator has
        self.names = {}  # of an id: the name that it was given to
        self.gone = set()  # the ids of volumes that were deleted
        self.next_id = 1
        self.fences = {name: Fence() for name in cluster.plugins()}
        self.audits = self.repeats = self.settled = 0

    def replied(self, name, number, frame):
        """Each reply, as it comes; or None, where a call was carried out and nobody has the reply."""
        call = read(self.cluster.history.frame(number))
        self.fences[name].hear(call, frame)
        if frame and call.name and (it := read(frame)).status == 0:
            self.give_id(it.volume, call.name)

    def started(self, name, record):
        """A plugin that was killed was started again over its store, which may say nothing older than before."""
        self.advance(name, record, self.cluster.session)
        if name == CONTROLLER:
            self.ids(record)

    def began(self, record):
        """The orchestrator began a session, over this record."""
        self.advance(ORCHESTRATOR, record, record["session"])

    def joined(self, name, session):
        """A node joined, with a new store, and was told a session."""
        self.sessions[name], self.fences[name] = session, Fence(session)

    def raised(self, name, session):
        """A recovery raised a plugin's session: all that was ever sent to it is stale from then on."""
        self.fences[name].begin(session)

    def lost(self, name):
        """A node is no more, and one of its id that joins is another one."""
        del self.fences[name]
        self.sessions.pop(name, None)
        self.last = {key: number for key, number in self.last.items() if key[0] != name}

    def give_id(self, volume, name):
        """An id is of one name, and of no volume once that was deleted."""
        if self.names.setdefault(volume, name) != name:
            raise Found(f"the id {volume} was given to {self.names[volume]!r}, and is given to {name!r}")

    def at_rest(self):
        """All parts are at rest: an audit; then frames are repeated, which changes no record."""
        lines = self.audit()
        for name, before in zip(self.cluster.parts, lines):
            if name in self.cluster.plugins():
                self.repeat(name, self.cluster.parts[name], before)

    def audit(self):
        """The records, which meet the five clauses, and don't go back. Of a node that is dead, and not given up, the store tells; of one that is listed, and
        isn't there, there is none."""
        lines, absent = self.cluster.lines(), [it for it in self.cluster.listed if f"node:{it}" not in self.cluster.parts]
        try:
            system = system_of(((name, line.rstrip(b"\n")) for name, line in zip(self.cluster.parts, lines)), absent)
        except Bad as bad:
            raise Found(f"a record isn't as the documents say: {bad}") from None
        if violations := found(system):
            raise Found("; ".join(violations))
        values = dict(zip(self.cluster.parts, map(json.loads, lines)))
        goals = {it["name"]: it["goal"] for it in values[ORCHESTRATOR]["volumes"] if it["goal"]}
        if goals != self.cluster.wanted():
            raise Found(f"by its record the orchestrator wants {goals}, and by its answers {self.cluster.wanted()}")
        for name, value in values.items():
            self.advance(name, value, values[ORCHESTRATOR]["session"])
        self.ids(values[CONTROLLER])
        self.audits += 1
        return lines

    def advance(self, name, record, session):
        """Sessions never go lower, nor do the numbers of a row; and no row goes within a session."""
        before, now = self.sessions.get(name, 0), record["session"]
        if now < before or now > session:
            raise Found(f"{name} had session {before} and has {now}, where the orchestrator has {session}")
        self.sessions[name] = now
        if name == ORCHESTRATOR:
            names, self.rows = self.rows, {it["name"] for it in record["volumes"]}
            if now == before and not names <= self.rows:
                raise Found(f"the orchestrator has no rows of {names - self.rows} any more, and no session began")
            return
        rows = {it["id"]: (it["last"]["session"], it["last"]["call"]) for it in record["volumes"]}
        if gone := now == before and [volume for plugin, volume in self.last if plugin == name and volume not in rows]:
            raise Found(f"{name} has no rows of {gone} any more, and no session began")
        self.last = {key: number for key, number in self.last.items() if key[0] != name or key[1] in rows}
        for volume, number in rows.items():
            if number < (before := self.last.get((name, volume), number)):
                raise Found(f"the last call of volume {volume} at {name} was {before}, and is {number}")
            self.last[name, volume] = number

    def ids(self, record):
        """No id is given twice, and the next id never goes lower."""
        if record["next_id"] < self.next_id:
            raise Found(f"the controller's next id was {self.next_id}, and is {record['next_id']}")
        self.next_id = record["next_id"]
        live = {it["id"]: it["name"] for it in record["volumes"] if it["live"]}
        for volume, name in live.items():
            self.give_id(volume, name)
            if volume in self.gone:
                raise Found(f"the id {volume} is of a volume that was deleted, and of {name!r}")
        self.gone |= self.names.keys() - live.keys()

    # ---- frames that are repeated

    def repeat(self, name, part, before):
        """Calls that a plugin got come again: the row's last one gets the same bytes, one with a lower number 10 `stale`, and so does one that a lost node
        of its id got. They change no record."""
        history, record, content = self.cluster.history, json.loads(before), part.content()
        calls, former = list(history.delivered.get(name, ())), history.former.get(name, [])
        chosen = set(self.drawn.sample(calls, min(REPEATED, len(calls)))) | set(calls[-2:]) | set(self.drawn.sample(former, min(FORMER, len(former))))
        for number in sorted(chosen):
            right = self.right_of(name, number, record)
            if right is None:
                continue
            answer = self.cluster.deliver(number)
            self.cluster.pending.remove(answer)
            self.repeats += 1
            if (came := history.frame(answer)) != right:
                raise Found(f"{read(history.frame(number))} came again, and got the reply {read(came)}, not {read(right)}")
        if part.content() != content and (after := part.record()) != before:
            raise Found(f"the record of {name} was changed by calls that were repeated: {before.decode()} became {after.decode()}")

    def right_of(self, name, number, record):
        """The reply that a call gets that was delivered before; None where the documents don't tell, since nothing is kept of it."""
        history, call = self.cluster.history, read(self.cluster.history.frame(number))
        if call.number[0] < record["session"]:
            return stale(call)
        rows = [it for it in record["volumes"] if (it["name"] == call.name if call.name else it["id"] == call.volume)]
        last = max(((it["last"]["session"], it["last"]["call"]) for it in rows), default=None)
        if last is None and name == CONTROLLER:
            return None  # it was refused, or the volume was deleted in an earlier session
        if last is None or last < call.number:
            raise Found(f"{name} replied to call {call.number} of {call.name or call.volume}, and of its last call the record says {last}")
        return stale(call) if call.number < last else history.replies.get(number)

    # ---- the end

    def settle(self):
        """Each volume of which something is wanted comes to rest: by one timeout, and at most twelve deliveries of what is sent from there on."""
        for name in sorted(self.cluster.wanted()):
            self.settle_one(name)
            self.settled += 1

    def settle_one(self, name):
        cluster, goal, count = self.cluster, self.cluster.goals[name], 0
        sent = len(cluster.history.frames)
        cluster.tell({"timeout": name})
        while cluster.goals[name]:
            sent += 1
            if sent > len(cluster.history.frames) or count == MOST:
                raise Found(f"{name!r} isn't settled by a timeout and {count} deliveries: {goal} was wanted, and {cluster.goals[name]} is")
            cluster.deliver(sent)
            count += 1
