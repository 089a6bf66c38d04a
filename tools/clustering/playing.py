"""One run: what happens is drawn from a seed, and is watched."""
import json
import random
from dataclasses import dataclass

from .broken_recoveries import BrokenRecoveries
from .changing import Changes
from .cluster import CONTROLLER, ORCHESTRATOR, Cluster, numbers_of
from .drawing import Commands, configuration, nonsense
from .parts import Found
from .reading import read
from .recovering import Recoveries
from .watching import Watch

AUDIT_EVERY, BROKEN_EVERY = 200, 20  # turns between audits, and where something is broken, which may mend itself
BREAK_EVERY = 10  # a break is tried so often, from the first audit on, until one changed something
MOST_GIVEN = 12  # what a part that is asleep is given at most, so that its pipe has room
TOGETHER = 6  # what is written to a part at once, at most
MOMENTS = ("idle", "reading", "working", "working", "committing", "committing", "saying", "saying", "ending", "starting")


@dataclass
class Counts:
    """What a run did."""

    events: int = 0  # those of the schedule, of which a turn may give none or several
    frames: int = 0
    kills: int = 0  # a turn gives none or one, and two where a part is killed as it starts
    losses: int = 0  # of nodes, of which each is killed once more
    joins: int = 0
    lists: int = 0  # with which the orchestrator was started, or that were refused
    configurations: int = 0
    names_again: int = 0  # that were created again after their volumes were deleted
    unheard: int = 0  # what a process did, and was killed before it said so
    audits: int = 0
    repeats: int = 0
    settled: int = 0
    recoveries: int = 0
    cut_off: int = 0  # recoveries that were killed
    undone: int = 0  # volumes of which something was wanted once it was recovered
    copies: int = 0  # of the orchestrator's store, that were started before a recovery
    broken: int = 0  # how many breaks changed something


class Run:
    def __init__(self, program, folder, seed, turns, kills, recoveries=0, broken=None):
        self.drawn = drawn = random.Random(seed)
        config = configuration(drawn)
        self.folder = folder
        self.cluster = Cluster(program, folder, config)
        self.commands = Commands(drawn, lambda: self.cluster.listed, lambda: self.cluster.goals)
        self.watch = Watch(self.cluster, drawn)
        self.turns, self.audit_every = turns, BROKEN_EVERY if broken else AUDIT_EVERY
        self.kills = set(drawn.sample(range(turns), min(kills, turns)))
        self.recoveries, self.copies = (set(drawn.sample(range(turns), recoveries)) if recoveries else set() for _ in range(2))
        self.recovering = Recoveries(self)
        self.break_name, self.breaks = broken, BrokenRecoveries(self.cluster, drawn, self.recovering)
        self.late = []  # frames that are delayed for long: when they come, and their numbers
        self.back = {}  # of parts that are down or asleep: when they are started, or let go
        self.changes = Changes(self)
        self.cluster.watchers += [self.watch, self.changes]
        self.counts = Counts()

    # ---- the whole run

    def play(self):
        cluster = self.cluster
        try:
            cluster.start_all()
            for self.at in range(self.turns):
                self.turn()
            self.rest()
            self.changes.give_up_all()
            self.watch.settle()
            self.watch.at_rest()
            self.compare_until_here()
        except Found as found:
            raise found if self.break_name else Found(f"{found}; {self.verdict()}") from None
        finally:
            cluster.close()
            self.tell()
        return self.counts

    def tell(self):
        """Leaves the schedule and what came of it in the folder, and counts."""
        history, watch = self.cluster.history, self.watch
        with open(f"{self.folder}/events", "w", encoding="utf-8") as file:
            file.writelines(history.told())
        self.counts.events, self.counts.frames = len(history.events), len(history.frames)
        self.counts.unheard = history.unheard
        self.counts.broken = int(self.breaks.changed)
        self.counts.names_again = self.commands.again
        for kind, name in (("lose", "losses"), ("join", "joins"), ("restart_orchestrator", "lists"), ("restart_controller", "configurations")):
            setattr(self.counts, name, sum(kind in it for it in history.events))
        self.counts.audits, self.counts.repeats, self.counts.settled = watch.audits, watch.repeats, watch.settled
        it = self.recovering
        self.counts.recoveries, self.counts.cut_off, self.counts.undone, self.counts.copies = it.count, it.cuts, it.undone, it.copies

    def compare_until_here(self):
        """Has `csi-replay run` say what happened, to the end; or up to the first recovery, of which a schedule has no event."""
        history = self.cluster.history
        if history.until is None and not self.break_name:
            history.until = len(history.events), len(history.frames)
            history.compare_end(self.compare(), self.cluster.lines())

    def compare(self):
        return self.cluster.history.compare(self.cluster.program, f"{self.folder}/schedule.json")

    def verdict(self):
        """Of a run in which something was found: whether the machines do the same."""
        try:
            self.compare()
            return "a run of the schedule says the same up to " + ("the first recovery" if self.recovering.count else "there")
        except Found as found:
            return str(found)

    def rest(self):
        """All parts run but those that are dead, and none is asleep."""
        self.cluster.start_all()
        self.back = {}

    def turn(self):
        for name in [name for name, at in self.back.items() if at <= self.at]:
            self.bring_back(name)
        while self.late and self.late[0][0] <= self.at:
            self.cluster.pending.append(self.late.pop(0)[1])
        if self.at in self.kills:
            self.kill()
        if self.at in self.copies:
            self.recovering.keep_copy()
        if self.at in self.recoveries:
            self.recovering.recover()
        if self.at % self.audit_every == self.audit_every - 1:
            self.rest()
            self.watch.at_rest()
            self.commands.learn(json.loads(self.cluster.orchestrator.record()))
        if self.break_name and not self.breaks.changed and self.at > AUDIT_EVERY and self.at % BREAK_EVERY == 0:
            self.rest()
            getattr(self.breaks, self.break_name)()
        self.changes.give_up()
        self.changes.send_again()
        self.action()()

    def action(self):
        """Something that can be done now."""
        weights = dict(self.actions())
        return self.drawn.choices(list(weights), list(weights.values()))[0]

    def actions(self):
        cluster = self.cluster
        if cluster.orchestrator.is_up and len(cluster.orchestrator.given) < MOST_GIVEN:
            yield self.command, 22
            yield self.time_out, 4
            yield self.say_nonsense, 1
        if self.can_come():
            yield self.deliver, 60
            yield self.drop, 4
            yield self.delay, 4
        if cluster.history.frames:
            yield self.repeat, 6
        yield self.restart, 2
        yield self.put_to_sleep, 2
        yield from self.changes.actions()

    # ---- the network

    def is_there(self, number):
        """Whether a frame can be delivered now: its part is up, and hasn't too much to read; or it is of a node that isn't there, and gets lost."""
        part = self.cluster.parts.get(self.cluster.target_of(number))
        return part is None or part.is_up and len(part.given) < MOST_GIVEN

    def can_come(self):
        return [it for it in self.cluster.pending if self.is_there(it)]

    def deliver(self):
        """A frame that is under way arrives: mostly the oldest, or any; sometimes it goes on being under way."""
        ready = self.can_come()
        number = ready[0] if self.drawn.random() < 0.6 else self.drawn.choice(ready)
        if self.drawn.random() < 0.95:
            self.cluster.pending.remove(number)
        self.arrive(number)

    def arrive(self, number):
        """A frame arrives, perhaps in one piece with others: those that are under way to the same part, and before them one that is no call of that plugin."""
        cluster, drawn, name = self.cluster, self.drawn, self.cluster.target_of(number)
        if name not in cluster.parts:
            return cluster.deliver(number)
        numbers = [number]
        if drawn.random() < 0.25:
            numbers += self.more_of(name, number)
        if name == ORCHESTRATOR:
            cluster.give(name, [{"deliver": it} for it in numbers])
        else:
            cluster.give(name, numbers, self.stray(name) if drawn.random() < 0.05 else b"")

    def more_of(self, name, number=None):
        """Others that are under way to a part, and come together with what it is given."""
        cluster = self.cluster
        if len(cluster.parts[name].given) > MOST_GIVEN - TOGETHER:
            return []
        more = [it for it in cluster.pending if it != number and cluster.target_of(it) == name][: TOGETHER - 1]
        cluster.pending[:] = [it for it in cluster.pending if it not in more]
        return more

    def stray(self, plugin):
        """Some frame that isn't a call of this plugin; it gets no reply there."""
        history = self.cluster.history
        for _ in range(5):
            frame = history.frame(self.drawn.randint(1, len(history.frames)))
            if frame and (read(frame).is_reply or read(frame).plugin != plugin):
                return frame
        return b""

    def drop(self):
        self.cluster.pending.remove(self.drawn.choice(self.can_come()))

    def delay(self):
        """A frame takes long, perhaps for the rest of the run."""
        number = self.drawn.choice(self.can_come())
        self.cluster.pending.remove(number)
        self.late.append((self.at + int(10 ** self.drawn.uniform(1, 3.3)), number))
        self.late.sort()

    def repeat(self):
        """A frame of the past comes, once more or at last."""
        history = self.cluster.history
        count = len(history.frames)
        number = self.drawn.randint(1, count) if self.drawn.random() < 0.5 else max(1, count - int(self.drawn.expovariate(0.1)))
        if history.frame(number) and self.is_there(number):
            self.arrive(number)

    # ---- what is asked

    def command(self):
        event = self.commands.draw()
        more = self.more_of(ORCHESTRATOR) if self.drawn.random() < 0.1 else []
        answer = self.cluster.give(ORCHESTRATOR, [event, *({"deliver": it} for it in more)])[0]
        if answer is None or answer["outcome"] == "sent":
            self.commands.accepted(event)

    def time_out(self):
        wanted = [name for name, goal in self.cluster.goals.items() if goal]
        name = self.drawn.choice(wanted) if wanted and self.drawn.random() < 0.95 else self.drawn.choice(self.commands.window)
        self.cluster.tell({"timeout": name})

    def say_nonsense(self):
        if not self.cluster.orchestrator.is_asleep:
            self.cluster.nonsense(*nonsense(self.drawn))

    # ---- parts

    def is_idle(self, name):
        """Whether a part runs, and isn't asleep."""
        part = self.cluster.parts[name]
        return part.is_up and not part.is_asleep

    def restart(self):
        """A part that is at rest ends well, and is started again."""
        name = self.drawn.choice(list(self.cluster.parts))
        if self.is_idle(name):
            self.cluster.restart(name)

    def put_to_sleep(self):
        """A part is stopped, at rest or while it carries something out."""
        name = self.drawn.choice(list(self.cluster.parts))
        if not self.is_idle(name):
            return
        self.back[name] = self.at + self.drawn.randint(1, 40)
        given = self.given_to(name)
        if given and self.drawn.random() < 0.5:
            self.cluster.sleep_inside(name, given, self.moment())
        else:
            self.put_back(given)
            self.cluster.sleep(name)

    def bring_back(self, name):
        del self.back[name]
        part = self.cluster.parts[name]
        if part.is_asleep:
            self.cluster.wake(name)
        elif not part.is_up:
            self.cluster.start(name)

    def moment(self):
        """How many seconds it takes until a part is stopped or killed. With a store in memory a call takes 20 to 300 millionths of one."""
        return self.drawn.uniform(0, 0.0003) if self.drawn.random() < 0.8 else 10 ** self.drawn.uniform(-4, -2.3)

    def given_to(self, name):
        """What a part is given next, at once: of a plugin calls that are under way, which aren't so any more; of the orchestrator a loss, or events of
        several volumes, one of each."""
        cluster, drawn = self.cluster, self.drawn
        if name == ORCHESTRATOR:
            if (dead := self.changes.dead()) and drawn.random() < 0.5:
                return [{"lose": drawn.choice(dead)}]
            events = {}
            for _ in range(drawn.randint(1, TOGETHER)):
                event = self.event()
                events.setdefault(cluster.name_of(event), event)
            chosen = numbers_of(events.values())
        else:
            chosen = [it for it in cluster.pending if cluster.target_of(it) == name][: drawn.randint(1, TOGETHER)]
            if not chosen and (calls := list(cluster.history.delivered.get(name, ()))):
                return [drawn.choice(calls)]
        for it in chosen:
            cluster.pending.remove(it)
        return list(events.values()) if name == ORCHESTRATOR else chosen

    def event(self):
        """Something for the orchestrator: a frame that is under way, a timeout of something that is wanted, or a command."""
        cluster, drawn = self.cluster, self.drawn
        came = [it for it in cluster.pending if cluster.target_of(it) == ORCHESTRATOR]
        if came and drawn.random() < 0.6:
            return {"deliver": drawn.choice(came)}
        wanted = list(cluster.wanted())
        return {"timeout": drawn.choice(wanted)} if wanted and drawn.random() < 0.3 else self.commands.draw()

    def put_back(self, given):
        """What was to be given, and wasn't, is under way still."""
        self.cluster.pending += [it for it in numbers_of(given) if self.drawn.random() < 0.7]

    def kill(self):
        """A part is killed: at rest, while it reads, works, commits, says what came of it, puts its log back or opens its store, or while it is asleep."""
        cluster, drawn = self.cluster, self.drawn
        running = [name for name, part in cluster.parts.items() if part.is_up]
        if not running:
            return
        name, moment = drawn.choice(running), drawn.choice(MOMENTS)
        if cluster.parts[name].is_asleep:
            left = cluster.kill(name)
        elif moment == "reading":
            given = self.given_to(name)
            whole, last = given[:-1], given[-1:]
            content = cluster.content(name, last[0]) if last else b"\0"
            left = cluster.kill(name, whole, content[: drawn.randint(1, len(content)) - 1], self.moment())
            self.put_back(last)
        elif moment == "working":
            left = cluster.kill(name, self.given_to(name), seconds=self.moment())
        elif moment == "committing":
            left = cluster.kill(name, self.given_to(name), seconds=0.02, after_log=drawn.uniform(0, 0.00004))
        elif moment == "saying":
            left = cluster.kill(name, self.given_to(name), seconds=0.02, after_log=drawn.uniform(0, 0.002), is_mute=True)
        else:
            left = cluster.kill(name, seconds=self.moment(), is_ending=moment == "ending")
        self.counts.kills += 1
        self.put_back(left)
        if name not in (ORCHESTRATOR, CONTROLLER) and drawn.random() < 0.2:
            return self.changes.died(name)
        if moment == "starting":
            cluster.kill_starting(name, 0.1, drawn.choice((0, drawn.uniform(0, 0.0003), drawn.uniform(0, 0.005))))
            self.counts.kills += 1
        self.back[name] = self.at + drawn.randint(0, 30)
