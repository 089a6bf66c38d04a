"""Recoveries that are done wrong on purpose, by a script in the program's place, to see that it is found."""
import json
import shutil

from program.recovering import Recovery
from program.stores import make, orchestrator_head, parts_of

from .breaking import DOES, Breaks, calls_under_way
from .cluster import CONTROLLER, ORCHESTRATOR
from .parts import Orchestrator, Plugin
from .reading import read
from .recovering import CLOCK, rewrite

LINES = 8  # how many lines a second orchestrator is given
AGE = 15  # how often a break is tried until marks are old


class BrokenRecoveries(Breaks):
    def __init__(self, cluster, drawn, recoveries):
        super().__init__(cluster, drawn)
        self.recoveries = recoveries
        self.marks, self.age = None, 0  # the parts of the orchestrator's store, as they were once, and how often a break was tried since

    def recovery(self, lost=()):
        """Everything ends, and the store is lost: what its plugins keep, without these nodes."""
        cluster, recoveries = self.cluster, self.recoveries
        recoveries.end_all()
        recoveries.lose_store()
        given, listed = recoveries.choose(lost)
        self.stores = {name: parts_of(cluster.parts[name].at("")) for name in (CONTROLLER, *given)}
        controller, *nodes = self.stores.values()
        return Recovery(listed, cluster.session, controller, nodes)

    def finish(self, made, leaves=(), new=None):
        """The script does all of it, but leaves some stores as they are, or makes another new one; and the run goes on."""
        for (name, before), parts in zip(self.stores.items(), made.raised):
            is_raised = name not in leaves and before != parts
            if is_raised:
                rewrite(self.cluster.parts[name].at(""), parts)
            self.recoveries.tell_raised([name], [False, is_raised], made.session)
        make(f"{self.cluster.folder}/{self.recoveries.new}", new or made.new)
        self.recoveries.goes_on(made.session, [it.decode() for it in nodes_of(new or made.new)], None)

    def late(self, calls):
        """Calls of before come: whether they changed anything."""
        cluster = self.cluster
        before = {name: cluster.parts[name].record() for name in cluster.plugins()}
        for call in calls:
            cluster.deliver(call)
        self.changed = before != {name: cluster.parts[name].record() for name in cluster.plugins()}

    def waiting(self):
        """By plugin: calls that never arrived, of the orchestrator's session, by which something is done."""
        found = {}
        for it in calls_under_way(self.cluster):
            call = read(self.cluster.history.frame(it))
            if call.kind in DOES and call.plugin in self.cluster.plugins():
                found.setdefault(call.plugin, []).append(it)
        return found

    def not_raised(self):
        """A plugin isn't raised, and a call comes to it that was under way."""
        if waiting := self.waiting():
            name = self.drawn.choice(list(waiting))
            self.finish(self.recovery().made(), leaves=[name])
            self.late(waiting[name])

    def equal_session(self):
        """The session isn't above the greatest that a plugin heard of, but that one."""
        if waiting := self.waiting():
            recovery = self.recovery()
            recovery.session = max(it.session for it in recovery.stores)
            its = [name for name, it in zip(self.stores, recovery.stores) if it.session == recovery.session]
            self.finish(recovery.made(), leaves=its)
            self.late([it for calls in waiting.values() for it in calls])

    def older_marks(self):
        """The new store has what an older copy of the lost one knew."""
        if not self.marks:
            self.cluster.end(ORCHESTRATOR)
            self.marks = parts_of(self.cluster.orchestrator.at(""))
            self.cluster.start(ORCHESTRATOR)
        self.age += 1
        if self.age < AGE:
            return
        recovery = self.recovery()
        listed = [it.decode() for it in nodes_of(self.marks)]
        made = recovery.made()
        self.changed = self.marks[1:] != made.new[1:]
        self.finish(made, new=[orchestrator_head(made.session, listed + [it for it in recovery.listed if it not in listed]), *self.marks[1:]])

    def not_given(self):
        """A node whose store isn't given goes on with it."""
        if name := self.node(self.is_in_use):
            cluster, node, part = self.cluster, name.partition(":")[2], self.cluster.parts[name]
            self.finish(self.recovery([name]).made())
            cluster.parts[name] = Plugin(cluster.program, cluster.folder, name, "node", part.store, node)
            cluster.start(name)
            for watcher in cluster.watchers:
                watcher.joined(name, json.loads(cluster.parts[name].record())["session"])
            self.changed = True

    def second_orchestrator(self):
        """Another orchestrator runs beside the first, over a copy of its store, in a session by a clock."""
        cluster, drawn = self.cluster, self.drawn
        cluster.end(ORCHESTRATOR)
        shutil.copy(cluster.orchestrator.at(""), f"{cluster.folder}/second.db")
        cluster.start(ORCHESTRATOR)
        session = cluster.session + drawn.randint(1, CLOCK)
        second = Orchestrator(cluster.program, cluster.folder, "the second orchestrator", "orchestrator", "second.db", "nodes", str(session))
        second.start()
        names = second.take()["wanted"]
        events = [{"timeout": name} for name in names] + [self.recoveries.run.commands.draw() for _ in range(LINES)]
        for event in events:
            self.ask_second(second, event)
        second.end()

    def ask_second(self, second, event):
        """What it is asked, and what its plugins answer, until it sends nothing more."""
        cluster, given = self.cluster, event
        while True:
            second.give(json.dumps(given).encode() + b"\n")
            if not (send := second.take().get("send")) or send["plugin"] not in cluster.plugins():
                return
            call = cluster.history.sent(bytes.fromhex(send["frame"]))
            before = cluster.parts[send["plugin"]].record()
            answer = cluster.deliver(call)
            cluster.pending.remove(answer)
            self.changed = self.changed or before != cluster.parts[send["plugin"]].record()
            given = {"reply": cluster.history.frame(answer).hex()}


def nodes_of(parts):
    """The list of nodes of an orchestrator's parts."""
    head, found = parts[0][1][11:], []
    while head:
        found.append(head[1 : 1 + head[0]])
        head = head[1 + head[0] :]
    return found


NAMES = ("not_raised", "equal_session", "older_marks", "not_given", "second_orchestrator")
