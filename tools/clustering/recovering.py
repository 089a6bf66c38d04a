"""The orchestrator's store is lost at some moment, everything is stopped, and another store is made of what the controller and the nodes keep: by
`csi-replay recover`, which may be killed and is run once more, and held against what docs/RECORDS.md says of these stores. A node whose store isn't given is
off for good. Then the run goes on, and all that was sent before may come late."""
import json
import os
import shutil
import subprocess

from program import stores
from program.recovering import Recovery
from program.running import LIMIT, Box
from program.whole import parts_beside

from .cluster import CONTROLLER, ORCHESTRATOR
from .parts import Found, Orchestrator, wait

MOST_CUTS = 3  # how often a recovery is killed at most
LATE = 6  # how many calls come at most once it was killed, before it is run again
CLOCK = 10**6  # how much later than any session those are that are given by a clock
COPIED = 12  # how many lines a copy of the lost store is given at most


def has_recover(program):
    """Whether the program has the subcommand."""
    ran = subprocess.run([program, "--help"], env={}, capture_output=True, timeout=LIMIT, check=False)
    return b"\n  recover " in ran.stdout


class Recoveries:
    def __init__(self, run):
        self.run, self.cluster, self.drawn = run, run.cluster, run.drawn
        self.box = Box(run.cluster.program, run.cluster.folder)
        self.count = self.cuts = self.undone = self.copies = 0
        self.copy = None  # the orchestrator's store, as it was once

    # ---- the whole of it

    def recover(self):
        """The store is lost, and made again."""
        self.stop_all()
        self.run.compare_until_here()
        session, held_back = self.older_copy() if self.copy and self.drawn.random() < 0.5 else (self.cluster.session, [])
        self.lose_store()
        given, listed = self.choose(self.off_for_good())
        command = self.command(given, listed, self.drawn.choice((0, session)) if not held_back else session)
        self.refused(command, given)
        for _ in range(self.drawn.choice((0, 0, 1, MOST_CUTS))):
            self.cut_off(command, given)
        made = self.whole(command, given)
        self.goes_on(made.session, command.listed, json.loads(made.line)["wanted"])
        self.cluster.pending += held_back

    def stop_all(self):
        """Each part ends, or is killed while it has something to do."""
        cluster, drawn = self.cluster, self.drawn
        names = [name for name, part in cluster.parts.items() if part.is_up]
        drawn.shuffle(names)
        for name in names:
            if cluster.parts[name].is_asleep:
                self.run.put_back(cluster.kill(name))
            elif drawn.random() < 0.3:
                cluster.end(name)
            else:
                self.run.put_back(cluster.kill(name, self.run.given_to(name), seconds=self.run.moment()))
        self.run.back = {}

    def end_all(self):
        """Each part ends well."""
        self.run.rest()
        for name in [name for name, part in self.cluster.parts.items() if part.is_up]:
            self.cluster.end(name)

    def lose_store(self):
        for path in self.cluster.orchestrator.files():
            os.remove(path)
        self.count += 1
        self.new = f"orchestrator{self.count}.db"

    def nodes(self):
        return [name for name in self.cluster.parts if name not in (ORCHESTRATOR, CONTROLLER)]

    def off_for_good(self):
        """Some nodes whose stores aren't given."""
        share = self.drawn.choice((0, 0, 0.3, 0.6))
        return [name for name in self.nodes() if self.drawn.random() < share]

    def choose(self, lost):
        """Which nodes' stores are given: all but those of the lost ones and of those that are dead, which are declared off for good. And the next list."""
        for name in self.nodes():
            if self.cluster.parts[name].is_dead or name in lost:
                self.run.changes.forget(name)
                self.cluster.gone(name)
        given = self.nodes()
        self.drawn.shuffle(given)
        return given, self.with_used(given, self.run.changes.some())

    def with_used(self, given, listed):
        """A list of nodes, and those at which something is staged."""
        return listed + [node for node in self.used(given) if node not in listed]

    def used(self, given):
        """The given nodes at which something is staged."""
        return [name.partition(":")[2] for name in given if any(it["staged"] for it in json.loads(self.cluster.parts[name].record())["volumes"])]

    # ---- its runs

    def command(self, given, listed, session):
        names = [self.cluster.parts[name].store for name in (CONTROLLER, *given)]
        return Command(self.cluster, self.new, listed, session, names)

    def parts(self, command):
        """The parts of the new store, and of those that are given."""
        return [parts_beside(self.box, name) for name in (self.new, *command.names)]

    def recovery(self, command, parts):
        return Recovery(command.listed, command.session, parts[1], parts[2:])

    def refused(self, command, given):
        """It is refused, and changes nothing, where its list leaves out a node that is in use."""
        for node in self.used(given)[:1]:
            others = Command(self.cluster, self.new, [it for it in command.listed if it != node], command.session, command.names)
            before = self.parts(others)
            came = others.run()
            if came != (1, b"", b"csi-replay: node in use\n") or self.parts(others) != before:
                raise Found(f"recover with {others.listed}, without {node!r}, ended as {came}, or changed a store")

    def cut_off(self, command, given):
        """It is killed at some moment: each store is as it was or raised. Then calls may come to the plugins, before it is run again."""
        before = self.parts(command)
        if before[0]:
            return
        made = self.recovery(command, before).made()
        name = self.drawn.choice((CONTROLLER, *given))
        command.kill(self.cluster.parts[name], self.drawn.uniform(0, 0.001))
        after = self.parts(command)
        self.cuts += 1
        for store, came, *right in zip((self.new, *command.names), after, before, [made.new, *made.raised]):
            if came not in right:
                raise Found(f"recover was killed, and {store} has neither the parts of before nor those of behind")
        self.tell_raised(given, [came != was for came, was in zip(after[1:], before[1:])], made.session)
        if not after[0] and self.drawn.random() < 0.5:
            self.late_calls(command, given)

    def late_calls(self, command, given):
        """Some plugins run, calls of before come to them, and they end. What is staged by now can't be left out of the list."""
        cluster = self.cluster
        up = [name for name in (CONTROLLER, *given) if self.drawn.random() < 0.7]
        for name in up:
            cluster.start(name)
        for number in [it for it in cluster.pending if cluster.target_of(it) in up][:LATE]:
            cluster.pending.remove(number)
            cluster.deliver(number)
        for name in up:
            cluster.end(name)
        command.listed = self.with_used(given, command.listed)

    def whole(self, command, given):
        """It is run to its end: each store has what it has to have. Where it was killed behind its last commit all is done."""
        before = self.parts(command)
        recovery = self.recovery(command, before)
        if before[0]:
            return self.done(command, recovery, before)
        if refusals := list(recovery.refusals()):
            raise Found(f"after runs of one orchestrator a recovery is to be refused: {refusals}")
        made = recovery.made()
        if (came := command.run()) != (0, made.line, b""):
            raise Found(f"recover ended as {came}, and should print {made.line}")
        for store, found, right in zip((self.new, *command.names), self.parts(command), [made.new, *made.raised]):
            if found != right:
                raise Found(f"once it was recovered, {store} has the parts {found}, and should have {right}")
        self.tell_raised(given, [True] * len(command.names), made.session)
        return made

    def done(self, command, recovery, before):
        """A recovery of which nothing is left to be done is refused."""
        came = command.run()
        if came != (1, b"", b"csi-replay: store not new\n") or self.parts(command) != before:
            raise Found(f"a recovery that was done, run once more, ended as {came}, or changed a store")
        session = recovery.controller.session
        recovery.session = session
        made = recovery.made()
        if [made.new, *made.raised] != before:
            raise Found(f"a recovery was killed behind its last commit, and the stores aren't as it has to leave them: {before}")
        return made

    def tell_raised(self, given, are_raised, session):
        self.cluster.session = max(self.cluster.session, session)
        for name, is_raised in zip((CONTROLLER, *given), are_raised):
            if is_raised:
                for watcher in self.cluster.watchers:
                    watcher.raised(name, session)

    def goes_on(self, session, listed, wanted):
        """The new store is the orchestrator's, and all start again."""
        cluster, store = self.cluster, self.new
        cluster.session = session
        cluster.listed = cluster.next_listed = listed
        cluster.parts[ORCHESTRATOR] = Orchestrator(cluster.program, cluster.folder, ORCHESTRATOR, "orchestrator", store, "nodes")
        cluster.goals = {it["name"]: it["goal"] for it in json.loads(cluster.orchestrator.record())["volumes"]}
        if wanted is not None and sorted(cluster.wanted()) != sorted(wanted):
            raise Found(f"the recovery said that of {wanted} something is wanted, and the record says {cluster.wanted()}")
        self.undone += len(cluster.wanted())
        cluster.history.happened({"recover": {"listed": listed, "session": session, "store": store}}, "recovered")
        self.run.rest()
        self.run.watch.audit()

    # ---- copies

    def keep_copy(self):
        """Copies the orchestrator's store, while it is at rest."""
        if self.cluster.orchestrator.is_up and not self.cluster.orchestrator.is_asleep:
            self.cluster.end(ORCHESTRATOR)
            self.copy = shutil.copy(self.cluster.orchestrator.at(""), f"{self.cluster.folder}/kept.db")
            self.cluster.start(ORCHESTRATOR)

    def older_copy(self):
        """Somebody starts an older copy first, perhaps with a session by a clock, and has it send calls of which none comes before the recovery: the greatest
        session that is known then, and the numbers of these frames."""
        cluster, session, sent = self.cluster, self.cluster.session, []
        by_clock = [str(session + self.drawn.randint(1, CLOCK))] if self.drawn.random() < 0.5 else []
        shutil.copy(self.copy, f"{cluster.folder}/old.db")
        cluster.put("nodes", {"greatest": 1, "nodes": [{"id": node, "slots": 0} for node in sorted(cluster.ever_listed)]})
        old = Orchestrator(cluster.program, cluster.folder, "an older copy", "orchestrator", "old.db", "nodes", *by_clock)
        old.start()
        first = old.take()
        for name in [*first["wanted"], *(None for _ in range(COPIED))][:COPIED]:
            old.give(json.dumps({"timeout": name} if name else self.run.commands.draw()).encode() + b"\n")
            if send := old.take().get("send"):
                sent.append(cluster.history.sent(bytes.fromhex(send["frame"])))
        old.kill()
        for path in old.files():
            os.remove(path)
        self.copies += 1
        return max(session, first["session"]), sent


class Command:
    """`recover`, with its words, over stores of a cluster."""

    def __init__(self, cluster, new, listed, session, names):
        self.cluster, self.new, self.listed, self.session, self.names = cluster, new, listed, session, names

    def all(self):
        self.cluster.put("nodes", {"greatest": 1, "nodes": [{"id": node, "slots": 0} for node in self.listed]})
        return [self.cluster.program, "recover", self.new, "nodes", str(self.session), *self.names]

    def run(self):
        ran = subprocess.run(self.all(), cwd=self.cluster.folder, env={}, stdin=subprocess.DEVNULL, capture_output=True, timeout=LIMIT, check=False)
        return ran.returncode, ran.stdout, ran.stderr

    def kill(self, part, seconds):
        """Killed so long after something was written to a part's log."""
        written = part.log_state()
        pipes = {"stdin": subprocess.DEVNULL, "stdout": subprocess.DEVNULL, "stderr": subprocess.DEVNULL}
        with subprocess.Popen(self.all(), cwd=self.cluster.folder, env={}, **pipes) as running:
            wait(0.2, lambda: part.log_state() != written or running.poll() is not None)
            wait(seconds)
            running.kill()


def rewrite(path, parts):
    """A store gets these parts, by SQLite."""
    with stores.opened(path) as database:
        database.execute("BEGIN")
        database.execute("DELETE FROM parts")
        database.executemany("INSERT INTO parts (key, value) VALUES (?, ?)", parts)
        database.execute("COMMIT")
