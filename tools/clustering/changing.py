"""What is drawn of nodes that die, are given up as lost and join, of the orchestrator's lists and of the controller's configurations."""
from .cluster import CONTROLLER, ORCHESTRATOR
from .drawing import ODD_NODE, configuration
from .watcher import Watcher

POOL = [f"n{at}" for at in range(1, 7)] + [ODD_NODE]
MOST_NODES = 5


class Changes(Watcher):
    def __init__(self, run):
        self.run, self.cluster, self.drawn = run, run.cluster, run.drawn
        self.told_at = {}  # by node: when the orchestrator is told that it is lost
        self.waiting = []  # the names whose open calls were given up where a session began

    def actions(self):
        yield self.die, 0.5
        yield self.join, 1
        yield self.relist, 0.5
        yield self.reconfigure, 0.5
        yield self.give_up_absent, 0.2

    def began(self, record):
        """The orchestrator was started again: what is asked from here on goes by what it knows."""
        self.run.commands.learn(record)
        self.waiting = list(self.cluster.wanted())

    def send_again(self):
        """Of what is wanted since a session began, calls are sent again, in some order."""
        if self.waiting and self.run.is_idle(ORCHESTRATOR) and self.drawn.random() < 0.4:
            name = self.waiting.pop(self.drawn.randrange(len(self.waiting)))
            if name in self.cluster.wanted():
                self.cluster.tell({"timeout": name})

    # ---- nodes

    def dead(self):
        """The ids of nodes that are dead, and not given up."""
        return [name.partition(":")[2] for name, part in self.cluster.parts.items() if part.is_dead]

    def die(self):
        """A node's machine goes off, while it has nothing to do."""
        nodes = [it for it in self.cluster.nodes() if self.run.is_idle(f"node:{it}")]
        if len(nodes) > 1 or nodes and self.drawn.random() < 0.2:
            name = f"node:{self.drawn.choice(nodes)}"
            self.cluster.kill(name)
            self.died(name)

    def died(self, name):
        """A node that was killed is dead for good. Only some time later the orchestrator is told."""
        self.cluster.parts[name].is_dead = True
        self.run.back.pop(name, None)
        self.told_at[name.partition(":")[2]] = self.run.at + int(10 ** self.drawn.uniform(0, 2.2))

    def forget(self, name):
        """A node is no more, and nobody is told."""
        self.run.back.pop(name, None)
        self.told_at.pop(name.partition(":")[2], None)

    def give_up(self):
        """Tells the orchestrator of nodes that are dead since a while."""
        if self.run.is_idle(ORCHESTRATOR):
            for node in self.dead():
                if self.told_at[node] <= self.run.at:
                    self.tell(node)

    def tell(self, node):
        self.cluster.tell({"lose": node})
        self.waiting = list(self.cluster.wanted())

    def absent(self):
        """The ids that the orchestrator lists, and that aren't there."""
        return [it for it in self.cluster.listed if f"node:{it}" not in self.cluster.parts]

    def give_up_absent(self):
        """A node is given up that never joined, or that was given up already."""
        if self.run.is_idle(ORCHESTRATOR):
            gone = [it for it in [*POOL, "nowhere"] if f"node:{it}" not in self.cluster.parts]
            self.tell(self.drawn.choice(self.absent() or gone))

    def give_up_all(self):
        """At the end all that is dead is given up, and so is what is listed, isn't there, and is to be used: it would never be."""
        for node in self.dead():
            self.tell(node)
        for node in self.absent():
            if any(words["node"] == node for goal in self.cluster.wanted().values() for key, words in goal.items() if key in ("use", "stop")):
                self.tell(node)

    def join(self):
        """A node joins, of an id that is new, or that was lost; mostly it is to be used soon."""
        cluster, drawn = self.cluster, self.drawn
        free = [it for it in POOL if f"node:{it}" not in cluster.parts]
        # An orchestrator that is asleep may have begun a session, and said so to nobody.
        if len(cluster.nodes()) < MOST_NODES and free and not any("lose" in it for it in cluster.orchestrator.given):
            cluster.join(drawn.choice(free))
            if drawn.random() < 0.8:
                self.relist()
                self.reconfigure()

    # ---- lists and configurations

    def some(self):
        """Most of the nodes that are there, and perhaps others."""
        there = [name.partition(":")[2] for name in self.cluster.parts if name not in (ORCHESTRATOR, CONTROLLER)]
        found = [it for it in there if self.drawn.random() < 0.92]
        found += [it for it in POOL if it not in there and self.drawn.random() < 0.08]
        if self.drawn.random() < 0.3:
            self.drawn.shuffle(found)
        return found

    def relist(self):
        """The orchestrator is started with another list of nodes, now or the next time."""
        self.cluster.next_listed = self.some()
        self.start_again(ORCHESTRATOR)

    def reconfigure(self):
        """The controller is started with another configuration, now or the next time."""
        self.cluster.next_config = configuration(self.drawn, self.some())
        self.start_again(CONTROLLER)

    def start_again(self, name):
        if self.run.is_idle(name):
            self.cluster.restart(name)
