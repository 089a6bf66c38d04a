"""What is broken on purpose, to see that it is found. Where a break changed nothing (`changed`), nothing is to be found."""
import json
import os
import shutil

from program.frames import number, reply

from .cluster import CONTROLLER
from .parts import Plugin
from .reading import read

DOES = ("CreateVolume", "ControllerPublishVolume", "NodeStageVolume", "NodePublishVolume")
UNDOES = ("ControllerUnpublishVolume", "NodeUnstageVolume", "NodeUnpublishVolume", "DeleteVolume")


def replaced(frame, at, content):
    """A frame with other bytes in one place."""
    return frame[:at] + content + frame[at + len(content) :]


def calls_under_way(cluster):
    """The numbers of calls that never arrived."""
    history = cluster.history
    calls = [it for it in cluster.pending if not read(history.frame(it)).is_reply]
    return [it for it in calls if it not in history.delivered.get(cluster.target_of(it), ())]


class Breaks:
    def __init__(self, cluster, drawn):
        self.cluster, self.drawn = cluster, drawn
        self.copies = {}  # of a part's store: that, as it was once
        self.changed = False

    def made_up_reply(self):
        """A success that nobody sent comes for a call that never arrives."""
        cluster = self.cluster
        for lost in calls_under_way(cluster):
            call = read(cluster.history.frame(lost))
            if call.kind not in DOES:
                continue
            made = 2**40 if call.kind == "CreateVolume" else 0
            cluster.pending.remove(lost)
            came = cluster.history.sent(reply(call.kind, call.number, 0, made, "", call.node))
            self.changed = cluster.tell({"deliver": came})["outcome"] == "taken"
            if self.changed:
                return

    def later_number(self):
        """A call of the past, which undoes something of a volume that is in use again, comes with a later number than any."""
        cluster, found = self.cluster, []
        for name in cluster.plugins():
            used = {it["id"] for it in json.loads(cluster.parts[name].record())["volumes"] if it.get("attached") or it.get("staged")}
            calls = [(it, read(cluster.history.frame(it))) for it in cluster.history.delivered.get(name, ())]
            found += [(name, it) for it, call in calls if call.kind in UNDOES and call.volume in used]
        if found:
            name, it = self.drawn.choice(found)
            session, call = cluster.last_number
            self.hand(name, replaced(cluster.history.frame(it), 6, number(session) + number(call + 1)))

    def other_node(self):
        """A call to a node says that it is for another one, and goes there."""
        cluster = self.cluster
        nodes = [it for it in cluster.plugins() if it != CONTROLLER]
        for lost in calls_under_way(cluster):
            call, frame = read(cluster.history.frame(lost)), cluster.history.frame(lost)
            others = [it for it in nodes if it != call.plugin]
            if call.kind == "NodeStageVolume" and others:
                cluster.pending.remove(lost)
                name = self.drawn.choice(others)
                node, rest = name.partition(":")[2].encode(), frame[24 + len(call.node.encode()) :]
                body = frame[4:22] + b"\1" + bytes([len(node)]) + node + rest
                return self.hand(name, number(len(body), 4) + body)

    def hand(self, name, frame):
        """A plugin gets a frame that nobody sent."""
        part = self.cluster.parts[name]
        before = part.record()
        part.give(frame)
        self.cluster.pending.append(self.cluster.history.sent(part.take()))
        self.changed = part.record() != before

    def older_store(self):
        """A plugin's store is set back to an older copy."""
        cluster = self.cluster
        if not self.copies:
            for name in cluster.plugins():
                cluster.end(name)
                self.copies[cluster.parts[name].store] = shutil.copy(cluster.parts[name].at(""), cluster.parts[name].at(".older"))
                cluster.start(name)
            return
        part = self.drawn.choice([part for name in cluster.plugins() if (part := cluster.parts[name]).store in self.copies])
        self.replace_store(part.name, lambda: shutil.copy(self.copies[part.store], part.at("")))

    def new_store(self):
        """A node is started again with a new store, which has heard of no session."""
        name = self.node(lambda name: True)
        if name:
            del self.cluster.parts[name].words[3:]
            self.replace_store(name, lambda: None)

    def replace_store(self, name, put):
        """A plugin's store is taken away, and perhaps another put there."""
        cluster, part = self.cluster, self.cluster.parts[name]
        before = part.record()
        cluster.end(name)
        for path in part.files():
            os.remove(path)
        put()
        part.start()  # it opens its store, and ends
        part.end()
        self.changed = part.record() != before
        cluster.start(name)

    # ---- nodes that are lost

    def node(self, is_fit):
        """Some node that is there, and of which this is so; or None."""
        fit = [f"node:{it}" for it in self.cluster.nodes() if is_fit(f"node:{it}")]
        return self.drawn.choice(fit) if fit else None

    def is_in_use(self, name):
        """Whether something is staged at a node."""
        return any(it["staged"] for it in json.loads(self.cluster.parts[name].record())["volumes"])

    def waits_for(self, name):
        """Calls to a node that never arrived, by which something is done."""
        return [it for it in calls_under_way(self.cluster) if (call := read(self.cluster.history.frame(it))).plugin == name and call.kind in DOES]

    def lost_node_goes_on(self):
        """A node is declared lost, and its machine is on: what is staged there stays so, or a call comes that stages it."""
        cluster = self.cluster
        if name := self.node(lambda name: self.is_in_use(name) or self.waits_for(name)):
            part, calls = cluster.parts[name], self.waits_for(name)
            cluster.tell({"lose": name.partition(":")[2]})
            for call in calls:
                cluster.deliver(call)
            self.changed = self.is_in_use(part.name)

    def lost_store(self):
        """A lost node's machine is on again, with its old store, and nobody says the session of its joining."""
        cluster = self.cluster
        if name := self.node(self.is_in_use):
            node, part = name.partition(":")[2], cluster.parts[name]
            cluster.kill(name)
            part.is_dead = True
            cluster.tell({"lose": node})
            cluster.parts[name] = Plugin(cluster.program, cluster.folder, name, "node", part.store, node)
            cluster.start(name)
            for watcher in cluster.watchers:
                watcher.joined(name, json.loads(cluster.parts[name].record())["session"])
            self.changed = True

    def earlier_word(self):
        """A node of an id that was lost joins, and is told an earlier session, or none. A call that is under way to the lost one comes."""
        cluster = self.cluster
        if name := self.node(self.waits_for):
            calls, node = self.waits_for(name), name.partition(":")[2]
            cluster.kill(name)
            cluster.parts[name].is_dead = True
            cluster.tell({"lose": node})
            self.changed = True
            cluster.join(node, self.drawn.choice((0, cluster.session - 1)))
            for call in calls:
                cluster.deliver(call)


NAMES = ("made_up_reply", "later_number", "other_node", "older_store", "new_store", "lost_node_goes_on", "lost_store", "earlier_word")
