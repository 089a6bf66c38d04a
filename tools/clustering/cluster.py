"""A system in processes, and what may happen to it: commands, timeouts, deliveries, parts that end, are killed, stopped and let go, nodes that join and
are lost, other lists of nodes and other configurations.

Each is an event of the history, taken down once its answer came.
"""
import json

from .history import History
from .parts import Found, Orchestrator, Plugin, wait
from .reading import read

ORCHESTRATOR, CONTROLLER = "orchestrator", "controller"
OLD_STORE = (1, "csi-replay: store of an earlier session")


def numbers_of(items):
    """Of what a part is given, the numbers of frames; commands and timeouts are none."""
    return [it["deliver"] if isinstance(it, dict) else it for it in items if not isinstance(it, dict) or "deliver" in it]


class Cluster:
    def __init__(self, program, folder, config):
        self.program, self.folder = program, folder
        self.history = History(config)
        self.pending = []  # the numbers of frames that are under way
        self.goals = {}  # by name: what is wanted, as the orchestrator said it last
        self.session, self.last_number = 0, (0, 0)
        self.numbers = {}  # of each call that was given out: its frame's number
        self.names = {}  # and the name of its volume
        self.watchers = []
        self.listed = [it["id"] for it in config["nodes"]]  # by the orchestrator
        self.ever_listed = set(self.listed)
        self.config = config  # the controller's
        self.next_listed, self.next_config = self.listed, config  # with which they are started the next time
        self.parts = {
            ORCHESTRATOR: Orchestrator(program, folder, ORCHESTRATOR, "orchestrator", "orchestrator.db", "nodes"),
            CONTROLLER: Plugin(program, folder, CONTROLLER, "controller", "controller.db", "config"),
        }
        self.stores = 0  # how many nodes there were
        self.lost_stores = {}  # of a node that was lost: its store, which must never come back
        for node in self.listed:
            self.add_node(node)
        self.since_start = set()  # the plugins that were started once

    @property
    def orchestrator(self):
        return self.parts[ORCHESTRATOR]

    def plugins(self):
        """Those that aren't dead."""
        return [name for name, part in self.parts.items() if name != ORCHESTRATOR and not part.is_dead]

    def nodes(self):
        """The ids of the nodes that are there and aren't dead."""
        return [name.partition(":")[2] for name in self.plugins() if name != CONTROLLER]

    def add_node(self, node, *session):
        self.stores += 1
        name = f"node:{node}"
        self.parts[name] = Plugin(self.program, self.folder, name, "node", f"node{self.stores}.db", node, *session)
        return name

    # ---- starting, ending

    def put(self, name, config):
        with open(f"{self.folder}/{name}", "w", encoding="utf-8") as file:
            json.dump(config, file)

    def launch(self, name):
        """Starts a part with what is its next list, or configuration. A program may read that late, so its file stays until it is started again."""
        if name == ORCHESTRATOR:
            self.put("nodes", {"greatest": 1, "nodes": [{"id": node, "slots": 0} for node in self.next_listed]})
        elif name == CONTROLLER:
            self.put("config", self.next_config)
        self.parts[name].start()

    def start(self, name):
        """Starts a part that is down; a part that ran before has restarted. Another configuration changes nothing of what the controller has."""
        part = self.parts[name]
        if name == ORCHESTRATOR:
            return self.start_orchestrator()
        if name not in self.since_start:  # it opens its store, and ends, so that there is one from now on
            self.launch(name)
            part.end()
            part.start()
            return self.since_start.add(name)
        is_other = name == CONTROLLER and self.next_config != self.config
        before = part.record() if is_other else None
        self.launch(name)
        self.restarted(name)
        if is_other and (after := part.record()) != before:
            raise Found(f"the record of {name} was changed by another configuration: {before.decode()} became {after.decode()}")
        if part.was_killed:
            part.was_killed = False
            for watcher in self.watchers:
                watcher.started(name, json.loads(part.record()))

    def restarted(self, name):
        kind, _, node = name.partition(":")
        if name == CONTROLLER and self.next_config != self.config:
            self.config = self.next_config
            return self.history.happened({"restart_controller": self.config}, "restarted")
        self.history.happened({"restart_node": node} if node else {"restart": kind}, "restarted")

    def start_orchestrator(self):
        """Starts it with its next list; where that is refused, since a node that it leaves out is in use, with the one that it had."""
        before = self.orchestrator.record() if self.next_listed != self.listed else None
        is_refused = before is not None and self.leaves_out_used(json.loads(before))
        self.launch(ORCHESTRATOR)
        first = self.orchestrator.first()
        if (first is None) != is_refused:
            raise Found(f"the orchestrator was started with {self.next_listed}, and says {first or 'node in use'}; its record was {before}")
        if first:
            return self.begin(first)
        if self.orchestrator.record() != before:
            raise Found("the record of the orchestrator was changed, though it was refused to open it")
        self.history.happened({"restart_orchestrator": self.next_listed}, "refused 17 NodeInUse")
        self.next_listed = self.listed
        self.start_orchestrator()

    def leaves_out_used(self, record):
        """Whether a volume may be attached at a node that is listed, and isn't any more."""
        used = {at["node"] for volume in record["volumes"] for at in volume["at"] if at["attached"] != "no"}
        return any(node in used and node not in self.next_listed for node in record["nodes"])

    def begin(self, first):
        """The orchestrator's first line."""
        if self.session:
            self.began()
        else:
            self.session = 1
        record = json.loads(self.orchestrator.record())
        goals, wanted = {volume["name"]: volume["goal"] for volume in record["volumes"]}, self.wanted()
        right = {"session": self.session, "wanted": sorted(wanted, key=str.encode)}
        if first != right or (record["session"], record["nodes"]) != (self.session, self.listed) or {it: goal for it, goal in goals.items() if goal} != wanted:
            raise Found(f"the orchestrator's first line is {first}, and should be {right}, with {self.listed}; its record is {record}, and wanted is {wanted}")
        self.goals = goals
        for watcher in self.watchers:
            watcher.began(record)

    def began(self):
        """The orchestrator began a session, with its next list."""
        is_same = self.listed == self.next_listed
        self.history.happened({"restart": ORCHESTRATOR} if is_same else {"restart_orchestrator": self.next_listed}, "restarted")
        self.listed = self.next_listed
        self.ever_listed |= set(self.listed)
        self.session += 1

    def wanted(self):
        """What is wanted, by name."""
        return {name: goal for name, goal in self.goals.items() if goal}

    def start_all(self):
        for name, part in list(self.parts.items()):
            if part.is_asleep:
                self.wake(name)
        for name, part in list(self.parts.items()):
            if not part.is_up and not part.is_dead:
                self.start(name)

    def restart(self, name):
        """A part ends well, and is started again."""
        self.end(name)
        self.start(name)

    def end(self, name):
        self.parts[name].end()

    def close(self):
        """Nothing is left running."""
        for part in self.parts.values():
            if part.is_up:
                part.kill()

    # ---- nodes that join and are lost

    def join(self, node, word=None):
        """A node comes, with a new store; the word is the session of its joining. An id that was never listed needs none."""
        right = self.session if node in self.ever_listed else 0
        if node in self.lost_stores:
            self.refuse_old(node)
        word = right if word is None else word
        name = self.add_node(node, *([str(word)] if word else []))
        self.start(name)
        self.history.happened({"join": node}, "joined")
        for watcher in self.watchers:
            watcher.joined(name, right)

    def refuse_old(self, node):
        """A lost node's store isn't a joining node's: that is refused, and its record stays. (The log may be put back.)"""
        old = Plugin(self.program, self.folder, f"node:{node}", "node", self.lost_stores[node], node, str(self.session))
        before = old.record()
        old.start()
        old.process.stdin.close()
        ended = old.ended()
        if (ended.status, ended.line) != OLD_STORE or old.close() or old.record() != before:
            raise Found(f"over the store of a lost node: {ended}, or it was changed")

    def given_up(self, node, answer):
        """The orchestrator was told that a node is lost: a session began without it, and a use there is its stop. Of one that is neither listed nor there
        it can't know that: to it that is one more session, as after a restart."""
        self.session += 1
        if answer != (right := {"node": node, "outcome": "lost", "session": self.session}):
            raise Found(f"the orchestrator answers {answer} to the loss of {node!r}, and should answer {right}")
        name = f"node:{node}"
        is_there = node in self.listed or name in self.parts
        self.history.happened(*(({"lose": node}, "lost") if is_there else ({"restart": ORCHESTRATOR}, "restarted")))
        self.listed = [it for it in self.listed if it != node]
        self.next_listed = [it for it in self.next_listed if it != node]
        for other, goal in self.goals.items():
            if goal and (use := goal.get("use")) and use["node"] == node:
                self.goals[other] = {"stop": {"name": other, "node": node, "target": use["target"]}}
        if name in self.parts and self.parts[name].is_dead:
            self.gone(name)
        return answer

    def gone(self, name):
        """A node is no more."""
        self.lost_stores[name.partition(":")[2]] = self.parts.pop(name).store
        self.since_start.discard(name)
        self.history.lost(name)
        for watcher in self.watchers:
            watcher.lost(name)

    # ---- what is given to a part: events to the orchestrator, numbers of calls to a plugin

    def give(self, name, items, before=b""):
        """Gives a part all of this at once, behind some bytes that get no answer. It answers each in turn, unless it is asleep: then later."""
        part = self.parts[name]
        part.give(before + b"".join(self.content(name, it) for it in items))
        if part.is_asleep:
            part.given += items
            return [None] * len(items)
        return [self.take_down(name, it, part.take()) for it in items]

    def content(self, name, item):
        """A line, or a frame."""
        if name != ORCHESTRATOR:
            return self.history.frame(item)
        if "deliver" in item:
            item = {"reply": self.history.frame(item["deliver"]).hex()}
        return json.dumps(item, ensure_ascii=False).encode() + b"\n"

    def take_down(self, name, item, answer):
        """What a part answered."""
        return self.hear(item, answer) if name == ORCHESTRATOR else self.replied(name, item, answer)

    def tell(self, event):
        """Gives the orchestrator a command, a timeout, or a reply that is delivered."""
        return self.give(ORCHESTRATOR, [event])[0]

    def deliver(self, number):
        """Delivers a frame, once more or for the first time."""
        name = self.target_of(number)
        if name not in self.parts:
            return self.history.happened({"deliver": number}, "no such node")
        return self.tell({"deliver": number}) if name == ORCHESTRATOR else self.give(name, [number])[0]

    def target_of(self, number):
        """The part that a frame goes to, which may not be there."""
        frame = read(self.history.frame(number))
        return ORCHESTRATOR if frame.is_reply else frame.plugin

    # ---- what they answer

    def hear(self, event, answer):
        """Takes down what the orchestrator answered."""
        if "lose" in event:
            return self.given_up(event["lose"], answer)
        if "outcome" not in answer:
            raise Found(f"the orchestrator answers {answer} to {event}")
        outcome = answer["outcome"]
        if "name" in answer:
            self.goals[answer["name"]] = answer["goal"]
        if "send" in answer:
            number = self.give_out(answer["send"])
            self.names[self.last_number] = answer["name"]
            outcome = f"{outcome}, sent {number}" if outcome == "taken" else f"{outcome} {number}"
        self.history.happened(event, outcome)
        return answer

    def give_out(self, send):
        """A call that is to be sent: its frame's number."""
        frame = bytes.fromhex(send["frame"])
        number, call = (send["session"], send["call"]), read(frame)
        if number <= self.last_number or number[0] != self.session:
            raise Found(f"the orchestrator gives out the number {number} after {self.last_number}, in session {self.session}")
        if (call.number, call.kind, call.plugin, call.is_reply) != (number, send["kind"], send["plugin"], False):
            raise Found(f"the orchestrator says {send}, and the frame is {call}")
        self.last_number = number
        self.numbers[number] = self.history.sent(frame)
        self.pending.append(self.numbers[number])
        return self.numbers[number]

    def nonsense(self, line, fault):
        """A line that is no request gets its fault, and changes nothing."""
        self.orchestrator.give(line + b"\n")
        if (answer := self.orchestrator.take()) != {"fault": fault}:
            raise Found(f"the orchestrator answers {answer} to {line!r}")

    def replied(self, name, number, frame):
        """A plugin replied to a call: the reply's number."""
        call, reply = read(self.history.frame(number)), read(frame)
        if (reply.number, reply.plugin, reply.is_reply) != (call.number, call.plugin, True):
            raise Found(f"{name} replies {reply} to {call}")
        for watcher in self.watchers:
            watcher.replied(name, number, frame)
        answer = self.history.answered(name, number, frame)
        self.pending.append(answer)
        return answer

    # ---- parts that are stopped, let go, and killed

    def sleep(self, name):
        self.parts[name].sleep()

    def sleep_inside(self, name, items, seconds):
        """A part is stopped while it carries out what it was given at once."""
        part = self.parts[name]
        part.before = part.record()
        part.give(b"".join(self.content(name, it) for it in items))
        wait(seconds)
        part.sleep()
        part.given += items
        part.begun = len(items)

    def wake(self, name):
        """It is let go, and answers all that it was given."""
        part = self.parts[name]
        part.wake()
        for item in part.given:
            self.take_down(name, item, part.take())
        part.given, part.begun = [], 0

    def kill(self, name, given=(), cut=b"", seconds=0.0, after_log=None, is_ending=False, is_mute=False):
        """Kills a part, so long after it was given so many calls or events at once, and behind them the beginning of something more, or the end of its
        input; or earlier, so long after it wrote its log; perhaps it can't say anything. It may have carried out all of them, and said nothing. What it was
        given, and never did, is lost: the answer is those numbers of frames."""
        part = self.parts[name]
        if part.is_asleep:
            given, begun = part.given, part.begun
        else:
            begun = len(given)
            part.before = part.record() if given else None
            written = part.log_state()
            if is_mute:
                part.mute()
            part.give(b"".join(self.content(name, it) for it in given) + cut)
            if is_ending:
                part.process.stdin.close()
            wait(seconds, lambda: after_log is not None and part.log_state() != written)
            wait(after_log or 0)
        answers = part.killed()
        for item, answer in zip(given, answers):
            self.take_down(name, item, answer)
        said, untold = given[: len(answers)], given[len(answers) : begun]
        left = list(given[max(begun, len(answers)) :])
        if untold:
            left[:0] = self.take_down_untold(said, untold) if name == ORCHESTRATOR else self.take_down_unheard(name, said, untold)
        return numbers_of(left)

    def kill_starting(self, name, seconds, after_log=None):
        """Starts a part that is down, and kills it so long after that, or after it wrote its log. The orchestrator may have begun a session by then, and only
        its store tells."""
        part, written = self.parts[name], self.parts[name].log_state()
        self.launch(name)
        wait(seconds, lambda: after_log is not None and part.log_state() != written)
        wait(after_log or 0)
        part.kill()
        if name == ORCHESTRATOR and json.loads(self.orchestrator.record())["session"] > self.session:
            self.began()

    def name_of(self, event):
        """Of which volume an event is, by its name; None: of none, or of one that isn't known here."""
        (kind, it), = event.items()
        if kind == "deliver":
            return self.names.get(read(self.history.frame(it)).number)
        return None if kind == "lose" else it if isinstance(it, str) else it["name"]

    def take_down_untold(self, said, events):
        """Takes down those events that the orchestrator carried out, and to which nobody has its answers; each is of another volume, or it is a loss alone. Where
        a row is what it was, the event may as well not have come. The answer is what is left."""
        before, after = (json.loads(it) for it in (self.orchestrator.before, self.orchestrator.record()))
        if "lose" in events[0]:
            if after["session"] == before["session"]:
                return events
            self.given_up(events[0]["lose"], {"node": events[0]["lose"], "outcome": "lost", "session": after["session"]})
            return []
        rows, others = ({it["name"]: it for it in record["volumes"]} for record in (after, before))
        done = [it for it in events if (name := self.name_of(it)) in rows and rows[name] != others.get(name)]
        for event in done:
            row = rows[self.name_of(event)]
            self.goals[row["name"]] = goal = row["goal"]
            is_reply = "deliver" in event
            sent = None if is_reply and goal is None else self.history.sent(None)
            self.history.happened(event, f"sent {sent}" if not is_reply else f"taken, sent {sent}" if sent else "taken")
        return [it for it in events if it not in done]

    def take_down_unheard(self, name, said, numbers):
        """Takes down the calls that a plugin carried out, and of which nobody has the replies: those up to the last one that left its mark. What came behind it
        changed nothing, and may as well not have come. The answer is what is left."""
        before, after = (json.loads(it) for it in (self.parts[name].before, self.parts[name].record()))
        lasts, others = ({(it["last"]["session"], it["last"]["call"]) for it in record["volumes"]} for record in (after, before))
        marks, session, done = lasts - others, after["session"], 0
        begins = session > before["session"]
        for at, number in enumerate([*said, *numbers], 1):
            call = read(self.history.frame(number))
            if call.number in marks or begins and call.number[0] == session:
                done = at
            # The mark is of the first of those that could have left it.
            marks.discard(call.number)
            begins = begins and call.number[0] != session
        done = max(done - len(said), 0)
        for number in numbers[:done]:
            for watcher in self.watchers:
                watcher.replied(name, number, None)
            self.history.answered(name, number, None)
        return numbers[done:]

    # ---- records

    def lines(self):
        """The records of all parts, in their order."""
        return [part.record() for part in self.parts.values()]
