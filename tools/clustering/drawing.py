"""What is asked of the orchestrator, drawn at random: mostly what can be done, and also what has to be refused."""
import json

from auditing.clauses import FOR_ONE_NODE

ODD_NAMES = ['"\\\n', "\u00e9", "n" * 128, "\U0001f600 v"]
TARGETS = ["/a", "/b", "/c", "/" + "t" * 254, "a"]  # the last one isn't a path from the root: a node refuses it
ODD_NODE = "node \u00fc"
LONG_NAMES = ["n" * 129, "\u00e9" * 64 + "n"]
NONSENSE = ((b"no JSON", "NotJson"), (b'{"delete":1}', "BadLine"), (b'{"reply":"00"}', "BadFrame"), (b'{"restart":"controller"}', "BadLine"))
MOST = 2**63 - 1
WINDOW = 8  # how many names are in use at a time


def configuration(drawn, names=None):
    """A controller of these nodes, or of a few, some with few slots."""
    if names is None:
        names = [f"n{at}" for at in range(1, drawn.randint(2, 5))] + [ODD_NODE] * drawn.randint(0, 1)
    nodes = [{"id": name, "slots": drawn.choice((1, 2, 4096))} for name in names]
    return {"greatest": drawn.choice((500, 2**40, MOST)), "nodes": nodes}


def capability(drawn, mode=None):
    mode = mode or drawn.randint(1, 7)
    if drawn.random() < 0.5:
        return {"access": "block", "mode": mode}
    return {"access": "mount", "fs": drawn.choice(("ext4", "xfs", "")), "mode": mode}


def nonsense(drawn):
    """A line that is no request, and its fault (docs/LINES.md): nothing like one, or a command with a mode, a name or a target out of its range."""
    if drawn.random() < 0.4:
        return drawn.choice(NONSENSE)
    name, mode = drawn.choice(LONG_NAMES), {"access": "block", "mode": drawn.choice((0, 8))}
    create = {"capabilities": [capability(drawn)], "limit": 0, "name": "v1", "required": 1}
    stop = {"name": "v1", "node": "n1", "target": "/a"}
    use = {**stop, "capability": capability(drawn), "readonly": False}
    events = [{"create": {**create, "name": name}}, {"create": {**create, "capabilities": [*create["capabilities"], mode]}}]
    events += [{"use": {**use, "name": name}}, {"use": {**use, "capability": mode}}, {"stop": {**stop, "target": "/" + "t" * 255}}]
    event = drawn.choice([*events, {"stop": {**stop, "name": name}}, {"delete": name}, {"timeout": name}])
    return json.dumps(event, ensure_ascii=False).encode(), "BadLine"


class Commands:
    """Keeps the names in use, and what was asked of each, so that what is drawn has a chance."""

    def __init__(self, drawn, nodes, goals):
        """`nodes` tells those that the orchestrator lists, and `goals` what is wanted of each name."""
        self.drawn, self.nodes, self.goals = drawn, nodes, goals
        self.count = self.again = 0
        self.ended = set()  # the names that were to be deleted: one that is created once more was forgotten
        self.made = {}  # by name: the capabilities that it was created with
        self.uses = {}  # by name: what was used
        self.window = [self.new_name() for _ in range(WINDOW)]

    def new_name(self):
        self.count += 1
        return ODD_NAMES[self.count // 9] if self.count % 9 == 0 and self.count // 9 < len(ODD_NAMES) else f"v{self.count}"

    def draw(self):
        """A command, and what to do once it was accepted."""
        drawn = self.drawn
        free = [name for name in self.window if not self.goals().get(name)]
        name = drawn.choice(free if free and drawn.random() < 0.8 else self.window)
        if drawn.random() < 0.1:
            return self.any_of(name)
        if name not in self.made:
            return self.create(name)
        if not (uses := self.uses.get(name)):
            return self.use(name) if drawn.random() < 0.8 else self.delete(name)
        if drawn.random() < 0.5:
            return self.stop(name, drawn.choice(uses))
        return self.use(name, drawn.choice(uses) if drawn.random() < 0.3 else None)

    def any_of(self, name):
        """Whatever comes, whether or not it can be."""
        other = {"name": name, "node": self.drawn.choice([*self.nodes(), "nowhere"]), "target": self.drawn.choice(TARGETS)}
        return self.drawn.choice((self.create, self.use, self.delete, lambda it: self.stop(it, other)))(name)

    def create(self, name):
        drawn = self.drawn
        required, limit = drawn.randint(1, 500), drawn.choice((0, 500, 10**6))
        if drawn.random() < 0.1:
            required, limit = drawn.choice(((0, 0), (10, 9), (0, 5), (MOST + 1, 0), (2**64 - 1, 2**64 - 1), (MOST, 0)))
        capabilities = [capability(drawn) for _ in range(drawn.choice((0, 1, 2, 3, 8) if drawn.random() < 0.2 else (1, 2, 3)))]
        if name in self.made and drawn.random() < 0.5:
            capabilities = self.made[name]
        return {"create": {"capabilities": capabilities, "limit": limit, "name": name, "required": required}}

    def use(self, name, like=None):
        drawn, made = self.drawn, self.made.get(name)
        chosen = drawn.choice(made) if made and drawn.random() < 0.9 else capability(drawn)
        if like and drawn.random() < 0.7:
            chosen = like["capability"]
        node = drawn.choice(self.nodes() or ["nowhere"]) if drawn.random() < 0.95 else "nowhere"
        if like and (drawn.random() < 0.5 or like["capability"]["mode"] in FOR_ONE_NODE):
            node = like["node"]
        target = drawn.choice(TARGETS[:-1]) if drawn.random() < 0.95 else TARGETS[-1]
        return {"use": {"capability": chosen, "name": name, "node": node, "readonly": drawn.random() < 0.4, "target": target}}

    def stop(self, name, use):
        return {"stop": {"name": name, "node": use["node"], "target": use["target"]}}

    def delete(self, name):
        return {"delete": name}

    def learn(self, record):
        """What the orchestrator knows now; a name whose volume was deleted goes out of use, or is tried once more. What a lost node left can be stopped by
        any target."""
        self.made, self.uses = {}, {}
        for volume in record["volumes"]:
            name = volume["name"]
            if volume["exists"] == "yes" or volume["id"] is not None and volume["exists"] == "maybe":
                self.made[name] = volume["capabilities"]
            self.uses[name] = [
                {"name": name, "node": at["node"], "target": target, "capability": at["capability"]}
                for at in volume["at"]
                for target in [it["target"] for it in at["published"]] or [self.drawn.choice(TARGETS)]
            ]
            if volume["exists"] == "no" and name in self.window and self.drawn.random() < 0.3:
                self.window[self.window.index(name)] = self.new_name()

    def accepted(self, event):
        """A command had a call sent."""
        if "create" in event:
            self.made[event["create"]["name"]] = event["create"]["capabilities"]
            self.again += event["create"]["name"] in self.ended
        elif "use" in event:
            self.uses.setdefault(event["use"]["name"], []).append(event["use"])
        elif "stop" in event:
            stopped = event["stop"]
            uses = self.uses.get(stopped["name"], [])
            self.uses[stopped["name"]] = [it for it in uses if (it["node"], it["target"]) != (stopped["node"], stopped["target"])]
        else:
            self.made.pop(event["delete"], None)
            self.ended.add(event["delete"])
