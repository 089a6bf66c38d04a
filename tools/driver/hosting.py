"""The orchestrator's host, over the library and over csi-replay: commands become CSI's calls at two drivers, of which each is killed, or sleeps past a
deadline."""
import json
import os
import random
import signal
import subprocess
import sys
import threading
import time

from program import frames, stores
from program.running import LIMIT, Wrong, wanted

from .box import Box, put_to_sleep
from .staged import noted

TOP = os.path.dirname(os.path.dirname(os.path.dirname(os.path.realpath(__file__))))
BLOCK = {"access": "block", "mode": 1}
LIBRARY, PROGRAM = "the library", "csi-replay"


def commands(first, count):
    """Of so many volumes: each is made and used; of three, one stays so, one is stopped, and one is deleted then."""
    for at in range(first, first + count):
        name = f"v{at}"
        yield name, {"create": {"capabilities": [BLOCK], "limit": 0, "name": name, "required": 10}}
        yield name, {"use": {"capability": BLOCK, "name": name, "node": "n1", "readonly": False, "target": f"/t/{at}"}}
        if at % 3:
            yield name, {"stop": {"name": name, "node": "n1", "target": f"/t/{at}"}}
        if at % 3 == 2:
            yield name, {"delete": name}


class Host:
    """A host that runs, and the goals of its volumes, as its answers told them last."""

    def __init__(self, box, over, deadline=10.0, nodes=("n1",)):
        self.config = {
            "store": box.at("orchestrator.db"),
            "config": box.at("config"),
            "controller": f"unix://{box.at('controller.d/csi.sock')}",
            "nodes": {node: f"unix://{box.at(f'{node}.d/csi.sock')}" for node in nodes},
            "staging": box.at("staging"),
            "deadline_seconds": deadline,
            "retry_seconds": 0.05,
        }
        file = box.put("host.json", json.dumps(self.config))
        words = [f"{box.built}/csi-host", *(["--program", box.program] if over == PROGRAM else []), file]
        self.process = subprocess.Popen(words, stdin=subprocess.PIPE, stdout=subprocess.PIPE, stderr=subprocess.PIPE)
        self.goals, self.lines, self.out, self.changed = {}, [], [], threading.Condition()
        self.reading = threading.Thread(target=self.read)
        self.reading.start()

    def read(self):
        for line in self.process.stdout:
            told = json.loads(line)
            with self.changed:
                self.lines.append(told)
                self.out.append(line)
                if "name" in told:
                    self.goals[told["name"]] = told["goal"]
                self.changed.notify_all()

    def send(self, line):
        self.process.stdin.write(line + b"\n")
        self.process.stdin.flush()

    def comes(self, what, true, within=LIMIT):
        """Waits until something is true of its answers."""
        with self.changed:
            if not self.changed.wait_for(true, within):
                raise Wrong(f"{what}: it doesn't come to that: {self.lines[-3:]}")

    def ask(self, name, command, within=LIMIT):
        """Gives a command, and waits until nothing is wanted of its volume any more."""
        self.goals[name] = command
        self.send(json.dumps(command).encode())
        self.comes(command, lambda: self.goals[name] is None, within)

    def say(self, line):
        """Gives a line, and waits for its answer, which is given; nothing else is under way."""
        count = len(self.lines)
        self.send(line)
        self.comes(line, lambda: len(self.lines) > count)
        return self.lines[count]

    def kill(self):
        """Kills it; its orchestrator, which has its standard error, ends then with its input."""
        self.process.kill()
        self.process.wait()
        self.reading.join()
        self.process.stderr.read()
        self.process.stdin.close()

    def end(self, right=(0, b"")):
        self.process.stdin.close()
        status = self.process.wait(LIMIT)
        self.reading.join()
        wanted("the host's end", (status, self.process.stderr.read()), right)


def audited(box, nodes=("n1",)):
    lines = []
    for store in ("orchestrator.db", "controller.db", *(f"{node}.db" for node in nodes)):
        status, out, error = box.replay("record", box.at(store))
        wanted(f"record of {store}", (status, error), (0, b""))
        lines.append(out)
    ran = subprocess.run([sys.executable, f"{TOP}/tools/operate/audit"], input=b"".join(lines), capture_output=True, timeout=LIMIT, check=False)
    wanted("the audit", (ran.returncode, ran.stderr), (0, b""))
    return json.loads(lines[0])["volumes"]


def state(volumes):
    return sorted((it["name"], it["exists"], len(it["at"]), it["goal"]) for it in volumes)


def plugins(box):
    """The drivers of a controller and of its one node."""
    box.put("config", json.dumps({"greatest": 1 << 40, "nodes": [{"id": "n1", "slots": 64}]}))
    return [box.controller(), box.node()]


def whole(over):
    def body(box):
        """Commands one after another; what was asked is so at the end, and no audit finds anything."""
        _, node = plugins(box)
        host = Host(box, over)
        for name, command in commands(0, 9):
            host.ask(name, command)
        wanted("the sessions", host.lines[0], {"session": 1, "wanted": []})
        host.end()
        wanted("the volumes", state(audited(box)), [(f"v{at}", "yes" if at % 3 < 2 else "no", int(at % 3 == 0), None) for at in range(9)])
        node.stop()
        wanted("where they are staged", noted(box), {at: f"{box.at('staging')}/{at}" for at in (1, 4, 7)})

    return body


def alike(box):
    """Over both ways all lines are the same, and the stores of all three, in two runs; some lines are no commands, are refused, or lose a node that is none."""
    came = []
    for at, over in enumerate((LIBRARY, PROGRAM)):
        os.mkdir(box.at(str(at)))
        apart = Box(box.built, box.program, box.at(str(at)))
        apart.drivers = box.drivers
        plugins(apart)
        out = []
        for turn in range(2):
            host = Host(apart, over)
            for name, command in commands(9 * turn, 9):
                host.ask(name, command)
                host.say(json.dumps(command).encode())
            for line in (b"", b"{}", b'{"reply":"00"}', b'{"timeout":"v0"}', b'{"timeout":"w"}', b'{"delete":"v0"}', b'{"lose":""}', b'{"lose":"n9"}'):
                host.say(line)
            host.end()
            out += host.out
        records = [apart.replay("record", apart.at(store)) for store in ("orchestrator.db", "controller.db", "n1.db")]
        audited(apart)
        for driver in apart.drivers[-2:]:
            driver.stop()
        came.append((out, records, [stores.parts_of(apart.at(store)) for store in ("orchestrator.db", "controller.db", "n1.db")]))
    for told, library, program in zip(("the lines", "the records", "the parts"), *came):
        wanted(told, library, program)
    return f"{len(came[0][0])} lines"


def deadline(over):
    def body(box):
        """A node sleeps past the deadline: the call is tried again under a higher number, and the first one is stale or a duplicate of nothing."""
        _, node = plugins(box)
        host = Host(box, over, 1.5)
        host.ask("v0", next(it for _, it in commands(0, 1)))
        put_to_sleep(node.process)
        wakes = threading.Timer(2.0, lambda: node.process.send_signal(signal.SIGCONT))
        wakes.start()
        host.ask("v0", list(commands(0, 1))[1][1])
        wakes.join()
        host.end()
        numbers = [it["send"]["call"] for it in host.lines if it.get("send", {}).get("kind") == "NodeStageVolume"]
        wanted("it was tried again", len(numbers) > 1 and numbers == sorted(set(numbers)), True)
        wanted("the volume", state(audited(box)), [("v0", "yes", 1, None)])

    return body


def killed(turns, seed):
    """Drivers and host, which is over the one and the other in turn, are killed at random moments, and all goes on from the stores."""

    def body(box):
        drawn = random.Random(seed)
        for turn in range(turns):
            drivers = plugins(box)
            host = Host(box, (LIBRARY, PROGRAM)[turn % 2], 0.3)
            given = b"".join(json.dumps(it).encode() + b"\n" for _, it in commands(turn * 4, 4))
            host.process.stdin.write(given)
            host.process.stdin.flush()
            time.sleep(drawn.random() * 0.4)
            victim = drawn.choice(drivers)
            victim.kill()
            time.sleep(drawn.random() * 0.2)
            host.kill()
            for it in drivers:
                it.kill()
            audited(box)
        plugins(box)
        host = Host(box, LIBRARY)
        host.end()
        wanted("what is wanted still", [it["goal"] for it in audited(box) if it["goal"]], [])
        return f"{turns} turns"

    return body


def refused(box):
    """How a host ends that can't begin, or gets a line that is too long."""
    box.put("config", json.dumps({"greatest": 1, "nodes": []}))
    box.put("bad", "{}")
    stores.make(box.at("node.db"), [stores.node_head("n1", 1)])
    config = {"store": box.at("db"), "config": box.at("config"), "controller": f"unix://{box.at('c')}"}
    long = b"{}\n" + b"x" * 65537
    for more, words, given, right in (
        ({}, [], b"", (0, b'{"session":1,"wanted":[]}\n', "")),
        ({}, [], long, (1, b'{"session":2,"wanted":[]}\n{"fault":"BadLine"}\n', "line fault at 2\n")),
        ({}, ["--program", box.program], long, (1, b'{"session":3,"wanted":[]}\n{"fault":"BadLine"}\n', "line fault at 2\n")),
        ({"config": box.at("bad"), "store": box.at("new.db")}, [], b"", (1, b"", "config refused\n")),
        ({"config": box.at("none")}, [], b"", (3, b"", f"device: open {box.at('none')}: no such file or directory\n")),
        ({"store": box.at("node.db")}, [], b"", (1, b"", "record fault\n")),
        ({"store": box.at("config")}, [], b"", (3, b"", "store not opened: file is not a database\n")),
        ({"more": 1}, [], b"", (1, b"", 'json: unknown field "more"\n')),
        ({}, ["--program", "/bin/false"], b"", (3, b"", "the orchestrator: EOF\n")),
        ({}, ["--other"], b"", (2, b"", "usage: csi-host [--program CSI-REPLAY] FILE\n")),
    ):
        file = box.put("host.json", json.dumps({**config, **more}))
        ran = subprocess.run([f"{box.built}/csi-host", *words, file], input=given, capture_output=True, timeout=LIMIT, check=False)
        wanted(f"{more} {words}", (ran.returncode, ran.stdout, ran.stderr.decode()), (*right[:2], right[2] and f"csi-host: {right[2]}"))
    wanted("that a store was made", os.path.exists(box.at("new.db")), False)


def told_to_end(box):
    """By a service manager, while a call is under way that nobody answers: what is wanted is told by the next one."""
    box.put("config", json.dumps({"greatest": 1, "nodes": []}))
    for session, over in enumerate((LIBRARY, PROGRAM, LIBRARY), 1):
        host = Host(box, over)
        host.process.stdin.write(json.dumps(next(it for _, it in commands(0, 1))).encode() + b"\n")
        host.process.stdin.flush()
        with host.changed:
            wanted("the call is made", host.changed.wait_for(lambda: "v0" in host.goals, LIMIT), True)
        host.process.send_signal(signal.SIGTERM)
        host.end()
        wanted("its first line", host.lines[0], {"session": session, "wanted": ["v0"] if session > 1 else []})


def unknown_plugin(box):
    """A call to a node of which no socket is known ends the host; nothing is lost, and another one goes on."""
    plugins(box)
    block = frames.block(1)
    for over in (LIBRARY, PROGRAM):
        name = over.replace(" ", "-")
        asked = [it for _, it in commands(0, 1)] + [{"reply": frames.reply("CreateVolume", (1, 1), 0, 1).hex()}]
        asked[1:] = [asked[2], asked[1], {"reply": frames.reply("ControllerPublishVolume", (1, 2)).hex()}]
        config = {"store": box.at(f"{name}.db"), "config": box.at("config"), "controller": f"unix://{box.at('none')}", "deadline_seconds": 60}
        words = [f"{box.built}/csi-host", *(["--program", box.program] if over == PROGRAM else []), box.put("host.json", json.dumps(config))]
        given = b"".join(json.dumps(it).encode() + b"\n" for it in asked)
        ran = subprocess.run(words, input=given, capture_output=True, timeout=LIMIT, check=False)
        wanted("its end", (ran.returncode, ran.stderr), (3, b"csi-host: a call of v0: no socket of node:n1 is known\n"))
        goal = stores.use("n1", "/t/0", block)
        row = stores.known(1, "v0", goal, 1, volume=1, exists="yes", at=[stores.at_node("n1", block, "yes", "maybe", [("/t/0", "no")])])
        wanted("the parts", stores.parts_of(box.at(f"{name}.db")), [stores.orchestrator_head(1, ["n1"]), row])


def cases(drawn, seed):
    for over in (LIBRARY, PROGRAM):
        yield f"host: commands, over {over}", whole(over)
        yield f"host: a deadline, over {over}", deadline(over)
    yield "host: over both alike", alike
    yield "host: killed", killed(20 if drawn > 1000 else 2, seed)
    yield "host: refused", refused
    yield "host: told to end", told_to_end
    yield "host: a plugin without a socket", unknown_plugin
