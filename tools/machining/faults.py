"""What goes wrong: each fault begins, and ends. A seed draws which, where, when and for how long."""
import contextlib
import json
import os
import signal
import subprocess
import sys
import threading
import time
from dataclasses import dataclass, field

from .parts import Found
from .system import CLIENTS, LEASE, NODES, PLACES, PROMISE
from .wiring import HOSTS, MACHINES, MEMBERS


HERE = os.path.dirname(os.path.abspath(__file__))


@dataclass
class Fault:
    """Something that goes wrong from a moment on, for a while: seconds since the clients began."""

    at: float
    lasts: float
    kind: str
    where: list = field(default_factory=list)

    def __str__(self):
        return f"{self.at:.1f} s, for {self.lasts:.1f} s: {self.kind} {' '.join(map(str, self.where))}"


def draw(drawn, seconds, kinds=None):
    """The faults of a run of so many seconds, by their beginnings."""
    faults = []
    for _ in range(drawn.randint(5, 12)):
        kind = drawn.choice(kinds or KINDS)
        at = drawn.random() * (seconds - 2)
        lasts = min(0.5 + drawn.random() * 7, seconds - at)
        faults.append(Fault(at, lasts, kind, PLACE[kind](drawn)))
    if sum(it.kind == "lost" for it in faults) > 1:  # one is enough
        first = next(it for it in faults if it.kind == "lost")
        faults = [it for it in faults if it.kind != "lost" or it is first]
    return sorted(faults, key=lambda it: it.at)


def some(drawn):
    return drawn.sample(list(MACHINES), drawn.randint(2, 5))


def bad(drawn):
    where = drawn.choice(["*", *HOSTS, *MEMBERS])
    return [where, drawn.choice([0, 1, 5, 20]), drawn.choice([0, 10, 80]), drawn.choice([0, 5, 60]), drawn.choice([0, 5, 50])]


def a_part(drawn):
    return [drawn.choice([f"{role}-{host}" for role, hosts in PLACES.items() for host in hosts] + list(NODES))]


def ends_in(drawn):
    name = drawn.choice(["orchestrator", "controller", *(f"node/{it}" for it in NODES), *(f"client/{it}" for it in CLIENTS)])
    return [name, drawn.choice([0, 1, 2, 3])]


PLACE = {
    "cut": lambda drawn: [drawn.choice([*HOSTS, *MEMBERS])],
    "cut half": some,
    "cut one way": lambda drawn: drawn.sample(list(MACHINES), 2),
    "mute": lambda drawn: [drawn.choice(list(HOSTS))],
    "bad": bad,
    "kill": a_part,
    "leader ends": lambda drawn: [drawn.choice(list(PLACES))],
    "leader asleep": lambda drawn: [drawn.choice(list(PLACES)), LEASE + 0.5 + drawn.random() * 4],
    "machine asleep": lambda drawn: [drawn.choice(list(PLACES)), LEASE + 0.5 + drawn.random() * drawn.choice([4, 14])],
    "host asleep": lambda drawn: [drawn.choice(list(HOSTS)), drawn.choice([0.5, LEASE]) + drawn.random() * 4],
    "member down": lambda drawn: [drawn.choice(list(MEMBERS))],
    "certificate": ends_in,
    "renewed": lambda drawn: [ends_in(drawn)[0]],
    "full": lambda drawn: [drawn.choice(list(NODES))],
    "played again": lambda drawn: [],
    "read anew": lambda drawn: [],
    "lost": lambda drawn: [drawn.choice(list(NODES))],
}
KINDS = [*PLACE, "kill", "kill", "leader asleep", "leader asleep", "cut", "cut half", "bad"]


class Faults:
    """Carries faults out."""

    def __init__(self, system, clients, faults, tell):
        self.system, self.clients, self.tell = system, clients, tell
        self.faults = faults
        self.undo = []  # (when, fault, what ends it)
        self.on_wire = []
        self.losing = None
        self.played = []
        self.found = []
        self.counts = {}

    def run(self, since, until):
        """Begins and ends faults until a moment; then all that are left end."""
        todo = list(self.faults)
        while time.monotonic() < until or todo:
            now = time.monotonic()
            for end in [it for it in self.undo if it[0] <= now]:
                self.end(end)
            while todo and since + todo[0].at <= now:
                self.begin(todo.pop(0), since)
            time.sleep(0.02)

    def begin(self, fault, since):
        self.tell(fault)
        self.counts[fault.kind] = self.counts.get(fault.kind, 0) + 1
        undo = getattr(self, fault.kind.replace(" ", "_"))(*fault.where)
        if undo:
            lasts = fault.where[1] if fault.kind.endswith("asleep") else fault.lasts
            self.undo.append((since + fault.at + lasts, fault, undo))

    def end(self, end):
        self.undo.remove(end)
        self.tell(f"over: {end[1].kind} {' '.join(map(str, end[1].where))}")
        end[2]()

    def heal(self):
        for end in list(self.undo):
            self.end(end)
        if self.losing:
            within = 60 * self.system.patience
            self.losing.join(within)
            if self.losing.is_alive():
                raise Found(f"a lost node doesn't join again within {within:.0f} seconds")
        self.judge_played()

    # ---- the wire

    def over_wire(self, *lines):
        """These lines hold until it is over."""
        self.on_wire.append(lines)
        for line in lines:
            self.system.wire.tell(*line)

        def over():
            self.on_wire.remove(lines)
            self.system.wire.tell("heal")
            for others in self.on_wire:
                for line in others:
                    self.system.wire.tell(*line)

        return over

    def cut(self, machine):
        return self.over_wire(("cut", machine))

    def cut_half(self, *machines):
        others = [it for it in (*MACHINES, ".") if it not in machines]
        return self.over_wire(*[(("cut", a, b)) for a in machines for b in others], *[("cut", b, a) for a in machines for b in others])

    def cut_one_way(self, a, b):
        return self.over_wire(("cut", a, b))

    def mute(self, host):
        """Nothing that it says is heard, and it hears all."""
        return self.over_wire(*[("cut", host, it) for it in (*MACHINES, ".") if it != host])

    def bad(self, where, loss, delay, jitter, twice):
        lines = [("loss", where, loss), ("delay", where, delay), ("jitter", where, jitter), ("twice", where, twice)]
        return self.over_wire(*lines)

    # ---- programs

    def kill(self, name):
        self.system.parts[name].kill()

    def leader(self, role):
        part = self.system.leader(role)
        self.tell(f"who leads: {part.name if part else 'nobody known'}")
        return part

    def leader_asleep(self, role, _):
        part = self.leader(role)
        if part and part.put_to_sleep():
            return part.wake
        return None

    def leader_ends(self, role):
        part = self.leader(role)
        if part:
            part.signal(signal.SIGTERM)

    def machine_asleep(self, role, seconds):
        """The leader, and whatever else runs on its host."""
        part = self.leader(role)
        return self.host_asleep(part.machine, seconds) if part else None

    def host_asleep(self, host, _):
        """Whatever runs there stands still, commands too."""
        pids = [int(it) for it in subprocess.run(["ip", "netns", "pids", host], capture_output=True, text=True, check=True).stdout.split()]

        def tell(number):
            for pid in pids:
                with contextlib.suppress(ProcessLookupError):
                    os.kill(pid, number)

        tell(signal.SIGSTOP)
        return lambda: tell(signal.SIGCONT)

    def member_down(self, name):
        part = self.system.parts[name]
        part.keep_down()
        return part.let_come

    # ---- certificates and disks

    def certificate(self, name, seconds):
        """It ends soon, and whose it is begins anew with it."""
        self.system.certify(name, seconds=seconds)
        for part in self.those(name):
            part.kill()
        return lambda: self.system.certify(name)

    def those(self, name):
        role, _, its = name.partition("/")
        return [part for at, part in self.system.parts.items() if at == its or not its and at.startswith(f"{role}-")]

    def renewed(self, name):
        self.system.certify(name)

    def full(self, node):
        """Its disk has no room for anything more."""
        path = self.system.at(node, "filling")
        try:
            with open(path, "ab", buffering=0) as file:
                while True:
                    file.write(bytes(4096))
        except OSError:
            pass
        return lambda: os.path.exists(path) and os.remove(path)

    # ---- what is on the wire, and files

    def played_again(self):
        """Whatever the wire has seen is played again, by a program of its own: nobody may answer it."""
        folder = self.system.made("tapes")
        self.system.wire.tell("write", folder)
        self.played.append(subprocess.Popen([sys.executable, f"{HERE}/playing.py", folder], stdout=subprocess.PIPE, text=True))

    def judge_played(self):
        for player in self.played:
            for line in player.communicate(timeout=300)[0].splitlines():
                name, came = line.split()
                self.counts[f"played again, {came}"] = self.counts.get(f"played again, {came}", 0) + 1
                if came == "answered":
                    self.found.append(f"what {name} carried was played again, and was answered")

    def read_anew(self):
        for name, part in self.system.parts.items():
            if name.startswith("orchestrator"):
                part.signal(signal.SIGHUP)

    # ---- a node that is lost

    def lost(self, name):
        """Its machine is off for good, and another one joins under its id."""
        self.system.parts[name].stop()
        self.losing = threading.Thread(target=self.lose, args=(name,), daemon=True)
        self.losing.start()

    def lose(self, name):
        try:
            self.replace(name)
        except (Found, OSError, ValueError) as it:
            self.found.append(f"while {name} was lost: {it}")

    def replace(self, name):
        system = self.system
        system.parts[name].thread.join()
        time.sleep(1)  # what its commands left running is over
        for folder, _, files in os.walk(system.at("world")):
            for file in files:
                if file.split(" ")[1:2] == [name] and not file.startswith("attached"):
                    os.remove(os.path.join(folder, file))
        for file in os.listdir(system.at(name)):
            if os.path.isfile(system.at(name, file)):
                os.remove(system.at(name, file))
        for client in self.clients:
            client.lost(name)
        while True:
            status, output, error = system.control(CLIENTS[0], "lose", name, "--promise", PROMISE)
            if status == 0:
                break
            if status != 3:
                raise Found(f"lose {name}: status {status}, {error}")
            time.sleep(0.5)
        for client in self.clients:
            client.lost(name)
        system.sessions[name] = int(json.loads(output)["session"])
        self.tell(f"{name} joins with session {system.sessions[name]}")
        system.add_node(name).start()
        self.read_anew()
