"""run.py FILE: one run, in namespaces of its own, as tools/machines starts it. FILE says which; what came of it is written to FILE.came."""
import json
import os
import random
import subprocess
import sys
import time
import traceback
from collections import Counter

sys.dont_write_bytecode = True
sys.path.insert(0, os.path.dirname(os.path.dirname(os.path.abspath(__file__))))

from machining import ending, faults  # noqa: E402
from machining.breaking import BREAKS, Break  # noqa: E402
from machining.clients import Client  # noqa: E402
from machining.parts import Found  # noqa: E402
from machining.system import CLIENTS, PLACES, PORT, System  # noqa: E402


class Run:
    """A run: `asked` has `seed`, `seconds`, `patience`, `calm`, `broken`, and the paths `top`, `programs`, `wire`, `record` and `folder`."""

    def __init__(self, asked):
        self.asked = asked
        self.begun = time.monotonic()
        self.events = open(f"{asked['folder']}/events", "w", encoding="utf-8", buffering=1)
        self.counts = Counter()
        self.found = []
        self.drawn = random.Random(asked["seed"])
        self.broken = BREAKS[asked["broken"]]() if asked.get("broken") else None

    def tell(self, what):
        self.events.write(f"{time.monotonic() - self.begun:.2f} {what}\n")

    def play(self):
        asked = self.asked
        self.system = System(asked["top"], asked["programs"], asked["wire"], asked["folder"], asked["seed"], asked["patience"])
        if self.broken:
            self.broken.prepare(self.system)
        elif self.drawn.random() < 0.25:
            os.environ["TUFAYON_SLOW"] = "0.3"  # the storage takes its time
        os.environ["GORACE"] = "halt_on_error=1 atexit_sleep_ms=0"  # where a race is found, a program ends as none may, and its log has it
        try:
            for port in PORT.values():
                self.system.wire.tell("tape", port)
            self.system.start()
            self.tell("all is there")
            self.work()
            self.rest()
        finally:
            self.system.stop()

    def work(self):
        """Clients at work, and what goes wrong meanwhile."""
        asked, since = self.asked, time.monotonic()
        its = self.broken or Break()
        seconds = max(asked["seconds"], its.seconds)
        until = since + seconds
        self.clients = [Client(self.system, name, until, asked["seed"], its.looks) for name in CLIENTS]
        drawn = [] if asked["calm"] else its.faults or faults.draw(self.drawn, seconds, its.kinds)
        carried = faults.Faults(self.system, self.clients, drawn, self.tell)
        if self.broken:
            self.broken.begin(self, carried)
        for client in self.clients:
            client.start()
        carried.run(since, until)
        for client in self.clients:
            client.join(60 * asked["patience"])
        carried.heal()
        self.tell("all is healed")
        self.found += carried.found
        for client in self.clients:
            self.counts.update({f"commands {what}": count for what, count in client.counts.items()})
            self.found += client.found
        self.counts.update({f"fault: {kind}": count for kind, count in carried.counts.items()})

    def rest(self):
        """Everything comes to rest; what was answered is so; all programs end; and the records are judged."""
        since = time.monotonic()
        self.system.until(self.system.all_ready, "each plugin has begun the session")  # one that joined may have no store yet
        volumes = ending.at_rest(self.system)
        self.counts["seconds to rest"] = round(time.monotonic() - since, 1)
        self.tell(f"at rest, {len(volumes)} volumes")
        for client in self.clients:
            try:
                client.finish(volumes)
            except Found as it:
                self.found.append(str(it))
        if self.asked["calm"]:
            self.found += ending.not_calm(self.clients)
        self.system.end()
        self.tell("all ended")
        self.found += ending.judged(self.system, self.asked["record"])
        passed, lost, twice = self.system.wire.told()
        self.counts.update({"frames": passed, "frames lost": lost, "frames twice": twice})
        for part in self.system.parts.values():
            self.counts["starts"] += part.starts
        self.counts["late commands refused"] = ending.late(self.system)
        self.counts.update({f"takeovers: {role}": ending.took_over(self.system, role) for role in PLACES})

    def came(self):
        """Plays it, and says what came of it."""
        error = ""
        try:
            self.play()
        except Found as it:
            self.found.append(str(it))
        except (OSError, subprocess.SubprocessError, ValueError, KeyError, TypeError, AttributeError) as it:
            error = f"{type(it).__name__}: {it}\n{traceback.format_exc()}"
        if self.found or error or self.asked.get("keep"):
            self.system.keep_disks()
        for client in getattr(self, "clients", ()):
            for since, until, words, status, said, _ in client.log:
                self.events.write(f"{since - self.begun:.2f} to {until - self.begun:.2f} {client.name}: {words}: {status} {said}\n")
        return {"found": self.found, "error": error, "counts": self.counts, "changed": bool(self.broken and self.broken.changed)}


def main():
    with open(sys.argv[1], encoding="utf-8") as file:
        asked = json.load(file)
    subprocess.run(["mount", "-t", "tmpfs", "tmpfs", "/run"], check=True)  # where namespaces have their names
    came = Run(asked).came()
    with open(sys.argv[1] + ".came", "w", encoding="utf-8") as file:
        json.dump(came, file)


main()
