"""What is broken on purpose, to see that it is found: a program that was edited (`edit`, a file of broken/), or something that no operator may do."""
import base64
import os
import threading
import time

from .faults import Fault
from .parts import Found
from .system import PLACES, PREFIX, coded


class Break:
    """What a break does of itself. `changed` is whether it came to anything; `kinds` are the faults that are drawn, all where it is None, and `faults` those
    that there are in place of drawn ones; `looks` is which share of commands only asks, and `seconds` how long clients work, where it has to be longer."""

    edit = kinds = faults = None
    changed = False
    looks = 0.1
    seconds = 0

    def prepare(self, system):
        """Before anything runs."""

    def begin(self, run, faults):
        """As the clients begin."""


class Unconditional(Break):
    """a service or controller that slept through its lease goes on, and its commits have no condition"""

    edit, kinds = "unconditional", ["leader asleep"]

    def begin(self, run, faults):
        self.changed = any(it.kind == "leader asleep" for it in faults.faults)


class Granted(Break):
    """a lease that is taken for granted: who slept through it answers whatever changes nothing"""

    edit, kinds, looks = "granted", ["leader asleep"], 0.5

    def begin(self, run, faults):
        self.changed = any(it.kind == "leader asleep" for it in faults.faults)


class Unnamed(Break):
    """a node answers under another's name: two nodes' addresses are exchanged, and nobody asks for names"""

    edit, kinds, changed = "unnamed", ["kill"], True

    def prepare(self, system):
        first, second = system.set["nodes"][:2]
        first["address"], second["address"] = second["address"], first["address"]
        system.write("set.json", system.set)


class Played(Break):
    """what a connection carried is played again, where nothing is secret: plugins are called without TLS"""

    edit, kinds, changed = "plain", ["played again"], True


class Unfenced(Break):
    """a storage does what comes late to it: the command of a controller that was stopped, and went on after another had led"""

    # It stands still with a command under way, and until that was given up and undone.
    faults, seconds, changed = [Fault(3, 18, "machine asleep", ["controller", 18])], 24, True

    def prepare(self, system):
        os.environ["TUFAYON_UNFENCED"], os.environ["TUFAYON_SLOW"] = "yes", "0.5"


class Copied(Break):
    """a second service runs over a copy of the first one's store"""

    kinds = ["kill"]

    def begin(self, run, faults):
        threading.Thread(target=self.copy, args=(run.system, run.tell), daemon=True).start()

    def copy(self, system, tell):
        time.sleep(4)
        try:
            kept = {key: value for key, value in system.below(PREFIX["orchestrator"] + "/").items() if "/leader/" not in key}
        except Found:
            return
        prefix = PREFIX["orchestrator"] + "s"
        for key, value in kept.items():
            system.asked("v3/kv/put", key=coded(key.replace(PREFIX["orchestrator"], prefix)), value=base64.b64encode(value).decode())
        tell(f"a service over a copy of {len(kept)} keys")
        system.add("orchestrator-h4", "orchestrator", "h4", prefix).start()
        self.changed = True


class Untokened(Copied):
    """likewise, where a session is begun by its number alone, not by whose opening it is: both begin the same one"""

    edit = "untokened"  # without the clock, too, by which numbers mostly differ

    def copy(self, system, tell):
        super().copy(system, tell)
        for host in PLACES["orchestrator"]:
            system.parts[f"orchestrator-{host}"].kill()


BREAKS = {
    "unconditional": Unconditional, "granted": Granted, "unnamed": Unnamed, "played": Played, "unfenced": Unfenced, "copied": Copied, "untokened": Untokened,
}
