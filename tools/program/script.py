"""The script `csi-replay`, on a copy of the tree in which nothing can be proved: without an rt, and with one that fails. And want of
memory, which is the program's."""
import os
import resource
import shutil
import subprocess

from .configs import PLAIN
from .frames import create
from .running import LIMIT, Case, ended, need, wanted

TOP = os.path.dirname(os.path.dirname(os.path.dirname(os.path.realpath(__file__))))
TOOLS = "bash cat chmod cp cut date find flock grep mkdir mv nice nproc readlink rm sort touch wc".split()


def tools(box, *names):
    """A folder with these programs of the machine alone."""
    os.mkdir(box.at("tools"))
    for name in names:
        os.symlink(need(name), box.at(f"tools/{name}"))
    return box.at("tools")


def run_script(box, path):
    words = [need("bash"), box.at("tree/csi-replay"), "show", "/dev/null"]
    ran = subprocess.run(words, env={"PATH": path}, capture_output=True, timeout=LIMIT, check=False)
    return ran.returncode, ran.stdout, ran.stderr


def tree(box):
    """The script, and a tower of one crate without sources."""
    os.makedirs(box.at("tree/crates/csi_replay/src"))
    shutil.copy(f"{TOP}/csi-replay", box.at("tree/csi-replay"))
    box.put("tree/crates.txt", b"csi_replay: \n")
    box.put("tree/crates/csi_replay/src/main.rt", b"fn main() {}\n")


def without_rt(box):
    tree(box)
    came = run_script(box, tools(box, *TOOLS))
    wanted("csi-replay without rt", came, (69, b"", b"csi-replay: there is no rt on the PATH\n"))


def not_proved(box):
    tree(box)
    path = tools(box, *TOOLS)
    os.makedirs(box.at("kit/bin"))
    for name in ("rt", "rattle"):
        box.put(f"kit/bin/{name}", b"#!/bin/sh\necho it fails\nexit 1\n")
        os.chmod(box.at(f"kit/bin/{name}"), 0o755)
    box.put("kit/KIT-ID", b"none\n")
    os.symlink(box.at("kit/bin/rt"), f"{path}/rt")
    status, out, error = run_script(box, path)
    wanted("the status and the output", (status, out), (70, b""))
    log = box.at("tree/crates/csi_replay/out/csi-replay.log")
    wanted("the last line", error.splitlines()[-1], f"csi-replay: csi_replay was not proved: see {log}".encode())
    wanted("the log", box.get("tree/crates/csi_replay/out/csi-replay.log"), b"it fails\n")


def without_memory(box):
    """More is asked for than the process may have: each subcommand says so, and no store is made."""
    size = 192 * 2**20

    def limit():
        resource.setrlimit(resource.RLIMIT_AS, (size, size))

    box.put("config", PLAIN + b" " * size)
    right = ended(3, "memory")
    box.put("schedule", b'{"config":%s,"events":[]}' % PLAIN + b" " * size)
    for name in ("run", "frames", "draw"):
        box.wants(right, name, "schedule", preexec_fn=limit)
    box.wants(right, "controller", "db", "config", given=create((1, 1), "v"), preexec_fn=limit)
    wanted("the folder", box.names(), ["config", "schedule"])
    with open(box.at("large.db"), "wb") as file:
        file.truncate(2 * size)
    box.wants(right, "record", "large.db", preexec_fn=limit)


def cases():
    yield Case("script: there is no rt", without_rt)
    yield Case("script: a crate isn't proved", not_proved)
    yield Case("memory: none is left", without_memory)
