"""`examples/joined`: an orchestrator, a controller and a node, all killed at random moments and run again; no audit of what they have finds anything."""
import json
import os
import random
import signal
import subprocess
import sys
import time

from .running import LIMIT, of_rows, wanted
from .talks import BLOCK, Talk

TOP = os.path.dirname(os.path.dirname(os.path.dirname(os.path.realpath(__file__))))
STORES = ("orchestrator.db", "controller.db", "n1.db")


def commands(turn):
    """Of four volumes: each is made and used, two are no longer used then, and one of these is deleted."""
    for at in range(4):
        name = f"v{turn}.{at}"
        yield {"create": {"capabilities": [BLOCK], "limit": 0, "name": name, "required": 10}}
        yield {"use": {"capability": BLOCK, "name": name, "node": "n1", "readonly": False, "target": f"/{at}"}}
        if at >= 2:
            yield {"stop": {"name": name, "node": "n1", "target": f"/{at}"}}
        if at == 3:
            yield {"delete": name}


def joined(box, given, after=None):
    """A run of the script on these commands, of which all processes are killed after so many seconds: its status and its output, or None."""
    words = [sys.executable, f"{TOP}/examples/joined", box.program, box.folder]
    pipes = {"stdin": subprocess.PIPE, "stdout": subprocess.PIPE, "stderr": subprocess.STDOUT}
    with subprocess.Popen(words, start_new_session=True, **pipes) as running:
        try:
            out, _ = running.communicate(b"".join(json.dumps(it).encode() + b"\n" for it in given), timeout=after or LIMIT)
            return running.returncode, out
        except subprocess.TimeoutExpired:
            os.killpg(running.pid, signal.SIGKILL)
            running.wait()
            gone(running.pid)
            return None


def lives(group):
    """Whether a process of a group has anything still: one that nobody has waited for has not."""
    for name in filter(str.isdigit, os.listdir("/proc")):
        try:
            with open(f"/proc/{name}/stat", "rb") as file:
                state, _, its = file.read().rpartition(b")")[2].split()[:3]
        except OSError:
            continue  # it is gone
        if int(its) == group and state not in (b"Z", b"X"):
            return True
    return False


def gone(group):
    """Waits until no process of a group is left: one that is killed while it syncs has its store until that is over."""
    until = time.monotonic() + LIMIT
    while lives(group) and time.monotonic() < until:
        time.sleep(0.01)


def audited(box, told):
    """The lines of the three records, of which an audit says nothing."""
    lines = []
    for name in STORES:
        ran = box.run("record", name)
        wanted(f"{told}: record of {name}", (ran.status, ran.error), (0, b""))
        lines.append(ran.out)
    ran = subprocess.run([sys.executable, f"{TOP}/tools/operate/audit"], input=b"".join(lines), capture_output=True, timeout=LIMIT, check=False)
    wanted(f"{told}: the audit", (ran.returncode, ran.stderr), (0, b""))
    return lines


def whole(box):
    """What it prints last are the three records, and all that was asked is so."""
    status, out = joined(box, commands(0))
    wanted("the status", status, 0)
    wanted("the last lines", b"".join(out.splitlines(True)[-3:]), b"".join(audited(box, "at the end")))
    volumes = json.loads(audited(box, "at the end")[0])["volumes"]
    wanted("what is used", [(it["name"], it["exists"], len(it["at"])) for it in volumes], [("v0.0", "yes", 1), ("v0.1", "yes", 1), ("v0.2", "yes", 0), ("v0.3", "no", 0)])
    wanted("what is wanted", [it["goal"] for it in volumes], [None] * 4)


def killed(box, seed):
    """Each run goes on from what the one before left; at the end nothing is wanted any more."""
    drawn = random.Random(seed)
    wanted("the first run", joined(box, [])[0], 0)
    for turn in range(1, 16):
        joined(box, commands(turn), 0.1 + drawn.random() * 0.6)
        audited(box, f"seed {seed}, turn {turn}")
    status, out = joined(box, [Talk(1, "last").create])
    wanted("the last run", (status, b'"outcome":"sent"' in out), (0, True))
    volumes = json.loads(audited(box, "at the end")[0])["volumes"]
    wanted("what is wanted", [it["goal"] for it in volumes if it["goal"]], [])


def cases(seed):
    yield from of_rows("joined", [("its records", whole), ("killed at random moments", killed, seed)])
