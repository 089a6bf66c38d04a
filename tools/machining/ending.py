"""The end of a run: everything comes to rest, programs end, and their records are judged, with what the storage and the machines really have."""
import json
import os
import re
import sqlite3
import subprocess
import time

from .clients import volumes_of
from .parts import Found
from .system import CLIENTS, MEMBERS, NODES, PLACES, PREFIX

REST = 60  # seconds
# How programs may end: by itself only with one of these lines, when something was wrong with the machines.
LINES = re.compile(
    r"leadership lost|outcome isn't known|store not opened|device|serving ended|certificate|notes of staging paths"
)


def at_rest(system):
    """Waits until nothing is wanted of any volume: all volumes then, by name."""
    within = REST * system.patience
    until = time.monotonic() + within
    wanted = None
    while time.monotonic() < until:
        wanted = volumes_of(system, CLIENTS[0], "--wanted")
        if wanted == {}:
            volumes = volumes_of(system, CLIENTS[0])
            if volumes is not None and not any(it["goal"] for it in volumes.values()):
                return volumes
        time.sleep(0.2)
    if wanted is None:
        well = " and ".join(sorted(system.healthy())) or "no member"
        raise Found(f"no orchestrator answers within {within:.0f} seconds, and of etcd {well} is well")
    told = "; ".join(f"{name}: {it['goal']}, held up by {it['held_up_by']}, {it['trouble']}" for name, it in wanted.items())
    raise Found(f"not at rest within {within:.0f} seconds: {told}")


def not_calm(clients):
    """Where nothing went wrong, every command is done or refused."""
    return [
        f"nothing was wrong, and {words} was answered {status} {said}"
        for client in clients
        for _, _, words, status, said, clashes in client.log
        if status not in (0, 1) or "given up" in said and not clashes
    ]


def exported(system, role):
    """A record of etcd's as a file of SQLite, as csi-replay has it."""
    kept = system.below(PREFIX[role] + "/")
    parts = {key.rsplit("/", 1)[1]: value for key, value in kept.items() if key.startswith(PREFIX[role] + "/parts/")}
    left = [key for key in kept if key.startswith((f"{PREFIX[role]}/next/", f"{PREFIX[role]}/whole"))]
    if left:
        raise Found(f"a large commit is left half way: {left[:3]}")
    path = system.at(f"{role}.db")
    db = sqlite3.connect(path)
    db.execute("PRAGMA page_size = 4096")
    db.execute("PRAGMA journal_mode = WAL")
    db.execute("CREATE TABLE parts (key BLOB NOT NULL PRIMARY KEY, value BLOB NOT NULL)")
    db.executemany("INSERT INTO parts VALUES (?, ?)", [(bytes.fromhex(key), value) for key, value in sorted(parts.items())])
    db.commit()
    db.close()
    return path


def judged(system, program):
    """What is wrong with the records, by tools/operate/audit, and with what is really there; and with how programs ended."""
    lines = {}
    for name, path in [*((role, exported(system, role)) for role in PREFIX), *((it, system.at(it, "node.db")) for it in NODES)]:
        came = subprocess.run([program, "record", path], capture_output=True, text=True, check=False)
        if came.returncode:
            raise Found(f"csi-replay record of {name}: status {came.returncode}, {came.stderr.strip()}")
        lines[name] = came.stdout
    with open(system.at("records"), "w", encoding="utf-8") as file:
        file.write("".join(lines.values()))
    audit = subprocess.run([f"{system.top}/tools/operate/audit", system.at("records")], capture_output=True, text=True, check=False)
    found = []
    if audit.returncode == 1:
        found += [f"audit: {it}" for it in audit.stdout.splitlines()]
    elif audit.returncode:
        found.append(f"audit: status {audit.returncode}, {audit.stderr.strip()}")
    return found + in_world(system, {name: json.loads(line) for name, line in lines.items()}) + bad_ends(system)


def in_world(system, records):
    """What the storage and the machines have, and the records don't; or what the orchestrator has as done, and isn't there."""
    found = []
    if os.path.exists(system.at("world", "wrong")):
        with open(system.at("world", "wrong"), encoding="utf-8") as file:
            found += [f"in the world: {it.strip()}" for it in file]
    there = {(int(volume), it) for volume in os.listdir(system.at("world")) if volume.isdigit() for it in os.listdir(system.at("world", volume))}
    kept = set()
    for volume in records["controller"]["volumes"]:
        if volume["live"]:
            kept.add((volume["id"], "volume"))
        kept |= {(volume["id"], f"attached {it['node']}") for it in volume["attached"]}
    for node in NODES:
        for row in records[node]["volumes"]:
            if row["staged"]:
                kept.add((row["id"], f"staged {node}"))
            kept |= {(row["id"], f"published {node} {it['target'].replace('/', ':')}") for it in row["published"]}
    found += [f"in the world, and in no record: volume {volume} {what}" for volume, what in sorted(there - kept)]
    # At rest nothing is half done, so that whatever is in a record was done, and is there.
    return found + [f"in a record, and not in the world: volume {volume} {what}" for volume, what in sorted(kept - there)]


def late(system):
    """How many commands came late to the storage, which refused them."""
    if not os.path.exists(system.at("world", "late")):
        return 0
    with open(system.at("world", "late"), encoding="utf-8") as file:
        return len(file.readlines())


def took_over(system, role):
    """How many of a role have led, beside the first."""
    count = -1
    for name, part in system.parts.items():
        if name.startswith(role):
            with open(part.log, encoding="utf-8", errors="replace") as said:
                count += sum('"msg":"serves' in line for line in said)
    return count


def bad_ends(system):
    """How programs ended that nothing may end so."""
    found = []
    for name, part in system.parts.items():
        for end in part.ends:
            if name in MEMBERS or end.status in (0, -9, -15) or end.status in (1, 3) and LINES.search(end.line):
                continue
            found.append(f"{name} ended with {end.status}: {end.line}")
        if name.startswith(tuple(PLACES)) or name in NODES:
            with open(part.log, encoding="utf-8", errors="replace") as said:
                found += [f"{name} panicked: {line.strip()}" for line in said if "panic" in line or line.startswith("fatal error:")]
    return found
