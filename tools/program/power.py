"""The power fails while a plugin or an orchestrator has its store open: of what was written since a file was synced last nothing is there then, in one file
or in both; the last write was cut short, or has a sector as it was; or some sectors of all that was written are as they were. What it is given comes in
groups, which are carried out whole or not at all, and what was answered stays.

One run is traced with what each call writes. From that come the files as they may be behind each of its calls."""
import itertools
import os
import random
import re
from dataclasses import dataclass

from .devices import TRACED, can_trace, need
from .plugins import PLUGINS
from .running import ended, of_rows, wanted
from .whole import APART, TOGETHER, WHOLES, whole_of

SECTOR = 512
# In which groups calls come, by the store that it runs over.
WAYS = {"new": [6], "used": [1] * 5, "log": [1, 3]}
SCRIPTED = {"one by one": APART, "two by two": [2, 2], "all together": TOGETHER}
ROW = re.compile(rb'^(\w+)\(\d+<([^>]*)>(?:, "([^"]*)")?([^)]*)\) += (-?\d+)', re.MULTILINE)


@dataclass
class Call:
    """A call of the system, the file that it is for, what it writes, and its numbers: of a write its length and its place, else a length."""

    name: str
    path: str
    content: bytes
    numbers: list


def bytes_of(text):
    return bytes.fromhex(text.replace(b"\\x", b"").decode())


def calls_of(trace):
    for name, path, content, rest, came in ROW.findall(trace):
        call = Call(name.decode(), bytes_of(path).decode(), bytes_of(content), [int(it) for it in re.findall(rb"\d+", rest)])
        wanted(f"{call.name} of {call.path}: what it answers", int(came), len(call.content))
        yield call


class File:
    """A file of a store: its bytes when it was synced last, and the writes since."""

    def __init__(self, content):
        self.synced, self.writes = content, []

    def take(self, call):
        if call.name in ("fsync", "fdatasync"):
            self.synced, self.writes = self.after(self.writes), []
        elif call.name == "write":  # at its end
            self.writes.append(Call("pwrite64", call.path, call.content, [len(call.content), len(self.after(self.writes))]))
        else:
            self.writes.append(call)

    def after(self, writes):
        """Its bytes where these are done."""
        content = bytearray(self.synced)
        for call in writes:
            at = call.numbers[-1]
            if call.name == "ftruncate":
                del content[at:]
            content.extend(bytes(max(at - len(content), 0)))
            content[at : at + len(call.content)] = call.content
        return bytes(content)

    def cut(self, place, size):
        """With its last write done, but for so many bytes of it from a place on, which are as they were."""
        before, after = self.after(self.writes[:-1]), bytearray(self.after(self.writes))
        at, last = self.writes[-1].numbers[-1], self.writes[-1]
        front = at + place % len(last.content)
        end = min(front + size, at + len(last.content))
        after[front:end] = before[front:end].ljust(end - front, b"\0")
        return bytes(after)

    def mixed(self, drawn):
        """With some sectors of what was written, and of others what was there."""
        before, after = self.synced, bytearray(self.after(self.writes))
        for at in range(0, len(after), SECTOR):
            end = min(at + SECTOR, len(after))
            if drawn.random() < 1 / 2:
                after[at:end] = before[at:end].ljust(end - at, b"\0")
        return bytes(after)


class Disk:
    """The files of a store while a run goes on, and what they may be where the power fails."""

    def __init__(self, box, path, seed):
        self.box, self.path, self.drawn = box, path, random.Random(seed)
        self.files = {box.at(name): File(box.get(name)) for name in (path, f"{path}-wal") if os.path.exists(box.at(name))}
        self.seen = set()

    def take(self, call):
        """Whether the call is one at a file of the store."""
        if call.path not in (self.box.at(self.path), self.box.at(f"{self.path}-wal")):
            return False
        self.files.setdefault(call.path, File(b"")).take(call)
        return True

    def states(self, call, is_killed):
        """What may be left behind this call, each time another; and where the program alone stops there, all that was written."""
        whole = {name: file.after(file.writes) for name, file in self.files.items()}
        synced = {name: file.synced for name, file in self.files.items()}
        for kept in itertools.product((synced, whole), repeat=len(whole)):
            if synced in kept or is_killed:
                yield {name: it[name] for name, it in zip(whole, kept)}
        if call.name == "pwrite64" and self.files[call.path].writes:
            file, place = self.files[call.path], self.drawn.randrange(1 << 16)
            yield {**whole, call.path: file.cut(place, self.drawn.choice((SECTOR, len(call.content))))}
            yield {name: it.mixed(self.drawn) for name, it in self.files.items()}

    def lay(self, state):
        """Puts these files there; whether that is worth while: they are others than before, behind other answers too."""
        key = hash(tuple(sorted(state.items())))
        if key in self.seen:
            return False
        self.seen.add(key)
        for end in ("", "-wal", "-shm", "-journal"):
            name = self.box.at(self.path + end)
            if os.path.exists(name):
                os.remove(name)
            if name in state:
                self.box.put(self.path + end, state[name])
        return True


def noted(box, words, given):
    """A run under strace, and its calls that write, cut or sync."""
    before = [need("strace"), "-o", box.at("trace"), "-y", "-xx", "-s", str(1 << 20), "-e", f"trace={TRACED}"]
    ran = box.run(*words, before=before, given=given)
    return ran, list(calls_of(box.get("trace")))


def at_each(box, plugin, over, sizes, seed, is_killed=False):
    """Behind each call of the system."""
    can_trace(box)
    whole = whole_of(box, plugin, over)
    ends, path = whole.ends(sizes), whole.fresh("db")
    disk, out = Disk(box, path, seed), b""
    ran, calls = noted(box, (plugin, path, whole.word), whole.pieces(ends))
    wanted("the run that is traced", ran, ended(0, out=whole.right()))
    for at, call in enumerate(calls, 1):
        if not disk.take(call):
            out += call.content
            disk.seen.clear()  # more was answered
        for state in disk.states(call, is_killed):
            if disk.lay(state):
                whole.judge(f"seed {seed}, behind call {at} of {len(calls)}, a {call.name}", path, out, ends)
    wanted("what was written elsewhere", out, whole.right())


def cases(seed):
    for plugin in WHOLES:
        rows = [(over, at_each, plugin, over, sizes, seed) for over, sizes in WAYS.items()]
        yield from of_rows(f"power fails: {plugin} over a store that is", rows)
    yield from of_rows("power fails, or a kill: orchestrator", [("midway", at_each, "orchestrator", "midway", TOGETHER, seed, True)])
    for plugin in PLUGINS:
        rows = [(f"version {it}", at_each, plugin, f"version {it}", TOGETHER, seed, True) for it in (1, 2)]
        yield from of_rows(f"power fails, or a kill: {plugin} over a store of", rows)
    rows = [(how, at_each, "controller", "script", sizes, seed, True) for how, sizes in SCRIPTED.items()]
    yield from of_rows("power fails, or a kill: controller, six calls", rows)
