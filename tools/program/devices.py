"""Devices that fail: a full disk at each write of DB and of its log, a closed or full output, an input that can't be read."""
import collections
import os
import re
import resource
import signal
import subprocess

from . import stores
from .plugins import CALLS, CONFIG, NOT_OPENED, PLUGINS, given_of, replies_of
from .running import Case, LeftOut, ended, need, of_rows, wanted
from .talks import first
from .whole import APART, TOGETHER, WHOLES, whole_of

DEVICE = ended(3, "device")
# In which groups calls come where a device fails, or the program is killed, at each call of the system, by the store that it runs over.
WAYS = {"new": {"in two groups": [6]}, "used": {"five alone, and the rest": [1] * 5, "all together": TOGETHER}, "log": {"in three groups": [1, 3]}}
CREATE = b'{"create":{"capabilities":[],"limit":0,"name":"v","required":1}}'
SCHEDULE = b'{"config":{"greatest":1,"nodes":[]},"events":[%s]}' % CREATE
# The calls of the system that write, cut or sync; the program is to use the first five alone.
TRACED = "write,pwrite64,ftruncate,fsync,fdatasync,writev,pwritev,pwritev2,truncate,fallocate,sync_file_range,msync,sync,syncfs,copy_file_range,sendfile"


# ---- streams


def prepare(box):
    box.put("config", CONFIG)
    box.put("frames", given_of(CALLS))
    box.put("schedule", SCHEDULE)
    stores.make(box.at("old.db"), stores.CONTROLLER)


def with_output():
    """Words of each subcommand, which write something."""
    yield ["answer", "frames"]
    yield ["show", "frames"]
    for name in ("run", "frames", "draw"):
        yield [name, "schedule"]
    yield ["record", "old.db"]
    yield ["--help"]
    yield ["node", "--help"]
    yield ["orchestrator", "--help"]
    yield ["controller", "c.db", "config"]
    yield ["node", "n.db", "n1"]
    yield ["orchestrator", "o.db", "config"]


def closed_pipe():
    """A pipe that nobody reads."""
    reading, writing = os.pipe()
    os.close(reading)
    return writing


def output(box, how):
    """Each ends so where its output fails; a plugin's commit of one call stays, and another run replies."""
    prepare(box)
    for words in with_output():
        given = {} if words[0] not in PLUGINS or words[1] == "--help" else {"given": given_of(PLUGINS[words[0]][1][:1])}
        box.wants(DEVICE, *words, **given, **how())
        if len(words) > 2:
            box.is_closed(words[1], DEVICE)
    for name, (word, pairs) in PLUGINS.items():
        box.wants(ended(0, out=replies_of(pairs)), name, f"{name[0]}.db", word, given=given_of(pairs))


def to_full():
    if not os.path.exists("/dev/full"):
        raise LeftOut("there is no /dev/full")
    return {"stdout": os.open("/dev/full", os.O_WRONLY)}


def to_closed():
    """The descriptor itself is closed."""
    return {"stdout": None, "preexec_fn": lambda: os.close(1)}


def no_output(box):
    """What writes nothing needs no output."""
    prepare(box)
    box.put("empty", b"")
    full = os.open("/dev/full", os.O_WRONLY)
    for words in (["answer", "empty"], ["show", "empty"], ["controller", "c.db", "config"], ["node", "n.db", "n1"]):
        box.wants(ended(0), *words, stdout=full)
    box.wants(ended(2, "usage"), "show", stdout=full)
    os.close(full)


def input_fails(box):
    """A plugin whose input can't be read; its store is made."""
    prepare(box)
    folder = os.open(box.folder, os.O_RDONLY)
    writing = os.open("/dev/null", os.O_WRONLY)
    for name, (word, _) in PLUGINS.items():
        for at, how in enumerate(({"stdin": folder}, {"stdin": writing}, {"stdin": None, "preexec_fn": lambda: os.close(0)})):
            box.wants(DEVICE, name, f"{name}{at}.db", word, **how)
            box.is_closed(f"{name}{at}.db", DEVICE)
            told = box.run("record", f"{name}{at}.db")
            wanted("the store", (told.status, b'"session":0' in told.out), (0, True))
    box.wants(ended(3, "device", first(1)), "orchestrator", "o.db", "config", stdin=folder)
    box.is_closed("o.db", DEVICE)
    wanted("the orchestrator's store", b'"session":1' in box.run("record", "o.db").out, True)
    os.close(folder)
    os.close(writing)


def error_closed(box):
    """The status is the same where no line can be written, and nothing lands in DB."""
    prepare(box)
    rows = [(1, ["show", "schedule"]), (2, ["show"]), (3, ["show", "nothing"]), (3, ["record", "schedule"]), (1, ["node", "old.db", "n1"])]
    for status, words in rows:
        for how in ({"preexec_fn": lambda: os.close(2)}, {"stderr": os.open("/dev/full", os.O_WRONLY)}):
            ran = box.run(*words, **{"stderr": None, **how})
            wanted(f"{words}", ran.status, status)
    wanted("the store", stores.parts_of(box.at("old.db")), stores.CONTROLLER)


def all_closed(box):
    """A plugin without standard streams leaves a store that is whole."""
    prepare(box)

    def close():
        for it in (0, 1, 2):
            os.close(it)

    ran = box.run("controller", "c.db", "config", stdin=None, stdout=None, stderr=None, preexec_fn=close)
    wanted("the status", ran.status, 3)
    box.is_closed("c.db", ran)
    box.wants(ended(0, out=stores.NEW_CONTROLLER_LINE), "record", "c.db")


# ---- a full disk


def judged(whole, told, path, ran, ends):
    """How a run over a failing device may end: with all done, and then the file alone tells the store; or so, with all that was replied."""
    if ran.status == 0:
        wanted(told, ran, ended(0, out=whole.right()))
        wanted(f"{told}: the parts of the file alone", whole.parts(path, alone=True), whole.states[-1])
    else:
        is_known = ran.error in (DEVICE.error, NOT_OPENED.error) and ran.status == 3
        wanted(f"{told}: it ended as {ran}, so as device or not opened", is_known, True)
        if ran.error == NOT_OPENED.error:
            wanted(f"{told}: not opened, so without replies", ran.out, b"")
    # What the file alone tells, if not all was done: a record, or why it is none.
    whole.box.put("alone.db", whole.box.get(path) if os.path.exists(whole.box.at(path)) else b"")
    alone = whole.box.run("record", "alone.db")
    is_known = alone.status == 0 or alone in (NOT_OPENED, DEVICE) or alone.error.startswith(b"csi-replay: record fault at ")
    wanted(f"{told}: record of the file alone gave {alone}", is_known and (alone.status == 0) == (alone.out != b""), True)
    whole.judge(told, path, ran.out, ends)


def limited(size):
    """No file may have more bytes; a write that exceeds this is refused."""

    def set_limit():
        signal.signal(signal.SIGXFSZ, signal.SIG_IGN)
        resource.setrlimit(resource.RLIMIT_FSIZE, (size, size))

    return set_limit


def by_limit(box, plugin, over):
    """A limit on the size of files, at each size at which a write fails first."""
    whole = whole_of(box, plugin, over)
    groups, ends = whole.ends(TOGETHER), set()
    for size in sorted({0, 31, 4096, *range(4095, whole.largest, 4120 * 2), whole.largest - 1}):
        whole.fresh("db")
        ran = box.run(plugin, "db", whole.word, given=whole.pieces(groups), preexec_fn=limited(size))
        judged(whole, f"files of {size} bytes", "db", ran, groups)
        ends.add(ran.error)
    # A new store's log is made in one piece, so that it isn't opened without room for that.
    wanted(f"one of the lines seen, {ends}, is wanted", (NOT_OPENED if over == "new" else DEVICE).error in ends, True)


def by_disk(box, plugin):
    """A small file system that is full: commits still fit into the log's room, and putting it back into DB doesn't."""
    if os.geteuid() != 0:
        raise LeftOut("only root may mount a file system")
    mount = need("mount")
    os.mkdir(box.at("disk"))
    if subprocess.run([mount, "-t", "tmpfs", "-o", "size=2m", "tmpfs", box.at("disk")], capture_output=True, check=False).returncode != 0:
        raise LeftOut("no file system may be mounted here")
    try:
        whole = whole_of(box, plugin, "new")
        groups = whole.ends(APART)
        room = whole.largest // 4096 + 4
        ends = {}
        for pages in sorted({*range(8), *range(8, room, 7), *range(room - 6, room + 6)}):
            for name in os.listdir(box.at("disk")):
                os.remove(box.at(f"disk/{name}"))
            space = os.statvfs(box.at("disk"))
            with open(box.at("disk/filler"), "wb") as file:
                file.write(bytes((space.f_bavail - pages) * space.f_frsize))
            ran = box.run(plugin, "disk/db", whole.word, given=whole.pieces(groups))
            os.remove(box.at("disk/filler"))
            judged(whole, f"{pages} pages left", "disk/db", ran, groups)
            ends.setdefault((ran.status, ran.error), []).append(pages)
        wanted("the ends seen", sorted(ends), sorted([(0, b""), (3, DEVICE.error), (3, NOT_OPENED.error)]))
    finally:
        subprocess.run(["umount", box.at("disk")], check=True)


def traced(box, plugin, word, path, given, inject=None):
    """A plugin's or an orchestrator's run under strace, and the calls of the system that write, cut or sync."""
    return traced_by(box, (plugin, path, word), inject, given=given)


def traced_by(box, words, inject=None, **how):
    """The same of a run with any words."""
    before = [need("strace"), "-o", box.at("trace"), "-e", f"trace={TRACED}"]
    if inject:
        before += ["-e", f"inject={inject}"]
    ran = box.run(*words, before=before, **how)
    calls = re.findall(rb"^(\w+)\(", box.get("trace"), re.MULTILINE)
    return ran, [call.decode() for call in calls]


def can_trace(box):
    ran = subprocess.run([need("strace"), "-o", box.at("trace"), "true"], capture_output=True, check=False)
    if ran.returncode != 0:
        raise LeftOut("strace may trace nothing here")


def counted(calls):
    """How many there are of each."""
    return dict(sorted(collections.Counter(calls).items()))


def at_each(box, plugin, over, sizes):
    """Each call that writes, cuts or syncs fails, one a run: no room is left, or the device is gone."""
    can_trace(box)
    whole = whole_of(box, plugin, over)
    ends = whole.ends(sizes)
    ran, calls = traced(box, plugin, whole.word, whole.fresh("db"), whole.pieces(ends))
    wanted("the run that is traced", ran, ended(0, out=whole.right()))
    writing = {"pwrite64": "ENOSPC", "ftruncate": "EIO", "fsync": "EIO", "fdatasync": "EIO"}
    wanted("calls that write otherwise", sorted({*calls} - {*writing, "write"}), [])
    for name, error in writing.items():
        for at in range(1, counted(calls).get(name, 0) + 1):
            inject = f"{name}:error={error}:when={at}"
            ran, _ = traced(box, plugin, whole.word, whole.fresh("db"), whole.pieces(ends), inject)
            judged(whole, inject, "db", ran, ends)
            wanted(f"{inject}: it is told", ran.status, 3)
            if at % 3 != 1:
                continue
            # From there on the device stays full.
            inject = f"{name}:error={error}:when={at}+"
            ran, _ = traced(box, plugin, whole.word, whole.fresh("db"), whole.pieces(ends), inject)
            judged(whole, inject, "db", ran, ends)
            wanted(f"{inject}: it is told", ran.status, 3)


def each_read(box, plugin, over, sizes):
    """Each read of the store fails, one a run, or all from there on."""
    can_trace(box)
    whole = whole_of(box, plugin, over)
    ends = whole.ends(sizes)

    def run(inject=()):
        """A run whose reads of these two files alone are traced."""
        path = whole.fresh("db")
        before = [need("strace"), "-o", box.at("trace"), "-P", box.at(path), "-P", box.at(f"{path}-wal"), "-e", "trace=read,pread64", *inject]
        ran = box.run(plugin, path, whole.word, given=whole.pieces(ends), before=before)
        return ran, counted(it.decode() for it in re.findall(rb"^(\w+)\(", box.get("trace"), re.MULTILINE))

    ran, counts = run()
    wanted("the run that is traced", ran, ended(0, out=whole.right()))
    wanted(f"{counts}: whether it reads its store", sum(counts.values()) > 2, True)
    for name, count in counts.items():
        for at in range(1, count + 1):
            inject = f"{name}:error=EIO:when={at}{'+' if at % 2 else ''}"
            ran, _ = run(("-e", f"inject={inject}"))
            judged(whole, inject, "db", ran, ends)


def cases():
    rows = [("full", output, to_full), ("a pipe that nobody reads", output, lambda: {"stdout": closed_pipe()}), ("closed", output, to_closed)]
    yield from of_rows("output", rows)
    yield Case("output: nothing to write", no_output)
    yield Case("input: it can't be read", input_fails)
    yield Case("standard error: closed or full", error_closed)
    yield Case("all streams closed", all_closed)
    for plugin in WHOLES:
        yield from of_rows(f"full disk: {plugin}", [("a small file system", by_disk, plugin)])
        for over, ways in WAYS.items():
            rows = [("a limit", by_limit, plugin, over)]
            rows += [(f"at each call, {how}", at_each, plugin, over, sizes) for how, sizes in ways.items()]
            if over == "log":
                rows.append(("at each read", each_read, plugin, over, TOGETHER))
            yield from of_rows(f"full disk: {plugin} over a store that is {over}", rows)
