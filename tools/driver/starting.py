"""How a driver starts, over which stores, and when it doesn't."""
import os
import subprocess

from program import frames, stores
from program.frames import block
from program.running import BARE, LIMIT, wanted

from .box import put_to_sleep
from .requests import attach, create, publish, stage, unstage

HEAD, ROW = stores.controller_head, stores.volume


def older(version):
    """A controller's record of an earlier version: a volume, and one that is forgotten, since its last call is of an earlier session."""
    gone = ROW(2, "w", stores.kept("DeleteVolume", (0, 1)), live=False, version=version)
    return [HEAD(3, 1, version), ROW(1, "v", stores.kept("CreateVolume", (1, 1), 0, 1), version=version), gone]


RENEWED = [HEAD(3, 1), ROW(1, "v", stores.kept("CreateVolume", (1, 1), 0, 1))]


def earlier_versions(box):
    """A store of an earlier version becomes one of the present version, in one commit, and is served."""
    for version in (1, 2):
        store = f"{version}.db"
        stores.make(box.at(store), older(version))
        driver = box.controller(store=store)
        driver.wants(0, "CreateVolume", create("v"), (1, 1))
        driver.kill()
        wanted("the store", stores.parts_of(box.at(store)), RENEWED)


def handed_on(box):
    """A store goes from the driver to csi-replay and back."""
    driver = box.controller()
    driver.wants(0, "CreateVolume", create("v"), (1, 1))
    driver.kill()
    status, out, error = box.replay("controller", box.at("controller.db"), box.at("config"), given=frames.create((1, 1), "v") + frames.attach((1, 2), 1, "n1"))
    right = frames.reply("CreateVolume", (1, 1), 0, 1) + frames.reply("ControllerPublishVolume", (1, 2))
    wanted("csi-replay over its store", (status, out, error), (0, right, b""))
    driver = box.controller()
    driver.wants(0, "ControllerPublishVolume", attach(1), (1, 2))
    driver.wants((9, "n1"), "ControllerPublishVolume", attach(1, "n2"), (1, 3))


def joined(box):
    """A node joins with a session, and is run with it again; what was under way to the lost node of its id is stale."""
    late = [("NodePublishVolume", publish(1), (1, 4)), ("NodeStageVolume", stage(1), (1, 3)), ("NodeUnstageVolume", unstage(7), (0, 9))]

    def none_done(driver):
        for call in late:
            driver.wants((10, "stale"), *call)

    driver = box.node("--on-stage", "/bin/false", session=2)
    none_done(driver)
    driver.kill()
    wanted("a new store", stores.parts_of(box.at("n1.db")), [stores.node_head("n1", 2)])
    driver = box.node("--on-stage", "/bin/false", session=2)
    driver.wants((14, "/bin/false: exit status 1"), "NodeStageVolume", stage(1), (2, 2))
    none_done(driver)
    driver.kill()
    driver = box.node(session=2)
    driver.wants(0, "NodeStageVolume", stage(1), (2, 3))
    driver.wants(0, "NodePublishVolume", publish(1), (2, 4))
    driver.stop()
    before = stores.parts_of(box.at("n1.db"))
    for session in (2, 1, 0, None):  # a check that passes
        driver = box.node(session=session)
        none_done(driver)
        driver.wants(0, "NodePublishVolume", publish(1), (2, 4))
        driver.stop()
    wanted("the parts", stores.parts_of(box.at("n1.db")), before)


def sessions_above(box):
    """How far a call's session may be above the latest one is counted from that of the joining."""
    for name, session, status in (("n1", None, (9, "session")), ("n2", 10000000, (0, ""))):
        driver = box.node(node=name, session=session)
        driver.wants(status, "NodeStageVolume", stage(1), (10000001, 1))


def earlier_session(box):
    """A lost node's store, in each version: refused under a later session than its own, and the file stays byte for byte."""
    last = [stores.kept("NodeStageVolume", (4, 2)), stores.kept("NodeUnstageVolume", (2, 9))]
    for version in (1, 2, 3):
        path = box.at("n1.db")
        rows = [stores.staged(1, block(1), last[0], version=version)]
        if version < 3:
            rows.append(stores.staged(2, None, last[1], version=version))  # forgotten where the store is rewritten
        stores.make(path, [stores.node_head("n1", 4, version), *rows], stores.TABLE, "PRAGMA journal_mode=WAL")
        before = content(path)
        for session in (5, 2**64 - 1):
            driver = box.node(session=session, serves=False)
            wanted(f"version {version}", (driver.close(), driver.said), (1, b"csi-driver: store of an earlier session\n"))
            wanted("the file", content(path), before)
            wanted("the folder", [it for it in sorted(os.listdir(box.folder)) if it.startswith("n1.db")], ["n1.db"])
        wanted("another node", started(box, ["node", "--endpoint", f"unix://{box.at('d/s')}", path, "n2", "5"]), (1, "csi-driver: record fault\n"))
        wanted("the file", content(path), before)
        driver = box.node(session=4)
        driver.wants(0, "NodeStageVolume", stage(1), (4, 2))
        driver.stop()
        wanted("the parts then", stores.parts_of(path), [stores.node_head("n1", 4), stores.staged(1, block(1), last[0])])
        for it in (path, f"{path}.driver"):
            os.remove(it)


def content(path):
    with open(path, "rb") as file:
        return file.read()


def refused(box):
    """It ends with a status and a line, and leaves what is no store as it was."""
    stores.make(box.at("other.db"), [], "CREATE TABLE parts (key BLOB NOT NULL PRIMARY KEY, value BLOB NOT NULL)", "CREATE TABLE more (x)")
    stores.make(box.at("node.db"), [stores.node_head("n1", 1)])
    stores.make(box.at("damaged.db"), [HEAD(1, 0), ROW(1, "v", stores.kept("CreateVolume", (1, 1), 0, 1))])
    stores.make(box.at("empty.db"), [(HEAD(1, 0)[0], b"")])
    box.put("text.db", "no database, but a text that is long enough for a head of one hundred bytes " * 2)
    box.put("bad", "{}")
    rows = [
        ("other.db", "config", 3, "store not opened: it has other tables"),
        ("text.db", "config", 3, "store not opened: "),
        ("node.db", "config", 1, "record fault"),
        ("damaged.db", "config", 1, "record fault"),
        ("empty.db", "config", 1, "record fault"),
        ("new.db", "bad", 1, "config refused"),
        ("new.db", "missing", 3, "device: "),
    ]
    for store, config, status, line in rows:
        path = box.at(store)
        before = content(path) if os.path.exists(path) else None
        came = started(box, ["controller", "--endpoint", f"unix://{box.at('d/s')}", path, box.at(config)])
        wanted(f"{store} {config}", (came[0], came[1][: len(line) + 12]), (status, f"csi-driver: {line}"))
        if before is not None and status == 3:
            wanted(store, content(path) == before, True)
    long = ["node", "--endpoint", f"unix://{box.at('d/s')}", box.at("new.db"), "n" * 256]
    wanted("an id that is too long", started(box, long), (1, "csi-driver: config refused\n"))
    wanted("that a store was made", os.path.exists(box.at("new.db")), False)
    words = [[], ["other"], ["controller"], ["controller", "a"], ["controller", "--numbers", "none", "a", "b"], ["node", "--etcd", "x", "a", "b"]]
    words += [["controller", "a", "b", "1"], ["node", "a", "b", "1", "1"], ["node", "--numbers", "arrival", "a", "b", "1"]]
    words += [["node", "a", "b", it] for it in ("", "01", "+1", "-1", "1.0", " 1", "0x1", "s", "18446744073709551616", "--hooks")]
    words += [["controller", "--name", it, "a", "b"] for it in ("", "-a", "a.", "a_b", "a" * 64)]
    words += [["node", f"--{name}", it, "a", "b"] for name, it in (("hook-seconds", "0"), ("max-volumes", "-1"), ("hooks", "some"))]
    words += [["controller", "--prefix", "/t", "a", "b"], ["controller", "--etcd-ca", "f", "a", "b"], ["controller", "--etcd", "http://127.0.0.1:1", "b"]]
    words += [["controller", "--etcd", "https://127.0.0.1:1", "--prefix", "/t", *it, "b"] for it in (["--lease-seconds", "0"], ["--etcd-ca", "f"])]
    for it in words:
        wanted(f"{it}", started(box, [*it[:1], "--endpoint", f"unix://{box.at('d/s')}", *it[1:]])[0], 2)


def started(box, words):
    ran = subprocess.run([f"{box.built}/csi-driver", *words], env=BARE, capture_output=True, timeout=LIMIT, check=False)
    return ran.returncode, ran.stderr.decode()


def client(box):
    """csi-client, by the JSON of the proto."""
    driver = box.controller()
    words = [f"{box.built}/csi-client", "-endpoint", f"unix://{driver.socket}"]
    usage = "csi-client: usage: csi-client [-endpoint unix:///PATH] [-number SESSION.CALL] [-seconds N] CALL [REQUEST]\n"
    asked = '{"name":"v","capacityRange":{"requiredBytes":"10"},"volumeCapabilities":[{"block":{},"accessMode":{"mode":"SINGLE_NODE_WRITER"}}]}'
    for more, status, out, error in (
        (["-number", "1.1", "CreateVolume", asked], 0, '{"volume":{"capacityBytes":"10","volumeId":"1"}}\n', ""),
        (["CreateVolume", asked], 9, "", 'csi-client: 9 FailedPrecondition "number"\n'),
        (["Probe"], 0, '{"ready":true}\n', ""),
        (["-number", "1.2", "DeleteVolume", '{"volumeId":"1"}'], 0, "{}\n", ""),
        (["ListSnapshots"], 12, "", 'csi-client: 12 Unimplemented "no call ListSnapshots"\n'),
        (["Probe", "{}", "{}"], 64, "", usage),
        (["-other", "Probe"], 64, "", usage),
    ):
        ran = subprocess.run([*words, *more], capture_output=True, timeout=LIMIT, check=False, text=True)
        wanted(f"{more}", (ran.returncode, ran.stdout, ran.stderr), (status, out, error))
    with open("/dev/full", "wb") as full:
        ran = subprocess.run([*words, "Probe"], stdout=full, stderr=subprocess.PIPE, timeout=LIMIT, check=False, text=True)
    wanted("a full disk", (ran.returncode, ran.stderr[:54]), (15, "csi-client: 15 DataLoss \"the response can't be printed"))
    put_to_sleep(driver.process)
    ran = subprocess.run([*words, "-seconds", "1", "Probe"], capture_output=True, timeout=LIMIT, check=False, text=True)
    wanted("a driver that sleeps", (ran.returncode, ran.stderr[:30]), (4, "csi-client: 4 DeadlineExceeded"))


def cases(_drawn, _seed):
    yield "starts: a record of an earlier version", earlier_versions
    yield "starts: over a store of csi-replay", handed_on
    yield "starts: with a session", joined
    yield "starts: sessions above that of the joining", sessions_above
    yield "starts: a store of an earlier session", earlier_session
    yield "starts: refused", refused
    yield "starts: the client", client
