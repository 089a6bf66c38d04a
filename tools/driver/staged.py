"""Where volumes are staged: the notes beside a node's store."""
import contextlib
import os
import sqlite3

from program import frames, stores
from program.running import wanted

from .requests import publish, stage, unstage

TABLE = "CREATE TABLE staged (volume BLOB NOT NULL PRIMARY KEY, path TEXT NOT NULL)"


def noted(box):
    """The paths of the file of a driver that isn't running."""
    with contextlib.closing(sqlite3.connect(box.at("n1.db.driver"))) as notes:
        return {int.from_bytes(volume, "big"): path for volume, path in notes.execute("SELECT volume, path FROM staged")}


def note(box, paths):
    with contextlib.closing(sqlite3.connect(box.at("n1.db.driver"))) as notes:
        notes.execute(TABLE)
        notes.executemany("INSERT INTO staged VALUES (?, ?)", [(volume.to_bytes(8, "big"), path) for volume, path in paths.items()])
        notes.commit()


def kept(box):
    """A volume has one path, from before its stage's hook until its unstage is committed."""
    driver = box.node()
    driver.wants(0, "NodeStageVolume", stage(1, path="/s"), (1, 1))
    for name, request in (("NodeStageVolume", stage(1, path="/o")), ("NodePublishVolume", publish(1, path="/o")), ("NodeUnstageVolume", unstage(1, "/o"))):
        driver.wants((9, "staged otherwise"), name, request, (1, 2))
    driver.kill()
    driver = box.node()
    driver.wants((9, "staged otherwise"), "NodeStageVolume", stage(1, path="/o"), (1, 2))
    driver.wants(0, "NodePublishVolume", publish(1, path="/s"), (1, 2))
    driver.wants((9, "/a"), "NodeUnstageVolume", unstage(1, "/s"), (1, 3))
    driver.stop()
    wanted("the notes", noted(box), {1: "/s"})
    driver = box.node("--on-stage", "/bin/false")
    driver.wants((14, "/bin/false: exit status 1"), "NodeStageVolume", stage(2, path='/s "2"'), (2, 1))
    driver.wants((9, "staged otherwise"), "NodeStageVolume", stage(2, path="/s"), (2, 2))
    driver.wants(0, "NodeUnstageVolume", unstage(2, '/s "2"'), (2, 3))
    driver.wants((14, "/bin/false: exit status 1"), "NodeStageVolume", stage(2, path="/s"), (2, 4))
    driver.stop()
    wanted("the notes", noted(box), {1: "/s", 2: "/s"})
    driver = box.node()
    driver.wants(0, "NodeUnstageVolume", unstage(2, "/s"), (2, 5))
    driver.stop()
    wanted("the notes", noted(box), {1: "/s"})


def mended(box):
    """Paths count of what the store has staged, and no others: those of a stage or an unstage that was cut short go."""
    head = stores.node_head("n1", 2)
    rows = [
        stores.staged(1, None, stores.kept("NodeUnstageVolume", (2, 5))),
        stores.staged(3, frames.block(1), stores.kept("NodeStageVolume", (2, 4))),
        stores.staged(4, frames.block(1), stores.kept("NodeStageVolume", (2, 6))),
    ]
    stores.make(box.at("n1.db"), [head, *rows])
    note(box, {1: "/1", 3: "/3", 9: "/9"})
    driver = box.node()
    driver.wants((9, "staged otherwise"), "NodeStageVolume", stage(3, path="/o"), (2, 7))
    for volume in (1, 4, 9):  # 4 has none: the next stage sets it
        driver.wants(0, "NodeStageVolume", stage(volume, path="/o"), (2, 7))
        driver.wants((9, "staged otherwise"), "NodeStageVolume", stage(volume, path="/p"), (2, 8))
    driver.stop()
    wanted("the notes", noted(box), {1: "/o", 3: "/3", 4: "/o", 9: "/o"})
    box.replay("node", box.at("n1.db"), "n1", given=frames.unstage((2, 9), 1) + frames.unstage((2, 9), 9))
    box.node().stop()
    wanted("the notes", noted(box), {3: "/3", 4: "/o"})


def unwritten(box):
    """Where the notes can't be read the driver doesn't start."""
    box.put("n1.db.driver", "no database, but a text that is long enough for a head of one hundred bytes " * 2)
    driver = box.node(serves=False)
    wanted("damaged notes", (driver.close(), driver.said[:47]), (1, b"csi-driver: the notes of staging paths: file is"))
    os.remove(box.at("n1.db.driver"))
    with contextlib.closing(sqlite3.connect(box.at("n1.db.driver"))) as notes:
        notes.execute("CREATE TABLE other (x)")
    driver = box.node(serves=False)
    wanted("other notes", (driver.close(), driver.said), (1, b"csi-driver: the notes of staging paths: it has other tables\n"))


def cases(_drawn, _seed):
    yield "staging paths: one for each volume", kept
    yield "staging paths: after a kill", mended
    yield "staging paths: notes that aren't", unwritten
