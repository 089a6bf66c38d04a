"""What `controller` and `orchestrator` say of their CONFIG and `node` of its ID; where one is refused, no store is made and no input read."""
import os

from .frames import create, reply
from .running import as_nobody, ended, of_rows, wanted

PLAIN = b'{"greatest":1000,"nodes":[]}'
NO_CONFIG = ended(1, "config refused")
NO_FILE = ended(3, "device")
NODE = b'{"id":"%s","slots":%d}'
EMPTY_RUN = b'{"attached":[],"events":[],"frames":0,"known":[],"published":[],"safe":true,"session":1,"staged":[],"volumes":[]}\n'


def with_nodes(*nodes):
    return b'{"greatest":1000,"nodes":[%s]}' % b",".join(nodes)


def as_schedule(box, right, content):
    """The CONFIG of a schedule without events, which says more of why it is refused."""
    box.put("schedule", b'{"events":[],"config":%s}' % content)
    box.wants(right, "run", "schedule")


def refused(box, right, content, fault=2):
    """Nothing is answered, and nothing made, where there is no store and where there is one."""
    as_schedule(box, ended(1, f"schedule fault {fault} at 0") if right is NO_CONFIG else right, content)
    box.put("config", content)
    before = box.files()
    box.wants(right, "controller", "new.db", "config", given=create((1, 1), "v"))
    box.wants(right, "orchestrator", "new.db", "config", given=b"\n")
    wanted("the folder", box.files(), before)
    box.put("empty", PLAIN)
    box.wants(ended(0), "controller", "old.db", "empty")
    before = box.files()
    box.wants(right, "controller", "old.db", "config", given=create((1, 1), "v"))
    wanted("the folder", box.files(), before)


def taken(box, content):
    as_schedule(box, ended(0, out=EMPTY_RUN), content)
    box.put("config", content)
    box.wants(ended(0, out=b'{"session":1,"wanted":[]}\n'), "orchestrator", "o.db", "config")
    box.wants(ended(0, out=reply("CreateVolume", (1, 1), 0, 1)), "controller", "db", "config", given=create((1, 1), "v"))


def unread(box, path, making=None):
    """A CONFIG that can't be read."""
    if making:
        making(box)
    before = box.files()
    box.wants(NO_FILE, "controller", "db", path, given=create((1, 1), "v"))
    box.wants(NO_FILE, "orchestrator", "db", path, given=b"\n")
    wanted("the folder", box.files(), before)


def without_rights(box):
    box.put("config", PLAIN)
    os.chmod(box.at("config"), 0o600)
    box.wants(NO_FILE, "controller", "db", "config", given=create((1, 1), "v"), before=as_nobody())
    wanted("the folder", box.names(), ["config"])


def is_limit(box):
    """The greatest capacity is the configuration's, and so are the nodes; another one may be taken later."""
    box.put("small", b'{"greatest":9,"nodes":[]}')
    box.put("large", b'{"greatest":10,"nodes":[]}')
    refusal = reply("CreateVolume", (1, 1), 11, 0, "range")
    box.wants(ended(0, out=refusal), "controller", "db", "small", given=create((1, 1), "v"))
    box.wants(ended(0, out=reply("CreateVolume", (1, 2), 0, 1)), "controller", "db", "large", given=create((1, 2), "v"))


def bad_id(box, *ids):
    for it in ids:
        box.wants(NO_CONFIG, "node", "db", it)
    wanted("the folder", box.names(), [])


def good_id(box, it):
    box.wants(ended(0), "node", "db", it)
    shown = b'{"node":"%s","plugin":"node","session":0,"volumes":[]}\n' % it.encode()
    box.wants(ended(0, out=shown), "record", "db")


NODES_64 = [NODE % (b"%03d" % at + b"n" * 252, 4096) for at in range(64)]

CONFIGS = [
    ("an empty file", refused, NO_CONFIG, b"", 1),
    ("no JSON", refused, NO_CONFIG, b"{", 1),
    ("a whole schedule", refused, NO_CONFIG, b'{"config":%s,"events":[]}' % PLAIN),
    ("a list", refused, NO_CONFIG, b"[]"),
    ("no nodes", refused, NO_CONFIG, b'{"greatest":1000}'),
    ("no greatest", refused, NO_CONFIG, b'{"nodes":[]}'),
    ("a key more", refused, NO_CONFIG, b'{"greatest":1000,"nodes":[],"x":1}'),
    ("bytes behind it", refused, NO_CONFIG, PLAIN + b"0", 1),
    ("a greatest of 0", refused, NO_CONFIG, b'{"greatest":0,"nodes":[]}'),
    ("a greatest of 2^63", refused, NO_CONFIG, b'{"greatest":9223372036854775808,"nodes":[]}'),
    ("a greatest with a point", refused, NO_CONFIG, b'{"greatest":1.0,"nodes":[]}'),
    ("a greatest as a text", refused, NO_CONFIG, b'{"greatest":"1","nodes":[]}'),
    ("65 nodes", refused, NO_CONFIG, with_nodes(*NODES_64, NODE % (b"n", 1))),
    ("a node twice", refused, NO_CONFIG, with_nodes(NODE % (b"n1", 1), NODE % (b"n1", 2))),
    ("4,097 slots", refused, NO_CONFIG, with_nodes(NODE % (b"n1", 4097))),
    ("an empty id", refused, NO_CONFIG, with_nodes(NODE % (b"", 1))),
    ("an id of 256 bytes", refused, NO_CONFIG, with_nodes(NODE % (b"n" * 256, 1))),
    ("a node without slots", refused, NO_CONFIG, with_nodes(b'{"id":"n1"}')),
    ("a node's key more", refused, NO_CONFIG, with_nodes(b'{"id":"n1","slots":1,"x":1}')),
    ("no UTF-8", refused, ended(1, "not UTF-8"), b"\xff"),
    ("no UTF-8 in an id", refused, ended(1, "not UTF-8"), with_nodes(NODE % (b"\xc3", 1))),
    ("64 nodes", taken, with_nodes(*NODES_64)),
    ("other keys' order, blanks", taken, b' { "nodes" : [ { "slots" : 0 , "id" : "n" } ] ,\n "greatest" : 9223372036854775807 } '),
    ("a repeated key", taken, b'{"greatest":0,"nodes":1,"greatest":1000,"nodes":[]}'),
    ("what it limits", is_limit),
    ("missing", unread, "nothing"),
    ("an empty name", unread, ""),
    ("a folder", unread, "folder", lambda box: os.mkdir(box.at("folder"))),
    ("a link to nothing", unread, "link", lambda box: os.symlink("nothing", box.at("link"))),
    ("without rights", without_rights),
]
IDS = [
    ("refused", bad_id, "", "n" * 256, "\u00e9" * 128),
    ("of one byte", good_id, "n"),
    ("of 255 bytes", good_id, "n" * 255),
    ("that isn't ASCII", good_id, "\u00e9" * 127),
    ("of blanks", good_id, "  "),
]


def cases():
    yield from of_rows("CONFIG", CONFIGS)
    yield from of_rows("ID", IDS)
