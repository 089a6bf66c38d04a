"""The words of the command line, and files that can't be read."""
import os

from .frames import create
from .running import as_nobody, ended, of_rows, wanted

ON_FILES = ("answer", "show", "run", "frames", "draw")
TAKEN = {**{name: (1,) for name in ON_FILES}, "controller": (2,), "node": (2, 3), "orchestrator": (2, 3), "record": (1,), "recover": (4, 5), "recover-controller": (4, 5)}
USAGE = ended(2, "usage")


def prepare(box):
    box.put("f", create((1, 1), "v"))
    box.put("config", b'{"greatest":1000,"nodes":[]}')
    return box.files()


def refused(box, *words):
    """No command: nothing is done, and no file made."""
    before = prepare(box)
    box.wants(USAGE, *words)
    wanted("the folder", box.files(), before)


def counts(box):
    """Each subcommand with any other count of words than it takes; more than five, which `recover` takes, aren't asked for."""
    before = prepare(box)
    for name, right in TAKEN.items():
        for count in range(6):
            if count not in right:
                box.wants(USAGE, name, *["f", "config", "n1", "f", "f"][:count])
    wanted("the folder", box.files(), before)


def hyphens(box):
    """A file whose name begins with a hyphen stands behind `--`, but for one that is called `-`."""
    line = ended(0, out=b'0 1.1 controller CreateVolume "v" 10 0 block/1\n')
    for name in ("-", "-f", "-h", "--help", "--", " "):
        box.put(name, create((1, 1), "v"))
        box.wants(line, "show", "--", name)
    box.wants(line, "show", "-")
    box.wants(line, "show", " ")
    for name in ("-f", "--"):
        box.wants(USAGE, "show", name)


def unreadable(box, path, making=None):
    """Each of the five ends so on a file that isn't there, or can't be read."""
    if making:
        making(box.at(path))
    for name in ON_FILES:
        box.wants(ended(3, "device"), name, path)


def without_rights(box):
    before = as_nobody()
    box.put("f", create((1, 1), "v"))
    os.chmod(box.at("f"), 0o600)
    for name in ON_FILES:
        box.wants(ended(3, "device"), name, "f", before=before)


def no_session(box):
    """Words that are no session, and with which no node joins, whatever the id; and words that are one."""
    before = prepare(box)
    for word in NO_SESSIONS:
        for node in ("n1", ""):
            box.wants(USAGE, "node", "db", node, word)
    for word in NEGATIVE:
        box.wants(USAGE, "node", "db", "n1", word)
        box.wants(USAGE, "node", "--", "db", "n1", word)
    wanted("the folder", box.files(), before)
    for at, word in enumerate(SESSIONS):
        box.wants(ended(0), "node", f"db{at}", "n1", word)
        box.wants(ended(0, out=b'{"node":"n1","plugin":"node","session":%s,"volumes":[]}\n' % word.encode()), "record", f"db{at}")
    box.wants(ended(1, "config refused"), "node", "db", "", "2")


def no_beginning(box):
    """Words that are no session, and in which no orchestrator is opened, whatever its files; and words that are one."""
    before = prepare(box)
    for word in NO_SESSIONS:
        for config in ("config", "nothing"):
            box.wants(USAGE, "orchestrator", "db", config, word)
    for word in NEGATIVE:
        box.wants(USAGE, "orchestrator", "db", "config", word)
        box.wants(USAGE, "orchestrator", "--", "db", "config", word)
    wanted("the folder", box.files(), before)
    for at, word in enumerate(SESSIONS):
        begun = max(int(word), 1)
        box.wants(ended(0, out=b'{"session":%d,"wanted":[]}\n' % begun), "orchestrator", f"db{at}", "config", word)
        box.wants(ended(0, out=b'{"nodes":[],"plugin":"orchestrator","session":%d,"volumes":[]}\n' % begun), "record", f"db{at}")
    box.wants(ended(3, "device"), "orchestrator", "db", "nothing", "2")


NO_SESSIONS = [
    *("", "n1", "00", "01", "002", "+2", " 2", "2 ", "2\n", "\t2", "2.0", "2e0", "0x2", "1_0", "1,0", "2-", "\u0662", "\uff12"),
    *("18446744073709551616", "018446744073709551615", "28446744073709551615", "99999999999999999999", "1" * 100),
]
NEGATIVE = ["-1", "-0", "--2"]
SESSIONS = ["0", "1", "9", "10", "4294967296", "18446744073709551615"]

ROWS = [
    ("no words", refused),
    ("an empty word", refused, ""),
    ("no subcommand", refused, "f"),
    ("a subcommand in capitals", refused, "Show", "f"),
    ("the front of a subcommand", refused, "sho", "f"),
    ("a blank behind it", refused, "show ", "f"),
    ("help", refused, "help"),
    ("help on one", refused, "help", "show"),
    ("--help before one", refused, "--help", "show"),
    ("--help behind its words", refused, "show", "f", "--help"),
    ("-h behind one of two words", refused, "controller", "db", "-h"),
    ("--help behind no subcommand", refused, "f", "--help"),
    ("--help in capitals", refused, "--HELP"),
    ("--help with a value", refused, "--help=show"),
    ("--help twice", refused, "--help", "--help"),
    ("-V", refused, "-V"),
    ("--version behind one", refused, "show", "--version"),
    ("an option", refused, "show", "-x", "f"),
    ("an option before", refused, "--quiet", "show", "f"),
    ("an option with a value", refused, "show", "--file=f"),
    ("two subcommands", refused, "show", "f", "answer", "f"),
    ("no UTF-8", refused, b"show", b"\xff"),
    ("no UTF-8 as a subcommand", refused, b"sh\xffow", b"f"),
    ("no UTF-8 as an id", refused, b"node", b"db", b"n\xff"),
    ("other counts of words", counts),
    ("the session of a joining", no_session),
    ("the session that begins", no_beginning),
    ("hyphens", hyphens),
    ("a file that is missing", unreadable, "nothing"),
    ("an empty name", unreadable, ""),
    ("a file in a folder that is missing", unreadable, "nothing/f"),
    ("a folder", unreadable, "folder", os.mkdir),
    ("a link to nothing", unreadable, "link", lambda path: os.symlink("nothing", path)),
    ("a link to itself", unreadable, "link", lambda path: os.symlink("link", path)),
    ("a name of 256 bytes", unreadable, "f" * 256),
    ("a file without rights", without_rights),
]


def cases():
    yield from of_rows("words", ROWS)
