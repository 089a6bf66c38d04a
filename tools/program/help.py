"""Help: the text of each call for it, held against `help.texts`, which is written by hand; and that nothing else is done. What is
installed beside the program: the page of the manual, held against docs/FORMATS.md, and what bash completes."""
import os
import re
import subprocess

from .running import Case, ended, need, wanted
from .words import ON_FILES, TAKEN, prepare

HERE = os.path.dirname(os.path.realpath(__file__))
TOP = os.path.dirname(os.path.dirname(HERE))
ASKS = "$ csi-replay "
WORDS = {**{name: "FILE" for name in ON_FILES}, "controller": "DB CONFIG", "node": "DB ID [SESSION]", "orchestrator": "DB CONFIG [SESSION]", "record": "DB"}
WORDS["recover"] = "NEW.db CONFIG SESSION CONTROLLER.db NODE.db.."
WORDS["recover-controller"] = "NEW.db CONFIG NEXT ORCHESTRATOR.db NODE.db.."


def texts():
    """The text that each call for help gets, by the call's words."""
    found, words = {}, ()
    with open(os.path.join(HERE, "help.texts"), encoding="utf-8") as file:
        for line in file:
            if line.startswith(ASKS):
                words = tuple(line.removeprefix(ASKS).split())
                found[words] = ""
            else:
                found[words] += line
    return {words: text.encode() for words, text in found.items()}


def gives_texts(box):
    """The file's calls, with `-h` for `--help` too: a text on standard output alone, status 0, and no file is made or changed."""
    before = prepare(box)
    for words, text in texts().items():
        box.wants(ended(0, out=text), *words)
        if words[-1] == "--help":
            box.wants(ended(0, out=text), *words[:-1], "-h")
    wanted("the folder", box.files(), before)


def is_whole(box):
    """Each subcommand has a text, which begins with its usage; and the program's lists them all, with their words."""
    found = texts()
    wanted("the calls", sorted(found), sorted([("--help",), ("--version",), *((name, "--help") for name in TAKEN)]))
    for name in TAKEN:
        wanted("its first line", found[(name, "--help")].splitlines()[0], f"Usage: csi-replay {name} {WORDS[name]}".encode())
        wanted(f"{name} in the list", f"\n  {name} {WORDS[name]} ".encode() in found[("--help",)], True)


def reads_nothing(box):
    """A store, a configuration and an input that would each end it otherwise are not looked at."""
    os.mkdir(box.at("--help"))
    for words, text in texts().items():
        box.wants(ended(0, out=text), *words, given=b"\xff" * 100)
    wanted("the folder", box.names(), ["--help"])


# ---- what is installed beside the program


def lines_told():
    """The lines of the program on standard error, as docs/FORMATS.md lists them by exit status."""
    with open(f"{TOP}/docs/FORMATS.md", encoding="utf-8") as file:
        rows = re.findall(r"^([123]), [a-z ]+ \| (.*)$", file.read(), re.MULTILINE)
    return {status: re.findall("`([^`]*)`", row) for status, row in rows}


def manual(box):
    """The page has no fault, and has each subcommand with its words, and each line with its status."""
    words = [need("groff"), "-man", "-ww", "-Tascii", "-P-cbou", "-rHY=0", f"{TOP}/docs/csi-replay.1"]
    ran = subprocess.run(words, capture_output=True, check=False, timeout=60)
    wanted("what groff says", (ran.returncode, ran.stderr), (0, b""))
    page = " ".join(ran.stdout.decode().split())
    for name, words in WORDS.items():
        wanted(f"{name} {words} in it", f" {name} {words} " in page, True)
    statuses = page[page.index("EXIT STATUS"):]
    for status, lines in lines_told().items():
        wanted(f"how many lines have status {status}", len(lines) >= 1, True)
        told = re.search(rf" {status} (?:Bad|System) (.*?)(?: \d (?:Bad|System) | EXAMPLES )", statuses).group(1)
        for line in lines:
            wanted(f"{line!r} at status {status}, {told!r}", line in told, True)


COMPLETING = '''
source "$0"
COMP_WORDS=("$@") COMP_CWORD=$(($# - 1))
_csi_replay
printf '%s\\n' "${COMPREPLY[@]}"
'''


def completions(box):
    """Words of which the last is begun, and what it becomes."""
    prepare(box)
    rows = [
        (("",), [*TAKEN, "--help", "--version"]),
        (("re",), ["record", "recover", "recover-controller"]),
        (("--",), ["--help", "--version"]),
        (("show", "-"), ["--help"]),
        (("show", "con"), ["config"]),
        (("controller", ""), ["config", "f"]),
        (("controller", "db", "con"), ["config"]),
        (("controller", "db", "config", ""), []),
        (("orchestrator", "db", "con"), ["config"]),
        (("orchestrator", "db", "config", ""), []),
        (("node", "con"), ["config"]),
        (("node", "db", "con"), []),
        (("record", "db", "con"), []),
        (("recover", ""), ["config", "f"]),
        (("recover", "db", "con"), ["config"]),
        (("recover", "db", "config", "con"), []),
        (("recover", "db", "config", "0", "con"), ["config"]),
        (("recover", "db", "config", "0", "f", "f", "f", "con"), ["config"]),
        (("recover-controller", "db", "con"), ["config"]),
        (("recover-controller", "db", "config", "con"), []),
        (("recover-controller", "db", "config", "9", "con"), ["config"]),
    ]
    for words, right in rows:
        asked = [need("bash"), "-c", COMPLETING, f"{TOP}/tools/operate/csi-replay.bash", "csi-replay", *words]
        ran = subprocess.run(asked, cwd=box.folder, env={"PATH": os.environ["PATH"]}, capture_output=True, check=False, timeout=60)
        wanted(f"{words}", (sorted(ran.stdout.decode().split()), ran.stderr), (sorted(right), b""))


def cases():
    yield Case("help: its texts", gives_texts)
    yield Case("help: the file of texts is whole", is_whole)
    yield Case("help: nothing is read", reads_nothing)
    yield Case("help: the page of the manual", manual)
    yield Case("help: what bash completes", completions)
