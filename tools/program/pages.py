"""README and the pages of docs/ that show commands: each command in them but those that prove, build or install, and the output that the page gives."""
import os
import re
import shutil
import subprocess

from .running import LIMIT, Case, need, wanted

TOP = os.path.dirname(os.path.dirname(os.path.dirname(os.path.realpath(__file__))))
PAGES = ("README.md", "docs/OPERATING.md", "docs/PROGRAMS.md", "docs/INTEGRATING.md")
# A line with one of these is left out: it proves, builds or installs.
LEFT_OUT = ("rt ci", "rt try", "rt lib", ".ci/run", "tools/operate/install", "tools/csi")
MARK = "-- the next block"
BLOCK = re.compile(r"^```(\w*)\n(.*?)^```$", re.MULTILINE | re.DOTALL)


def blocks(name):
    """The page's commands, each with the output behind it, or none; commands with one word of the list are left out."""
    with open(f"{TOP}/{name}", encoding="utf-8") as file:
        page = BLOCK.findall(file.read())
    for at, (language, content) in enumerate(page):
        if language == "sh":
            follows = page[at + 1] if at + 1 < len(page) else ("none", "")
            kept = [line for line in content.splitlines() if not any(word in line for word in LEFT_OUT)]
            yield "\n".join(kept), follows[1] if follows[0] == "" else None


def tree(box):
    """A copy of what the commands read, where the program stands for the script and for what it builds."""
    for name in ("examples", "docs", "include", "tools"):
        shutil.copytree(f"{TOP}/{name}", box.at(name))
    os.symlink(box.program, box.at("csi-replay"))
    os.makedirs(box.at("crates/csi_replay/out"))
    os.symlink(box.program, box.at("crates/csi_replay/out/csi-replay"))


def commands_of(name):
    """All commands of the page in one shell, in order."""

    def every_command(box):
        bash = need("bash")
        tree(box)
        with open(f"{TOP}/examples/late_detach.report", encoding="utf-8") as file:
            report = file.read()
        shown = [(commands, output) for commands, output in blocks(name) if commands]
        script = "".join(f"echo '{MARK}'\n{commands}\n" for commands, _ in shown)
        env = {"PATH": os.environ["PATH"], "TMPDIR": box.folder}
        how = {"stdout": subprocess.PIPE, "stderr": subprocess.STDOUT, "timeout": LIMIT, "check": False}
        came = subprocess.run([bash, "-c", script], cwd=box.folder, env=env, **how).stdout.decode().split(f"{MARK}\n")
        wanted("how many blocks were run", len(came), len(shown) + 1)
        for (commands, output), one in zip(shown, came[1:]):
            # One that has no output on its page prints the report of its schedule.
            wanted(commands, one, report if output is None else output)

    return every_command


def says_by_hand(box):
    """A page with a line that is left out says that such lines are run by hand."""
    for name in PAGES:
        with open(f"{TOP}/{name}", encoding="utf-8") as file:
            text = file.read()
        left = [line for language, content in BLOCK.findall(text) if language == "sh" for line in content.splitlines() if any(word in line for word in LEFT_OUT)]
        wanted(f"by hand, on {name}", not left or "by hand" in text, True)


def cases():
    wanted("how many outputs the pages have", sum(output is not None for name in PAGES for _, output in blocks(name)) >= 9, True)
    yield Case("pages: what is run by hand", says_by_hand)
    for name in PAGES:
        if any(commands for commands, _ in blocks(name)):
            yield Case(f"pages: the commands of {name}", commands_of(name))
