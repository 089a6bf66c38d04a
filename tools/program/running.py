"""How a case runs the program, and how it says what was wanted and what came."""
import os
import shutil
import subprocess
import threading
from dataclasses import dataclass

LIMIT = 60  # seconds that a run may take
# All that a program gets of the environment: how one of Go's that has the race detector tells of a race.
BARE = {name: os.environ[name] for name in ("GORACE",) if name in os.environ}
SERVING = ("controller", "node", "orchestrator")  # what opens a store, and has a log while it is open


class Wrong(Exception):
    """What was wanted and what came differ."""


class LeftOut(Exception):
    """This machine lacks what the case needs, as it says."""


@dataclass
class Case:
    """A name, and what is done in a box; it ends with `Wrong` or `LeftOut`, or well."""

    name: str
    body: object


@dataclass
class Ran:
    """How a process ended."""

    status: int
    out: bytes
    error: bytes

    def __str__(self):
        return f"status {self.status}, output {short(self.out)}, error {short(self.error)}"


def short(content):
    """Bytes as they are printed of a failure."""
    return repr(content) if len(content) <= 600 else f"{content[:400]!r}..{content[-200:]!r} ({len(content)} bytes)"


def wanted(told, came, right):
    """Fails unless what came is right."""
    if came == right:
        return
    if isinstance(came, dict) and isinstance(right, dict):
        # Of a folder, what differs alone.
        names = [name for name in {**right, **came} if came.get(name) != right.get(name)]
        came, right = ({name: it[name] for name in names if name in it} for it in (came, right))
    shown = [short(it) if isinstance(it, bytes) else str(it) for it in (right, came)]
    raise Wrong("\n".join([told, f"    wanted {shown[0][:2000]}", f"    came   {shown[1][:2000]}"]))


def ended(status, line=None, out=b""):
    """How a run ends: its status, its line on standard error without the program's name, and its output."""
    return Ran(status, out, b"" if line is None else f"csi-replay: {line}\n".encode())


PIECE = 4096  # the most bytes that a read of a pipe of pieces brings


class Pipe:
    """A pipe to a program, which has its end to read from."""

    def __init__(self, flags=0):
        self.reading, self.writing = os.pipe2(os.O_CLOEXEC | flags)

    def write(self, content):
        try:
            while content:
                content = content[os.write(self.writing, content) :]
        except BrokenPipeError:
            pass  # the program ended, as is seen by what came of it

    def end(self):
        os.close(self.writing)

    def feed(self, pieces, ends=True):
        """Writes all of these, beside what else is done, and ends, or stays open."""

        def write_all():
            for piece in pieces:
                self.write(piece)
            if ends:
                self.end()

        threading.Thread(target=write_all, daemon=True).start()


class Pieces(Pipe):
    """One of which each read brings what one write put in (pipe(7), O_DIRECT): so a test says what is there together."""

    def __init__(self):
        super().__init__(os.O_DIRECT)

    def write(self, content):
        if len(content) > PIECE:
            raise ValueError(f"a piece of {len(content)} bytes")
        super().write(content)


class Running:
    """A program that runs, and is asked. It is killed where it doesn't end in time, and then nothing more comes from it."""

    def __init__(self, words, folder, pipe=None):
        """`pipe`: the one that it reads; else it has one of its own, and is sent something."""
        pipes = {"stdin": pipe.reading if pipe else subprocess.PIPE, "stdout": subprocess.PIPE, "stderr": subprocess.PIPE}
        self.process = subprocess.Popen(words, cwd=folder, env=BARE, bufsize=0, **pipes)
        if pipe:
            os.close(pipe.reading)
        self.limit = threading.Timer(LIMIT, self.process.kill)
        self.limit.start()

    def send(self, given):
        try:
            self.process.stdin.write(given)
        except BrokenPipeError:
            pass  # it ended, as is seen by what came of it

    def take(self, size):
        """So many bytes of its output, or fewer where it ends first."""
        out = b""
        while len(out) < size and (more := self.process.stdout.read(size - len(out))):
            out += more
        return out

    def asks(self, given, right):
        """Fails unless the reply comes, before anything else is sent."""
        self.send(given)
        wanted(f"the reply to {given.hex()}", self.take(len(right)), right)

    def kill(self):
        self.process.kill()
        return self.end()

    def end(self, given=b""):
        """What comes of it once its input ends."""
        try:
            out, error = self.process.communicate(given)
        except BrokenPipeError:
            out, error = self.process.communicate()
        self.limit.cancel()
        return Ran(self.process.returncode, out, error)


class Box:
    """A case's folder, and the program that runs in it."""

    def __init__(self, program, folder):
        self.program, self.folder = program, folder

    def at(self, name):
        return f"{self.folder}/{name}"

    def put(self, name, content):
        with open(self.at(name), "wb") as file:
            file.write(content)
        return name

    def get(self, name):
        with open(self.at(name), "rb") as file:
            return file.read()

    def names(self):
        """What lies in the folder."""
        return sorted(os.listdir(self.folder))

    def files(self):
        """Each file of the folder and of the folders in it: what it is, its bytes, and when they were changed."""
        found = {}
        for folder, _, names in os.walk(self.folder):
            for name in names:
                path = os.path.join(folder, name)
                status = os.lstat(path)
                content = open(path, "rb").read() if os.path.isfile(path) and os.access(path, os.R_OK) else None
                found[os.path.relpath(path, self.folder)] = (status.st_mode, status.st_mtime_ns, content)
        return found

    def run(self, *words, given=b"", before=(), env=None, **how):
        """Runs the program with these words, behind the words `before` of another. Of a list that is given each read brings one."""
        how = {"stdout": subprocess.PIPE, "stderr": subprocess.PIPE, **how}
        pieces = Pieces() if isinstance(given, list) else None
        if pieces:
            how["stdin"] = pieces.reading
            pieces.feed(given)
        elif "stdin" not in how:
            how["input"] = given
        try:
            ran = subprocess.run([*before, self.program, *words], cwd=self.folder, env=env or BARE, timeout=LIMIT, **how)
        except subprocess.TimeoutExpired:
            raise Wrong(f"{words} didn't end in {LIMIT} seconds") from None
        finally:
            if pieces:
                os.close(pieces.reading)
        ran = Ran(ran.returncode, ran.stdout or b"", ran.stderr or b"")
        if words[:1] and words[0] in SERVING and len(words) > 2 and ran.status in (0, 1):
            self.is_closed(words[1], ran)
        return ran

    def is_closed(self, path, ran):
        """A store that was opened is closed, however the run ended: then what its log had is in the file, and the log has no page any more."""
        log = self.at(path) + "-wal"
        size = os.path.getsize(log) if os.path.exists(log) else 0
        wanted(f"whether the log of {path!r} has pages, which has {size} bytes, after {ran}", size >= 32 + 24 + 4096, False)

    def start(self, *words, pipe=None):
        """Starts the program with pipes for its streams, and asks it."""
        return Running([self.program, *words], self.folder, pipe)

    def wants(self, right, *words, told=None, **how):
        """Fails unless a run with these words ends so."""
        wanted(told or f"csi-replay {' '.join(map(str, words))}", self.run(*words, **how), right)


def need(tool):
    """The path of a tool; a case is left out where the machine lacks it."""
    path = shutil.which(tool)
    if path is None:
        raise LeftOut(f"there is no {tool}")
    return path


def as_nobody():
    """The words before a program that run it without rights; only root may."""
    if os.geteuid() != 0:
        raise LeftOut("only root may run a program as nobody")
    return [need("setpriv"), "--reuid=65534", "--regid=65534", "--clear-groups"]


def of_rows(subject, rows):
    """A case for each row: a name, and the body's arguments."""
    for name, body, *rest in rows:
        yield Case(f"{subject}: {name}", lambda box, body=body, rest=rest: body(box, *rest))
