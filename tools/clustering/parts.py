"""The programs of a system as processes: each is given bytes, and what it says is read; it is ended, killed, stopped and let go."""
import json
import os
import select
import signal
import subprocess
import time

from program.frames import split
from program.running import LIMIT


TRIES = 50  # how often the record of a store is asked for that is in use


class Found(Exception):
    """What isn't as the documents say."""


class Ended(Found):
    """A program ended by itself: its status, and what it said on standard error."""

    def __init__(self, name, status, line):
        super().__init__(f"{name} ended: status {status}, {line or 'and nothing on standard error'}")
        self.status, self.line = status, line


class Part:
    """A program over its store, in a folder. It is down, or it runs, or it was stopped (`is_asleep`), or it was killed for good (`is_dead`)."""

    def __init__(self, program, folder, name, subcommand, store, *words):
        self.program, self.folder, self.name, self.store = program, folder, name, store
        self.words = [subcommand, store, *words]
        self.process = None
        self.is_asleep = self.is_dead = self.was_killed = False
        self.came = b""  # what it said that was not taken yet
        self.filled = 0  # how many bytes stand in its pipe that it didn't say
        self.given = []  # what it was given while it was asleep, or before that, and hasn't answered
        self.begun = 0  # how many of these it was given before
        self.before = None  # its record before it was given what it may not answer

    @property
    def is_up(self):
        return self.process is not None

    def at(self, end):
        return f"{self.folder}/{self.store}{end}"

    def start(self):
        with open(self.at(".error"), "wb") as error:
            pipes = {"stdin": subprocess.PIPE, "stdout": subprocess.PIPE, "stderr": error}
            self.process = subprocess.Popen([self.program, *self.words], cwd=self.folder, env={}, bufsize=0, **pipes)
        self.came, self.given, self.begun, self.filled, self.is_asleep = b"", [], 0, 0, False

    def give(self, content):
        while content:
            try:
                content = content[os.write(self.process.stdin.fileno(), content) :]
            except BrokenPipeError:
                return  # it ended, as is seen by what comes of it

    def mute(self):
        """Fills the pipe from it: it carries out what it is given, and waits to say so."""
        pipe = os.open(f"/proc/self/fd/{self.process.stdout.fileno()}", os.O_WRONLY | os.O_NONBLOCK)
        try:
            while True:
                self.filled += os.write(pipe, bytes(4096))
        except BlockingIOError:
            os.close(pipe)

    def more(self):
        """Reads more of what it says."""
        out = self.process.stdout
        if not select.select([out], [], [], LIMIT)[0]:
            raise Found(f"{self.name} says nothing for {LIMIT} seconds")
        piece = os.read(out.fileno(), 65_536)
        if not piece:
            raise self.ended()
        self.came += piece

    def ended(self):
        """How it ended."""
        status = self.process.wait(LIMIT)
        with open(self.at(".error"), encoding="utf-8", errors="replace") as error:
            return Ended(self.name, status, error.read()[-200:].strip())

    def close(self):
        """All that it said and that was not taken; its pipes are closed."""
        rest = self.came + self.process.stdout.read()[self.filled :]
        self.process.wait(LIMIT)
        for pipe in (self.process.stdin, self.process.stdout):
            pipe.close()
        self.process, self.came, self.given, self.begun, self.is_asleep = None, b"", [], 0, False
        return rest

    def kill(self):
        self.was_killed = True
        self.process.kill()
        return self.close()

    def end(self):
        """It ends well where its input ends, and says nothing more."""
        self.process.stdin.close()
        said = self.came + self.process.stdout.read()
        if self.process.wait(LIMIT) or said:
            raise Found(f"{self.ended()}, and it said {said[:100]!r}")
        self.close()

    def sleep(self):
        """Stops it, wherever it is."""
        os.kill(self.process.pid, signal.SIGSTOP)
        os.waitid(os.P_PID, self.process.pid, os.WSTOPPED | os.WNOWAIT)
        self.is_asleep = True

    def wake(self):
        os.kill(self.process.pid, signal.SIGCONT)
        self.is_asleep = False

    def log_state(self):
        """Something that is other once its store's log was written."""
        try:
            found = os.stat(self.at("-wal"))
            return found.st_mtime_ns, found.st_size
        except FileNotFoundError:
            return None

    def files(self):
        """The paths of its store's files that are there."""
        return [path for end in ("", "-wal", "-shm", "-journal") if os.path.exists(path := self.at(end))]

    def content(self):
        """The bytes of its store, by file."""
        found = {}
        for path in self.files():
            with open(path, "rb") as file:
                found[path] = file.read()
        return found

    def record(self):
        """What `csi-replay record` prints of its store. A part that was just started may be putting its log back: then it is asked for again."""
        words = [self.program, "record", self.store]
        for _ in range(TRIES if self.is_up else 1):
            ran = subprocess.run(words, cwd=self.folder, env={}, stdin=subprocess.DEVNULL, capture_output=True, timeout=LIMIT, check=False)
            if ran.returncode == 0:
                return ran.stdout
            time.sleep(0.02)
        raise Found(f"record of {self.name}: status {ran.returncode}, {ran.stderr.decode(errors='replace').strip()}")


class Plugin(Part):
    """A controller or a node: it is given frames, and answers by frames."""

    def take(self):
        """Its next reply."""
        while not (frames := split(self.came)[0]):
            self.more()
        self.came = self.came[len(frames[0]) :]
        return frames[0]

    def killed(self):
        """Kills it: the whole replies that nobody took."""
        return split(self.kill())[0]


class Orchestrator(Part):
    """It is given lines, and answers by lines."""

    def take(self):
        while b"\n" not in self.came:
            self.more()
        line, self.came = self.came.split(b"\n", 1)
        return json.loads(line)

    def killed(self):
        """Kills it: the whole answers that nobody took."""
        return [json.loads(line) for line in self.kill().split(b"\n")[:-1]]

    def first(self):
        """Its first line, or None where it ended since a node that it isn't started with any more is in use."""
        try:
            return self.take()
        except Ended as ended:
            if (ended.status, ended.line) != (1, "csi-replay: node in use"):
                raise
            self.close()
            return None


def wait(seconds, is_over=lambda: False):
    """Waits, also for less than the clock of `sleep` can tell, or until this is so."""
    until = time.monotonic() + seconds
    while time.monotonic() < until and not is_over():
        pass
