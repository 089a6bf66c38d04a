"""The set's programs as processes on machines: each is started again when it ends, as systemd does, and can be killed, put to sleep and kept down."""
import os
import signal
import subprocess
import threading
import time
from dataclasses import dataclass

AGAIN = 0.5  # seconds from an end to the next start
ASLEEP = 5  # seconds within which each thread stands still


class Found(Exception):
    """What isn't as the documents say."""


@dataclass
class End:
    """How a program ended: when, with which status (minus a signal's number), and what it said last."""

    at: float
    status: int
    line: str


class Part:
    """A program on a machine, in the namespace of that name; `.` is where this process is. Its output goes to FOLDER/NAME.log."""

    def __init__(self, name, machine, words, folder):
        self.name, self.machine, self.words, self.folder = name, machine, words, folder
        self.process = None
        self.ends = []
        self.starts = 0
        self.again = True  # whether it is started again
        self.is_down = False  # it is kept down for a while
        self.lock = threading.Lock()
        self.thread = threading.Thread(target=self.keep, daemon=True)

    @property
    def log(self):
        return f"{self.folder}/{self.name}.log"

    def start(self):
        self.thread.start()

    def keep(self):
        """Runs it until it is to end."""
        words = self.words if self.machine == "." else ["ip", "netns", "exec", self.machine, *self.words]
        while self.again:
            if self.is_down:
                time.sleep(0.05)
                continue
            with open(self.log, "ab") as said:
                begins = said.tell()
                with self.lock:
                    if not self.again or self.is_down:
                        continue
                    self.process = subprocess.Popen(words, stdin=subprocess.DEVNULL, stdout=said, stderr=said, start_new_session=True)
                    self.starts += 1
                status = self.process.wait()
            self.ends.append(End(time.monotonic(), status, self.last_line(begins)))
            until = time.monotonic() + AGAIN
            while self.again and time.monotonic() < until:
                time.sleep(0.05)

    def last_line(self, begins):
        with open(self.log, "rb") as said:
            said.seek(begins)
            lines = said.read().decode(errors="replace").strip().splitlines()
        return lines[-1] if lines else ""

    @property
    def pid(self):
        """Its number, or None while it doesn't run."""
        process = self.process
        return process.pid if process and process.poll() is None else None

    def signal(self, number):
        pid = self.pid
        if pid:
            try:
                os.kill(pid, number)
            except ProcessLookupError:
                return False
        return bool(pid)

    def kill(self):
        return self.signal(signal.SIGKILL)

    def keep_down(self):
        """Kills it, and keeps it down until it may come again."""
        with self.lock:
            self.is_down = True
        self.kill()

    def let_come(self):
        self.is_down = False

    def put_to_sleep(self):
        """Stops it, and waits until each of its threads stands still: until then it may do some more."""
        pid = self.pid
        if not self.signal(signal.SIGSTOP):
            return False
        until = time.monotonic() + ASLEEP
        while any(it not in "TZX" for it in states(pid)) and time.monotonic() < until:
            time.sleep(0.01)
        return True

    def wake(self):
        self.signal(signal.SIGCONT)

    def end(self, within):
        """Has it end by itself, for good; fails where it takes too long."""
        with self.lock:
            self.again = False
        self.wake()
        self.signal(signal.SIGTERM)
        self.thread.join(within)
        if self.thread.is_alive():
            self.kill()
            self.thread.join(within)
            raise Found(f"{self.name} doesn't end within {within} seconds")

    def stop(self):
        """Ends it for good, at once."""
        with self.lock:
            self.again = False
        self.kill()


def states(pid):
    """The letter of the state of each thread of a process; X of one that isn't there any more."""
    found = []
    try:
        threads = os.listdir(f"/proc/{pid}/task")
    except OSError:
        return found
    for it in threads:
        try:
            with open(f"/proc/{pid}/task/{it}/stat", encoding="utf-8", errors="replace") as file:
                found.append(file.read().rpartition(")")[2].split()[0])
        except OSError:
            found.append("X")
    return found
