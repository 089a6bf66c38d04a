"""Machines of a set: each has namespaces of its own, with systemd as their first process, over one root that Debian's debootstrap made."""
import os
import shutil
import signal
import subprocess
import time

BOOT = f"{os.path.dirname(os.path.realpath(__file__))}/boot.sh"
WITHIN = 120  # seconds that a machine may take to start, and a command to end
NETWORK = "192.0.2"


class Failed(Exception):
    """What isn't as it should be."""


def run(*words, within=WITHIN, check=True, **how):
    """Runs a command, and gives its exit status and all that it said."""
    try:
        came = subprocess.run(words, stdout=subprocess.PIPE, stderr=subprocess.STDOUT, text=True, errors="replace", timeout=within, check=False, **how)
    except subprocess.TimeoutExpired as late:
        raise Failed(f"{' '.join(words)}: not within {within} s\n{(late.stdout or b'').decode(errors='replace')}") from None
    if check and came.returncode:
        raise Failed(f"{' '.join(words)}: status {came.returncode}\n{came.stdout}")
    return came.returncode, came.stdout


def cgroups():
    """Where cgroups of the second version are."""
    return "/sys/fs/cgroup/unified" if os.path.isdir("/sys/fs/cgroup/unified") else "/sys/fs/cgroup"


class Network:
    """A switch, to which machines are connected."""

    def __init__(self):
        self.name = f"tufayon-{os.getpid()}"
        run("ip", "netns", "add", self.name)
        run("ip", "-n", self.name, "link", "add", "switch", "type", "bridge")
        run("ip", "-n", self.name, "link", "set", "switch", "up")

    def connect(self, number):
        """A network namespace with an address, which is connected to it."""
        name = f"{self.name}-{number}"
        run("ip", "netns", "add", name)
        run("ip", "link", "add", "eth0", "netns", name, "type", "veth", "peer", "name", f"to{number}", "netns", self.name)
        run("ip", "-n", self.name, "link", "set", f"to{number}", "up", "master", "switch")
        run("ip", "-n", name, "addr", "add", f"{NETWORK}.{number}/24", "dev", "eth0")
        for link in ("lo", "eth0"):
            run("ip", "-n", name, "link", "set", link, "up")
        return name

    def remove(self):
        _, names = run("ip", "netns", "list")
        for name in [it.split()[0] for it in names.splitlines() if it.split()[0].startswith(self.name)]:
            run("ip", "netns", "del", name)


class Machine:
    """One machine. Its disk outlives it."""

    commands = []  # those that were run, on all machines

    def __init__(self, network, number, base, folder):
        self.name, self.address = f"m{number}", f"{NETWORK}.{number}"
        self.base, self.folder = base, f"{folder}/m{number}"
        self.network = network.connect(number)
        self.cgroup = f"{cgroups()}/{self.network}"
        self.process = self.init = None
        os.mkdir(self.folder)
        self.empty()

    def empty(self):
        """Gives it an empty disk, in place of the one that it has."""
        for it in ("disk", "work"):
            shutil.rmtree(f"{self.folder}/{it}", ignore_errors=True)
        os.makedirs(f"{self.folder}/disk/etc")
        with open(f"{self.folder}/disk/etc/hostname", "w", encoding="ascii") as file:
            file.write(f"{self.name}\n")

    def start(self):
        """Starts it, and waits until systemd has started what it should."""
        os.makedirs(self.cgroup, exist_ok=True)
        shell = f"echo $$ > {self.cgroup}/cgroup.procs && exec unshare -m -p -f -u -i -C {BOOT} {self.name} {self.base} {self.folder}"
        self.process = subprocess.Popen(["nsenter", f"--net=/run/netns/{self.network}", "sh", "-c", shell], stdin=subprocess.DEVNULL, stderr=subprocess.DEVNULL)
        until = time.monotonic() + WITHIN
        while time.monotonic() < until:
            time.sleep(0.2)
            with open(f"/proc/{self.process.pid}/task/{self.process.pid}/children", encoding="ascii") as file:
                self.init = int((file.read().split() or ["0"])[0])
            if self.init and self("systemctl is-system-running", check=False)[1].strip() in ("running", "degraded"):
                return self
        raise Failed(f"{self.name} doesn't start")

    def __call__(self, command, check=True, within=WITHIN):
        """Runs a command of a shell there, and gives its exit status and what it said."""
        self.commands.append(command)
        words = ["nsenter", "-t", str(self.init), "-m", "-p", "-u", "-i", "-n", "-C", "-r", "-w", "env", "-i", "HOME=/root", "LC_ALL=C.UTF-8",
                 "PATH=/usr/local/sbin:/usr/local/bin:/usr/sbin:/usr/bin:/sbin:/bin", "DEBIAN_FRONTEND=noninteractive", "sh", "-c", command]
        try:
            return run(*words, within=within, check=check)
        except Failed as failed:
            raise Failed(f"{self.name}: {command}\n{str(failed).split(chr(10), 1)[-1]}") from None

    def kill(self):
        """Its power goes: what it has under way is gone, and its disk has what was written."""
        if self.process:
            if self.init and os.path.exists(f"/proc/{self.init}"):
                os.kill(self.init, signal.SIGKILL)
            self.process.wait(timeout=WITHIN)
            self.process = self.init = None

    def remove(self):
        self.kill()
        for folder, _, _ in os.walk(self.cgroup, topdown=False):
            os.rmdir(folder)
        shutil.rmtree(self.folder)


def make_base(folder, tarball, packages):
    """A fresh root of Debian 12 with these packages, which is made of a tarball of debootstrap's where that is there, and else leaves it there."""
    words = ["debootstrap", "--variant=minbase", f"--include={','.join(packages)}"]
    if not os.path.exists(tarball):
        run(*words, f"--make-tarball={tarball}", "bookworm", f"{folder}.tarball", "http://deb.debian.org/debian", within=900)
    run(*words, f"--unpack-tarball={tarball}", "bookworm", folder, "http://deb.debian.org/debian", within=900)
    with open(f"{folder}/etc/hosts", "a", encoding="ascii") as file:
        file.writelines(f"{NETWORK}.{number} m{number}\n" for number in range(1, 10))
