"""The wire between the machines, and what comes over it: see wire/wire.go."""
import socket
import subprocess

from .parts import Found

OWN = "10.99.0.100"  # the address of this process, and of clients
HOSTS = {f"h{at}": f"10.99.0.{at}" for at in range(1, 6)}
MEMBERS = {f"e{at}": f"10.99.0.{10 + at}" for at in range(1, 4)}  # of etcd
MACHINES = {**HOSTS, **MEMBERS}


class Wire:
    """Machines, as namespaces, and a switch between them. All of it goes with the namespaces of this process."""

    def __init__(self, program, seed):
        for name in MACHINES:
            subprocess.run(["ip", "netns", "add", name], check=True)
        subprocess.run(["ip", "link", "set", "lo", "up"], check=True)
        words = [f"{name}={address}/24" for name, address in {**MACHINES, ".": OWN}.items()]
        self.process = subprocess.Popen([program, str(seed), *words], stdin=subprocess.PIPE, stdout=subprocess.PIPE, text=True, bufsize=1)
        self.answered("it starts")

    def answered(self, line):
        """The lines up to `ok`."""
        lines = []
        while (said := self.process.stdout.readline()) != "ok\n":
            if not said or not said[0].isdigit():
                raise Found(f"the wire, asked for {line}: {said!r}")
            lines.append(said.strip())
        return lines

    def tell(self, *words):
        line = " ".join(map(str, words))
        self.process.stdin.write(line + "\n")
        return self.answered(line)

    def part(self, some):
        """Nothing passes between these machines and all others."""
        others = [it for it in (*MACHINES, ".") if it not in some]
        for a in some:
            for b in others:
                self.tell("cut", a, b)
                self.tell("cut", b, a)

    def told(self):
        """How many frames passed, were lost, and came twice."""
        return [int(it) for it in self.tell("told")[0].split()]


def play(content, address, port, within=2.0):
    """Plays what a client sent once, over a connection of its own: what the other end said to it, or None where nobody is there."""
    came = b""
    with socket.socket() as connection:
        connection.settimeout(within)
        try:
            connection.connect((address, port))
        except OSError:
            return None
        try:
            connection.sendall(content)
            while piece := connection.recv(65536):
                came += piece
        except OSError:
            pass
    return came
