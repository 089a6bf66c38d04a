"""Servers of etcd on loopback, and drivers over them."""
import base64
import contextlib
import json
import os
import random
import shutil
import signal
import socket
import subprocess
import time
import urllib.request

from program.running import LIMIT, LeftOut, Wrong

LEASE = 2  # seconds
DEBIAN = ()  # etcd as Debian starts it


def coded(text):
    return base64.b64encode(text.encode()).decode()


def decoded(text):
    return base64.b64decode(text)


def free_ports(count):
    """Ports on loopback that nobody has, below those that Linux gives to clients by itself: one of these could be a client's while etcd is down."""
    ports = set()
    while len(ports) < count:
        port = random.randrange(15000, 32768)
        with socket.socket() as it:
            with contextlib.suppress(OSError):
                it.bind(("127.0.0.1", port))
                ports.add(port)
    return sorted(ports)


class Cluster:
    """etcd servers on loopback, in the case's folder."""

    def __init__(self, box, count=3, *options):
        if not shutil.which("etcd"):
            raise LeftOut("there is no etcd")
        self.box = box
        ports = free_ports(2 * count)
        self.clients = [f"http://127.0.0.1:{port}" for port in ports[:count]]
        self.peers = [f"http://127.0.0.1:{port}" for port in ports[count:]]
        self.begin(options)

    def begin(self, options):
        self.servers = [self.start(at, options) for at in range(len(self.clients))]
        for at in range(len(self.clients)):
            self.await_healthy(at)

    def start(self, at, options):
        client, peer = self.clients[at], self.peers[at]
        members = ",".join(f"e{at}={peer}" for at, peer in enumerate(self.peers))
        words = ["etcd", "--name", f"e{at}", "--data-dir", self.box.at(f"e{at}"), "--listen-client-urls", client, "--advertise-client-urls", client]
        words += ["--listen-peer-urls", peer, "--initial-advertise-peer-urls", peer, "--initial-cluster", members]
        words += ["--initial-cluster-token", str(os.getpid()), "--heartbeat-interval", "50", "--election-timeout", "500", *options]
        with open(self.box.at(f"e{at}.log"), "wb") as said:
            return subprocess.Popen(words, stdout=said, stderr=said, stdin=subprocess.DEVNULL)

    def await_healthy(self, at):
        client = self.clients[at]
        until = time.monotonic() + LIMIT
        while time.monotonic() < until:
            try:
                with urllib.request.urlopen(f"{client}/health", timeout=2) as answer:
                    if json.load(answer)["health"] == "true":
                        return
            except OSError:
                pass
            time.sleep(0.1)
        with open(self.box.at(f"e{at}.log"), encoding="utf-8", errors="replace") as said:
            last = said.read().rstrip().rpartition("\n")[2]
        raise LeftOut(f"etcd doesn't get healthy here: {last}")

    def ask(self, client, call, **request):
        """What etcd's gateway answers to a call."""
        with urllib.request.urlopen(f"{client}/v3/{call}", data=json.dumps(request).encode(), timeout=LIMIT) as answer:
            return json.load(answer)

    def leader(self):
        """The place of the server that leads."""
        for at, client in enumerate(self.clients):
            told = self.ask(client, "maintenance/status")
            if told["leader"] == told["header"]["member_id"]:
                return at
        raise Wrong("no etcd leads")

    def parts(self, asked=None):
        """The parts of the record, by rising key, as one of the servers tells."""
        asked = asked or next(client for client, server in zip(self.clients, self.servers) if server.poll() is None)
        told = self.ask(asked, "kv/range", key=coded("/t/parts/"), range_end=coded("/t/parts0"))
        return [(bytes.fromhex(decoded(it["key"]).decode().removeprefix("/t/parts/")), decoded(it["value"])) for it in told.get("kvs", [])]

    def await_drivers(self, count):
        """Waits until so many drivers lead, or wait to."""
        until = time.monotonic() + LIMIT
        while int(self.ask(self.clients[0], "kv/range", key=coded("/t/leader/"), range_end=coded("/t/leader0"), count_only=True).get("count", 0)) < count:
            if time.monotonic() > until:
                raise Wrong(f"no {count} drivers lead or wait")
            time.sleep(0.05)

    def put(self, parts):
        """Puts parts there, as many in a transaction as fit well."""
        for at in range(0, len(parts), 100):
            puts = [
                {"requestPut": {"key": coded(f"/t/parts/{key.hex()}"), "value": base64.b64encode(value).decode()}} for key, value in parts[at : at + 100]
            ]
            self.ask(self.clients[0], "kv/txn", success=puts)

    def driver(self, name, serves=True, prefix="/t", clients=None, lease=LEASE):
        options = ["--etcd", ",".join(clients or self.clients), "--prefix", prefix, "--lease-seconds", str(lease)]
        return self.box.controller(*options, store=None, socket=name, serves=serves)

    def end(self):
        for server in self.servers:
            server.kill()
            server.wait()

    def restart(self, *options):
        """All of it again, over what it has, with other options."""
        self.end()
        self.begin(options)


def over(count, *options):
    """A case over a cluster of so many servers."""

    def with_body(body):
        def run(box):
            cluster = Cluster(box, count, *(options or DEBIAN))
            try:
                return body(box, cluster)
            finally:
                for driver in box.drivers:
                    if driver.process.poll() is None:
                        driver.process.send_signal(signal.SIGCONT)
                        driver.process.kill()
                cluster.end()

        return run

    return with_body
