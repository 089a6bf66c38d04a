"""A set on its machines: etcd, the orchestrator's services, controllers and nodes, with their files and certificates."""
import base64
import json
import os
import shutil
import ssl
import subprocess
import time
import urllib.request

from .parts import Found, Part
from .wiring import HOSTS, MEMBERS, Wire

SET = "s1"
PREFIX = {"orchestrator": f"/tufayon/{SET}/orchestrator", "controller": f"/tufayon/{SET}/controller"}
PLACES = {"orchestrator": ("h1", "h2"), "controller": ("h2", "h3")}
NODES = {f"n{at}": f"h{at}" for at in range(1, 6)}
PORT = {"orchestrator": 7001, "controller": 7002, "node": 7003}
CLIENTS = ("ann", "bob", "eve")
LEASE = 3  # seconds
TIMES = {"patience": 12, "answer": 8, "retry": 0.2, "most_retry": 2}
DISK = "8m"  # of a node
START, END = 60, 25  # seconds
PROMISE = "off for good, and its store never comes back"
ETCD = (
    "--heartbeat-interval 100 --election-timeout 1000 --client-cert-auth --peer-client-cert-auth --auto-compaction-mode periodic "
    "--auto-compaction-retention 1h --initial-cluster-token machines"
).split()


def coded(text):
    return base64.b64encode(text.encode()).decode()


class System:
    """A set in a folder. `programs` has the service's programs, `top` is the repository; what takes time may take `patience` times as long."""

    def __init__(self, top, programs, wire, folder, seed, patience=1):
        self.top, self.programs, self.folder = top, programs, folder
        self.seed, self.patience = seed, patience
        os.environ["TUFAYON_WORLD"] = self.made("world")
        self.wire = Wire(wire, seed)
        self.parts = {}
        names = ["orchestrator", "controller", *(f"node/{it}" for it in NODES), *(f"client/{it}" for it in CLIENTS)]
        self.certify(*names, *(f"etcd/{it}" for it in MEMBERS.values()))
        self.write_set()
        self.sessions = dict.fromkeys(NODES, 0)
        for name in MEMBERS:
            self.add_member(name)
        for role, hosts in PLACES.items():
            for host in hosts:
                self.add(f"{role}-{host}", role, host)
        for name in NODES:
            self.add_node(name)

    def at(self, *names):
        return os.path.join(self.folder, *names)

    def made(self, *names):
        os.makedirs(self.at(*names), mode=0o700, exist_ok=True)
        return self.at(*names)

    def write(self, name, content):
        """Writes a file of JSON, in one step, as it is read at any time."""
        with open(self.at(name + ".new"), "w", encoding="utf-8") as file:
            json.dump(content, file, indent=1)
        os.rename(self.at(name + ".new"), self.at(name))
        return self.at(name)

    def certify(self, *names, seconds=None):
        """Makes certificates anew, for 90 days or so many seconds: of orchestrator and controller also those as who they are etcd's clients."""
        names = [*names, *(f"etcd/{it}" for it in names if it in PREFIX)]
        words = ["--seconds", str(seconds)] if seconds is not None else []
        words = [f"{self.top}/tools/operate/certificates", *words, self.at("certificates"), SET, *names]
        came = subprocess.run(words, capture_output=True, text=True, check=False)
        if came.returncode:
            raise OSError(f"tools/operate/certificates: {came.stderr}")

    def files(self, name, ca="authorities"):
        folder = self.at("certificates", name.replace("/", "-"))
        return {ca: f"{folder}/ca.pem", "certificate": f"{folder}/cert.pem", "key": f"{folder}/key.pem"}

    # ---- the files

    def write_set(self):
        nodes = [{"id": name, "slots": 16, "address": f"{HOSTS[host]}:{PORT['node']}"} for name, host in NODES.items()]
        controllers = [f"{HOSTS[it]}:{PORT['controller']}" for it in PLACES["controller"]]
        self.set = {"set": SET, "greatest": 1 << 40, "staging": "/staging", "controllers": controllers, "nodes": nodes, "times": TIMES}
        self.write("set.json", self.set)

    def etcd(self, role, prefix=None):
        # etcd has an authority of its own; it would have users for the roles, with a prefix each, to keep these two apart.
        endpoints = [f"https://{it}:2379" for it in MEMBERS.values()]
        return {"endpoints": endpoints, "prefix": prefix or PREFIX[role], "lease": LEASE, **self.files(f"etcd/{role}", "ca")}

    def commands(self, *deeds):
        return dict.fromkeys(deeds, os.path.join(os.path.dirname(os.path.abspath(__file__)), "world.sh"))

    def add(self, name, role, host, prefix=None):
        """An orchestrator's service, or a controller."""
        listen = f"{HOSTS[host]}:{PORT[role]}"
        file = {"set": self.at("set.json"), "etcd": self.etcd(role, prefix), "listen": listen, **self.files(role)}
        if role == "orchestrator":
            file["clients"] = {it: "lose" for it in CLIENTS}
        else:
            file["commands"] = self.commands("create", "delete", "attach", "detach")
        self.made(name)
        self.parts[name] = Part(name, host, [f"{self.programs}/tufayon-{role}", self.write(f"{name}/{role}.json", file)], self.folder)
        return self.parts[name]

    def add_node(self, name):
        """A node, with its store on a small disk of its own."""
        if not os.path.ismount(self.made(name)):
            subprocess.run(["mount", "-t", "tmpfs", "-o", f"size={DISK},mode=700", "tmpfs", self.at(name)], check=True)
        file = {
            "set": self.at("set.json"), "node": name, "session": self.sessions[name], "store": self.at(name, "node.db"), "hooks": "none",
            "listen": f"{HOSTS[NODES[name]]}:{PORT['node']}", "commands": self.commands("stage", "unstage", "publish", "unpublish"),
            **self.files(f"node/{name}"),
        }
        words = ["env", f"TUFAYON_MACHINE={name}", f"{self.programs}/tufayon-node", self.write(f"{name}.json", file)]
        self.parts[name] = Part(name, NODES[name], words, self.folder)
        return self.parts[name]

    def add_member(self, name):
        address, its = MEMBERS[name], self.files(f"etcd/{MEMBERS[name]}")
        peer, client = f"https://{address}:2380", f"https://{address}:2379"
        words = ["etcd", "--name", name, "--data-dir", self.at(f"{name}.etcd"), "--listen-client-urls", client, "--advertise-client-urls", client]
        words += ["--listen-peer-urls", peer, "--initial-advertise-peer-urls", peer, *ETCD]
        words += ["--initial-cluster", ",".join(f"{it}=https://{where}:2380" for it, where in MEMBERS.items())]
        for kind in ("", "peer-"):
            words += [f"--{kind}cert-file", its["certificate"], f"--{kind}key-file", its["key"], f"--{kind}trusted-ca-file", its["authorities"]]
        self.parts[name] = Part(name, name, words, self.folder)

    # ---- its life

    def start(self):
        for name in MEMBERS:
            self.parts[name].start()
        self.until(lambda: self.healthy() == set(MEMBERS), "etcd is healthy")
        for name, part in self.parts.items():
            if name not in MEMBERS:
                part.start()
        self.until(lambda: all(self.leader(role) for role in PLACES), "an orchestrator and a controller lead")
        self.until(self.all_ready, "each plugin has begun the session")

    def until(self, holds, what):
        within = START * self.patience
        until = time.monotonic() + within
        while not holds():
            if time.monotonic() > until:
                raise Found(f"not within {within:.0f} seconds: {what}")
            time.sleep(0.1)

    def all_ready(self):
        """Whether the orchestrator that leads has begun its session at the controller and each node."""
        status, output, _ = self.control(CLIENTS[0], "nodes")
        return status == 0 and all(it["connection"] == "READY" and not it["trouble"] for it in json.loads(output)["nodes"])

    def ask(self, member, call, within=2, **request):
        """What the gateway of a member of etcd answers to a call."""
        its = self.files(f"etcd/{MEMBERS[member]}")
        context = ssl.create_default_context(cafile=its["authorities"])
        context.load_cert_chain(its["certificate"], its["key"])
        url = f"https://{MEMBERS[member]}:2379/{call}"
        data = json.dumps(request).encode() if request else None
        with urllib.request.urlopen(url, data=data, timeout=within, context=context) as answer:
            return json.load(answer)

    def asked(self, call, **request):
        """What one of the members answers, or None."""
        for member in MEMBERS:
            try:
                return self.ask(member, call, **request)
            except (OSError, ValueError):
                continue
        return None

    def healthy(self):
        """The members that say that they are well."""
        well = set()
        for member in MEMBERS:
            try:
                if self.ask(member, "health")["health"] == "true":
                    well.add(member)
            except (OSError, ValueError):
                pass
        return well

    def below(self, key):
        """All keys that begin so, with their values, by key."""
        came = self.asked("v3/kv/range", within=10, key=coded(key), range_end=coded(key[:-1] + chr(ord(key[-1]) + 1)))
        if came is None:
            raise Found("etcd doesn't answer")
        return {base64.b64decode(it["key"]).decode(): base64.b64decode(it.get("value", "")) for it in came.get("kvs", [])}

    def leader(self, role):
        """The part that leads by what etcd has, or None."""
        came = self.asked("v3/kv/range", key=coded(f"{PREFIX[role]}/leader/"), range_end=coded(f"{PREFIX[role]}/leader0"), sort_target="CREATE", limit=1)
        if not came or not came.get("kvs"):
            return None
        who = base64.b64decode(came["kvs"][0]["value"]).decode().split()[-1]  # its address, or its process
        parts = [it for name, it in self.parts.items() if name.startswith(role)]
        return next((it for it in parts if who in (str(it.pid), f"{HOSTS[it.machine]}:{PORT[role]}")), None)

    def control(self, client, *words, within=10):
        """What tufayonctl answers to a client: its exit status, and what it printed on standard output and on standard error."""
        its = self.files(f"client/{client}")
        address = ",".join(f"{HOSTS[it]}:{PORT['orchestrator']}" for it in PLACES["orchestrator"])
        options = ["--address", address, "--set", SET, "--json", "--timeout", f"{within}s"]
        for option in ("certificate", "key", "authorities"):
            options += [f"--{option}", its[option]]
        try:
            came = subprocess.run([f"{self.programs}/tufayonctl", *options, *words], capture_output=True, text=True, timeout=within + 10, check=False)
        except subprocess.TimeoutExpired:
            return 3, "", "it doesn't end"
        return came.returncode, came.stdout, came.stderr.strip()

    def end(self):
        """All programs but etcd end by themselves."""
        for name, part in self.parts.items():
            if name not in MEMBERS:
                part.end(END * self.patience)

    def keep_disks(self):
        """Puts what is on the nodes' disks, which go with this process, into the folder `disks`."""
        for name in NODES:
            shutil.copytree(self.at(name), self.at("disks", name), ignore=shutil.ignore_patterns("filling"))

    def stop(self):
        """Whatever runs is ended, at once."""
        for part in self.parts.values():
            part.stop()
        self.wire.process.kill()
        self.wire.process.wait()
        for part in self.parts.values():
            if part.starts:
                part.thread.join(5)
