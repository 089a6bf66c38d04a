"""A case's folder, the drivers that run in it, and calls to them by Python's gRPC, with messages that are made of the proto."""
import json
import os
import select
import signal
import subprocess
import time

import csi_pb2
import grpc
from program.running import LIMIT, Wrong, wanted

NODES = [{"id": "n1", "slots": 16}, {"id": "n2", "slots": 16}]
KEY = "tufayon-number"


def put_to_sleep(process):
    """Stops a process, and waits until each of its threads stands still: until then it may do some more."""
    process.send_signal(signal.SIGSTOP)
    until = time.monotonic() + LIMIT
    while any(state_of(f"/proc/{process.pid}/task/{it}/stat") not in "TZX" for it in os.listdir(f"/proc/{process.pid}/task")):
        if time.monotonic() > until:
            raise Wrong("a process doesn't stop")
        time.sleep(0.01)


def state_of(path):
    """The letter of a thread's state; X of one that isn't there any more."""
    try:
        with open(path, encoding="utf-8", errors="replace") as file:
            return file.read().rpartition(")")[2].split()[0]
    except OSError:
        return "X"


def service_of(name):
    if name.startswith("GetPlugin") or name == "Probe":
        return "Identity"
    return "Node" if name.startswith("Node") else "Controller"


class Driver:
    """A driver that serves, and a client of it."""

    def __init__(self, words, socket, serves=True):
        self.words, self.socket = words, socket
        self.said = b""
        self.process = subprocess.Popen(words, stderr=subprocess.PIPE, stdin=subprocess.DEVNULL, stdout=subprocess.DEVNULL, start_new_session=True)
        self.channel = None
        if serves:
            self.await_serving()

    def await_serving(self, within=LIMIT):
        """Reads what it says until it serves; fails where it ends before."""
        if not self.serves_within(within):
            self.process.kill()
            raise Wrong(f"{self.words} doesn't serve: {self.said!r}")
        self.connect()

    def connect(self):
        if self.channel:
            self.channel.close()
        self.channel = grpc.insecure_channel(f"unix:{self.socket}", options=[("grpc.use_local_subchannel_pool", 1)])

    def serves_within(self, seconds):
        until = time.monotonic() + seconds
        while b"serves at" not in self.said:
            ready, _, _ = select.select([self.process.stderr], [], [], max(0, until - time.monotonic()))
            more = os.read(self.process.stderr.fileno(), 4096) if ready else b""
            if not more:
                return False
            self.said += more
        return True

    def start(self, name, request, number=None, timeout=LIMIT):
        """Begins a call, of which `ended` says what comes."""
        call = self.channel.unary_unary(
            f"/csi.v1.{service_of(name)}/{name}",
            request_serializer=lambda it: it if isinstance(it, bytes) else it.SerializeToString(),
            response_deserializer=getattr(csi_pb2, f"{name}Response", csi_pb2.ProbeResponse).FromString,
        )
        metadata = () if number is None else ((KEY, number if isinstance(number, str) else f"{number[0]}.{number[1]}"),)
        return call.future(request, timeout=timeout, metadata=metadata)

    def ask(self, name, request, number=None, timeout=LIMIT):
        """What comes of a call: its status, its message, and the response, which is None where it is refused."""
        return ended(self.start(name, request, number, timeout))

    def wants(self, right, name, request, number=None):
        """Fails unless a call ends with this status and message."""
        status, detail, response = self.ask(name, request, number)
        wanted(f"{name} {request!s} {number}", (status, detail), right if isinstance(right, tuple) else (right, ""))
        return response

    def kill(self):
        self.process.kill()
        return self.close()

    def stop(self):
        """Ends it as a service manager does, and gives its status."""
        self.process.send_signal(signal.SIGTERM)
        return self.close()

    def close(self):
        if self.channel:
            self.channel.close()
        try:
            _, said = self.process.communicate(timeout=LIMIT)
            self.said += said
        except subprocess.TimeoutExpired:
            self.process.kill()
            raise Wrong(f"{self.words} doesn't end") from None
        return self.process.returncode


def ended(call):
    try:
        return 0, "", call.result()
    except grpc.RpcError as refused:
        return refused.code().value[0], refused.details(), None


class Box:
    """A folder of a case, and the programs."""

    def __init__(self, built, program, folder):
        self.built, self.program, self.folder = built, program, folder
        self.program_words = [f"{built}/csi-driver"]  # of a driver
        self.drivers = []
        self.put("config", json.dumps({"greatest": 1 << 40, "nodes": NODES}))

    def at(self, name):
        return f"{self.folder}/{name}"

    def put(self, name, content, mode=0o600):
        with open(self.at(name), "w", encoding="utf-8") as file:
            file.write(content)
        os.chmod(self.at(name), mode)
        return self.at(name)

    def controller(self, *options, store="controller.db", socket="controller", serves=True):
        where = [self.at(store)] if store else []
        return self.driver("controller", socket, [*options, *where, self.at("config")], serves)

    def node(self, *options, node="n1", session=None, serves=True):
        hooks = () if any(it.startswith("--hooks") for it in options) else ("--hooks", "none")
        joining = [] if session is None else [str(session)]
        return self.driver("node", node, [*hooks, *options, self.at(f"{node}.db"), node, *joining], serves)

    def driver(self, kind, name, words, serves=True):
        socket = self.at(f"{name}.d/csi.sock")
        driver = Driver([*self.program_words, kind, "--endpoint", f"unix://{socket}", *words], socket, serves)
        self.drivers.append(driver)
        return driver

    def replay(self, *words, given=b""):
        ran = subprocess.run([self.program, *words], input=given, capture_output=True, timeout=LIMIT, check=False)
        return ran.returncode, ran.stdout, ran.stderr

    def record(self, store):
        """What csi-replay prints of a store."""
        status, out, error = self.replay("record", self.at(store))
        wanted(f"record of {store}", (status, error), (0, b""))
        return json.loads(out)

    def end(self):
        """Ends what runs still, and takes away what a driver mounted in the folder."""
        for driver in self.drivers:
            if driver.process.poll() is None:
                driver.process.send_signal(signal.SIGCONT)
                driver.process.kill()
                driver.process.wait()
            driver.process.stderr.close()
        with open("/proc/self/mountinfo", encoding="utf-8") as mounts:
            mounted = [line.split()[4] for line in mounts]
        for path in mounted:
            if path.startswith(self.folder + "/"):
                subprocess.run(["umount", path], check=False)
