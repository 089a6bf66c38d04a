"""A controller's store in etcd: three servers on loopback, of which some die, and drivers that are killed, cut off, or sleep through their
lease."""
import re
import shutil
import signal
import subprocess
import time

import csi_pb2
from program import frames, stores
from program.running import LIMIT, LeftOut, Wrong, wanted

from . import starting
from .box import put_to_sleep
from .requests import attach, create, delete, detach
from .servers import DEBIAN, free_ports, over


def wait_to_serve(driver, within):
    """Waits until a driver leads, and says how long that took."""
    since = time.monotonic()
    driver.await_serving(within)
    return time.monotonic() - since


@over(3)
def killed(box, cluster):
    """The driver that leads is killed; the other one goes on, and gives each reply that was given before."""
    first, second = cluster.driver("first"), cluster.driver("second", serves=False)
    answers = {}
    for at in range(1, 41):
        name, request = ("CreateVolume", create(f"v{at}")) if at <= 20 else ("ControllerPublishVolume", attach(at - 20, "n1" if at <= 36 else "n2"))
        answers[at] = first.ask(name, request, (1, at))
        wanted(f"call {at}", answers[at][0], 0)
    wanted("only one serves", second.serves_within(0.2), False)
    first.kill()
    took = wait_to_serve(second, 30)
    for at in range(1, 41):
        name, request = ("CreateVolume", create(f"v{at}")) if at <= 20 else ("ControllerPublishVolume", attach(at - 20, "n1" if at <= 36 else "n2"))
        if at > 20:  # a create's number isn't the volume's last any more
            came = second.ask(name, request, (1, at))
            wanted(f"call {at} again", str(came), str(answers[at]))
        else:
            wanted(f"call {at} is late", second.ask(name, request, (1, at))[:2], (10, "stale"))
    second.wants(0, "ControllerUnpublishVolume", detach(1), (2, 1))
    wanted("it gives the lead back", second.stop(), 0)
    third = cluster.driver("third")
    third.wants((10, "stale"), "ControllerPublishVolume", attach(1), (1, 21))
    wanted("parts", len(cluster.parts()), 21)
    return f"the other serves after {took:.1f} s"


@over(3)
def etcd_leader(box, cluster):
    """etcd's own leader is killed under a driver: no reply is lost, and none is wrong."""
    driver = cluster.driver("first")
    driver.wants(0, "CreateVolume", create("v"), (1, 1))
    cluster.servers[cluster.leader()].kill()
    number, done, refused = 1, 0, 0
    since = time.monotonic()
    while done < 20 and time.monotonic() - since < 40:
        number += 1
        name, request = ("ControllerPublishVolume", attach(1)) if number % 2 == 0 else ("ControllerUnpublishVolume", detach(1))
        status, detail, _ = driver.ask(name, request, (1, number))
        if status == 14:  # it ended, since it couldn't know what became of the commit: the same call again
            refused += 1
            wanted("its end", driver.close(), 3)
            wanted("its line", any(it in driver.said for it in (b"isn't known", b"leadership lost")), True)
            driver = cluster.driver(f"again{refused}", serves=False)
            wait_to_serve(driver, 40)
            status, detail, _ = driver.ask(name, request, (1, number))
        wanted(f"call {number}", (status, detail), (0, ""))
        done += 1
    wanted("calls", done, 20)
    return f"{refused} ends, {time.monotonic() - since:.1f} s"


@over(3)
def asleep(box, cluster):
    """A driver sleeps through its lease; another goes on; the first one wakes up, and commits and answers nothing."""
    first, second = cluster.driver("first"), cluster.driver("second", serves=False)
    first.wants(0, "CreateVolume", create("v"), (1, 1))
    first.wants(0, "ControllerPublishVolume", attach(1), (1, 2))
    put_to_sleep(first.process)
    late = [first.start("ControllerUnpublishVolume", detach(1), (1, 3)), first.start("DeleteVolume", delete(9), (1, 4))]
    took = wait_to_serve(second, 30)
    second.wants(0, "ControllerPublishVolume", attach(1), (1, 2))
    second.wants(0, "CreateVolume", create("w"), (1, 5))
    before = cluster.parts()
    first.process.send_signal(signal.SIGCONT)
    for call in late:
        wanted("a call of the one that slept", call.code().value[0], 14)
    wanted("its end", first.close(), 3)
    wanted("its line", b"leadership lost" in first.said, True)
    wanted("the record", cluster.parts(), before)
    second.wants((9, "n1"), "ControllerPublishVolume", attach(1, "n2"), (1, 6))
    return f"the other served after {took:.1f} s"


def until_served(cluster, driver, clients, *call):
    """Has a call answered, by another driver where one ended: while etcd finds a leader, a lease may end."""
    for turn in range(5):
        if driver.serves_within(30):
            driver.await_serving()
            if (came := driver.ask(*call)[:2])[0] != 14:
                return driver, came
        driver.kill()
        driver = cluster.driver(f"again{turn}", serves=False, clients=clients)
    raise Wrong(f"no driver answers {call}")


def cut_off(from_leader):
    @over(3)
    def body(_box, cluster):
        """The one server that a driver speaks to sleeps: what became of its commit isn't known. It ends, another goes on, and the commit comes to nothing."""
        at = (cluster.leader() + (0 if from_leader else 1)) % 3
        others = [it for it in cluster.clients if it != cluster.clients[at]]
        first, second = cluster.driver("first", clients=[cluster.clients[at]]), cluster.driver("second", serves=False, clients=others)
        first.wants(0, "CreateVolume", create("v"), (1, 1))
        first.wants(0, "ControllerPublishVolume", attach(1), (1, 2))
        cluster.await_drivers(2)
        put_to_sleep(cluster.servers[at])
        late = first.start("ControllerUnpublishVolume", detach(1), (1, 3))
        since = time.monotonic()
        second, came = until_served(cluster, second, others, "ControllerPublishVolume", attach(1), (1, 2))
        wanted("the kept reply", came, (0, ""))
        took, before = time.monotonic() - since, cluster.parts(others[0])
        wanted("the late call", (late.code().value[0], late.details()), (14, "serving ended"))
        wanted("its end", (first.close(), b"csi-driver: a commit's outcome isn't known: " in first.said), (3, True))
        cluster.servers[at].send_signal(signal.SIGCONT)
        cluster.await_healthy(at)
        time.sleep(1)
        wanted("the record", [cluster.parts(it) for it in cluster.clients], [before] * 3)
        _, came = until_served(cluster, second, others, "ControllerPublishVolume", attach(1, "n2"), (1, 6))
        wanted("another node", came, (9, "n1"))
        return f"the other served after {took:.1f} s"

    return body


@over(3)
def asleep_by_turns(box, cluster):
    """Ten times one sleeps and another takes over: each volume was made once, whoever was asked, and no reply is lost."""
    drivers, made = [cluster.driver("d0")], {}
    for turn in range(1, 6):
        leads = drivers[-1]
        for at in range(5):
            number = (turn, at + 1)
            made[f"v{turn}.{at}"] = leads.wants(0, "CreateVolume", create(f"v{turn}.{at}"), number).volume.volume_id
        next_one = cluster.driver(f"d{turn}", serves=False)
        if turn % 2:
            put_to_sleep(leads.process)
        else:
            leads.kill()
        wait_to_serve(next_one, 30)
        if turn % 2:
            leads.process.send_signal(signal.SIGCONT)
            wanted("the end of one that slept", (leads.close(), b"leadership lost" in leads.said), (3, True))
        for at in range(5):
            again = next_one.wants(0, "CreateVolume", create(f"v{turn}.{at}"), (turn, at + 1)).volume.volume_id
            wanted("the same volume", again, made[f"v{turn}.{at}"])
        drivers.append(next_one)
    wanted("the ids", sorted(int(it) for it in made.values()), list(range(1, 26)))
    return "5 turns, 25 volumes"


def line_of(driver):
    """What a driver says at its end, besides that it waits."""
    return b"".join(line for line in driver.said.splitlines(True) if b"csi-driver: waits at " not in line)


def too_small(driver):
    """What a driver says that ended since etcd takes no commit that is large enough: the options that it asks for."""
    told = rb"csi-driver: etcd takes no commit that is large enough: it has to run with (--max-txn-ops) (\d+) and (--max-request-bytes) (\d+) or more: .*\n"
    wanted("the end", driver.close(), 3)
    said = re.fullmatch(told, line_of(driver))
    wanted(f"its line: {driver.said}", bool(said), True)
    return [it.decode() for it in said.groups()]


@over(1, "--max-txn-ops", "100")
def small(box, cluster):
    """An etcd that takes less than by itself isn't served from, unless it gets the options that are told; nor one that isn't on loopback, without TLS."""
    for less in ((), ("--max-request-bytes", "100000")):
        if less:
            cluster.restart(*less)
        asked = too_small(cluster.driver("first", serves=False))
        cluster.restart(*asked)
        wanted("it serves then", cluster.driver("first").stop(), 0)
    cluster.restart(*DEBIAN)
    wanted("long keys", cluster.driver("first", prefix="/" + "p" * 300).stop(), 0)
    wanted("parts", cluster.parts(), [starting.HEAD(1, 0)])
    driver = box.controller("--etcd", "http://192.0.2.1:2379", "--prefix", "/t", store=None, serves=False)
    line = b"csi-driver: store not opened: http://192.0.2.1:2379 isn't on loopback, so a client's certificate is needed\n"
    wanted("no TLS", (driver.close(), line_of(driver)), (3, line))
    cluster.end()
    driver = cluster.driver("first", serves=False)
    wanted("no etcd", (driver.close(), line_of(driver)[:30]), (3, b"csi-driver: store not opened: "))


@over(3)
def waiting(_box, cluster):
    """One that waits has its socket, and tells that it isn't ready; it ends at once."""
    first, second = cluster.driver("first"), cluster.driver("second", serves=False)
    cluster.await_drivers(2)
    second.connect()
    wanted("ready", second.wants(0, "Probe", csi_pb2.ProbeRequest()).ready.value, False)
    wanted("a call", second.ask("CreateVolume", create("v"), (1, 1))[0], 14)
    first.wants(0, "CreateVolume", create("v"), (1, 1))
    first.stop()
    second.await_serving()
    wanted("ready", second.wants(0, "Probe", csi_pb2.ProbeRequest()).ready.value, True)
    third = cluster.driver("third", serves=False)
    cluster.await_drivers(2)
    wanted("the end of one that waits", third.stop(), 0)


@over(1)
def restarted(_box, cluster):
    """A server that is killed and comes again is waited for, with the call that is under way."""
    driver = cluster.driver("first", lease=20)
    for turn in range(1, 4):
        cluster.end()
        call = driver.start("CreateVolume", create(f"v{turn}"), (turn, 1))
        time.sleep(0.5 * turn)
        cluster.begin(DEBIAN)
        wanted("the call", call.code().value[0], 0)
    wanted("parts", len(cluster.parts()), 4)
    wanted("its end", driver.stop(), 0)


@over(3)
def machine_gone(_box, cluster):
    """The leader's machine is cut off, with the server there, whichever that is: the one that waits takes over."""
    took = []
    for at in range(3):
        first, second = cluster.driver(f"first{at}"), cluster.driver(f"second{at}", serves=False, lease=20)
        others = [it for it in cluster.clients if it != cluster.clients[at]]
        first.wants(0, "CreateVolume", create(f"v{at}"), (at + 1, 1))
        cluster.await_drivers(2)
        put_to_sleep(first.process)
        put_to_sleep(cluster.servers[at])
        took.append(wait_to_serve(second, 60))
        second, came = until_served(cluster, second, others, "CreateVolume", create(f"v{at}"), (at + 1, 1))
        wanted("the kept reply", came, (0, ""))
        cluster.servers[at].send_signal(signal.SIGCONT)
        cluster.await_healthy(at)
        first.process.send_signal(signal.SIGCONT)
        wanted("its end", (first.close(), second.stop()), (3, 0))
    return ", ".join(f"{it:.1f} s" for it in took)


ROWS = 4096  # as many as there may be


@over(1)
def forgets(_box, cluster):
    """A session that forgets all volumes but one is one commit, in pieces."""
    rows = [starting.ROW(at, f"v{at}", stores.kept("DeleteVolume", (1, at)), live=False) for at in range(2, ROWS + 1)]
    kept = starting.ROW(1, "v", stores.kept("CreateVolume", (1, 1), 0, 1))
    cluster.put([starting.HEAD(ROWS + 1, 1), kept, *rows])
    driver = cluster.driver("first")
    driver.wants((8, "volumes"), "CreateVolume", create("w"), (1, 9000))
    wanted("parts", len(cluster.parts()), ROWS + 1)
    driver.wants(0, "CreateVolume", create("w"), (2, 1))
    made = starting.ROW(ROWS + 1, "w", stores.kept("CreateVolume", (2, 1), 0, ROWS + 1))
    wanted("parts", cluster.parts(), [starting.HEAD(ROWS + 2, 2), kept, made])


@over(1)
def renewed(_box, cluster):
    """A record of an earlier version, put there by hand, becomes one of the present version, and nothing else is left."""
    cluster.put(starting.older(1))
    driver = cluster.driver("first")
    wanted("the parts", cluster.parts(), starting.RENEWED)
    driver.wants(0, "CreateVolume", create("v"), (1, 1))


def rewritten(ways):
    """A record of an earlier version that is larger than what etcd takes at once goes in pieces: rows of names of 128 bytes, and of so many capabilities."""

    def row(at, version):
        last, how = stores.kept("CreateVolume", (1, at), 0, at), [frames.mount("f" * 128, 1)] * ways
        return starting.ROW(at, f"{at:0128}", last, capabilities=how, version=version)

    @over(1)
    def body(_box, cluster):
        older, later = ([starting.HEAD(ROWS + 1, 1, version), *(row(at, version) for at in range(1, ROWS + 1))] for version in (2, 3))
        cluster.put(older)
        driver = cluster.driver("first", lease=20)
        wanted("the parts", cluster.parts() == later, True)
        driver.wants(0, "DeleteVolume", delete(ROWS), (1, ROWS + 1))
        return f"{sum(len(value) for _, value in later)} bytes of parts"

    return body


def certified(box, name, *more):
    """A key and a certificate, signed by the key `ca`, or by its own."""
    signer = ["-CA", box.at("ca.pem"), "-CAkey", box.at("ca.key")] if name != "ca" else []
    files = ["-keyout", box.at(f"{name}.key"), "-out", box.at(f"{name}.pem")]
    words = ["openssl", "req", "-x509", "-newkey", "rsa:2048", "-nodes", "-days", "2", "-subj", f"/CN={name}", *files]
    if subprocess.run([*words, *signer, *more], capture_output=True, timeout=LIMIT, check=False).returncode:
        raise LeftOut("openssl makes no certificate so")


def secured(box):
    """etcd that asks for a client's certificate, by TLS."""
    for tool in ("etcd", "openssl"):
        if not shutil.which(tool):
            raise LeftOut(f"there is no {tool}")
    certified(box, "ca")
    for name in ("server", "client"):
        certified(box, name, "-addext", "subjectAltName=IP:127.0.0.1", "-addext", "basicConstraints=critical,CA:FALSE")
    client, peer = (f"127.0.0.1:{port}" for port in free_ports(2))
    words = ["etcd", "--data-dir", box.at("e"), "--listen-client-urls", f"https://{client}", "--advertise-client-urls", f"https://{client}"]
    words += ["--listen-peer-urls", f"http://{peer}", "--initial-advertise-peer-urls", f"http://{peer}", "--initial-cluster", f"default=http://{peer}"]
    words += ["--cert-file", box.at("server.pem"), "--key-file", box.at("server.key"), "--client-cert-auth", "--trusted-ca-file", box.at("ca.pem"), *DEBIAN]
    with open(box.at("e.log"), "wb") as said:
        server = subprocess.Popen(words, stdout=said, stderr=said, stdin=subprocess.DEVNULL)
    try:
        files = ["--etcd-ca", box.at("ca.pem"), "--etcd-cert", box.at("client.pem"), "--etcd-key", box.at("client.key")]
        driver = box.controller("--etcd", f"https://{client}", "--prefix", "/t", *files, store=None)
        driver.wants(0, "CreateVolume", create("v"), (1, 1))
        wanted("the end", driver.stop(), 0)
        driver = box.controller("--etcd", f"https://{client}", "--prefix", "/t", store=None, serves=False)
        wanted("without a certificate", (driver.close(), line_of(driver)[:30]), (3, b"csi-driver: store not opened: "))
        driver = box.controller("--etcd", f"http://{client}", "--prefix", "/t", *files, store=None, serves=False)
        wanted("without TLS", (driver.close(), line_of(driver)), (3, f"csi-driver: store not opened: http://{client} isn't spoken to by TLS\n".encode()))
    finally:
        server.kill()
        server.wait()


def paced(count):
    @over(3)
    def body(box, cluster):
        """Commits a second, beside a store in SQLite on the same disk."""
        rates = {}
        for name, driver in (("etcd", cluster.driver("first")), ("SQLite", box.controller(socket="second"))):
            since = time.monotonic()
            for at in range(1, count + 1):
                driver.wants(0, "CreateVolume", create("v"), (1, at))
            rates[name] = count / (time.monotonic() - since)
        return ", ".join(f"{name} {rate:.0f} calls a second" for name, rate in rates.items())

    return body


def cases(drawn, _seed):
    if drawn < 1000:
        return  # the gate needs no servers
    yield "etcd: too small, or without TLS", small
    yield "etcd: one that waits", waiting
    yield "etcd: a server that restarts", restarted
    yield "etcd: the leader's machine is cut off", machine_gone
    yield "etcd: the driver is killed", killed
    yield "etcd: its leader is killed", etcd_leader
    yield "etcd: the driver sleeps", asleep
    yield "etcd: a driver that is cut off", cut_off(False)
    yield "etcd: a driver that is cut off with etcd's leader", cut_off(True)
    yield "etcd: drivers by turns", asleep_by_turns
    yield "etcd: a session that forgets", forgets
    yield "etcd: a record of an earlier version", renewed
    yield "etcd: one that is too large for it", rewritten(2)
    yield "etcd: one that is too large for gRPC", rewritten(8)
    yield "etcd: by TLS", secured
    yield "etcd: commits a second", paced(1000)
