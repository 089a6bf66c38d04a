"""A driver before another one, which is a csi-driver too: what a client knows that has read CSI's spec.md alone, its words, and its store."""
import subprocess

from program.running import LIMIT, wanted

from . import sanity
from .requests import attach, create, detach

# Of sanity's groups those in which the upstream's refusal leaves nothing in the ledger that a later call meets, and nothing is listed.
GROUPS = (sanity.identity, sanity.creating, sanity.deleting, sanity.validating, sanity.missing, sanity.life, sanity.unknown, sanity.together)


class Before:
    """A box whose drivers stand before others, of stores of their own."""

    def __init__(self, box):
        self.box, self.behind = box, []

    def __getattr__(self, name):
        return getattr(self.box, name)

    def pair(self, kind, name, behind, options, words):
        self.behind.append(self.box.driver(kind, f"{name}-behind", [*options, *behind, self.at(f"{name}-behind.db"), *words]))
        numbers = [it for at, it in enumerate(options) if it == "--numbers" or at and options[at - 1] == "--numbers"]
        upstream = ["--upstream", f"unix://{self.behind[-1].socket}"]
        return self.box.driver(kind, name, [*numbers, *upstream, self.at(f"{name}.db"), *words])

    def controller(self, *options):
        return self.pair("controller", "controller", (), options, [self.at("config")])

    def node(self, *options):
        return self.pair("node", "n1", (), options, ["n1"])


def suite(numbers):
    def body(box):
        hooks = sanity.hooks_here()
        calls = 0
        for group in GROUPS:
            before = Before(box)
            client = sanity.Client(before, numbers, hooks)
            client.mounts = hooks == "mounts"
            group(client)
            wanted(f"{group.__name__}: their ends", [it.stop() for it in (client.controller, client.node, *before.behind)], [0] * 4)
            calls += client.call
            sanity.forget(box)
        return f"{len(GROUPS)} groups, {calls} calls, hooks {hooks}"

    return body


def words(box):
    """What its words are, and which are refused."""
    program, upstream = f"{box.built}/csi-driver", ["--upstream", "unix:///u"]
    for kind, given in (
        ("controller", ["--upstream", "u", "--numbers", "arrival"]),
        ("controller", [*upstream, "--on-attach", "/bin/true"]),
        ("controller", [*upstream, "--lost", "n1"]),
        ("controller", ["--adopt"]),
        ("controller", ["--lost", "n1", "--numbers", "arrival"]),
        ("controller", [*upstream, "--name", "a.example"]),
        ("node", [*upstream, "--hooks", "mounts"]),
        ("node", [*upstream, "--max-volumes", "3"]),
        ("node", [*upstream, "--adopt"]),
    ):
        what = [box.at("config")] if kind == "controller" else ["n1"]
        ran = subprocess.run([program, kind, "--endpoint", "unix:///x", *given, box.at("x.db"), *what], capture_output=True, timeout=LIMIT, check=False)
        wanted(f"{kind} {given}", (ran.returncode, ran.stderr[:18]), (2, b"csi-driver: usage:"))


def stores(box):
    """Its store is no other program's, and no other one's is its; what it has is there again after a kill."""
    behind = box.driver("controller", "behind", ["--numbers", "arrival", box.at("behind.db"), box.at("config")])
    options = ["--numbers", "arrival", "--upstream", f"unix://{behind.socket}"]
    driver = box.controller(*options)
    volume = driver.wants(0, "CreateVolume", create("v")).volume.volume_id
    driver.wants(0, "ControllerPublishVolume", attach(volume, "n1"))
    driver.kill()
    refused = (3, b"csi-driver: store not opened: it has other tables\n")
    plain = box.controller("--numbers", "arrival", serves=False)
    wanted("a driver without an upstream", (plain.close(), plain.said), refused)
    status, _, error = box.replay("controller", box.at("controller.db"), box.at("config"))
    wanted("csi-replay", (status, error), (3, b"csi-replay: store not opened\n"))
    driver = box.controller(*options)
    driver.wants((9, "n1"), "ControllerPublishVolume", attach(volume, "n2"))
    driver.wants(0, "ControllerUnpublishVolume", detach(volume, "n1"))
    driver.wants(0, "ControllerPublishVolume", attach(volume, "n2"))
    wanted("its end", driver.stop(), 0)
    behind.stop()
    other = box.controller(*options, store="behind.db", serves=False)
    wanted("the store of a driver without an upstream", (other.close(), other.said[:28]), (3, b"csi-driver: store not opened"))


def cases(drawn, _seed):
    yield "upstream: words", words
    yield "upstream: stores", stores
    for numbers in ("metadata", "arrival") if drawn > 1000 else ("metadata",):
        yield f"upstream: sanity by {numbers}", suite(numbers)
