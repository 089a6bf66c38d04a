"""Secrets, parameters, contexts and mount flags: hooks read them from a pipe, and they stand nowhere else; what a controller's hooks answer."""
import glob
import json
import os

from program.running import wanted

from .requests import attach, capability, create, delete, detach, publish, stage, unpublish, unstage

SECRET, PARAMETER, FLAG = "s3cret-of-a-test", "parameter-of-a-test", "flag-of-a-test"
HOOK = """#!/bin/sh
cat > {folder}/input.$TUFAYON_CALL
tr '\\0' '\\n' < /proc/$$/environ > {folder}/environ.$TUFAYON_CALL
tr '\\0' '\\n' < /proc/$$/cmdline > {folder}/words.$TUFAYON_CALL
[ ! -e {folder}/broken ] || {{ cat {folder}/input.$TUFAYON_CALL >&2; exit 1; }}
[ ! -e {folder}/answer.$TUFAYON_CALL ] || cat {folder}/answer.$TUFAYON_CALL
"""


class Told:
    """A controller and a node whose hooks keep what they are told."""

    def __init__(self, box):
        self.box, self.call = box, 0
        os.mkdir(box.at("told"))
        hook = box.put("hook", HOOK.format(folder=box.at("told")), 0o700)
        of_controller, of_node = ("create", "delete", "attach", "detach"), ("stage", "unstage", "publish", "unpublish")
        self.controller, self.node = (
            start(*(word for name in names for word in (f"--on-{name}", hook))) for start, names in ((box.controller, of_controller), (box.node, of_node))
        )

    def wants(self, right, name, request, at=None):
        """The response, and what the hook read."""
        self.call += 1
        driver = self.node if name.startswith("Node") else self.controller
        response = driver.wants(right, name, request, at or (1, self.call))
        path = self.box.at(f"told/input.{name}")
        if not os.path.exists(path):
            return response, None
        with open(path, encoding="utf-8") as file:
            told = json.load(file)
        os.remove(path)
        return response, told

    def answers(self, name, answer):
        self.box.put(f"told/answer.{name}", answer)


def secret_of(name):
    return {"secrets": {"key": f"{SECRET}-{name}"}}


def told(box):
    """Each hook reads its call's from its standard input, and what the controller's answer comes with each response, a repeat's too."""
    both, how = Told(box), capability(5, "ext4")
    how.mount.mount_flags.append(FLAG)
    flags, made, there = {"mount_flags": [FLAG]}, {"volume_context": {"a": "1"}}, {"publish_context": {"b": "2"}}
    both.answers("CreateVolume", json.dumps(made))
    both.answers("ControllerPublishVolume", json.dumps(there))
    asked = create("v", capabilities=[how], parameters={"pool": PARAMETER}, **secret_of("create"))
    for _ in range(2):
        response, came = both.wants(0, "CreateVolume", asked)
        wanted("the response", dict(response.volume.volume_context), made["volume_context"])
        capabilities = [{"access": "mount", "fs_type": "ext4", "mode": 5}]
        wanted("told", came, {**secret_of("create"), "parameters": {"pool": PARAMETER}, **flags, "capabilities": capabilities})
    asked = attach(1, "n1", how, **secret_of("attach"), **made)
    for at in ((1, 10), (1, 10), (1, 11)):
        response, _ = both.wants(0, "ControllerPublishVolume", asked, at)
        wanted("the response", dict(response.publish_context), there["publish_context"])
    _, came = both.wants(0, "ControllerPublishVolume", asked, (1, 12))
    wanted("told", came, {**secret_of("attach"), **made, **flags})
    for name, request in (("NodeStageVolume", stage(1, how, **secret_of("stage"), **made, **there)),
                          ("NodePublishVolume", publish(1, how=how, **secret_of("stage"), **made, **there))):
        _, came = both.wants(0, name, request)
        wanted("told", came, {**secret_of("stage"), **made, **there, **flags})
    for name, request, right in (
        ("NodeUnpublishVolume", unpublish(1), {}),
        ("NodeUnstageVolume", unstage(1), {}),
        ("ControllerUnpublishVolume", detach(1, **secret_of("detach")), secret_of("detach")),
        ("DeleteVolume", delete(1, **secret_of("delete")), secret_of("delete")),
    ):
        _, came = both.wants(0, name, request, (2, both.call))
        wanted(f"{name} is told", came, right)
        wanted(f"{name} of what isn't there", both.wants(0, name, request, (2, both.call))[1], None)
    hidden(both)


def failing(box):
    """A hook that says all that it was told fails without it; and what it answers may have no secret."""
    both, how = Told(box), capability(5, "ext4")
    how.mount.mount_flags.append(FLAG)
    box.put("told/broken", "")
    request = create("v", capabilities=[how], parameters={"pool": PARAMETER}, **secret_of("create"))
    line = {"secrets": {"key": "***"}, "parameters": {"pool": "***"}, "mount_flags": ["***"], "capabilities": [{"access": "mount", "fs_type": "ext4", "mode": 5}]}
    both.wants((14, json.dumps(line, separators=(",", ":"))), "CreateVolume", request)
    both.wants((14, '{"secrets":{"key":"***"},"mount_flags":["***"]}'), "NodeStageVolume", stage(1, how, **secret_of("stage")))
    os.remove(box.at("told/broken"))
    for answer, fault in ((f'{{"volume_context":{{"k":"{SECRET}-create"}}}}', "tells a secret"), (f"{SECRET}-create", "is no such object")):
        both.answers("CreateVolume", answer)
        both.wants((14, f"the hook's answer {fault}"), "CreateVolume", request)
    hidden(both)


def hidden(both):
    """Nothing private stands in what drivers said, in their stores, or in a hook's environment and words."""
    drivers = (both.controller, both.node)
    wanted("their ends", [driver.stop() for driver in drivers], [0, 0])
    contents = {f"{it.words[1]}'s log": it.said for it in drivers}
    told = [path for kind in ("environ", "words") for path in glob.glob(both.box.at(f"told/{kind}.*"))]
    kept = [path for path in glob.glob(both.box.at("*.db*")) if os.path.isfile(path)]
    wanted("what is looked at", (len(told) > 2, len(kept) > 1), (True, True))
    for path in told + kept:
        with open(path, "rb") as file:
            contents[path] = file.read()
    for text in (SECRET, PARAMETER, FLAG):
        wanted(f"where {text} stands", [path for path, content in contents.items() if text.encode() in content], [])


def cases(_drawn, _seed):
    yield "private: what hooks are told", told
    yield "private: a hook that fails", failing
