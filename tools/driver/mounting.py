"""What the driver mounts where no command is given, and what it leaves alone. Each case is in a mount namespace, which needs root."""
import ctypes
import errno
import os
import subprocess

from program.running import LeftOut, Wrong, wanted

from .requests import BLOCK, capability, publish, stage, unpublish, unstage

HOW = capability(7, "ext4")
NEW_NAMESPACE = 0x00020000  # CLONE_NEWNS


def own_namespace():
    """From here on this thread, and what it starts, mount for themselves alone."""
    if ctypes.CDLL(None, use_errno=True).unshare(NEW_NAMESPACE):
        raise LeftOut(f"there is no mount namespace: {os.strerror(ctypes.get_errno())}")
    if subprocess.run(["mount", "--make-rprivate", "/"], capture_output=True, check=False).returncode:
        raise LeftOut("nothing may be mounted here")


def tmpfs(path, options="rw"):
    """Somebody else's mount."""
    subprocess.run(["mount", "-t", "tmpfs", "-o", options, "none", path], check=True)


def options_at(path):
    """The options of each mount at a path."""
    with open("/proc/self/mountinfo", encoding="utf-8") as mounts:
        lines = [line.split() for line in mounts]
    return [set(line[5].split(",")) for line in lines if line[4] == path.replace(" ", "\\040")]


def is_mounted(path):
    """Whether something is mounted at a path: a bind mount too, which has its device."""
    return bool(options_at(path))


class Mounting:
    """A node that mounts."""

    def __init__(self, box):
        own_namespace()
        self.box, self.call = box, 0
        self.node = box.node("--hooks", "mounts")

    def wants(self, right, name, request):
        self.call += 1
        return self.node.wants(right, name, request, (1, self.call))

    def refused(self, name, request, code, *words):
        """Fails unless the call ends so, with a message that has the words."""
        self.call += 1
        status, detail, _ = self.node.ask(name, request, (1, self.call))
        wanted(f"{name} {request!s}: {detail}", (status, [it for it in words if it not in detail]), (code, []))

    def stages(self, volume, name):
        self.wants(0, "NodeStageVolume", stage(volume, HOW, self.box.at(name)))
        self.box.put(f"{name}/{name}", "content")

    def publication(self, volume, name, target, readonly=False, how=HOW):
        return publish(volume, self.box.at(target), how, readonly, self.box.at(name))

    def publishes(self, volume, name, target, readonly=False, how=HOW):
        self.wants(0, "NodePublishVolume", self.publication(volume, name, target, readonly, how))

    def unpublishes(self, volume, target):
        self.wants(0, "NodeUnpublishVolume", unpublish(volume, self.box.at(target)))


def mounted(box):
    """The volume's directory stands at each target, and can't be written where it is readonly; after a kill too."""
    own = Mounting(box)
    own.stages(1, "staging dir")
    own.publishes(1, "staging dir", "read", True)
    own.publishes(1, "staging dir", "write")
    box.put("write/file", "content")
    with open(box.at("read/file"), encoding="utf-8") as file:
        wanted("the file", file.read(), "content")
    try:
        box.put("read/file", "other")
        raise Wrong("a readonly target was written")
    except OSError as refused:
        wanted("the refusal", refused.errno, errno.EROFS)
    own.node.kill()
    subprocess.run(["umount", box.at("write")], check=True)  # as a restart of the machine does
    own.node = box.node("--hooks", "mounts")
    own.call -= 1
    own.publishes(1, "staging dir", "write")  # the call of the same number
    own.publishes(1, "staging dir", "read", True)
    wanted("the mounts", [len(options_at(box.at(it))) for it in ("read", "write")], [1, 1])
    for name in ("read", "write"):
        for _ in range(2):
            own.unpublishes(1, name)
            wanted("the target", os.path.exists(box.at(name)), False)
    own.wants(0, "NodeUnstageVolume", unstage(1, box.at("staging dir")))
    wanted("the staged files", sorted(os.listdir(box.at("staging dir"))), ["file", "staging dir"])


def others(box):
    """Somebody else's mount at a target is an error, and stays; so does what the ledger doesn't have."""
    own = Mounting(box)
    own.stages(1, "one")
    own.stages(2, "two")
    own.publishes(1, "one", "t")
    own.refused("NodePublishVolume", own.publication(2, "two", "t"), 14, "something else is mounted there")
    wanted("what is at the target", os.listdir(box.at("t")), ["one"])
    own.unpublishes(2, "t")  # its publication failed
    own.unpublishes(3, "t")
    wanted("what is at the target", os.listdir(box.at("t")), ["one"])
    for name in ("foreign", "empty"):
        os.mkdir(box.at(name))
    tmpfs(box.at("foreign"))
    for volume in (1, 3):
        for target in ("foreign", "empty"):
            own.unpublishes(volume, target)
            wanted("what isn't in the ledger", os.path.isdir(box.at(target)), True)
    own.refused("NodePublishVolume", own.publication(1, "one", "foreign"), 14, "something else is mounted there")
    own.unpublishes(1, "foreign")
    wanted("the mounts", [len(options_at(box.at(it))) for it in ("t", "foreign")], [1, 1])
    own.unpublishes(1, "t")
    wanted("the target", os.path.exists(box.at("t")), False)


def kept(box):
    """Flags of the volume's mount stay at a readonly target; those of the capability are put in; others are refused."""
    own = Mounting(box)
    os.mkdir(box.at("v"))
    tmpfs(box.at("v"), "nosuid,nodev,noexec")
    own.stages(1, "v")
    own.publishes(1, "v", "r", True)
    wanted("the flags", options_at(box.at("r"))[0] & {"ro", "rw", "nosuid", "nodev", "noexec"}, {"ro", "nosuid", "nodev", "noexec"})
    own.stages(2, "w")
    flagged = capability(7, "ext4")
    flagged.mount.mount_flags.extend(["noexec", "noatime"])
    own.publishes(2, "w", "f", how=flagged)
    wanted("the flags", options_at(box.at("f"))[0] & {"ro", "noexec", "noatime"}, {"noexec", "noatime"})
    flagged.mount.mount_flags.append("data=ordered")
    own.wants((3, "mount_flags"), "NodePublishVolume", own.publication(2, "w", "g", how=flagged))
    wanted("what is made", os.path.exists(box.at("g")), False)


def refused(box):
    """A block device isn't there, links aren't followed, and where nothing may be mounted, it isn't published."""
    own = Mounting(box)
    own.wants((9, "no device"), "NodeStageVolume", stage(1, BLOCK, box.at("block")))
    wanted("what is made", os.path.exists(box.at("block")), False)
    os.mkdir(box.at("elsewhere"))
    os.symlink(box.at("elsewhere"), box.at("link"))
    own.refused("NodeStageVolume", stage(2, HOW, box.at("link/v")), 14, "a symbolic link stands in the path")
    own.stages(3, "v")
    for target in ("link", "link/t"):
        own.refused("NodePublishVolume", own.publication(3, "v", target), 14, "a symbolic link stands in the path")
    wanted("behind the link", os.listdir(box.at("elsewhere")), [])
    own.node.stop()
    box.program_words = ["setpriv", "--bounding-set", "-sys_admin", *box.program_words]
    own.node = box.node("--hooks", "mounts")
    own.refused("NodePublishVolume", own.publication(3, "v", "t"), 14, "operation not permitted")
    wanted("what is made", os.path.exists(box.at("t")), False)


def cases(_drawn, _seed):
    yield "mounts: at each target", mounted
    yield "mounts: of others", others
    yield "mounts: flags", kept
    yield "mounts: refused", refused
