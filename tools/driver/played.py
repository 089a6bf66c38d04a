"""Drawn calls: what a driver answers, and what its store has then, beside csi-replay over the same frames; also where the driver is killed."""
import random
import signal
import threading

from program import frames, stores
from program.running import Running, wanted

from . import requests
from .box import ended

NODES = ("n1", "n2", "n3")
NO_RANGE = 1 << 30


class Drawing:
    """Draws calls, each with its frame and its request."""

    def __init__(self, seed, of_node):
        self.random = random.Random(seed)
        self.of_node = of_node
        self.session, self.call, self.count = 1, 0, 0
        self.newest = 1  # the newest id that is known

    def number(self):
        """Mostly the next; else one that was before, or the first of a later session."""
        self.count += 1
        if self.count % 400 == 0:
            self.session, self.call = self.session + self.random.choice((1, 1, 5)), 0
        if (drawn := self.random.random()) < 0.9 or not self.call:
            self.call += 1
        elif drawn < 0.95:
            return self.session, self.random.randint(1, self.call)
        elif drawn < 0.96 and self.session > 1:
            return self.session - 1, 10**6
        return self.session, self.call

    def capability(self):
        """As a frame has it, and as a request has it."""
        mode = self.random.choice((1, 1, 1, 5, 5, 2, 3, 4, 6, 7))
        if self.random.random() < 0.6:
            return frames.block(mode), requests.capability(mode), mode
        fs_type = self.random.choice(("", "ext4"))
        return frames.mount(fs_type, mode), requests.capability(mode, fs_type), mode

    def volume(self):
        return self.newest + 2 - min(self.random.randint(0, 20), self.newest + 1)

    def draw(self):
        """A kind, a number, a frame and a request."""
        kinds = ("NodeStageVolume", "NodeUnstageVolume", "NodePublishVolume", "NodeUnpublishVolume")
        if not self.of_node:
            kinds = ("CreateVolume", "CreateVolume", "DeleteVolume", "ControllerPublishVolume", "ControllerPublishVolume", "ControllerUnpublishVolume")
        kind, at = self.random.choice(kinds), self.number()
        return kind, at, *getattr(self, f"draw_{kind}")(at)

    def draw_CreateVolume(self, at):
        name = f"v{self.random.randint(0, 30)}"
        required, limit = self.random.choice(((10, 0), (10, 0), (0, 20), (0, 0), (30, 20), (1 << 41, 0), (5, 40)))
        ways = [self.capability() for _ in range(self.random.choice((0, 1, 1, 1, 2, 3)))]
        version = 2 if any(mode >= 6 for _, _, mode in ways) else 1
        frame = frames.create(at, name, required, limit, [it for it, _, _ in ways], version)
        return frame, requests.create(name, required, limit, [it for _, it, _ in ways])

    def draw_DeleteVolume(self, at):
        volume = self.volume()
        return frames.delete(at, volume), requests.delete(volume)

    def draw_ControllerPublishVolume(self, at):
        volume, node, readonly, (spelled, how, mode) = self.volume(), self.random.choice(NODES), self.random.random() < 0.3, self.capability()
        return frames.attach(at, volume, node, spelled, readonly, 2 if mode >= 6 else 1), requests.attach(volume, node, how, readonly)

    def draw_ControllerUnpublishVolume(self, at):
        volume, node = self.volume(), self.random.choice(NODES)
        return frames.detach(at, volume, node), requests.detach(volume, node)

    def draw_NodeStageVolume(self, at):
        volume, (spelled, how, mode) = self.random.randint(1, 12), self.capability()
        return frames.stage(at, volume, spelled, version=2 if mode >= 6 else 1), requests.stage(volume, how)

    def draw_NodeUnstageVolume(self, at):
        volume = self.random.randint(1, 12)
        return frames.unstage(at, volume), requests.unstage(volume)

    def draw_NodePublishVolume(self, at):
        volume, (spelled, how, mode) = self.random.randint(1, 12), self.capability()
        target, readonly = self.random.choice(("/a", "/b", "/c", "d")), self.random.random() < 0.3
        return frames.publish(at, volume, target, spelled, readonly, version=2 if mode >= 6 else 1), requests.publish(volume, target, how, readonly)

    def draw_NodeUnpublishVolume(self, at):
        volume, target = self.random.randint(1, 12), self.random.choice(("/a", "/b", "/c"))
        return frames.unpublish(at, volume, target), requests.unpublish(volume, target)


def reply_to(replay, frame):
    """What csi-replay answers: the kind of the call, the status, the id and the detail."""
    replay.send(frame)
    length = replay.take(4)
    body = replay.take(int.from_bytes(length, "big"))
    at = 19 + (1 + body[19] if body[18] else 0)
    return body[1] - 128, body[at], int.from_bytes(body[at + 1 : at + 9], "big"), body[at + 10 :].decode()


class Compared:
    """A driver beside csi-replay."""

    def __init__(self, box, of_node, seed):
        self.box, self.of_node = box, of_node
        self.drawing = Drawing(seed, of_node)
        words = ["node", "replay.db", "n1"] if of_node else ["controller", "replay.db", "config"]
        self.replay = Running([box.program, *words], box.folder)
        self.replay.limit.cancel()
        self.replay.limit = threading.Timer(900, self.replay.process.kill)
        self.replay.limit.start()
        self.driver = self.begin()
        self.capacities = {}
        self.live = {}  # whether each volume that a controller made is there; those that it has forgotten aren't listed
        self.heard = 0  # the latest session
        self.last = {}  # of each volume the number of its last call, with that call's frame
        self.statuses = {}
        self.lost = 0  # calls that got no reply, since the driver was killed

    def begin(self):
        return self.box.node() if self.of_node else self.box.controller()

    def step(self, killed=None):
        """One call: both answer alike. Where the driver is to be killed after some time, it is begun again, and asked again until it answers."""
        kind, at, frame, request = self.drawing.draw()
        of_kind, status, volume, detail = reply_to(self.replay, frame)
        right = (status, detail) if of_kind == frames.KINDS[kind] else (9, "number")
        if self.is_others(kind, at, frame, volume or int(getattr(request, "volume_id", 0)), right):
            right = (9, "number")
        call = self.driver.start(kind, request, at)
        if killed is not None:
            timer = threading.Timer(killed, lambda: self.driver.process.send_signal(signal.SIGKILL))
            timer.start()
            came = ended(call)
            timer.join()
            self.driver.kill()
            self.driver = self.begin()
            if came[0] == 14:
                self.lost += 1
                came = self.driver.ask(kind, request, at)
        else:
            came = ended(call)
        wanted(f"call {self.drawing.count}, {kind} {at}: {request!s}", came[:2], right)
        self.statuses[right] = self.statuses.get(right, 0) + 1
        if kind == "CreateVolume" and right[0] == 0:
            self.made(request, volume, came[2])

    def is_others(self, kind, at, frame, volume, right):
        """Whether a call has the number of the volume's last one, which was another. A controller knows the last call only of volumes that it made."""
        if at[0] > self.heard:
            self.heard = at[0]
            self.live = {it: is_live for it, is_live in self.live.items() if is_live}
        if kind == "CreateVolume" and right[0] == 0:
            self.live.setdefault(volume, True)
        elif kind == "DeleteVolume" and right[0] == 0 and volume in self.live:
            self.live[volume] = False
        if right[0] == 10 or right == (9, "number") or not volume or not self.of_node and volume not in self.live:
            return False
        number, last = self.last.get(volume, ((0, 0), None))
        if at > number:
            self.last[volume] = at, frame
        return number == at and last != frame

    def made(self, request, volume, response):
        bounds = request.capacity_range
        capacity = bounds.required_bytes or min(NO_RANGE, bounds.limit_bytes)
        capacity = self.capacities.setdefault(volume, capacity)
        wanted("the volume", (response.volume.volume_id, response.volume.capacity_bytes), (str(volume), capacity))
        self.drawing.newest = max(self.drawing.newest, volume)

    def end(self):
        """Their stores are the same."""
        wanted("the driver's status", self.driver.stop(), 0)
        ran = self.replay.end()
        wanted("csi-replay's end", (ran.status, ran.out, ran.error), (0, b"", b""))
        parts = [stores.parts_of(self.box.at(name)) for name in ("replay.db", "n1.db" if self.of_node else "controller.db")]
        wanted("the store", parts[1], parts[0])
        return f"{self.drawing.count} calls, {len(parts[0])} parts, {len(self.statuses)} sorts of replies, {self.statuses.get((0, ''), 0)} of them OK"


def alike(of_node, count, seed):
    def body(box):
        both = Compared(box, of_node, seed)
        try:
            for _ in range(count):
                both.step()
            return both.end()
        finally:
            both.replay.process.kill()
            both.replay.limit.cancel()

    return body


def killed(of_node, kills, seed):
    """The driver is killed at random moments, and each call is answered once more where no reply came: as if it never had been."""

    def body(box):
        both = Compared(box, of_node, seed)
        try:
            for _ in range(kills):
                for _ in range(both.drawing.random.randint(0, 20)):
                    both.step()
                both.step(both.drawing.random.random() * 0.002)
            return f"{kills} kills, {both.lost} in the midst of a call, {both.end()}"
        finally:
            both.replay.process.kill()
            both.replay.limit.cancel()

    return body


def cases(drawn, seed):
    kills = 40 if drawn > 1000 else 3
    for of_node, name in ((False, "a controller"), (True, "a node")):
        yield f"drawn: {name} beside csi-replay", alike(of_node, drawn // 2, seed)
        yield f"drawn: {name} that is killed", killed(of_node, kills, seed)
