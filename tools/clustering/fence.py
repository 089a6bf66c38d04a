"""What a plugin replies to a call by its number alone (docs/FRAMES.md, "What a reply says"): the same bytes to the volume's last call, `stale` to a lower
number, and to a higher one anything but that."""
from program.frames import reply

from .parts import Found
from .reading import read


class Fence:
    """Keeps what came to a plugin. Calls of earlier sessions are all stale, so only those of its session are kept."""

    def __init__(self, session=0):
        self.session = session
        self.last = {}  # by id: the number of its last call that passed, and the reply, or None where nobody has that
        self.ids = {}  # by name: the id that the controller gave
        self.unsure = set()  # names of which a CreateVolume was carried out, and nobody has the reply
        self.deleted, self.forgotten = set(), set()  # ids: of these the controller keeps nothing once a session began

    def hear(self, call, frame):
        """A call came, and this was replied, or something that nobody has."""
        if call.number[0] < self.session:
            return self.want(call, frame, stale(call))
        if call.number[0] > self.session:
            self.begin(call.number[0])
        volume = self.ids.get(call.name) if call.name else call.volume
        if volume in self.forgotten:
            volume = None
        number, kept = self.last.get(volume, ((0, 0), None))
        if call.number < number:
            return self.want(call, frame, stale(call))
        if call.number == number:
            self.last[volume] = number, kept or frame
            return self.want(call, frame, kept)
        if frame == stale(call) and call.name not in self.unsure and (call.name or volume is not None):
            raise Found(f"{call} got the reply {read(frame)}, and the last call of the volume was {number}")
        return self.keep(call, volume, frame)

    def begin(self, session):
        """A session begins, by a call or a recovery."""
        self.session = session
        self.forgotten |= self.deleted
        self.last, self.unsure = {}, set()

    def want(self, call, frame, right):
        if frame is not None and right is not None and frame != right:
            raise Found(f"{call} got the reply {read(frame)}, and should have got {read(right)}")

    def keep(self, call, volume, frame):
        """A call that passed is its volume's last one."""
        if call.name and frame is None:
            self.unsure.add(call.name)
        elif call.name and (it := read(frame)).status == 0:
            volume = self.ids[call.name] = it.volume
        if call.kind == "DeleteVolume" and (frame is None or read(frame).status == 0):
            self.deleted.add(volume)
        if volume is not None:
            self.last[volume] = call.number, frame


def stale(call):
    return reply(call.kind, call.number, 10, 0, "stale", call.node)
