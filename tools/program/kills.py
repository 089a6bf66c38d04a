"""A plugin or an orchestrator is killed, and run again: at each call of the system that writes, cuts or syncs, and at random moments. What it is given comes
in groups, which are carried out whole or not at all."""
import random
import signal
import time

from .devices import WAYS, can_trace, counted, traced
from .frames import split
from .plugins import PLUGINS
from .running import Pieces, ended, of_rows, wanted
from .whole import WHOLES, whole_of


def at_each(box, plugin, over, sizes):
    """One run for each call of the system."""
    can_trace(box)
    whole = whole_of(box, plugin, over)
    ends = whole.ends(sizes)
    ran, calls = traced(box, plugin, whole.word, whole.fresh("db"), whole.pieces(ends))
    wanted("the run that is traced", ran, ended(0, out=whole.right()))
    for name, count in counted(calls).items():
        for at in range(1, count + 1):
            inject = f"{name}:signal=KILL:when={at}"
            ran, _ = traced(box, plugin, whole.word, whole.fresh("db"), whole.pieces(ends), inject)
            wanted(f"{inject}: it was killed", ran.status, -signal.SIGKILL)
            whole.judge(inject, "db", ran.out, ends)


def drawn_sizes(drawn):
    return [drawn.randint(1, 4) for _ in range(16)]


def killed(box, drawn, whole, path, given, seconds):
    """A run on so many pieces, which is killed some time later."""
    pieces = Pieces()
    running = box.start(whole.plugin, path, whole.word, pipe=pieces)
    for piece in given:
        pieces.write(piece)
    time.sleep(drawn.random() * seconds)
    ran = running.kill()
    pieces.end()
    return ran


def at_random(box, plugin, over, seed):
    """Killed again and again, and each time run on what got no reply."""
    drawn = random.Random(seed)
    whole = whole_of(box, plugin, over)
    for turn in range(5):
        told, path = f"seed {seed}, turn {turn}", whole.fresh("db")
        done = carried = 0
        for _ in range(10):
            ends = whole.ends(drawn_sizes(drawn), done)
            ran = killed(box, drawn, whole, path, whole.pieces(ends, done), 0.03)
            wanted(f"{told}: the replies", ran.out, whole.told(done, carried)[: len(ran.out)])
            done += len(split(ran.out)[0])
            carried, _ = whole.carried_out(told, path, done, ends, carried)
        whole.finish(told, path, done, carried)


def talk_at_random(box, plugin, over, seed):
    """Killed once in each turn, and run on what is wanted then."""
    drawn = random.Random(seed)
    whole = whole_of(box, plugin, over)
    for turn in range(20):
        path, ends = whole.fresh("db"), whole.ends(drawn_sizes(drawn))
        ran = killed(box, drawn, whole, path, whole.pieces(ends), 0.1)
        whole.judge(f"seed {seed}, turn {turn}", path, ran.out, ends)


def cases(seed):
    for plugin in WHOLES:
        for over in ("new", "used", "log"):
            rows = [(f"at each call, {how}", at_each, plugin, over, sizes) for how, sizes in WAYS[over].items()]
            if over != "log":
                rows.append(("at random moments", at_random if plugin in PLUGINS else talk_at_random, plugin, over, seed))
            yield from of_rows(f"killed: {plugin} over a store that is {over}", rows)
