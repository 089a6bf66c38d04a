"""Runs a program of csi-replay as it is used: every subcommand, on calls, schedules and lines of usual kinds, a second or two in all.
For `tools/operate/install`.

training.py PROGRAM: with this environment. The frames and schedules are drawn as bench/figures makes them, the lines by tools/embed.py."""
import importlib.machinery
import importlib.util
import os
import random
import subprocess
import sys
import tempfile

TOP = os.path.dirname(os.path.dirname(os.path.dirname(os.path.dirname(os.path.realpath(__file__)))))


def load(path):
    loader = importlib.machinery.SourceFileLoader("figures", path)
    module = importlib.util.module_from_spec(importlib.util.spec_from_loader("figures", loader))
    sys.modules["figures"] = module
    loader.exec_module(module)
    return module


def mixed(figures, count, volumes, seed):
    """Calls of a controller in any order, so that some of them are refused, stale or repeated."""
    draws, calls = random.Random(seed), []
    kinds = (figures.create, figures.publish, figures.unpublish, figures.delete)
    for call in range(1, count + 1):
        late = draws.randrange(20) == 0
        calls.append(draws.choice(kinds)(max(1, call - 50 * late), draws.randrange(volumes) + 1))
    return b"".join(calls)


def main():
    program = os.path.realpath(sys.argv[1])
    figures = load(f"{TOP}/bench/figures")
    with tempfile.TemporaryDirectory(dir="/dev/shm" if os.access("/dev/shm", os.W_OK) else None) as folder:

        def run(*words, given=b""):
            subprocess.run([program, *words], cwd=folder, input=given, stdout=subprocess.DEVNULL, check=True, timeout=600)

        def put(name, content):
            figures.write(f"{folder}/{name}", content)
            return name

        put("config", figures.CONFIG)
        for frames in (figures.lives(50_000, 200), mixed(figures, 20_000, 300, 1), b"".join(figures.create(it, it) for it in range(1, 3001))):
            run("answer", put("frames", frames))
            run("show", "frames")
        for events, names in ((10_000, 20), (10_000, 400)):
            run("run", put("schedule", figures.whole_lives(events, names)))
        for subcommand in ("frames", "draw"):
            run(subcommand, put("schedule", figures.whole_lives(1000, 50)))
        for seed in (1, 2):
            run("controller", "controller.db", "config", given=figures.lives(500) + mixed(figures, 500, 100, seed))
        run("controller", "controller.db", "config", given=b"".join(figures.create(5000 + it, 5000 + it) for it in range(1, 501)))
        run("controller", "controller.db", "config", given=b"".join(figures.delete(1, 9_999, 2 + it) for it in range(100)))
        stage = b"".join(figures.stage(it, it) for it in range(1, 101))
        run("node", "node.db", "n1", given=stage + figures.in_turn((figures.publish_at, figures.unpublish_at), 500))
        run("node", "node.db", "n1", given=b"".join(figures.unstage(20_000 + it, it, 2) for it in range(1, 51)))
        subprocess.run([sys.executable, "-B", f"{TOP}/tools/embed.py", "draw", program, folder, "16", "50", "3"], check=True, timeout=600)
        for store in ("controller.db", "node.db", "drawn.db"):
            run("record", store)


main()
