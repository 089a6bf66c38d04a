"""Tests of the CSI driver of service: the programs' folder, csi-replay, how many calls are drawn, a seed, and words that the cases' names have."""
import resource
import sys
import tempfile
import time

from program.running import LeftOut, Wrong

from . import before, fields, hooking, hosting, late, leading, lines, lives, losing, memory, mounting, played, private, recovering, sanity, staged, starting
from .box import Box


def processor():
    """The seconds that this and what has ended of what it started took of a processor."""
    return sum(it.ru_utime + it.ru_stime for it in map(resource.getrusage, (resource.RUSAGE_SELF, resource.RUSAGE_CHILDREN)))


def main():
    built, program, drawn, seed, *words = sys.argv[1:]
    modules = (fields, starting, memory, played, late, lives, sanity, before, mounting, private, hooking, staged, lines, hosting, losing, recovering, leading)
    cases = [case for module in modules for case in module.cases(int(drawn), int(seed))]
    passed, failed = 0, 0
    print(f"seed {seed}", flush=True)
    for name, body in cases:
        if words and not any(word in name for word in words):
            continue
        since, taken = time.monotonic(), processor()
        with tempfile.TemporaryDirectory() as folder:
            box = Box(built, program, folder)
            try:
                try:
                    told = body(box)
                finally:
                    box.end()
                passed += 1
                took = f"{time.monotonic() - since:.1f} s, {processor() - taken:.1f} s of a processor"
                print(f"{name}: {told + ', ' if told else ''}{took}", flush=True)
            except LeftOut as why:
                print(f"csi: left out: {name}, since {why}", flush=True)
            except Wrong as why:
                failed += 1
                print(f"{name}: FAILED: {why}", flush=True)
    print(f"{passed} passed, {failed} failed")
    sys.exit(1 if failed or not passed else 0)


main()
