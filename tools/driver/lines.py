"""The orchestrator over the library, by its lines: the cases that `csi-replay orchestrator` has, and drawn lines, which both are asked."""
import json
import os
import random
import re
import subprocess

import embed
from program import changes, orchestrators, stores
from program.running import LIMIT, Box, Running, wanted


class OverLibrary(Box):
    """A folder in which another program answers lines than csi-replay."""

    def __init__(self, box):
        super().__init__(box.program, box.folder)
        self.other = Box(f"{box.built}/csi-orchestrator", box.folder)

    def run(self, *words, **how):
        if words[0] != "orchestrator":
            return super().run(*words, **how)
        return as_told(self.other.run(*words[1:], **how))

    def start(self, *words):
        if words[0] != "orchestrator":
            return super().start(*words)
        running = self.other.start(*words[1:])
        running.end = lambda given=b"", end=running.end: as_told(end(given))
        return running


def as_told(ran):
    ran.error = told(ran.error)
    return ran


def told(error):
    """Its line on standard error as csi-replay's: without what may stand behind a second colon, and with a place, which the library doesn't tell."""
    return re.sub(rb"csi-orchestrator: ([^:\n]*)(:.*)?\n", rb"csi-replay: \1\n", error).replace(b"record fault\n", b"record fault at 0\n")


PIECES = [b"\\ud83d", b"\\ude00", b"\\u0000", b"\\u007f", b"\\", b'"', b"{", b"}", b"[", b"]", b",", b":", b" ", b"\t", b"\r", b"-0", b"1.0", b"1e2", b"1e999", b"-1"]
PIECES += [b"0", b"9" * 20, b"18446744073709551615", b"null", b"true", b"[[" * 60, b"\xff", b"\xc3\xa9", b"\xed\xa0\x80", b"\0", b"\x7f", b'"mode":1,', b'"name":"v1",']


def damaged(drawn, line):
    """A line with pieces put in, or in the place of some of its bytes, up to three times."""
    for _ in range(drawn.randint(1, 3)):
        at = drawn.randint(0, len(line))
        line = line[:at] + drawn.choice(PIECES) + line[at + drawn.choice((0, 0, 1, 5)) :]
    return line


def alike(sessions, requests, seed):
    """Lines that are drawn, some of them no requests, to both: each gets the same answer, and then their stores are the same. Nodes are other ones at each
    start, and lost between; some starts are refused, since a node is used that they leave out, and some runs are killed."""

    def body(box):
        draws, drawn, answers, refused = embed.Draws(seed), random.Random(seed), 0, 0
        both = [[box.program, "orchestrator", "theirs.db", "config"], [f"{box.built}/csi-orchestrator", "ours.db", "config"]]
        for _ in range(sessions):
            box.put("config", json.dumps(draws.config()))
            theirs, ours = (Running(words, box.folder) for words in both)
            first = theirs.process.stdout.readline()
            wanted("the first line", ours.process.stdout.readline(), first)
            if not first:
                ends = [(it.status, it.out, told(it.error)) for it in (theirs.end(), ours.end())]
                wanted("how both end", ends, [(1, b"", b"csi-replay: node in use\n")] * 2)
                refused += 1
                continue
            wants = [{"timeout": name} for name in json.loads(first)["wanted"]]
            for _ in range(requests):
                given = json.dumps(wants.pop() if wants else draws.request(), separators=drawn.choice([(",", ":"), (" , ", " : ")])).encode()
                if drawn.random() < 0.2:
                    given = drawn.choice([damaged(drawn, given), drawn.choice(orchestrators.NO_REQUESTS)[0]])
                theirs.send(given + b"\n")
                ours.send(given + b"\n")
                answer = theirs.process.stdout.readline()
                wanted(f"the answer to {given}", ours.process.stdout.readline(), answer)
                answers += 1
                if b"outcome" in answer:
                    draws.hears(answer)
                    draws.losses += b'"lost"' in answer
            kills = drawn.random() < 0.3
            ends = [it.kill() if kills else it.end() for it in (theirs, ours)]
            wanted("how it ends", (ends[1].status, ends[1].out), (ends[0].status, ends[0].out))
        wanted("the store", stores.parts_of(box.at("ours.db")), stores.parts_of(box.at("theirs.db")))
        wanted("some nodes are lost", draws.losses > 0, True)
        return f"{answers} lines in {sessions} starts, {refused} of them refused; {draws.losses} losses"

    return body


def unread(box):
    """Where nobody reads what they write both end alike, and close their stores."""
    box.put("config", json.dumps({"greatest": 1, "nodes": []}))
    for words in ([box.program, "orchestrator", "theirs.db", "config"], [f"{box.built}/csi-orchestrator", "ours.db", "config"]):
        reading, writing = os.pipe()
        running = subprocess.Popen(words, cwd=box.folder, stdin=subprocess.PIPE, stdout=writing, stderr=subprocess.PIPE)
        os.close(writing)
        wanted("the first line", os.read(reading, 4096), b'{"session":1,"wanted":[]}\n')
        os.close(reading)
        _, error = running.communicate(b'{"delete":"v"}\n', timeout=LIMIT)
        wanted(f"how {words[0]} ends", (running.returncode, told(error)), (3, b"csi-replay: device\n"))
        OverLibrary(box).is_closed(words[-2], error)


def cases(drawn, seed):
    for name, body, *rest in (*orchestrators.ROWS, *changes.ROWS):
        yield f"lines: {name}", lambda box, body=body, rest=rest: body(OverLibrary(box), *rest)
    yield "lines: nobody reads", unread
    yield "lines: drawn", alike(16, drawn // 10, seed)
