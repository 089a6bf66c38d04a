#!/usr/bin/env python3
"""Requests to an orchestrator, for tools/embed.

embed.py draw PROGRAM FOLDER STARTS COUNT SEED: starts PROGRAM, csi-replay, so often over FOLDER/drawn.db, each time with other nodes, FOLDER/N.config, and
draws so many requests each: commands, timeouts, lost nodes, replies, late and repeated ones among them. What it sends is answered, refused or lost.
FOLDER/N.lines has what it was asked in start N, FOLDER/N.words the same in the words of examples/embed/orchestrator.c, and FOLDER/N.told what it answered,
in those words: `node in use` alone, where it took no such nodes. It prints how often a node was lost, a name forgotten at a start, and a start refused.
embed.py told < LINES: what csi-replay answered, in those words.
"""
import json
import random
import subprocess
import sys

NODES = ["n1", "n01", "n2"]
CAPABILITIES = [
    {"access": "block", "mode": 1},
    {"access": "block", "mode": 5},
    {"access": "mount", "fs": "ext4", "mode": 3},
    {"access": "mount", "fs": "", "mode": 7},
]


def spelled(capability):
    """Its bytes, as in a frame: docs/FRAMES.md, "Frames"."""
    fs = capability.get("fs")
    access = b"\0" if fs is None else bytes([1, len(fs)]) + fs.encode()
    return access + bytes([capability["mode"]])


def in_words(asked):
    (key, it), = asked.items()
    if key == "create":
        return f"create {it['name']} {it['required']} {it['limit']} {b''.join(map(spelled, it['capabilities'])).hex()}".rstrip()
    if key == "use":
        return f"use {it['name']} {it['node']} {it['target']} {spelled(it['capability']).hex()} {'ro' if it['readonly'] else 'rw'}"
    if key == "stop":
        return f"stop {it['name']} {it['node']} {it['target']}"
    return f"{key} {it}"


def told(line):
    """An answer of csi-replay in words; of its first line the names that are wanted, and where there is none, why it ended."""
    if not line:
        return "node in use"
    it = json.loads(line)
    if "wanted" in it:
        return " ".join(["wanted", *it["wanted"]])
    words = it["outcome"].split()[:2]
    return " ".join([*words, *([it["send"]["frame"]] if "send" in it else [])])


def reply_to(frame, status, volume):
    """The bytes of a reply to a call: its kind is 128 more, and it has the call's number and party."""
    call = bytes.fromhex(frame)[4:]
    party = call[18:19] if call[18] == 0 else call[18:20 + call[19]]
    body = bytes([1, call[1] + 128]) + call[2:18] + party + bytes([status]) + (volume if call[1] == 1 and status == 0 else 0).to_bytes(8, "big") + b"\0"
    return (len(body).to_bytes(4, "big") + body).hex()


class Draws:
    def __init__(self, seed):
        self.random = random.Random(seed)
        self.replies = []  # to what was sent, and not delivered yet
        self.given = []  # delivered before
        self.volumes = 0
        self.starts = self.losses = self.forgotten = self.refused = 0
        self.to_lose = 0  # how many nodes may still be lost until the next start

    def config(self):
        """Of each start: every node in some order, and at each third one only some of them."""
        self.starts += 1
        self.to_lose = 2
        nodes = self.random.sample(NODES, len(NODES) if self.starts % 3 else self.random.choice([0, 1, 2]))
        return {"greatest": 1000, "nodes": [{"id": node, "slots": 4} for node in nodes]}

    def request(self):
        pick = self.random.random
        if self.replies and pick() < 0.6:
            reply = self.replies.pop(self.random.randrange(len(self.replies)))
            self.given.append(reply)
            return {"reply": reply}
        if self.given and pick() < 0.05:
            return {"reply": self.random.choice(self.given)}
        name, node, target = f"v{self.random.randrange(12)}", self.random.choice([*NODES, "n9"][:3 + (pick() < 0.1)]), f"/t{self.random.randrange(3)}"
        if self.to_lose and pick() < 0.03:
            self.to_lose -= 1
            return {"lose": node}
        capability = self.random.choice(CAPABILITIES)
        return self.random.choice([
            {"create": {"capabilities": self.random.sample(CAPABILITIES, self.random.randrange(1, 4)), "limit": 0, "name": name, "required": 10}},
            {"use": {"capability": capability, "name": name, "node": node, "readonly": pick() < 0.5, "target": target}},
            {"use": {"capability": capability, "name": name, "node": node, "readonly": pick() < 0.5, "target": target}},
            {"stop": {"name": name, "node": node, "target": target}},
            {"timeout": name},
            {"delete": name} if pick() < 0.3 else {"timeout": name},
        ])

    def hears(self, line):
        """What is sent gets a reply, of which one in twenty is lost."""
        it = json.loads(line)
        if "send" in it and self.random.random() < 0.95:
            self.volumes += 1
            self.replies.append(reply_to(it["send"]["frame"], 0 if self.random.random() < 0.85 else 9, self.volumes))


def forgotten(program, store):
    """How many names the next start forgets."""
    asked = subprocess.run([program, "record", store], stdout=subprocess.PIPE, stderr=subprocess.DEVNULL, check=False)
    volumes = json.loads(asked.stdout)["volumes"] if asked.returncode == 0 else []
    return sum(it["exists"] == "no" and it["goal"] is None for it in volumes)


def one_start(program, store, config, draws, count):
    """What it was asked, and what it answered."""
    asked, answers, names = [], [], forgotten(program, store)
    with subprocess.Popen([program, "orchestrator", store, config], stdin=subprocess.PIPE, stdout=subprocess.PIPE, stderr=subprocess.PIPE) as process:
        answers.append(process.stdout.readline())
        if not answers[0]:
            said = process.stderr.read()
            assert said == b"csi-replay: node in use\n" and process.wait() == 1, said
            draws.refused += 1
            return asked, answers
        draws.forgotten += names
        wanted = [{"timeout": name} for name in json.loads(answers[0])["wanted"]]
        for _ in range(count):
            asked.append(wanted.pop() if wanted else draws.request())
            process.stdin.write(json.dumps(asked[-1]).encode() + b"\n")
            process.stdin.flush()
            answers.append(process.stdout.readline())
            draws.hears(answers[-1])
    return asked, answers


def draw(program, folder, starts, count, seed):
    draws = Draws(seed)
    for start in range(starts):
        with open(f"{folder}/{start}.config", "w") as config:
            json.dump(draws.config(), config)
        asked, answers = one_start(program, f"{folder}/drawn.db", f"{folder}/{start}.config", draws, count)
        draws.losses += sum("lose" in it for it in asked)
        with open(f"{folder}/{start}.lines", "w") as lines, open(f"{folder}/{start}.words", "w") as words, open(f"{folder}/{start}.told", "w") as out:
            for it in asked:
                print(json.dumps(it), file=lines)
                print(in_words(it), file=words)
            for it in answers:
                print(told(it), file=out)
    print(f"{draws.losses} lost nodes, {draws.forgotten} forgotten names, {draws.refused} starts refused")
    assert draws.losses and draws.forgotten and draws.refused, "nothing of it happened"


if __name__ == "__main__":
    if sys.argv[1] == "draw":
        draw(*sys.argv[2:4], *map(int, sys.argv[4:]))
    else:
        for given in sys.stdin:
            print(told(given))
