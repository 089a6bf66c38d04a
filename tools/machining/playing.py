"""playing.py FOLDER: plays what clients sent once, as the wire wrote it, to those to whom it was sent, over connections of its own, one after another.

It prints a line for each: `nobody`, where nobody is there, `refused`, where the other end closed, or has shaken hands and no more, or `answered`. TLS
answers with records: a handshake's first one begins with 22 3, an alert that comes alone with 21 3, and the others with 20 3 or 23 3.
"""
import os
import sys

sys.path.insert(0, os.path.dirname(os.path.dirname(os.path.abspath(__file__))))

from machining.wiring import play  # noqa: E402

MOST = 8  # records of a server's handshake, with its alert


def is_answer(came):
    """Whether what came is anything but a server's part of a handshake of TLS 1.3, with its end, or an alert alone."""
    kinds = []
    while came:
        kinds.append(came[:2])
        came = came[5 + int.from_bytes(came[3:5], "big") :]
    return bool(kinds) and (kinds[0] not in (b"\x16\x03", b"\x15\x03") or len(kinds) > MOST)


def main():
    folder = sys.argv[1]
    for name in sorted(os.listdir(folder)):
        address, port = name.split("-")[3:5]
        with open(os.path.join(folder, name), "rb") as file:
            came = play(file.read(), address, int(port), 0.7)
        print(name, "nobody" if came is None else "answered" if is_answer(came) else "refused", flush=True)


main()
