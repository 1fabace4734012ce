"""The slow program itself, as an operator types it: `python3 slow.py [--turn NAME].. limits INV`, `plan INV PLAY`, .. or no word at all. A journal is left as it is."""

import os
import sys

import commands
from faults import Fault
from rules import turn

MOST_BYTES = 16_777_216


def main(words):
    while words[:1] == ["--turn"]:
        turn(words[1])
        words = words[2:]
    try:
        commands.check_line(words)
        files = [_read(name) for name in commands.named_files(words)] if words else [_whole(sys.stdin.buffer, "-")]
    except Fault as fault:
        return commands.unread(words, fault)
    typed = sys.stdin.buffer.read(MOST_BYTES + 1) if words[:1] == ["rehearse"] else b""
    return commands.command(words, files, typed)


def _read(name):
    """An input's bytes: at most so many, and none of a file that can't be read."""
    try:
        with open(name, "rb") as file:
            return _whole(file, name)
    except OSError:
        raise Fault(902, "File", name=os.fsencode(name)) from None


def _whole(file, name):
    try:
        text = file.read(MOST_BYTES + 1)
    except OSError:
        raise Fault(902, "File", name=os.fsencode(name)) from None
    if len(text) > MOST_BYTES:
        raise Fault(903, "InputTooLarge")
    return text


if __name__ == "__main__":
    said = main(sys.argv[1:])
    sys.stdout.buffer.write(said.out.encode())
    sys.stderr.buffer.write(said.errors.encode())
    sys.exit(said.status)
