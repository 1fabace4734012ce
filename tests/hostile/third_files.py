"""Hostile plans and journals of about a given number of bytes, beside the small inventory and playbook of shapes.py; and what has to be said of each, by docs/FORMATS.md.

usage: python3 tests/hostile/third_files.py NAME BYTES     prints the text
       python3 tests/hostile/third_files.py                lists the names

Of a plan `check` says a line; of a journal `state` says how h0 stands.
"""

import sys
from dataclasses import dataclass
from pathlib import Path

from shapes import INVENTORY, PLAYBOOK, as_bytes, filled

sys.path.append(str(Path(__file__).resolve().parent.parent / "slow"))
from entries import head, line  # noqa: E402

MOST_PLAYS = 65_535


@dataclass
class Third:
    """A plan or a journal, and what has to be said of it: the status and both outputs."""

    name: str
    command: str
    make: object
    in_gate: bool
    said: tuple

    def made(self, size):
        """The bytes, about so many, and what has to be said of them."""
        text = self.make(size)
        return (text if isinstance(text, bytes) else as_bytes(text)), tuple(part(size) if callable(part) else part for part in self.said)


THIRDS = []


def plan(name, make, status, out="", errors="", in_gate=False):
    THIRDS.append(Third(name, "check", make, in_gate, (status, out, errors)))


def journal(name, make, status, out="", errors="", in_gate=False):
    THIRDS.append(Third(name, "state", make, in_gate, (status, out, errors)))


def refused(line_number):
    return f"rollout: 908 BadPlan line={line_number}\n"


plan("a plan of one host", lambda size: "h0", 0, "valid batches=1 least=1\n")
plan("a plan of empty lines", lambda size: "\n" * size, 1, "missing host=h0\n", in_gate=True)
plan("a plan of blanks", lambda size: " \t" * (size // 2) + "h0", 0, "valid batches=1 least=1\n")
plan("a plan of carriage returns", lambda size: "\r\n" * (size // 2) + "h0\r\n", 0, "valid batches=1 least=1\n")
plan("a host again and again in a batch", lambda size: filled(size, "h0", " "), 1, "twice batch=1 host=h0\n", in_gate=True)
plan("a host again and again, batch by batch", lambda size: filled(size, "h0", "\n"), 1, "twice batch=2 host=h0\n", in_gate=True)
plan("many unknown names", lambda size: filled(size, lambda number: f"n{number:07}", " "), 1, "unknown batch=1 host=n0000000\n")
plan("an unknown name behind many batches", lambda size: "h0\n" * (size // 3) + "n", 1, lambda size: f"unknown batch={size // 3 + 1} host=n\n")
plan("batches of nobody", lambda size: filled(size, lambda number: f"batch {number + 1}:", "\n"), 1, "empty batch=1\n", in_gate=True)
plan("lines of hosts that were set aside", lambda size: "held: h0 x !\n" * (size // 13) + "h0", 0, "valid batches=1 least=1\n")
plan("a long name in a plan", lambda size: "n" * size, 1, errors=refused(1))
plan("a long line of bytes that are no name", lambda size: "h0 " + "!" * size, 1, errors=refused(1))
plan("a bad line behind many", lambda size: "\n" * size + "h0,", 1, errors=lambda size: refused(size + 1), in_gate=True)
plan("no UTF-8 at the end of a plan", lambda size: "\n" * size + "h0 \udcff", 1, errors=lambda size: refused(size + 1))

BEGUN = line(head(INVENTORY.encode(), PLAYBOOK.encode(), 1))
PLAY = [b"play: h0", b"open: h0", b"closed: updated:h0", b"end finished"]
WAITING = "h0 state=waiting\nend broken-off\n"
UPDATED = "h0 state=updated\nend finished\n"


def lines(*bodies):
    return b"".join(line(body.decode()) for body in bodies)


def again(size, unit):
    return unit * max(1, size // len(unit))


def plays(size):
    """As many plays as may be, or as have so many bytes, all finished."""
    count = max(1, min(MOST_PLAYS, size // len(lines(*PLAY))))
    return line(head(INVENTORY.encode(), PLAYBOOK.encode(), count)) + lines(*PLAY) * count


journal("a journal of a run", lambda size: BEGUN + lines(*PLAY), 0, UPDATED)
journal("a journal of many plays", plays, 0, UPDATED, in_gate=True)
journal("a line that broke off, and is long", lambda size: BEGUN + lines(*PLAY) + b"9" * size, 0, UPDATED)
journal("a run that went on again and again", lambda size: BEGUN + again(size, lines(b"resumed: h0")), 6, "end broken-off\n")
journal("a play that went on again and again", lambda size: BEGUN + lines(b"play: h0") + again(size, lines(b"resumed:", b"again: h0")), 6, WAITING, in_gate=True)
journal("a line of a long length", lambda size: BEGUN + b"1" * size + b"\n", 1, errors="rollout: 912 BadJournal line=2\n")
journal("a host again and again in a line", lambda size: BEGUN + line("play:" + " h0" * (size // 3)), 1, errors="rollout: 912 BadJournal line=2\n", in_gate=True)
journal("a long unknown name in a line", lambda size: BEGUN + line("play: " + "n" * size), 1, errors="rollout: 912 BadJournal line=2\n")
journal("blanks in a line", lambda size: BEGUN + line("play:" + " " * size), 1, errors="rollout: 912 BadJournal line=2\n")
journal("a journal without a line", lambda size: b"1" * size, 1, errors="rollout: 912 BadJournal line=1\n")
journal("a journal of empty lines", lambda size: b"\n" * size, 1, errors="rollout: 912 BadJournal line=1\n")
journal("a bad line behind many of a journal", lambda size: BEGUN + again(size, lines(b"resumed:")) + b"1 2 x\n", 1, errors=lambda size: f"rollout: 912 BadJournal line={size // len(lines(b'resumed:')) + 2}\n", in_gate=True)


if __name__ == "__main__":
    if len(sys.argv) == 1:
        print(*(third.name for third in THIRDS), sep="\n")
    else:
        sys.stdout.buffer.write(next(third for third in THIRDS if third.name == sys.argv[1]).made(int(sys.argv[2]))[0])
