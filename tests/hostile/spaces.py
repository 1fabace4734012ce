"""Each command on hostile texts of a megabyte: with all memory and stack the right answer; under an address space of so many MB (v64) that, or that memory is wanting, in one line;
with a stack of so many KB (s256), and little of it taken by the environment, the right answer.

usage: python3 tests/hostile/spaces.py ROLLOUT FOLDER [LIMIT ..]
       ALL=yes BYTES=N JOBS=N                                     all shapes, of another size, so many at once

What is right is what shapes.py and third_files.py say; what is told beforehand of a playbook's words, and noted of both files, has to be what it is with all memory and stack. A run that
memory breaks off may have a recap as far as it came, words are written as they come, and a rehearsal may have answered its first lines. The last line counts.
"""

import os
import subprocess
import sys
from collections import Counter
from concurrent.futures import ThreadPoolExecutor
from pathlib import Path

from shapes import INVENTORY, MIB, PLAYBOOK, SHAPES, as_bytes
from third_files import PLAY, THIRDS, head, line, lines

LONGEST = 600
WANTING = "rollout: memory\n"
LINES = "plan\nshow\n"
PLAN = "plan batches=1 bound=one-host\nbatch 1: h0\n"
ANSWERS = ["", PLAN, PLAN + "h0 waiting\nend none\n"]
BOUNDARIES = "boundary 1: plan batches=1 bound=one-host\nopen: h0\nboundary 2: plan batches=0 bound=nothing\n"
BOTH = ("inventory.json", "playbook.json")
# The words of each command.
COMMANDS = {
    "limits": ("limits", BOTH[0]),
    "plan": ("plan", *BOTH),
    "course": ("plan", *BOTH, "--forecast"),
    "groups": ("plan", *BOTH, "--groups"),
    "words": ("plan", *BOTH, "--commands"),
    "lint": ("lint", *BOTH),
    "check": ("check", *BOTH, "plan.txt"),
    "run": ("run", *BOTH),
    "rehearse": ("rehearse", *BOTH),
    "state": ("state", BOTH[0], "journal"),
}
OF_INVENTORIES = ("limits", "state")


def play_by_play(plays, texts):
    """One text a play, each under its number where there are several."""
    return "".join((f"play {number}\n" if len(plays) > 1 else "") + text for number, text in enumerate(texts, 1))


def right(command, shape, told):
    """The status and both outputs; None where the shape doesn't say them."""
    if told.fault:
        return None if command == "lint" else (1, "", f"rollout: {told.fault}\n")
    out = {
        "limits": f"{told.table}\n",
        "plan": PLAN,
        "course": play_by_play(told.plays, [f"{BOUNDARIES}end finished\n"] * len(told.plays)) + f"batches={len(told.plays)}\n",
        "groups": PLAN + "no limited group\n",
        "words": "h0 step=1 runs: true\n" if shape.kind == "inventory" else None,
        "check": "valid batches=1 least=1\n",
        "run": play_by_play(told.plays, [f"{BOUNDARIES}h0 ok={ran} changed={ran} failed=0 skipped={skipped} ignored=0 state=updated\nend finished\n" for ran, skipped in told.plays]),
        "rehearse": ANSWERS[-1],
        "state": "h0 state=updated\nend finished\n",
    }.get(command)
    return None if out is None else (0, out, "")


def _are_counted(lines):
    """The lines end with how many of them are warnings; hints aren't looked at."""
    return lines[-1:] == [f"notes={sum(not line.startswith(('down-hosts ', 'one-failure ')) for line in lines[:-1])}"]


def may_be_right(command, told, said):
    """Whether what is said with all memory can be right, of what the shape doesn't say in full."""
    status, out, errors = said
    if command == "lint":
        known = told.fault and (status == 1 and out.startswith(f"rollout: {told.fault}\n") and "\nfaults=" in out)
        return errors == "" and (known or not told.fault and status in (0, 1) and _are_counted([line for line in out.splitlines() if not line.startswith("  ")]))
    return errors == "" and status in (0, 2) and out.startswith(("h0 step=1 ", "play 1\nh0 step=1 "))


def may_be_cut(command, out, whole):
    """Whether that much may have gone out before memory was wanting."""
    if out == "":
        return True
    if command == "run":
        begun = [line for line in out.splitlines() if line.startswith(("play", "boundary", "open"))]
        return out.endswith("\nend fault\n") and begun == [line for line in whole.splitlines() if line.startswith(("play", "boundary", "open"))][: len(begun)]
    return (command == "rehearse" and out in ANSWERS) or (command == "words" and whole.startswith(out))


def call(rollout, words, limit, folder, typed=b""):
    """The status and both outputs; the status is that of a signal below 0."""
    words = [rollout, *words]
    environment = {"PATH": os.environ["PATH"]} if limit.startswith("s") else None
    if limit:
        size = int(limit[1:]) * (1000 if limit[0] == "v" else 1)
        words = ["sh", "-c", f'ulimit -{limit[0]} {size}; exec "$@"', "sh", *words]
    try:
        done = subprocess.run(words, input=typed, capture_output=True, timeout=LONGEST, cwd=folder, env=environment)
    except subprocess.TimeoutExpired:
        return None, "", f"no end in {LONGEST} s"
    return done.returncode, done.stdout.decode(errors="backslashreplace"), done.stderr.decode(errors="backslashreplace")


def short(said):
    return "an answer that can be right" if said is None else f"status {said[0]}, {said[1][:200]!r}, {said[2][:200]!r}"


class Tries:
    """The calls of one text in a folder of its own: how many were right, wanting and wrong, and the lines that tell of the wrong ones."""

    def __init__(self, rollout, folder, limits):
        self.rollout, self.folder, self.limits, self.counts, self.told = rollout, folder, limits, Counter(), []
        folder.mkdir(parents=True)
        for name, raw in ((BOTH[0], INVENTORY.encode()), (BOTH[1], PLAYBOOK.encode()), ("plan.txt", b"h0\n")):
            self.write(name, raw)

    def write(self, name, raw):
        (self.folder / name).write_bytes(raw)

    def try_shape(self, shape, size):
        inventory, playbook, told = shape.files(size)
        raw = as_bytes(inventory), as_bytes(playbook)
        for name, text in zip(BOTH, raw):
            self.write(name, text)
        self.write("journal", line(head(*raw, 1)) + lines(*PLAY))
        for command in COMMANDS:
            if shape.kind == "inventory" or command not in OF_INVENTORIES:
                self.try_command(command, shape.name, right(command, shape, told), lambda said: may_be_right(command, told, said))

    def try_third(self, third, size):
        raw, said = third.made(size)
        self.write("plan.txt" if third.command == "check" else "journal", raw)
        self.try_command(third.command, third.name, said, None)

    def try_command(self, command, name, wanted, may_be):
        for limit in ("", *self.limits):
            said = call(self.rollout, COMMANDS[command], limit, self.folder, LINES.encode() if command == "rehearse" else b"")
            if wanted is None and may_be(said):
                wanted = said
            is_wanting = limit.startswith("v") and said[0] == 5 and said[2] == WANTING and wanted is not None and may_be_cut(command, said[1], wanted[1])
            self.counts["wanting" if is_wanting else "right" if said == wanted else "wrong"] += 1
            if not is_wanting and said != wanted:
                self.told.append(f"FAILED: {command}, {name}, {limit or 'no limit'}: {short(said)}; expected {short(wanted)}")


def main(rollout, folder, *limits):
    rollout, folder = os.path.abspath(rollout), Path(folder).absolute()
    size, counts, is_all = int(os.environ.get("BYTES", MIB)), Counter(), bool(os.environ.get("ALL"))
    chosen = [shape for shape in SHAPES if shape.least <= size and (shape.in_gate or is_all)] + [third for third in THIRDS if third.in_gate or is_all]

    def tried(numbered):
        number, one = numbered
        tries = Tries(rollout, folder / str(number), limits)
        (tries.try_third if one in THIRDS else tries.try_shape)(one, size)
        return tries

    with ThreadPoolExecutor(int(os.environ.get("JOBS", len(os.sched_getaffinity(0))))) as pool:
        for tries in pool.map(tried, enumerate(chosen)):
            counts += tries.counts
            print(*tries.told, sep="\n", end="\n" if tries.told else "", flush=True)
    failed = counts["wrong"]
    # Where nothing was wanting, or all, the bounds show nothing.
    if any(limit.startswith("v") for limit in limits) and not 10 < counts["wanting"] < counts["right"]:
        failed += 1
        print(f"FAILED: of these commands {counts['wanting']} found memory wanting, and {counts['right']} didn't")
    print(f"{len(chosen)} texts of {size} bytes: {counts['right']} right answers, {counts['wanting']} times memory was wanting")
    print(f"{counts['right'] + counts['wanting']} passed, {failed} failed")
    return 1 if failed else 0


if __name__ == "__main__":
    sys.exit(main(*sys.argv[1:]))
