#!/usr/bin/env python3
"""Journals of runs: their lines, and what the program has to tell of one, beside the slow program, which is written beside docs/FORMATS.md.

journal.py lines INVENTORY BODY ..      the lines of these bodies; HEAD in place of a body is the head of a run with this inventory
journal.py try PROGRAM INVENTORY FILE   tells the program every front of the journal FILE, and FILE with each byte changed, and compares what it says
journal.py draw PROGRAM SEED COUNT      the same of journals that are drawn, whole and cut off, and with entries left out, doubled or exchanged
"""
import json
import os
import random
import re
import subprocess
import sys
import tempfile

import commands
from entries import head, line
from fleet import Fleet
from inventory import read_inventory
from standing import Standing

PLAYBOOK = b"playbook"


def expected(inventory, text):
    """Standard output, standard error and the exit status that `rollout state` has for these texts."""
    said = commands.state(inventory, text)
    return said.out.encode(), said.errors.encode(), said.status


class Trial:
    """A program that is told journals of an inventory."""

    def __init__(self, program, inventory):
        self.program, self.inventory = program, inventory
        self.passed, self.failed = 0, 0

    def __enter__(self):
        self.folder = tempfile.TemporaryDirectory()
        self.files = [os.path.join(self.folder.name, name) for name in ("inventory.json", "journal")]
        with open(self.files[0], "wb") as file:
            file.write(self.inventory)
        return self

    def __exit__(self, *ignored):
        self.folder.cleanup()

    def tell(self, text, what):
        with open(self.files[1], "wb") as file:
            file.write(text)
        ran = subprocess.run([self.program, "state", *self.files], capture_output=True, check=False)
        wanted = expected(self.inventory, text)
        if (ran.stdout, ran.stderr, ran.returncode) == wanted:
            self.passed += 1
        else:
            self.failed += 1
            print(f"FAILED: {what}: {text!r}: {(ran.stdout, ran.stderr, ran.returncode)!r} and not {wanted!r}")


def fronts_and_changes(trial, text):
    for length in range(len(text) + 1):
        trial.tell(text[:length], f"the first {length} bytes")
    whole = text.split(b"\n")
    for place, byte in enumerate(text):
        for other in {byte ^ 1, byte ^ 16, ord("\n"), ord(" "), ord("0"), ord("9")} - {byte}:
            changed = text[:place] + bytes([other]) + text[place + 1 :]
            trial.tell(changed, f"byte {place} changed to {other}")
            # No change passes: what is read is a front of the entries.
            out, _, status = expected(trial.inventory, changed)
            fronts = [expected(trial.inventory, b"".join(one + b"\n" for one in whole[:count]))[::2] for count in range(len(whole))]
            if status != 1 and (out, status) not in fronts:
                trial.failed += 1
                print(f"FAILED: byte {place} changed to {other} passes")


def drawn_batches(random_, run, waiting, say):
    """Batches of those that wait, until the run breaks off in one, or between two, or nobody is left; says whether it has broken off."""
    random_.shuffle(waiting)
    while waiting:
        if random_.random() < 0.1:
            return True
        batch = [waiting.pop() for _ in range(min(len(waiting), random_.randint(1, 3)))]
        if random_.random() < 0.15:
            say(" ".join(["held:", *batch]))
            continue
        say(" ".join(["open:", *batch]))
        if random_.random() < 0.1:
            return True
        say(" ".join(["closed:", *(random_.choice(["updated", "updated", "failed", "halted"]) + ":" + host for host in batch)]))
    return False


def drawn(random_, inventory):
    """Bodies that a run might have, which breaks off now and then and goes on, in an order that it can have."""
    run = Standing(Fleet(read_inventory(inventory)))
    plays = random_.randint(1, 3)
    bodies = []

    def say(body):
        bodies.append(body)
        run.follow(body)

    say(head(inventory, PLAYBOOK, plays))
    word = "play:"
    for _ in range(random_.randint(0, plays + 3)):
        if word == "play:" and (run.play >= plays or (run.play and run.end != "finished")):
            break
        up = [host for host in run.state if run.state[host] not in ("failed", "halted", "off")]
        up = [host for host in up if run.state[host] == "idle"] if word == "again:" else up
        waiting = sorted(random_.sample(up, random_.randint(0, len(up))))
        say(" ".join([word, *waiting]))
        word = "play:"
        is_broken = drawn_batches(random_, run, waiting, say)
        if not is_broken:
            say(random_.choice(["end finished"] * 4 + ["end held", "end all-failed", "end blocked group=r1", "end too-many-failed step=1 failed=2 size=3"]))
        if is_broken or random_.random() < 0.2:
            say(" ".join(["resumed:", *random_.sample(list(run.state), random_.randint(0, 3))]))
            word = "again:" if run.play and run.end is None else "play:"
    return bodies


def main(words):
    if words[0] == "lines":
        with open(words[1], "rb") as file:
            inventory = file.read()
        for body in words[2:]:
            sys.stdout.buffer.write(line(head(inventory, PLAYBOOK, int(body[4:] or 1)) if re.fullmatch(r"HEAD\d*", body) else body))
        return 0
    if words[0] == "try":
        with open(words[2], "rb") as file, open(words[3], "rb") as journal:
            inventory, text = file.read(), journal.read()
        with Trial(words[1], inventory) as trial:
            fronts_and_changes(trial, text)
    else:
        random_ = random.Random(int(words[2]))
        inventory = json.dumps({"r1": {"hosts": {f"a{i}": None for i in range(3)}}, "r2": {"hosts": {"b-1": None, "b.2": {"down": True}, "b_3": None}}}).encode()
        with Trial(words[1], inventory) as trial:
            for _ in range(int(words[3])):
                bodies = drawn(random_, inventory)
                for _ in range(random_.choice([0, 0, 1, 2])):
                    place, other = random_.randrange(len(bodies)), random_.randrange(len(bodies))
                    random_.choice([lambda: bodies.pop(place), lambda: bodies.insert(place, bodies[other]), lambda: bodies.__setitem__(place, bodies[other])])()
                    bodies = bodies or [head(inventory, PLAYBOOK, 1)]
                text = b"".join(map(line, bodies))
                trial.tell(text[: random_.choice([len(text), random_.randint(0, len(text))])], "drawn")
    print(f"{trial.passed} passed, {trial.failed} failed")
    return 1 if trial.failed else 0


if __name__ == "__main__":
    sys.exit(main(sys.argv[1:]))
