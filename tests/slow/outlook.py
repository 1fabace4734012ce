#!/usr/bin/env python3
"""What a run goes on with that broke off, by its journal: who is down now, and the plan, the course and a rehearsal of the rest. It is written beside docs/FORMATS.md.

outlook.py draw PROGRAM SEED COUNT      tells the program drawn journals, with `--from`, and compares what it says
outlook.py run PROGRAM SEED COUNT       has runs of drawn journals go on in which no program fails, and compares the boundaries and ends of their recaps with their courses
"""
import json
import os
import random
import subprocess
import sys

import journal
from commands import accepted, targeted
from course import next_boundary
from entries import digest, line
from faults import Fault
from fleet import Fleet, parts_of
from foreseen import foresee, foreseen_text
from inventory import read_inventory
from planning import Blocked
from plays import status_of
from rehearsal import Rehearsal, rehearse
from resuming import is_of, rest_of
from sizes import cap
from standing import read_journal
from texts import limits_text, plan_text


def limits_from(inventory, text, names, takes_others=False):
    """The table of limits where the run stands."""
    fleet = Fleet(read_inventory(inventory))
    mended = fleet.target(parts_of(names))
    standing = read_journal(fleet, text, lambda inputs: takes_others or inputs[0] == digest(inventory))
    standing.resume(mended)
    return limits_text(fleet, standing.state), 0


class Rest:
    """The fleet, all plays with their hosts, how many plays stand before the one that goes on, and the state with which it does."""

    def __init__(self, inventory, playbook, text, names, takes_others=False):
        self.fleet, self.plays, self.targets = accepted(inventory, playbook)
        is_own = lambda inputs: takes_others or is_of(inputs, inventory, playbook)
        rest = rest_of(self.fleet, self.plays, self.targets, parts_of(names), lambda: read_journal(self.fleet, text, is_own))
        self.before, self.state = rest.before, rest.state

    def first(self):
        """The play that goes on, and the number of which its percentages are taken."""
        return self.plays[self.before], targeted(self.fleet, self.targets[self.before])


def plan_from(*asked):
    rest = Rest(*asked)
    play, count = rest.first()
    boundary = next_boundary(rest.fleet, play, rest.state, cap(play.sizes, count, 0))
    return plan_text(boundary.answer, boundary.aside), 3 if isinstance(boundary.answer, Blocked) or boundary.aside else 0


def course_from(*asked, failing=""):
    rest = Rest(*asked)
    hosts = rest.fleet.target(parts_of(failing))
    courses = foresee(rest.fleet, rest.plays[rest.before :], rest.targets[rest.before :], lambda target: targeted(rest.fleet, target), hosts, rest.state)
    return foreseen_text(rest.fleet, courses, len(rest.plays) > 1, before=rest.before), status_of(courses)


def rehearse_from(*asked, typed=b""):
    rest = Rest(*asked)
    play, count = rest.first()
    return rehearse(Rehearsal(rest.fleet, play, rest.state, count), typed)[0], 0


class Trial(journal.Trial):
    """A program that is asked what it would go on with. The folder has the inventory, the journal and the playbook."""

    def __init__(self, program, inventory, playbook):
        super().__init__(os.path.abspath(program), inventory)
        self.playbook = playbook

    def __enter__(self):
        super().__enter__()
        with open(os.path.join(self.folder.name, "playbook.json"), "wb") as file:
            file.write(self.playbook)
        return self

    def ask(self, text, words, told, typed=b""):
        """Compares what is said to a line of words with what has to be told, a text and a status, or a fault."""
        with open(self.files[1], "wb") as file:
            file.write(text)
        try:
            wanted = (*told(), "")
        except Fault as fault:
            wanted = "", 1, fault.line()
        ran = subprocess.run([self.program, *words], input=typed, capture_output=True, check=False, cwd=self.folder.name)
        said = ran.stdout.decode(), ran.returncode, ran.stderr.decode()
        if words[0] == "run":
            said = ("".join(f"{line}\n" for line in said[0].splitlines() if " state=" not in line), said[1], said[2])
        with open(self.files[1], "rb") as file:
            is_same = said == wanted and (words[0] == "run" or file.read() == text)
        self.passed += is_same
        self.failed += not is_same
        if not is_same:
            print(f"FAILED: {' '.join(words)}: {text!r}: {said!r} and not {wanted!r}")


def ask_all(trial, random_, text, names):
    inventory, playbook = trial.inventory, trial.playbook
    takes_others = random_.random() < 0.2
    asked = inventory, playbook, text, names, takes_others
    words = ["--from", "journal", "--up", names, *(["--changed-inputs"] if takes_others else [])]
    trial.ask(text, ["limits", "inventory.json", *words], lambda: limits_from(inventory, text, names, takes_others))
    files = ["inventory.json", "playbook.json"]
    trial.ask(text, ["plan", *files, *words], lambda: plan_from(*asked))
    failing = random_.choice(["", "a0", "r1", "b-1,a2"])
    trial.ask(text, ["plan", "--forecast", "--failing", failing, *files, *words], lambda: course_from(*asked, failing=failing))
    typed = b"plan\nadvance a1\nshow\nundo\nfinish\nshow\n"
    trial.ask(text, ["rehearse", *files, *words], lambda: rehearse_from(*asked, typed=typed), typed)


def without_batches(told):
    """A course as recaps tell it, without its last line."""
    return told[0].rpartition("batches=")[0], told[1]


def drawn_play(random_):
    """A play; now and then its task registers a result, or reads one."""
    tasks = [{"command": "true"}]
    if random_.random() < 0.15:
        tasks[0]["register"] = "r"
    if random_.random() < 0.1:
        tasks.append({"command": "true", "when": "r is defined"})
    hosts, serial = random_.choice(["all", "r1", "r2,a1"]), random_.choice([1, 2, [1, "50%"]])
    return {"hosts": hosts, "serial": serial, "on_blocked": random_.choice(["stop", "hold"]), "tasks": tasks}


def main(words):
    random_ = random.Random(int(words[2]))
    inventory = json.dumps({"r1": {"vars": {"max_down": 2}, "hosts": {f"a{i}": None for i in range(3)}}, "r2": {"vars": {"max_down": "70%"}, "hosts": {"b-1": None, "b.2": {"down": True}, "b_3": None}}}).encode()
    failed = passed = 0
    for _ in range(int(words[3])):
        bodies = journal.drawn(random_, inventory)
        count = int(bodies[0].rpartition("=")[2])
        playbook = json.dumps([drawn_play(random_) for _ in range(count if random_.random() < 0.95 else random_.randint(1, 3))]).encode()
        bodies[0] = bodies[0].replace(digest(journal.PLAYBOOK), digest(playbook))
        text = b"".join(map(line, bodies))
        text = text[: random_.choice([len(text), random_.randint(0, len(text))])]
        names = random_.choice(["", "a0", "r1", "a1:b.2", "all", "a2,nobody"])
        with Trial(words[1], inventory, playbook) as trial:
            if words[0] == "draw":
                ask_all(trial, random_, text, names)
            else:
                went = ["run", "inventory.json", "playbook.json", "--quiet", "--resume", "journal", "--up", names]
                trial.ask(text, went, lambda: without_batches(course_from(inventory, playbook, text, names)))
            passed, failed = passed + trial.passed, failed + trial.failed
    print(f"{passed} passed, {failed} failed")
    return 1 if failed else 0


if __name__ == "__main__":
    sys.exit(main(sys.argv[1:]))
