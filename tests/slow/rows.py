"""Holds the slow program against worked rows, whole texts; the last line counts them. `python3 rows.py PROGRAM` holds a built one against them too."""

import os
import re
import sys
import tempfile
from itertools import chain, groupby
from pathlib import Path

from built import call, knows
from cases import FORKS, INVENTORY, KINDS, PLAYBOOK, Case
from commands import Said
from course import COUNTED
from rows_of_conditions import BAD_CONDITIONS, CONDITIONS, ENDS, INVENTORY_OF_ROWS, asking, refusal
from rows_of_plans import LIMITS, PLANS
from rows_of_runs import REHEARSALS, RUNS, WRITTEN

ONE_AT_A_TIME = ("--forks", "1")
# How many programs run at once in the runs of the rows, beside the number where none is named.
FORKS_OF_ROWS = (1, 2, 7, 64)


def lines(text):
    """A text written with `/` between its lines, and recap lines written short."""
    found = []
    for line in text.split(" / ") if text else []:
        short = re.fullmatch(r"(\S+) (\d+) (\d+) (\d+) (\d+) (\d+) (\w+)", line)
        if short:
            counts = " ".join(f"{name}={number}" for name, number in zip(COUNTED, short.groups()[1:6]))
            line = f"{short[1]} {counts} state={short[7]}"
        found.append(line + "\n")
    return "".join(found)


def said(text, status):
    """What is said where a row has one text: a fault's line goes to the second output."""
    return Said("", lines(text), status) if text.startswith("rollout: ") else Said(lines(text), "", status)


def commands_of_rows():
    """Each row of a command: its name, the case and what has to be said."""
    for name, inventory, text, status in LIMITS:
        yield f"limits: {name}", Case(("limits", INVENTORY), inventory.encode()), said(text, status)
    for name, inventory, playbook, text, status in PLANS:
        yield f"plan: {name}", Case(("plan", INVENTORY, PLAYBOOK), inventory.encode(), playbook.encode()), said(text, status)
    for name, inventory, playbook, text, status in RUNS:
        yield f"run: {name}", Case(("run", INVENTORY, PLAYBOOK), inventory.encode(), playbook.encode()), said(text, status)
    for name, inventory, playbook, typed, out, fault, status in REHEARSALS:
        case = Case(("rehearse", INVENTORY, PLAYBOOK), inventory.encode(), playbook.encode(), typed.replace(" / ", "\n").encode())
        yield f"rehearse: {name}", case, Said(lines(out), lines(fault), status)


def commands_of_conditions():
    """The same of each row of a condition."""
    for text, number, at in BAD_CONDITIONS:
        case = Case(("plan", INVENTORY, PLAYBOOK), INVENTORY_OF_ROWS.encode(), asking(text).encode())
        yield f"condition {text!r:.60}", case, said(refusal(number, at), 1)
    for text, holds in CONDITIONS:
        case = Case(("run", INVENTORY, PLAYBOOK, *ONE_AT_A_TIME), INVENTORY_OF_ROWS.encode(), asking(text).encode())
        yield f"condition {text!r:.60}", case, said(*ENDS[holds])


def checks():
    """What the slow program says of each row, and what has to be said."""
    for name, case, wanted in chain(commands_of_rows(), commands_of_conditions()):
        yield name, case.said(), wanted


def calls(case):
    """The calls of a row, which have to say the same: a run with several numbers of programs at once."""
    return [case, *case.at_forks(FORKS_OF_ROWS)] if case.kind == "run" and "--forks" not in case.words else [case]


def built_checks(program):
    """What the built program says of each row of a command that it has, and what has to be said."""
    program = os.path.abspath(program)
    with tempfile.TemporaryDirectory() as folder:
        known = [kind for kind in KINDS if knows(program, kind, folder)]
        for name, case, wanted in chain(commands_of_rows(), commands_of_conditions()):
            for variant in calls(case) if case.kind in known else []:
                yield f"built: {name}", call(program, variant, folder), wanted
    if "run" in known:
        yield from written_checks(program)


def written_checks(program):
    """What the programs of a run write down one behind the other: one at a time in the worked order, several at once step by step."""
    for name, inventory, playbook, text in WRITTEN:
        for forks in FORKS:
            case = Case(("run", INVENTORY, PLAYBOOK, "--forks", str(forks)), inventory.encode(), playbook.encode())
            with tempfile.TemporaryDirectory() as folder:
                call(program, case, folder)
                written = Path(folder) / "written"
                found = written.read_text() if written.exists() else ""
            yield f"written at {forks} forks: {name}", found if forks == 1 else _by_step(found), lines(text)


def _by_step(written):
    """The lines of a step, a host and the step each, in the order of the hosts, as long as no line of another step comes between."""
    steps = groupby(written.splitlines(keepends=True), key=lambda line: line.split()[1])
    return "".join(line for _, of_step in steps for line in sorted(of_step))


def main(programs):
    passed = failed = 0
    for name, found, wanted in chain(checks(), *map(built_checks, programs)):
        passed += found == wanted
        failed += found != wanted
        if found != wanted:
            print(f"FAILED: {name}\n  found  {found}\n  wanted {wanted}")
    print(f"{passed} passed, {failed} failed")
    return 1 if failed else 0


if __name__ == "__main__":
    sys.exit(main(sys.argv[1:]))
