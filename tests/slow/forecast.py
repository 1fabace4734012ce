"""Draws rehearsals and compares each with a run of the same play in which just the hosts fail that the rehearsal named.

`python3 forecast.py PROGRAM [SEED [CASES]]`; its last line counts. Both are the built program's: the rehearsal says what the run will do. The slow program only
tells which hosts stand in the batch that comes next, so that hosts of it can be named.
"""

import json
import os
import sys
import tempfile
from multiprocessing import Pool
from random import Random

import commands
from built import call, knows
from cases import INVENTORY, PLAYBOOK, Case, names_in
from draw_inventory import draw_right
from faults import Fault
from json_draw import write
from planning import start
from rehearsal import Rehearsal

SEED = "forecast"
CASES = 60
SIZES = [1, 2, 3, "10%", "34%", "100%", [1, 2], [1, "50%"], [2, 1, "100%"], 0]


def draw_play(random, names):
    """A play of one to three steps, and how it is rehearsed and run."""
    play = {"hosts": random.choice(["all", "all", *names[:6]]), "tasks": [{"command": "true"} for _ in range(random.choice([1, 1, 2, 3]))]}
    if random.random() < 0.6:
        play["serial"] = random.choice(SIZES)
    if random.random() < 0.5:
        play["max_fail_percentage"] = random.choice([0, 20, 33, 49, 50, 100])
    if random.random() < 0.5:
        play["on_blocked"] = random.choice(["hold", "hold", "stop"])
    return play


def draw_advances(random, rehearsal):
    """The hosts that each advance names, until the play has ended or the rehearsal stops short; and whether it has ended."""
    advances = []
    share = random.choice([0, 0, 0.1, 0.3, 1])
    while not rehearsal.stack[-1][2]:
        if random.random() < 0.05:
            return advances, False
        batch = rehearsal.stack[-1][1].batches[0]
        named = [host for host in batch if random.random() < share]
        rehearsal.answer(" ".join(["advance", *named]).encode())
        advances.append(named)
    return advances, True


def failing(play, named):
    """The play in which just these hosts fail, at the first step."""
    condition = " or ".join(f"inventory_hostname == '{host}'" for host in named) or "false"
    # Conditions have a bound on their length, so a program tells instead.
    script = 'for host in %s; do [ "$host" = "$0" ] && exit 1; done; true' % (" ".join(named) or "''")
    first = {"command": {"argv": ["sh", "-c", script, "{{ inventory_hostname }}"]}}
    if len(condition) < 2000 and len(named) % 2:
        first = {"command": "true", "failed_when": condition}
    return dict(play, tasks=[first, *play["tasks"][1:]])


def of_rehearsal(said, advances):
    """The boundaries' first lines, the batches, and the lines of hosts and of the end, as the rehearsal told them."""
    lines = said.out.splitlines()
    boundaries = [line for line in lines if line.startswith(("plan batches=", "blocked group="))]
    batches = [line.partition(":")[2] for line in lines if line.startswith("advanced:")]
    at_last = len(lines) - next((place for place, line in enumerate(reversed(lines)) if line.startswith(("batch ", "plan batches=", "blocked group="))), 0)
    return boundaries[: len(advances) + 1], batches, lines[at_last:]


def of_run(said):
    """The same as a run told them."""
    lines = said.out.splitlines()
    boundaries = [line.partition(": ")[2] for line in lines if line.startswith("boundary ")]
    batches = [line.partition(":")[2] for line in lines if line.startswith("open:")]
    hosts = [f"{line.split()[0]} {line.rpartition('state=')[2]}" for line in lines if " state=" in line]
    return boundaries, batches, [*hosts, lines[-1] if lines else ""]


def _try(work):
    program, seed, number = work
    random = Random(f"{seed}/{number}")
    inventory = write(draw_right(random, crossing=0, down=0.05, limited=0.4), random)
    play = draw_play(random, names_in(inventory))
    try:
        fleet, plays, targets = commands.accepted(inventory, json.dumps([play]).encode())
    except Fault:
        return number, None
    rehearsal = Rehearsal(fleet, plays[0], start(fleet, targets[0]), len(targets[0]))
    advances, ended = draw_advances(random, rehearsal)
    typed = "plan\n" + "".join(f"{' '.join(['advance', *named])}\nplan\n" for named in advances) + "show\n"
    rehearsed = Case(("rehearse", INVENTORY, PLAYBOOK), inventory, json.dumps([play]).encode(), typed.encode())
    playbook = json.dumps([failing(play, [host for named in advances for host in named])]).encode()
    ran = Case(("run", INVENTORY, PLAYBOOK, "--forks", str(random.choice([1, 2, 5, 64]))), inventory, playbook)
    with tempfile.TemporaryDirectory() as folder:
        forecast, outcome = call(program, rehearsed, folder), call(program, ran, folder)
    boundaries, batches, last = of_rehearsal(forecast, advances)
    met = of_run(outcome)
    right = met[0][: len(boundaries)] == boundaries and met[1][: len(batches)] == batches and len(boundaries) == len(advances) + 1
    if ended:
        right = right and met == (boundaries, batches, last)
    if right:
        return number, ""
    return number, f"{inventory.decode()}\n{playbook.decode()}\n{typed}{forecast}\n{outcome}"


def main(program, seed, count):
    program = os.path.abspath(program)
    with tempfile.TemporaryDirectory() as folder:
        if not knows(program, "rehearse", folder):
            print("passed over, since the program has no such command: rehearse")
            print("0 passed, 0 failed")
            return 0
    passed = failed = 0
    with Pool(len(os.sched_getaffinity(0))) as pool:
        for number, difference in pool.imap(_try, [(program, seed, number) for number in range(count)], chunksize=4):
            if difference is None:
                continue
            passed += difference == ""
            failed += difference != ""
            if difference and failed <= 5:
                print(f"FAILED: case {number} of seed {seed}\n{difference}", flush=True)
    print(f"{passed} passed, {failed} failed")
    return 0 if passed and not failed else 1


if __name__ == "__main__":
    words = [*sys.argv[1:], "", ""]
    sys.exit(main(words[0], words[1] or SEED, int(words[2] or CASES)))
