"""Draws courses and compares each with a run of the same plays in which just the named hosts fail.

`python3 followed.py PROGRAM [SEED [CASES]]`; its last line counts. Both are the built program's: the course says what the run will open. In five of eight cases nobody fails.
"""

import json
import os
import sys
import tempfile
from multiprocessing import Pool
from random import Random

import commands
from built import call
from cases import INVENTORY, PLAYBOOK, Case, hosts_in, names_in
from draw_inventory import draw_right
from faults import Fault
from forecast import draw_play, failing
from json_draw import write

SEED = "followed"
CASES = 96


def of_run(said):
    """What a recap tells of plays, boundaries and ends, and how many batches it opened."""
    lines = [line for line in said.out.splitlines() if " state=" not in line]
    return [*lines, f"batches={sum(line.startswith('open:') for line in lines)}"]


def _try(work):
    program, seed, number = work
    random = Random(f"{seed}/{number}")
    inventory = write(draw_right(random, crossing=0, down=0.05, limited=0.4), random)
    plays = [draw_play(random, names_in(inventory)) for _ in range(random.choice([1, 1, 2, 3]))]
    share = random.choice([0, 0.1, 0.3]) if number % 8 > 4 else 0
    named = [host for host in hosts_in(inventory) if random.random() < share]
    try:
        fleet, _, _ = commands.accepted(inventory, json.dumps(plays).encode())
    except Fault:
        return number, None
    # A group's name hides a host's.
    named = [host for host in named if host not in {place.name for place in fleet.places}]
    words = ("--failing", ",".join(named)) if named else ()
    asked = Case(("plan", INVENTORY, PLAYBOOK, "--forecast", *words), inventory, json.dumps(plays).encode())
    playbook = json.dumps([failing(play, named) for play in plays]).encode()
    ran = Case(("run", INVENTORY, PLAYBOOK, "--forks", str(random.choice([1, 2, 5, 64]))), inventory, playbook)
    with tempfile.TemporaryDirectory() as folder:
        course, outcome = call(program, asked, folder), call(program, ran, folder)
    if course.out.splitlines() == of_run(outcome) and course.status == outcome.status and not course.errors:
        return number, ""
    return number, f"{inventory.decode()}\n{playbook.decode()}\n{asked.words}\n{course}\n{outcome}"


def main(program, seed, count):
    program = os.path.abspath(program)
    passed = failed = 0
    with Pool(len(os.sched_getaffinity(0))) as pool:
        for number, difference in pool.imap(_try, [(program, seed, number) for number in range(count)], chunksize=4):
            if difference is None:
                continue
            passed += difference == ""
            failed += difference != ""
            if difference and failed <= 5:
                print(f"FAILED: case {number} of seed {seed}\n{difference}", flush=True)
    print(f"{passed} passed, {failed} failed")
    return 0 if passed and not failed else 1


if __name__ == "__main__":
    words = [*sys.argv[1:], "", ""]
    sys.exit(main(words[0], words[1] or SEED, int(words[2] or CASES)))
