"""Draws runs that begin though hosts are up which the inventory has as down, has both programs run them, and tells where they differ: in both outputs, in the status, or in the journal
that is kept. Such a run is one that goes on behind the first line of its journal.

`python3 mended.py PROGRAM [SEED [CASES]]`; its last line counts.
"""

import os
import subprocess
import sys
import tempfile
from multiprocessing import Pool
from pathlib import Path
from random import Random

import commands
from cases import INVENTORY, JOURNAL, PLAYBOOK, hosts_in, names_in
from draw_inventory import draw_right as draw_right_inventory
from draw_playbook import draw_right as draw_right_playbook
from draw_resumed import KeptStyle
from entries import head, line
from faults import Fault
from gate import MENDED, SEED
from json_draw import write
from planning import start
from programs import Unmodelled


def drawn(seed, number):
    """An inventory in which hosts are down, a playbook, and the names of hosts that are up."""
    random = Random(f"{seed}/mended/{number}")
    while True:
        inventory = write(draw_right_inventory(random, crossing=0, down=random.choice([0.1, 0.3, 0.5]), limited=random.choice([0.2, 0.5, 0.8])), random)
        style = KeptStyle(hosts_in(inventory), random.choice([0, 1]))
        playbook = write(draw_right_playbook(random, names_in(inventory), style, random.choice([1, 1, 2, 3])), random)
        try:
            fleet = commands.accepted(inventory, playbook)[0]
        except Fault:
            continue
        share = random.choice([0, 0.3, 0.7, 1])
        names = [host for host, state in start(fleet, []).items() if random.random() < (share if state == "off" else 0.1)]
        if random.random() < 0.1:
            names.insert(random.randint(0, len(names)), random.choice(["nobody", *names_in(inventory)]))
        return random, inventory, playbook, names


def said_of(inventory, playbook, names):
    """What has to be said, and the journal that has to be left: None where nothing begins."""
    plays = commands.accepted(inventory, playbook)[1]
    said = commands.resume(inventory, playbook, line(head(inventory, playbook, len(plays))), names, False)
    return (said.out, said.errors, said.status), said.journal if said.out else None


def _try(work):
    """Nothing where both programs agree, else how they differ; None where nobody knows what a program would do."""
    program, seed, number = work
    random, inventory, playbook, names = drawn(seed, number)
    try:
        wanted, journal = said_of(inventory, playbook, names)
    except Unmodelled:
        return number, None
    is_kept = random.random() < 0.7
    words = ["run", INVENTORY, PLAYBOOK, "--up", ",".join(names), *(["--journal", JOURNAL] if is_kept else []), *random.choice([[], ["--forks", "1"], ["--no-lock"]])]
    with tempfile.TemporaryDirectory() as folder:
        (Path(folder) / INVENTORY).write_bytes(inventory)
        (Path(folder) / PLAYBOOK).write_bytes(playbook)
        ran = subprocess.run([program, *words], capture_output=True, cwd=folder, stdin=subprocess.DEVNULL, check=False)
        file = Path(folder) / JOURNAL
        kept = file.read_bytes() if file.exists() else None
    said = ran.stdout.decode(), ran.stderr.decode(), ran.returncode
    if (said, kept) == (wanted, journal if is_kept else None):
        return number, ""
    return number, f"{' '.join(words)}\n{inventory!r}\n{playbook!r}\n{said!r}, {kept!r}\nand not {wanted!r}, {journal!r}"


def main(program, seed, count):
    passed = failed = 0
    with Pool(len(os.sched_getaffinity(0))) as pool:
        for number, difference in pool.imap(_try, [(os.path.abspath(program), seed, number) for number in range(count)], chunksize=8):
            passed += difference == ""
            failed += bool(difference)
            if difference:
                print(f"FAILED: case {number} of seed {seed}: {difference}", flush=True)
    print(f"{passed} passed, {failed} failed")
    return 0 if passed and not failed else 1


if __name__ == "__main__":
    words = [*sys.argv[1:], "", ""]
    sys.exit(main(words[0], words[1] or SEED, int(words[2] or MENDED)))
