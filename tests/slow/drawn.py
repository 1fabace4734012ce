"""Draws cases from a seed, has both programs say what they say of each, and tells where they differ.

`python3 drawn.py PROGRAM [SEED [CASES]]` prints each case that differs, made smaller, as two files and a command; its last line counts. `told.py` does the same of runs that
tell of themselves.
"""

import os
import sys
import tempfile
from multiprocessing import Pool
from pathlib import Path

from built import call, knows
from cases import KINDS, draw_case
from gate import CASES, SEED
from generate import keep
from programs import Unmodelled
from schema import misfit_of
from shrink import smallest

MOST_SHOWN = 20


def main(program, seed, count, draw=draw_case):
    program = os.path.abspath(program)
    with tempfile.TemporaryDirectory() as folder:
        known = [kind for kind in KINDS if knows(program, kind, folder)]
    if len(known) < len(KINDS):
        print(f"passed over, since the program has no such command: {', '.join(kind for kind in KINDS if kind not in known)}")
    passed = failed = 0
    work = [(draw, program, seed, number, known) for number in range(count)]
    with Pool(len(os.sched_getaffinity(0))) as pool:
        for number, difference in pool.imap(_try, work, chunksize=8):
            if difference is None:
                continue
            passed += difference == ""
            failed += difference != ""
            if difference and failed <= MOST_SHOWN:
                print(f"FAILED: case {number} of seed {seed}\n{difference}", flush=True)
    print(f"{passed} passed, {failed} failed")
    return 0 if passed and not failed else 1


def _try(work):
    """The number of a case and how both programs differ: nothing to say where they don't, None where the case is passed over."""
    draw, program, seed, number, known = work
    case = draw(seed, number)
    if case.kind not in known:
        return number, None
    with tempfile.TemporaryDirectory() as folder:
        for variant in case.variants():
            if differs(program, variant, folder):
                small = smallest(variant, lambda smaller: differs(program, smaller, folder))
                return number, shown(program, small, folder, f"{seed}-{number}")
    return number, ""


def differs(program, case, folder):
    """Whether the programs say something else. A smaller case whose programs aren't known is not tried: nobody knows what they would do."""
    try:
        said = case.said()
    except Unmodelled:
        return False
    found = call(program, case, folder)
    return found != said or (case.is_formed and misfit_of(found) is not None)


def shown(program, case, folder, name):
    """The command of a case, whose files are kept in a folder of their own, and both answers."""
    lines = [keep(case, Path(tempfile.gettempdir()) / f"drawn-{name}", program)]
    for label, said in (("slow", case.said()), ("built", call(program, case, folder))):
        lines += [f"  {label}: status {said.status}"]
        lines += [f"    {line[:300]}" for line in (said.out + said.errors).splitlines()[:12]]
        lines += [f"    schema: {misfit_of(said)}"] if case.is_formed else []
    return "\n".join(lines)


if __name__ == "__main__":
    words = [*sys.argv[1:], "", ""]
    sys.exit(main(words[0], words[1] or SEED, int(words[2] or CASES)))
