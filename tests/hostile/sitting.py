"""Draws cases of all commands from a seed, every second one of them with spoiled files, has the built program and the slow one of tests/slow say what they say of each, and counts the cases by command.

usage: python3 tests/hostile/sitting.py ROLLOUT SEED CASES

It takes one processor, tries one case after the other, and may be left alone for hours: each case that differs is made smaller and printed at once, as its files and a command. The last line
counts; stopped by a signal, it counts what it has tried.
"""

import os
import signal
import sys
import tempfile
from collections import Counter
from pathlib import Path
from random import Random

sys.path.append(str(Path(__file__).resolve().parent.parent / "slow"))
import built  # noqa: E402
from cases import draw_told  # noqa: E402
from drawn import differs, shown  # noqa: E402
from shrink import smallest  # noqa: E402
from spoiled import DRAWS, draw_hostile  # noqa: E402

# Beside other work a program has little of the processor, so that seconds say nothing of whether it hangs.
built.LONGEST_RUN = 900


def main(program, seed, count):
    program = os.path.abspath(program)
    tried, failed = Counter(), 0
    signal.signal(signal.SIGTERM, signal.default_int_handler)
    try:
        for number in range(count):
            is_hostile = number % 2 == 1
            case = draw_hostile(seed, number) if is_hostile else _draw(seed, number)
            difference = _difference(program, case, f"{seed}-{number}")
            tried[case.kind, is_hostile] += 1
            if difference:
                failed += 1
                print(f"FAILED: case {number} of seed {seed}\n{difference}", flush=True)
    except KeyboardInterrupt:
        print("it was stopped")
    for kind in sorted({kind for kind, _ in tried}):
        print(f"{kind} {tried[kind, False]} and {tried[kind, True]} hostile")
    print(f"{tried.total() - failed} passed, {failed} failed")
    return 1 if failed else 0


def _draw(seed, number):
    """The case of this number as it is drawn, of any of the commands."""
    return Random(f"{seed}/sitting/{number}").choice((*DRAWS, draw_told))(f"{seed}/sitting", number)


def _difference(program, case, name):
    """How both programs differ; nothing where they don't."""
    with tempfile.TemporaryDirectory() as folder:
        for variant in case.variants():
            if differs(program, variant, folder):
                return shown(program, smallest(variant, lambda smaller: differs(program, smaller, folder)), folder, name)
    return ""


if __name__ == "__main__":
    sys.exit(main(sys.argv[1], sys.argv[2], int(sys.argv[3])))
