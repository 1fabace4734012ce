"""Draws runs with `--strict` from a seed, has both programs say what comes of each, and tells where they differ. Where such a run begins, a step ends for want of a name's value just where a result has
no `rc`: of each run it is looked whether that is so.

`python3 strict.py PROGRAM [SEED [CASES]]`; its last line counts.
"""

import sys

from draw_strict import draw_strict
from drawn import main
from facts import accepted, ran
from faults import Fault
from gate import SEED, STRICT
from missing import first_missed


def wanting(case):
    """The steps of a run that begins which want a value, each with whether it is of something else than the code of a result without one. None where the run doesn't begin."""
    try:
        if first_missed(*accepted(case.inventory, case.playbook)) is not None:
            return None
        _, _, _, courses = ran(case.inventory, case.playbook)
    except Fault:
        return None
    results, wanted = {}, []
    for course in courses:
        for boundary in course.boundaries:
            for host, rows in boundary.tracks.items():
                wanted += [(f"{host} step={step} wants {name}", is_other) for step, name, is_other in _wanted(results.setdefault(host, {}), rows)]
    return wanted


def _wanted(results, rows):
    """Of a host's rows those that want a name; and whether its result, as it stands then, has a code or isn't there."""
    for row in rows:
        if row.wanted is not None:
            yield row.step, row.wanted, row.wanted not in results or results[row.wanted].rc is not None
        if row.of.register is not None:
            results[row.of.register] = row.result


def _all(program, seed, count):
    """Both comparisons; how many runs were refused, began, and lacked a code is told before the count."""
    refused = began = lacked = failed = 0
    for number in range(count):
        case = draw_strict(seed, number)
        found = wanting(case)
        refused, began, lacked = refused + (found is None), began + (found is not None), lacked + bool(found)
        for said in [said for said, is_other in found or [] if is_other][:1]:
            failed += 1
            print(f"FAILED: case {number} of seed {seed}: the run begins, and {said}")
    print(f"{refused} runs refused, {began} begun; in {lacked} of these a result without a code was asked for it")
    return main(program, seed, count, draw_strict) or int(failed > 0)


if __name__ == "__main__":
    words = [*sys.argv[1:], "", ""]
    sys.exit(_all(words[0], words[1] or SEED, int(words[2] or STRICT)))
