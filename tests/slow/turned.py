"""Shows that the drawn cases of the gate tell each rule from its turned one, and with which case.

For each rule the slow program says with that rule turned what it says of the cases, one after the other, until it says something else than with
all rules right. Rules of what a run tells are held against the runs that tell of themselves, those of courses against courses, those of groups against plans and courses that are asked for them, those
of journals against runs that go on, those of words that are told beforehand, of plans that are checked, of expectations, of notes, of all faults of a file, of strict runs and of what is told as JSON against cases of their own. `python3 turned.py [SEED [CASES [NAME..]]]` prints a line a rule; its last line counts them.
"""

import os
import sys
from multiprocessing import Pool

from cases import draw_case, draw_foreseen, draw_grouped, draw_told
from draw_checked import draw_checked
from draw_expected import draw_expected
from draw_faulty import draw_faulty
from draw_formed import draw_formed
from draw_linted import draw_linted
from draw_resumed import draw_resumed
from draw_strict import draw_strict
from draw_worded import draw_worded
from gate import CASES, CHECKED, EXPECTED, FAULTY, FORESEEN, FORMED, GROUPED, LINTED, RESUMED, SEED, STRICT, TOLD, WORDED
from programs import Unmodelled
from rule_list import RULES
from rules import turn, turn_none
from rules_of_faults import FAULTS
from rules_of_forms import FORMS
from rules_of_notes import NOTES
from rules_of_plans import CHECKS, EXPECTATIONS, FORETOLD
from rules_of_runs import COURSES, GROUPS, JOURNALS, RESUMES, TELLING
from rules_of_strictness import STRICTNESS

# By what the cases are of, but for those of a command: how they are drawn, how many, and which rules they tell.
_KINDS = {
    "told": (draw_told, TOLD, TELLING),
    "course": (draw_foreseen, FORESEEN, COURSES),
    "groups": (draw_grouped, GROUPED, GROUPS),
    "resume": (draw_resumed, RESUMED, {**JOURNALS, **RESUMES}),
    "words": (draw_worded, WORDED, FORETOLD),
    "check": (draw_checked, CHECKED, CHECKS),
    "expect": (draw_expected, EXPECTED, EXPECTATIONS),
    "lint": (draw_linted, LINTED, NOTES),
    "faults": (draw_faulty, FAULTY, FAULTS),
    "strict": (draw_strict, STRICT, STRICTNESS),
    "json": (draw_formed, FORMED, FORMS),
}
# The cases, and what is right of each.
_cases = {"": [], **{kind: [] for kind in _KINDS}}
_right = {"": [], **{kind: [] for kind in _KINDS}}


def main(seed, count, names):
    # Cases are drawn with all rules right, before the first is turned; the workers take them over.
    for kind, (draw, most, _) in {"": (draw_case, count, {}), **_KINDS}.items():
        for number in range(min(count, most) if any(_kind(name) == kind for name in names) else 0):
            _cases[kind].append(draw(seed, number))
            _right[kind].append(_said(_cases[kind][-1]))
    told = 0
    with Pool(len(os.sched_getaffinity(0))) as pool:
        for name, number in pool.imap(_first, names):
            told += number is not None
            kind = _kind(name) or (_cases[""][number].kind if number is not None else "")
            by = f"{kind} {number}" if number is not None else "FAILED: no case tells it"
            print(f"{name:40} {by:15} {RULES[name]}", flush=True)
    print(f"{told} passed, {len(names) - told} failed")
    return 0 if told == len(names) else 1


def _kind(name):
    """What the cases are of that are to tell a rule from its turned one."""
    return next((kind for kind, (_, _, rules) in _KINDS.items() if name in rules), "")


def _said(case):
    """What the slow program says: of a run that goes on also where it stands."""
    return [call.said() for call in case.variants()] if case.journal is not None else [case.said()]


def _first(name):
    """The number of the first case that tells a rule from its turned one."""
    turn(name)
    cases, right = _cases[_kind(name)], _right[_kind(name)]
    try:
        return name, next((number for number, case in enumerate(cases) if _differs(case, right[number])), None)
    finally:
        turn_none()


def _differs(case, right):
    """Whether the turned rule shows in a case. Where it makes a program run that isn't known, nobody can say."""
    try:
        return _said(case) != right
    except Unmodelled:
        return False


if __name__ == "__main__":
    words = sys.argv[1:]
    sys.exit(main(words[0] if words else SEED, int(words[1]) if words[1:] else CASES, words[2:] or list(RULES)))
