"""Drawn cases that are asked for JSON: tables of limits, plans, courses, runs, runs that broke off and go on, and rehearsals, as others draw them."""

from dataclasses import replace
from random import Random

from cases import MISSING, draw_case, draw_foreseen, draw_grouped, draw_rehearsed
from draw_resumed import draw_resumed


def draw_formed(seed, number):
    """The case of this number that is asked for JSON."""
    random = Random(f"{seed}/formed/{number}")
    kind = random.random()
    if kind < 0.15:
        # The plan of texts that are asked for their groups: there hosts are down more often.
        case = draw_grouped(f"{seed}/formed", number)
        case = replace(case, words=case.words[:3])
    elif kind < 0.3:
        case = draw_foreseen(f"{seed}/formed", number)
    elif kind < 0.45:
        case = draw_resumed(f"{seed}/formed", number)
    elif kind < 0.65:
        case = draw_rehearsed(f"{seed}/formed", number)
    else:
        case = _of_a_command(seed, number)
    words = list(case.words)
    if kind > 0.97:
        words[random.randrange(1, len(words))] = random.choice(MISSING)
    words.insert(random.choice([1, 2, _last(words)]), "--json")
    return replace(case, words=tuple(words))


def _of_a_command(seed, number):
    """The first of some cases of all commands that has a form in JSON; the table without a word of the line has none."""
    tried = 0
    while True:
        case = draw_case(f"{seed}/formed/{tried}", number)
        if case.words and case.kind in ("limits", "plan", "run"):
            return case
        tried += 1


def _last(words):
    """Behind the files, before the options, whose values stand right behind them."""
    return 2 if words[0] == "limits" else 3
