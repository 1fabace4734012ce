"""Draws cases of all commands from a seed and spoils their files, has the built program and the slow one of tests/slow say what they say of each, and tells where they differ.

usage: python3 tests/hostile/spoiled.py ROLLOUT [SEED [CASES]]      seed 1 and 500 cases, if left out

A file is cut off, has a few wrong bytes, stands twice, is empty, or another one stands in its place. A case that differs is made smaller and printed as its files and a command. The last
line counts.
"""

import sys
from dataclasses import replace
from pathlib import Path
from random import Random

sys.path.append(str(Path(__file__).resolve().parent.parent / "slow"))
from cases import draw_case, draw_foreseen, draw_grouped  # noqa: E402
from draw_checked import draw_checked  # noqa: E402
from draw_expected import draw_expected  # noqa: E402
from draw_faulty import draw_faulty  # noqa: E402
from draw_formed import draw_formed  # noqa: E402
from draw_linted import draw_linted  # noqa: E402
from draw_resumed import draw_resumed  # noqa: E402
from draw_strict import draw_strict  # noqa: E402
from draw_worded import draw_worded  # noqa: E402
from drawn import main  # noqa: E402
from mutate import spoil  # noqa: E402
from programs import Unmodelled  # noqa: E402

DRAWS = (draw_case, draw_case, draw_case, draw_foreseen, draw_grouped, draw_checked, draw_expected, draw_faulty, draw_formed, draw_linted, draw_resumed, draw_strict, draw_worded)
PARTS = ("inventory", "playbook", "typed", "journal", "plan")


def draw_hostile(seed, number):
    """The case of this number whose files are spoiled; one whose programs nobody knows isn't drawn."""
    random = Random(f"{seed}/hostile/{number}")
    while True:
        case = _spoiled(random, _untold(random.choice(DRAWS)(f"{seed}/to-spoil", random.randrange(1 << 32))))
        try:
            for variant in case.variants():
                variant.said()
            return case
        except Unmodelled:
            continue


def _untold(case):
    """The case without what asks a plan for the line that helps behind a fault, whose words aren't fixed."""
    return case if case.kind == "run" else replace(case, words=tuple(word for word in case.words if word != "-v"))


def _spoiled(random, case):
    """The case with one of its files spoiled, or two. Where the journal's run began with an inventory or a playbook, it mostly began with the spoiled one."""
    parts = [part for part in PARTS if getattr(case, part)]
    for part in random.sample(parts, min(len(parts), random.choice([1, 1, 1, 2]))):
        text = _spoiled_text(random, getattr(case, part), [getattr(case, other) for other in parts])
        case = case.put(part, text) if random.random() < 0.8 else replace(case, **{part: text})
    return case


def _spoiled_text(random, text, others):
    kind = random.random()
    if kind < 0.03:
        return b""
    if kind < 0.06:
        return random.choice(others)
    if kind < 0.09:
        return text + random.choice([b"", b"\n", b" "]) + text
    if kind < 0.3:
        return text[: random.randint(0, len(text))]
    for _ in range(random.choice([1, 1, 1, 2, 3])):
        text = spoil(text, random)
    return text


if __name__ == "__main__":
    words = [*sys.argv[1:], "", ""]
    sys.exit(main(words[0], words[1] or "1", int(words[2] or 500), draw_hostile))
