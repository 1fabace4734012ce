"""Compares both programs on the greatest inputs, and bounds what the built one takes for them; the last line counts what was looked at.

**Memory** is the least address space in which the program says the same, found by halving. Room that is asked for and never used counts too. The
bound is on what an input takes beyond the smallest plan of the same program, in bytes for each unit of its size, one and a half times of what was
measured when the bound was set: what takes twice as much misses it.
What takes less than a page more than the smallest plan has room for a few.

**Time** is the processor time beside that of another input or command of the same program in the same moments, taken in turns, the least of many
runs. What is looped over twice where once will do doesn't always show; a quadratic scan does, and so does a plan that takes as long as reading does.
"""

import os
import resource
import subprocess
import sys
import tempfile
from dataclasses import dataclass
from pathlib import Path

import great_inputs as inputs
from built import call, knows, put_files

LEAST_SPACE = 1 << 20
MOST_SPACE = 1 << 30
STEP = 1 << 12
RUNS = 15
ROUNDS = 4


@dataclass
class Bound:
    """An input of a size, the most bytes for each unit of it, and the most time beside another input."""

    name: str
    make: object
    size: int
    bytes_each: int
    beside: object = None
    times: float = 0


def half(make, size):
    """The same input of half the size."""
    return lambda: make(size // 2)


BOUNDS = [
    Bound("a batch for each of 4,096 hosts", inputs.one_by_one, 4_096, 600, half(inputs.one_by_one, 4_096), 3),
    Bound("4,000 hosts set aside", inputs.set_aside, 4_000, 700, half(inputs.set_aside, 4_000), 3),
    Bound("1,024 groups in nine levels", inputs.nine_levels, 1_024, 5_200, half(inputs.nine_levels, 1_024), 3.5),
    Bound("a plan beside its table", inputs.one_by_one, 4_096, 600, lambda: inputs.limits_of(inputs.one_by_one(4_096)), 1.7),
    Bound("hosts set aside beside their table", inputs.set_aside, 4_000, 700, lambda: inputs.limits_of(inputs.set_aside(4_000)), 1.7),
    Bound("nine levels beside their table", inputs.nine_levels, 1_024, 5_200, lambda: inputs.limits_of(inputs.nine_levels(1_024)), 1.7),
    Bound("200 words of 4,000 bytes of closing braces", inputs.long_words, 200, 24_000, lambda: inputs.short_words(200), 1.1),
    Bound(
        "200 words of 4,000 bytes of names in braces",
        lambda size: inputs.long_words(size, "{{ v }} }} "),
        200,
        24_000,
        lambda: inputs.short_words(200, "{{ v }} }} "),
        1.1,
    ),
    Bound("a word of 4,000 bytes with wrong braces", inputs.wrong_braces, 4_000, 24, lambda: inputs.wrong_braces(40), 2),
    Bound("a text of 1,000,000 bytes whose braces never close", inputs.open_braces, 1_000_000, 13, half(inputs.open_braces, 1_000_000), 3.5),
]
SAME = [
    ("a file's name with a slash behind it", inputs.slash_behind()),
    ("a session as long as may be", inputs.long_session(0)),
    ("a session of one byte too many", inputs.long_session(1)),
    ("a session and a line of one byte too many", inputs.long_session_in_a_long_line()),
    ("512 batches advanced and undone", inputs.many_advances(512)),
    ("a course of 512 batches", inputs.long_course(512)),
    ("groups in nine levels, with their table", inputs.with_groups(inputs.nine_levels(1_024))),
    ("1,024 groups and 64 batches, with their table", inputs.with_groups(inputs.many_racks(1_023))),
    ("a course of 512 batches, with its groups", inputs.with_groups(inputs.long_course(512))),
]


def main(program):
    program = os.path.abspath(program)
    passed = failed = 0
    with tempfile.TemporaryDirectory() as folder:
        smallest = space(program, inputs.nobody(), folder)
        checks = [(bound.name, wrong_with(program, bound, smallest, folder)) for bound in BOUNDS]
        checks += [(name, differing(program, case, folder)) for name, case in SAME if knows(program, case.kind, folder)]
    for name, wrong in checks:
        passed += not wrong
        failed += bool(wrong)
        if wrong:
            print(f"FAILED: {name}: {wrong}")
    print(f"{passed} passed, {failed} failed")
    return 0 if passed and not failed else 1


def wrong_with(program, bound, smallest, folder):
    """What is wrong with how the program does on an input, or nothing."""
    case = bound.make(bound.size)
    wrong = differing(program, case, folder)
    if wrong:
        return wrong
    each = (space(program, case, folder) - smallest) / bound.size
    if each > bound.bytes_each:
        return f"{each:.0f} bytes for each of {bound.size}, where {bound.bytes_each} may be"
    times = slowness(program, case, bound.beside(), bound.times) if bound.beside else 0
    if times > bound.times:
        return f"{times:.2f} times as long as what stands beside it, where {bound.times} may be"
    return ""


def differing(program, case, folder):
    """What the built program says otherwise, in short."""
    found, wanted = call(program, case, folder), case.said()
    return "" if found == wanted else f"status {found.status}, expected {wanted.status}; {found.errors[:200]!r}, expected {wanted.errors[:200]!r}"


def space(program, case, folder):
    """The least address space, to a page, in which the program says the same."""
    wanted = call(program, case, folder)
    least, most = LEAST_SPACE, MOST_SPACE
    while most - least > STEP:
        middle = (least + most) // 2
        if call(program, case, folder, lambda: resource.setrlimit(resource.RLIMIT_AS, (middle, middle))) == wanted:
            most = middle
        else:
            least = middle
    return most


def slowness(program, case, other, enough):
    """How many times as long one input takes as another. Where that is more than enough, it is measured again."""
    best = [float("inf")] * 2
    with tempfile.TemporaryDirectory() as one, tempfile.TemporaryDirectory() as two:
        put_files(case, one)
        put_files(other, two)
        for _ in range(ROUNDS):
            for _ in range(RUNS):
                taken = _seconds(program, case, one), _seconds(program, other, two)
                best = [min(pair) for pair in zip(best, taken)]
            if best[0] <= enough * best[1]:
                break
    return best[0] / best[1]


def _seconds(program, case, folder):
    """The processor time of one run."""
    silent = {"stdin": subprocess.DEVNULL, "stdout": subprocess.DEVNULL, "stderr": subprocess.DEVNULL}
    running = subprocess.Popen([program, *case.words], cwd=Path(folder), **silent)
    _, status, usage = os.wait4(running.pid, 0)
    running.returncode = os.waitstatus_to_exitcode(status)
    return usage.ru_utime + usage.ru_stime


if __name__ == "__main__":
    sys.exit(main(sys.argv[1]))
