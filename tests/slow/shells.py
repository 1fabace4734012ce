"""Starts the programs of drawn runs and looks whether each ends as `programs.py` says; the last line counts them.

`python3 shells.py [SEED [CASES]]` needs no built program: what is tried is the slow program's knowledge of shells.
"""

import errno
import os
import subprocess
import sys
import tempfile

import track
from cases import draw_case
from gate import CASES, SEED
from programs import NUL, outcome
from results import Outcome

KEPT = 65_536


def main(seed, count):
    known = programs_of(seed, count)
    passed = failed = 0
    with tempfile.TemporaryDirectory() as folder:
        for words, said in known.items():
            found = started(words, folder)
            passed += found == said
            failed += found != said
            if found != said:
                print(f"FAILED: {str(words)[:300]}\n  said  {str(said)[:200]}\n  found {str(found)[:200]}")
    print(f"{passed} passed, {failed} failed")
    return 0 if passed and not failed else 1


def programs_of(seed, count):
    """The words of all programs that the drawn runs start, each with how it ends."""
    known = {}

    def noted(words):
        known[tuple(words)] = outcome(words)
        return known[tuple(words)]

    track.outcome = noted
    for number in range(count):
        case = draw_case(seed, number)
        if case.kind == "run":
            case.said()
    track.outcome = outcome
    return known


def started(words, folder):
    """How a program really ends."""
    try:
        done = subprocess.run(words, stdin=subprocess.DEVNULL, capture_output=True, cwd=folder, check=False)
    except OSError as error:
        # Python looks for a program without a name in each folder of PATH, and finds the folder.
        number = error.errno if words[0] else errno.ENOENT
        return Outcome("not-started", why=f"{os.strerror(number)} (os error {number})")
    except ValueError:
        return Outcome("not-started", why=NUL)
    texts = [raw[:KEPT].decode(errors="replace").rstrip("\r\n") for raw in (done.stdout, done.stderr)]
    return Outcome("ran", max(done.returncode, -1), *texts, -done.returncode if done.returncode < 0 else None)


if __name__ == "__main__":
    words = sys.argv[1:]
    sys.exit(main(words[0] if words else SEED, int(words[1]) if words[1:] else CASES))
