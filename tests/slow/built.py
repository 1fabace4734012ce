"""The built program: it is called in a folder with a case's files, and what it says is compared with what the slow program says."""

import re
import subprocess
from pathlib import Path

from cases import INVENTORY, JOURNAL, PLAN, PLAYBOOK, Case
from commands import Said
from linting import KINDS
from telling import in_order, timeless

LONGEST_RUN = 300
# What stands behind the hints of `lint`.
TRAILER = "  `rollout explain KIND` has an example; `--allow KIND,..` suppresses a rule\n"


def call(program, case, folder, before=None):
    """What the program says of a case, in a folder that is empty or has only such files; `before` is called where it will run."""
    put_files(case, folder)
    try:
        done = subprocess.run(
            [program, *case.words], input=case.typed, capture_output=True, cwd=folder, timeout=LONGEST_RUN, preexec_fn=before, check=False
        )
    except subprocess.TimeoutExpired:
        return Said("", f"it didn't end within {LONGEST_RUN} seconds\n", -1)
    out = unhelped(unexplained(_text(done.stdout))) if case.kind == "lint" else _text(done.stdout)
    left = None if case.journal is None else (Path(folder) / JOURNAL).read_bytes()
    return Said(out, _told(case, _text(done.stderr)), done.returncode, left)


def unexplained(out):
    """What `lint` says, without the hints behind the number of warnings: a line for each rule that is told, in their order, and one that names `explain` and `--allow`. Where these aren't the lines, the whole output stays
    as it is."""
    hint = re.compile(r"^  ([a-z-]+): [!-~][ -~]{0,139}\n", re.M)
    front, counted, behind = out.partition("\nnotes=") if "\nnotes=" in out else ("", "", out)
    told = set(re.findall(r"^([a-z-]+) ", front, re.M))
    number, _, hints = behind.partition("\n")
    shown = [match[1] for match in hint.finditer(hints)]
    is_right = told and shown == [kind for kind in KINDS if kind in told] and hint.sub("", hints) == TRAILER
    return f"{front}{counted}{number}\n" if is_right else out


def unhelped(out):
    """What `lint` says, without the line that helps behind each fault: two blanks, and 1 to 140 bytes of printable ASCII. Where one isn't so, or isn't there, the whole text stays as it is."""
    text, count = re.subn(r"^(rollout: .*\n)  [ -~]{1,140}\n", r"\1", out, flags=re.M)
    return text if count == len(re.findall(r"^rollout: ", out, re.M)) else out


def _told(case, errors):
    """Standard error; without what helps behind a fault where more is asked for, and of a run that tells of itself without its times, and where programs run at once, in the order of one at a time."""
    if any(word in ("-v", "--verbose") for word in case.words):
        errors = unhelped(errors)
    if not case.is_verbose:
        return errors
    return timeless(errors) if case.words[-1] == "1" else in_order(errors)


def put_files(case, folder):
    """Writes the inventory and the playbook of a case, and its journal or its plan, where it has one."""
    (Path(folder) / INVENTORY).write_bytes(case.inventory)
    (Path(folder) / PLAYBOOK).write_bytes(case.playbook)
    if case.journal is not None:
        (Path(folder) / JOURNAL).write_bytes(case.journal)
    if case.plan is not None:
        (Path(folder) / PLAN).write_bytes(case.plan)


def _text(raw):
    """An output as text; bytes that are no UTF-8, which no right output has, are told from all others."""
    return raw.decode(errors="backslashreplace")


def knows(program, kind, folder):
    """Whether the program has a command: a line of it is answered by something else than that it is none."""
    files = {"limits": (INVENTORY,), "check": (INVENTORY, PLAYBOOK, PLAN)}.get(kind, (INVENTORY, PLAYBOOK))
    # The inventory is refused, so that nothing is started.
    return not call(program, Case((kind, *files), b"[]", plan=b""), folder).errors.startswith("rollout: 901 ")
