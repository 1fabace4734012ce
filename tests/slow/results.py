"""From how a program ended to its result, and how the result is judged."""

from dataclasses import dataclass, replace

from rules import turned
from words import Undefined


@dataclass(frozen=True)
class Outcome:
    """How a step ended: ran (with return code and texts, and the signal, where one ended the program), not-started (with what the system says, where a program was
    tried), skipped, or undefined (with the name that has no value)."""

    kind: str
    rc: int | None = None
    stdout: str = ""
    stderr: str = ""
    signal: int | None = None
    why: str | None = None
    name: str | None = None


@dataclass(frozen=True)
class Result:
    """What `register` keeps."""

    rc: int | None
    stdout: str
    stderr: str
    changed: bool
    failed: bool
    skipped: bool

    def field(self, name):
        """The value of a field; None where there is no return code."""
        return getattr(self, name)


SKIPPED = Outcome("skipped")
TOO_LONG = Outcome("not-started")


def row(outcome):
    """The result before `changed_when` and `failed_when`."""
    ran = outcome.kind == "ran"
    failed = outcome.rc != 0 if ran else outcome.kind != "skipped"
    if turned("signals-are-failures") and ran and outcome.rc < 0:
        failed = False
    if turned("not-started-is-a-failure") and outcome.kind == "not-started":
        failed = False
    changed = ran and not (turned("failures-are-changed") and failed)
    if turned("not-started-is-no-change") and outcome.kind == "not-started":
        changed = True
    rc = -1 if turned("skipped-has-no-code") and outcome.kind == "skipped" else outcome.rc
    return Result(rc, outcome.stdout, outcome.stderr, changed, failed, outcome.kind == "skipped")


def judge(step, outcome, evaluated):
    """The replaced row; skipped, ok, ignored or failed; and the name that wanted a value, or None. `evaluated(conditions, result)` is their value, or Undefined is raised."""
    result, wanted = row(outcome), outcome.name
    if outcome.kind == "ran" or turned("conditions-on-results-of-programs"):
        result, undefined = _replaced(step, result, evaluated)
        wanted = undefined or wanted
    if result.skipped:
        return result, "skipped", wanted
    if not result.failed:
        return result, "ok", wanted
    covered = step.ignore_errors and (wanted is None or turned("undefined-is-not-ignored"))
    return result, "ignored" if covered else "failed", wanted


def _replaced(step, before, evaluated):
    """Both conditions see the row of the table; an undefined one makes the result failed, and ends the evaluation: its name comes with the row."""
    result = before
    try:
        if step.changed_when is not None and not (turned("changed-when-of-failures") and before.failed):
            result = replace(result, changed=evaluated(step.changed_when, before))
    except Undefined as undefined:
        return replace(result, failed=not turned("undefined-changed-when-fails")), undefined.name
    try:
        if step.failed_when is not None:
            failed = evaluated(step.failed_when, result if turned("failed-when-sees-the-table") else before)
            if turned("failed-when-replaces"):
                failed = failed or before.failed
            result = replace(result, failed=failed)
    except Undefined as undefined:
        return replace(result, failed=not turned("undefined-failed-when-fails")), undefined.name
    return result, None
