"""One host's column: what becomes of each step of a play on it, as if no other host and no halt were there."""

from dataclasses import dataclass

from meaning import holds
from programs import outcome
from results import SKIPPED, TOO_LONG, Outcome, Result, judge
from rules import turned
from words import TooLong, Undefined, render


@dataclass
class Row:
    """A step's number, how it was judged, and its result; and what is told of it: the step, the words of its program, if there was one, how it ended, and which name
    wanted a value."""

    step: int
    judged: str
    result: Result
    of: object
    words: list | None
    ended: Outcome
    wanted: str | None


def track(play, host):
    """The rows of a host's steps, up to the first that failed. The host keeps what was registered."""
    rows, notified = [], []
    if turned("notifications-end-with-the-play"):
        notified = host.__dict__.setdefault("notified", [])
    if host.owes:
        notified += [step.name for step in play.handlers]
    for step in play.tasks:
        if not _taken(step, host, rows, notified):
            if turned("failed-hosts-run-no-handlers"):
                break
            return rows
    for step in _due(play.handlers, notified):
        if not _taken(step, host, rows, notified):
            return rows
    return rows


def _due(handlers, notified):
    """The notified handlers, once each, in the order in which they are written."""
    if turned("handlers-as-written"):
        first = {name: notified.index(name) for name in notified}
        return sorted((step for step in handlers if step.name in first), key=lambda step: first[step.name])
    if turned("handlers-once-each"):
        return [step for step in handlers for name in notified if name == step.name]
    if turned("handlers-only-where-notified"):
        return handlers
    return [step for step in handlers if step.name in notified]


def _taken(step, host, rows, notified):
    """Adds a step's row; whether the host goes on behind it."""
    words = asked(step, host)
    ended = words if isinstance(words, Outcome) else outcome(words)
    result, judged, wanted = judge(step, ended, lambda conditions, seen: _evaluated(conditions, step, host, seen))
    rows.append(Row(step.number, judged, result, step, None if ended is words else words, ended, wanted))
    if judged == "ok" and (result.changed or turned("only-changed-notifies")):
        notified += step.notify
    if judged == "ignored" and result.changed and turned("ignored-notifies-nobody"):
        notified += step.notify
    if step.register is not None:
        _register(step, host, result, judged)
    return judged != "failed"


def _register(step, host, result, judged):
    """A result takes the place of an earlier one of its name, also where the step was skipped or has failed."""
    if judged == "skipped" and turned("skipped-results-are-registered"):
        return
    if judged in ("failed", "ignored") and turned("failures-are-registered"):
        return
    if step.register in host.results and turned("later-result-wins"):
        return
    host.results[step.register] = result


def asked(step, host):
    """Skipped where `when` is false, undefined where it has no value; else the first word that can't be made decides; else the words of the program."""
    if turned("when-before-words"):
        unrendered = rendered(step, host)
        if not isinstance(unrendered, list):
            return unrendered
    try:
        if step.when is not None and not holds(step.when, host):
            return SKIPPED
    except Undefined as undefined:
        return SKIPPED if turned("undefined-when-fails") else Outcome("undefined", name=undefined.name)
    return rendered(step, host)


def rendered(step, host):
    """The words, or how the step ends for want of them."""
    words, too_long = [], False
    for word in step.words:
        try:
            words.append(render(word, host))
        except Undefined as undefined:
            return Outcome("undefined", name=undefined.name) if not turned("undefined-words-fail") else TOO_LONG
        except TooLong:
            if not turned("first-word-decides"):
                return TOO_LONG
            too_long = True
    return TOO_LONG if too_long else words


def _evaluated(conditions, step, host, seen):
    """The value of `changed_when` or `failed_when`, which see the result under the step's own name."""
    before = dict(host.results)
    if step.register is not None and not turned("conditions-see-their-result"):
        host.results[step.register] = seen
    try:
        return holds(conditions, host)
    finally:
        host.results = before
