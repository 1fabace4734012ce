"""A play on a fleet as a course of boundaries and batches, without workers: hosts are judged one by one, and batches by when their hosts fail."""

from dataclasses import dataclass, field

from planning import Blocked, answer, set_aside
from rules import turned
from sizes import cap
from track import track

COUNTED = ("ok", "changed", "failed", "skipped", "ignored")


@dataclass
class Boundary:
    """A state between batches: who was set aside at it, what the planner answers, and the batch that was opened; and what is told of that: how many wait behind it,
    the rows of its hosts, the step at which it halts, and the state that it ends with."""

    answer: object
    aside: list
    opened: list | None = None
    waiting: int = 0
    tracks: dict = field(default_factory=dict)
    halt: tuple | None = None
    left: dict = field(default_factory=dict)


@dataclass
class Course:
    """A play's boundaries, its end (its words), the state it leaves, and each host's counts; and who waits as it begins."""

    boundaries: list = field(default_factory=list)
    end: tuple = ()
    state: dict = field(default_factory=dict)
    counts: dict = field(default_factory=dict)
    waits: list = field(default_factory=list)


def run_play(fleet, play, state, hosts, targeted, opened=0):
    """A whole play from a state; `targeted` is the number of which sizes in percent are taken, `opened` the first size."""
    waits = [host for host in fleet.hosts if state[host] == "waiting"]
    course = Course(state=state, counts={host: dict.fromkeys(COUNTED, 0) for host in fleet.hosts}, waits=waits)
    end = None
    while True:
        boundary = next_boundary(fleet, play, state, cap(play.sizes, targeted, opened), end)
        course.boundaries.append(boundary)
        end = end or end_at(state, boundary.answer)
        if end:
            course.end = end
            return course
        batch = boundary.answer.batches[-1 if turned("first-batch-is-opened") else 0]
        boundary.opened, opened = batch, opened + 1
        boundary.waiting = sum(status == "waiting" for status in state.values()) - len(batch)
        tracks = boundary.tracks = {host: track(play, hosts[host]) for host in batch}
        halt = boundary.halt = halt_of(tracks, play)
        _count(course.counts, tracks, halt)
        failing = {host: failing_step(rows) for host, rows in tracks.items()}
        end = close(state, batch, failing, halt, play.most_failed)
        boundary.left = {host: state[host] for host in batch}


def next_boundary(fleet, play, state, bound, end=None):
    """Sets aside whom a group without room holds, where the play says so, and asks for a plan."""
    aside = set_aside(fleet, state) if play.hold and not (end and turned("last-boundary-holds-too")) else []
    for host in aside:
        state[host] = "held"
    return Boundary(answer(fleet, state, bound), aside)


def end_at(state, found):
    """The end at a boundary, or None: finished or held where nobody waits, blocked where somebody waits without room."""
    if isinstance(found, Blocked):
        return "blocked", found.group
    if found.batches:
        return None
    if "held" in state.values() and not turned("held-in-place-of-finished"):
        return ("held",)
    return ("finished",)


def failing_step(rows):
    """The step that failed on a host, or None."""
    return next((row.step for row in rows if row.judged == "failed"), None)


def halt_of(tracks, play):
    """The first step at which a batch has more failures than the play allows, with these failures; None where none has."""
    return halting({host: failing_step(rows) for host, rows in tracks.items()}, play)


def halting(failing, play):
    """The same of the steps at which hosts fail. Failures of all steps so far count, and equality doesn't halt."""
    if play.most_failed is None:
        return None
    steps = sorted({step for step in failing.values() if step is not None})
    if turned("handlers-can-halt"):
        steps = [step for step in steps if step <= len(play.tasks)]
    size = len(failing)
    for step in steps:
        failed = sum(other is not None and other <= step for other in failing.values())
        if turned("failures-add-up"):
            failed = sum(other == step for other in failing.values())
        if turned("halt-of-the-live-hosts"):
            size = len(failing) - sum(other is not None and other < step for other in failing.values())
        over = 100 * failed - play.most_failed * size
        if over > 0 or (over == 0 and turned("equality-does-not-halt")):
            return step, failed
    return None


def close(state, batch, failing, halt, most_failed):
    """Gives the hosts of a batch the status that they end with; answers the end that the batch brings, or None."""
    failed = 0
    for host in batch:
        step = failing[host]
        if step is not None and (halt is None or step <= halt[0] or turned("failures-behind-the-halt")):
            state[host], failed = "failed", failed + 1
        elif halt is not None and not turned("halted-hosts-are-not-updated"):
            state[host] = "halted"
        else:
            state[host] = "updated"
    ends = []
    if halt is not None:
        ends.append(("too-many-failed", *halt, len(batch)))
    if failed == len(batch) and not turned("batch-of-failures-ends"):
        ends.append(("all-failed",))
    if turned("halt-before-all-failed"):
        ends.reverse()
    return ends[0] if ends else None


def _count(counts, tracks, halt):
    """Counts the rows of a batch, up to the halt."""
    for host, rows in tracks.items():
        for row in rows:
            if halt is not None and row.step > halt[0] and not turned("counts-up-to-the-halt"):
                break
            counts[host][row.judged] += 1
            if row.judged == "ignored":
                counts[host]["ok"] += not turned("ignored-counts-as-ok")
            if row.judged in ("ok", "ignored") and row.result.changed:
                counts[host]["changed"] += not (row.judged == "ignored" and turned("ignored-counts-as-changed"))
