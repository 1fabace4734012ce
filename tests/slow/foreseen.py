"""The course of a file of plays: what a run would open to its end where just some hosts fail, each at its first step. Nothing is run, and no step is looked at."""

from dataclasses import dataclass

from course import Boundary, close, end_at, halting, next_boundary
from planning import start
from plays import end_line, restart
from rules import turned
from sizes import cap
from surveyed import Sight, groups_lines
from texts import as_text, first_line, listed


@dataclass
class Foreseen:
    """A play's boundaries, its end (its words), and the state that it leaves."""

    boundaries: list[Boundary]
    end: tuple
    state: dict
    # The state at each boundary, once hosts were set aside.
    states: list[dict]


def foresee(fleet, plays, targets, counted, failing, begun=None):
    """The courses of the plays that a run would begin, where just these hosts fail; from the state of a first play that has begun, where it is given."""
    courses = []
    for play, target in zip(plays, targets):
        state = _again(courses[-1].state, target, failing) if courses else begun or start(fleet, target)
        courses.append(_course(fleet, play, state, counted(target), failing))
        if courses[-1].end != ("finished",):
            break
    return courses


def _again(before, target, failing):
    """The state at the start of a later play."""
    if turned("course-failed-hosts-stay-failed"):
        before = {host: "updated" if host in failing and status == "failed" else status for host, status in before.items()}
    return restart(before, target)


def _course(fleet, play, state, targeted, failing):
    """One play from a state; `targeted` is the number of which sizes in percent are taken."""
    boundaries, states, end = [], [], None
    step = 2 if turned("course-hosts-fail-at-the-first-step") else 1
    while True:
        opened = 0 if turned("course-takes-later-sizes") else len(boundaries)
        boundary = next_boundary(fleet, play, state, cap(play.sizes, targeted, opened), end)
        boundaries.append(boundary)
        states.append(dict(state))
        end = end or end_at(state, boundary.answer)
        if end:
            return Foreseen(boundaries, end, state, states)
        batch = boundary.opened = boundary.answer.batches[0]
        steps = {host: step if host in failing else None for host in batch}
        end = close(state, batch, steps, halting(steps, play), play.most_failed)
        if turned("course-failed-hosts-are-down"):
            state.update({host: "updated" for host in batch if state[host] == "failed"})


def foreseen_text(fleet, courses, several, is_grouped=False, is_coloured=False, before=0):
    """The boundaries and the end of each play as a recap has them, behind its number where there are several, with its groups where they are asked for; and how many batches that are."""
    lines = []
    for number, course in enumerate(courses, before + 1):
        lines += [f"play {number}"] if several else []
        for place, boundary in enumerate(course.boundaries, 1):
            lines.append(f"boundary {place}: {first_line(boundary.answer)}")
            lines += [listed("held:", boundary.aside)] if boundary.aside else []
            lines += [listed("open:", boundary.opened)] if boundary.opened is not None else []
        lines.append(end_line(course.end))
        lines += groups_lines(fleet, _sight(course), is_coloured) if is_grouped else []
    counted = courses[-1:] if turned("course-counts-all-plays") else courses
    lines.append(f"batches={sum(boundary.opened is not None for course in counted for boundary in course.boundaries)}")
    return as_text(lines)


def _sight(course):
    """What is told of a course: each boundary but the last opened its batch."""
    batches = [(state, boundary.opened) for state, boundary in zip(course.states, course.boundaries) if boundary.opened is not None]
    asides = [(state, boundary.aside) for state, boundary in zip(course.states, course.boundaries)]
    return Sight(course.states[0], batches, course.boundaries[0].answer, asides)
