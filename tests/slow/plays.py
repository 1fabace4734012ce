"""All plays of a playbook one behind the other, and the text of their recaps."""

from course import COUNTED, run_play
from hosts import Host
from planning import start
from rules import turned
from texts import as_text, first_line, listed


def run_plays(fleet, plays, targets, counted, state=None, opened=0, owing=()):
    """The courses of the plays that were begun, of which the first may begin from another state than that of the inventory, and with hosts that owe its handlers. A play that ends otherwise
    than finished is the last one."""
    hosts = {host: Host(fleet, host) for host in fleet.hosts}
    state = state or start(fleet, targets[0])
    courses = []
    for play, target in zip(plays, targets):
        if courses:
            state = restart(state, target)
            owing = owing if turned("debts-end-with-the-play") else ()
        if turned("results-last-into-later-plays"):
            for host in hosts.values():
                host.results = {}
        for name, host in hosts.items():
            host.owes = name in owing
        courses.append(run_play(fleet, play, state, hosts, counted(target), _opened_before(courses) if courses else opened))
        if len(courses) > 1 and turned("counts-of-the-play-alone"):
            _add_counts(courses[-2], courses[-1])
        if courses[-1].end != ("finished",) and not turned("only-finished-plays-go-on"):
            break
    return courses


def _opened_before(courses):
    """How many batches a play's sizes have behind them when it begins: none, whatever earlier plays opened."""
    opened = [boundary for course in courses for boundary in course.boundaries if boundary.opened]
    return len(opened) if turned("sizes-begin-anew") else 0


def _add_counts(earlier, later):
    """The turned rule: what earlier plays counted is counted again."""
    for host, counts in later.counts.items():
        for name in counts:
            counts[name] += earlier.counts[host][name]


def restart(before, target):
    """The state at the start of a later play: failed, halted and down hosts stay so."""
    stay = {"failed", "halted", "off"}
    if turned("failed-hosts-stay-failed"):
        stay.remove("failed")
    if turned("off-hosts-stay-off"):
        stay.remove("off")
    return {host: status if status in stay else "waiting" if host in target else "idle" for host, status in before.items()}


def recaps(courses, several, before=0):
    """The recap of the only play, or of each play begun behind its number; so many stand before them."""
    text = ""
    for number, course in enumerate(courses, before + 1):
        if several and (number > 1 or len(courses) > 1 or not turned("several-plays-have-numbers")):
            text += f"play {number}\n"
        text += recap(course)
    return text


def recap(course):
    """The boundaries, a line for each host that isn't idle, and the end."""
    lines = []
    for number, boundary in enumerate(course.boundaries, 1):
        lines.append(f"boundary {number}: {first_line(boundary.answer)}")
        further = [listed("held:", boundary.aside)] if boundary.aside else []
        further += [listed("open:", boundary.opened)] if boundary.opened is not None else []
        lines += reversed(further) if turned("held-line-before-open-line") else further
    for host, status in course.state.items():
        if status != "idle" or turned("idle-hosts-are-not-listed"):
            counts = " ".join(f"{name}={course.counts[host][name]}" for name in COUNTED)
            lines.append(f"{host} {counts} state={status}")
    lines.append(end_line(course.end))
    return as_text(lines)


def end_line(end):
    """How a play ended."""
    kind, *details = end or ("none",)
    if kind == "blocked":
        return f"end blocked group={details[0]}"
    if kind == "too-many-failed":
        step, failed, size = details
        return f"end too-many-failed step={step} failed={failed} size={size}"
    return f"end {kind}"


def status_of(courses):
    """The exit status: by the end of the last play begun, and after a finished one by whether a host has failed, or was at work when the run broke off that goes on."""
    last = courses[-1]
    if last.end[0] in ("too-many-failed", "all-failed"):
        return 4
    if last.end[0] in ("blocked", "held"):
        if last.end[0] == "held" and turned("held-goes-before-failed") and "failed" in last.state.values():
            return 2
        return 3
    if turned("failed-hosts-show-in-the-status"):
        return 0
    halted = "failed" if turned("halted-hosts-show-in-the-status") else "halted"
    return 2 if {"failed", halted} & set(last.state.values()) else 0
