"""The texts of `limits` and `plan`, and the lines of a recap that come from a plan."""

from planning import Blocked, down, room, start
from rules import turned


def limits_text(fleet, state=None):
    """A line for each limited group in preorder, and one for the whole fleet, as it starts, or in a state."""
    state = state or start(fleet, [])
    lines = []
    for place in fleet.limited:
        members = len(fleet.members[place.number])
        limit = fleet.limits[place.number]
        free = limit if turned("limits-room-less-down") else room(fleet, state, place)
        lines.append(f"{place.name} members={members} down={down(fleet, state, place)} limit={limit} room={free}")
    lines.append(f"hosts={len(fleet.hosts)} limited={len(fleet.limited)}")
    return as_text(lines)


def first_line(answer):
    """The line that tells a plan's bound, or who is blocked."""
    if isinstance(answer, Blocked):
        return f"blocked group={answer.group} waiting={answer.waiting}"
    kind, *numbers = answer.bound
    bound = {
        "group": "group {} waiting={} room={}",
        "serial": "serial waiting={} size={}",
        "one-host": "one-host",
        "nothing": "nothing",
    }[kind].format(*numbers)
    return f"plan batches={len(answer.batches)} bound={bound}"


def plan_text(answer, held=()):
    """The first line, a line for each batch, and one for the hosts that were set aside, where there are any."""
    lines = [first_line(answer)]
    batches = [] if isinstance(answer, Blocked) else answer.batches
    lines += [listed(f"batch {number}:", batch) for number, batch in enumerate(batches, 1)]
    if held:
        lines.insert(1 if turned("held-line-last") else len(lines), listed("held:", held))
    return as_text(lines)


def listed(head, hosts):
    """A head and the names behind it, each after one space."""
    return " ".join([head, *hosts])


def as_text(lines):
    """Lines, each with its end."""
    return "".join(f"{line}\n" for line in lines)
