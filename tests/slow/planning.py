"""Plans: what counts as down, what room is left, who is set aside, and how waiting hosts are dealt into batches.

A state gives each host one of the words idle, waiting, running, updated, failed, halted, off, held.
"""

from dataclasses import dataclass, field

from faults import by_bytes
from rules import turned

DOWN = {"running", "failed", "halted", "off"}


@dataclass
class Plan:
    """Batches, and the bound that forces their number."""

    bound: tuple
    batches: list = field(default_factory=list)


@dataclass
class Blocked:
    """No plan: this group has waiting hosts and no room."""

    group: str
    waiting: int


def start(fleet, target):
    """The state at the start: off where a host is down, else waiting where it is a target, else idle."""
    state = {}
    for host in fleet.hosts:
        state[host] = "waiting" if host in target else "idle"
        if fleet.is_off(host) and not turned("off-hosts-never-wait"):
            if host in target or not turned("off-hosts-are-listed"):
                state[host] = "off"
    return state


def down(fleet, state, place):
    """How many hosts of a group are down."""
    kinds = set(DOWN)
    if turned("failed-hosts-are-down"):
        kinds.remove("failed")
    if turned("halted-hosts-are-down"):
        kinds.remove("halted")
    if turned("off-hosts-are-down"):
        kinds.remove("off")
    if turned("held-hosts-are-up"):
        kinds.add("held")
    return sum(state[host] in kinds for host in fleet.members[place.number])


def waiting(fleet, state, place):
    """How many hosts of a group wait."""
    return sum(state[host] == "waiting" for host in fleet.members[place.number])


def room(fleet, state, place):
    """How many more hosts of a group may be down."""
    return max(0, fleet.limits[place.number] - down(fleet, state, place))


def set_aside(fleet, state):
    """The waiting hosts, by name, that a limited group without room holds."""
    full = [place for place in fleet.limited if room(fleet, state, place) == 0]
    if turned("held-by-outer-groups"):
        return [host for host in fleet.hosts if state[host] == "waiting" and any(place in full for place in fleet.chain(host)[-1:])]
    found = [host for host in fleet.hosts if state[host] == "waiting" and any(host in fleet.members[place.number] for place in full)]
    return sorted(found, key=lambda host: deal_key(fleet, host)) if turned("held-by-name") else found


def deal_key(fleet, host):
    """Hosts are dealt by the number of their innermost limited group (0 where there is none), then by name."""
    chain = fleet.chain(host)
    innermost = chain[-1].number if chain else (len(fleet.places) + 1 if turned("dealing-free-hosts-first") else 0)
    if turned("dealing-innermost") and chain:
        innermost = chain[0].number
    if turned("dealing-by-groups"):
        innermost = 0
    return innermost, by_bytes(host)


def answer(fleet, state, cap):
    """The plan of a state under a cap (None where there is none), or the first group in preorder that has no room."""
    rooms = [(place, waiting(fleet, state, place), room(fleet, state, place)) for place in fleet.limited]
    for place, count, free in reversed(rooms) if turned("blocked-first-group") else rooms:
        if (count > 0 or turned("blocked-with-waiting-alone")) and free == 0:
            return Blocked(place.name, count)
    order = sorted((host for host in fleet.hosts if state[host] == "waiting"), key=lambda host: deal_key(fleet, host))
    bounds = [(_least(count, free), ("group", place.name, count, free)) for place, count, free in rooms if count > 0]
    if cap is not None and order:
        bounds.append((_least(len(order), cap), ("serial", len(order), cap)))
        if turned("groups-named-before-serial"):
            bounds.insert(0, bounds.pop())
    bounds.append((1, ("one-host",)) if order else (0, ("nothing",)))
    if turned("one-host-named-last") and order:
        bounds.insert(0, bounds.pop())
    count = max(least for least, _ in bounds)
    forcing = [bound for least, bound in bounds if least == count]
    return Plan(forcing[-1 if turned("first-bound-named") else 0], _deal(order, count))


def _least(count, free):
    """So many batches are needed for a count of hosts: the quotient rounded up."""
    if turned("batches-rounded-up"):
        return max(1, count // free)
    return -(-count // free)


def _deal(order, count):
    """The host at place i, counted from 0, goes to the batch whose number is the rest of i by the number of batches."""
    if turned("dealing-in-turn"):
        size = -(-len(order) // count) if count else 0
        return [order[place * size : (place + 1) * size] for place in range(count)]
    return [order[place::count] for place in range(count)]
