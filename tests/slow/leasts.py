"""Compares the rule of dealing with all plans there are, on drawn fleets of few waiting hosts; the last line counts the states.

A plan puts each waiting host into one batch and keeps each group's room. So the dealt batches have to be such a plan, no plan may have fewer, and
where dealing says that a group is in the way there may be none at all.
"""

import sys
from random import Random

from draw_inventory import draw_right
from faults import Fault
from fleet import Fleet
from inventory import read_inventory
from json_draw import write
from least import is_small, least_batches
from planning import Blocked, answer, down, room

STATUSES = ["waiting"] * 6 + ["updated", "idle", "failed", "halted", "off", "held"]


def main(count):
    passed = failed = 0
    for number in range(count):
        random = Random(f"leasts/{number}")
        state = _draw(random)
        if state is None:
            continue
        wrong = _wrong(*state)
        passed += not wrong
        failed += bool(wrong)
        if wrong:
            print(f"FAILED: state {number}: {wrong}")
    print(f"{passed} passed, {failed} failed")
    return 0 if passed and not failed else 1


def _draw(random):
    """A fleet, a state in which no group has more hosts down than it may, and a cap; None where none was drawn."""
    try:
        fleet = Fleet(read_inventory(write(draw_right(random, limited=0.7), random)))
    except Fault:
        return None
    state = {host: random.choice(STATUSES) for host in fleet.hosts}
    over = any(down(fleet, state, place) > fleet.limits[place.number] for place in fleet.limited)
    if over or not is_small(state):
        return None
    return fleet, state, random.choice([None, None, 1, 2, 3])


def _wrong(fleet, state, cap):
    """What is wrong with the answer of a state, or nothing."""
    found = answer(fleet, state, cap)
    least = least_batches(fleet, state, cap)
    if isinstance(found, Blocked):
        return f"{found} though there is a plan of {least}" if least is not None else ""
    dealt = [host for batch in found.batches for host in batch]
    if sorted(dealt) != sorted(host for host in fleet.hosts if state[host] == "waiting"):
        return f"{found} hasn't each waiting host once"
    for batch in found.batches:
        crowded = any(len(fleet.members[place.number].intersection(batch)) > room(fleet, state, place) for place in fleet.limited)
        if not batch or crowded or (cap is not None and len(batch) > cap):
            return f"{batch} of {found} is no batch"
    return f"{found} though the least plan has {least}" if len(found.batches) != least else ""


if __name__ == "__main__":
    sys.exit(main(int(sys.argv[1]) if sys.argv[1:] else 3_000))
