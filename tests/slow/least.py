"""The least number of batches of a small fleet, found by trying all plans. It knows nothing of dealing and of bounds."""

from planning import room

MOST_TRIED = 6


def is_small(state):
    """Whether so few hosts wait that all plans can be tried."""
    return sum(status == "waiting" for status in state.values()) <= MOST_TRIED


def least_batches(fleet, state, cap):
    """The least number of batches of any plan; None where no batch can hold some waiting host, so that there is no plan.

    A plan puts each waiting host into one batch, so that no batch holds more hosts of a limited group than it has room, or more than the cap.
    """
    hosts = [host for host in fleet.hosts if state[host] == "waiting"]
    rooms = [(fleet.members[place.number], room(fleet, state, place)) for place in fleet.limited]

    def fits(batch):
        if cap is not None and len(batch) > cap:
            return False
        return all(len(members.intersection(batch)) <= free for members, free in rooms)

    def fewest(place, batches):
        """The fewest batches of a plan that goes on from these, with the hosts from a place on put in."""
        if place == len(hosts):
            return len(batches)
        found = []
        for number in range(len(batches) + 1):
            grown = [list(batch) for batch in batches] + ([[]] if number == len(batches) else [])
            grown[number].append(hosts[place])
            if fits(grown[number]):
                found.append(fewest(place + 1, grown))
        return min((count for count in found if count is not None), default=None)

    return fewest(0, [])
