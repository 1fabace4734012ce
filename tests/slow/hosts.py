"""What a host knows: its name, its groups, its variables, and the results that its steps registered."""

from faults import by_bytes
from rules import turned
from words import Undefined


class Host:
    """A host during a run. `results` lasts from one play into the next; `owes` says whether a play that goes on runs all its handlers on it."""

    def __init__(self, fleet, name):
        self.name = name
        self.groups = fleet.groups_of(name)
        self.variables = layered(fleet, name)
        self.results = {}
        self.owes = False

    def value(self, ref):
        """The value of a ref: the host's name, a registered result before a variable, or a field of a registered result."""
        if ref.name == "inventory_hostname":
            return self.variables.get(ref.name, self.name) if turned("hostname-is-no-variable") else self.name
        if ref.field is not None:
            return self._field(ref)
        if ref.name in self.results and not (turned("results-before-variables") and ref.name in self.variables):
            return self.results[ref.name]
        if ref.name in self.variables:
            return self.variables[ref.name]
        raise Undefined(ref.name)

    def _field(self, ref):
        if ref.name not in self.results:
            raise Undefined(ref.name)
        value = getattr(self.results[ref.name], ref.field)
        if value is None:
            if turned("no-code-is-undefined"):
                return 0
            raise Undefined(ref.name)
        return value


def layered(fleet, host):
    """A host's variables: groups by depth, then by name, later ones winning; its own above them, a later place winning."""
    groups = [place for place in fleet.places if host in fleet.members[place.number]]
    if turned("variables-of-groups-above"):
        groups = [place for place, _ in fleet.rows[host]]
    groups.sort(key=lambda place: (-place.depth if turned("deeper-groups-win") else place.depth, by_bytes(place.name)))
    if turned("names-decide-within-a-depth"):
        groups.sort(key=lambda place: (place.depth, [-byte for byte in by_bytes(place.name)]))
    own = [row.variables for _, row in fleet.rows[host]]
    if turned("later-place-wins"):
        own.reverse()
    layers = [place.variables for place in groups]
    found = {}
    for layer in own + layers if turned("hosts-win-over-groups") else layers + own:
        found.update(layer)
    return found
