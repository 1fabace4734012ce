"""The fleet of an inventory: its hosts, who is in which group, which groups are limited, and whether the limits nest."""

import re

from faults import FIRST, Every, Fault, by_bytes
from rules import turned
from shares import share

MOST_HOSTS = 4_096


class Fleet:
    """Hosts sorted by bytes; `places` in preorder; `limited` are the limited ones among them, each with its limit as a number."""

    def __init__(self, places, told=FIRST):
        self.places = places
        self.members = _members(places)
        self.rows = {}
        for place in places:
            for row in place.rows:
                self.rows.setdefault(row.name, []).append((place, row))
        self.hosts = sorted(self.rows, key=by_bytes)
        self.limits = {place.number: self._limit(place) for place in places if place.limit}
        self.limited = [place for place in places if place.limit]
        order = [self._check_size, self._check_nested, self._check_start]
        if turned("nested-before-start"):
            order = [self._check_size, self._check_start, self._check_nested]
        if turned("size-before-nested"):
            order = [self._check_nested, self._check_size, self._check_start]
        for check in order:
            # What comes behind wouldn't be so, or would only follow.
            if check(told) and not turned("kinds-of-faults-of-fleets-hide-later-ones"):
                break

    def _limit(self, place):
        kind, number = place.limit
        if kind == "count":
            return number
        count = len(self.members[place.number])
        if turned("limit-of-distinct-hosts"):
            count = sum(len(other.rows) for other in self.places if place.number in other.path)
        if turned("limit-rounded-down"):
            return -(-number * count // 100)
        return share(number, count)

    def _check_size(self, told):
        is_over = len(self.hosts) > MOST_HOSTS + turned("hosts-most")
        if is_over:
            told.tell(Fault(303, "TooManyHosts"))
        return is_over

    def _check_nested(self, told):
        """The pairs of limited groups of which neither is below the other, each with the first host by name that both hold, in the order of these hosts."""
        met = set()
        for host in reversed(self.hosts) if turned("nested-first-host") else self.hosts:
            for one, other in self._crossings(self.chain(host)):
                if (one.number, other.number) not in met or turned("each-crossing-pair-once"):
                    told.tell(Fault(301, "NotNested", host=host, first=one.name, second=other.name))
                    met.add((one.number, other.number))
                if turned("each-crossing-pair-of-a-host"):
                    break
        return bool(met)

    def _crossings(self, groups):
        pairs = [(one, other) for place, one in enumerate(groups) for other in groups[place + 1 :]]
        if turned("nested-neighbours-alone"):
            pairs = list(zip(groups, groups[1:]))
        if turned("nested-first-pair"):
            pairs.reverse()
        for one, other in pairs:
            below = one.path == other.path[: one.depth]
            if turned("nested-by-paths"):
                below = self.members[one.number] >= self.members[other.number] or self.members[one.number] <= self.members[other.number]
            if not below:
                yield one, other

    def _check_start(self, told):
        groups, is_over = reversed(self.limited) if turned("start-first-group") else self.limited, False
        for place in groups:
            down = sum(self.is_off(host) for host in self.members[place.number])
            limit = self.limits[place.number]
            if down > limit - turned("start-over-not-at"):
                told.tell(Fault(302, "StartOver", group=place.name, down=down, limit=limit))
                is_over = True
                if turned("each-group-that-starts-over"):
                    break
        return is_over

    def chain(self, host):
        """The limited groups that hold a host, in preorder."""
        return [place for place in self.limited if host in self.members[place.number]]

    def is_off(self, host):
        """Whether a host is down at the start: of several places that say it, the last in preorder counts."""
        said = [row.down for _, row in self.rows[host] if isinstance(row.down, bool)]
        if turned("down-last-place"):
            return bool(said) and said[0]
        return bool(said) and said[-1]

    def groups_of(self, host):
        """The groups other than `all` that hold a host."""
        found = {place.name for place in self.places if host in self.members[place.number]}
        return found if turned("all-is-no-group-name") else found - {"all"}

    def unknown(self, parts):
        """The faults of a pattern's parts that name nothing, each name once."""
        told = Every()
        self.target(list(parts) if turned("each-unknown-name-once-a-play") else dict.fromkeys(parts), told)
        return told.found

    def target(self, parts, told=FIRST):
        """The hosts of a pattern's parts, sorted. A name is a group's first, then a host's."""
        found = set()
        groups = {place.name: self.members[place.number] for place in self.places}
        for part in parts:
            is_group = part in groups and not (turned("groups-before-hosts") and part in self.rows)
            if is_group and not (turned("empty-groups-hide") and not groups[part]):
                found |= groups[part]
            elif part in self.rows:
                found.add(part)
            elif part not in groups:
                told.tell(Fault(304, "NoSuchName", name=part))
        return sorted(found, key=by_bytes)


def _members(places):
    """The hosts of each group: those of its own rows and of the groups below it, each once."""
    members = {place.number: set() for place in places}
    for place in places:
        for above in place.path[-1:] if turned("members-of-groups-below") else place.path:
            members[above].update(row.name for row in place.rows)
    return members


def parts_of(pattern):
    """The names in a pattern: cut at colons and commas, without the blanks round them, and without empty ones."""
    cut = "[:]" if turned("pattern-commas") else "[:,]"
    blanks = " \t\n\r\v\f" if turned("pattern-blanks") else " \t\n\r"
    parts = [part.strip(blanks) for part in re.split(cut, pattern)]
    return [part for part in parts if part]
