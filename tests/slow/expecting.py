"""What is expected of the table of limits or of a plan: lists of expectations, and the first one that isn't met."""

import re

from faults import Fault
from fleet import parts_of
from planning import Blocked
from rules import turned

PART = re.compile(r"(?P<name>[A-Za-z0-9._-]{1,255})(?P<sign><?=)(?P<number>[0-9]{1,5})")
MOST = 65_535


def read_expectations(text):
    """The name, the sign and the number of each part of a list; a list without a part is none."""
    found = []
    for part in parts_of(text):
        said = PART.fullmatch(part)
        if said is None and turned("expect-each-part-is-right"):
            continue
        if said is None or (int(said["number"]) > MOST and not turned("expect-numbers-have-a-bound")):
            raise Fault(909, "BadList", name=text)
        found.append((said["name"], said["sign"], int(said["number"])))
    if not found and not turned("expect-lists-say-something"):
        raise Fault(909, "BadList", name=text)
    return found


def unmet(expectations, number_of):
    """The fault of the first expectation that the numbers don't meet, or None."""
    for name, sign, number in reversed(expectations) if turned("expect-first-is-told") else expectations:
        found = number_of(name)
        if found is None and turned("expect-no-number-meets-nothing"):
            continue
        if found is None or not _holds(sign, number, found):
            wanted = {"expected" if sign == "=" else "most": number}
            return Fault(907, "Unexpected", name=name, **wanted, found="none" if found is None else found)
    return None


def _holds(sign, number, found):
    if sign == "<=" and not turned("expect-at-most"):
        return found <= number
    return found == number


def number_in_table(fleet, name):
    """`hosts` and `limited` are the numbers of the table's last line; another name is a group's, and stands for its limit."""
    if name == "hosts" and not (turned("expect-last-line-before-groups") and _limit_of(fleet, name) is not None):
        return len(fleet.hosts)
    if name == "limited":
        return len(fleet.places) if turned("expect-limited-groups-are-counted") else len(fleet.limited)
    return _limit_of(fleet, name)


def _limit_of(fleet, name):
    for place in fleet.limited:
        if place.name == name:
            return place.limit[1] if turned("expect-limits-as-numbers") else fleet.limits[place.number]
    return None


def number_in_plan(answer, name):
    """`batches` is the number of a plan's batches; a plan that is blocked has none."""
    if name != "batches":
        return None
    if isinstance(answer, Blocked):
        return 0 if turned("expect-blocked-plans-have-no-batches") else None
    return len(answer.batches)
