"""The reading of an inventory: its groups in preorder, or its first fault, or all of them.

A group is read as a place: its name, the numbers of the groups from `all` down to itself, its limit, its variables and its host rows.
"""

import re
from dataclasses import dataclass, field

from faults import FIRST, Fault, by_bytes
from json_text import NotJson, read_json
from rules import turned
from shares import is_whole, percent_of

DEEPEST = 32
MOST_GROUPS = 1_024
MOST_ROWS = 16_384
KEYS = ("vars", "hosts", "children")


@dataclass
class Row:
    """A host at a place: its variables there, and whether it is said to be down there."""

    name: str
    variables: dict
    down: bool | None


@dataclass
class Place:
    """A group. `path` has the preorder numbers from `all`, which is 1, to the group itself."""

    name: str
    path: tuple
    limit: tuple | None = None
    variables: dict = field(default_factory=dict)
    rows: list = field(default_factory=list)

    @property
    def number(self):
        return self.path[-1]

    @property
    def depth(self):
        return len(self.path)


def read_inventory(text, told=FIRST):
    """The places in preorder. The faults of the walk come first, then a name at two places, too deep, too many. What a fault leaves unsaid is read as if it weren't given."""
    try:
        top = read_json(text)
    except NotJson:
        told.tell(Fault(201, "NotJson"))
        return []
    return places_in(top, told)


def places_in(top, told=FIRST):
    """The same of a text that was read as JSON."""
    if not isinstance(top, dict):
        told.tell(Fault(202, "BadShape", at=""))
        return []
    others = [(name, body, name) for name, body in top.items() if name != "all"]
    places = []
    _walk("all", top.get("all"), "all", (), others, places, told)
    _check_tree(places, told)
    return places


def _walk(name, body, at, above, others, places, told):
    """Reads a group and then those below it; `others` are further children, which stand at the top of the text."""
    _check_name(name, told)
    _check_shape(body, at, told)
    body = _object(body)
    checks = [_check_keys, _check_shapes]
    for check in reversed(checks) if turned("inventory-keys-before-shapes") else checks:
        check(body, at, told)
    place = Place(name, (*above, len(places) + 1))
    places.append(place)
    steps = [_read_limit, _read_hosts]
    for step in reversed(steps) if turned("inventory-limit-before-hosts") else steps:
        step(place, body, at, told)
    place.variables = _variables(_object(body.get("vars")))
    for child in _in_name_order(_object(body.get("children")), f"{at}/children", others):
        _walk(*child, place.path, [], places, told)


def _object(value):
    """An object, or an empty one in the place of anything else."""
    return value if isinstance(value, dict) else {}


def _check_shape(value, at, told):
    if value is not None and not isinstance(value, dict):
        told.tell(Fault(202, "BadShape", at=at))


def _in_name_order(own, at, others):
    """The children of a group by name; of two with one name its own comes first."""
    entries = [(name, body, f"{at}/{name}") for name, body in own.items()]
    both = others + entries if turned("inventory-own-first") else entries + others
    if turned("inventory-top-groups-merged"):
        return sorted(entries, key=lambda entry: by_bytes(entry[0])) + sorted(others, key=lambda entry: by_bytes(entry[0]))
    return sorted(both, key=lambda entry: by_bytes(entry[0]))


def is_name(name):
    """1 to 255 ASCII letters, digits, dots, dashes and underscores."""
    most = 256 if turned("name-length") else 255
    return re.fullmatch("[A-Za-z0-9._-]*", name) is not None and 0 < len(name) <= most


def _check_name(name, told):
    if not is_name(name):
        told.tell(Fault(101, "BadName", name=name))


def _check_keys(body, at, told):
    unknown = sorted((key for key in body if key not in KEYS), key=by_bytes, reverse=turned("inventory-keys-in-order"))
    for key in unknown[:1] if turned("each-unknown-key-of-a-group") else unknown:
        told.tell(Fault(203, "UnknownKey", at=f"{at}/{key}"))


def _check_shapes(body, at, told):
    for key in reversed(KEYS) if turned("inventory-shapes-in-order") else KEYS:
        _check_shape(body.get(key), f"{at}/{key}", told)


def _read_limit(place, body, at, told):
    given = _object(body.get("vars"))
    if "max_down" not in given or (given["max_down"] is None and turned("limit-not-null")):
        return
    place.limit = limit_of(given["max_down"])
    if place.limit is None:
        told.tell(Fault(204, "BadLimit", at=f"{at}/vars/max_down"))


def limit_of(value):
    """A group's limit: a whole number to 65,535, or a text in percent. Null is none of both, and so is anything else: None."""
    if is_whole(value):
        return "count", value
    if isinstance(value, str) and percent_of(value) is not None:
        return "percent", percent_of(value)
    return None


def _read_hosts(place, body, at, told):
    """A host is read also where its name is none, and what is wrong with it stands behind that."""
    for name, given in sorted(_object(body.get("hosts")).items(), key=lambda entry: by_bytes(entry[0])):
        checks = [lambda: _check_name(name, told), lambda: _check_host(given, f"{at}/hosts/{name}", told)]
        for check in reversed(checks) if turned("host-name-before-shape") else checks:
            check()
        place.rows.append(Row(name, _variables(_object(given)), _object(given).get("down")))


def _check_host(given, at, told):
    _check_shape(given, at, told)
    given = _object(given)
    if "down" in given and not isinstance(given["down"], bool):
        if not (given["down"] is None and turned("down-not-null")):
            told.tell(Fault(205, "BadDown", at=f"{at}/down"))


def _variables(given):
    """Texts, whole numbers and truth values are variables; any other value defines nothing."""
    kinds = (str, int, bool, float) if turned("variables-three-kinds") else (str, int, bool)
    return {name: value for name, value in given.items() if isinstance(value, kinds)}


def _check_tree(places, told):
    """What the groups together break is told also where one of them breaks something by itself."""
    if turned("tree-behind-a-broken-walk") and told.found:
        return
    checks = [_check_twice, _check_deep, _check_many]
    if turned("twice-before-deep"):
        checks = [_check_deep, _check_twice, _check_many]
    if turned("deep-before-many"):
        checks = [_check_twice, _check_many, _check_deep]
    for check in checks:
        check(places, told)


def _check_twice(places, told):
    """The groups in preorder whose name stood before, by their numbers."""
    names = set()
    for place in places:
        if place.name in names:
            told.tell(Fault(102, "TwicePlaced", group=place.number - turned("groups-from-one")))
            if turned("each-repeated-group"):
                break
        names.add(place.name)


def _check_deep(places, told):
    if max(place.depth for place in places) > DEEPEST + turned("groups-deepest"):
        told.tell(Fault(103, "TooDeep"))


def _check_many(places, told):
    rows = [row.name for place in places for row in place.rows]
    if turned("rows-not-hosts"):
        rows = set(rows)
    if len(places) > MOST_GROUPS + turned("groups-most") or len(rows) > MOST_ROWS:
        told.tell(Fault(104, "TooMany"))
