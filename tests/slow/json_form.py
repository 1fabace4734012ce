"""What `--json` prints: the facts of `limits`, `plan`, `plan --forecast` and `run`, and faults, each as one JSON object on one line; and what comes of a rehearsal that is told so."""

import json

from course import COUNTED
from facts import coursed, gone_on, planned, plays_before, ran, status_of_plan, went_on
from faults import Fault, shown
from fleet import Fleet
from inventory import read_inventory
from planning import Blocked, down, room, start
from plays import status_of
from rules import turned
from said import Said


def is_wanted(words):
    """Whether a line of words asks for it."""
    return "--json" in words


def without(words):
    """The line of words without that."""
    return [word for word in words if word != "--json"]


def said(words, files, failing, mended):
    """What is said to a line of words, its files having been read; some hosts are to fail, and some are mended. A journal that is refused stays as it was."""
    try:
        if words[0] == "limits":
            return _said(limits(Fleet(read_inventory(*files))), 0)
        if words[0] == "plan" and "--forecast" in words:
            _, _, courses = coursed(*files, failing)
            return _said(course(courses), status_of(courses))
        if words[0] == "plan":
            _, _, boundary = planned(*files)
            return _said(plan(boundary), status_of_plan(boundary))
        if "--resume" in words:
            _, rest, courses = went_on(*files, mended, "--changed-inputs" in words)
            return _said(recap(courses, plays_before(rest)), status_of(courses), gone_on(files[-1], rest, courses))
        courses = ran(*files)[-1]
        return _said(recap(courses), status_of(courses))
    except Fault as fault:
        return refused(fault, files[-1] if "--resume" in words else None)


def _said(value, status, journal=None):
    return Said(written(value), "", status, journal)


def refused(fault, journal=None, out=""):
    """What is said of a refused input, behind what went out before."""
    return Said(out, written(told(fault)), 1, journal)


def written(value):
    """A value on a line of its own, without blanks between its parts."""
    if turned("form-without-blanks"):
        return json.dumps(value) + "\n"
    return json.dumps(value, separators=(",", ":")) + ("" if turned("form-ends-its-line") else "\n")


def limits(fleet):
    """The limited groups in preorder, and the numbers of hosts and of such groups."""
    state = start(fleet, [])
    rows = [
        {
            "group": place.name,
            "members": len(fleet.members[place.number]),
            "down": down(fleet, state, place),
            "limit": place.limit[1] if turned("form-limits-as-numbers") else fleet.limits[place.number],
            "room": room(fleet, state, place),
        }
        for place in fleet.limited
    ]
    return {"limits": rows, "hosts": len(fleet.hosts), "limited": len(rows)}


def answer(found):
    """What the planner answers: how many batches, and the bound that forces them, or the group without room."""
    if isinstance(found, Blocked):
        return {"blocked": {"group": found.group, "waiting": found.waiting}}
    kind, *numbers = found.bound
    keys = {"group": ("group", "waiting", "room"), "serial": ("waiting", "size")}.get(kind, ())
    return {"batches": len(found.batches), "bound": {"kind": kind, **dict(zip(keys, numbers))}}


def batches_of(found):
    """The batches of a plan; none where a group has no room."""
    return [] if isinstance(found, Blocked) else found.batches


def plan(boundary):
    """The plan of a first boundary, and who was set aside at it."""
    value = {"answer": answer(boundary.answer), "batches": batches_of(boundary.answer), "held": boundary.aside}
    if isinstance(boundary.answer, Blocked) and turned("form-blocked-plans-have-a-list"):
        del value["batches"]
    return value


def _boundary(found):
    opened = [] if found.opened is None and turned("form-nothing-opened-is-null") else found.opened
    held = None if not found.aside and turned("form-nobody-held-is-a-list") else found.aside
    return {"answer": answer(found.answer), "held": held, "open": opened}


def end(words):
    """How a play ended."""
    kind, *details = words
    keys = {"blocked": ("group",), "too-many-failed": ("step", "failed", "size")}.get(kind, ())
    return {"kind": kind, **dict(zip(keys, details))}


def course(courses):
    """What a run would open, play by play, and how many batches that are."""
    plays = [_play(number, found) for number, found in enumerate(courses, 1)]
    counted = courses[-1:] if turned("form-counts-all-plays") else courses
    return {"plays": plays, "batches": sum(boundary.opened is not None for found in counted for boundary in found.boundaries)}


def recap(courses, before=0):
    """What came of a run, play by play; so many plays of the file stand before them."""
    first = 1 if turned("form-plays-have-the-numbers-of-the-file") else before + 1
    return {"plays": [_play(number, found, hosts=_hosts(found)) for number, found in enumerate(courses, first)]}


def _play(number, found, **further):
    boundaries = [_boundary(boundary) for boundary in found.boundaries]
    play = {} if number == 1 and turned("form-only-plays-have-numbers") else {"play": number}
    return {**play, "boundaries": boundaries, **further, "end": end(found.end)}


def _hosts(found):
    """The hosts that aren't idle, by name."""
    is_told = lambda state: state != "idle" or turned("form-idle-hosts-are-left-out")
    return [{"host": host, **{name: found.counts[host][name] for name in COUNTED}, "state": state} for host, state in found.state.items() if is_told(state)]


def told(fault):
    """A fault with its details: numbers as such, and everything else as a text. Its own name is its kind, since a detail may be a name."""
    details = {key: _detail(value) for key, value in fault.details.items()}
    return {"fault": {"number": fault.number, "kind": fault.name, **details}}


def _detail(value):
    if isinstance(value, int) and not turned("form-numbers-of-faults"):
        return value
    if turned("form-bytes-of-details") and isinstance(value, str):
        return value
    return shown(value)
