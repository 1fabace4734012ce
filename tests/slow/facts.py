"""The facts that the commands tell: what was accepted, the plan of the first play, the course of all plays, and what came of a run. How they are told is another matter."""

from course import next_boundary
from entries import entries_of, line, whole_of
from fleet import Fleet
from foreseen import foresee
from inventory import read_inventory
from planning import Blocked, start
from playbook import read_playbook
from plays import end_line, run_plays
from resuming import is_of, rest_of
from rules import turned
from sizes import cap
from standing import read_journal
from texts import listed


def accepted(inventory, playbook):
    """The fleet, the plays and the hosts of each one's pattern. The inventory's faults come first, those of patterns last."""
    if turned("inventory-before-playbook"):
        read_playbook(playbook)
    places = read_inventory(inventory)
    if turned("fleet-before-playbook"):
        read_playbook(playbook)
    fleet = Fleet(places)
    plays = read_playbook(playbook)
    looked_up = plays[:1] if turned("patterns-of-all-plays") else plays
    return fleet, plays, [fleet.target(play.parts) for play in looked_up]


def targeted(fleet, target):
    """The number of hosts of which a percentage is taken: those that are down are among them."""
    if turned("targets-that-are-down-count"):
        return sum(not fleet.is_off(host) for host in target)
    return len(target)


def planned(inventory, playbook):
    """The fleet, the state in which the first play begins, and its first boundary, once all plays were accepted."""
    fleet, plays, targets = accepted(inventory, playbook)
    state = start(fleet, targets[0])
    return fleet, state, next_boundary(fleet, plays[0], state, cap(plays[0].sizes, targeted(fleet, targets[0]), 0))


def status_of_plan(boundary):
    """The exit status of a plan: whether somebody is blocked, or set aside."""
    is_aside = boundary.aside and not turned("held-hosts-make-status-three")
    return 3 if isinstance(boundary.answer, Blocked) or is_aside else 0


def coursed(inventory, playbook, names):
    """The fleet, the plays, and what a run would open to its end, where just the hosts of these names fail."""
    if turned("course-names-last"):
        Fleet(read_inventory(inventory)).target(names)
    fleet, plays, targets = accepted(inventory, playbook)
    if turned("course-groups-may-fail"):
        names = [name for name in names if name not in {place.name for place in fleet.places}]
    failing = fleet.target(names)
    return fleet, plays, foresee(fleet, plays, targets, lambda target: targeted(fleet, target), failing)


def ran(inventory, playbook):
    """The fleet, the plays, the hosts of each, and what came of a whole run; how many are worked on at once makes no difference to it."""
    fleet, plays, targets = accepted(inventory, playbook)
    return fleet, plays, targets, run_plays(fleet, plays, targets, lambda target: targeted(fleet, target))


def went_on(inventory, playbook, journal, names, takes_others):
    """The plays, what a run goes on with that broke off, and what came of that."""
    fleet, plays, targets = accepted(inventory, playbook)
    is_own = (lambda inputs: True) if takes_others else (lambda inputs: is_of(inputs, inventory, playbook))
    rest = rest_of(fleet, plays, targets, names, lambda: read_journal(fleet, journal, is_own))
    return plays, rest, run_plays(fleet, plays[rest.before :], targets[rest.before :], lambda target: targeted(fleet, target), rest.state, rest.opened, rest.owing)


def plays_before(rest):
    """How many plays of the file stand before the first one that the recap has."""
    return 0 if turned("resume-plays-have-the-numbers-of-the-file") else rest.before


def gone_on(journal, rest, courses):
    """The journal of a run that went on."""
    return whole_of(journal) + b"".join(line(body) for body in [listed("resumed:", rest.mended), *entries_of(courses, end_line, rest.word)])
