"""What a run goes on with that broke off: from where it stands by its journal to the play that goes on or comes next, and how its hosts stand then."""

from dataclasses import dataclass

from entries import digest
from faults import Fault
from needing import needed_again
from planning import DOWN
from plays import restart
from rules import turned


@dataclass
class Rest:
    """The rest of a run: how many plays stand before it, the state of its first one, and how many batches that opened; who is up by now, the word with which the first play stands
    in the journal, and who owes its handlers."""

    before: int
    state: dict
    opened: int
    mended: list
    word: str
    owing: list


def is_of(inputs, inventory, playbook):
    """Whether a run that began with the texts of these digests is one of this inventory and this playbook."""
    if turned("resume-of-the-same-playbook"):
        return inputs[0] == digest(inventory)
    return inputs == (digest(inventory), digest(playbook))


def rest_of(fleet, plays, targets, names, read):
    """What the run goes on with whose journal `read` reads, where the hosts of these names are up by now; or why it can't go on."""
    if turned("resume-names-before-the-journal"):
        read()
    mended = fleet.target(names)
    standing = read()
    if len(plays) != standing.plays and not (len(plays) < standing.plays and turned("resume-as-many-plays")):
        raise Fault(913, "OtherInputs")
    named = [host for host in mended if standing.state[host] in DOWN] if turned("resume-all-named-hosts-are-kept") else mended
    standing.resume(mended)
    goes_on = standing.is_under_way
    before = standing.play - goes_on
    if before >= len(plays):
        raise Fault(913, "OtherInputs")
    state = _begun(standing.state, targets[before], goes_on)
    has_updated = goes_on and "updated" in standing.state.values()
    checks = [lambda: _check_needs(plays, before, has_updated), lambda: _check_limits(fleet, state)]
    for check in reversed(checks) if turned("resume-needs-before-limits") else checks:
        check()
    opened = standing.opened if goes_on and turned("resume-sizes-begin-anew") else 0
    word = "again:" if goes_on and not turned("resume-word-of-a-play-that-goes-on") else "play:"
    return Rest(before, state, opened, named, word, standing.owing)


def _begun(state, target, goes_on):
    """How the hosts stand as the play begins: where it goes on, those of its hosts wait who are idle."""
    if not goes_on or turned("resume-updated-hosts-stay-updated"):
        return restart(state, target)
    return {host: "waiting" if host in target and status == "idle" else status for host, status in state.items()}


def _check_needs(plays, before, has_updated):
    name = needed_again(plays, before, has_updated)
    if name is not None and not turned("resume-needs-results"):
        raise Fault(914, "NeedsResult", name=name)


def _check_limits(fleet, state):
    """The first group of which more hosts are down than it may lose."""
    for place in fleet.limited:
        down = sum(state[host] in DOWN for host in fleet.members[place.number])
        if down > fleet.limits[place.number] and not turned("resume-limits-are-kept"):
            raise Fault(302, "StartOver", group=place.name, down=down, limit=fleet.limits[place.number])
