"""Which name a step may look up in vain, as `run --strict` asks it before anything runs: what of a host's names is known by its variables, and by the steps that have run before, surely or perhaps."""

from dataclasses import dataclass

from faults import Fault
from hosts import layered
from rules import turned
from words import Ref, parts

# What a name stands for: a result, perhaps one, or nothing that is known; a variable stands for its value.
RESULT, PERHAPS, NOTHING = object(), object(), object()


@dataclass
class Outset:
    """A host before a step: its name, groups and variables, and what surely and perhaps has been registered."""

    host: str
    groups: set
    variables: dict
    sure: set
    may: set

    def stands(self, name):
        if name in self.sure:
            return RESULT
        if name in self.may:
            return PERHAPS
        return self.variables.get(name, NOTHING)

    def behind(self, step):
        """The same behind the step's own program."""
        return Outset(self.host, self.groups, self.variables, self.sure | {step.register}, self.may)


def first_missed(fleet, plays, targets):
    """The fault of the first step, on the first host by name that waits for its play, and the first name that it may look up in vain there; None where there is none."""
    waiting = [[host for host in target if turned("strict-down-hosts-are-not-asked") or not fleet.is_off(host)] for target in targets]
    variables = {host: layered(fleet, host) for host in fleet.hosts}
    for number, play in enumerate(plays):
        steps = [*play.tasks, *play.handlers]
        for place, step in enumerate(steps):
            for host in reversed(waiting[number]) if turned("strict-first-host") else waiting[number]:
                past = [] if turned("strict-earlier-plays-register") else [other for other, hosts in zip(plays[:number], waiting) if host in hosts or turned("strict-plays-of-the-host")]
                before = steps[:place] if turned("strict-handlers-are-not-sure") else play.tasks[:place]
                sure = _registered([task for other in past for task in other.tasks] + before)
                may = _registered([each for other in past for each in (*other.tasks, *other.handlers)] + steps[:place])
                missed = missed_by(step, Outset(host, fleet.groups_of(host), variables[host], sure, may))
                if missed:
                    told = {"play": number + 1} if len(plays) > 1 else {}
                    return Fault(915, "NoValue", **told, step=step.number, host=host, name=missed[0])
    return None


def _registered(steps):
    return {step.register for step in steps if step.register is not None}


def missed_by(step, outset):
    """The names that a step may look up in vain, in the order of reading: of its words, and of what judges its end, where `when` isn't known to be false."""
    holds, missed = _all_hold(step.when, outset)
    if holds is False and not turned("strict-skipped-steps-read-nothing"):
        return missed
    words = [name for word in step.words for part in parts(word) if isinstance(part, Ref) for name in _missed_in_hole(part, outset)]
    judging = outset if turned("strict-own-results-judge") else outset.behind(step)
    return [*missed, *words, *_all_hold(step.changed_when, judging)[1], *_all_hold(step.failed_when, judging)[1]]


def is_known_not_to_hold(conditions, outset):
    """Whether conditions are known not to hold before anything runs; where it isn't known, they may."""
    holds = _all_hold(conditions, outset)[0]
    return holds is not True if turned("lint-idle-steps-are-known") else holds is False


def _missed_in_hole(ref, outset):
    """A whole result has no text, so only a variable is sure to have one."""
    if ref.name == "inventory_hostname":
        return []
    stands = outset.stands(ref.name)
    lacks = stands is not RESULT if ref.field else stands in (PERHAPS, NOTHING) or (stands is RESULT and not turned("strict-whole-results-have-no-text"))
    return [ref.name] if lacks else []


def _missed_in(ref, outset):
    """A name in a condition: a field is one of a result; a name alone may be a variable that perhaps is a result too."""
    if ref.name == "inventory_hostname":
        return []
    stands = outset.stands(ref.name)
    if ref.field and not turned("strict-fields-are-of-results"):
        lacks = stands is not RESULT
    else:
        lacks = stands is NOTHING or (stands is PERHAPS and (ref.name not in outset.variables or turned("strict-variables-behind-results")))
    return [ref.name] if lacks else []


def _all_hold(conditions, outset):
    """Whether conditions hold, as far as that is known, and the names that they may look up in vain."""
    return _chain(False, [_outlook(tree, outset) for tree in conditions or []])


def _chain(deciding, outlooks):
    """Parts of which one that is `deciding` decides; what stands behind one that is known to isn't read."""
    is_decided, is_open, missed = False, False, []
    for holds, names in outlooks:
        missed = missed + names
        is_decided, is_open = is_decided or holds is deciding, is_open or holds is None
        if is_decided and not turned("strict-what-is-decided-ends"):
            break
    if is_decided and not (is_open and turned("strict-a-later-part-may-decide")):
        return deciding, missed
    return None if is_open else not deciding, missed


def _outlook(tree, outset):
    """Whether a condition holds, or None, and the names that it may look up in vain."""
    if isinstance(tree, bool):
        return tree, []
    kind, *rest = tree
    if kind in ("or", "and"):
        return _chain(kind == "or", [_outlook(below, outset) for below in rest[0]])
    if kind == "not":
        holds, missed = _outlook(rest[0], outset)
        return None if holds is None else not holds, missed
    if kind == "group":
        return rest[0] in outset.groups, []
    if kind == "defined":
        return _is_there(rest[0], outset), _missed_in(rest[0], outset) if turned("strict-who-asks-misses-nothing") else []
    if kind == "result":
        return None, _missed_in(Ref(rest[0], "failed"), outset)
    known = [_known(operand, outset) for operand in rest]
    missed = [name for operand in rest if isinstance(operand, Ref) for name in _missed_in(operand, outset)]
    if any(value is PERHAPS for value in known):
        return None, missed
    return (_are_same(*known) if kind == "same" else known[0] is RESULT or bool(known[0])), missed


def _known(operand, outset):
    """The value of an operand, as far as it is known; PERHAPS where it isn't."""
    if not isinstance(operand, Ref):
        return operand
    if operand.name == "inventory_hostname":
        return outset.host
    value = PERHAPS if operand.field else outset.stands(operand.name)
    return PERHAPS if value is NOTHING else value


def _are_same(one, other):
    return one is not RESULT and type(one) is type(other) and one == other


def _is_there(ref, outset):
    """Whether a name has a value: a result has all fields but for `rc`, which one of a program that wasn't run has not."""
    if ref.name == "inventory_hostname":
        return True
    stands = outset.stands(ref.name)
    if stands is PERHAPS:
        return True if ref.name in outset.variables and not ref.field else None
    if ref.field and stands is RESULT:
        return None if ref.field == "rc" and not turned("strict-codes-are-not-sure") else True
    return stands is not NOTHING and not ref.field
