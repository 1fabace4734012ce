"""What a condition means for a host: true, false, or undefined (Undefined is raised)."""

from results import Result
from rules import turned
from words import Undefined


def holds(conditions, host):
    """Whether all of several conditions hold, from the first on; what isn't evaluated can't be undefined."""
    stop = turned("lists-joined-by-and")
    found = []
    for tree in conditions:
        found.append(evaluate(tree, host))
        if found[-1] == stop and not turned("lists-end-early"):
            break
    return stop if stop in found else not stop


def evaluate(tree, host):
    """The truth value of one condition."""
    if isinstance(tree, bool):
        return tree
    kind, *rest = tree
    return _KINDS[kind](host, *rest)


def _chain(stop):
    def evaluate_all(host, trees):
        values = []
        for tree in trees:
            values.append(evaluate(tree, host))
            if values[-1] is stop and not turned("chains-end-early"):
                return stop
        return stop if stop in values else not stop

    return evaluate_all


def _not(host, tree):
    return not evaluate(tree, host)


def _defined(host, ref):
    if turned("defined-sees-results") and ref.name in host.results:
        return ref.name in host.variables
    if turned("fields-may-be-undefined") and ref.field and ref.name in host.results:
        return True
    try:
        host.value(ref)
    except Undefined:
        return False
    return True


def _result(host, name, test):
    """A test of the registered result; undefined where none is registered."""
    if name not in host.results:
        if turned("tests-need-a-result"):
            return False
        raise Undefined(name)
    result = host.results[name]
    if test == "succeeded":
        return not result.failed and not (result.skipped and turned("skipped-is-succeeded"))
    return getattr(result, test)


def _same(host, left, right):
    """Same kind and same value. A whole registered result equals nothing."""
    one, other = _operand(host, left), _operand(host, right)
    if isinstance(one, Result) or isinstance(other, Result):
        return turned("whole-results-equal-nothing") and one is other
    if turned("kinds-differ"):
        return one == other
    if turned("texts-are-no-numbers") and str(one) == str(other):
        return True
    return type(one) is type(other) and one == other


def _group(host, name):
    return name in host.groups


def _true(host, operand):
    """A truth value is itself, a number is true where it isn't 0, a text where it isn't empty, a whole result is true."""
    value = _operand(host, operand)
    if isinstance(value, Result):
        return not value.failed if turned("whole-results-are-true") else True
    if isinstance(value, str) and turned("texts-as-conditions"):
        return value.lower() == "true"
    if type(value) is int and turned("numbers-as-conditions"):
        return value > 0
    return bool(value)


def _operand(host, operand):
    if isinstance(operand, tuple):
        # A tree is an operand only where it is turned what `not` holds.
        return evaluate(operand, host)
    return operand if isinstance(operand, (str, int)) else host.value(operand)


_KINDS = {
    "or": _chain(True),
    "and": _chain(False),
    "not": _not,
    "defined": _defined,
    "result": _result,
    "same": _same,
    "group": _group,
    "operand": _true,
}
