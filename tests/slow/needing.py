"""Which result a step reads that is to come, and that a run which goes on hasn't got, since no journal has results: that of an earlier play, or of the play that goes on, where a host was
updated in it, which doesn't run it again."""

from rules import turned
from words import Ref, parts


def needed_again(plays, before, has_updated):
    """The name that the first such step reads, where so many plays stand before the one that goes on or comes next."""
    if has_updated and not turned("needs-of-the-play-that-goes-on"):
        return needed(plays, before) or needed(plays, before + 1)
    return needed(plays, before)


def needed(plays, first):
    """The name that the first such step reads first, of the plays from this place on; None where none does."""
    earlier = {step.register for play in plays[:first] for step in (*play.tasks, *play.handlers) if step.register is not None}
    for play in plays[first : first + 1] if turned("needs-of-all-plays-to-come") else plays[first:]:
        for place, step in enumerate([*play.tasks, *play.handlers]):
            found = _needed_by(step, earlier, _registered(play, place))
            if found is not None:
                return found
    return None


def _registered(play, place):
    """What the tasks before a step of the play registered. A handler, which may not run, hides nothing."""
    steps = [*play.tasks, *play.handlers][:place] if turned("needs-handlers-hide-nothing") else play.tasks[:place]
    return set() if turned("needs-own-results-hide") else {task.register for task in steps}


def _needed_by(step, earlier, own):
    """A step looks up `when`, then its words; and behind its program, where its own result is there, `changed_when` and `failed_when`."""
    before = [*in_conditions(step.when), *in_words(step.words)]
    if turned("needs-when-before-words"):
        before = [*in_words(step.words), *in_conditions(step.when)]
    behind = [*in_conditions(step.changed_when), *in_conditions(step.failed_when)]
    itself = set() if turned("needs-own-result-of-the-step") else {step.register}
    names = [name for name in before if name not in own] + [name for name in behind if name not in own | itself]
    return next((name for name in names if name in earlier), None)


def in_words(words):
    return [part.name for word in words for part in parts(word) if isinstance(part, Ref)]


def in_conditions(conditions):
    return [name for tree in conditions or [] for name in _in_tree(tree)]


def _in_tree(tree):
    """The names that a condition mentions, from left to right: those of groups are none, and texts neither."""
    if not isinstance(tree, tuple):
        return []
    kind, *rest = tree
    if kind in ("or", "and"):
        return [name for below in rest[0] for name in _in_tree(below)]
    if kind == "not":
        return _in_tree(rest[0])
    if kind == "result":
        return [rest[0]]
    if kind == "defined" and turned("mentioned-is-read"):
        return []
    return [operand.name for operand in rest if isinstance(operand, Ref)]
