"""The switch of each rule that can be turned.

A turned rule is a wrong rule in the place of the right one, at the one place where the slow program applies it. Nothing is turned unless it is
asked for by name (`--turn NAME`). `rule_list.py` says in plain words what each one says while it isn't turned.
"""

from rule_list import RULES

_turned = set()


def turn(name):
    """Turns the rule of this name, beside those that are turned already."""
    if name not in RULES:
        raise KeyError(f"no rule is called {name}")
    _turned.add(name)


def turn_none():
    """Puts all rules right again."""
    _turned.clear()


def turned(name):
    """Whether the rule of this name is turned."""
    if name not in RULES:
        raise KeyError(f"no rule is called {name}")
    return name in _turned
