"""Which keys stand more than once in an object of a text, as `lint` warns about it."""

from collections import Counter

from faults import shown
from json_text import NotJson, Pairs, read_pairs
from rules import turned

# How many are told of a text, and how many bytes of a key are shown.
MOST, SHOWN = 100, 255


def key_notes(inventory, playbook=None):
    """The notes on the keys of the inventory, and behind them those of the playbook, where there is one."""
    texts = [("inventory", inventory)] + [("playbook", playbook)] * (playbook is not None)
    if turned("lint-keys-of-the-inventory-first"):
        texts.reverse()
    most = None if turned("lint-a-hundred-repeated-keys") else MOST
    return [f"repeated-key {file}={shown(b'/'.join(map(_cut, path)))}" for file, text in texts for path in _repeated_in(text)[:most]]


def _cut(key):
    raw = key.encode()
    return raw if len(raw) <= SHOWN or turned("lint-long-keys-are-cut") else raw[:SHOWN] + b".."


def _repeated_in(text):
    """The paths of keys that stand more than once; none in a text that is no JSON."""
    try:
        return list(_repeated(read_pairs(text), []))
    except NotJson:
        return []


def _repeated(value, path):
    """Those of a value below a path: of an object its own, each once and in the order in which they first stand there, and then those within its members, one after the other."""
    if not isinstance(value, list):
        return
    is_object = isinstance(value, Pairs)
    members = value if is_object else [(str(place + turned("lint-places-in-paths-from-nought")), below) for place, below in enumerate(value)]
    keys = [key for key, _ in members] if is_object else []
    own = [[*path, key] for key, count in Counter(keys).items() if count > 1]
    if turned("lint-each-repeated-key-once"):
        own = [[*path, key] for place, key in enumerate(keys) if key in keys[:place]]
    if turned("lint-all-values-of-a-key-are-looked-into") and is_object:
        members = list(dict(members).items())
    within = (found for key, below in members for found in _repeated(below, [*path, key]))
    yield from [*within, *own] if turned("lint-own-keys-before-those-within") else [*own, *within]
