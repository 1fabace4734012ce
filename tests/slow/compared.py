"""What conditions compare in vain: the host's own name with one that no host has, and strings with placeholders, which nothing fills."""

import re

from conditions import tests_in
from rules import turned
from words import Ref

OWN = Ref("inventory_hostname")


def unknown_host(trees, hosts):
    """The first string of a condition that is compared with the host's own name and is the name of no host; None where there is none."""
    texts = [text for tree in trees or [] for test in tests_in(tree) for text in _texts_beside_own(test)]
    known = {host.lower() for host in hosts} if turned("lint-hosts-letter-by-letter") else set(hosts)
    found = [text for text in texts if (text.lower() if turned("lint-hosts-letter-by-letter") else text) not in known]
    return found[-1 if turned("lint-first-unknown-host") else 0] if found else None


def _texts_beside_own(test):
    """The string with which a test compares the host's own name."""
    if test[0] != "same":
        return []
    pairs = [test[1:]] if turned("lint-asked-hosts-on-either-side") else [test[1:], test[:0:-1]]
    return [text for name, text in pairs if isinstance(text, str) and (name == OWN or (isinstance(name, Ref) and turned("lint-hosts-are-asked-for-by-their-own-name")))]


def first_placeholder(trees):
    """The first string of a condition in which a placeholder begins; None where there is none. The name of a group is no such string."""
    texts = [text for tree in trees or [] for test in tests_in(tree) for text in _texts(test)]
    signs = "{" if turned("lint-statements-are-holes-too") else "{%#"
    found = [text for text in texts if re.search(rf"\{{[{signs}]", text)]
    return found[-1 if turned("lint-first-text-hole") else 0] if found else None


def _texts(test):
    """The strings that a test compares, or the one that stands alone."""
    kind, *operands = test
    if kind == "group" and not turned("lint-names-of-groups-have-no-holes"):
        return []
    if (kind == "operand" and turned("lint-texts-alone-may-have-holes")) or (kind == "same" and turned("lint-compared-texts-may-have-holes")) or kind in ("result", "defined"):
        return []
    if turned("lint-left-texts-before-right-ones"):
        operands.reverse()
    return [operand for operand in operands if isinstance(operand, str)]
