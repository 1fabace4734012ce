"""Whole numbers and percentages, as limits, sizes and bounds on failures are written."""

import re

from rules import turned

MOST = 65_535


def is_whole(value, most=MOST):
    """Whether this is a whole number from 0 to the greatest; a truth value is none."""
    return type(value) is int and 0 <= value <= most


def percent_of(text):
    """The number in `p%`, one to three ASCII digits from 0 to 100; None for any other text."""
    digits = "[0-9]+" if turned("percent-three-digits") else "[0-9]{1,3}"
    found = re.fullmatch(f"({digits})%", text)
    if not found:
        return None
    percent = int(found[1])
    if percent > 100 and not turned("percent-at-most-all"):
        return None
    return percent


def share(percent, count):
    """So many percent of a count, rounded down."""
    return percent * count // 100
