"""The sizes of batches: how `serial` is written, and what bound it sets for the batch that is opened next."""

import re

from faults import FIRST, Fault
from rules import turned
from shares import MOST, is_whole, percent_of, share

MOST_SIZES = 64


def read_sizes(value, at, told=FIRST):
    """The sizes of `serial`, each a count or a percentage. The length of a list is looked at before its entries; they are looked at whatever it is."""
    if not isinstance(value, list):
        return [_read_size(value, at, told)]
    sizes = []
    checks = [lambda: _check_length(value, at, told), lambda: sizes.extend(_read_size(entry, f"{at}/{place}", told) for place, entry in enumerate(value))]
    for check in reversed(checks) if turned("sizes-length-first") else checks:
        check()
    return sizes


def _check_length(value, at, told):
    if not 1 <= len(value) <= MOST_SIZES + turned("sizes-most"):
        told.tell(Fault(706, "BadSerial", at=at))


def _read_size(value, at, told):
    """The size that a value says; None where it says none."""
    if is_whole(value):
        return "count", value
    if isinstance(value, str):
        digits = "[0-9]+" if turned("size-five-digits") else "[0-9]{1,5}"
        if re.fullmatch(digits, value) and int(value) <= MOST:
            return "count", int(value)
        if percent_of(value) is not None:
            return "percent", percent_of(value)
    told.tell(Fault(706, "BadSerial", at=at))
    return None


def cap(sizes, targeted, opened):
    """The most hosts of the next batch, when so many hosts are targeted and so many batches were opened before; None for no bound.

    The batch opened as number j takes size j, or the last. A percentage is of the targeted hosts, rounded down, and at least one host.
    """
    if not sizes:
        return None
    if turned("last-size-goes-on"):
        kind, number = sizes[opened % len(sizes)]
    elif turned("next-size-for-each-batch"):
        kind, number = sizes[0]
    else:
        kind, number = sizes[min(opened, len(sizes) - 1)]
    if kind == "count":
        least = 1 if turned("size-nought-is-no-bound") else None
        return number if number > 0 else least
    if number == 0 and turned("nought-percent-is-one-host"):
        return None
    if turned("size-rounded-down"):
        return max(1, -(-number * targeted // 100))
    return max(1, share(number, targeted))
