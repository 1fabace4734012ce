"""A plan from elsewhere: the batches that its text says, and whether they are a plan with which a play begins, or the first thing that is wrong with them."""

import re

from faults import Fault
from planning import Blocked, room
from rules import turned

NAME = re.compile(rb"[A-Za-z0-9._-]{1,255}")


def read_batches(text):
    """The names of each batch of a text, line by line; a word that can't be a name makes its line none of a plan."""
    batches = []
    for number, line in enumerate(text.split(b"\n"), 1):
        words = _words(line)
        if _says_nothing(words, len(batches)):
            continue
        label = b"%d:" % (len(batches) + 1)
        if words[:1] == [b"batch"] and (words[1:2] == [label] or (turned("check-labels-count") and re.fullmatch(rb"[0-9]+:", b"".join(words[1:2])))):
            words = words[2:]
        if not all(NAME.fullmatch(word) for word in words):
            raise Fault(908, "BadPlan", line=len(batches) + 1 if turned("check-all-lines-count") else number)
        batches.append([word.decode() for word in words])
    return batches


def _words(line):
    """What stands between blanks; one carriage return at the line's end doesn't count."""
    if not turned("check-carriage-returns-are-cut"):
        line = line.removesuffix(b"\r")
    return [word for word in re.split(rb"[ \t]" if not turned("check-tabs-are-blanks") else rb" ", line) if word]


def _says_nothing(words, count):
    """An empty line, the line of those that were set aside, and before any batch the plan's first line."""
    if not words:
        return True
    if words[0] == b"held:" and not turned("check-held-line-is-passed-over"):
        return True
    is_heading = words[0] == b"plan" and b"".join(words[1:2]).startswith(b"batches=")
    return is_heading and (count == 0 or turned("check-heading-stands-first"))


def judged(fleet, state, bound, answer, batches):
    """The line that tells of batches in a state, and the exit status; `answer` is the planner's of that state."""
    checks = [lambda: _blocked(answer), lambda: _unknown(fleet, batches), lambda: _wrong(fleet, state, bound, batches)]
    if turned("check-blocked-before-names"):
        checks[:2] = [checks[1], checks[0]]
    for check in checks:
        found = check()
        if found:
            return found, 3 if found.startswith("blocked ") else 1
    count, least = len(batches), len(answer.batches)
    return f"valid batches={count} least={least}", 0 if count == least or turned("check-longer-plans-show-in-the-status") else 2


def _blocked(answer):
    return f"blocked group={answer.group} waiting={answer.waiting}" if isinstance(answer, Blocked) else None


def _unknown(fleet, batches):
    """The first name that is no host's, in whichever batch."""
    for number, batch in enumerate(batches, 1):
        for name in batch:
            if name not in fleet.hosts:
                return f"unknown batch={number} host={name}"
    return None


def _wrong(fleet, state, bound, batches):
    """What is wrong with the first batch that isn't right; behind all of them who is missing."""
    seen = set()
    for number, batch in enumerate(batches, 1):
        if turned("check-hosts-once-in-all-batches"):
            seen.clear()
        tests = [_hosts, _size, _groups]
        if turned("check-hosts-before-size"):
            tests = [_size, _hosts, _groups]
        if turned("check-size-before-groups"):
            tests = [_hosts, _groups, _size]
        if not batch:
            return f"empty batch={number}"
        for test in tests:
            found = test(fleet, state, bound, number, batch, seen)
            if found:
                return found
        seen |= set(batch)
    left = [host for host in fleet.hosts if state[host] == "waiting" and not any(host in batch for batch in batches)]
    return f"missing host={left[0]}" if left and not turned("check-all-who-wait-are-there") else None


def _hosts(_fleet, state, _bound, number, batch, seen):
    """Host by host: one that doesn't wait, or that stood before."""
    for place, host in enumerate(batch):
        if state[host] != "waiting":
            return f"not-waiting batch={number} host={host}"
        if host in seen or host in batch[:place]:
            return f"twice batch={number} host={host}"
    return None


def _size(_fleet, _state, bound, number, batch, _seen):
    if bound is None or len(batch) <= bound:
        return None
    return f"size batch={number} hosts={len(batch)} size={bound}"


def _groups(fleet, state, _bound, number, batch, _seen):
    """The first limited group in preorder with more hosts of the batch than it has room for."""
    for place in reversed(fleet.limited) if turned("check-first-group-in-preorder") else fleet.limited:
        count = sum(host in fleet.members[place.number] for host in batch)
        free = room(fleet, state, place)
        if count > free:
            return f"over batch={number} group={place.name} hosts={count} room={free}"
    return None
