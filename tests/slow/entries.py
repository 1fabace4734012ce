"""The lines of a journal, and what a run says of itself in them: each entry is a body, a word and what stands behind it."""

import hashlib
import re

from rules import turned
from texts import listed

HEAD = re.compile("rollout journal 1 inventory=([0-9a-f]{64}) playbook=([0-9a-f]{64}) plays=(0|[1-9][0-9]{0,4})")


def line(body):
    """A whole line: the length of its body, the sum of each byte times its place, and the body. Each letter is a byte."""
    raw = body.encode("latin-1")
    return b"%d %d %s\n" % (len(raw), sum(place * byte for place, byte in enumerate(raw, 1)), raw)


def body_of(text):
    """The body of a line, which stands without its line feed; None where it isn't right."""
    length, weight, body = [*text.decode("latin-1").split(" ", 2), None, None][:3]
    if body is None:
        return None
    right = line(body).decode("latin-1").split(" ", 2)
    if length != right[0] and not turned("journal-lengths-are-checked"):
        return None
    if weight != right[1] and not turned("journal-sums-are-checked"):
        return None
    return body


def digest(text):
    """The 64 digits that stand for a text in the first line."""
    return hashlib.sha256(text).hexdigest()


def head(inventory, playbook, plays):
    """The first entry of a run of so many plays."""
    return f"rollout journal 1 inventory={digest(inventory)} playbook={digest(playbook)} plays={plays}"


def entries_of(courses, end_line, word="play:"):
    """The entries of plays, of which the first begins with this word."""
    bodies = []
    for course in courses:
        bodies.append(listed(word, course.waits))
        word = "play:"
        for boundary in course.boundaries:
            bodies += [listed("held:", boundary.aside)] if boundary.aside else []
            if boundary.opened is not None:
                bodies.append(listed("open:", boundary.opened))
                bodies.append(listed("closed:", [f"{boundary.left[host]}:{host}" for host in boundary.opened]))
        bodies.append(end_line(course.end))
    return bodies


def whole_of(journal):
    """The whole lines of a journal: what stands behind the last line feed broke off."""
    return journal if turned("journal-torn-line-cut-off") else journal[: journal.rfind(b"\n") + 1]


def renamed(journal, before, after):
    """The same journal of a run that began with another text."""
    first, found, rest = journal.partition(b"\n")
    body = body_of(first)
    if body is None or digest(before) not in body:
        return journal
    return line(body.replace(digest(before), digest(after))) + rest if found else journal
