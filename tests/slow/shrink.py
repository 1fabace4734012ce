"""Makes a case that differs smaller, as long as it still differs: runs of members and entries go first, then bytes.

Texts are never cut within a quoted word where programs are run, so that no other program than a drawn one is ever started.
"""

MOST_TRIED = 1_500
LONGEST_CUT = 2_000


def smallest(case, differs):
    """A case that differs and from which no single part can be taken, as far as so many tries go."""
    shrinker = _Shrinker(differs)
    for part in ("typed", "journal", "plan", "playbook", "inventory"):
        case = shrinker.shrunk(case, part)
    return case


class _Shrinker:
    def __init__(self, differs):
        self.differs = differs
        self.left = MOST_TRIED

    def shrunk(self, case, part):
        """The same case with one of its texts made smaller."""

        def still(text):
            self.left -= 1
            return self.left >= 0 and self.differs(case.put(part, text))

        text = getattr(case, part)
        if text is None:
            return case
        if text and still(b""):
            return case.put(part, b"")
        has_lines = part in ("journal", "plan")
        text = self.without(text, _runs_of_lines if has_lines else _members, _cut_out if has_lines else _cut_member, still)
        if case.kind != "run":
            text = self.without(text, _runs_of_bytes, _cut_out, still)
        return case.put(part, text)

    def without(self, text, spans_of, cut, still):
        """The text without all pieces that it can do without, until none is left that can go."""
        before = None
        while text != before and self.left > 0:
            before, spans, place = text, spans_of(text), 0
            while place < len(spans) and self.left > 0:
                smaller = next((piece for piece in cut(text, *spans[place]) if len(piece) < len(text) and still(piece)), None)
                if smaller is None:
                    place += 1
                else:
                    # Behind a piece that went the next one has its place.
                    text, spans = smaller, spans_of(smaller)
        return text


def _runs_of_bytes(text):
    """The places of runs of bytes, long runs first; none in a long text."""
    if len(text) > LONGEST_CUT:
        return []
    sizes = [len(text) >> shift for shift in range(1, len(text).bit_length())]
    return [(at, at + size) for size in sizes for at in range(0, len(text), size)]


def _runs_of_lines(text):
    """The places of runs of lines, long runs first."""
    ends = [0, *(at for at in range(1, len(text) + 1) if text[at - 1 : at] == b"\n" or at == len(text))]
    sizes = [len(ends) >> shift for shift in range(1, len(ends).bit_length())]
    return [(ends[at], ends[at + size]) for size in sizes for at in range(0, len(ends) - size, size)]


def _cut_out(text, first, last):
    """The text without what stands between two places."""
    yield text[:first] + text[last:]


def _cut_member(text, first, last):
    """The text without what stands between two places and a comma beside it, or with null there."""
    before, behind = text[:first].rstrip(), text[last:].lstrip()
    if behind.startswith(b","):
        yield before + behind[1:]
    else:
        yield before.removesuffix(b",") + behind
    yield text[:first] + b"null" + text[last:]


def _members(text):
    """The places of members and entries, and of runs of them in one object or list; long ones first."""
    spans = set()
    for entries in _siblings(text):
        for shift in range(len(entries).bit_length()):
            size = len(entries) >> shift
            spans.update((entries[at][0], entries[at + size - 1][1]) for at in range(0, len(entries) - size + 1, size))
    return sorted(spans, key=lambda span: (span[0] - span[1], span))


def _siblings(text):
    """For each bracket the places of what stands between its commas, found by the signs alone, so that text that is no JSON has some too."""
    found, open_now, at, quoted = [], [], 0, False
    while at < len(text):
        sign = text[at : at + 1]
        if quoted:
            at += sign == b"\\"
            quoted = sign != b'"'
        elif sign == b'"':
            quoted = True
        elif sign in (b"{", b"["):
            open_now.append((at + 1, []))
        elif sign in (b"}", b"]", b",") and open_now:
            first, entries = open_now.pop()
            entries.append((first, at))
            if sign == b",":
                open_now.append((at + 1, entries))
            else:
                found.append(entries)
        at += 1
    return found
