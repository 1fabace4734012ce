"""What a run tells of itself with `-v`. Each time in it is written MS.

The lines are those of one program at a time: the hosts of a batch in its order, one step after the other. `in_order` brings what several at once tell into that order.
"""

import re

from rules import turned
from texts import as_text, listed
from words import LONGEST

# Characters beside the control characters that would move a terminal about or turn its text round.
HIDDEN = {*range(0x80, 0xA0), 0x61C, 0x200E, 0x200F, *range(0x2028, 0x202F), *range(0x2066, 0x206A)}
WARNING = "its name stands where an option may: write -- before it"
TIMES = re.compile(
    r"^(waiting=\d+) at=\d+ open:|^(\S+ step=\d+ begins) at=\d+ name=|^(\S+ step=\d+(?: (?!name=)\S+)*) ms=\d+ name=|^(closed [^\n]*) ms=\d+ at=\d+$", re.M
)


def told(plays, courses):
    """The lines of the plays that were begun."""
    lines = []
    for number, (play, course) in enumerate(zip(plays, courses), 1):
        if len(plays) > 1 and not (turned("told-play-numbers") and number == 1):
            lines.append(f"play {number}")
        for boundary in course.boundaries:
            lines += _boundary(play, boundary)
    return as_text(lines)


def _boundary(play, boundary):
    aside = [listed("held:", boundary.aside)] if boundary.aside else []
    if boundary.opened is None:
        return [] if turned("told-held-behind-the-last-batch") else aside
    opening = [listed(f"waiting={boundary.waiting + (len(boundary.opened) if turned('told-waiting-behind-the-batch') else 0)} at=MS open:", boundary.opened)]
    lines = opening + aside if turned("told-held-before-the-batch") else aside + opening
    for step in (*play.tasks, *play.handlers):
        if boundary.halt is not None and step.number > boundary.halt[0] and not turned("told-nothing-behind-the-halt"):
            break
        for host in boundary.opened:
            lines += [line for row in boundary.tracks[host] if row.step == step.number for line in _row(host, row)]
    return [*lines, _closing(boundary)]


def _closing(boundary):
    """How many hosts of the batch came to which end."""
    ends = list(boundary.left.values())
    failed, halted = ends.count("failed"), ends.count("halted")
    if turned("told-halted-by-themselves"):
        failed, halted = failed + halted, 0
    return f"closed updated={ends.count('updated')} failed={failed} halted={halted} ms=MS at=MS"


def _row(host, row):
    """The lines of one step on one host: that its program begins, its verdict, and what stands behind that."""
    head, name = f"{host} step={row.step}", f"name={shown(row.of.name or '')}"
    lines = []
    if row.words is not None:
        lines.append(f"{head} begins at=MS {name}")
        if _is_taken_for_an_option(host, row.words):
            lines.append(f"  {host} warning: {WARNING}")
    elif turned("told-beginnings-of-programs"):
        lines.append(f"{head} begins at=MS {name}")
    if row.judged == "skipped" and turned("told-skipped-steps"):
        return lines
    lines.append(" ".join([head, _verdict(row), *_ending(row), name]))
    return lines + _behind(host, row)


def _verdict(row):
    """How the recap counts it: one word, though an ignored failure may be counted as changed too."""
    changed = row.result.changed
    if turned("told-verdict-by-the-code") and row.ended.kind == "ran":
        return "failed" if row.ended.rc != 0 else "changed" if changed else "ok"
    if row.judged == "ignored" and changed and turned("told-ignored-before-changed"):
        return "changed"
    return "changed" if row.judged == "ok" and changed else row.judged


def _ending(row):
    """How a program ended or why there was none, the name that wanted a value, and how long a program took."""
    ended, words = row.ended, []
    if ended.kind == "ran":
        words.append(f"rc={ended.rc}")
        if ended.signal is not None and not turned("told-signals"):
            words.append(f"signal={ended.signal}")
    elif ended.kind == "not-started":
        words.append("not-started")
    if row.wanted is not None and not (turned("told-names-of-conditions-on-results") and ended.kind == "ran"):
        words.append(f"undefined={row.wanted}")
    if row.words is not None:
        words.append("ms=MS")
    return words


def _behind(host, row):
    """Both outputs, where the verdict is failed or ignored; why a program wasn't started."""
    ended = row.ended
    if ended.kind == "not-started":
        if row.words is None:
            return [f"  {host} error: a word is longer than {LONGEST} bytes"]
        return _lines(host, "error", ended.why if turned("told-word-that-was-not-started") else f"{row.words[0]}: {ended.why}")
    if ended.kind != "ran":
        return []
    is_wanted = row.judged in ("failed", "ignored")
    if turned("told-outputs-by-the-verdict"):
        is_wanted = ended.rc != 0
    if turned("told-outputs-of-what-is-ignored") and row.judged == "ignored":
        is_wanted = False
    if not is_wanted:
        return []
    outputs = [*_lines(host, "stdout", ended.stdout), *_lines(host, "stderr", ended.stderr)]
    return outputs[::-1] if turned("told-output-before-errors") else outputs


def _lines(host, end, text):
    """A text, each line behind the host's name and the output's; none where there is no text."""
    return [f"  {host} {end}: {shown(line)}" for line in text.split("\n")] if text else []


def shown(text):
    """A text on one line of a terminal: what would move that about is a question mark."""
    if turned("told-characters-that-show"):
        return text
    return "".join("?" if (sign < " " and sign != "\t") or sign == "\x7f" or ord(sign) in HIDDEN else sign for sign in text)


def _is_taken_for_an_option(host, words):
    """Whether a name that begins with a dash is a word behind the first one, before any that ends options."""
    behind = words[1:]
    return host.startswith("-") and host in (behind[: behind.index("--")] if "--" in behind else behind)


def timeless(text):
    """What was told, each time written MS."""
    return TIMES.sub(_timeless, text)


def _timeless(found):
    opening, beginning, verdict, closing = found.groups()
    if opening:
        return f"{opening} at=MS open:"
    if beginning:
        return f"{beginning} at=MS name="
    return f"{verdict} ms=MS name=" if verdict else f"{closing} ms=MS at=MS"


def in_order(text):
    """What was told, in the order of one program at a time: within a batch that was opened and closed, by step and then by host, each host's lines as they stood. A
    batch in which a step is told behind a later one stays as it is."""
    found, batch = [], None
    for block in _blocks(timeless(text)):
        opening = re.match(r"waiting=\d+ at=MS open: (.*)\n", block)
        if opening or block.startswith("closed ") or not re.match(r"\S+ step=\d+ ", block):
            found += _sorted(*batch) if batch else []
            batch = (opening[1].split(), []) if opening else None
            found.append(block)
        else:
            (batch[1] if batch else found).append(block)
    return "".join(found + (_sorted(*batch) if batch else []))


def _blocks(text):
    """The lines, each with those behind it that begin with two blanks."""
    return re.findall(r"(?:^[^\n]*\n|^[^\n]+\Z)(?:^  [^\n]*\n|^  [^\n]+\Z)*", text, re.M)


def _sorted(hosts, blocks):
    places = []
    for block in blocks:
        host, step = re.match(r"(\S+) step=(\d+) ", block).groups()
        places.append((int(step), hosts.index(host) if host in hosts else len(hosts)))
    if [step for step, _ in places] != sorted(step for step, _ in places):
        return blocks
    return [blocks[place] for place in sorted(range(len(blocks)), key=lambda place: places[place])]
