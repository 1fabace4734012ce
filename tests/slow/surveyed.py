"""The groups below a plan or a course: of each limited group how many hosts are down before the first batch and while each one runs, who is down at the start, and which group holds
whom that was set aside."""

from dataclasses import dataclass

from planning import Blocked, down, room
from rules import turned
from texts import listed

LINE = 100
# By which a terminal begins to show bold red, and by which it ends.
RED, PLAIN = "\x1b[1;31m", "\x1b[0m"


@dataclass
class Sight:
    """What is told of one play: the state at its beginning, each batch with the state before it, the first answer, and who was set aside with the state then."""

    start: dict
    batches: list
    answer: object
    asides: list


def sight_of_plan(state, answer, aside):
    """The batches of a plan, each of which is updated before the next."""
    batches, now = [], dict(state)
    for batch in [] if isinstance(answer, Blocked) else answer.batches:
        batches.append((dict(now), batch))
        now.update(dict.fromkeys(batch, "running" if turned("groups-batches-come-up") else "updated"))
    return Sight(state, batches, answer, [(state, aside)])


def groups_lines(fleet, sight, is_coloured=False):
    """The table, and the lines below it."""
    lines = table(fleet, sight, is_coloured) if fleet.limited else ["no limited group"]
    out = [host for host in fleet.hosts if sight.start[host] in ("off", "failed", "halted")]
    if turned("groups-failed-hosts-are-listed"):
        out = [host for host in out if sight.start[host] == "off"]
    lines += [listed("down:", out)] if out else []
    for state, aside in sight.asides[:1] if turned("groups-later-asides") else sight.asides:
        for host in aside:
            full = [place for place in fleet.chain(host) if room(fleet, state, place) == 0]
            lines.append(f"held {host}: {full[-1 if turned('groups-outermost-holder') else 0].name}")
    return lines


def table(fleet, sight, is_coloured=False):
    """Blocks of rows, none wider than a line as long as one column fits; what colours it takes no column."""
    forcing = sight.answer.bound[1] if not isinstance(sight.answer, Blocked) and sight.answer.bound[0] == "group" else None
    if turned("groups-forcing-is-marked") and forcing is not None:
        forcing = fleet.limited[-1].name
    names = [place.name + ("*" if place.name == forcing else "") for place in fleet.limited]
    limits = [str(fleet.limits[place.number]) for place in fleet.limited]
    columns = [("now", [down(fleet, sight.start, place) for place in fleet.limited])]
    for number, (state, batch) in enumerate(sight.batches, 1):
        columns.append((str(number), [_while_it_runs(fleet, state, batch, place) for place in fleet.limited]))
    cells = [[f"{count}/{limit}" for count, limit in zip(counts, limits)] for _, counts in columns]
    wide = max(len(text) for head, texts in zip([head for head, _ in columns], cells) for text in [head, *texts])
    name_wide, limit_wide = max(map(len, names)), max(map(len, limits))
    least = 1 if turned("groups-full-alone-are-coloured") else 0
    full = [[is_coloured and count >= fleet.limits[place.number] - least for count, place in zip(counts, fleet.limited)] for _, counts in columns]
    many = max(1, (LINE - name_wide - 1 - limit_wide) // (wide + 1))
    if turned("groups-lines-of-100"):
        many += 1
    lines = []
    for first in range(0, len(columns), many):
        shown = range(first, min(first + many, len(columns)))
        lines.append(" " * (name_wide + 1 + limit_wide) + "".join(f" {columns[place][0]:>{wide}}" for place in shown))
        for row, (name, limit) in enumerate(zip(names, limits)):
            lines.append(f"{name:<{name_wide}} {limit:>{limit_wide}}" + "".join(f" {_painted(cells[place][row], wide, full[place][row])}" for place in shown))
    return lines


def _painted(cell, wide, is_red):
    """A cell at the right of so many columns, in bold red where it is to be."""
    shown = f"{RED}{cell}{PLAIN}" if is_red else cell
    return " " * (wide - len(shown if turned("groups-colours-take-no-column") else cell)) + shown


def _while_it_runs(fleet, state, batch, place):
    """How many hosts of a group are down while a batch runs: those that were down before, and its own."""
    before = 0 if turned("groups-count-who-was-down") else down(fleet, state, place)
    return before + len(set(batch) & set(fleet.members[place.number]))
