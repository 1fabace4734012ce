"""What stands around a run that tells of itself: before it, who is left out; behind it, where it ended otherwise than with all done, why hosts are down, which wait for what,
and what to do next."""

from faults import shown
from planning import DOWN, room
from rules import turned
from texts import as_text

MOST_NAMED = 10
NEXT = 'run the rest by a narrower "hosts" (docs/DURING_AND_AFTER.md)'


def left_out(fleet, targets):
    """The note of hosts that are down from the start and that plays name."""
    hosts = [host for host in fleet.hosts if fleet.is_off(host) and any(host in target for target in targets)]
    if not hosts:
        return ""
    names = _names(hosts)
    plays = "plays" if len(targets) > 1 else "play"
    if len(hosts) == 1:
        return f"note: {names} is down and stays down: 1 host of the {plays} is left out\n"
    return f"note: {names} are down and stay down: {len(hosts)} hosts of the {plays} are left out\n"


def why(fleet, plays, courses):
    """The reasons, where there is anything to be told of the end of the last play that was begun. None of these runs has a journal."""
    last = courses[-1]
    if last.end == ("finished",) and "failed" not in last.state.values() and not turned("why-only-where-not-all-is-done"):
        return ""
    rows = _last_rows(courses)
    named = [host for host, status in last.state.items() if status not in ("idle", "off")]
    failed = [host for host in named if last.state[host] == "failed"]
    lines = [f"{len(failed)} of {len(named)} hosts failed"] if failed else []
    lines += [_failed(host, rows[host], len(plays) > 1) for host in failed]
    lines += [_line(status, [host for host in fleet.hosts if last.state[host] == status]) for status in ("halted", "running", "off")]
    lines += [line for status in ("waiting", "held") for line in _kept(fleet, last.state, status)]
    mark = 'mark in the inventory what is still down ("down": true), then ' if any(status in DOWN for status in last.state.values()) else ""
    return as_text([line for line in lines if line] + [f"next: {mark}{NEXT}"])


def _last_rows(courses):
    """Of each host that had any the last row, with the number of its play."""
    found = {}
    for number, course in enumerate(courses, 1):
        for boundary in course.boundaries:
            for host, rows in boundary.tracks.items():
                rows = [row for row in rows if boundary.halt is None or row.step <= boundary.halt[0]]
                if rows and not (turned("why-by-the-last-row") and host in found):
                    found[host] = number, rows[-1]
    return found


def _failed(host, found, several):
    """Why a host has failed."""
    play, row = found
    in_play = f" in play {play}" if several else ""
    name = f" ({shown(row.of.name)})" if row.of.name is not None else ""
    return f"{host} failed{in_play} at step {row.step}{name}: {_reason(row)}"


def _names(hosts):
    return " ".join(hosts[:MOST_NAMED]) + (f" +{len(hosts) - MOST_NAMED}" if len(hosts) > MOST_NAMED else "")


def _line(status, hosts, group=None):
    """The line of hosts that stand so, for want of room in a group if there is one; nothing without hosts."""
    return f"{status}: {_names(hosts)}" + (f"; group {group} has no room" if group is not None else "") if hosts else ""


def _reason(row):
    """What its log says of the step that failed: of conditions only that they were asked."""
    if row.ended.kind == "undefined":
        return f"{row.ended.name} has no value"
    if row.ended.kind != "ran":
        return "not started"
    changed, failed = row.of.changed_when is not None, row.of.failed_when is not None
    judged = ", judged by changed_when and failed_when" if changed and failed else ", judged by failed_when" if failed else ""
    if changed and not failed and row.ended.rc == 0:
        judged = ", a name in changed_when has no value"
    meaning = {-1: " (ended by a signal)", 124: " (timed out)", 127: " (not found)", 137: " (signal KILL)", 143: " (signal TERM)"}.get(row.ended.rc, "")
    if row.ended.rc == 255 and row.words[0] == "ssh":
        meaning = " (ssh could not connect)"
    return f"rc={row.ended.rc}{meaning}" + ("" if turned("why-names-conditions") else judged)


def _kept(fleet, state, status):
    """A line a group without room, in preorder, of those that stand so and have it as their outermost one; and behind them one of all others."""
    by_group = {}
    for host in fleet.hosts:
        if state[host] == status:
            full = [place for place in fleet.chain(host) if room(fleet, state, place) == 0]
            place = full[-1 if turned("why-outermost-group") else 0] if full else None
            by_group.setdefault(place.number if place else None, []).append(host)
    lines = [_line(status, by_group[place.number], place.name) for place in fleet.limited if place.number in by_group]
    return lines + [_line(status, by_group.get(None, []))]
