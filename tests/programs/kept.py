"""What a recap says of hosts, held against what their programs wrote down: of a run that came to its end, and of one that broke off.

usage: python3 tests/programs/kept.py INVENTORY PLAYBOOK FOLDER    compares each recap NAME.out of the folder with the notes NAME.notes
       python3 tests/programs/kept.py --selftest                   shows on worked runs that false recaps are told

Each program adds a line `+ HOST PLAY STEP` to one file as it begins, and a line `- HOST PLAY STEP CODE` before it ends with that code; plays are counted from 0, steps
from 1, handlers behind the tasks. By these lines and by the rules of the play:

- each host of which a program began stands in a batch that the recap opened, and each play of which one began has its recap; only where none began may nothing have gone out;
- a batch is closed, and each of its hosts is `updated`, `failed` or `halted` as its programs ended, with just the counts that these make; or, which only the last batch of a run that
  broke off may be, it is open: each of its hosts is `running`, or `failed` where the recap has the step that failed;
- where the batch is open a host's counts are those of its programs, and of as many programs as calls were refused the end may be missing;
- every other host is as it was when the play began, or was set aside, and nothing is counted of it; at a boundary for whose plan memory was wanting hosts may have been set aside that no line
  names, where a group of theirs has no room;
- no group has more hosts down than its `max_down`.

Of conditions it knows those on the name of the host. Of a step with another one it takes for granted that it was skipped where its program didn't begin. How a step is judged goes by the
code alone: a play that judges otherwise isn't for it.
"""

import json
import re
import sys
from pathlib import Path

DOWN = ("failed", "halted")
NOTHING = (0, 0, 0, 0, 0)
LOST, NOT_STARTED = "lost", "not-started"
HOST_LINE = re.compile(r"(\S+) ok=(\d+) changed=(\d+) failed=(\d+) skipped=(\d+) ignored=(\d+) state=([a-z]+)")


class Wrong(Exception):
    """The recap isn't that of these notes."""


# ---- what was to be run


class Step:
    def __init__(self, number, text, is_handler):
        self.number, self.name, self.is_handler = number, text.get("name", ""), is_handler
        self.ignores = text.get("ignore_errors", False)
        self.notifies = as_list(text.get("notify", []))
        self.conditions = as_list(text.get("when", []))

    def is_taken(self, host):
        """Whether its conditions hold on the host; None where that isn't known here."""
        held = [is_true(condition, host) for condition in self.conditions]
        return False if False in held else None if None in held else True


class Play:
    def __init__(self, text, members):
        parts = [part for pattern in as_list(text["hosts"]) for part in re.split("[:,]", pattern)]
        self.hosts = {host for part in parts for host in members.get(part, [part])}
        steps = [(task, False) for task in text["tasks"]] + [(handler, True) for handler in text.get("handlers", [])]
        self.steps = [Step(number, step, is_handler) for number, (step, is_handler) in enumerate(steps, 1)]
        self.most_failed, self.holds = text.get("max_fail_percentage"), text.get("on_blocked") == "hold"

    def rows(self, host, ends):
        """The rows of a host, as far as its programs ended: (step, verdict, whether it changed something). And the step whose program is due, None where all is over."""
        rows, notified = [], set()
        for step in self.steps:
            if step.is_handler and step.name not in notified:
                continue
            taken, end = step.is_taken(host), ends.get(step.number)
            if taken is False or (taken is None and end is None):
                rows.append((step.number, "skipped", False))
            elif end is None:
                return rows, step.number
            elif end == 0:
                rows.append((step.number, "ok", True))
                notified.update(step.notifies)
            elif step.ignores:
                rows.append((step.number, "ignored", end not in (LOST, NOT_STARTED)))
            else:
                rows.append((step.number, "failed", False))
                break
        return rows, None

    def halt(self, failing):
        """The first step by which more hosts of a batch have failed than the play allows, or None."""
        for step in sorted({step for step in failing.values() if step is not None}):
            failed = sum(other is not None and other <= step for other in failing.values())
            if self.most_failed is not None and 100 * failed > self.most_failed * len(failing):
                return step
        return None


class Plays:
    """The hosts of an inventory, those that are off, and the plays of a playbook."""

    def __init__(self, inventory, playbook):
        self.off, members, self.limits = set(), {}, {}

        def walk(name, body):
            own = set((body or {}).get("hosts") or {})
            self.off |= {host for host in own if (body["hosts"][host] or {}).get("down")}
            for below, its in ((body or {}).get("children") or {}).items():
                own |= walk(below, its)
            members[name] = own
            limit = ((body or {}).get("vars") or {}).get("max_down")
            if isinstance(limit, str):
                limit = int(limit.rstrip("%")) * len(own) // 100
            if limit is not None:
                self.limits[name] = limit
            return own

        everybody = walk("all", inventory.get("all"))
        for name, body in inventory.items():
            if name != "all":
                everybody |= walk(name, body)
        members["all"] = everybody
        self.hosts, self.members, self.plays = sorted(everybody), members, [Play(text, members) for text in playbook]


def as_list(value):
    return value if isinstance(value, list) else [value]


def is_true(condition, host):
    if isinstance(condition, bool):
        return condition
    named = re.fullmatch(r"inventory_hostname (==|!=) '([^']*)'", condition)
    return (named[2] == host) == (named[1] == "==") if named else None


# ---- what was written down


class Notes:
    """Which steps began on each host of each play, and how their programs ended. `spoilt` says how a program ended whose end could not be had: it goes before what it wrote."""

    def __init__(self, lines, spoilt=None):
        self.begun, self.ends = {}, {}
        for line in lines:
            sign, host, play, step, *code = line.split()
            begun, ends = (of.setdefault((int(play), host), {}) for of in (self.begun, self.ends))
            if sign == "+":
                if int(step) in begun:
                    raise Wrong(f"{line}: it began twice")
                begun[int(step)] = True
            else:
                if int(step) not in begun or int(step) in ends:
                    raise Wrong(f"{line}: it ended, and wasn't at work")
                ends[int(step)] = int(code[0])
        for (host, play, step), how in (spoilt or {}).items():
            self.begun.setdefault((play, host), {})[step] = True
            self.ends.setdefault((play, host), {})[step] = how

    def of(self, play, host):
        return self.begun.get((play, host), {}), self.ends.get((play, host), {})

    def plays(self):
        """How many plays a program of which began, and those before."""
        return max((play + 1 for (play, _), begun in self.begun.items() if begun), default=0)


# ---- what was printed


class Section:
    """The recap of one play: its boundaries, the batches that it opened, who was set aside, and the counts and the state of each host."""

    def __init__(self):
        self.boundaries, self.batches, self.held, self.hosts, self.end = 0, [], [], {}, None

    def take(self, line):
        host = HOST_LINE.fullmatch(line)
        if self.end is not None:
            raise Wrong(f"{line!r} stands behind the end")
        if host:
            if self.hosts and list(self.hosts)[-1] >= host[1]:
                raise Wrong(f"{host[1]} stands behind {list(self.hosts)[-1]}")
            self.hosts[host[1]] = (tuple(int(count) for count in host.groups()[1:6]), host[7])
        elif line.startswith("end "):
            self.end = line[4:]
        elif self.hosts:
            raise Wrong(f"{line!r} stands behind hosts")
        elif line.startswith("boundary "):
            if len(self.batches) != self.boundaries or not line.startswith(f"boundary {self.boundaries + 1}: "):
                raise Wrong(f"{line!r} stands behind {self.boundaries} boundaries and {len(self.batches)} batches")
            self.boundaries += 1
        elif line.startswith("held: "):
            self.held += line.split()[1:]
        elif line.startswith("open: ") and len(self.batches) == self.boundaries - 1:
            self.batches.append(line.split()[1:])
        else:
            raise Wrong(f"{line!r} stands there")


def sections_of(recap, several):
    """The recap of each play."""
    sections = []
    for line in recap.splitlines():
        if several and line == f"play {len(sections) + 1}":
            if sections and sections[-1].end != "finished":
                raise Wrong(f"{line!r} stands behind a play that isn't finished")
            sections.append(Section())
            continue
        if not several and not sections:
            sections.append(Section())
        if not sections:
            raise Wrong(f"{line!r} stands before the first play")
        sections[-1].take(line)
    if sections and (sections[-1].end is None or not recap.endswith("\n")):
        raise Wrong("it has no end")
    return sections


# ---- one held against the other


def counts_of(rows):
    """The five counts that these rows make: what went well, changed something, failed, was skipped, failed and was ignored."""
    verdicts = [verdict for _, verdict, _ in rows]
    ignored = verdicts.count("ignored")
    return verdicts.count("ok") + ignored, sum(changed for *_, changed in rows), verdicts.count("failed"), verdicts.count("skipped"), ignored


class Comparison:
    """One play's recap beside the notes. `late` counts the programs of which the recap doesn't have the end."""

    def __init__(self, play, number, section, notes, before):
        self.play, self.number, self.section, self.notes, self.before, self.late = play, number, section, notes, before, 0

    def look(self, plays):
        section, opened = self.section, [host for batch in self.section.batches for host in batch]
        for host in sorted({host for (play, host), begun in self.notes.begun.items() if play == self.number and begun}):
            if host not in opened:
                raise Wrong(f"a program of {host} began, and no batch has it")
        if len(set(opened + section.held)) < len(opened + section.held):
            raise Wrong("a host stands in two batches, or in one and was set aside")
        others = self.first_states(plays)
        if not section.boundaries and self.before and self.states() == self.before:
            # It found no memory to begin: its hosts are as the play before left them.
            others = dict(self.before)
        if list(section.hosts) != sorted(others):
            raise Wrong(f"it has the hosts {' '.join(section.hosts)}, of {' '.join(sorted(others))}")
        for place, batch in enumerate(section.batches):
            for host in batch:
                if others.pop(host, None) != "waiting":
                    raise Wrong(f"{host} was opened, and didn't wait")
            states = [section.hosts[host][1] for host in batch]
            if "running" in states and place == len(section.batches) - 1 and section.end == "fault":
                self.look_at_open(batch)
            else:
                self.look_at_closed(batch)
        for host, state in others.items():
            if host in section.held or (state, self.states()[host]) == ("waiting", "held") and self.may_be_held(host, plays):
                if not self.play.holds or state != "waiting":
                    raise Wrong(f"{host} was set aside")
                state = "held"
            if section.hosts[host] != (NOTHING, state):
                raise Wrong(f"{host} has {section.hosts[host]}, and none of its programs began: it is {state}")
        if section.end in ("finished", "held") and "waiting" in self.states().values():
            raise Wrong(f"hosts wait, and the end is {section.end}")
        for group, limit in plays.limits.items():
            if self.down(plays.members[group]) > limit:
                raise Wrong(f"{self.down(plays.members[group])} hosts of {group} are down, of {limit}")

    def down(self, hosts):
        return sum(self.states().get(host) in ("running", "off", *DOWN) for host in hosts)

    def may_be_held(self, host, plays):
        """Whether the host may have been set aside at a boundary that isn't told, since memory was wanting for its plan: no batch is open, and a group of the host has no room."""
        is_at_boundary = self.section.end == "fault" and "running" not in self.states().values()
        return is_at_boundary and any(host in plays.members[group] and self.down(plays.members[group]) >= limit for group, limit in plays.limits.items())

    def states(self):
        return {host: state for host, (_, state) in self.section.hosts.items()}

    def first_states(self, plays):
        """How each host is when the play begins, those that are idle left out."""
        first = {}
        for host in plays.hosts:
            if host in plays.off:
                first[host] = "off"
            elif self.before.get(host) in DOWN:
                first[host] = self.before[host]
            elif host in self.play.hosts:
                first[host] = "waiting"
        return first

    def track(self, host, halt=None):
        """The rows of a host up to a halt, and whether its programs came to their end."""
        begun, ends = self.notes.of(self.number, host)
        rows, due = self.play.rows(host, ends)
        if halt is not None:
            rows, due = [row for row in rows if row[0] <= halt], due if due is not None and due <= halt else None
        if strange := set(begun) - {step for step, *_ in rows} - {due}:
            raise Wrong(f"{host} is {self.states()[host]}, and programs of the steps {sorted(strange)} began")
        return rows, due is None

    def look_at_closed(self, batch):
        failing = {}
        for host in batch:
            rows, _ = self.play.rows(host, self.notes.of(self.number, host)[1])
            failing[host] = next((step for step, verdict, _ in rows if verdict == "failed"), None)
        halt = self.play.halt(failing)
        for host in batch:
            rows, is_over = self.track(host, halt)
            if not is_over:
                raise Wrong(f"{host} is {self.states()[host]}, and its programs haven't come to that")
            has_failed = failing[host] is not None and (halt is None or failing[host] <= halt)
            state = "failed" if has_failed else "updated" if halt is None else "halted"
            if self.section.hosts[host] != (counts_of(rows), state):
                raise Wrong(f"{host} has {self.section.hosts[host]}, and by its programs {(counts_of(rows), state)}")

    def look_at_open(self, batch):
        at_work = max((step for host in batch for step in self.notes.of(self.number, host)[0]), default=0)
        for host in batch:
            rows, _ = self.track(host)
            # Once a program of a step began, the steps before it are in the recap.
            known = sum(step < at_work for step, *_ in rows)
            told = next((place for place in range(known, len(rows) + 1) if counts_of(rows[:place]) == self.section.hosts[host][0]), None)
            state = "failed" if told and rows[told - 1][1] == "failed" else "running"
            if told is None or self.section.hosts[host][1] != state:
                raise Wrong(f"{host} has {self.section.hosts[host]}, and by its programs {counts_of(rows[:known])} to {counts_of(rows)}")
            self.late += sum(verdict != "skipped" for _, verdict, _ in rows[told:])


def compare(plays, recap, lines, spoilt=None, late=0):
    """Raises what is wrong with a recap. Of so many programs it need not have the end."""
    notes = Notes(lines, spoilt)
    if not recap and notes.plays():
        raise Wrong("nothing went out, and programs began")
    sections = sections_of(recap, len(plays.plays) > 1)
    if len(sections) > len(plays.plays) or len(sections) < notes.plays():
        raise Wrong(f"it has {len(sections)} plays, and programs of {notes.plays()} began")
    before, missing = {}, 0
    for number, section in enumerate(sections):
        comparison = Comparison(plays.plays[number], number, section, notes, before)
        comparison.look(plays)
        missing += comparison.late
        before = comparison.states()
    if missing > late:
        raise Wrong(f"the ends of {missing} programs are missing")


def wrong_in(plays, recap, lines, spoilt=None, late=0):
    """What is wrong with a recap, or None."""
    try:
        compare(plays, recap, lines, spoilt, late)
    except Wrong as wrong:
        return str(wrong)
    return None


# ---- false recaps


def edited(recap, number, edit):
    """The recap whose play of this number, from 0 (or from its end), was edited: `edit` is given its lines and gives back others."""
    parts = re.split(r"(?m)^(?=play \d+$)", recap)
    parts = [part for part in parts if part]
    parts[number] = "".join(edit(parts[number].splitlines(keepends=True)))
    return "".join(parts)


def with_host(line, counts=None, state=None):
    """The line of a host with other counts or another state; None of another line."""
    host = HOST_LINE.fullmatch(line.rstrip("\n"))
    if not host:
        return None
    counts = counts or host.groups()[1:6]
    return f"{host[1]} ok={counts[0]} changed={counts[1]} failed={counts[2]} skipped={counts[3]} ignored={counts[4]} state={state or host[7]}\n"


def restated(lines, of, state, counts=None):
    """The first host of one state has another one."""
    for place, line in enumerate(lines):
        if line.endswith(f" state={of}\n"):
            return [*lines[:place], with_host(line, counts, state), *lines[place + 1 :]]
    return lines


def all_waiting(lines, keeps_boundaries):
    """No log is told, so all hosts wait; boundaries are told all the same, or none are."""
    kept = [line for line in lines if keeps_boundaries or not re.match("boundary|held:|open:", line)]
    return [with_host(line, NOTHING, "off" if line.endswith("=off\n") else "waiting") or line for line in kept]


def exchanged(lines):
    """The counts of two hosts exchanged, of which one is not at work."""
    places = [place for place, line in enumerate(lines) if HOST_LINE.fullmatch(line.rstrip("\n"))]
    counts = {place: HOST_LINE.fullmatch(lines[place].rstrip("\n")).groups()[1:6] for place in places}
    for one in places:
        for other in places:
            if counts[one] != counts[other] and not lines[one].endswith("=running\n"):
                lines = list(lines)
                lines[one], lines[other] = with_host(lines[one], counts[other]), with_host(lines[other], counts[one])
                return lines
    return lines


def recounted(lines, state, more):
    """The first host of a state that has a count has one more or less."""
    for place, line in enumerate(lines):
        host = HOST_LINE.fullmatch(line.rstrip("\n"))
        if host and host[7] == state and int(host[2]):
            ok, changed, *others = (int(count) for count in host.groups()[1:6])
            return [*lines[:place], with_host(line, (ok + more, changed + more, *others)), *lines[place + 1 :]]
    return lines


def without(lines, start):
    """The last line that begins so is missing."""
    places = [place for place, line in enumerate(lines) if line.startswith(start)]
    return [line for place, line in enumerate(lines) if place != max(places, default=-1)]


def with_bodies_of_the_first(recap):
    """Each play has the recap of the first."""
    parts = [part.splitlines(keepends=True) for part in re.split(r"(?m)^(?=play \d+$)", recap) if part]
    return "".join(line for part in parts for line in (part[:1] if part[0].startswith("play ") else []) + (parts[0][1:] if parts[0][0].startswith("play ") else parts[0]))


def without_last_play(recap):
    """The last play of several is missing."""
    parts = [part for part in re.split(r"(?m)^(?=play \d+$)", recap) if part]
    return "".join(parts[:-1]) if len(parts) > 1 else recap


# What a false recap may say, each with how a true one becomes it.
FALSE = {
    "nothing goes out": lambda recap: "",
    "the log behind a fault is empty: all hosts wait": lambda recap: edited(recap, -1, lambda lines: all_waiting(lines, False)),
    "all hosts wait, and the batches are told": lambda recap: edited(recap, -1, lambda lines: all_waiting(lines, True)),
    "an updated host waits": lambda recap: edited(recap, -1, lambda lines: restated(lines, "updated", "waiting")),
    "an updated host waits, and nothing is counted of it": lambda recap: edited(recap, -1, lambda lines: restated(lines, "updated", "waiting", NOTHING)),
    "an updated host of the first play waits": lambda recap: edited(recap, 0, lambda lines: restated(lines, "updated", "waiting")),
    "an updated host is running": lambda recap: edited(recap, -1, lambda lines: restated(lines, "updated", "running")),
    "a failed host is updated": lambda recap: edited(recap, 0, lambda lines: restated(lines, "failed", "updated")),
    "a failed host waits": lambda recap: edited(recap, -1, lambda lines: restated(lines, "failed", "waiting", NOTHING)),
    "a running host waits": lambda recap: edited(recap, -1, lambda lines: restated(lines, "running", "waiting")),
    "a running host is updated": lambda recap: edited(recap, -1, lambda lines: restated(lines, "running", "updated")),
    "a running host has failed": lambda recap: edited(recap, -1, lambda lines: restated(lines, "running", "failed")),
    "a host that waits is updated": lambda recap: edited(recap, -1, lambda lines: restated(lines, "waiting", "updated")),
    "a host that waits was set aside": lambda recap: edited(recap, -1, lambda lines: restated(lines, "waiting", "held")),
    "two hosts have the counts of each other": lambda recap: edited(recap, -1, exchanged),
    "an updated host has one program more": lambda recap: edited(recap, -1, lambda lines: recounted(lines, "updated", 1)),
    "an updated host has one program less": lambda recap: edited(recap, -1, lambda lines: recounted(lines, "updated", -1)),
    "a running host has three programs more": lambda recap: edited(recap, -1, lambda lines: recounted(lines, "running", 3)),
    "the last batch is missing": lambda recap: edited(recap, -1, lambda lines: without(lines, "open: ")),
    "the first play's last batch is missing": lambda recap: edited(recap, 0, lambda lines: without(lines, "open: ")),
    "a host is missing": lambda recap: edited(recap, -1, lambda lines: without(lines, "b ")),
    "each play has the recap of the first": with_bodies_of_the_first,
    "the last play is missing": without_last_play,
}


# Those of the first play alone, which are false too where no program of the last one began.
OF_THE_FIRST = ("nothing goes out", "an updated host of the first play waits", "a failed host is updated", "the first play's last batch is missing")


def false_recaps(recap, begun):
    """What a true recap becomes, by name; `begun` is of how many of its plays a program began."""
    last = recap.count("\nplay ") + 1
    names = FALSE if begun >= last else OF_THE_FIRST if begun else ()
    return {name: text for name in names if (text := FALSE[name](recap)) != recap}


def untold(plays, recap, lines, spoilt=None, late=0):
    """Of the false recaps that a true one may become those that aren't told, and how many there are."""
    false = false_recaps(recap, Notes(lines, spoilt).plays())
    return [name for name, text in false.items() if wrong_in(plays, text, lines, spoilt, late) is None], len(false)


# ---- what was told with --verbose


def wrong_in_told(recap, told, lines, several):
    """What is wrong with the lines that a run told of itself, beside a recap that is right, or None: each batch is told of, each program that began, and each row that is counted."""
    sections = sections_of(recap, several)
    play, opened, began, verdicts = 0 if not several else -1, [[] for _ in sections], set(), {}
    for line in told:
        row = re.match(r"(\S+) step=(\d+) (begins|ok|changed|failed|ignored|skipped) ", line)
        if several and re.fullmatch(r"play \d+", line):
            play += 1
        elif line.startswith("waiting="):
            opened[play].append(line.partition(" open: ")[2].split())
        elif row and row[3] == "begins":
            began.add(("+", row[1], str(play), row[2]))
        elif row:
            verdicts.setdefault((play, row[1]), []).append(row[3])
    if opened != [section.batches for section in sections]:
        return f"other batches are told of: {opened}"
    if missing := {tuple(line.split()) for line in lines if line.startswith("+")} - began:
        return f"it isn't told that these began: {sorted(missing)}"
    for number, section in enumerate(sections):
        for host, ((ok, _, failed, skipped, ignored), _) in section.hosts.items():
            told_of = verdicts.get((number, host), [])
            has = tuple(told_of.count(verdict) for verdict in ("failed", "skipped", "ignored"))
            if has != (failed, skipped, ignored) or len(told_of) != ok + failed + skipped:
                return f"{told_of} is told of {host}, which has {section.hosts[host]}"
    return None


def wrong_behind(recap, behind, several):
    """What is wrong with the lines that follow the recap, or None: each host that is down or waits is named with its state, and no other; none of these fleets has over ten of one state."""
    states = ("failed", "halted", "off", "running", "waiting", "held")
    left = {host: state for host, (_, state) in sections_of(recap, several)[-1].hosts.items() if state in states}
    failed = list(left.values()).count("failed")
    for line in behind:
        if line.startswith("next:"):
            break
        if re.fullmatch(rf"{failed} of \d+ hosts failed", line):
            continue
        state, _, names = line.partition(": ") if line.partition(":")[0] in states else ("failed", "", line.partition(" ")[0])
        if state == "failed" and not re.fullmatch(r"[^ ]+ failed (in play \d+ )?at step \d+.*", line):
            return f"{line!r} follows the recap"
        for host in names.partition(";")[0].split():
            if left.pop(host, None) != state:
                return f"{line!r} follows the recap"
    return f"nothing is said of {sorted(left)}" if left else None


# ---- worked runs, and those that a script left in a folder


def notes_of(step, *hosts, play=0, codes=None):
    """The notes of a step on some hosts: all begin, and all end, with 0 or with the code that is said."""
    return [f"+ {host} {play} {step}" for host in hosts] + [f"- {host} {play} {step} {(codes or {}).get(host, 0)}" for host in hosts]


RACKS = {
    "all": {
        "hosts": {"x": {"down": True}},
        "children": {"eu": {"vars": {"max_down": 3}, "children": {"r1": {"vars": {"max_down": 1}, "hosts": dict.fromkeys("ab")}, "r2": {"vars": {"max_down": 2}, "hosts": dict.fromkeys("cde")}}}},
    }
}
STEPS = [{"command": "one"}, {"command": "two", "when": "inventory_hostname != 'a'", "notify": "h"}, {"command": "three", "ignore_errors": True}]
ONE = [{"hosts": "all", "tasks": STEPS, "handlers": [{"name": "h", "command": "four"}]}]
TWO = [*ONE, {"hosts": "eu", "max_fail_percentage": 40, "on_blocked": "hold", "tasks": [{"command": "one"}, {"command": "two"}]}]

HOLDING = [{"hosts": "all", "on_blocked": "hold", "tasks": [{"command": "one"}]}]

# The first batch: c fails at its second step, a skips that and is not notified. b is in the second one, with d.
FIRST_BATCH = [*notes_of(1, "a", "c"), *notes_of(2, "c", codes={"c": 7}), *notes_of(3, "a", codes={"a": 1})]
OTHERS = [*notes_of(1, "b", "d"), *notes_of(2, "b", "d"), *notes_of(3, "b", "d"), *notes_of(4, "b", "d"), *(line for step in (1, 2, 3, 4) for line in notes_of(step, "e"))]
OPENED = "boundary 1: plan batches=3 bound=group r2 waiting=3 room=2\nopen: a c\nboundary 2: plan batches=2 bound=group r2 waiting=2 room=1\nopen: b d\n"
A_AND_C = "a ok=2 changed=2 failed=0 skipped=1 ignored=1 state=updated\n{}c ok=1 changed=1 failed=1 skipped=0 ignored=0 state=failed\n"
UNTOUCHED = "{} ok=0 changed=0 failed=0 skipped=0 ignored=0 state={}\n"
PLAY_ONE = (
    "play 1\n" + OPENED + "boundary 3: plan batches=1 bound=one-host\nopen: e\nboundary 4: plan batches=0 bound=nothing\n"
    + A_AND_C.format("b ok=4 changed=4 failed=0 skipped=0 ignored=0 state=updated\n")
    + "d ok=4 changed=4 failed=0 skipped=0 ignored=0 state=updated\ne ok=4 changed=4 failed=0 skipped=0 ignored=0 state=updated\n" + UNTOUCHED.format("x", "off") + "end finished\n"
)


def second(boundaries, a, b, d, e, end):
    """The recap of both plays; in the second one the hosts have these states, or these counts and states."""
    told = {"a": a, "b": b, "c": "failed", "d": d, "e": e, "x": "off"}
    lines = "".join(f"{host} {own}\n" if "=" in own else UNTOUCHED.format(host, own) for host, own in told.items())
    return PLAY_ONE + "play 2\n" + boundaries + lines + f"end {end}\n"


TWO_OPENED = "boundary 1: plan batches=2 bound=group eu waiting=4 room=2\nopen: a d\nboundary 2: plan batches=1 bound=one-host\nopen: b e\n"
WENT_WELL = "ok=2 changed=2 failed=0 skipped=0 ignored=0 state=updated"
AT_WORK = "ok=1 changed=1 failed=0 skipped=0 ignored=0 state=running"
FIRST_DONE = [*FIRST_BATCH, *OTHERS]
A_AND_D = [line for step in (1, 2) for line in notes_of(step, "a", "d", play=1)]

# Playbook, notes, recap, and of how many programs the end may be missing: of runs that were broken off, and of one that halted.
WORKED = {
    "memory is wanting in the second batch": (
        ONE, [*FIRST_BATCH, *notes_of(1, "b", "d")],
        OPENED + A_AND_C.format("b ok=1 changed=1 failed=0 skipped=0 ignored=0 state=running\n") + "d ok=1 changed=1 failed=0 skipped=0 ignored=0 state=running\n"
        + UNTOUCHED.format("e", "waiting") + UNTOUCHED.format("x", "off") + "end fault\n", 0,
    ),
    "a worker finds no memory for the end of its program": (
        ONE, [*FIRST_BATCH, *notes_of(1, "b", "d"), *notes_of(2, "b", "d")],
        OPENED + A_AND_C.format("b ok=1 changed=1 failed=0 skipped=0 ignored=0 state=running\n") + "d ok=2 changed=2 failed=0 skipped=0 ignored=0 state=running\n"
        + UNTOUCHED.format("e", "waiting") + UNTOUCHED.format("x", "off") + "end fault\n", 1,
    ),
    "memory is wanting in the first batch, where c has failed": (
        ONE, [*notes_of(1, "a", "c"), *notes_of(2, "c", codes={"c": 7})],
        OPENED.partition("boundary 2")[0] + "a ok=1 changed=1 failed=0 skipped=1 ignored=0 state=running\n" + UNTOUCHED.format("b", "waiting")
        + "c ok=1 changed=1 failed=1 skipped=0 ignored=0 state=failed\n" + UNTOUCHED.format("d", "waiting") + UNTOUCHED.format("e", "waiting") + UNTOUCHED.format("x", "off") + "end fault\n", 0,
    ),
    "memory is wanting in the second play": (TWO, [*FIRST_DONE, *A_AND_D, *notes_of(1, "b", "e", play=1)], second(TWO_OPENED, WENT_WELL, AT_WORK, WENT_WELL, AT_WORK, "fault"), 0),
    "memory is wanting behind the first batch of the second play": (
        TWO, [*FIRST_DONE, *A_AND_D], second(TWO_OPENED.partition("boundary 2")[0], WENT_WELL, "waiting", WENT_WELL, "waiting", "fault"), 0
    ),
    "the second play finds no memory to begin": (
        TWO, FIRST_DONE, PLAY_ONE + "play 2\n" + "".join(re.sub(r"=\d+", "=0", line) for line in PLAY_ONE.splitlines(True) if " state=" in line) + "end fault\n", 0
    ),
    "memory is wanting for the plan of the second boundary, behind which b is set aside": (
        HOLDING, notes_of(1, "a", "c", codes={"a": 1}),
        "boundary 1: plan batches=3 bound=group r2 waiting=3 room=2\nopen: a c\na ok=0 changed=0 failed=1 skipped=0 ignored=0 state=failed\n" + UNTOUCHED.format("b", "held")
        + "c ok=1 changed=1 failed=0 skipped=0 ignored=0 state=updated\n" + UNTOUCHED.format("d", "waiting") + UNTOUCHED.format("e", "waiting") + UNTOUCHED.format("x", "off") + "end fault\n", 0,
    ),
    "the second play halts": (
        TWO, [*FIRST_DONE, *notes_of(1, "a", "d", play=1, codes={"a": 1})],
        second(
            TWO_OPENED.partition("open: b")[0], "ok=0 changed=0 failed=1 skipped=0 ignored=0 state=failed", "waiting",
            "ok=1 changed=1 failed=0 skipped=0 ignored=0 state=halted", "waiting", "too-many-failed step=1 failed=1 size=2",
        ), 0,
    ),
}


def selftest():
    """Each worked recap is right, and each false one that it becomes is told; there is one of each kind."""
    passed, wrong, made = 0, [], set()
    for name, (playbook, lines, recap, late) in WORKED.items():
        plays = Plays(RACKS, playbook)
        if fault := wrong_in(plays, recap, lines, late=late):
            wrong.append(f"{name}: a right recap: {fault}")
        if late and wrong_in(plays, recap, lines, late=late - 1) is None:
            wrong.append(f"{name}: the end of a program is missing")
        left, count = untold(plays, recap, lines, late=late)
        made |= set(false_recaps(recap, Notes(lines).plays()))
        wrong += [f"{name}: it isn't told that {false}" for false in left]
        passed += 1 + count - len(left)
    wrong += [f"no worked recap shows that {name}" for name in FALSE if name not in made]
    for line in wrong:
        print(f"FAILED: kept: {line}")
    print(f"{len(WORKED)} worked recaps, {len(made)} kinds of false ones")
    print(f"{passed} passed, {len(wrong)} failed")
    return 1 if wrong else 0


def compare_folder(inventory, playbook, folder, late):
    """Compares each recap of a folder, NAME.out, with NAME.notes."""
    plays = Plays(*(json.loads(Path(path).read_text()) for path in (inventory, playbook)))
    passed = failed = 0
    for out in sorted(Path(folder).glob("*.out")):
        notes = out.with_suffix(".notes")
        wrong = wrong_in(plays, out.read_text(), notes.read_text().splitlines() if notes.exists() else [], late=late)
        passed, failed = passed + (wrong is None), failed + (wrong is not None)
        if wrong:
            print(f"FAILED: the recap of {Path(playbook).stem}, call {out.stem} refused: {wrong}")
    print(f"{passed} passed, {failed} failed")
    return 1 if failed or not passed else 0


if __name__ == "__main__":
    sys.exit(selftest() if sys.argv[1:] == ["--selftest"] else compare_folder(*sys.argv[1:4], late=1))
