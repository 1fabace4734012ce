"""A rehearsal: lines are read one after the other, and the batches of a play are advanced and undone without anything that runs."""

from answers import Lines
from course import close, end_at, halting, next_boundary
from faults import Fault
from rules import turned
from sizes import cap
from texts import as_text

LONGEST_LINE = 65_536
MOST_BYTES = 16_777_216


class Rehearsal:
    """A stack of states, each with the planner's answer and the end, if it has one; the hosts that are marked to fail; and for each command that can be taken back what
    stack and marks were before it. `tell` says how answers are told."""

    def __init__(self, fleet, play, state, targeted, tell=Lines):
        self.fleet, self.play, self.targeted, self.tell = fleet, play, targeted, tell()
        self.stack = []
        self.marked = []
        self.past = []
        self.refused = False
        self._push(dict(state), None)

    def _push(self, state, end):
        """Adds a boundary behind all that were advanced."""
        opened = 0 if turned("later-sizes-in-a-rehearsal") else len(self.stack)
        boundary = next_boundary(self.fleet, self.play, state, cap(self.play.sizes, self.targeted, opened), end)
        self.stack.append((state, boundary.answer, end or end_at(state, boundary.answer)))

    def answer(self, line):
        """The lines that answer a line; nothing to one without words."""
        words = words_of(line)
        if not words:
            return []
        if words[0] == b"advance":
            return self.advance(words[1:])
        if words[0] == b"next" and len(words) == 2 and number_in(words[1]):
            return self.next(number_in(words[1]))
        if words[0] == b"fail" and len(words) == 2:
            return self.fail(words[1])
        if words[0] == b"hosts" and len(words) == 2:
            return self.hosts(words[1])
        if words[0] in ALONE and (len(words) == 1 or turned("no-words-behind-a-command")):
            return ALONE[words[0]](self)
        return self._refuse(Fault(905, "BadCommand"))

    def advance(self, names):
        """Opens the plan's first batch and closes it, the named hosts failing at the first step, and the marked ones."""
        _, found, end = self.stack[-1]
        tests = [self._unknown, self._over, self._outside]
        if turned("unknown-before-over"):
            tests = [self._over, self._unknown, self._outside]
        if turned("over-before-outside"):
            tests = [self._unknown, self._outside, self._over]
        for test in tests:
            fault = test(names, found, end)
            if fault:
                return self._refuse(fault)
        self._remember()
        return self.tell.advanced([self._pass([*names, *self.marked])])

    def next(self, count):
        """Opens and closes so many batches, or as many as there are, in which just the marked hosts fail."""
        if self.stack[-1][2]:
            return self._refuse(Fault(832, "Over"))
        self._remember()
        batches = []
        while len(batches) < count and not self.stack[-1][2]:
            if batches and turned("undo-takes-all-of-next-back"):
                self._remember()
            batches.append(self._pass([] if turned("marked-hosts-fail-in-next") else self.marked))
        return self.tell.advanced(batches)

    def finish(self):
        """The same of all batches to the end."""
        return self.next(1 if turned("finish-comes-to-the-end") else len(self.fleet.hosts))

    def fail(self, name):
        """Marks a host that waits."""
        state, _, end = self.stack[-1]
        host = next((host for host in self.fleet.hosts if host.encode() == name), None)
        waits = host and (state[host] == "waiting" or turned("marked-hosts-wait"))
        if not host:
            return self._refuse(Fault(304, "NoSuchName", name=name))
        if end and (waits or not turned("over-before-not-waiting")):
            return self._refuse(Fault(832, "Over"))
        if not waits:
            return self._refuse(Fault(833, "NotWaiting", host=name))
        if name not in self.marked or turned("marked-twice-is-marked-once"):
            self._remember()
            self.marked.append(name)
        return self.tell.marked(host)

    def _remember(self):
        """What `undo` goes back to."""
        self.past.append((list(self.stack), list(self.marked)))

    def _pass(self, names):
        """Opens the plan's first batch and closes it, these hosts of it failing; that batch."""
        state, found, end = self.stack[-1]
        batch = found.batches[0]
        failing = {host: 1 if host.encode() in names else None for host in batch}
        halt = halting(failing, self.play)
        if turned("a-rehearsal-may-halt"):
            halt = None
        after = dict(state)
        end = close(after, batch, failing, halt, self.play.most_failed)
        self._push(after, end)
        return batch

    def _unknown(self, names, found, end):
        hosts = {host.encode() for host in self.fleet.hosts}
        if turned("groups-are-no-hosts-to-fail"):
            hosts |= {place.name.encode() for place in self.fleet.places}
        return next((Fault(304, "NoSuchName", name=name) for name in names if name not in hosts), None)

    def _over(self, names, found, end):
        return Fault(832, "Over") if end else None

    def _outside(self, names, found, end):
        batches = getattr(found, "batches", None) or [[]]
        batch = {host.encode() for host in batches[0]}
        outside = [name for name in names if name not in batch]
        if turned("first-host-outside"):
            outside.sort()
        return Fault(831, "NotInBatch", host=outside[0]) if outside else None

    def undo(self):
        """Goes back to what was before the last command that led on, with its end."""
        if not self.past:
            return self.tell.undone(False)
        end = self.stack[-1][2]
        self.stack, marked = self.past.pop()
        if not turned("undo-takes-marks-back"):
            self.marked = marked
        if turned("undo-takes-the-end-back") and end:
            self.stack[-1] = (*self.stack[-1][:2], end)
        return self.tell.undone(True)

    def plan(self):
        """The plan of the state, also behind an end."""
        _, found, end = self.stack[-1]
        if end and turned("plan-behind-an-end"):
            return self._refuse(Fault(832, "Over"))
        return self.tell.plan(found)

    def show(self):
        """The status of each host that isn't idle, and the end."""
        state, _, end = self.stack[-1]
        listed_too = ("idle",) if turned("idle-hosts-are-not-shown") else ()
        shown = [(host, status) for host, status in state.items() if status != "idle" or status in listed_too]
        return self.tell.show(shown, end)

    def hosts(self, name):
        """The status of each host of a group, and the number of the batch in which the plan has it."""
        group = next((place for place in self.fleet.places if place.name.encode() == name), None)
        members = self.fleet.members[group.number] if group else []
        if turned("a-host-is-no-group") and not group:
            members = [host for host in self.fleet.hosts if host.encode() == name]
        if not group and not members:
            return self._refuse(Fault(304, "NoSuchName", name=name))
        state = self.stack[-1][0]
        found = self.stack[0 if turned("batches-as-the-plan-stands") else -1][1]
        batches = enumerate(getattr(found, "batches", []), 1)
        numbers = {host: number for number, batch in batches for host in batch}
        passed_over = ("idle",) if turned("hosts-lists-idle-hosts") else ()
        listed_hosts = [host for host in self.fleet.hosts if host in members and state[host] not in passed_over]
        return self.tell.hosts([(host, state[host], numbers.get(host)) for host in listed_hosts])

    def help(self):
        """Every command."""
        return self.tell.help()

    def _refuse(self, fault):
        """Refuses the line at hand."""
        self.refused = True
        return self.tell.refused(fault)


# The commands behind which nothing stands.
ALONE = {
    b"finish": Rehearsal.finish,
    b"undo": Rehearsal.undo,
    b"plan": Rehearsal.plan,
    b"show": Rehearsal.show,
    b"help": Rehearsal.help,
    b"?": Rehearsal.help,
    b"quit": lambda rehearsal: [],
}


def words_of(line):
    """The words of a line, which spaces and tabs part."""
    return [word for word in line.replace(b"\t", b" ").split(b" ") if word]


def number_in(word):
    """The number from 1 to 65,535 that a word of one to five digits says; else None."""
    digits = len(word) if turned("counts-have-five-digits") else 5
    if not 1 <= len(word) <= digits or not all(byte in b"0123456789" for byte in word):
        return None
    number = int(word)
    return number if 1 <= number <= 65_535 else None


def rehearse(rehearsal, typed):
    """The answers to all lines that are typed, and the fault that ended the session, or None."""
    out = ""
    too_many = len(typed) > MOST_BYTES
    *lines, last = typed[:MOST_BYTES].split(b"\n")
    for place, line in enumerate([*lines, last]):
        ended = place < len(lines)
        if len(line) > LONGEST_LINE + turned("longest-line"):
            return out, Fault(906, "LongLine")
        if ended or not too_many:
            line = _without_return(line, ended)
            out += as_text(rehearsal.answer(line))
            if words_of(line) == [b"quit"] and not turned("quit-ends-a-session"):
                return out, None
    return out, Fault(903, "InputTooLarge") if too_many else None


def _without_return(line, ended):
    """A line without the carriage return directly before its end."""
    if (ended or turned("carriage-return-before-its-line-end")) and not turned("carriage-returns-are-cut"):
        return line.removesuffix(b"\r")
    return line
