"""Which words would run on which host, as `plan --commands` tells them beforehand: what a variable gives is filled in, and what only a run can know is left as a hole."""

from dataclasses import replace

from hosts import Host
from needing import in_conditions
from planning import start
from results import SKIPPED, Outcome
from rules import turned
from telling import HIDDEN
from track import asked

PLAIN = set("ABCDEFGHIJKLMNOPQRSTUVWXYZabcdefghijklmnopqrstuvwxyz0123456789@%+=:,./_-")
ESCAPES = {"\n": "\\n", "\t": "\\t", "\r": "\\r", "'": "\\'", "\\": "\\\\"}


class Beforehand(Host):
    """A host on which nothing has run: names of which only a run can know what they stand for stand for themselves. `met` are those of them that were looked up."""

    def __init__(self, fleet, name):
        super().__init__(fleet, name)
        self.unsure, self.met = set(), set()

    def value(self, ref):
        if ref.name not in self.unsure:
            return super().value(ref)
        self.met.add(ref.name)
        if turned("foretold-holes-stand-for-themselves") and ref.field is None and ref.name in self.variables:
            return self.variables[ref.name]
        return "{{ " + ref.name + ("" if ref.field is None else f".{ref.field}") + " }}"


def foretold(fleet, plays, targets):
    """The lines of all plays, and whether no step surely fails, nor has a word that is too long."""
    hosts = {host: Beforehand(fleet, host) for host in fleet.hosts}
    lines, earlier = [], set()
    for number, (play, target) in enumerate(zip(plays, targets), 1):
        if turned("foretold-all-plays") and number > 1:
            break
        lines += [f"play {number}"] if len(plays) > 1 else []
        state = start(fleet, target)
        waits = [host for host in fleet.hosts if state[host] == "waiting" or (turned("foretold-down-hosts-are-left-out") and host in target)]
        rows = [line for host in waits for line in _column(hosts[host], play, earlier)]
        lines += [line for _, line in (sorted(rows, key=lambda row: row[0]) if turned("foretold-host-by-host") else rows)]
        if not turned("foretold-earlier-plays-are-unsure"):
            earlier = earlier | _registered([*play.tasks, *play.handlers])
    return lines, not any(_is_bad(line) for line in lines)


def _column(host, play, earlier):
    """What is told of each step on a host, behind the step's number."""
    steps = [*play.tasks, *play.handlers]
    for place, step in enumerate(steps):
        before = steps[: place + turned("foretold-own-results-are-not-there")]
        if turned("foretold-handlers-register-too"):
            before = [other for other in before if other in play.tasks]
        host.unsure = earlier | _registered(before)
        yield step.number, f"{host.name} step={step.number} {_told(host, step, place >= len(play.tasks))}"


def _registered(steps):
    return {step.register for step in steps if step.register is not None}


def _told(host, step, is_handler):
    """What a step comes to on a host that reaches it."""
    is_decided = _is_decided(host, step)
    found = asked(step if is_decided else replace(step, when=None), host)
    is_sure = is_decided and not (is_handler and not turned("foretold-handlers-may-run"))
    if found is SKIPPED:
        return "skipped"
    if not isinstance(found, Outcome):
        return ("runs: " if is_sure else "may-run: ") + " ".join(map(in_shell, found))
    if found.kind == "undefined":
        return f"{'fails' if is_sure else 'may-fail'} undefined={found.name}"
    return "too-long"


def _is_decided(host, step):
    """Whether what `when` says is known beforehand: where it mentions no name that is unsure."""
    if turned("foretold-unsure-conditions-are-undecided"):
        return True
    if turned("foretold-all-names-of-a-condition-count"):
        host.met.clear()
        asked(replace(step, words=[]), host)
        return not host.met
    return not host.unsure & set(in_conditions(step.when))


def _is_bad(line):
    """Whether the line makes the status 2."""
    if turned("foretold-may-fail-is-no-failure") and line.split(" ")[2:3] == ["may-fail"]:
        return True
    return line.split(" ")[2:3] in (["fails"], ["too-long"])


def in_shell(word):
    """A word as a shell reads it."""
    plain = PLAIN | {"~"} if turned("foretold-signs-of-shells-are-quoted") else PLAIN - {"="} if turned("foretold-plain-signs-stand") else PLAIN
    if all(sign in plain for sign in word) and (word or turned("foretold-empty-words-are-quoted")):
        return word
    if any(_is_control(sign) for sign in word) and not turned("foretold-control-characters-are-escaped"):
        return "$'" + "".join(_escaped(sign) for sign in word) + "'"
    quote = "'" if turned("foretold-quotes-within-quotes") else "'\\''"
    return "'" + word.replace("'", quote) + "'"


def _is_control(sign):
    return ord(sign) < 0x20 or ord(sign) in HIDDEN or (ord(sign) == 0x7F and not turned("foretold-delete-is-a-control-character"))


def _escaped(sign):
    if sign in ESCAPES and not (sign == "\\" and turned("foretold-backslashes-within-escapes")):
        return ESCAPES[sign]
    return "".join(f"\\x{byte:02x}" for byte in sign.encode()) if _is_control(sign) else sign
