"""Where a run stands by its journal, entry by entry: the state of each host, the play, the batch that is open, and how the play ended."""

import re

from entries import HEAD, body_of
from faults import Fault
from planning import start
from rules import turned
from shares import MOST
from texts import as_text

STATES = ("updated", "failed", "halted")
END = re.compile("end (finished|held|all-failed|blocked group=(.*)|too-many-failed step=([0-9]+) failed=([0-9]+) size=([0-9]+))")
# What a host is that was so when the run broke off.
RESTED = {"waiting": "idle", "held": "idle", "running": "halted"}


class Standing:
    """A run as its journal has it so far. `inputs` are the digests of its first line, `opened` the number of batches that the play has opened, `owing` those who failed or were at work
    in the play and were mended behind that."""

    def __init__(self, fleet):
        self.fleet = fleet
        self.state = start(fleet, [])
        self.inputs, self.plays, self.play, self.batch, self.end, self.opened, self.owing = None, 0, 0, [], None, 0, []

    def follow(self, body):
        """Takes an entry; whether it may come here."""
        first = HEAD.fullmatch(body)
        if first or self.inputs is None:
            return bool(first) and self.inputs is None and self._begin(first)
        word, *names = body.split(" ")
        if word == "play:":
            return self._play(names)
        if word == "resumed:":
            return self._is_known(names) and self.resume(names)
        if not self.play or (self.end is not None and not turned("journal-nothing-behind-the-end")):
            return False
        if word == "closed:":
            return self._close(names)
        if self.batch and not turned("journal-open-batches-are-closed"):
            return False
        if word == "again:":
            return self._move(names, "idle", "waiting")
        if word == "held:":
            return self._move(names, "waiting", "held")
        if word == "open:":
            self.batch, self.opened = names, self.opened + 1
            return bool(names) and self._move(names, "waiting", "waiting" if turned("state-open-hosts-are-running") else "running")
        return self._end(body)

    def _is_known(self, names):
        return all(name in self.state for name in names)

    def _begin(self, found):
        """The first line says with which texts the run began, and how many plays it has."""
        self.inputs, self.plays = (found[1], found[2]), int(found[3])
        return self.plays <= MOST

    def _move(self, names, before, after):
        """Takes hosts from one state to another; whether all were in the first, each once."""
        for name in names:
            if self.state.get(name) != before and not (name in self.state and turned("journal-hosts-move-by-their-state")):
                return False
            self.state[name] = after
        return True

    def _play(self, names):
        """A play begins, where the one before it has finished and one is left."""
        if self.play >= self.plays and not turned("journal-plays-are-counted"):
            return False
        if self.play and self.end != "finished" and not (self.end and turned("journal-plays-behind-finished-ones")):
            return False
        stay = ("failed", "halted", "off")
        self.state = {host: state if state in stay else "idle" for host, state in self.state.items()}
        self.play, self.end, self.opened, self.owing = self.play + 1, None, 0, []
        return self._move(names, "idle", "waiting")

    def _close(self, words):
        """The open batch is over, with what became of each of its hosts, in its order."""
        became = [word.partition(":") for word in words]
        names = [name for _, _, name in became]
        if not self.batch or any(state not in STATES for state, _, _ in became):
            return False
        if names != self.batch:
            order = sorted(names) == sorted(self.batch) and turned("journal-closed-in-their-order")
            some = set(names) < set(self.batch) and turned("journal-closed-names-all")
            if not order and not some:
                return False
        self.state.update({name: state for state, _, name in became})
        self.batch = []
        return True

    def resume(self, mended):
        """The run goes on: nobody is at work any more, and these hosts are up by now. The last play is under way again, unless it has finished and another one comes."""
        down = ["running", "failed", "halted", "off"]
        if turned("resume-mended-off-hosts-are-up"):
            down.remove("off")
        rested = dict(RESTED)
        if turned("resume-running-hosts-are-down"):
            rested["running"] = "idle"
        if turned("resume-held-hosts-wait"):
            rested["held"] = "held"
        if turned("resume-failed-hosts-stay-failed"):
            rested["failed"] = "idle"
        up = "updated" if turned("resume-mended-hosts-wait") else "idle"
        tried = {"running", "failed", "halted"} - ({"running", "halted"} if turned("owing-who-was-at-work") else set())
        kept = [] if turned("owing-lasts-over-stops") else self.owing
        self.owing = kept + [host for host in mended if self.state[host] in tried or turned("owing-who-was-tried")]
        for host, state in self.state.items():
            is_mended = host in mended and (state in down or turned("resume-mended-updated-hosts-stay"))
            self.state[host] = up if is_mended else rested.get(state, state)
        self.batch = []
        comes_next = self.end == "finished" or (self.end is not None and turned("resume-ended-plays-go-on"))
        if not (comes_next and self.play < self.plays) or turned("resume-finished-plays-are-over"):
            self.end = None
        elif not turned("owing-in-the-same-play"):
            self.owing = []
        return True

    @property
    def is_under_way(self):
        """Whether a play has begun and not ended."""
        return self.play > 0 and self.end is None

    def _end(self, body):
        """How the play ended: a group of the inventory, and numbers without a zero in front."""
        found = END.fullmatch(body)
        if not found or (found[2] is not None and found[2] not in {place.name for place in self.fleet.places}):
            return False
        if any(number is not None and (str(int(number)) != number or int(number) > MOST) for number in found.groups()[2:]):
            return False
        self.end = found[1]
        return True

    def told(self):
        """What `state` prints, and its exit status."""
        lines = [f"{host} state={state}" for host, state in self.state.items() if state != "idle" or turned("state-idle-hosts-are-left-out")]
        is_over = self.end != "finished" or self.play == self.plays or turned("state-plays-to-come-are-missing")
        if self.end is None or not is_over:
            return as_text([*lines, "end broken-off"]), 0 if turned("state-broken-off-is-six") else 6
        kind = self.end.split(" ")[0]
        if kind == "finished":
            halted = "failed" if turned("state-halted-hosts-show-in-the-status") else "halted"
            has_failed = {"failed", halted} & set(self.state.values()) and not turned("state-failed-hosts-show-in-the-status")
            return as_text([*lines, f"end {self.end}"]), 2 if has_failed else 0
        return as_text([*lines, f"end {self.end}"]), 3 if kind in ("held", "blocked") else 4


def read_journal(fleet, journal, is_own):
    """Where the run of a journal stands; `is_own` says of its inputs, as the first line has them, whether they are those that were read."""
    *lines, torn = journal.split(b"\n")
    if turned("journal-torn-lines-are-passed-over") and body_of(torn) is not None:
        lines.append(torn)
    standing = Standing(fleet)
    for number, text in enumerate(lines, 1):
        body = body_of(text)
        if body is None or not standing.follow(body):
            raise Fault(912, "BadJournal", line=number)
        if number == 1 and not is_own(standing.inputs) and not turned("journal-others-before-bad-lines"):
            raise Fault(913, "OtherInputs")
    if not lines:
        raise Fault(912, "BadJournal", line=1)
    if not is_own(standing.inputs):
        raise Fault(913, "OtherInputs")
    return standing
