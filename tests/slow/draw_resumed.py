"""Drawn runs that broke off and go on: their journals come from the slow program, are cut off at a drawn place or damaged, and name who is up by now."""

from random import Random

import commands
from cases import INVENTORY, JOURNAL, PLAYBOOK, Case, hosts_in, names_in
from draw_changed import change_inventory, change_playbook
from draw_damage import damage
from draw_inventory import draw_right as draw_right_inventory
from draw_playbook import draw_right as draw_right_playbook
from draw_steps import AnyStyle
from entries import entries_of, head, line
from faults import Fault
from json_draw import Members, write
from planning import DOWN
from plays import end_line, run_plays
from programs import Unmodelled
from standing import read_journal

HOST = "{{ inventory_hostname }}"
READING = {
    "when": ["{0}.rc == 0", "{0} is defined", "v is defined or {0} is failed", "true and not {0} is changed", "'x' == {0}.stdout", "'all' in group_names or {0}"],
    "changed_when": ["{0}.rc != 0", "{0} is changed"],
    "failed_when": ["{0}.stdout == 'x'", "{0} is failed or inventory_hostname == 'x'"],
}


class KeptStyle(AnyStyle):
    """A task or a few that end at once; on some hosts they fail. `reads` says how often one registers a result or reads one, which a later play may do."""

    chances = {"register": 0, "when": 0, "changed_when": 0, "failed_when": 0, "ignore_errors": 0, "notify": 0.5}

    def __init__(self, hosts, reads):
        super().__init__(wrong=0)
        self.hosts, self.reads = hosts or ["other"], reads

    def tasks(self, random):
        return [self.step(random) for _ in range(random.choice([1, 1, 2, 2] if self.reads else [1, 1, 1, 2]))]

    def step(self, random):
        step = Members([("command", self.command(random))])
        for key, texts in READING.items():
            if random.random() < self.reads / 4 and self.known:
                conditions = [random.choice(texts).format(random.choice(self.known)) for _ in range(random.choice([1, 1, 2]))]
                step.append((key, conditions if len(conditions) > 1 else conditions[0]))
        if random.random() < self.reads / 2:
            self.known.append(random.choice("rqx"))
            step.append(("register", self.known[-1]))
        return step

    def command(self, random):
        kind = random.random()
        if kind < self.reads / 3 and self.known:
            return "echo" + "".join(f" {{{{ {random.choice(self.known)}.{random.choice(['rc', 'stdout'])} }}}}" for _ in range(random.choice([1, 1, 2])))
        if kind < (0.9 if self.reads else 0.6):
            return "true"
        if kind < 0.62:
            return "false"
        failing = random.sample(self.hosts, min(len(self.hosts), random.choice([1, 1, 2, 3])))
        if len(failing) == 1:
            return f"test {HOST} != {failing[0]}"
        return Members([("argv", ["sh", "-c", " && ".join(f"test {HOST} != {host}" for host in failing)])])


def draw_resumed(seed, number):
    """The run of this number that broke off, and goes on: `run --resume`. Its journal is that of a run, which may have gone on before."""
    random = Random(f"{seed}/resumed/{number}")
    while True:
        reads = random.choice([0, 0, 1])
        inventory = write(draw_right_inventory(random, crossing=0, down=random.choice([0, 0.1, 0.2]), limited=random.choice([0.2, 0.5, 0.8])), random)
        if len(hosts_in(inventory)) < 4 and random.random() < 0.8:
            continue
        playbook = _playbook(random, inventory, reads)
        try:
            return _broken(random, Case((), inventory, playbook, journal=_first(inventory, playbook)), is_late=reads > 0)
        except (Fault, Unmodelled):
            continue


def _playbook(random, inventory, reads):
    """One play or several; where steps read results, there are several."""
    return write(draw_right_playbook(random, names_in(inventory), KeptStyle(hosts_in(inventory), reads), random.choice([2, 2, 3] if reads else [1, 1, 2, 3])), random)


def _first(inventory, playbook):
    """The journal of a whole run."""
    fleet, plays, targets = commands.accepted(inventory, playbook)
    courses = run_plays(fleet, plays, targets, lambda target: commands.targeted(fleet, target))
    return b"".join(line(body) for body in [head(inventory, playbook, len(plays)), *entries_of(courses, end_line)])


def _broken(random, case, is_late):
    """The run broken off, mostly late where that is wanted, after it may have gone on and broken off before."""
    takes_others = False
    for turn in reversed(range(random.choice([1, 1, 1, 2, 2, 3]))):
        case = case.put("journal", _cut(random, case.journal, is_late))
        if random.random() < (0.3 if is_late else 0.15):
            case, takes_others = _changed(random, case), takes_others or random.random() < 0.85
        is_damaged = not turn and random.random() < 0.25
        if is_damaged:
            case = case.put("journal", damage(random, case.journal, hosts_in(case.inventory)))
        mended = _mended(random, case, 0.1 if is_damaged else 0.03)
        words = ("run", INVENTORY, PLAYBOOK, "--resume", JOURNAL, *mended, *(["--changed-inputs"] if takes_others or random.random() < 0.05 else []))
        case = Case(words, case.inventory, case.playbook, journal=case.journal)
        said = case.said()
        if not turn or said.status == 1:
            break
        case = case.put("journal", said.journal)
    forks = random.choice([(), (), ("--forks", "1"), ("--forks", "64")])
    return Case((*words, *forks), case.inventory, case.playbook, journal=case.journal)


def _cut(random, journal, is_late):
    """A journal that breaks off between two lines, as that of a run that was killed or stopped there, within one, or not at all."""
    kind = random.random()
    lines = journal.splitlines(keepends=True)
    last = random.randrange(1, len(lines)) if len(lines) > 1 and random.random() < 0.97 else 0
    if last and is_late:
        last = max(last, random.randrange(1, len(lines)))
    front = b"".join(lines[:last])
    if kind < 0.15 or not journal:
        return journal
    if kind < 0.6:
        return front + (lines[last] if last == 0 else b"")
    # A line that lacks its end alone would be right.
    return front + lines[last][: -1 if kind < 0.72 else random.randrange(len(lines[last]))]


def _changed(random, case):
    """The same run with another inventory, another playbook, or both."""
    kind = random.random()
    inventory = change_inventory(random, case.inventory) if kind < 0.65 else case.inventory
    playbook = change_playbook(random, case.playbook) if kind > 0.5 else case.playbook
    return Case(case.words, inventory, playbook, journal=case.journal)


def _mended(random, case, unknown):
    """The words that say who is up by now: of those that are down, of others, of groups; now and then a name that nobody has."""
    try:
        fleet = commands.accepted(case.inventory, case.playbook)[0]
        states = read_journal(fleet, case.journal, lambda inputs: True).state
    except Fault:
        states = {}
    share = random.choice([0, 0, 0.5, 0.5, 1])
    names = [host for host, state in states.items() if random.random() < (share if state in DOWN else 0.03)]
    if random.random() < 0.1:
        names.append(random.choice(names_in(case.inventory)))
    if random.random() < unknown:
        names.insert(random.randint(0, len(names)), random.choice(["nobody", "a b", "caf\u00e9"]))
    random.shuffle(names)
    cut = random.choice([0, 0, len(names) // 2])
    words = []
    for part in (names[:cut], names[cut:]):
        if part or random.random() < 0.05:
            value = random.choice([",", ",", ", ", ":"]).join(part)
            words += [f"--up={value}"] if random.random() < 0.3 else ["--up", value]
    return words
