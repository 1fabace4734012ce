"""Cases: what is typed, the bytes of its files, and what the slow program says of it."""

from dataclasses import dataclass, replace
from random import Random

import commands
import json_form
from draw_focused import FocusedStyle
from draw_inventory import draw_inventory
from draw_inventory import draw_right as draw_right_inventory
from draw_lines import draw_lines
from draw_playbook import draw_playbook
from draw_playbook import draw_right as draw_right_playbook
from draw_programs import RunStyle
from draw_steps import AnyStyle, name_tasks
from entries import renamed
from faults import Fault
from inventory import read_inventory
from json_draw import Members, write
from mutate import mutate
from planning import start
from programs import Unmodelled
from rehearsal import Rehearsal

INVENTORY = "inventory.json"
PLAYBOOK = "playbook.json"
FORKS = (1, 2, 5, 64)
JOURNAL = "journal"
PLAN = "plan.txt"
KINDS = ("limits", "plan", "run", "rehearse", "state", "check", "lint")
MISSING = ["missing.json", "inventory.json/", ".", "./", "", "caf\u00e9 \x7f", "no/such/folder"]


@dataclass(frozen=True)
class Case:
    """One call of the program in a folder with two files, or three: a journal, or a plan that is checked. `words` are the arguments; `typed` is standard input."""

    words: tuple
    inventory: bytes
    playbook: bytes = b""
    typed: bytes = b""
    journal: bytes | None = None
    plan: bytes | None = None

    @property
    def kind(self):
        """The command: limits (also without words), plan, run, rehearse, state, check or lint."""
        return self.words[0] if self.words else "limits"

    @property
    def is_verbose(self):
        """Whether it is a run that tells of itself."""
        return self.kind == "run" and "-v" in self.words

    @property
    def is_formed(self):
        """Whether it is asked for JSON."""
        return json_form.is_wanted(self.words)

    def said(self):
        """What the slow program says."""
        files = {INVENTORY: self.inventory, PLAYBOOK: self.playbook, JOURNAL: self.journal, PLAN: self.plan}
        try:
            commands.check_line(self.words)
        except Fault as fault:
            return commands.unread(self.words, fault)
        named = commands.named_files(self.words)
        for name in named:
            if name not in files:
                return commands.unread(self.words, Fault(902, "File", name=name))
        return commands.command(self.words, [files[name] for name in named] or [self.typed], self.typed)

    def put(self, part, text):
        """The same case with another text. A journal stays that of a run that began with it, where it was so."""
        case = replace(self, **{part: text})
        if self.journal is None or part not in ("inventory", "playbook"):
            return case
        return replace(case, journal=renamed(self.journal, getattr(self, part), text))

    def at_forks(self, numbers):
        """The run with each of these numbers of programs at once."""
        return [replace(self, words=(*self.words, "--forks", str(forks))) for forks in numbers]

    def variants(self):
        """The calls that have to say the same: a run with several numbers of programs at once, where none is said. Of a run that goes on it is told first where it stands."""
        if self.journal is not None:
            return [replace(self, words=("state", INVENTORY, JOURNAL)), self]
        if self.kind != "run" or "--forks" in self.words:
            return [self]
        if self.is_verbose:
            return self.at_forks((1, FORKS[1 + len(self.inventory) % 3]))
        chosen = self.at_forks(FORKS)
        # 5 is what holds where none are chosen.
        return [self, *chosen[:2], chosen[3]] if len(self.inventory) % 2 else chosen


def draw_case(seed, number):
    """The case of this number; the same seed and number always draw the same one."""
    random = Random(f"{seed}/{number}")
    kind = random.random()
    if kind < 0.22:
        return _limits(random)
    if kind < 0.6:
        return _plan(random)
    return _run(random) if kind < 0.85 else _rehearse(random)


def _limits(random):
    inventory = draw_inventory(random)
    if random.random() < 0.05:
        return Case((), b"", typed=inventory)
    case = Case(("limits", INVENTORY), inventory)
    if random.random() < 0.02:
        return replace(case, words=("limits", random.choice(MISSING)))
    return case


def _plan(random):
    inventory = draw_inventory(random) if random.random() < 0.3 else write(draw_right_inventory(random, crossing=0.02, down=0.08), random)
    playbook = draw_playbook(random, names_in(inventory), AnyStyle(random.choice([0, 0, 0.02, 0.02, 0.2])))
    case = Case(("plan", INVENTORY, PLAYBOOK), inventory, playbook)
    if random.random() < 0.02:
        missing = [random.choice([INVENTORY, random.choice(MISSING)]), random.choice(MISSING)]
        return replace(case, words=("plan", *missing))
    return case


def draw_told(seed, number):
    """The run of this number that tells of itself: as those of `draw_case`, and some of its tasks have names that nobody would choose."""
    random = Random(f"{seed}/told/{number}")
    case = _run(random, lambda play: name_tasks(random, play))
    return replace(case, words=(*case.words, "-v"))


def draw_foreseen(seed, number):
    """The course of this number: plays for which nothing is run, in which some hosts fail."""
    random = Random(f"{seed}/foreseen/{number}")
    inventory = write(draw_right_inventory(random, crossing=0.02, down=random.choice([0, 0.05, 0.2]), limited=random.choice([0.1, 0.4, 0.7])), random)
    value = draw_right_playbook(random, names_in(inventory), RunStyle([]), random.choice([1, 1, 2, 3]))
    playbook = write(mutate(value, random) if random.random() < 0.03 else value, random)
    return Case(("plan", INVENTORY, PLAYBOOK, "--forecast", *_failing(random, hosts_in(inventory), names_in(inventory))), inventory, playbook)


def draw_grouped(seed, number):
    """The plan or course of this number that is asked for its groups: one in five of so many batches that the table goes on in a second block, or in several."""
    random = Random(f"{seed}/grouped/{number}")
    are_many = random.random() < 0.2
    inventory, value = _many(random) if are_many else _few(random)
    inventory = write(inventory, random)
    failing = [] if are_many and random.random() < 0.7 else _failing(random, hosts_in(inventory), names_in(inventory))
    words = ["--forecast", *failing] if random.random() < 0.6 else []
    words.insert(random.choice([0, len(words)]), "--groups")
    playbook = write(value, random)
    words += random.choice(["", "--color auto", "--color=never", "--color always", "--color=always", "--color=never --color always"]).split()
    return Case(("plan", INVENTORY, PLAYBOOK, *words), inventory, playbook)


def _few(random):
    """An inventory and a playbook as values, as other courses have them."""
    inventory = draw_right_inventory(random, crossing=0.02, down=random.choice([0, 0.1, 0.3]), limited=random.choice([0, 0.3, 0.7, 0.9]))
    return inventory, draw_right_playbook(random, names_in(write(inventory, random)), RunStyle([]), random.choice([1, 1, 2, 3]))


def _many(random):
    """An inventory of more hosts, and a playbook of small batches."""
    racks = {}
    for rack in range(random.randint(1, 4)):
        name = random.choice(["r", "rack", "a-long-name-of-a-rack." * random.choice([1, 1, 5])]) + str(rack)
        hosts = {f"{chr(97 + rack)}{number}": {"down": True} if random.random() < 0.02 else {} for number in range(random.randint(5, 25))}
        racks[name] = {"hosts": hosts, "vars": {"max_down": random.choice([1, 2, 2, 3, 100, "50%"])} if random.random() < 0.8 else {}}
    play = {"hosts": "all", "serial": random.choice([1, 1, 2, [1, 2, "10%"]]), "on_blocked": random.choice(["stop", "hold"]), "tasks": [{"command": "true"}]}
    inventory = {"all": {"vars": {"max_down": random.choice([5, 10, 1000])}, "children": racks}}
    return _members(inventory), [_members(play)] * random.choice([1, 1, 2])


def _members(value):
    """The same value, as it is written."""
    if isinstance(value, dict):
        return Members((name, _members(inner)) for name, inner in value.items())
    return [_members(inner) for inner in value] if isinstance(value, list) else value


def _failing(random, hosts, names):
    """The words that say which hosts fail: nobody, some hosts, groups among them; now and then a name that nobody has."""
    share = random.choice([0, 0.1, 0.1, 0.3, 0.3, 1])
    failing = [host for host in hosts if random.random() < share]
    if random.random() < 0.2:
        failing.append(random.choice(names))
    if random.random() < 0.05:
        failing.insert(random.randint(0, len(failing)), random.choice(["nobody", "a b", "caf\u00e9", "www[1"]))
    random.shuffle(failing)
    cut = random.choice([0, 0, len(failing) // 2])
    texts = [text for text in (failing[:cut], failing[cut:]) if text or random.random() < 0.1]
    words = []
    for text in texts:
        value = random.choice([",", ",", ", ", ":", ",,"]).join(text)
        words += [f"--failing={value}"] if random.random() < 0.3 else ["--failing", value]
    return words


def _run(random, further=lambda play: None):
    """A run of programs whose outcomes are known; to each play something further may be done."""
    while True:
        focused = random.random() < 0.5
        inventory = write(draw_right_inventory(random, crossing=0.02, down=0.05, limited=0.1 if focused else 0.35, dense=True), random)
        style = (FocusedStyle if focused else RunStyle)(hosts_in(inventory))
        value = draw_right_playbook(random, names_in(inventory), style, random.choice([1, 1, 1, 2, 3]))
        for play in value:
            further(play)
        playbook = write(mutate(value, random) if random.random() < 0.03 else value, random)
        case = Case(("run", INVENTORY, PLAYBOOK), inventory, playbook)
        try:
            case.said()
            return case
        except Unmodelled:
            continue


def draw_rehearsed(seed, number):
    """The rehearsal of this number."""
    return _rehearse(Random(f"{seed}/rehearsed/{number}"))


def _rehearse(random):
    inventory = write(draw_right_inventory(random, crossing=0.02, down=0.05, limited=0.4), random)
    value = draw_right_playbook(random, names_in(inventory), RunStyle([]))
    playbook = write(mutate(value, random) if random.random() < 0.03 else value, random)
    try:
        fleet, plays, targets = commands.accepted(inventory, playbook)
    except Fault:
        typed = b"show\n"
    else:
        typed = draw_lines(random, Rehearsal(fleet, plays[0], start(fleet, targets[0]), len(targets[0])))
    return Case(("rehearse", INVENTORY, PLAYBOOK), inventory, playbook, typed)


def names_in(inventory):
    """The names of groups and hosts of an inventory, as far as it can be read."""
    try:
        places = read_inventory(inventory)
    except Fault:
        return ["all", "a", "r1"]
    return ["all", *sorted({place.name for place in places[:20]} | set(hosts_in(inventory)))]


def hosts_in(inventory):
    """The names of hosts, as far as it can be read."""
    try:
        return sorted({row.name for place in read_inventory(inventory)[:20] for row in place.rows[:20]})
    except Fault:
        return []
