"""Drawn runs with `--strict`: plays whose steps mostly read names that have a value, and ask for others whether they are defined; of programs whose outcomes are known."""

from random import Random

from cases import INVENTORY, PLAYBOOK, Case, hosts_in, names_in
from draw_focused import FocusedStyle
from draw_inventory import draw_right as draw_right_inventory
from draw_playbook import draw_right as draw_right_playbook
from draw_programs import RunStyle
from json_draw import Members, write
from programs import Unmodelled

NAMES = ["v", "v", "w", "tier", "r", "r", "q", "x"]
OF_NAMES = [
    "{0} is defined",
    "{0} is not defined",
    "{0} is defined and {0} == 1",
    "{0} is not defined or {0}",
    "{0} is defined and {0}.rc == 0",
    "{0}.stdout is defined and {0}.stdout == 'out'",
    "{0}.rc is not defined or {0}.rc != 0",
    "{0}.rc is defined or w",
    "false and {0}",
    "true or {0} is failed",
    "not (true or {0}.changed)",
    "'{1}' in group_names and {0}",
    "'{1}' not in group_names or {0} == 'a'",
    "inventory_hostname == '{2}' and {0} == 1",
    "inventory_hostname != '{2}' or {0} is succeeded",
]
FIELDS = ["{{{{ {0}.stdout }}}}", "{{{{ {0}.rc }}}}", "{{{{ {0}.rc }}}}", "{{{{ {0}.failed }}}}"]
WORDS = ["{{{{ {0} }}}}", *FIELDS]
PROGRAMS = [["true"], ["true"], ["true"], ["false"], ["echo", "out"], ["/no/such/program"], ["sh", "-c", "kill -9 $$"], ["sh", "-c", "exit 3"]]


class StrictStyle(RunStyle):
    """Steps that look names up behind a question whether they are there, and now and then without one."""

    chances = {"register": 0.6, "when": 0.6, "changed_when": 0.2, "failed_when": 0.1, "ignore_errors": 0.7, "notify": 0.8}

    def __init__(self, names, groups, risk):
        super().__init__(names)
        self.groups, self.risk = groups, risk

    def step(self, random):
        """Now and then a step whose result has no code: its program isn't there, or isn't due."""
        if random.random() > 0.2:
            return None
        why = random.choice([("command", Members([("argv", ["/no/such/program"])])), ("when", random.choice([False, "inventory_hostname == 'a'"]))])
        return Members([("command", "true")] * (why[0] == "when") + [why, ("ignore_errors", True), ("register", "r")])

    def condition(self, random, register=None):
        if register is not None and random.random() < 0.6:
            return self._of_result(random, register)
        if random.random() < self.risk:
            return super().condition(random, register)
        if self.known and random.random() < 0.3:
            return self._of_result(random, random.choice(self.known))
        form = random.choice(OF_NAMES)
        return form.format(random.choice(NAMES), random.choice(self.groups), random.choice(self.names))

    def command(self, random):
        if random.random() < 0.5:
            return Members([("argv", random.choice(PROGRAMS))])
        return Members([("argv", ["echo", *(self._read(random) for _ in range(random.choice([1, 1, 2])))])])

    def _read(self, random):
        """A word with a variable, or a field of what was registered before."""
        if random.random() < self.risk:
            return random.choice(WORDS).format(random.choice(NAMES))
        if not self.known or random.random() < 0.4:
            return random.choice(["{{ v }}", "{{ inventory_hostname }}", "a"])
        return random.choice(FIELDS).format(random.choice(self.known))


def draw_strict(seed, number):
    """The strict run of this number; half of them tell of themselves."""
    random = Random(f"{seed}/strict/{number}")
    while True:
        dense = random.random() < 0.8
        inventory = write(draw_right_inventory(random, down=0.1, limited=0.2, dense=dense), random)
        hosts, names = hosts_in(inventory), names_in(inventory)
        style = random.choice([*[StrictStyle(hosts, names, 0)] * 4, StrictStyle(hosts, names, 0.2), RunStyle(hosts), FocusedStyle(hosts)])
        playbook = write(draw_right_playbook(random, names, style, random.choice([1, 1, 2, 3])), random)
        case = Case(("run", INVENTORY, PLAYBOOK, "--strict", *(["-v"] if number % 2 else [])), inventory, playbook)
        try:
            case.said()
            return case
        except Unmodelled:
            continue
