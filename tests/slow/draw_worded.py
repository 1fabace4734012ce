"""Drawn plays whose words are told beforehand: holes of variables and of registered results, conditions that mention either, and words that a shell would read as something else."""

from random import Random

from cases import INVENTORY, PLAYBOOK, Case, names_in
from draw_conditions import REFS, draw_condition
from draw_inventory import draw_right as draw_right_inventory
from draw_playbook import draw_right as draw_right_playbook
from draw_steps import AnyStyle
from json_draw import Members, write
from mutate import mutate

HOLES = ["v", "v", "w", "flag", "tier", "x", "_n", "r", "r", "q", "inventory_hostname", "r.rc", "r.stdout", "q.stderr", "v.stdout", "x.changed", "r.failed", "w.skipped"]
ODD = [
    "", "a", "--", "x=1", "it's", "'", "''", "a b", "\n", "a\tb", "\r", "\x01", "\x1f'", "\x7f", "\\", "\\n\n", "caf\u00e9", "\u009b", "$HOME", "*", "~", "!", "#", "a;b", "`", '"', "[", "{a,b}", "}}",
    "@%+=:,./_-", "0", "A-z", "^", "\U0001f600", "\x00",
]
LONGEST = 65_536


class WordedStyle(AnyStyle):
    """Steps that register, read and are passed over often, and are all right."""

    chances = {"register": 0.45, "when": 0.45, "changed_when": 0.05, "failed_when": 0.05, "ignore_errors": 0.1, "notify": 0.4}

    def __init__(self):
        super().__init__(wrong=0)

    def command(self, random):
        if random.random() < 0.15:
            return "echo " + "  ".join(_hole(random) for _ in range(random.choice([1, 2, 3])))
        words = [_word(random) for _ in range(random.choice([1, 1, 2, 3]))]
        return Members([("argv", [*words, random.choice([7, -1])] if random.random() < 0.1 else words)])

    def condition(self, random, register=None):
        kind = random.random()
        if kind < 0.3:
            return random.choice(["v is defined", "v is not defined", "'eu' in group_names", "flag is defined", "not w", "tier == tier", "true", "inventory_hostname == 'a'", "inventory_hostname != 'a'"])
        if kind < 0.5:
            return f"{random.choice(['true', 'false', 'v is defined'])} {random.choice(['or', 'and'])} {random.choice(['r is failed', 'q.rc == 0', 'x', 'v'])}"
        return draw_condition(random, REFS, safe=True)


def _word(random):
    if random.random() < 0.01:
        return "{{ v }}" * random.choice([0, 1]) + "y" * (LONGEST - random.choice([0, 0, 1, 3, -1])) + random.choice(["", "{{ w }}"])
    return "".join(_hole(random) if random.random() < 0.35 else random.choice(ODD) for _ in range(random.choice([1, 1, 1, 2, 3])))


def _hole(random):
    blanks = random.choice(["", " ", " ", "\t", "  "])
    return "{{" + blanks + random.choice(HOLES).replace(".", random.choice([".", ".", " . "])) + blanks + "}}"


def draw_worded(seed, number):
    """The words of this number that are to be told."""
    random = Random(f"{seed}/worded/{number}")
    inventory = write(draw_right_inventory(random, crossing=0.02, down=random.choice([0, 0.1, 0.3]), limited=0.3, dense=random.random() < 0.7), random)
    value = draw_right_playbook(random, names_in(inventory), WordedStyle(), random.choice([1, 1, 2, 3]))
    playbook = write(mutate(value, random) if random.random() < 0.03 else value, random)
    words = ["--commands", *random.choice([[], [], [], ["-v"]])]
    return Case(("plan", INVENTORY, PLAYBOOK, *words), inventory, playbook)
