"""Drawn tables and plans of which something is expected: lists of the numbers that stand there, some of them spoiled, and lists that say nothing."""

from random import Random

import commands
from cases import INVENTORY, MISSING, PLAYBOOK, Case, names_in
from draw_inventory import draw_right as draw_right_inventory
from draw_playbook import draw_right as draw_right_playbook
from draw_resumed import KeptStyle
from expecting import number_in_plan, number_in_table
from faults import Fault
from json_draw import write
from mutate import mutate
from planning import start
from sizes import cap

BAD = [
    "", ",", " : ,", "hosts", "hosts=", "=3", "<=3", "hosts<3", "hosts>=3", "hosts==3", "hosts<<=3", "hosts =3", "hosts= 3", "hosts <=3", "hosts=65536", "hosts=99999", "hosts=000003", "hosts=-1", "hosts=+1",
    "hosts=1.0", "hosts=x", "caf\u00e9=1", "a b=1", "hosts=\u0661", "\x1b[2J=1", "n" * 256 + "=1", "hosts=3%",
]
BLANKS = ["", "", "", " ", "\t", "\n", "\r"]


def draw_expected(seed, number):
    """The table or the plan of this number of which something is expected."""
    random = Random(f"{seed}/expected/{number}")
    inventory = write(draw_right_inventory(random, crossing=0.02, down=random.choice([0, 0.1]), limited=random.choice([0.3, 0.7])), random)
    if random.random() < 0.15:
        # Groups whose names are words of the table's last line.
        for old, new in ((b'"eu"', b'"hosts"'), (b'"r1"', b'"limited"')):
            inventory = inventory.replace(old, new)
    if random.random() < 0.03:
        inventory = write(mutate(draw_right_inventory(random), random), random)
    names = names_in(inventory)
    playbook = write(draw_right_playbook(random, names, KeptStyle([], 0), 1), random)
    is_plan = random.random() < 0.4
    words = ["plan", INVENTORY, PLAYBOOK] if is_plan else ["limits", INVENTORY]
    if random.random() < 0.05:
        words[random.randrange(1, len(words))] = random.choice(MISSING)
    number_of = _numbers_of_plan(inventory, playbook) if is_plan else _numbers_of_table(inventory)
    named = ["batches", "batches", "batches", "hosts"] if is_plan else ["hosts", "hosts", "limited", "limited", *names]
    return Case((*words, *_lists(random, named, number_of)), inventory, playbook)


def _numbers_of_table(inventory):
    try:
        fleet = commands.Fleet(commands.read_inventory(inventory))
    except Fault:
        return lambda name: 1
    return lambda name: number_in_table(fleet, name)


def _numbers_of_plan(inventory, playbook):
    try:
        fleet, plays, targets = commands.accepted(inventory, playbook)
    except Fault:
        return lambda name: 1
    state = start(fleet, targets[0])
    answer = commands.next_boundary(fleet, plays[0], state, cap(plays[0].sizes, commands.targeted(fleet, targets[0]), 0)).answer
    return lambda name: number_in_plan(answer, name)


def _lists(random, named, number_of):
    """The words that say what is expected: one list, or several."""
    words = []
    for _ in range(random.choice([1, 1, 1, 2, 3])):
        parts = [_part(random, random.choice(named), number_of) for _ in range(random.choice([1, 1, 2, 3]))]
        if random.random() < 0.08:
            parts.insert(random.randint(0, len(parts)), random.choice(BAD))
        value = random.choice([",", ",", ":", ", ", ",,", " , "]).join(parts) + random.choice(["", "", "", ","])
        if random.random() < 0.04:
            value = random.choice(["", ",", " : ,"])
        words += [f"--expect={value}"] if random.random() < 0.4 else ["--expect", value]
    return words


def _part(random, name, number_of):
    """An expectation that is met, nearly met, or of nothing."""
    found = number_of(name)
    sign = random.choice(["=", "=", "<="])
    number = max(0, (random.choice([0, 1, 4_096]) if found is None else found) + (random.choice([-1, 1, 2]) if random.random() < 0.25 else 0))
    digits = str(min(number, 65_535)).zfill(random.choice([1, 1, 1, 3, 5]))
    if random.random() < 0.05:
        name = random.choice(["nobody", "all", "batches", "Hosts", "a.b-c_d"])
    return random.choice(BLANKS) + name + sign + digits + random.choice(BLANKS)
