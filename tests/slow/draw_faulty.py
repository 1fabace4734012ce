"""Drawn files with many faults: wrong values, keys and conditions at many places, limits that cross, groups that start over their limits, names that nothing has, and texts that are spoiled."""

from random import Random

from cases import INVENTORY, PLAYBOOK, Case, names_in
from draw_inventory import draw_inventory
from draw_inventory import draw_right as draw_right_inventory
from draw_playbook import draw_playbook
from draw_playbook import draw_right as draw_right_playbook
from draw_programs import RunStyle
from draw_steps import AnyStyle
from json_draw import Members, write
from mutate import mutate

# Handlers that tasks of wrong plays notify, beside those that are there; and what is none.
NOTIFIED = ["H1", "H9", "h1", "restart", "", 7, None]
# Keys of groups, most of which nothing names.
KEYS = ["x", "X", "host", "hosts", "childs", "\u00e9", ""]


def draw_faulty(seed, number):
    """The files of half this number. An even number asks for all their faults, an odd one for the first."""
    random = Random(f"{seed}/faulty/{number // 2}")
    if random.random() < 0.1:
        return _unknown(random, number % 2)
    inventory = _inventory(random)
    playbook = _playbook(random, names_in(inventory))
    if number % 2:
        words = ("limits", INVENTORY) if random.random() < 0.1 else ("plan", INVENTORY, PLAYBOOK)
    else:
        words = ("lint", INVENTORY, *([] if random.random() < 0.1 else [PLAYBOOK]))
    return Case(words, inventory, playbook)


def _unknown(random, is_first):
    """Right files but for names in patterns, some at several places, and groups that start over their limits in some."""
    inventory = write(draw_right_inventory(random, down=random.choice([0, 0, 0.9]), limited=random.choice([0, 0.9])), random)
    names = [*names_in(inventory)[:4], "nobody", "x*", "y", "caf\u00e9", "ca\u00fd"]
    plays = draw_right_playbook(random, names, RunStyle([]), random.choice([1, 2, 3]))
    named = [Members((key, ":".join(random.choices(names, k=random.choice([1, 2, 4]))) if key == "hosts" else part) for key, part in play) for play in plays]
    return Case(("plan" if is_first else "lint", INVENTORY, PLAYBOOK), inventory, write(named, random))


def _inventory(random):
    """Half of them have no fault of the text, so that fleets and patterns are looked at."""
    kind = random.random()
    if kind < 0.1:
        return draw_inventory(random)
    if kind < 0.35:
        return write(draw_right_inventory(random), random)
    if kind < 0.5:
        return write(draw_right_inventory(random, crossing=0.9, down=random.choice([0, 0.6]), limited=0.9), random)
    if kind < 0.6:
        return write(draw_right_inventory(random, down=0.8, limited=0.9), random)
    value = draw_right_inventory(random, crossing=0.2, wrong=random.choice([0.03, 0.2, 0.5]))
    for _ in range(random.choice([0, 0, 1, 3])):
        value = mutate(value, random)
    if random.random() < 0.3 and isinstance(value, Members):
        value.append((random.choice(["odd", "all", "r1"]), Members((key, None) for key in random.sample(KEYS, random.choice([1, 2, 3])))))
    return write(_beside_many(random, value) if random.random() < 0.1 else value, random)


def _beside_many(random, value):
    """The same inventory beside a group of about a hundred hosts that are wrong."""
    hosts = Members((f"h{place}", Members([("down", random.choice([0, "yes", None]))])) for place in range(random.choice([95, 99, 100, 101, 140])))
    return Members([*(value if isinstance(value, Members) else []), ("many", Members([("hosts", hosts)]))])


def _playbook(random, names):
    if random.random() < 0.1:
        return draw_playbook(random, names, AnyStyle(0.1))
    value = draw_right_playbook(random, [*names, "nobody", "x*"] if random.random() < 0.3 else names, AnyStyle(random.choice([0, 0.02, 0.2, 0.5])), random.choice([1, 1, 2, 3]))
    if random.random() < 0.6:
        value = [_notifying(random, play) for play in value]
    for _ in range(random.choice([0, 0, 1, 2, 5])):
        value = mutate(value, random)
    return write(_repeated(random, value) if random.random() < 0.1 else value, random)


def _notifying(random, play):
    """The same play, in which tasks notify handlers that aren't there, some twice."""
    tasks = dict(play).get("tasks")
    if not isinstance(tasks, list):
        return play
    notified = [Members([*(pair for pair in task if pair[0] != "notify"), ("notify", random.choices(NOTIFIED, k=random.choice([1, 2, 4])))]) if random.random() < 0.4 else task for task in tasks]
    return Members((key, notified if key == "tasks" else part) for key, part in play)


def _repeated(random, value):
    """The same playbook, in which the tasks of each play stand so often that their faults are about a hundred, or that they are too many."""
    if not isinstance(value, list):
        return value
    count = random.choice([8, 20, 50, 100])
    return [
        Members((key, part * count if key == "tasks" and isinstance(part, list) else part) for key, part in play) if isinstance(play, Members) else play
        for play in value
    ]
