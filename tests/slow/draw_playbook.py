"""Drawn playbooks: plays with patterns of the names of an inventory, sizes, bounds, tasks and handlers."""

from draw_steps import draw_steps
from json_draw import Members, Raw, write
from mutate import mutate, spoil

WRONG = {
    "hosts": [None, [], "", " ,:", ["all", 1], 1],
    "serial": [
        None, -1, 65_536, "65536", "000003", "000003", "000000", "", "0007%", "101%", "x", Raw(b"-0"), Raw(b"2.0"), [], [1, -1],
        ["1", []], [1] * 65, [-1] * 65, True,
    ],
    "max_fail_percentage": [None, -1, 101, "50", Raw(b"1.0"), True],
    "on_blocked": [None, "wait", True, "Hold"],
}
SIZES = [0, 1, 1, 2, 2, 3, 4, 65_535, "0", "1", "2", "00", "0%", "1%", "30%", "34%", "50%", "67%", "99%", "100%", "007%"]


def draw_playbook(random, names, style):
    """The bytes of a playbook. `names` are those of groups and hosts."""
    kind = random.random()
    value = draw_right(random, names, style)
    if kind < 0.5:
        return write(value, random)
    if kind < 0.93:
        return write(mutate(value, random), random)
    return spoil(write(value, random), random)


def draw_right(random, names, style, plays=None):
    """A playbook as a value."""
    count = plays or random.choice([1] * 40 + [2] * 12 + [3] * 3 + [16, 17])
    if count > 3:
        return [_small(random, names) for _ in range(count)]
    return [_play(random, names, style) for _ in range(count)]


def _small(random, names):
    return Members([("hosts", _pattern(random, names)), ("tasks", [Members([("command", "true")])])])


def _play(random, names, style):
    play = Members([("hosts", _patterns(random, names))])
    if random.random() < 0.4:
        play.append(("serial", _sizes(random)))
    if random.random() < 0.4:
        play.append(("max_fail_percentage", random.choice([0, 1, 20, 25, 33, 34, 49, 50, 66, 75, 99, 100])))
    if random.random() < 0.3:
        play.append(("on_blocked", random.choice(["hold", "hold", "hold", "stop"])))
    play = _made_wrong(random, style, play)
    for key in ("name", "gather_facts", "connection"):
        if random.random() < 0.05:
            play.append((key, random.choice([None, "x", False, 1, []])))
    tasks, handlers = draw_steps(random, style)
    spoiled = random.random() < style.wrong / 2
    play.append(("tasks", random.choice([None, [], "x"]) if spoiled else tasks))
    if random.random() < (0.5 if spoiled else style.wrong / 4):
        play.append(("handlers", random.choice(["x", Members(), 0])))
    elif handlers or random.random() < 0.1:
        play.append(("handlers", handlers or random.choice([None, []])))
    return play


def _made_wrong(random, style, play):
    """The same play, in which keys have a wrong value or an unknown one stands beside them."""
    for key in random.sample(list(WRONG), random.choice([1, 2])) if random.random() < style.wrong else []:
        play = Members(pair for pair in play if pair[0] != key)
        play.append((key, random.choice(WRONG[key])))
    if random.random() < style.wrong / 3:
        play += [(key, None) for key in random.sample(["roles", "vars", "strategy", "order"], 2)]
    return play


def _patterns(random, names):
    if random.random() < 0.55:
        return random.choice(["all", "all", "all:all", " all "])
    if random.random() < 0.75:
        return _pattern(random, names)
    return [_pattern(random, names) for _ in range(random.choice([1, 2, 2]))]


def _pattern(random, names):
    """Names joined by colons or commas, some with blanks round them, and empty parts between them."""
    if random.random() < 0.03:
        return random.choice(["", " ,:", "nobody", "r1:x*", "www[01:50]", "all:nobody", "a b", "\u00e9", "all\v", "a,,nobody,nowhere"])
    chosen = [random.choice(names or ["all"]) for _ in range(random.choice([1, 1, 2, 2, 3]))]
    spaced = [random.choice(["", "", "", " ", "\t"]) + name + random.choice(["", "", "", " ", "\r\n"]) for name in chosen]
    return random.choice([":", ",", ",,", ":,", " , "]).join(spaced) + random.choice(["", "", "", ",", ":"])


def _sizes(random):
    if random.random() < 0.65:
        return random.choice(SIZES)
    if random.random() < 0.06:
        return [1] * random.choice([63, 64, 65, 66]) + ([-1] if random.random() < 0.4 else [])
    return [random.choice(SIZES) for _ in range(random.choice([1, 2, 2, 3]))]
