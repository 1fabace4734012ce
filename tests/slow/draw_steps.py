"""Drawn tasks and handlers of a play. A style says how commands and conditions are drawn, and how often a step has which key."""

from draw_conditions import draw_condition
from draw_words import draw_free_form, draw_word
from json_draw import Members

REGISTERS = ["r", "r", "r", "q", "x", "v"]
WRONG = {
    "name": [None, 1, []],
    "command": [
        None, [], "", "it's", Members(), Members([("argv", [])]), Members([("argv", ["a", None])]),
        Members([("argv", ["a"]), ("chdir", "/")]), Members([("cmd", 1)]), "{{ v | x }}", "echo {{ v creates=x", "creates=x",
    ],
    "register": [None, "", "is", "true", "inventory_hostname", "1x", "a-b", "caf\u00e9", "group_names", 1],
    "when": [1, Members(), "a b", [1], ["a b", 1], ["$", []]],
    "changed_when": [0, Members(), "$", ["is"], ["is", 1]],
    "failed_when": [1.5, Members(), "(true", ["or"], ["or", None]],
    "ignore_errors": [None, "yes", 1],
    "notify": [None, 1, ["H1", None], Members()],
}
HANDLERS = ["H1", "H2", "H3", ""]
ODD_NAMES = ["a\tb", "a\nb", "\x1b[2J", "\r", "\x7f\x9b31m", "caf\u00e9 \u202etxt", "x ms=5 name=y", "  a stdout: b", "closed updated=1", "\u2066\u0085", "\U0001f600"]


class AnyStyle:
    """Steps that are read and not run: any words and conditions, and now and then a key that isn't right."""

    chances = {"register": 0.35, "when": 0.3, "changed_when": 0.12, "failed_when": 0.12, "ignore_errors": 0.25, "notify": 0.5}

    def __init__(self, wrong):
        self.wrong = wrong
        # The names that the steps drawn so far register.
        self.known = []

    def command(self, random):
        kind = random.random()
        if random.random() < self.wrong / 2:
            return random.choice(WRONG["command"])
        if kind < 0.5:
            return draw_free_form(random)
        if kind < 0.6:
            return Members([("cmd", draw_free_form(random))])
        words = [draw_word(random) for _ in range(random.choice([1, 1, 2, 3]))]
        if random.random() < 0.2:
            words.append(random.choice([0, 7, -1, 2**63 - 1]))
        return Members([("argv", words)])

    def condition(self, random, register=None):
        return draw_condition(random)

    def step(self, random):
        """A step of its own making, or None."""
        return None

    def tasks(self, random):
        """All tasks of a play, where the style makes them itself; else None."""
        return None


def draw_steps(random, style):
    """The lists of tasks and of handlers; tasks notify handlers of their play, and now and then one that isn't there."""
    names = random.sample(HANDLERS, random.choice([0, 0, 1, 2, 2, 3]))
    if random.random() < style.wrong:
        names.append(random.choice(names or ["H1"]))
    tasks = style.tasks(random)
    if tasks is None:
        tasks = [_task(random, style, names) for _ in range(random.choice([1, 1, 2, 2, 3, 4]))]
    else:
        tasks = [_notifying(random, step, names) for step in tasks]
    if 0 < style.wrong < 0.1 and random.random() < 0.03:
        tasks = [tasks[0]] * (random.choice([256, 257]) - len(names))
    handlers = [_handler(random, style, name) for name in names]
    return tasks, handlers


def _task(random, style, names):
    step = _step(random, style)
    if random.random() < 0.1:
        step.append(("name", random.choice(["", "t", "a task"])))
    if names and random.random() < style.chances["notify"]:
        notified = [random.choice(names) for _ in range(random.choice([0, 1, 1, 2, 2]))]
        step.append(("notify", notified[0] if len(notified) == 1 and random.random() < 0.5 else notified))
    elif random.random() < style.wrong:
        step.append(("notify", random.choice(["H9", ["H9", "H8"], []])))
    return step


def name_tasks(random, play):
    """Gives some of a play's tasks that have no name one that shows how names are shown."""
    for step in dict(play)["tasks"]:
        if random.random() < 0.2 and "name" not in step.names():
            step.append(("name", random.choice(ODD_NAMES)))


def _notifying(random, step, names):
    """A step that may notify besides."""
    if not names or random.random() < 0.6:
        return step
    return Members([*step, ("notify", [random.choice(names) for _ in range(random.choice([1, 2]))])])


def _handler(random, style, name):
    step = Members([("name", name), *_step(random, style)])
    if random.random() < style.wrong:
        step = Members(step[1:])
    if random.random() < style.wrong:
        step.append(("notify", name))
    return step


def _step(random, style):
    made = style.step(random)
    if made is not None:
        style.known.append("r")
        return made
    step = Members([(random.choice(["command"] * 5 + ["ansible.builtin.command"]), style.command(random))])
    register = None
    if random.random() < style.chances["register"]:
        register = random.choice(REGISTERS)
        step.append(("register", register))
    for key in ("when", "changed_when", "failed_when"):
        if random.random() < style.chances[key]:
            step.append((key, _conditions(random, style, None if key == "when" else register)))
    if register is not None:
        style.known.append(register)
    if random.random() < style.chances["ignore_errors"]:
        step.append(("ignore_errors", random.random() < 0.8))
    return _made_wrong(random, style, step)


def _made_wrong(random, style, step):
    """The same step, in which two keys that are read one after the other have a wrong value, one is unknown, or command has both its forms."""
    keys = [key for key in WRONG if key != "command"]
    first = random.randrange(len(keys) - 1)
    for key in keys[first : first + 2] if random.random() < style.wrong * 1.5 else []:
        step = Members(pair for pair in step if pair[0] != key)
        step.append((key, random.choice(WRONG[key])))
    if random.random() < style.wrong / 2:
        step.append((random.choice(["shell", "args", "x", "become"]), None))
    if random.random() < style.wrong / 2:
        step.append((random.choice([key for key in ("command", "ansible.builtin.command") if key not in step.names()]), "true"))
    return step


def _conditions(random, style, register):
    kind = random.random()
    if kind < 0.6:
        return style.condition(random, register)
    if kind < 0.7:
        return random.choice([True, True, False, None, []])
    entries = [random.random() < 0.7 if random.random() < 0.2 else style.condition(random, register) for _ in range(random.choice([1, 2, 2, 3]))]
    if random.random() < style.wrong:
        entries.insert(random.randint(0, len(entries)), random.choice([None, 1, [], ["true"], Members()]))
    return entries
