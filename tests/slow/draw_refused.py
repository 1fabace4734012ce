"""Spoils right inventories and playbooks at several places, each so that it is refused, or names something that isn't there: what is kept of them has to be told from what isn't."""

from copy import deepcopy

from draw_inventory import HOSTS, WRONG_LIMITS
from draw_playbook import WRONG as WRONG_OF_PLAYS
from draw_steps import WRONG as WRONG_OF_STEPS
from json_draw import Members

WRONG_NAMES = ["", "a b", "www[01:50]", "caf\u00e9", "n" * 256]
WRONG_DOWN = [None, 0, 1, "true", "yes", [], 1.5, Members()]
NO_OBJECTS = [[], "x", 1, False, 1.5, ["a"]]
KEYS_OF_GROUPS = ["host", "group", "Vars", "hosts ", "max_down", "childs", "\u00e9", ""]
KEYS_OF_PLAYS = ["become", "roles", "vars", "pre_tasks", "strategy", "Hosts", ""]
KEYS_OF_STEPS = ["shell", "block", "become", "loop", "whens", "args", "Name", ""]
WRONG_CONDITIONS = ["v > 1", "v is", "(w", "x == ", "v | default(1)", "", "r.rc is defined and", "q ===1", "'g' in hosts", "r.rv", 7, None, [], Members([("v", 1)])]
GUARDS = ["x is defined", "v", "r.rc == 0", "nowhere == 1", True, False]
COMMANDS = [*WRONG_OF_STEPS["command"], "echo {{ w", "echo {{ v }} {% if %}", "echo 'v w'", "{{ }}", Members([("argv", ["echo", "{{ x }}", "{{ 1 }}"])]), "creates=x echo {{ v }}"]
NOTIFIED = ["H9", "h1", "", ["H1", "H9"], ["H9", "H1", 7], ["H9"], [None], 7, "H1"]


def spoiled_inventory(random, value):
    """The same inventory, spoiled at several places."""
    value = deepcopy(value)
    for _ in range(random.choice([1, 1, 2, 3, 4])):
        random.choice([_spoil_limit, _spoil_limit, _spoil_key, _spoil_host, _spoil_host, _spoil_host, _spoil_group, _cross, _cross, _start_over])(random, value)
    return value


def spoiled_playbook(random, value):
    """The same playbook, spoiled at several places."""
    value = deepcopy(value)
    for _ in range(random.choice([1, 1, 2, 3, 4])):
        plays = [play for play in value if isinstance(play, Members)]
        if plays:
            spoil = random.choice([_spoil_play, _spoil_setting, _spoil_step, _spoil_step, _spoil_condition, _spoil_condition, _spoil_handlers, _spoil_name])
            spoil(random, random.choice(plays))
    if random.random() < 0.1:
        value.insert(random.randint(0, len(value)), random.choice([None, [], "all", Members(), Members([("hosts", "all")])]))
    return value


def _put(members, key, part):
    """Gives a key this value, in the place of the one that it has."""
    for place, (name, _) in enumerate(members):
        if name == key:
            members[place] = (key, part)
            return
    members.append((key, part))


def _part(members, key, kind=Members):
    """What a key has; something empty, where that is of another kind."""
    part = dict(members).get(key) if isinstance(members, Members) else None
    return part if isinstance(part, kind) and (kind is not list or not isinstance(part, Members)) else kind()


def _lists_of_groups(value):
    """The objects that have groups: the text's own, and all under `children`."""
    found = [value] if isinstance(value, Members) else []
    for members in found:
        found += [_part(body, "children") for _, body in members if _part(body, "children")]
    return found


def _any_group(random, value):
    """An object that has groups and the place of one in it whose body is an object; None where there is none."""
    places = [(members, place) for members in _lists_of_groups(value) for place, (_, body) in enumerate(members) if isinstance(body, Members)]
    return random.choice(places) if places else None


def _any_body(random, value):
    found = _any_group(random, value)
    return found[0][found[1]][1] if found else Members()


def _spoil_limit(random, value):
    body = _any_body(random, value)
    variables = Members(_part(body, "vars"))
    _put(variables, "max_down", random.choice(WRONG_LIMITS))
    _put(body, "vars", variables if random.random() < 0.9 else random.choice(NO_OBJECTS))


def _spoil_key(random, value):
    """A key that nobody knows, in the place of `hosts`, or beside it."""
    body = _any_body(random, value)
    if random.random() < 0.3:
        body[:] = [(random.choice(KEYS_OF_GROUPS) if key == "hosts" else key, part) for key, part in body]
    else:
        _put(body, random.choice(KEYS_OF_GROUPS), random.choice([None, 1, Members([("a", None)])]))


def _spoil_host(random, value):
    body = _any_body(random, value)
    hosts = Members(_part(body, "hosts"))
    name = random.choice([*hosts.names(), *HOSTS])
    kind = random.random()
    if kind < 0.3:
        hosts.append((random.choice(WRONG_NAMES), Members([("v", 1)])))
    elif kind < 0.75:
        given = Members(_part(hosts, name))
        _put(given, "down", random.choice(WRONG_DOWN))
        _put(hosts, name, given)
    else:
        _put(hosts, name, random.choice(NO_OBJECTS))
    _put(body, "hosts", hosts if random.random() < 0.9 else random.choice([*NO_OBJECTS, hosts.names()]))


def _spoil_group(random, value):
    """A group of a name that is none, one that is no object, or one that stands at a second place."""
    found = _any_group(random, value)
    if not found:
        return
    members, place = found
    name, body = members[place]
    kind = random.random()
    if kind < 0.4:
        members[place] = (random.choice(WRONG_NAMES), body)
    elif kind < 0.7:
        members[place] = (name, random.choice(NO_OBJECTS))
    elif kind < 0.9:
        _put(body, "children", random.choice(NO_OBJECTS))
    else:
        _put(_any_body(random, value), "children", Members([(name, None)]))


def _limited(random, hosts):
    return Members([("vars", Members([("max_down", random.choice([0, 1, 2, 9, "50%"]))])), ("hosts", Members((host, None) for host in hosts))])


def _cross(random, value):
    """Two limited groups that share a host, which mostly is there."""
    hosts = [name for members in _lists_of_groups(value) for _, body in members for name in _part(body, "hosts").names()]
    shared = random.choice(hosts or HOSTS)
    for name in random.sample(["p", "q", "r1", "eu", "web"], random.choice([1, 2, 2, 2, 3])):
        _put(value, name, _limited(random, [shared, *random.sample(HOSTS, random.choice([0, 0, 1, 2]))]))


def _start_over(random, value):
    """A group of which more hosts are down than may be."""
    _put(value, random.choice(["o", "o", "g", "db"]), _limited(random, random.sample(HOSTS, random.choice([1, 2]))))
    hosts = _part(value[-1][1], "hosts")
    hosts[:] = [(host, Members([("down", True)])) for host, _ in hosts]


def _spoil_play(random, play):
    kind = random.random()
    if kind < 0.5:
        _put(play, random.choice(KEYS_OF_PLAYS), random.choice([None, True, [Members([("command", "true"), ("register", "r")])]]))
    elif kind < 0.75:
        play[:] = [pair for pair in play if pair[0] != "tasks"]
        play += random.choice([[], [("tasks", random.choice([[], None, "x", Members()]))]])
    else:
        _put(play, "handlers", random.choice(["x", Members(), 0, ["H1"], [None]]))


def _spoil_setting(random, play):
    key = random.choice(list(WRONG_OF_PLAYS))
    _put(play, key, random.choice(WRONG_OF_PLAYS[key]))


def _spoil_name(random, play):
    """A name in the pattern that nothing has, mostly nearly one that is there."""
    pattern = dict(play).get("hosts")
    if isinstance(pattern, str):
        at = random.randint(0, len(pattern))
        _put(play, "hosts", pattern[:at] + random.choice(["x", "_", "-", "s", ",nobody,", ":web1,"]) + pattern[at:])


def _any_step(random, play):
    """The list of a step and its place; a task mostly."""
    steps = [(_part(play, key, list), place) for key in ("tasks", "tasks", "handlers") for place in range(len(_part(play, key, list)))]
    return random.choice(steps) if steps else ([Members()], 0)


def _spoil_step(random, play):
    steps, place = _any_step(random, play)
    step = steps[place]
    if not isinstance(step, Members) or random.random() < 0.1:
        steps[place] = random.choice([None, "true", [], 1])
        return
    kind = random.random()
    if kind < 0.3:
        written = [key for key in step.names() if key in ("command", "ansible.builtin.command")]
        _put(step, random.choice([*written, "command"]), random.choice(COMMANDS))
    elif kind < 0.5:
        step[:] = [(random.choice(["shell", "ansible.builtin.shell", "Command"]) if "command" in key else key, part) for key, part in step]
    elif kind < 0.7:
        _put(step, random.choice(KEYS_OF_STEPS), random.choice([None, True, "x", Members([("cmd", "x")])]))
    else:
        key = random.choice(["register", "register", "ignore_errors", "name", "notify", "notify"])
        _put(step, key, random.choice(NOTIFIED if key == "notify" else WRONG_OF_STEPS[key]))


def _spoil_condition(random, play):
    steps, place = _any_step(random, play)
    if isinstance(steps[place], Members):
        parts = [random.choice(WRONG_CONDITIONS), *random.sample(GUARDS, random.choice([0, 0, 1, 2]))]
        random.shuffle(parts)
        _put(steps[place], random.choice(["when", "changed_when", "failed_when"]), parts if len(parts) > 1 or random.random() < 0.3 else parts[0])


def _spoil_handlers(random, play):
    """Handlers without a name, of one name, or of a wrong one; and what no handler may have."""
    handlers = list(_part(play, "handlers", list)) or [Members([("name", "H1"), ("command", "echo {{ nowhere }} ;")])]
    step = Members([("command", "echo {{ w }} {{ nowhere }}"), ("register", random.choice(["r", "h"]))])
    name = random.choice([[], [("name", "H1")], [("name", "H2")], [("name", 7)], [("name", "")]])
    handlers.insert(random.randint(0, len(handlers)), random.choice([step, None, Members([*name, *step]), Members([*name, *step]), Members([*name, *step, ("notify", "H1")])]))
    _put(play, "handlers", handlers)
    tasks = [task for task in _part(play, "tasks", list) if isinstance(task, Members)]
    if tasks and random.random() < 0.5:
        _put(random.choice(tasks), "notify", random.choice(["H1", "H2", ["H1", "H2"], ["", "H1"]]))
