"""Drawn inventories and plays of which `lint` has something to say: names that some hosts have, all or none, and some ask for behind a guard; results that are read before and behind the step that registers them; handlers that
no task notifies; words of a shell; limits at which no host may be down, or above the number of hosts; variables of groups that are nearly keys; hosts whose names begin with a dash; programs here and elsewhere,
conditions for values and groups that no host has, and tests that come out the same each time; keys that stand more than once; names that are nearly others, results of other plays and of handlers. And some files with faults, beside which nothing is told."""

import re
from copy import deepcopy
from random import Random
from string import ascii_letters

from cases import INVENTORY, MISSING, PLAYBOOK, Case, names_in
from draw_asked import with_asked_in_vain
from draw_conditions import draw_condition
from draw_inventory import draw_right as draw_right_inventory
from draw_local import local_plays, with_shared_variables
from draw_playbook import draw_right as draw_right_playbook
from draw_refused import spoiled_inventory, spoiled_playbook
from draw_steps import AnyStyle
from json_draw import Members, write
from linting import KINDS, SEVERITIES, WARNING
from mutate import mutate
from step_notes import SHELL_WORDS

NAMES = ["v", "v", "w", "w", "flag", "tier", "x", "_n", "r", "r", "q", "nowhere", "max_down", "down", "inventory_hostname"]
KEYS = [
    "down", "Down", "DOWN", "d_o-w.n", " down", "do wn", "town", "dawn", "own", "downs", "dwon", "max_down", "maxdown", "MAX-DOWN", "Max.Down", "max\tdown", "max_dwon", "amx_down", "max_donw",
    "max_downn", "mmax_down", "max_dow", "ax_down", "max_doen", "mux_down", "max__down", "max-down", "min_down", "max_up", "max_dwn_", "xmax_downx", "\u00e9max_down", "max_d\u00f6wn",
    "max_unavailable", "maxUnavailable", "MAX-OFFLINE", "max_hosts_down", "max down.hosts", "max_unavailables", "maxunavail",
]
# Of these some are nearly `down` where they are true or false.
DOWNS = ["dwon", "donw", "odwn", "down1", "xdown", "own", "don", "dow", "d\u00f6wn", "dovn", "is_down", "IS-DOWN", "isdown", "is_dwon", "was_down", "Dwon", "dwno", "down", "downed", "Own"]
# Names that are like each other, for variables and results, and what reads one.
LIKE = ["version", "versions", "Version", "release", "releases", "relaese", "port", "ports", "Port", "flags", "tier1", "teir", "found", "count", "counts"]
READS = ["{0}", "{0}.rc == 0", "{0} is changed", "{0} is defined and {0}.rc == 0", "{0} == 'nothing'", "not ({0}.stdout == '')", "inventory_hostname == 'a' or {0}.failed"]
MORE_HOSTS = ["A", "a", "B", "C1", "H0", "Web", "-a", "-A", "--", "-", "a_b"]
PROGRAMS = ["ssh", "ssh", "/usr/bin/ssh", "./ssh", "sssh", "ssh/x", "Ssh", "{{ v }}", "{{ v }}/ssh", "true", "rsync"]
PLAIN = ["true", "false", "1 == 1", "'a' != \"b\"", "not (true and 0)", "1 or ''", "'g' in group_names", "inventory_hostname", "inventory_hostname == 'a'", "true or 'g' not in group_names", "x is defined"]
GUARDS = [
    "{0} is defined and {0} == 'a'", "{0} is defined and ({0} == 1 or {1})", "{0} is not defined or {0} == 1", "not ({0} is defined) or {0}", "not ({0} is not defined) and {0}",
    "{0} is defined or {1} == 'a'", "{0} is not defined and {1}", "{0}.rc is defined and {0}.rc == 0", "{0}.changed is defined and {0} is changed", "'g' in group_names and {0}",
    "not ('g' not in group_names or {0} == 1)", "false and {0}", "true or {0}", "inventory_hostname == 'H0' and {0}", "inventory_hostname != 'a' or {0} is failed", "{0} == 1 and {1}", "{0} or {1}",
]
# Of a value, a group or a name that nobody has, and of values of two kinds.
VAIN = [
    "{0} == 'nothing'", "{0} == 77", "{0} == '1'", "{0} != {0}", "{0} is defined and {0} == 'nothing'", "{0} == 'nothing' or {1} == 77", "not ({0} == 1 or {0} != 1)", "'nogroup' in group_names",
    "'all' in group_names", "'g' not in group_names and 'g' in group_names", "inventory_hostname == 'nobody'", "inventory_hostname != inventory_hostname",
    "false and {0} == 1", "false and {0}", "{0} and not {0}", "1 == 2 and {0} is defined", "{0} == 77 and {1}.rc == 0",
]
UNLIKE = [
    "{0}.rc == '0'", "{0}.stdout != 0", "0 == {0}.stderr", "{0}.failed == 'True'", "{0}.changed != 1", "true == {0}.rc", "1 == '1'", "true != 'true'", "inventory_hostname == 1",
    "{0}.rc == {0}.stdout", "{0}.skipped == inventory_hostname", "{0} == 1 or not ({1}.rc == 'a' and {0})", "{0}.stdout == inventory_hostname", "{0}.rc == {1}", "'1' == {0}", "{0}.rc == '0' or {1}.stdout != 0",
    "{0}.rc == -1", "inventory_hostname == {0}.rc",
]
# What a member that is lost may be, and keys that show how keys are printed.
LOST = [None, 1, "x", [], Members(), Members([("x", 1), ("x", 2)]), [Members([("y", 1), ("y", 2)]), Members([("z", [Members([("", 1), ("", 2)])])])]]
ODD_KEYS = ["", "a/b", "caf\u00e9", "a\tb", "\x1b[2J", "\x7f", "\u2028", "\U0001f600", "0", "name=x", "k" * 255, "k" * 256, "k" * 256, "\u00e9" * 128, "\u00e9" * 128]
HOSTNAMES = ["inventory_hostnam", "inventory_hostnames", "Inventory_Hostname", "inventroy_hostname", "inventory_host", "ansible_hostname", "hostname"]
# Scripts, whole and torn, what stands before them, and what is for a shell.
SCRIPTS = ["systemctl restart web", "a b", "a c", "'systemctl restart web'", "\"a b\"", "{{ v }}", "{{ v }} x", "a{b c", "a {{ v }}", "uptime", "\ta", " 'a b'", "a\tb", "a\u00a0b"]
OPTIONS = ["-c", "-c", "-lc", "-ec", "-xc", "-C", "--c", "-cx", "c", "-e"]
EXPANDED = ["$HOME", "a$HOME/b", "${HOME}", "$(date)", "$1", "$", "$$x", "${1}", "$ {x}", "~/x", "~x", "a~/x", "$HOME x", "~/a b", "$\u00e9", "${{ v }}", "$_x", "{$x", "'$NF x'"]
BLANKS = ["systemctl restart", " true", "{{ v }} x", "a\tb", "ssh -n", "/opt/my app/x", "a\u00a0b", "x{ y"]
HELD = ["{{ v }}", "x{{ v }}", "{% if x %}", "a{#b", "{ {", "{x}", "}}", "{", "{{", "plain"]
WORDS = ["a", "--", "--", "-", "-n", "x=1", ">&2", "2>", "a;", "|a", "{", "}}", "$v", "*", *SHELL_WORDS]
BAD = ["shell-words", "Shell-Word", "shell_word", "all", "dash-name=v", "caf\u00e9", "no-hosts idle-handler", "-", "\x1b[2J", "\u00a0no-hosts"]


class LintedStyle(AnyStyle):
    """Steps that read many names and say many words, and are all right."""

    chances = {"register": 0.35, "when": 0.45, "changed_when": 0.2, "failed_when": 0.2, "ignore_errors": 0.05, "notify": 0.35}

    def __init__(self):
        super().__init__(wrong=0)

    def command(self, random):
        words = ["".join(_part(random) for _ in range(random.choice([1, 1, 1, 2]))) for _ in range(random.choice([1, 2, 2, 3, 4]))]
        if random.random() < 0.4:
            words.insert(0, random.choice(PROGRAMS))
        if random.random() < 0.5:
            return " ".join(words)
        return Members([("argv", [*words, random.choice([7, -1])] if random.random() < 0.1 else words)])

    def condition(self, random, register=None):
        if random.random() < 0.3:
            return random.choice(PLAIN)
        drawn = draw_condition(random, NAMES, safe=True)
        own = Random(drawn)
        kind = own.random()
        return _guarded(own) if kind < 0.3 else _formed(own, VAIN) if kind < 0.42 else _formed(own, UNLIKE) if kind < 0.5 else drawn


def _guarded(random):
    """A condition in which a name stands behind what may decide, or asks whether there is one."""
    return _formed(random, GUARDS)


def _formed(random, forms):
    """One of these forms, with names in it."""
    names = [name for name in NAMES if name != "inventory_hostname"]
    return random.choice(forms).format(*random.choices(names, k=2))


def _part(random):
    if random.random() < 0.6:
        return random.choice(WORDS)
    name = random.choice(NAMES)
    if name != "inventory_hostname" and random.random() < 0.3:
        name += random.choice([".", " . "]) + random.choice(["rc", "stdout", "changed"])
    return "{{" + random.choice(["", " "]) + name + random.choice(["", " "]) + "}}"


def draw_linted(seed, number):
    """The inventory and the playbook of this number. A few pairs are spoiled at several places, in one file or in both."""
    random = Random(f"{seed}/linted/{number}")
    value = draw_right_inventory(random, crossing=0.01, down=random.choice([0, 0, 0.1, 0.2, 0.6]), limited=random.choice([0.2, 0.5]), dense=random.random() < 0.25)
    value = _with_names(value, random)
    names = names_in(write(value, random))
    spoiled = random.choice([("inventory",), ("playbook",), ("inventory", "playbook")]) if random.random() < 0.08 else ()
    value = spoiled_inventory(random, value) if "inventory" in spoiled else value
    value = mutate(value, random) if random.random() < 0.02 else value
    own = Random(f"{seed}/like/{number}")
    value = _with_held_holes(value, own) if own.random() < 0.3 else value
    is_like = own.random() < 0.3
    value = _with_like_names(value, own) if is_like else value
    local = Random(f"{seed}/local/{number}")
    value = with_shared_variables(local, value) if local.random() < 0.7 else value
    inventory = _written(Random(f"{seed}/keys/{number}"), value, write(value, random))
    plays = draw_right_playbook(random, names, LintedStyle(), random.choice([1, 1, 2, 3]))
    for what, change in CHANGES.items():
        plays = [change(Random(f"{seed}/{what}/{number}/{place}"), play) for place, play in enumerate(plays)]
    plays = [_with_like_results(own, play) for play in plays] if is_like else plays
    plays = [*plays, *local_plays(local, names), *_quiet_play(Random(f"{seed}/quiet/{number}"))]
    plays = spoiled_playbook(random, plays) if "playbook" in spoiled else plays
    plays = mutate(plays, random) if random.random() < 0.02 else plays
    playbook = _written(Random(f"{seed}/keys/{number}/playbook"), plays, write(plays, random))
    words = ["lint", INVENTORY, *([] if random.random() < 0.12 else [PLAYBOOK])]
    if random.random() < 0.05:
        words[random.randrange(1, len(words))] = random.choice(MISSING)
    return Case((*words, *_lists(random)), inventory, playbook)


def _with_ends_of_options(random, play):
    """The same play, in some of which a step more has the host's name behind a word that ends options."""
    if random.random() < 0.9:
        return play
    step = Members([("command", random.choice(["ping -- {{ inventory_hostname }}", "ping -n -- x {{inventory_hostname}}:x"]))])
    return Members((key, [*part, step] if key == "tasks" else part) for key, part in play)


def _with_like_names(value, random, key=None):
    """The same inventory, in which groups and hosts have variables with names that are like others, or nearly `down`, and some limits are above the number of hosts."""
    if not isinstance(value, Members):
        return value
    found = Members((name, _with_like_names(below, random, name)) for name, below in value)
    if key == "vars":
        found = Members((name, random.choice([given, given, 1, 2, 3, 9, 65_535]) if name == "max_down" else given) for name, given in found)
        return _with_variables(found, random, 0.6)
    if key == "hosts":
        return Members((name, _with_variables(given, random, 0.25)) for name, given in found)
    return found


def _with_held_holes(value, random, key=None):
    """The same inventory, in which some variables of groups and hosts have values with holes."""
    if not isinstance(value, Members):
        return value
    found = Members((name, _with_held_holes(below, random, name)) for name, below in value)
    if key == "vars":
        return _with_held(found, random)
    if key == "hosts":
        return Members((name, _with_held(given, random)) for name, given in found)
    return found


def _with_held(given, random):
    if random.random() < 0.7 or not (given is None or isinstance(given, Members)):
        return given
    held = given or Members([])
    names = [name for name in random.sample(["v", "url", "max-down", "Down", "maxdown"], random.choice([1, 2])) if name not in held.names()]
    return Members([*held, *((name, random.choice(HELD)) for name in names)])


def _with_variables(given, random, chance):
    """The same variables and, by chance, some more, of which some are true or false."""
    if random.random() > chance or not (given is None or isinstance(given, Members)):
        return given
    held = given or Members([])
    names = [name for name in random.sample(LIKE + DOWNS, random.choice([1, 1, 2, 3])) if name != "down" and name not in held.names()]
    return Members([*held, *((name, random.choice([True, False, True, 1, "x", None])) for name in names)])


def _with_like_results(random, play):
    """The same play with a few steps more, of which some register and some read names that are like others; a handler too in some."""
    tasks, handlers = [_like_step(random) for _ in range(random.choice([0, 1, 2, 3]))], []
    if random.random() < 0.4:
        handlers = [Members([("name", "like"), *_like_step(random)])]
        tasks.append(Members([*_like_step(random), ("notify", "like")]))
    is_first = random.random() < 0.5
    held = Members((key, [*tasks, *part] if key == "tasks" and is_first else [*part, *tasks] if key == "tasks" else part) for key, part in play if key != "handlers")
    return Members([*held, ("handlers", [*handlers, *(dict(play).get("handlers") or [])])])


def _like_step(random):
    name = _misspelt(random) if random.random() < 0.3 else random.choice([*LIKE, "r", "q", "v", "w"])
    if random.random() < 0.45:
        return Members([("command", random.choice(["true", "ssh {{ inventory_hostname }}"])), ("register", name)])
    words = random.choice(["true", f"echo {{{{ {name} }}}}", f"echo {{{{ {name}.rc }}}}", f"echo {{{{ {random.choice(LIKE)}.stdout }}}}"])
    keys = random.choice([[], ["when"], ["when", "failed_when"], ["changed_when"]])
    return Members([("command", words), *((key, random.choice(READS).format(name)) for key in keys)])


def _misspelt(random):
    """One of the names with an edit or two."""
    name = random.choice(LIKE)
    for _ in range(random.choice([1, 1, 2])):
        at = random.randrange(1, len(name))
        name = random.choice([name[:at] + name[at + 1 :], name[:at] + "x" + name[at:], name[:at] + "e" + name[at + 1 :], name[: at - 1] + name[at] + name[at - 1] + name[at + 1 :]])
    return name


def _written(random, value, text):
    """The text of a value; of some another one, in which keys stand more than once. What is lost of them is mostly what wasn't there before, so that the value stays what it is."""
    value = deepcopy(value)
    objects = _objects(value)
    if random.random() < 0.8 or not objects:
        return text
    for _ in range(random.choice([1, 1, 2, 3])):
        members = random.choice(objects)
        if random.random() < 0.3:
            members.append((random.choice(ODD_KEYS), random.choice(LOST)))
        if random.random() < 0.05:
            members.append(("many", Members((f"n{place}", 0) for place in range(random.choice([98, 99, 100, 101, 120])) for _ in range(2))))
        for key in random.choices(members.names(), k=random.choice([1, 1, 2])) if members else []:
            place = members.names().index(key)
            members.insert(random.randint(0, place) if random.random() < 0.85 else len(members), (key, random.choice([deepcopy(dict(members)[key]), *LOST])))
    return write(value, random)


def _objects(value):
    """The objects of a value, those within others too."""
    if not isinstance(value, list):
        return []
    below = [part for _, part in value] if isinstance(value, Members) else value
    return [value] * isinstance(value, Members) + [found for part in below for found in _objects(part)]


def _saying_nothing(random, play):
    """The same play, of some of which the words of all steps, or of most, have no hole; half of these call `ssh` somewhere."""
    if random.random() < 0.75:
        return play
    ssh, all_of_them = random.choice([0, 0, 0.3, 1]), random.random() < 0.7

    def without(step):
        if not isinstance(step, Members) or not (all_of_them or random.random() < 0.7):
            return step
        program = random.choice(["ssh", "/usr/bin/ssh"]) if random.random() < ssh else random.choice(["true", "rsync", "caf\u00e9", "a\x7fb"])
        return Members((key, _of_words(program, part) if "command" in key else part) for key, part in step)

    return Members((key, [without(step) for step in part] if key in ("tasks", "handlers") and part else part) for key, part in play)


def _quiet_play(random):
    """In few cases a play more that says nothing of its hosts, and bears few failures."""
    if random.random() > 0.2:
        return []
    return [Members([("hosts", "all"), *random.choice([[], [("serial", random.choice([2, 5, "50%"]))]]), ("max_fail_percentage", random.choice([1, 10, 30])), ("tasks", [Members([("command", "uptime")])])])]


def _with_scripts(random, play):
    """The same play, in some of which a few steps more give programs scripts, words for a shell, or names with blanks."""
    if random.random() < 0.8:
        return play
    steps = [_with_script(random) for _ in range(random.choice([1, 1, 2, 3]))]
    return Members((key, [*part, *steps] if key == "tasks" else part) for key, part in play)


def _with_near_names(random, play):
    """The same play, in few of which steps more read names that are nearly the host's own, or a hundred that are nearly one that is registered."""
    kind = random.random()
    if kind > 0.06:
        return play
    names = [f"version_{place}{letter}" for place in "12" for letter in ascii_letters] if kind < 0.015 else random.sample(HOSTNAMES, 2)
    steps = [Members([("command", " ".join(f"{{{{ {name} }}}}" for name in ["v", *names]))]), *(Members([("command", "true"), ("register", name)]) for name in ["version_1", "version_2"])]
    return Members((key, [*part, *steps] if key == "tasks" else part) for key, part in play)


def _with_results_of_handlers(random, play):
    """The same play, in some of which handlers more register results, and a last one, or steps of the next play, read these."""
    if random.random() < 0.85:
        return play
    names = ["told", "said"]
    told = [Members([("name", f"{name} {place}"), ("command", "true"), ("register", name)]) for place, name in enumerate(names)]
    one, other = random.sample(names, 2)
    when = random.choice([f"{one}.rc == 0", f"{one} is defined and {one}.rc == 0", f"{one}.stdout is defined", f"{one} is failed or {other} is defined", "true"])
    last = Members([("name", "last"), ("command", f"echo {{{{ {other}.rc }}}} {{{{ {one}.stdout }}}}"), ("when", when)])
    tasks = Members([("command", "true"), ("notify", [*(dict(step)["name"] for step in told), "last"])])
    held = Members((key, [*part, tasks] if key == "tasks" else part) for key, part in play if key != "handlers")
    return Members([*held, ("handlers", [*(dict(play).get("handlers") or []), *told, last])])


def _with_failures(random, play):
    """The same play, in some of which a step more may fail, and one asks for that."""
    if random.random() < 0.85:
        return play
    judged = random.choice([[], [], [("ignore_errors", True)], [("failed_when", "end.rc == 9")]])
    when = random.choice(["end is failed", "end.rc != 0", "not end.rc != 0", "1 == end.rc", "end.rc == 2 or r.rc == '0'", "end.rc == 0 and end is not failed"])
    steps = [Members([("command", "true"), ("register", "end"), *judged]), Members([("command", "true"), (random.choice(["when", "when", "changed_when"]), when)])]
    return Members((key, [*part, *steps] if key == "tasks" else part) for key, part in play)


def _with_script(random):
    words = [random.choice(BLANKS)] if random.random() < 0.2 else random.choice([["ssh", "--", "{{ inventory_hostname }}"], ["ssh", "{{ inventory_hostname }}", "sudo"], ["true"], ["-c"]])
    for _ in range(random.choice([1, 2, 3, 3])):
        words = [*words, *random.choice([["sh"], []]), random.choice(OPTIONS), random.choice(SCRIPTS)] if random.random() < 0.7 else [*words, random.choice(EXPANDED)]
    return Members([("command", Members([("argv", words)]))])


def _of_words(program, command):
    """The same command of this program, with something else in the place of its holes."""
    if isinstance(command, str):
        return f"{program} {_filled(command)}"
    return Members((key, [program, *(_filled(word) if isinstance(word, str) else word for word in part)] if key == "argv" else f"{program} {_filled(part)}") for key, part in command)


def _filled(word):
    return re.sub(r"\{\{.*?\}\}", "x", word)


def _with_names(value, random, key=None):
    """The same inventory, in which some groups and hosts have variables with names like those of keys, and some hosts names like those of others."""
    if not isinstance(value, Members):
        return value
    found = Members((name, _with_names(below, random, name)) for name, below in value)
    if key == "vars":
        names = [name for name in random.sample(KEYS, random.choice([0, 0, 1, 1, 2])) if name != "max_down" and name not in found.names()]
        return Members([*found, *((name, random.choice([1, "x", True, None, []])) for name in names)])
    if key == "hosts":
        found = _with_keys(found)
    if key == "hosts" and random.random() < 0.4:
        names = [name for name in random.sample(MORE_HOSTS, random.choice([1, 1, 2, 3])) if name not in found.names()]
        return Members([*found, *((name, None) for name in names)])
    return found


def _with_keys(hosts):
    """The same hosts, of which some have a variable with a name like a key's."""
    own = Random(" ".join(hosts.names()))
    return Members((name, _with_key(given, own) if own.random() < 0.1 else given) for name, given in hosts)


def _with_key(given, random):
    name = random.choice(KEYS)
    held = given if isinstance(given, Members) else Members([])
    return given if name == "down" or name in held.names() else Members([*held, (name, random.choice([1, "x", True, None]))])


# How plays are changed one after the other, each with the name by which its chances are drawn.
CHANGES = {
    "options": _with_ends_of_options, "nothing": _saying_nothing, "scripts": _with_scripts, "near": _with_near_names, "asked": with_asked_in_vain, "results": _with_results_of_handlers,
    "failures": _with_failures,
}


def _lists(random):
    """The words that suppress rules: no list, one, or several; in some all rules but those of infos."""
    if random.random() < 0.08:
        return ["--allow", ",".join(kind for kind, severity in SEVERITIES.items() if severity == WARNING or random.random() < 0.1)]
    words = []
    for _ in range(random.choice([0, 0, 0, 1, 1, 2, 3])):
        names = random.choices(KINDS, k=random.choice([1, 1, 2, 3]))
        if random.random() < 0.07:
            names.insert(random.randint(0, len(names)), random.choice(BAD))
        value = random.choice([",", ",", ":", ", ", ",,", " ,\t", "\n:\r"]).join(names) + random.choice(["", "", "", ",", " "])
        if random.random() < 0.04:
            value = random.choice(["", ",", " : ,"])
        words += [f"--allow={value}"] if random.random() < 0.4 else ["--allow", value]
    return words
