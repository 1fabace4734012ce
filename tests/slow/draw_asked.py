"""Drawn steps whose conditions ask in vain: the host's own name compared with one that no host has, strings with placeholders, and results that only a first attempt changes."""

from json_draw import Members

# Hosts that mostly are there, in capitals too, some that aren't, and groups.
HOSTS = ["H0", "h0", "a", "A", "a", "nobody", "nobody", "web-1", "", "caf\u00e9 \t", "all", "g"]
ASKED = [
    "inventory_hostname == '{0}'", "inventory_hostname != '{0}'", "'{0}' == inventory_hostname", "'{0}' != inventory_hostname or v == '{1}'", "v == '{0}' or inventory_hostname == '{1}'",
    "not (inventory_hostname == '{0}' or '{1}' == inventory_hostname)", "inventory_hostname == '{0}' or inventory_hostname == '{1}'", "'{0}' in group_names or inventory_hostname != '{1}'",
    "'{0}' == '{1}' or inventory_hostname", "inventory_hostname == v or inventory_hostname == 1 or v == '{0}'", "true or inventory_hostname != '{0}'", "inventory_hostname is defined and '{0}' == v",
    "inventory_hostname != '{0}' and v != '{{{{ {1} }}}}'",
]
# Names that conditions ask for, of which results have some, and strings in which a placeholder begins, or nearly.
NAMES = ["v", "w", "gone", "said", "x"]
HOLED = [
    "{0} == '{{{{ {1} }}}}'", "'{{{{ {0} }}}}'", "'{{{{ {0} }}}}' == '{{% {1} %}}'", "'{{% if {0} %}}' != {1}", "{0} == 'a' or {1} == \"{{#x\"", "'{{{{ g }}}}' in group_names",
    "'{{{{ g }}}}' not in group_names and {0} == 'a{{%'", "'{{ {{' == {0}", "'{{x}}' == {0} or '}}}}' != {1}", "not ('{{{{ {0} }}}}' == {1} or {0} == '{{#')", "{0} == 'caf\u00e9 {{{{ {1} }}}}\t'",
    "inventory_hostname != 'x{{{{{0}}}}}y'", "{0} == 'a' or '{{{{ b }}}}' == '{{{{ c }}}}'", "{0} == 1 and {1}.stdout == '{{{{ {0} }}}}'", "{0} is defined and '{{{{ {1} }}}}'", "{0} is failed or 'a' == '{{{{'",
    "'{{' == {0} and '{{% {1}' or '{{{{ d }}}}'", "'a' == {0}", "'g' in group_names or {0} == '{{# c #}}'",
]
# What asks whether a result is changed, and what only looks so.
CHANGED = [
    "{0} is changed", "{0} is changed", "{0} is not changed", "not {0} is changed", "not ({0} is changed or {1} is failed)", "{0} is changed and {1} is changed", "{0} is changed or {1} is changed",
    "{0}.changed", "{0} is failed", "{0} is skipped and {1} is changed", "{0} is not changed or {1} is changed", "not not {0} is changed", "({0} is changed)", "v == 1 or ({0} is changed and v != 2)",
    "{0} is succeeded", "{0}.changed or {1} is changed", "{0} is changed and inventory_hostname == 'nobody'", "{0}.changed and {1}.rc == 0",
]


def with_asked_in_vain(random, play):
    """The same play, in many of which a few steps more ask so; a handler too."""
    if random.random() < 0.6:
        return play
    steps = [_step(random) for _ in range(random.choice([1, 1, 2, 3]))]
    handlers = [Members([("name", "asked"), *_step(random)])] if random.random() < 0.2 else []
    if handlers and random.random() < 0.6:
        steps.append(Members([("command", "true"), ("notify", "asked")]))
    is_first = random.random() < 0.5
    held = Members((key, ([*steps, *part] if is_first else [*part, *steps]) if key == "tasks" else part) for key, part in play if key != "handlers")
    return Members([*held, ("handlers", [*handlers, *(dict(play).get("handlers") or [])])])


def _step(random):
    keys = random.choice([["when"], ["when"], ["when"], ["changed_when"], ["failed_when"], ["when", "failed_when"], ["when", "changed_when", "failed_when"]])
    registered = [("register", random.choice(["r", "said"]))] if random.random() < 0.5 else []
    return Members([("command", "ssh -- {{ inventory_hostname }} uptime"), *registered, *((key, _condition(random)) for key in keys)])


def _condition(random):
    """A condition, or a list of several."""
    texts = [_text(random) for _ in range(random.choice([1, 1, 1, 2, 3]))]
    return texts if len(texts) > 1 or random.random() < 0.2 else texts[0]


def _text(random):
    forms, names = random.choice([(ASKED, HOSTS), (HOLED, NAMES), (CHANGED, ["r", "said", "gone"])])
    return random.choice(forms).format(*random.choices(names, k=2))
