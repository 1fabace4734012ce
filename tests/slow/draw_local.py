"""Drawn plays whose steps do the same for each host, or nearly: programs behind `sudo` and the like, `ssh` with one target, and words whose placeholders have the same value on all hosts."""

from json_draw import Members

WRAPPERS = [
    ["sudo"], ["sudo", "-n"], ["sudo", "-u", "root"], ["/usr/bin/sudo", "-n", "-u", "root"], ["timeout", "9"], ["timeout", "-v", "1m"], ["env", "A=b"], ["env", "A=b", "C=ssh"], ["env"], ["nice"], ["nice", "-n", "5"],
    ["sudo", "timeout", "9"], ["sudo", "env", "A=b", "nice", "-n", "5"], ["time"], ["sudo", "-u"], ["sudoers"],
]
PROGRAMS = [
    "systemctl", "/bin/systemctl", "service", "apt", "apt-get", "yum", "dnf", "docker", "reboot", "/sbin/shutdown", "ssh", "ssh", "/usr/bin/ssh", "sshd", "uptime", "uptime", "true", "aptitude",
    "systemctl/x", "caf\u00e9", "-u", "A=b", "sudo", "timeout",
]
# What follows the program: the same for all hosts, or not, by the names that steps register or hosts have.
FOLLOWING = [
    [], ["x"], ["restart", "web"], ["{{ same }}"], ["x", "{{ same }}"], ["x{{ part }}"], ["{{ inventory_hostname }}"], ["{{ made }}"], ["{{ made.stdout }}"], ["{{ mixed }}"], ["web1", "{{ same }}", "}} {x}"], ["{{ v }}"],
]
WHENS = ["inventory_hostname == 'a'", "inventory_hostname != 'a'", "same == 7", "v == 1", "true", False, False, False, "made is changed", "'g' in group_names", "'g' not in group_names"]


def with_shared_variables(random, value):
    """The same inventory, in which all groups at the top give a variable `same`, one `part`, and all `mixed`, of different values."""
    if not isinstance(value, Members):
        return value
    chosen = random.randrange(len(value)) if value else 0
    return Members((name, _sharing(body, [("same", 7), ("mixed", place), *[("part", "p")] * (place == chosen)])) for place, (name, body) in enumerate(value))


def _sharing(body, given):
    if not (body is None or isinstance(body, Members)):
        return body
    held = dict(body or []).get("vars")
    if not (held is None or isinstance(held, Members)):
        return body
    names = [name for name, _ in held or []]
    shared = Members([*(held or []), *((name, value) for name, value in given if name not in names)])
    return Members([*((key, part) for key, part in body or [] if key != "vars"), ("vars", shared)])


def local_plays(random, patterns):
    """A play, or none, of steps that are mostly the same for each host."""
    if random.random() < 0.35:
        return []
    if random.random() < 0.05:
        return [Members([("hosts", "all"), ("tasks", [_step(random), Members([("command", "ssh x"), ("when", False)])])])]
    steps = [_step(random) for _ in range(random.choice([1, 1, 2, 3]))]
    handlers = [Members([("name", "local"), *_step(random)])] if random.random() < 0.25 else []
    if handlers and random.random() < 0.7:
        steps.append(Members([*_step(random), ("notify", "local")]))
    return [Members([("hosts", random.choice([*patterns, "all", "all"])), ("tasks", steps), *([("handlers", handlers)] if handlers else [])])]


def _step(random):
    wrapper = random.choice(WRAPPERS) if random.random() < 0.5 else []
    words = [*wrapper, random.choice(PROGRAMS), *random.choice(FOLLOWING)] if random.random() < 0.95 else wrapper or ["ssh"]
    registered = [("register", "made")] if random.random() < 0.25 else []
    when = [("when", random.choice(WHENS))] if random.random() < 0.3 else []
    return Members([("command", Members([("argv", words)])), *registered, *when])
