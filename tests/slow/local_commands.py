"""Which programs run on the local machine, the same for several hosts, though they are probably meant for the hosts themselves."""

from conditions import tests_in
from faults import by_bytes
from fleet_notes import printed
from rules import turned
from words import Ref, parts

# Programs that change the machine on which they run.
OF_THE_HOST = ("systemctl", "service", "apt", "apt-get", "yum", "dnf", "docker", "reboot", "shutdown")
# Programs that talk to another machine, only wait, or only tell: the same command may serve all hosts.
SERVING_ALL = (
    "curl", "wget", "kubectl", "helm", "consul", "nomad", "vault", "aws", "gcloud", "az", "psql", "mysql", "redis-cli", "sleep", "true", "false", "test", "echo", "printf", "date",
)


def base(word):
    """A program's name without the path before it."""
    return word if turned("lint-a-path-to-ssh-is-ssh") else word.split("/")[-1]


def seen_through(words):
    """The words from the program on that a step runs in the end: behind `sudo`, `timeout`, `env` and `nice`, with their options."""
    words = list(words)
    while words and base(words[0]) in _REST and not turned(f"lint-{base(words[0])}-is-seen-through"):
        rest = _REST[base(words[0])](words[1:])
        if not rest:
            break
        words = rest
    return words


def _behind_options(words, with_values=()):
    """The words behind options, of which these take the next word."""
    while words and words[0].startswith("-"):
        words = words[2 if words[0] in with_values and not turned("lint-options-take-values") else 1 :]
    return words


def _behind_variables(words):
    while words and "=" in words[0]:
        words = words[1:]
    return words


_REST = {
    "sudo": lambda words: _behind_options(words, ("-u",)),
    "timeout": lambda words: _behind_options(words)[1:],
    "env": _behind_variables,
    "nice": lambda words: _behind_options(words, ("-n",)),
}


def is_ssh(step):
    """Whether a step calls `ssh`."""
    words = step.words if turned("lint-ssh-behind-others-is-ssh") else seen_through(step.words)
    return base(words[0]) == "ssh"


def results_of(scene):
    """Of the names under which steps of a play register results, whether these may differ between the hosts: where a word of such a step does, by the results of steps before it."""
    steps = [step for step in scene.play.tasks + scene.play.handlers if step.register is not None]
    found = {step.register: False for step in steps}
    for step in steps:
        found[step.register] = (found[step.register] and not turned("lint-each-result-of-a-name-counts")) or names_its_host(step, found, scene)
    return found


def names_its_host(step, results, scene):
    """Whether a word of a step differs between the hosts that wait for its play."""
    words = step.words[:1] if turned("lint-any-word-may-differ") else step.words
    return any(isinstance(part, Ref) and _differs(part.name, results, scene) for word in words for part in parts(word))


def _differs(name, results, scene):
    if turned("lint-placeholders-differ"):
        return True
    if name == "inventory_hostname":
        return len(scene.waiting) > 1
    if name in results:
        return (results[name] or turned("lint-results-of-one-command-are-one")) and not turned("lint-results-differ")
    held = [scene.variables[host].get(name) for host in scene.waiting]
    if turned("lint-who-lacks-differs"):
        held = [value for value in held if value is not None]
    if None in held:
        return True
    return len({(type(value), by_bytes(value) if isinstance(value, str) else value) for value in held}) > 1


def of_step(at, step, scene, running):
    """Of a step: that it does the same for each of several hosts, on this machine, or all of them at one target by `ssh`. `running` are the hosts that may run it."""
    if names_its_host(step, scene.results, scene) or not _are_several(running):
        return [None, None]
    if is_ssh(step):
        return [None, f"local-command {at} hosts={len(running)}"]
    program = seen_through(step.words)[0]
    steps = scene.play.tasks if turned("lint-handlers-go-elsewhere-too") else scene.play.tasks + scene.play.handlers
    name = program if turned("lint-paths-lead-to-such-programs") else program.split("/")[-1]
    is_of_host = name in OF_THE_HOST and not turned("lint-some-programs-are-of-the-host")
    serves_all = name in SERVING_ALL and not turned("lint-some-programs-serve-all")
    is_told = is_of_host or (any(is_ssh(other) for other in steps) and not serves_all)
    return [f"local-command {at} word={printed(program)}" if is_told else None, None]


def of_play(scene, waiting, notes):
    """Of a play: that all of it is the same for each of several hosts, on this machine, and no step of it is told."""
    play = scene.play
    steps = play.tasks if turned("lint-handlers-are-for-hosts-too") else play.tasks + play.handlers
    if any(is_ssh(step) for step in steps) and not turned("lint-local-plays-call-no-ssh"):
        return None
    if any(note is not None and note.startswith("local-command ") for note in notes) and not turned("lint-told-steps-hide-their-play"):
        return None
    asks = any(_asks(tree) for step in steps for tree in step.when or []) and not turned("lint-conditions-make-steps-be-for-a-host")
    is_for_hosts = asks or any(names_its_host(step, scene.results, scene) for step in steps)
    return f"local-command play={scene.number + 1} hosts={len(waiting)}" if _are_several(waiting) and not is_for_hosts else None


def _are_several(hosts):
    return len(hosts) > (0 if turned("lint-one-host-has-one-place") else 1)


def _asks(tree):
    """Whether a condition looks something up, or asks for a group."""
    return any(_asks_test(test) for test in tests_in(tree))


def _asks_test(test):
    kind, *rest = test
    if kind == "group":
        return not turned("lint-groups-are-asked-for")
    if kind in ("result", "defined"):
        return True
    names = [operand for operand in rest if isinstance(operand, Ref)]
    if turned("lint-the-hostname-is-asked-for"):
        names = [name for name in names if name.name != "inventory_hostname"]
    return bool(names)
