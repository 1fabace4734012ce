"""What `lint` warns about in the steps of a play: the names that they read, their conditions, their commands, and handlers that no task notifies."""

import re
from dataclasses import replace
from functools import partial

from compared import first_placeholder, unknown_host
from conditions import Contrary, tests_in
from faults import by_bytes
from fleet_notes import printed
from local_commands import is_ssh, of_step
from missing import is_known_not_to_hold, missed_by
from nearness import nearest
from needing import in_conditions, in_words
from rules import turned
from words import Ref, parts

# Names that are searched for one that was probably meant are at most so long.
LONGEST_NEAR = 64
# Behind these a program reads a script, which is one word.
SCRIPT_OPTIONS = ("-c", "-lc", "-ec", "-xc")
# The kinds of values that the fields of a result have; of all others it is a truth value.
TYPES = {"rc": int, "stdout": str, "stderr": str}
SHELL_WORDS = ("|", "||", "&", "&&", ";", ">", ">>", "<", "2>&1")


def of_steps(scene):
    """Of the tasks of a play and then of its handlers."""
    play, found = scene.play, []
    steps = [*((step, "tasks") for step in play.tasks), *((step, "handlers") for step in play.handlers)]
    for place, (step, of) in enumerate(steps):
        at = f"at={scene.number}/{of}/{place - (len(play.tasks) if of == 'handlers' else 0)}"
        if turned("lint-paths-from-nought"):
            at = f"at={scene.number + 1}/{of}/{step.number}"
        before = play.tasks + play.handlers if turned("lint-steps-before-register") else [other for other, _ in steps[:place]]
        if turned("lint-tasks-register-for-handlers") and of == "handlers":
            before = play.handlers[: place - len(play.tasks)]
        if turned("lint-handlers-register-for-handlers"):
            before = [other for other in before if other in play.tasks]
        found += _of_step(at, step, scene, scene.earlier | registered_by(before), partial(scene.outset_of, scene.number, place), play.tasks[:place], of == "handlers")
    return found


def _of_step(at, step, scene, known, outset, tasks, is_handler):
    """Of one step, of which steps before it register the results `known`, `outset` is what is known of a host that comes to it, and these are the tasks before it."""
    names, results = _names_notes(at, step, known, scene, outset), _results_notes(at, step, known, scene.waiting, outset)
    names = results + names if turned("lint-names-before-results") else names + results
    conditions = _conditions_notes(at, step, scene, outset, tasks)
    running = [host for host in scene.waiting if turned("lint-who-skips-is-not-counted") or not is_known_not_to_hold(step.when, outset(host))]
    words = [_shell_note(at, step), _program_note(at, step), _script_note(at, step), *of_step(at, step, scene, running), _dash_note(at, step, scene.waiting)]
    if turned("lint-programs-before-places"):
        words[1:4] = words[3:0:-1]
    words = words + conditions if turned("lint-condition-before-words") else conditions + words
    notes = [names, words, [_idle_note(at, step, scene)] if is_handler else []]
    if turned("lint-names-before-words"):
        notes[:2] = notes[1::-1]
    if turned("lint-words-before-idle"):
        notes[1:] = notes[:0:-1]
    return [note for part in notes for note in part]


def registered_by(steps):
    return {step.register for step in steps if step.register is not None}


def _asked(step, known):
    """The names that a step reads and that no step before it registers, each where it is read first. What judges its program's end may read its own result."""
    conditions, words = in_conditions(step.when), in_words(step.words)
    before = words + conditions if turned("lint-when-before-words") else conditions + words
    behind = in_conditions(step.changed_when) + in_conditions(step.failed_when)
    if turned("lint-changed-before-failed"):
        behind = in_conditions(step.failed_when) + in_conditions(step.changed_when)
    itself = known | {step.register}
    names = [name for name in before if name not in (itself if turned("lint-own-result-not-before") else known)]
    names += [name for name in behind if name not in (known if turned("lint-own-result-behind") else itself)]
    names = [name for name in names if name != "inventory_hostname" or turned("lint-hostname-is-no-name")]
    return names if turned("lint-each-name-once") else list(dict.fromkeys(names))


def _names_notes(at, step, known, scene, outset_of):
    """Of each name that the step reads and that no step before registers: on which hosts it may read it undefined. Nothing is read under `is defined`, nor behind what is known to decide."""
    names, waiting = _asked(step, known), scene.waiting
    judged = replace(step, register=None) if turned("lint-own-result-behind") else step
    missed = {host: set(missed_by(judged, outset_of(host))) for host in waiting} if names else {}
    if turned("lint-hostname-is-no-name"):
        missed = {host: asked | {"inventory_hostname"} for host, asked in missed.items()}
    if turned("lint-guards-are-looked-at"):
        missed = {host: set(names) for host in waiting}
    if turned("lint-guards-are-of-each-host"):
        missed = dict.fromkeys(waiting, {name for asked in missed.values() for name in asked})
    # A name that each host has as a variable is passed over. Of others the hosts that have one count too, if the step has conditions: a variable has no result's fields.
    names = [name for name in names if any(name not in scene.variables[host] for host in waiting)]
    is_judged = any(trees is not None for trees in (step.when, step.changed_when, step.failed_when))
    return [_name_note(at, name, scene, [host for host in waiting if name in missed[host] and (is_judged or name not in scene.variables[host])]) for name in names]


def _name_note(at, name, scene, lacking):
    """Nothing where no host that waits may read it undefined, so where none waits too. Of what no group or host has it isn't said which hosts read it."""
    if not lacking:
        return None
    if len(lacking) == len(scene.waiting) or (name not in scene.values and not turned("lint-names-of-nobody-are-unknown")):
        others = [other for other in scene.given if len(by_bytes(other)) <= LONGEST_NEAR and (other != name or turned("lint-near-names-are-others"))]
        near = None if turned("lint-near-names-are-told") else nearest(name, others)
        return f"undefined-name {at} name={name}" + ("" if near is None else f" near={printed(near)}")
    count = len(scene.waiting) - len(lacking) if turned("lint-who-lacks-is-counted") else len(lacking)
    return f"undefined-name {at} name={name} hosts={count} of={len(scene.waiting)} host={lacking[-1 if turned('lint-first-lacking-host') else 0]}"


def _results_notes(at, step, known, waiting, outset_of):
    """Of each name that the step reads and that a step before registers: on which hosts the result may not exist, or has no text, where it is read."""
    guarded = set() if turned("lint-who-asks-for-a-result-is-not-told") else _guarded(step) - _whole(step)
    names = list(dict.fromkeys(name for name in _read(step) if name in known and name not in guarded))
    missed = {host: missed_by(step, outset_of(host)) for host in waiting} if names else {}
    lacking = {name: [host for host in waiting if name in missed[host]] for name in names}
    if turned("lint-hosts-without-a-result-are-told"):
        lacking = {name: hosts if len(hosts) == len(waiting) else [] for name, hosts in lacking.items()}
    return [f"undefined-name {at} name={name} hosts={len(hosts)} of={len(waiting)} host={hosts[-1 if turned('lint-first-host-without-a-result') else 0]}" for name, hosts in lacking.items() if hosts]


def _guarded(step):
    """The names of which `when` asks whether they are defined."""
    return {test[1].name for tree in step.when or [] for test in tests_in(tree) if test[0] == "defined"}


def _whole(step):
    """The names that stand in words without a field."""
    return {part.name for word in step.words for part in parts(word) if isinstance(part, Ref) and not part.field}


def _read(step):
    """The names that a step reads, in the order of reading."""
    found = [in_conditions(step.when), in_words(step.words), in_conditions(step.changed_when), in_conditions(step.failed_when)]
    if turned("lint-results-in-the-order-of-reading"):
        found[:2] = found[1::-1]
    return [name for names in found for name in names]


def _conditions_notes(at, step, scene, outset_of, tasks):
    """Of each condition of a step, and then whether any host runs it, and whether a change that is lost guards it."""
    keys = {"when": step.when, "changed_when": step.changed_when, "failed_when": step.failed_when}
    items = reversed(keys.items()) if turned("lint-conditions-in-their-order") else keys.items()
    found = [_of_condition(f"{at} key={key}", key, trees, scene, tasks) for key, trees in items]
    if turned("lint-condition-by-condition"):
        found = zip(*found)
    of_each = [note for notes in found for note in notes]
    of_all = [_nowhere_note(at, step, [outset_of(host) for host in scene.waiting]), _guard_note(at, step)]
    if turned("lint-idle-steps-before-changed-guards"):
        of_all.reverse()
    return of_all + of_each if turned("lint-each-condition-before-idle-steps") else of_each + of_all


def _of_condition(at, key, trees, scene, tasks):
    """Of one condition the first group and the first host for which it asks and that don't exist, its first string with a placeholder, and the first result of which it asks what is always the same."""
    tests = [test for tree in trees or [] for test in tests_in(tree)]
    notes = [_group_asked_note(at, key, tests, scene.fleet), _host_asked_note(at, key, trees, scene), _placeholder_note(at, key, trees), _constant_note(at, key, trees, tasks)]
    if turned("lint-groups-before-hosts-of-conditions"):
        notes[:2] = notes[1::-1]
    if turned("lint-hosts-before-text-holes"):
        notes[1:3] = notes[2:0:-1]
    return notes


def _group_asked_note(at, key, tests, fleet):
    groups = {place.name for place in fleet.places}
    names = [test[1] for test in tests if test[0] == "group" and test[1] not in groups]
    if not names or (key != "when" and turned("lint-groups-of-each-condition")):
        return None
    return f"unknown-group {at} group={printed(names[-1 if turned('lint-first-unknown-group') else 0])}"


def _host_asked_note(at, key, trees, scene):
    hosts = set(scene.waiting) if turned("lint-hosts-that-do-not-wait-are-there") else set(scene.fleet.hosts)
    if turned("lint-groups-are-no-hosts"):
        hosts |= {place.name for place in scene.fleet.places}
    host = unknown_host(trees, hosts)
    return None if host is None or (key != "when" and turned("lint-unknown-hosts-of-each-condition")) else f"unknown-group {at} host={printed(host)}"


def _placeholder_note(at, key, trees):
    text = None if key != "when" and turned("lint-text-holes-of-each-condition") else first_placeholder(trees)
    return None if text is None else f"unfilled-placeholder {at} word={printed(text)}"


def _constant_note(at, key, trees, tasks):
    """Of the first result a field of which is compared with a value of another kind, or of whose failure `when` asks though each task that registers it ends its host with it."""
    ended = _ended(tasks) if key == "when" or turned("lint-own-failures-may-be-asked-for") else {}
    names = []
    for test, contrary, denied in [found for tree in trees or [] for found in _stated(tree)]:
        names += _constants(test, contrary, {} if denied and not turned("lint-denied-failures-are-awaited-by-nobody") else ended)
    return f"constant-test {at} name={names[-1 if turned('lint-first-constant-test') else 0]}" if names else None


def _ended(tasks):
    """Of the results that tasks register, whether each such task ends a host on which it fails."""
    found = {}
    for task in tasks:
        if task.register is not None:
            goes_on = (task.ignore_errors and not turned("lint-ignored-failures-are-there")) or (task.failed_when is not None and not turned("lint-judged-failures-are-there"))
            found[task.register] = found.get(task.register, True) and not goes_on
    return found


def _stated(tree, denied=False):
    """The tests of a condition, each with whether it asks for the contrary itself, and whether a `not` stands before it."""
    if not isinstance(tree, tuple):
        return [(("operand", tree), False, denied)]
    kind, *rest = tree
    if kind in ("or", "and"):
        return [found for below in rest[0] for found in _stated(below, denied)]
    if isinstance(tree, Contrary):
        return [(rest[0], True, denied)]
    return _stated(rest[0], True) if kind == "not" else [(tree, False, denied)]


def _constants(test, contrary, ended):
    """The results of which a test asks what is always the same."""
    kind, *rest = test
    if kind == "result":
        return [rest[0]] if rest[1] == "failed" and not contrary and ended.get(rest[0]) else []
    if kind != "same":
        return []
    pairs = [rest] if turned("lint-fields-on-either-side") else [rest, rest[::-1]]
    pairs = [(own, other) for own, other in pairs if isinstance(own, Ref) and own.field and not isinstance(other, Ref)]
    return [own.name for own, other in pairs if type(other) is not TYPES.get(own.field, bool) or (own.field == "rc" and (other == 0) == contrary and ended.get(own.name))]


def _nowhere_note(at, step, outsets):
    """Of a `when` that compares something or asks for a group, and is known not to hold on each of the hosts that wait, before anything runs."""
    if not outsets and not turned("lint-idle-steps-of-somebody"):
        return None
    known = [is_known_not_to_hold(step.when, outset) for outset in outsets]
    trees = step.when or []
    asks = any(_compares(tree) for tree in trees) or (bool(trees) and turned("lint-idle-steps-compare"))
    if any(_is_switch(test) for tree in trees for test in tests_in(tree)) and not turned("lint-switched-steps-are-meant"):
        return None
    return f"idle-step {at}" if asks and (any(known) if turned("lint-idle-steps-on-all-hosts") else all(known)) else None


def _compares(tree):
    """Whether a condition asks for a group, or compares what it reads with something."""
    for kind, *rest in tests_in(tree):
        if kind == "group" and not turned("lint-idle-steps-ask-for-groups"):
            return True
        if kind == "same" and (any(isinstance(operand, Ref) for operand in rest) or turned("lint-idle-steps-look-something-up")):
            return True
    return False


def _is_switch(test):
    """Whether a test asks just whether a value is true, or defined."""
    kind, *rest = test
    if kind == "defined":
        return not turned("lint-guards-are-switches")
    if kind == "same":
        return any(isinstance(operand, bool) for operand in rest) and not turned("lint-truth-values-are-switches")
    return kind == "operand" and isinstance(rest[0], Ref)


def _guard_note(at, step):
    """Of a `when` that asks whether a result is changed: a second attempt changes nothing, so that the step doesn't run."""
    names = [name for tree in step.when or [] for name in _changed_in(tree)]
    return f"changed-guard {at} name={names[-1 if turned('lint-first-changed-guard') else 0]}" if names else None


def _changed_in(tree):
    """The results of which a condition asks whether they are changed, but for what `not` denies."""
    if not isinstance(tree, tuple):
        return []
    kind, *rest = tree
    if kind in ("or", "and"):
        return [] if kind == "or" and turned("lint-alternatives-guard-too") else [name for below in rest[0] for name in _changed_in(below)]
    if kind == "not":
        return _changed_in(rest[0]) if turned("lint-denied-changes-guard-nothing") else []
    if kind == "operand" and isinstance(rest[0], Ref) and rest[0].field == "changed" and turned("lint-fields-are-no-changed-guards"):
        return [rest[0].name]
    return [rest[0]] if kind == "result" and (rest[1] == "changed" or turned("lint-changes-alone-guard")) else []


def _shell_note(at, step):
    """The first word behind the program that only a shell would read as something else; none where `ssh` gives it to a shell."""
    if is_ssh(step) and not turned("lint-a-shell-reads-behind-ssh"):
        return None
    pairs = [(before in SCRIPT_OPTIONS and not turned("lint-scripts-are-for-shells"), word) for before, word in zip(["", *step.words], step.words)]
    pairs = pairs if turned("lint-programs-are-no-words") else pairs[1:]
    found = [word for scripted, word in pairs if word in SHELL_WORDS or _is_expanded(word, scripted)]
    if turned("lint-whole-words-alone"):
        found = [word for scripted, word in pairs if word.startswith(SHELL_WORDS) or _is_expanded(word, scripted)]
    return f"shell-word {at} word={printed(found[-1 if turned('lint-first-word') else 0])}" if found else None


def _is_expanded(word, scripted):
    """Whether a shell would replace `$NAME`, `${NAME}`, `$(..)`, or `~/` at the front. In a word with whitespace only three capital letters are a name, and none in a script."""
    if re.search(r"[ \t\n\r]", word) and not turned("lint-scripts-have-blanks"):
        return bool(re.search(r"\$[A-Z]" if turned("lint-short-names-are-of-programs") else r"\$[A-Z]{3}", word)) and not scripted
    is_at_home = word.startswith("~/") and not turned("lint-homes-are-for-shells")
    return is_at_home or bool(re.search(r"\$([A-Za-z_(]|\{[A-Za-z_])", word) and not turned("lint-variables-are-for-shells"))


def _program_note(at, step):
    """Of a program whose name has whitespace, before what may be a placeholder, or sets a variable."""
    program = step.words[0]
    plain = program if turned("lint-programs-with-holes-are-not-known") else program.split("{")[0]
    return f"shell-word {at} word={printed(program)}" if re.search(r"[ \t\n\r]", plain) or "=" in program else None


def _script_note(at, step):
    """Of the first script of several words, behind an option for one, that `ssh` gets without quotes: it joins its words by spaces."""
    if not is_ssh(step) and not turned("lint-scripts-are-torn-by-ssh"):
        return None
    pairs = zip(step.words, step.words[1:])
    found = [word for option, word in pairs if (option in SCRIPT_OPTIONS or turned("lint-scripts-stand-behind-options")) and _is_torn(word)]
    return f"shell-word {at} word={printed(found[-1 if turned('lint-first-torn-script') else 0])}" if found else None


def _is_torn(script):
    """Whether it has whitespace, before what may be a placeholder, and no quote at the front."""
    plain = script if turned("lint-blanks-in-holes-tear-nothing") else script.split("{")[0]
    return bool(re.search(r"[ \t\n\r]", plain)) and (not script.startswith(("'", '"')) or turned("lint-quotes-keep-together"))


def _dash_note(at, step, waiting):
    """Of a word that begins with the host's name, behind the program and before a word `--`, where a waiting host's name begins with a dash."""
    words = step.words if turned("lint-the-program-is-no-option") else step.words[1:]
    if "--" in words and not turned("lint-options-end"):
        words = words[: words.index("--")]
    begin = [word for word in words if parts(word)[:1] == [Ref("inventory_hostname")]]
    if turned("lint-names-in-mid-word-are-no-options"):
        begin = [word for word in words if Ref("inventory_hostname") in parts(word)]
    dashed = [host for host in waiting if host.startswith("-")]
    return f"dash-name {at} host={dashed[-1 if turned('lint-first-dashed-host') else 0]}" if begin and dashed else None


def _is_false(tree):
    return tree is False or (isinstance(tree, tuple) and tree[0] == "operand" and tree[1] is False)


def _idle_note(at, step, scene):
    """Of a handler: that no task of its play notifies it."""
    notifying = [task for other in scene.plays for task in other.tasks] if turned("lint-tasks-of-the-play-notify") else scene.play.tasks
    if not turned("lint-what-never-changes-notifies-nobody"):
        notifying = [task for task in notifying if not any(_is_false(tree) for tree in task.changed_when or [])]
    return None if any(step.name in task.notify for task in notifying) else f"idle-handler {at}"
