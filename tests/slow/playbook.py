"""The reading of a playbook: its plays, or its first fault, or all of them."""

from dataclasses import dataclass

from faults import FIRST, Fault, by_bytes
from fleet import parts_of
from json_text import NotJson, read_json
from rules import turned
from shares import is_whole
from sizes import read_sizes
from steps import Numbering, read_step

MOST_PLAYS = 16
MOST_STEPS = 256
KEYS = ("hosts", "serial", "max_fail_percentage", "on_blocked", "tasks", "handlers", "name", "gather_facts", "connection")


@dataclass
class Play:
    """A play: the names of its pattern, the sizes of its batches, its bound on failures in percent, and its tasks and handlers."""

    parts: list
    sizes: list
    most_failed: int | None
    hold: bool
    tasks: list
    handlers: list


def read_playbook(text, told=FIRST):
    """The plays in order. The first play is read whole before the second one is looked at. What a fault leaves unsaid is read as if it weren't given."""
    try:
        plays = read_json(text)
    except NotJson:
        told.tell(Fault(701, "NotJson"))
        return []
    return plays_in(plays, told)


def plays_in(plays, told=FIRST):
    """The same of a text that was read as JSON."""
    if not isinstance(plays, list) or not plays:
        told.tell(Fault(702, "BadShape", at=""))
        return []
    if len(plays) > MOST_PLAYS + turned("plays-most"):
        told.tell(Fault(708, "ManyPlays"))
        return []
    several = len(plays) > 1 or turned("play-told-of-several")
    numbers = [place + 1 if several else None for place in range(len(plays))]
    return [_read_play(play, str(place), numbers[place], told) for place, play in enumerate(plays)]


def _read_play(given, at, number, told):
    """A play; None in the place of one of which nothing else is told."""
    if not isinstance(given, dict):
        told.tell(Fault(702, "BadShape", at=at))
        return None
    first = [_check_keys, read_hosts]
    found = {read: read(given, at, told) for read in (reversed(first) if turned("play-keys-before-hosts") else first)}
    settings = [read_serial, read_most_failed, read_hold]
    if turned("serial-before-percentage"):
        settings = [read_most_failed, read_serial, read_hold]
    if turned("settings-before-lists"):
        _read_lists(given, at, told)
    found.update((setting, setting(given, at, told)) for setting in settings)
    tasks, handlers = _read_lists(given, at, told)
    steps = [], []
    if len(tasks) + len(handlers or []) > MOST_STEPS + turned("steps-most"):
        told.tell(Fault(709, "TooManySteps"))
    if len(tasks) + len(handlers or []) <= MOST_STEPS + turned("steps-most") or turned("no-step-of-too-many"):
        steps = _read_steps(tasks, handlers, at, number, told)
    return Play(found[read_hosts], found[read_serial], found[read_most_failed], found[read_hold], *steps)


def _check_keys(given, at, told):
    unknown = sorted((key for key in given if key not in KEYS), key=by_bytes, reverse=turned("play-keys-in-order"))
    for key in unknown[:1] if turned("each-unknown-key-of-a-play") else unknown:
        told.tell(Fault(703, "UnknownKey", at=f"{at}/{key}"))


def read_hosts(given, at, told):
    """The names of the pattern, or of a list of patterns in turn; at least one, which is asked where all are texts."""
    if "hosts" not in given:
        told.tell(Fault(702, "BadShape", at=at))
        return []
    value = given["hosts"]
    at = f"{at}/hosts"
    if not isinstance(value, (str, list)):
        told.tell(Fault(702, "BadShape", at=at))
        return []
    patterns = [value] if isinstance(value, str) else value
    others = [place for place, pattern in enumerate(patterns) if not isinstance(pattern, str)]
    for place in others[:1] if turned("each-pattern-that-is-no-text") else others:
        told.tell(Fault(702, "BadShape", at=f"{at}/{place}"))
    parts = [part for pattern in patterns if isinstance(pattern, str) for part in parts_of(pattern)]
    if not parts and not turned("pattern-names-somebody") and (not others or turned("emptiness-of-texts-alone")):
        told.tell(Fault(702, "BadShape", at=at))
    return parts


def read_serial(given, at, told):
    return read_sizes(given["serial"], f"{at}/serial", told) if "serial" in given else []


def read_most_failed(given, at, told):
    if "max_fail_percentage" not in given:
        return None
    value = given["max_fail_percentage"]
    if not is_whole(value, 100 + turned("percentage-at-most-all")):
        told.tell(Fault(707, "BadPercent", at=f"{at}/max_fail_percentage"))
    return value


def read_hold(given, at, told):
    value = given.get("on_blocked", "stop")
    if value not in ("stop", "hold"):
        told.tell(Fault(702, "BadShape", at=f"{at}/on_blocked"))
    return value == "hold"


def _read_lists(given, at, told):
    """The tasks and the handlers; of handlers that can't be read nothing is known, so None."""
    tasks, handlers = given.get("tasks"), given.get("handlers")
    shapes = [(isinstance(tasks, list) and tasks, "tasks"), (handlers is None or isinstance(handlers, list), "handlers")]
    for right, key in reversed(shapes) if turned("tasks-shape-first") and "tasks" in given else shapes:
        if not right:
            told.tell(Fault(702, "BadShape", at=f"{at}/{key}" if key in given else at))
    known = [] if handlers is None else None
    return tasks if isinstance(tasks, list) else [], handlers if isinstance(handlers, list) else known


def _read_steps(tasks, handlers, at, play, told):
    """Handlers are read first, though their numbers come behind those of the tasks. A handler whose name is a text has it, whatever else is wrong with it."""
    first = 1 if turned("handlers-counted-behind-tasks") else len(tasks) + 1
    read_handlers, names = [], []

    def read_all_handlers():
        for place, given in enumerate(handlers or []):
            before = len(told.found)
            step = read_step(given, f"{at}/handlers/{place}", Numbering(play, first + place), False, told)
            read_handlers.append(step)
            if step.name in names:
                told.tell(Fault(705, "TwiceHandler", name=step.name))
            if step.name is not None and not (len(told.found) > before and turned("names-of-wrong-handlers")):
                names.append(step.name)

    def check_notified(step):
        if handlers is not None or turned("handlers-that-cant-be-read-lack-none"):
            _check_notified(step, names, told)

    if not turned("handlers-before-tasks"):
        read_all_handlers()
    read_tasks = []
    for place, given in enumerate(tasks):
        read_tasks.append(read_step(given, f"{at}/tasks/{place}", Numbering(play, place + 1), True, told))
        if not turned("handlers-looked-up-after-each-task") and not turned("handlers-before-tasks"):
            check_notified(read_tasks[-1])
    if turned("handlers-before-tasks"):
        read_all_handlers()
    if turned("handlers-looked-up-after-each-task") or turned("handlers-before-tasks"):
        for step in read_tasks:
            check_notified(step)
    return read_tasks, read_handlers


def _check_notified(step, names, told):
    """Each name that no handler has, once a task."""
    notified = step.notify if turned("each-unknown-handler-once-a-task") else list(dict.fromkeys(step.notify))
    missing = [name for name in (reversed(notified) if turned("first-unknown-handler") else notified) if name not in names]
    for name in missing[:1] if turned("each-unknown-handler") else missing:
        told.tell(Fault(704, "NoSuchHandler", name=name))
