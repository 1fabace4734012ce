"""The reading of one step, a task or a handler, and its faults in order."""

import re
from dataclasses import dataclass

from conditions import CondFault, parse
from faults import Fault, by_bytes
from rules import turned
from words import NAME, RESERVED, BadBraces, BadText, parts, split

COMMANDS = ("command", "ansible.builtin.command")
KEYS = (*COMMANDS, "name", "register", "when", "changed_when", "failed_when", "ignore_errors")


@dataclass
class Step:
    """A step. The conditions are lists of trees or truth values, or None where there are none."""

    number: int
    name: str | None
    words: list
    register: str | None
    when: list | None
    changed_when: list | None
    failed_when: list | None
    ignore_errors: bool
    notify: list


@dataclass
class Numbering:
    """How faults tell a step: by its number, and by that of its play in a file of several."""

    play: int | None
    step: int

    def details(self):
        before = {} if self.play is None else {"play": self.play}
        return {**before, "step": self.step}


def read_step(given, at, number, is_task, told):
    """A step. What a fault leaves unsaid is read as if it weren't given; of what is no object nothing else is told."""
    if not isinstance(given, dict):
        told.tell(Fault(702, "BadShape", at=at))
        return Step(number.step, None, [], None, None, None, None, False, [])
    known = (*KEYS, "notify") if is_task or turned("handlers-never-notify") else KEYS
    unknown = sorted((key for key in given if key not in known), key=by_bytes)
    if not turned("step-keys-before-the-name"):
        _tell_keys(unknown, at, told)
    if turned("command-behind-the-name"):
        read_command(given, at, number, told)
    name = read_name(given, at, is_task, told)
    if turned("step-keys-before-the-name"):
        _tell_keys(unknown, at, told)
    words = read_command(given, at, number, told)
    if turned("register-before-conditions"):
        _read_condition(given, "when", at, number, told)
    register = read_register(given, at, told)
    keys = ("when", "changed_when", "failed_when")
    found = {key: _read_condition(given, key, at, number, told) for key in (reversed(keys) if turned("conditions-in-order") else keys)}
    last = [read_ignore_errors, _read_notify] if is_task or turned("handlers-never-notify") else [read_ignore_errors]
    values = {read: read(given, at, told) for read in (reversed(last) if turned("notify-read-last") else last)}
    return Step(number.step, name, words, register, *(found[key] for key in keys), values[read_ignore_errors], values.get(_read_notify, []))


def _tell_keys(unknown, at, told):
    for key in unknown[:1] if turned("each-unknown-key-of-a-step") else unknown:
        told.tell(Fault(703, "UnknownKey", at=f"{at}/{key}"))


def read_name(given, at, is_task, told):
    if "name" not in given:
        if not is_task and not turned("handlers-have-names"):
            told.tell(Fault(702, "BadShape", at=at))
        return None
    if not isinstance(given["name"], str):
        told.tell(Fault(702, "BadShape", at=f"{at}/name"))
        return None
    return given["name"]


def _text(value, at):
    if not isinstance(value, str):
        raise Fault(702, "BadShape", at=at)
    return value


def read_command(given, at, number, told):
    """The words of a command: their shape first, of which the first fault is told, then their braces, which are told once."""
    try:
        written = [key for key in COMMANDS if key in given]
        if len(written) != 1 and not (written and turned("one-form-of-command")):
            raise Fault(702, "BadShape", at=at)
        words = _words(given[written[0]], f"{at}/{written[0]}")
    except Fault as fault:
        told.tell(fault)
        return []
    for word in words:
        try:
            parts(word)
        except BadBraces:
            told.tell(Fault(602, "BadBraces", **number.details()))
            if not turned("braces-once-a-step"):
                break
    return words


def _words(value, at):
    if isinstance(value, str):
        return _free_form(value, at)
    if not isinstance(value, dict) or len(value) != 1 or list(value)[0] not in ("argv", "cmd"):
        raise Fault(702, "BadShape", at=at)
    if "cmd" in value:
        return _free_form(_text(value["cmd"], f"{at}/cmd"), f"{at}/cmd")
    words = value["argv"]
    at = f"{at}/argv"
    if not isinstance(words, list) or not words:
        raise Fault(702, "BadShape", at=at)
    return [_argument(word, f"{at}/{place}") for place, word in enumerate(words)]


def _argument(word, at):
    """A text, or a whole number, which stands for its decimal text."""
    if type(word) is int and not turned("numbers-as-arguments"):
        return str(word)
    return _text(word, at)


def _free_form(text, at):
    try:
        return split(text)
    except BadText:
        raise Fault(702, "BadShape", at=at) from None


def read_register(given, at, told):
    if "register" not in given:
        return None
    value = given["register"]
    reserved = () if turned("register-is-not-reserved") else RESERVED
    if not isinstance(value, str) or not re.fullmatch(NAME, value) or value in reserved:
        told.tell(Fault(702, "BadShape", at=f"{at}/register"))
    return value


def _read_condition(given, key, at, number, told):
    """A text, a truth value or a list of them. All shapes are looked at before any text is parsed; texts are parsed whatever stands beside them."""
    value = given.get(key)
    if value is None or value == []:
        return None
    here = f"{at}/{key}"
    if not isinstance(value, (str, bool, list)):
        told.tell(Fault(702, "BadShape", at=here))
        return None
    entries = list(enumerate(value if isinstance(value, list) else [value]))
    others = [(place, entry) for place, entry in entries if not isinstance(entry, (str, bool))]
    if turned("condition-shapes-first"):
        return [_entry(entry, f"{here}/{place}", key, number, told) for place, entry in entries]
    for place, _ in others[:1] if turned("each-shape-of-a-condition") else others:
        told.tell(Fault(702, "BadShape", at=f"{here}/{place}"))
    if others and turned("conditions-beside-other-shapes"):
        return None
    return [_entry(entry, here, key, number, told) for place, entry in entries if (place, entry) not in others]


def _entry(entry, at, key, number, told):
    if isinstance(entry, bool):
        return entry
    if not isinstance(entry, str):
        told.tell(Fault(702, "BadShape", at=at))
        return None
    try:
        return parse(entry)
    except CondFault as fault:
        told.tell(Fault(fault.number, fault.name, **number.details(), key=key, at=fault.at))
        return None


def read_ignore_errors(given, at, told):
    value = given.get("ignore_errors", False)
    if not isinstance(value, bool):
        told.tell(Fault(702, "BadShape", at=f"{at}/ignore_errors"))
    return value


def _read_notify(given, at, told):
    """The names of handlers, each a text; also beside what is none."""
    value = given.get("notify", [])
    if isinstance(value, str):
        return [value]
    if not isinstance(value, list):
        told.tell(Fault(702, "BadShape", at=f"{at}/notify"))
        return []
    others = [place for place, entry in enumerate(value) if not isinstance(entry, str)]
    for place in others[:1] if turned("each-shape-of-a-notification") else others:
        told.tell(Fault(702, "BadShape", at=f"{at}/notify/{place}"))
    return [entry for entry in value if isinstance(entry, str)]
