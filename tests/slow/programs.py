"""The programs of drawn playbooks, each with the outcome that it is known to have. Nothing is started here.

A script of `sh -c` is a few simple commands behind each other; `shells.py` starts all programs of a seed and looks whether this is right.
"""

import re

from results import Outcome
from rules import turned

KEPT = 65_536
PLAIN = "[A-Za-z0-9_.,@%+/-]"
# What can't be started, and what the system says of it.
ABSENT = {name: "No such file or directory (os error 2)" for name in ("", "/no/such/program", "no-such-program")}
ABSENT |= {name: "Permission denied (os error 13)" for name in ("/dev/null", "/")}
NUL = "nul byte found in provided data"


class Unmodelled(Exception):
    """A program whose outcome isn't known here."""


def outcome(words):
    """How a program ends that is started with these words."""
    if any("\0" in word for word in words):
        return Outcome("not-started", why=NUL)
    if words[0] in ABSENT:
        return Outcome("not-started", why=ABSENT[words[0]])
    name, arguments = words[0].removeprefix("/bin/"), words[1:]
    if any(word in ("--help", "--version") for word in arguments):
        raise Unmodelled(words)
    if name == "sh":
        if len(arguments) != 2 or arguments[0] != "-c":
            raise Unmodelled(words)
        return _ended(*script(arguments[1]))
    if name not in _COMMANDS:
        raise Unmodelled(words)
    rc, printed = _COMMANDS[name](arguments)
    return _ended(rc, printed, b"")


def _ended(rc, out, errors):
    """An outcome as it is kept: so many bytes of each output, as text, without the ends of lines behind them."""
    signal = -rc if rc < 0 else None
    return Outcome("ran", -1 if rc < 0 and not turned("signals-are-minus-one") else rc, _kept(out), _kept(errors), signal)


def _kept(raw):
    raw = raw[: KEPT * 2] if turned("outputs-are-cut") else raw[:KEPT]
    text = raw.decode(errors="ignore" if turned("replacement-characters") else "replace")
    if turned("line-ends-are-cut"):
        return text
    return text.removesuffix("\n") if turned("all-line-ends-are-cut") else text.rstrip("\r\n")


def script(text):
    """The return code and both outputs of a shell script; the code is -9 where a signal ended it."""
    rc, outputs = 0, {"": b"", ">&2": b""}
    for sign, command in re.findall(r"(;|&&|\|\||^)\s*((?:'[^']*'|[^;&|']|(?<=>)&|\|(?!\|))+)", text.strip()):
        if (sign == "&&" and rc != 0) or (sign == "||" and rc == 0):
            continue
        command, where = re.fullmatch(r"(.*?)\s*(>&2)?\s*", command, re.S).groups()
        if command == "kill -9 $$":
            return -9, outputs[""], outputs[">&2"]
        found = re.fullmatch("exit ([0-9]+)", command)
        if found:
            return int(found[1]), outputs[""], outputs[">&2"]
        rc, printed = _simple(command)
        outputs[where or ""] += printed
    return rc, outputs[""], outputs[">&2"]


def _simple(command):
    """The return code and what is printed by one command of a script."""
    many = re.fullmatch(r"head -c ([0-9]+) /dev/zero \| tr '\\000' ([a-z])", command)
    if many:
        return 0, many[2].encode() * int(many[1])
    if not re.fullmatch(rf"(?:{PLAIN}+|:|!?=|'[^'{{}}]*')(?: (?:{PLAIN}+|!?=|'[^'{{}}]*'))*", command):
        raise Unmodelled(command)
    name, *arguments = [word.strip("'") for word in re.findall(r"'[^']*'|[^ ]+", command)]
    if name not in _COMMANDS:
        raise Unmodelled(command)
    return _COMMANDS[name](arguments)


def _echo(words):
    if words and re.fullmatch("-[neE]+", words[0]) or any("\\" in word for word in words):
        raise Unmodelled(words)
    return 0, " ".join(words).encode() + b"\n"


def _printf(words):
    """One text without `%`, in which some letters behind a backslash, and octal numbers, stand for a byte."""
    if len(words) != 1 or "%" in words[0] or words[0].startswith("-"):
        raise Unmodelled(words)
    ends = {b"n": b"\n", b"r": b"\r", b"t": b"\t"}
    printed = re.sub(rb"\\([nrt]|[0-7]{3})", lambda found: ends.get(found[1]) or bytes([int(found[1], 8)]), words[0].encode())
    if b"\\" in printed:
        raise Unmodelled(words)
    return 0, printed


def _test(words):
    if len(words) != 3 or words[1] not in ("=", "!=") or any(word[:1] in ("-", "(", "!") for word in words[::2]):
        raise Unmodelled(words)
    return int((words[0] == words[2]) != (words[1] == "=")), b""


def _sleep(words):
    if len(words) != 1 or not re.fullmatch(r"0\.[0-9]+", words[0]):
        raise Unmodelled(words)
    return 0, b""


_COMMANDS = {
    "true": lambda words: (0, b""),
    ":": lambda words: (0, b""),
    "false": lambda words: (1, b""),
    "echo": _echo,
    "printf": _printf,
    "test": _test,
    "sleep": _sleep,
}
