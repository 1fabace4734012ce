"""The words of a command: how free-form text is cut, which braces are right, and what a word says for a host."""

import re
from dataclasses import dataclass

from rules import turned

LONGEST = 65_536
BLANKS = " \t\n\r"
RESERVED = {"not", "and", "or", "is", "in", "true", "false", "True", "False", "group_names", "inventory_hostname"}
FIELDS = ("rc", "stdout", "stderr", "changed", "failed", "skipped")
NOT_PASSED_ON = ("creates=", "removes=", "chdir=", "stdin=")
NAME = "[A-Za-z_][A-Za-z0-9_]*"
SIGN = re.compile(r"\{\{|\}\}|\{%|\{#")
HOLE = re.compile(rf"\{{\{{[ \t\n\r]*(?P<name>{NAME})(?:[ \t\n\r]*\.[ \t\n\r]*(?P<field>{NAME}))?[ \t\n\r]*\}}\}}")


@dataclass(frozen=True)
class Ref:
    """What a hole or an operand names: a name, or a field of a registered result."""

    name: str
    field: str | None = None


class BadBraces(Exception):
    """Braces that begin no hole."""


class BadText(Exception):
    """Free-form text with a quote, a backslash, no word, or a word that is a parameter."""


def split(text):
    """The words of free-form text: cut at blanks, save between `{{` and the next `}}`."""
    if any(sign in text for sign in "'\"\\"):
        raise BadText
    words, word, at = [], "", 0
    last = text.rfind("}}")
    while at < len(text):
        opens = text.startswith("{{", at) and at + 2 <= last
        end = text.find("}}", at + 2) if opens and not turned("split-not-in-braces") else -1
        if end >= 0:
            word += text[at : end + 2]
            at = end + 2
            continue
        if text.startswith("{{", at) and turned("split-behind-open-braces"):
            word += text[at:]
            break
        if text[at] in BLANKS:
            words.append(word)
            word = ""
        else:
            word += text[at]
        at += 1
    words = [found for found in [*words, word] if found]
    kept = words[1:] if turned("parameters-as-first-word") else words
    if not words or any(found.startswith(NOT_PASSED_ON) for found in kept):
        raise BadText
    return words


def parts(word):
    """A word as plain texts and refs; BadBraces where `{{` isn't followed by a ref and `}}`, and at `{%` and `{#`."""
    found, plain, at = [], "", 0
    for sign in iter(lambda: SIGN.search(word, at), None):
        plain += word[at : sign.start()]
        at = sign.end()
        if sign[0] == "{{":
            found += [plain, _ref(word, sign.start())]
            plain, at = "", HOLE.match(word, sign.start()).end()
        elif sign[0] == "}}":
            if turned("lone-closing-braces"):
                raise BadBraces
            plain += sign[0]
        elif turned("statements-in-braces"):
            plain += sign[0]
        else:
            raise BadBraces
    return [part for part in [*found, plain + word[at:]] if part != ""]


def _ref(word, at):
    """The ref between the braces that open at a place."""
    hole = HOLE.match(word, at)
    if not hole or not is_ref(hole["name"], hole["field"]):
        raise BadBraces
    if turned("blanks-round-a-dot") and hole["field"] and not re.search(rf"{NAME}\.{NAME}", hole[0]):
        raise BadBraces
    return Ref(hole["name"], hole["field"])


def is_ref(name, field):
    """Whether this is a ref: a name that isn't reserved, that of the host, or a field of a name."""
    if name == "inventory_hostname":
        return field is None
    return name not in RESERVED and (field is None or field in FIELDS)


class Undefined(Exception):
    """A name that has no value was evaluated; of a field it is the name before the dot."""

    def __init__(self, name):
        super().__init__(name)
        self.name = name


class TooLong(Exception):
    """A word that is longer than words may be."""


def render(word, host):
    """What a word says for a host. A name without a value goes before the length."""
    text = "".join(part if isinstance(part, str) else _shown(part.name, host.value(part)) for part in parts(word))
    if turned("replaced-text-is-not-read-again") and "{{" in text and text != word:
        return render(text, host)
    if len(text.encode()) > LONGEST - turned("word-longest"):
        raise TooLong
    return text


def _shown(name, value):
    """A text as it is, a number in decimal, a truth value as True or False; a whole result, which has this name, has no text."""
    if isinstance(value, bool):
        return str(value).lower() if turned("truth-values-in-words") else str(value)
    if isinstance(value, (str, int)):
        return str(value)
    if turned("whole-results-in-words"):
        return value.stdout
    raise Undefined(name)
