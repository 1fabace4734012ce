"""The tokens of a condition, cut one after the other, so that a bad one behind an unexpected one isn't reached."""

import re

from rules import turned

NAME = re.compile(rb"[A-Za-z_][A-Za-z0-9_]*")
NUMBER = re.compile(rb"-?[0-9]+")
SIGNS = (b"==", b"!=", b".", b"(", b")")
BLANKS = b" \t\n\r"


class BadToken(Exception):
    """No token begins at this byte place."""

    def __init__(self, at):
        super().__init__(at)
        self.at = at


def next_token(text, at):
    """The token at a byte place or behind the blanks there, as (kind, value, place, end).

    The kinds are name, number, text, sign and end; an end stands at the length of the text.
    """
    blanks = BLANKS + b"\v\f" if turned("condition-blanks") else BLANKS
    while at < len(text) and text[at] in blanks:
        at += 1
    if at == len(text):
        return "end", None, at, at
    found = NAME.match(text, at)
    if found:
        return "name", found[0].decode(), at, found.end()
    found = NUMBER.match(text, at)
    if found:
        return "number", _whole(found[0], at), at, found.end()
    if text[at] in b"'\"":
        return "text", *_quoted(text, at)
    for sign in SIGNS:
        if text.startswith(sign, at):
            return "sign", sign.decode(), at, at + len(sign)
    raise BadToken(at)


def _whole(digits, at):
    """A number of 64 signed bits; leading zeros don't count."""
    value = int(digits)
    if not -(2**63) <= value < 2**63 and not turned("condition-numbers-fit"):
        raise BadToken(at)
    return value


def _quoted(text, at):
    """A text between two quotes of one kind. One with a backslash, or without an end, is bad at its opening quote."""
    end = text.find(text[at : at + 1], at + 1)
    if end < 0:
        raise BadToken(len(text) if turned("text-without-end-at-its-quote") else at)
    backslash = text.find(b"\\", at, end)
    if backslash >= 0 and not turned("backslash-in-text"):
        raise BadToken(backslash if turned("backslash-at-the-quote") else at)
    return text[at + 1 : end].decode(), at, end + 1
