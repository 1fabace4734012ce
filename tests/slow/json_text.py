"""The reading of JSON, written anew: what is JSON, what a number is, and what a repeated key means.

A value is None, a bool, a str, an int (a whole number that fits 64 signed bits), a float (any other number), a list or a dict; an object whose keys are asked for is Pairs.
"""

import re

from rules import turned

DEEPEST = 127
NUMBER = re.compile(rb"-?(?:0|[1-9][0-9]*)(?P<rest>(?:\.[0-9]+)?(?:[eE][+-]?[0-9]+)?)")
PLAIN = re.compile(rb'[^"\\\x00-\x1f]*')
ESCAPES = {b"n": "\n", b"t": "\t", b"r": "\r", b"b": "\b", b"f": "\f", b"/": "/", b"\\": "\\", b'"': '"'}
WORDS = {b"null": None, b"true": True, b"false": False}


class NotJson(Exception):
    """The bytes are no JSON text."""


class Pairs(list):
    """An object as its keys and values in their order, so that a key may stand twice."""


def read_json(text):
    """The value of a whole text; NotJson where it isn't one."""
    return _read(_Reader(text), text)


def read_pairs(text):
    """The same with each object as all of its members."""
    return _read(_PairsReader(text), text)


def _read(reader, text):
    value = reader.value(0)
    reader.blanks()
    if reader.at < len(text) and not turned("json-nothing-behind"):
        raise NotJson
    return value


class _Reader:
    def __init__(self, text):
        self.text = text
        self.at = 0

    def blanks(self):
        blanks = b" \t\n\r\v\f" if turned("json-blanks") else b" \t\n\r"
        while self.at < len(self.text) and self.text[self.at] in blanks:
            self.at += 1

    def sign(self, sign):
        """Whether the next byte behind blanks is this one; it is passed over then."""
        self.blanks()
        found = self.text[self.at : self.at + 1] == sign
        self.at += found
        return found

    def value(self, depth):
        self.blanks()
        first = self.text[self.at : self.at + 1]
        if first in (b"{", b"["):
            if depth >= DEEPEST + turned("json-depth"):
                raise NotJson
            self.at += 1
            return self.members(depth + 1) if first == b"{" else self.entries(depth + 1)
        if first == b'"':
            self.at += 1
            return self.string()
        for word, value in WORDS.items():
            if self.text.startswith(word, self.at):
                self.at += len(word)
                return value
        return self.number()

    def entries(self, depth):
        found = []
        if self.sign(b"]"):
            return found
        while True:
            found.append(self.value(depth))
            if self.sign(b"]"):
                return found
            if not self.sign(b","):
                raise NotJson

    def members(self, depth):
        pairs = Pairs()
        if self.sign(b"}"):
            return self.object(pairs)
        while True:
            if not self.sign(b'"'):
                raise NotJson
            key = self.string()
            if not self.sign(b":"):
                raise NotJson
            pairs.append((key, self.value(depth)))
            if self.sign(b"}"):
                return self.object(pairs)
            if not self.sign(b","):
                raise NotJson

    def object(self, pairs):
        """Of a key that stands twice the last value counts."""
        found = {}
        for key, value in pairs:
            if not (turned("json-last-key-stays") and key in found):
                found[key] = value
        return found

    def number(self):
        found = NUMBER.match(self.text, self.at)
        if not found:
            raise NotJson
        self.at = found.end()
        written = found[0].decode()
        if found["rest"]:
            return self.real(written)
        whole = int(written)
        if written == "-0" and not turned("json-minus-nought"):
            return -0.0
        return whole if -(2**63) <= whole < 2**63 else self.real(written)

    def real(self, written):
        return _real(written)

    def string(self):
        """The text up to the closing quote; the opening one has been passed over."""
        raw = b""
        while True:
            plain = PLAIN.match(self.text, self.at)
            raw += plain[0]
            self.at = plain.end() + 1
            byte = self.text[plain.end() : self.at]
            if byte == b"":
                raise NotJson
            if byte == b'"':
                return _utf8(raw)
            if byte == b"\\":
                raw += self.escape()
            elif turned("json-control-characters"):
                raw += byte
            else:
                raise NotJson

    def escape(self):
        kind = self.text[self.at : self.at + 1]
        self.at += 1
        if kind in ESCAPES:
            return ESCAPES[kind].encode()
        if kind != b"u":
            raise NotJson
        unit = self.hex()
        if 0xD800 <= unit < 0xDC00 and self.text.startswith(b"\\u", self.at):
            self.at += 2
            low = self.hex()
            if 0xDC00 <= low < 0xE000:
                return chr(0x10000 + ((unit - 0xD800) << 10) + (low - 0xDC00)).encode()
            raise NotJson
        if 0xD800 <= unit < 0xE000:
            if turned("json-lone-surrogates"):
                return b"?"
            raise NotJson
        return chr(unit).encode()

    def hex(self):
        digits = self.text[self.at : self.at + 4]
        self.at += 4
        if not re.fullmatch(rb"[0-9a-fA-F]{4}", digits):
            raise NotJson
        return int(digits, 16)


class _PairsReader(_Reader):
    """Where only keys are asked for a number may be of any size."""

    def object(self, pairs):
        return pairs

    def real(self, written):
        return float(written)


def _real(written):
    """A number that isn't whole; one past the largest float is no JSON."""
    value = float(written)
    if value in (float("inf"), float("-inf")) and not turned("json-largest-number"):
        raise NotJson
    if turned("json-whole-as-written") and value == int(value if abs(value) < 1e300 else 0) and abs(value) < 2**63:
        return int(value)
    return value


def _utf8(raw):
    try:
        return raw.decode()
    except UnicodeDecodeError:
        if turned("json-utf8"):
            return raw.decode(errors="replace")
        raise NotJson from None
