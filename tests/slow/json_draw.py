"""Drawn JSON: a value that may hold what no dict can (a key twice, a number as it is written), and its bytes in many ways of writing."""

from dataclasses import dataclass


class Members(list):
    """An object as its list of pairs, so that a key may stand twice."""

    def names(self):
        return [key for key, _ in self]


@dataclass
class Raw:
    """Bytes that stand for a value as they are."""

    text: bytes


def write(value, random):
    """The bytes of a value: mostly plain, sometimes with blanks, shuffled members and escaped letters."""
    writer = _Writer(random, loose=random.random() < 0.3)
    return writer.blanks() + writer.value(value) + writer.blanks()


class _Writer:
    def __init__(self, random, loose):
        self.random = random
        self.loose = loose

    def blanks(self):
        if not self.loose or self.random.random() < 0.7:
            return b""
        return bytes(self.random.choice(b" \t\n\r") for _ in range(self.random.randint(1, 3)))

    def value(self, value):
        if isinstance(value, Raw):
            return value.text
        if value is None or isinstance(value, bool):
            return {None: b"null", True: b"true", False: b"false"}[value]
        if isinstance(value, str):
            return self.text(value)
        if isinstance(value, (int, float)):
            return str(value).encode()
        if isinstance(value, Members):
            return self.members(value)
        return self.around(b"[", [self.value(entry) for entry in value], b"]")

    def members(self, pairs):
        pairs = list(pairs)
        distinct = len({key for key, _ in pairs}) == len(pairs)
        if self.loose and distinct:
            self.random.shuffle(pairs)
        written = [self.text(key) + self.blanks() + b":" + self.blanks() + self.value(value) for key, value in pairs]
        return self.around(b"{", written, b"}")

    def around(self, first, written, last):
        between = [self.blanks() + entry + self.blanks() for entry in written]
        return first + (b",".join(between) or self.blanks()) + last

    def text(self, text):
        if len(text) > 1_000 and text.isalnum():
            return b'"' + text.encode() + b'"'
        return b'"' + b"".join(self.letter(letter) for letter in text) + b'"'

    def letter(self, letter):
        escaped = {'"': b'\\"', "\\": b"\\\\", "\n": b"\\n", "\t": b"\\t", "\r": b"\\r"}.get(letter)
        if escaped:
            return escaped
        if letter < " " or (self.loose and self.random.random() < 0.02):
            return b"".join(b"\\u%04x" % int.from_bytes(pair, "big") for pair in _units(letter))
        return letter.encode()


def _units(letter):
    raw = letter.encode("utf-16-be")
    return [raw[place : place + 2] for place in range(0, len(raw), 2)]
