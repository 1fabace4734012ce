"""Faults: what refuses an input, and the one line that tells it; and who is told of them, the first alone or each."""

from rules import turned


class Fault(Exception):
    """A fault with its number, its name and its details in the order in which they are printed."""

    def __init__(self, number, name, /, **details):
        super().__init__(number)
        self.number = number
        self.name = name
        self.details = details

    def line(self):
        """The line on standard error."""
        return f"rollout: {self.words()}\n"

    def words(self):
        """Number, name and details, each after one space."""
        parts = [str(self.number), self.name]
        parts += [f"{key}={shown(value)}" for key, value in self.details.items()]
        return " ".join(parts)


class First:
    """Who is told of one fault: reading ends with it."""

    found = ()

    def tell(self, fault):
        raise fault


class Every:
    """Who is told of all faults, in their order: reading goes on."""

    def __init__(self):
        self.found = []

    def tell(self, fault):
        self.found.append(fault)


FIRST = First()


def shown(value):
    """A detail as it is printed: each byte outside 0x20 to 0x7e is a question mark."""
    if isinstance(value, int):
        return str(value)
    if turned("details-byte-by-byte") and isinstance(value, str):
        return "".join(sign if " " <= sign <= "~" else "?" for sign in value)
    raw = value.encode() if isinstance(value, str) else value
    last = 0x7F if turned("details-last-printable") else 0x7E
    return "".join(chr(byte) if 0x20 <= byte <= last else "?" for byte in raw)


def by_bytes(name):
    """The key by which names are ordered: their bytes in UTF-8."""
    return name.encode()
