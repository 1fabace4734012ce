"""Almost right inputs: a drawn value with one or two changes, and drawn bytes with a few wrong ones."""

from json_draw import Members, Raw

ODD = [
    None,
    True,
    False,
    0,
    1,
    -1,
    2,
    100,
    101,
    255,
    65_535,
    65_536,
    2**63 - 1,
    -(2**63),
    Raw(b"9223372036854775808"),
    Raw(b"-9223372036854775809"),
    Raw(b"18446744073709551616"),
    Raw(b"-0"),
    Raw(b"0.0"),
    Raw(b"1.0"),
    Raw(b"1e2"),
    Raw(b"1e999"),
    Raw(b"0e999"),
    Raw(b"01"),
    Raw(b"1."),
    Raw(b"-"),
    Raw(b"NaN"),
    Raw(b"nul"),
    Raw(b'"\\ud800"'),
    Raw(b'"\\udc00x"'),
    Raw(b'"\\ud800\\u0041"'),
    Raw(b'"\\ud83d\\ude00"'),
    Raw(b'"\\u0000"'),
    Raw(b'"\\x"'),
    Raw(b'"a\tb"'),
    Raw(b'"\xff"'),
    Raw(b'"\xc3\xa9"'),
    "",
    " ",
    "0",
    "00",
    "3",
    "007",
    "00003",
    "000003",
    "65535",
    "65536",
    "-1",
    "+1",
    "1.0",
    "0%",
    "00%",
    "33%",
    "007%",
    "0007%",
    "100%",
    "101%",
    "-1%",
    "%",
    "50 %",
    "\u0663%",
    "true",
    "True",
    "stop",
    "hold",
    "a",
    "all",
    "caf\u00e9",
    "www[01:50]",
    "a\nb",
    " ~\x7f",
    [],
    [[]],
    [None],
    [1],
    ["a"],
    [True, "true"],
    Members(),
    Members([("x", 1)]),
    Members([("argv", ["true"])]),
    Members([("cmd", "true")]),
]
TELLING = {"down", "max_down", "serial", "max_fail_percentage", "when", "name", "register", "notify", "handlers", "tasks", "vars", "hosts"}
KEYS = [
    "x", "", "hosts", "children", "vars", "max_down", "down", "all", "name", "when", "notify", "tasks", "serial", "Hosts", "a",
    "zz", "\u00e9", "A B",
]


def mutate(value, random):
    """The same value with one to three changes, anywhere in it, or two to four in one object."""
    if random.random() < 0.45:
        paths = [path for path in _places(value, ()) if isinstance(_part(value, path), Members)]
        if paths:
            return _rebuilt(value, random.choice(paths), lambda part: _much_changed(part, random))
    for _ in range(random.choice([1, 1, 1, 2, 2, 3])):
        path = random.choice(list(_places(value, ())))
        value = _rebuilt(value, path, lambda part: _changed(part, random))
    return value


def _much_changed(pairs, random):
    for _ in range(random.choice([2, 2, 3, 4])):
        pairs = _changed_members(pairs, random)
    return pairs


def _part(value, path):
    """The part at a path."""
    for place in path:
        value = value[place][1] if isinstance(value, Members) else value[place]
    return value


def _places(value, path):
    """The paths of all parts of a value."""
    yield path
    if isinstance(value, Members):
        for place, (_, part) in enumerate(value):
            yield from _places(part, (*path, place))
    elif isinstance(value, list):
        for place, part in enumerate(value):
            yield from _places(part, (*path, place))


def _rebuilt(value, path, change):
    if not path:
        return change(value)
    first, rest = path[0], path[1:]
    if isinstance(value, Members):
        return Members((key, _rebuilt(part, rest, change) if place == first else part) for place, (key, part) in enumerate(value))
    return [_rebuilt(part, rest, change) if place == first else part for place, part in enumerate(value)]


def _changed(part, random):
    if isinstance(part, Members) and random.random() < 0.8:
        return _changed_members(part, random)
    if isinstance(part, list) and not isinstance(part, Members) and random.random() < 0.6:
        return _changed_list(part, random)
    if isinstance(part, str) and random.random() < 0.4:
        return _changed_text(part, random)
    return random.choice(ODD)


def _changed_members(pairs, random):
    pairs = Members(pairs)
    kind = random.choice(["add", "drop", "rename", "twice", "odd", "odd"])
    if kind == "add" or not pairs:
        pairs.insert(random.randint(0, len(pairs)), (random.choice(KEYS), random.choice(ODD)))
        return pairs
    telling = [place for place, (key, _) in enumerate(pairs) if key in TELLING]
    place = random.choice(telling) if telling and random.random() < 0.5 else random.randrange(len(pairs))
    key, part = pairs[place]
    if kind == "drop":
        del pairs[place]
    elif kind == "rename":
        pairs[place] = (random.choice(KEYS), part)
    elif kind == "twice":
        pairs.insert(random.randint(0, len(pairs)), (key, random.choice([part, random.choice(ODD)])))
    else:
        pairs[place] = (key, random.choice(ODD))
    return pairs


def _changed_list(entries, random):
    entries = list(entries)
    kind = random.choice(["add", "drop", "twice", "odd"])
    if kind == "add" or not entries:
        entries.insert(random.randint(0, len(entries)), random.choice(ODD))
        return entries
    place = random.randrange(len(entries))
    if kind == "drop":
        del entries[place]
    elif kind == "twice":
        entries.insert(random.randint(0, len(entries)), entries[place])
    else:
        entries[place] = random.choice(ODD)
    return entries


def _changed_text(text, random):
    if "kill" in text:
        # Another number behind it would be another process.
        return text
    at = random.randint(0, len(text))
    return text[:at] + random.choice([" ", "'", '"', "\\", "{{", "}}", "{%", ":", ",", ".", "\u00e9", "\v", "x", "\n", "0"]) + text[at:]


def spoil(text, random):
    """Bytes that are cut off, or have a few wrong bytes, or something before or behind them."""
    kind = random.choice(["cut", "byte", "byte", "insert", "drop", "before", "behind"])
    at = random.randint(0, max(0, len(text) - 1))
    if kind == "cut":
        return text[:at]
    if kind == "byte":
        return text[:at] + bytes([random.choice(b'\x00\x1f "{}[]:,\\/0x\x7f\x80\xc3\xff')]) + text[at + 1 :]
    if kind == "insert":
        return text[:at] + random.choice([b",", b" ", b"\v", b"\f", b"\xef\xbb\xbf", b"//", b"\x00", b"null", b"\\u", b"\xe2\x82"]) + text[at:]
    if kind == "drop":
        return text[:at] + text[at + 1 :]
    if kind == "before":
        return random.choice([b"\xef\xbb\xbf", b"\v", b" ", b"\n\t", b"\xff\xfe", b","]) + text
    return text + random.choice([b" ", b"\n", b"\x00", b"\f", b"x", b",", b"{}", b"\v"])
