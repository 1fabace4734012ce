"""Rows of files in other codings and at the bounds, of limits that cross many times, and of a hundred faults and more."""

import json
from itertools import combinations

from rows import Row


def _row(what, faults, inventory=None, playbook=None, count=None, is_large=False):
    texts = {key: json.dumps(value).encode() for key, value in (("inventory", inventory), ("playbook", playbook)) if value is not None}
    return Row(what, faults=[(fault, list(helps)) for fault, *helps in faults], count=count, is_large=is_large, **texts)


def _chain(levels, name=lambda level: f"g{level}"):
    body = None
    for level in range(levels, 1, -1):
        body = {"children": {name(level): body}}
    return {"all": body}


def _play(tasks, **keys):
    return {"hosts": "web", "tasks": tasks, **keys}


TRUE = {"command": "true"}
DEEP, MANY = ("103 TooDeep", "32"), ("104 TooMany", "1024", "16384")


def _codings():
    mark, wide = ["byte order mark", r"sed -i '1s/^\xEF\xBB\xBF//' FILE"], ["UTF-16", "iconv"]
    for text in ('{"web": null}', "web:", "[web]", ""):
        yield Row("a byte order mark before an inventory", inventory=text.encode("utf-8-sig"), faults=[("201 NotJson", mark)])
        yield Row("a byte order mark before a playbook", playbook=text.encode("utf-8-sig"), faults=[("701 NotJson", mark)])
    for order in ("utf-16-le", "utf-16-be"):
        yield Row("an inventory in UTF-16", inventory='\ufeff{"web": null}'.encode(order), faults=[("201 NotJson", wide)])


def _breaks():
    """Texts whose lines end as those of Windows do, or go wrong far from their line's ends."""
    texts = (
        (b'{"web": null,\r\n}\r\n', "line 2, column 1: <here>}: remove the comma before it"),
        (b'{"web": {\r\n\r\n', 'line 1, column 10: {"web": {<here>: the file ends here; close what is open'),
        (b'["' + b"a" * 97 + b'", b' + b"c" * 97 + b"]", "line 1, column 103: " + "a" * 27 + '", <here>b' + "c" * 29),
        (b'\n\n["' + b"a" * 97 + b'" "' + b"b" * 97 + b'"]', "line 3, column 102: " + "a" * 28 + '" <here>"' + "b" * 29 + ": a comma or a colon is missing before it"),
        (b'{"web": "M\xfcller"}', 'line 1, column 11: {"web": "M<here>?ller"}'),
    )
    for text, told in texts:
        yield Row("an inventory that goes wrong", inventory=text, faults=[("201 NotJson", [told])])
        yield Row("a playbook that goes wrong", playbook=text, faults=[("701 NotJson", [told])])


def _inventories():
    yield _row("groups on 33 levels", [DEEP], _chain(33))
    yield _row("a name that stood before, 33 levels deep", [("102 TwicePlaced group=33", "g2"), DEEP], _chain(33, lambda level: "g2" if level == 33 else f"g{level}"))
    yield _row("1,025 groups", [MANY], {f"g{place}": None for place in range(1024)})
    yield _row("1,025 groups, 33 levels deep", [DEEP, MANY], {**_chain(33), **{f"t{place}": None for place in range(1000)}})
    yield _row("16,385 host rows", [MANY], {f"g{place}": {"hosts": {f"h{host}": None for host in range(count)}} for place, count in enumerate((4096, 4096, 4096, 4096, 1))}, is_large=True)
    crossing = {"vars": {"max_down": 0}, "hosts": {"h0": {"down": True}}}
    many = {"all": {"hosts": {f"h{place}": None for place in range(4097)}}, "p": crossing, "q": crossing}
    yield _row("4,097 hosts, of which alone it is told", [("303 TooManyHosts", "4096")], many, is_large=True)
    yield _row("a name of 256 letters", [(f"101 BadName name={'n' * 256}", "255")], {"n" * 256: None})
    yield _row("a limit that is a long text", [("204 BadLimit at=g/vars/max_down", "..", "65535")], {"g": {"vars": {"max_down": "9" * 5000}}})
    yield _row("a key that is a long text, with letters beyond ASCII", [(f"203 UnknownKey at=g/{'??' * 3000}", "vars")], {"g": {"\u00e9" * 3000: None}})
    names = [f"g{place}" for place in range(5)]
    crossed = {name: {"vars": {"max_down": 1}, "hosts": {"a": None, "b": None}} for name in names}
    yield _row("all ten pairs of five limits that cross", [(f"301 NotNested host=a first={one} second={other}", one, other) for one, other in combinations(names, 2)], crossed)
    names = [f"g{place:02}" for place in range(15)]
    pairs = [(f"301 NotNested host=a first={one} second={other}", one, other) for one, other in combinations(names, 2)]
    yield _row("105 pairs, of which a hundred are told", pairs, {name: {"vars": {"max_down": 1}, "hosts": {"a": None}} for name in names})
    for count in (99, 100, 101, 250):
        hosts = {f"h{place:03}": {"down": "no"} for place in range(count)}
        yield _row(f"{count} faults of an inventory", [(f"205 BadDown at=g/hosts/h{place:03}/down", "false") for place in range(count)], {"g": {"hosts": hosts}})


def _playbooks():
    steps = ("709 TooManySteps", "256")
    yield _row("17 plays, of which none is looked at", [("708 ManyPlays", "16")], playbook=[None] * 17)
    yield _row("257 steps, of which none is looked at", [steps], playbook=[_play([None] * 257)])
    yield _row("200 tasks and 57 handlers", [steps], playbook=[_play([TRUE] * 200, handlers=[None] * 57)])
    key = ("703 UnknownKey at=0/x", "keys")
    yield _row("257 steps, beside what else is wrong", [key, steps, ("702 BadShape at=1/tasks/0", "null")], playbook=[_play([None] * 257, x=1), _play([None])])
    sizes = [("706 BadSerial at=0/serial", "64"), ("706 BadSerial at=0/serial/64", "-1")]
    yield _row("65 sizes, of which the last is none", sizes, playbook=[_play([TRUE], serial=[1] * 64 + [-1])])
    yield _row("33 times not", [("503 TooDeep step=1 key=when at=128", "32")], playbook=[_play([{**TRUE, "when": "not " * 33 + "a"}])])
    longest = [("504 TooLong step=1 key=when at=4096", "4096"), ("504 TooLong step=1 key=when at=4096", "4096")]
    yield _row("texts of 4,097 bytes in a list", longest, playbook=[_play([{**TRUE, "when": ["n" * 4097, "n" * 4096, " " * 4096 + "n"]}])])
    words = [("602 BadBraces step=1", "<here>{{ a | b }}", "filter")]
    yield _row("a long word with bad braces", words, playbook=[_play([{"command": {"argv": ["x" * 500 + "{{ a | b }}" + "\u00e9" * 500]}}])])
    yield _row("a long name of a handler", [(f"704 NoSuchHandler name={'h' * 1000}", "handlers")], playbook=[_play([{**TRUE, "notify": "h" * 1000}])])
    yield _row("a long name in a pattern", [(f"304 NoSuchName name={'h' * 1000}", "name")], playbook=[{"hosts": "h" * 1000, "tasks": [TRUE]}])
    middle = [("501 BadToken step=1 key=when at=604", "<here>", "-gt")]
    yield _row("a long condition that goes wrong in its middle", middle, playbook=[_play([{**TRUE, "when": "a" * 603 + " > 1 or " + "c" * 600}])])
    for count in (100, 101, 256):
        told = [(f"501 BadToken step={place} key=when at=2", "-gt") for place in range(1, count + 1)]
        yield _row(f"{count} faults of a playbook", told, playbook=[_play([{**TRUE, "when": "a > 1"}] * count)])
    both = [(f"205 BadDown at=g/hosts/h{place:02}/down", "true") for place in range(60)] + [(f"702 BadShape at=0/tasks/{place}", "command") for place in range(60)]
    hosts = {f"h{place:02}": {"down": 1} for place in range(60)}
    yield _row("a hundred of both files, of 120", both, {"g": {"hosts": hosts}}, [_play([None] * 60)])
    names = [f"n{place}" for place in range(120)]
    yield _row("names of patterns, of 120", [(f"304 NoSuchName name={name}", "name") for name in names], playbook=[{"hosts": names, "tasks": [TRUE]}])


def bounds():
    return [*_codings(), *_breaks(), *_inventories(), *_playbooks()]
