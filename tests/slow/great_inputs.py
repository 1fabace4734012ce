"""The greatest inputs, each in any size, as cases of the slow program."""

import json

from cases import INVENTORY, PLAYBOOK, Case

WORD = 4_000
SESSION = 16_777_216


def plan(inventory, playbook):
    """The case of a plan."""
    return Case(("plan", INVENTORY, PLAYBOOK), json.dumps(inventory).encode(), json.dumps(playbook).encode())


def limits_of(case):
    """The case of the table of the same inventory."""
    return Case(("limits", INVENTORY), case.inventory, case.playbook)


def play(*steps, **keys):
    """A playbook of one play on all hosts."""
    return [{"hosts": "all", **keys, "tasks": list(steps) or [{"command": "true"}]}]


def hosts(count):
    """So many hosts without variables."""
    return {f"h{number}": None for number in range(count)}


def nobody(_=0):
    """The smallest plan."""
    return plan({"all": {}}, play())


def one_by_one(count):
    """So many hosts, and as many batches."""
    return plan({"all": {"hosts": hosts(count)}}, play(serial=1))


def set_aside(count):
    """So many hosts that wait in a group without room."""
    full = {"vars": {"max_down": 1}, "hosts": {**hosts(count), "x": {"down": True}}}
    return plan({"full": full, "free": {"hosts": {"y": None}}}, play(on_blocked="hold"))


def nine_levels(count):
    """So many groups in nine levels, each limited, and two hosts in each of the lowest: each host has nine limited groups."""
    groups = [{} for _ in range(count)]
    for number in range(1, count):
        # Two below each of the first 127, which fill eight levels with `all`; all others below those of the eighth.
        above = (number - 1) // 2 if number < 255 else 127 + number % 128
        groups[above].setdefault("children", {})[f"g{number}"] = groups[number]
    for number, group in enumerate(groups):
        group["vars"] = {"max_down": count}
        if number >= 255:
            group["hosts"] = {f"h{number}": None, f"i{number}": None}
    return plan({"all": groups[0]}, play())


def long_words(count, signs="}} "):
    """So many steps with a word of 4,000 bytes of these signs."""
    return _words(count, (signs * WORD)[: WORD // len(signs) * len(signs)], 1)


def short_words(count, signs="}} "):
    """The same signs in words of some 40 bytes, a hundred in each step."""
    return _words(count, signs * (40 // len(signs)), WORD // 40)


def _words(steps, word, times):
    return plan({"all": {"hosts": hosts(1)}}, play(*[{"command": {"argv": [word] * times}}] * steps))


def wrong_braces(count):
    """A word of so many bytes in which the first opening braces are wrong."""
    return plan({"all": {"hosts": hosts(1)}}, play({"command": {"argv": [("}} {{ {{ " * count)[:count]]}}))


def open_braces(count):
    """A free-form text of so many bytes whose braces never close."""
    return plan({"all": {"hosts": hosts(1)}}, play({"command": ("echo " + "{{ " * count)[:count]}))


def slash_behind():
    """A file's name with a slash behind it."""
    return Case(("limits", f"{INVENTORY}/"), b'{"all":{}}')


def long_session(more):
    """As many bytes of commands as a rehearsal reads, and so many more."""
    line = b"show" + b" " * 65_000 + b"\n"
    typed = line * (SESSION // len(line))
    typed += b" " * (SESSION + more - len(typed) - 1) + b"\n"
    return Case(("rehearse", INVENTORY, PLAYBOOK), b'{"all":{"hosts":{"a":null}}}', json.dumps(play()).encode(), typed)


def long_session_in_a_long_line():
    """Commands whose last line is too long by the very byte that is one too many of a session."""
    case = long_session(0)
    line = b"show" + b" " * 65_000 + b"\n"
    typed = line * ((SESSION - 65_536) // len(line))
    return Case(case.words, case.inventory, case.playbook, typed + b"\n" * (SESSION - 65_536 - len(typed)) + b"x" * 65_537)


def many_advances(count):
    """So many batches advanced, and undone again."""
    case = one_by_one(count)
    return Case(("rehearse", INVENTORY, PLAYBOOK), case.inventory, case.playbook, b"advance\n" * count + b"undo\n" * (count + 1))


def long_course(count):
    """A course of so many batches."""
    case = one_by_one(count)
    return Case((*case.words, "--forecast"), case.inventory, case.playbook)


def with_groups(case):
    """The same plan or course, with its groups."""
    return Case((*case.words, "--groups"), case.inventory, case.playbook)


def many_racks(count):
    """So many racks of four hosts, each limited, in batches of 64."""
    racks = {f"r{rack}": {"vars": {"max_down": 1}, "hosts": {f"r{rack}-{host}": None for host in "abcd"}} for rack in range(count)}
    return plan({"all": {"vars": {"max_down": 2_000}, "children": racks}}, play(serial=64))
