"""Inventories and playbooks that were changed between two runs: as an operator does, or by a blank alone."""

import json

SIZES = [1, 2, 3, "50%", [1, 2]]


def change_inventory(random, text):
    """The inventory with another limit, one on all, with a host more, less, down or up, or with a line feed behind it."""
    value = json.loads(text)
    groups = [body for body in _groups(value) if isinstance(body, dict)]
    hosts = [body["hosts"] for body in groups if body.get("hosts")]
    kind = random.choice(["text", "limit", "all", "all", "more", "less", "down"])
    if kind == "all":
        value["all"] = value.get("all") or {}
        _part(value["all"], "vars")["max_down"] = random.choice([0, 0, 1, 2])
    elif kind == "limit" and groups:
        _part(random.choice(groups), "vars")["max_down"] = random.choice([0, 0, 1, 1, 2, 3, "50%"])
    elif kind == "more" and groups:
        _part(random.choice(groups), "hosts")[random.choice(["new", "a", "b"])] = random.choice([None, None, {"down": True}])
    elif hosts and kind in ("less", "down"):
        of = random.choice(hosts)
        name = random.choice(list(of))
        if kind == "less":
            del of[name]
        else:
            of[name] = random.choice([None, {"down": True}])
    else:
        return text + b"\n"
    return json.dumps(value).encode()


def _groups(value):
    """The bodies of all groups."""
    for body in value.values():
        yield body
        if isinstance(body, dict):
            yield from _groups(body.get("children") or {})


def _part(body, key):
    """What a group has there, made where it has nothing."""
    if not body.get(key):
        body[key] = {}
    return body[key]


def change_playbook(random, text):
    """The playbook with other settings of a play, without its last play, with one play more, or with a line feed behind it. One that has fewer plays, or more, is refused: the journal's first
    line says how many there are."""
    value = json.loads(text)
    kind = random.choice(["text", "fewer", "more", "serial", "serial", "hold", "hold", "hosts", "hosts", "tasks", "tasks"])
    play = random.choice(value)
    if kind == "fewer" and len(value) > 1:
        del value[-1]
    elif kind == "more":
        value.append(value[-1])
    elif kind == "serial":
        play["serial"] = random.choice(SIZES)
    elif kind == "hold":
        play["on_blocked"] = random.choice(["hold", "stop"])
    elif kind == "hosts":
        play["hosts"] = "all"
    elif kind == "tasks":
        play["tasks"] = [{"command": random.choice(["true", "true", "false"])}]
    else:
        return text + b"\n"
    return json.dumps(value).encode()
