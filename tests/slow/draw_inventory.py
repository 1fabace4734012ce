"""Drawn inventories: small trees of groups with hosts, limits and variables, and now and then the greatest that are accepted."""

from dataclasses import dataclass

from json_draw import Members, Raw, write
from mutate import mutate, spoil

GROUPS = ["r1", "r2", "eu", "us", "web", "db", "g", "a", "Z", "r10", "_x", "g-1"]
HOSTS = ["a", "b", "c", "d", "e", "f", "h0", "h1", "h10", "h2", "A", "a.b", "a-b", "web", "db", "r1", "g"]
NAMES = ["v", "w", "tier", "flag", "x", "_n", "r", "max_down", "inventory_hostname", "a b", "down"]
DENSE = ["v", "v", "v", "v", "v", "w", "w", "w", "flag", "tier", "inventory_hostname"]
VALUES_OF_DENSE = [1, 1, "1", "a", True, 0, 2, -1, "", "out", "{{ q }}", "True", 1.5, None]
WRONG_LIMITS = [
    None, -1, 65_536, Raw(b"-0"), Raw(b"1.0"), "1", "", "101%", "0007%", "0100%", "200%", "-1%", " 5%", "%", True, [],
    Raw(b"9223372036854775808"),
]
VALUES = [
    "", "a", "1", "True", "true", "b c", "{{ v }}", "caf\u00e9", 0, 1, -1, 7, 2**63 - 1, True, False, None, 1.5, [], [1],
    Members([("k", 1)]), Raw(b"-0"), Raw(b"1.0"),
]
SHARES = ["0%", "33%", "34%", "50%", "66%", "67%", "99%", "100%", "007%", "07%"]


def draw_inventory(random):
    """The bytes of an inventory: most are right or almost right, some are changed, spoiled or among the greatest."""
    kind = random.random()
    if kind < 0.035:
        return write(_greatest(random), random)
    value = draw_right(random, crossing=0.1, wrong=random.choice([0, 0, 0, 0.03, 0.2]))
    if kind < 0.65:
        return write(value, random)
    if kind < 0.93:
        return write(mutate(value, random), random)
    return spoil(write(value, random), random)


def draw_right(random, crossing=0.0, down=0.12, limited=0.5, dense=False, wrong=0.0):
    """An inventory as a value. With some chance a host stands in groups that cross, or a value is wrong.

    Where it is `dense`, few variables have few values at many places, so that it shows which place wins.
    """
    count = random.choice([0, 1, 1, 2, 2, 3, 3, 4, 5, 7])
    names = random.sample(GROUPS, count)
    above = {name: random.choice([None, *names[:place]]) for place, name in enumerate(names)}
    limits = {name: _limit(random, dense) for name in [None, *names] if random.random() < (limited if name else 0.1)}
    homes = _homes(random, names, above, limits, crossing)
    chances = _Chances(down, dense, wrong)

    def body(name):
        children = Members((_named(random, child, wrong), body(child)) for child in names if above[child] == name)
        return _body(random, homes[name], children, limits.get(name), chances, top=name is None)

    return _top(random, body(None))


@dataclass
class _Chances:
    """How often a host is down, whether variables are dense, and how often a value is wrong."""

    down: float
    dense: bool
    wrong: float


def _homes(random, names, above, limits, crossing):
    """The hosts of each group: a host stands in one group, in some above it, and in others that have no limit, or, by chance, have one."""
    homes = {name: [] for name in [None, *names]}
    free = [name for name in names if not any(other in limits for other in (name, above[name]))]
    for host in random.sample(HOSTS, random.choice([0, 1, 2, 3, 3, 4, 5, 6, 8, 10, 12])):
        home = random.choice([None, *names, *names, *names])
        places = {home}
        while home is not None and random.random() < 0.25:
            home = above[home]
            places.add(home)
        if free and random.random() < 0.4:
            places.add(random.choice(free))
        if names and random.random() < crossing:
            places.add(random.choice(names))
        for place in homes:
            if place in places:
                homes[place].append(host)
    return homes


def _limit(random, dense):
    if dense:
        return random.choice([1, 1, 2, 2, 3, 4, "34%", "50%", "67%"])
    return random.choice([0, 1, 1, 1, 2, 2, 3, 4, 65_535, random.choice(SHARES), random.choice(SHARES)])


def _named(random, name, wrong):
    return random.choice(["", "n" * 256, "www[01:50]", "caf\u00e9", " a", "a\n"]) if random.random() < wrong / 4 else name


def _body(random, hosts, children, limit, chances, top):
    parts = Members()
    if hosts or random.random() < 0.1:
        named = Members((_named(random, host, chances.wrong), _host(random, chances)) for host in hosts)
        parts.append(("hosts", named or random.choice([None, Members()])))
    if children or random.random() < 0.1:
        parts.append(("children", children or random.choice([None, Members()])))
    given = Members(pair for pair in _variables(random, chances.dense, [0, 1, 1, 2, 2]) if pair[0] != "max_down")
    if chances.dense and top and random.random() < 0.9:
        given = Members((name, random.choice([1, "1", "a", "True", 0, -1, True])) for name in ("v", "w", "flag", "tier"))
    if random.random() < chances.wrong:
        given.append(("max_down", random.choice(WRONG_LIMITS)))
    elif limit is not None:
        given.append(("max_down", limit))
    if given or random.random() < 0.1:
        parts.append(("vars", given or random.choice([None, Members()])))
    if random.random() < chances.wrong:
        parts.insert(random.randint(0, len(parts)), (random.choice(["x", "X", "host", "hosts ", "\u00e9", ""]), None))
    parts = Members((key, random.choice([[], "x", 1, False]) if random.random() < chances.wrong / 3 else part) for key, part in parts)
    return parts if parts or random.random() < 0.5 else None


def _host(random, chances):
    if random.random() < chances.wrong / 3:
        return random.choice([[], "x", 1, False, ""])
    given = Members(pair for pair in _variables(random, chances.dense, [0, 0, 0, 1, 1, 2]) if pair[0] != "down")
    if random.random() < chances.wrong:
        given.append(("down", random.choice([None, 0, 1, "true", [], 1.5])))
    elif random.random() < chances.down:
        given.append(("down", random.random() < 0.8))
    return given if given or random.random() < 0.5 else None


def _variables(random, dense, counts):
    if dense:
        names = _distinct(random, DENSE, random.choice(counts))
        return Members((name, random.choice(VALUES_OF_DENSE)) for name in names)
    names = random.sample(NAMES, random.choice([0, 0, 1, 1, 2, 3]))
    return Members((name, random.choice(VALUES)) for name in names)


def _distinct(random, names, count):
    """So many names drawn, each once; names that stand often are drawn often."""
    return list(dict.fromkeys(random.sample(names, count)))


def _top(random, body):
    """The text's object: some of the groups below `all` stand at the top, and `all` itself may be missing."""
    body = Members(body or [])
    children = dict(body).get("children") or Members()
    if not isinstance(children, Members):
        return Members([("all", body)])
    outside = Members(pair for pair in children if random.random() < 0.3)
    if outside and random.random() < 0.1:
        outside.append((random.choice(children.names()), random.choice([None, Members()])))
        outside = Members(dict(outside).items())
    inside = Members(pair for pair in children if pair[0] not in outside.names() or random.random() < 0.03)
    rest = Members(pair for pair in body if pair[0] != "children")
    if inside:
        rest.append(("children", inside))
    if not rest and random.random() < 0.3:
        return outside
    return Members([("all", rest or random.choice([None, Members()])), *outside])


def _greatest(random):
    """One of the greatest inventories that are accepted, or one just beyond."""
    more = random.choice([0, 1])
    kind = random.choice(["deep", "deep", "groups", "rows", "hosts", "hosts", "lists", "name", "both"])
    if kind == "deep":
        return _deep(random.choice([31, 32, 33, 33, 33, 34, 61, 62, 63]), twice=random.random() < 0.3)
    if kind == "groups":
        return Members([("all", Members([("children", Members((f"g{place}", None) for place in range(1_023 + more)))]))])
    if kind == "both":
        groups = Members((f"t{place}", None) for place in range(1_023 + more))
        return Members([*_deep(33, twice=random.random() < 0.3), *groups])
    if kind == "rows":
        hosts = [4_096, 4_096, 4_096, 4_096 + more]
        return Members((f"g{place}", _many_hosts(count)) for place, count in enumerate(hosts))
    if kind == "hosts":
        crossing = Members([("vars", Members([("max_down", 1)])), ("hosts", Members([("h0", Members([("down", True)]))]))])
        return Members([("all", _many_hosts(4_096 + more)), ("p", crossing), ("q", crossing)][: random.choice([1, 3, 3])])
    if kind == "name":
        return Members([(random.choice(["all", "g"]), Members([("hosts", Members([("n" * (255 + more), None)]))]))])
    lists = 124 + more
    return Members([("all", Members([("vars", Members([("v", Raw(b"[" * lists + b"]" * lists))]))]))])


def _deep(depth, twice):
    """A chain of groups below each other, so many levels with `all`; the last one may have a name that stood before."""
    body = None
    for level in range(depth, 1, -1):
        body = Members([("children", Members([("g2" if twice and level == depth else f"g{level}", body)]))])
    return Members([("all", body)])


def _many_hosts(count):
    return Members([("hosts", Members((f"h{place}", None) for place in range(count)))])
