"""Drawn lines of a rehearsal: mostly advances that name hosts of the batch at hand, several batches at once, marks of hosts, and undos; some that are no command."""

BAD = [b"jump", b"undo x", b"Show", b"plan plan", b"show\v", b"advance\va", b"help me", b"\xff", b"und", b"adv ance", b"hosts", b"hosts all all", b"quit now", b"? ?", b"next", b"next x", b"next 1 1", b"next -1", b"next +1", b"next 1.0", b"next \xb2", b"finish 1", b"fail", b"finish\v"]
COUNTS = [b"1", b"1", b"2", b"2", b"2", b"3", b"3", b"4", b"5", b"00002", b"65535", b"0", b"65536", b"000001", b"99999"]
STRANGERS = [b"nobody", b"all", b"r1", b"\xff\xfe", b"caf\xc3\xa9", b"a\r"]


def draw_lines(random, rehearsal):
    """The bytes of a session. The rehearsal goes along, so that the batch at hand is known."""
    typed = b""
    for _ in range(random.choice([1, 3, 5, 8, 12])):
        line = _line(random, rehearsal)
        rehearsal.answer(line)
        typed += line + (b"\r\n" if random.random() < 0.05 else b"\n")
    kind = random.random()
    if kind < 0.05:
        return typed + b"undo\r"
    if kind < 0.1:
        return typed.rstrip(b"\n")
    if kind < 0.17:
        return typed + _long(random)
    return typed


def _line(random, rehearsal):
    kind = random.random()
    if kind < 0.25:
        return _spaced(random, [b"advance", *_names(random, rehearsal)])
    if kind < 0.33:
        return _spaced(random, [b"next", random.choice(COUNTS)])
    if kind < 0.37:
        return _spaced(random, [b"finish"])
    if kind < 0.45:
        return _spaced(random, [b"fail", _host(random, rehearsal)])
    if kind < 0.6:
        return _spaced(random, [b"undo"])
    if kind < 0.72:
        return _spaced(random, [b"plan"])
    if kind < 0.84:
        return _spaced(random, [b"show"])
    if kind < 0.91:
        return _spaced(random, [b"hosts", _group(random, rehearsal)])
    if kind < 0.92:
        return _spaced(random, [random.choice([b"help", b"?", b"quit"])])
    if kind < 0.95:
        return random.choice([b"", b" ", b"\t \t", b"\r", b"  "])
    return random.choice(BAD)


def _names(random, rehearsal):
    """Names to fail: none or some of the plan's first batch; now and then another host, or what is no host."""
    batches = getattr(rehearsal.stack[-1][1], "batches", None) or [[]]
    batch = [host.encode() for host in batches[0]]
    names = random.sample(batch, random.randint(0, len(batch))) if random.random() < 0.6 else []
    if random.random() < 0.15 and rehearsal.fleet.hosts:
        names += [random.choice(rehearsal.fleet.hosts).encode() for _ in range(random.choice([1, 2]))]
    if random.random() < 0.07:
        names.insert(random.randint(0, len(names)), random.choice(STRANGERS))
    if names and random.random() < 0.1:
        names.append(names[0])
    return names


def _host(random, rehearsal):
    """The name of a host, mostly of one that waits; now and then what is no host."""
    waiting = [host.encode() for host, status in rehearsal.stack[-1][0].items() if status == "waiting"]
    kind = random.random()
    if waiting and kind < 0.75:
        return random.choice(waiting)
    if kind < 0.9 and rehearsal.fleet.hosts:
        return random.choice(rehearsal.fleet.hosts).encode()
    return random.choice(STRANGERS)


def _group(random, rehearsal):
    """The name of a group; now and then a host's, or nobody's."""
    kind = random.random()
    if kind < 0.1:
        return random.choice(STRANGERS)
    if kind < 0.2 and rehearsal.fleet.hosts:
        return random.choice(rehearsal.fleet.hosts).encode()
    return random.choice(rehearsal.fleet.places).name.encode()


def _spaced(random, words):
    if random.random() < 0.9:
        return b" ".join(words)
    return random.choice([b"", b" ", b"\t"]) + random.choice([b"  ", b"\t", b" \t "]).join(words) + random.choice([b"", b" ", b"\t"])


def _long(random):
    """A line at the bound on its length, or just beyond, and one behind it."""
    line = b"show" + b" " * (65_532 + random.choice([0, 0, 1, 2]))
    if random.random() < 0.3:
        line = line[:-1] + b"\r"
    return line + random.choice([b"", b"\n", b"\nshow\n"])
