"""Damaged journals: a byte that changed, and entries that are there too few or too many, in another order, or with other words, in right lines."""

from entries import body_of, line

ENDS = ["end finished", "end held", "end all-failed", "end blocked group=all", "end blocked group=r1", "end too-many-failed step=1 failed=1 size=2", "end"]


def damage(random, journal, hosts):
    """The journal with one damage, or two."""
    if random.random() < 0.2:
        return _byte(random, journal)
    *lines, torn = journal.split(b"\n")
    bodies = [body_of(text) or "" for text in lines]
    for _ in range(random.choice([1, 1, 1, 2])):
        if bodies:
            random.choice([_without, _doubled, _exchanged, _words, _words, _numbers, _end, _closed, _behind, _behind])(random, bodies, hosts)
    return b"".join(map(line, bodies)) + torn


def _byte(random, journal):
    """One byte is another, mostly one of a length or a sum."""
    if not journal:
        return journal
    starts = [0, *(at + 1 for at, byte in enumerate(journal[:-1]) if byte == ord("\n"))]
    at = random.choice(starts) + random.choice([0, 1, 1, 2, 3, 4, 5, 6]) if random.random() < 0.7 else random.randrange(len(journal))
    at = min(at, len(journal) - 1)
    return journal[:at] + bytes([random.choice([journal[at] ^ 1, *b"0127 \n"])]) + journal[at + 1 :]


def _without(random, bodies, hosts):
    del bodies[random.randrange(len(bodies))]


def _doubled(random, bodies, hosts):
    bodies.insert(random.randint(0, len(bodies)), random.choice(bodies))


def _exchanged(random, bodies, hosts):
    one, other = random.randrange(len(bodies)), random.randrange(len(bodies))
    bodies[one], bodies[other] = bodies[other], bodies[one]


def _words(random, bodies, hosts):
    """The words of an entry: one more, one less, two exchanged, or another state."""
    several = [place for place, body in enumerate(bodies) if place and body.count(" ") > 1]
    at = random.choice(several) if several and random.random() < 0.8 else random.randrange(len(bodies))
    word, *names = bodies[at].split(" ")
    kind = random.choice(["more", "less", "exchanged", "state", "state"])
    if kind == "more":
        names.insert(random.randint(0, len(names)), random.choice([*hosts, "nobody", "", "running:a"]))
    elif names and kind == "less":
        del names[random.randrange(len(names))]
    elif names and kind == "exchanged":
        random.shuffle(names)
    else:
        states = ["updated", "failed", "halted", "held", "waiting"]
        names = [f"{random.choice(states)}:{name.partition(':')[2]}" if ":" in name and random.random() < 0.5 else name for name in names]
    bodies[at] = " ".join([word, *names])


def _behind(random, bodies, hosts):
    """Behind an end something goes on."""
    ends = [place for place, body in enumerate(bodies) if body.startswith("end ")]
    if ends:
        bodies.insert(random.choice(ends) + 1, random.choice(["held:", "again:", "end finished", random.choice(bodies)]))


def _closed(random, bodies, hosts):
    """What a batch came to, in another order, or without one of its hosts."""
    several = [place for place, body in enumerate(bodies) if body.startswith("closed:") and body.count(" ") > 1]
    if several:
        at = random.choice(several)
        word, *names = bodies[at].split(" ")
        bodies[at] = " ".join([word, *(random.choice([names[::-1], names[1:], names[:-1]]))])


def _numbers(random, bodies, hosts):
    """The number of plays, or one of an end."""
    at = random.choice([0, len(bodies) - 1])
    before, found, number = bodies[at].rpartition("=")
    if found:
        bodies[at] = before + found + random.choice(["0", "1", "2", "3", "01", "65536", "65535", number + "0"])


def _end(random, bodies, hosts):
    """A play ended otherwise."""
    ends = [place for place, body in enumerate(bodies) if body.startswith("end ")]
    if ends:
        bodies[random.choice(ends)] = random.choice(ENDS)
