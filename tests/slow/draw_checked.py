"""Drawn plans that are checked: that of the slow program, in many ways of writing, and such a plan that was spoiled."""

from random import Random

import commands
from cases import INVENTORY, PLAN, PLAYBOOK, Case, names_in
from draw_inventory import draw_right as draw_right_inventory
from draw_playbook import draw_right as draw_right_playbook
from draw_resumed import KeptStyle
from faults import Fault
from json_draw import write
from mutate import mutate
from planning import Blocked, start
from sizes import cap

ODD_LINES = [
    b"", b"", b" \t ", b"held: a b", b"held:", b"held", b"plan batches=2 bound=one-host", b"plan  batches=", b"plan", b"batch", b"batch 1:", b"batch 2:", b"batch 01:", b"batch 1", b"Batch 1: a",
    b"blocked group=r1 waiting=1", b"open: a", b"a,b", b"caf\xc3\xa9", b"\xff", b"a\rb", b"a\x00", b"n" * 256, b"n" * 255, b"batch 1 : a", b"play 1", b"nobody", b"a:b",
]


def draw_checked(seed, number):
    """The plan of this number that is to be checked."""
    random = Random(f"{seed}/checked/{number}")
    inventory = write(draw_right_inventory(random, crossing=0.02, down=random.choice([0, 0.1, 0.3]), limited=random.choice([0.3, 0.6])), random)
    if random.random() < 0.1:
        # Hosts whose names are words of the plan's text.
        for old, new in ((b'"h0"', b'"batch"'), (b'"h1"', b'"plan"')):
            inventory = inventory.replace(old, new)
    value = draw_right_playbook(random, names_in(inventory), KeptStyle([], 0), random.choice([1, 1, 1, 2]))
    playbook = write(mutate(value, random) if random.random() < 0.03 else value, random)
    return Case(("check", INVENTORY, PLAYBOOK, PLAN), inventory, playbook, plan=_plan(random, inventory, playbook))


def _plan(random, inventory, playbook):
    try:
        fleet, plays, targets = commands.accepted(inventory, playbook)
    except Fault:
        return random.choice([b"", b"a\n", b"a=b\n", b"batch 1: a\n"])
    state = start(fleet, targets[0])
    boundary = commands.next_boundary(fleet, plays[0], state, cap(plays[0].sizes, commands.targeted(fleet, targets[0]), 0))
    if isinstance(boundary.answer, Blocked):
        # No plan is right; these are nearly so.
        batches = [[host] for host in targets[0]]
        if random.random() < 0.5:
            batches.append(["nobody"])
    else:
        batches = [list(batch) for batch in boundary.answer.batches]
    for _ in range(random.choice([0, 0, 1, 1, 1, 2])):
        _spoil(random, fleet, batches)
    return _written(random, batches, boundary.aside)


def _spoil(random, fleet, batches):
    """One change to the batches: in most ways they are no plan any more, or a longer one."""
    hosts = [host for batch in batches for host in batch]
    change = random.choice(["twice", "missing", "unknown", "other", "moved", "moved", "merged", "merged", "split", "split", "alone", "shuffled", "exchanged", "empty", "backwards"])
    place = random.randrange(len(batches)) if batches else None
    if place is None or change in ("unknown", "other", "empty"):
        batches.insert(random.randint(0, len(batches)), []) if change == "empty" or not batches else None
        batch = random.choice(batches)
        if change != "empty":
            batch.insert(random.randint(0, len(batch)), random.choice(["nobody", "all", "r1", "A.b"]) if change == "unknown" else random.choice(fleet.hosts or ["x"]))
        return
    batch = batches[place]
    if change == "twice" and hosts:
        batch.insert(random.randint(0, len(batch)), random.choice(hosts))
    elif change == "missing" and batch:
        batch.remove(random.choice(batch))
    elif change == "moved" and batch:
        host = batch.pop(random.randrange(len(batch)))
        random.choice(batches).append(host)
    elif change == "merged" and len(batches) > 1:
        batch += batches.pop(place - 1)
    elif change == "split" and len(batch) > 1:
        cut = random.randint(1, len(batch) - 1)
        batches[place : place + 1] = [batch[:cut], batch[cut:]]
    elif change == "alone":
        batches[:] = [[host] for host in hosts]
    elif change == "shuffled":
        random.shuffle(batch)
    elif change == "exchanged" and hosts:
        first, second = random.choice(hosts), random.choice(hosts)
        batches[:] = [[{first: second, second: first}.get(host, host) for host in other] for other in batches]
    elif change == "backwards":
        batches.reverse()


def _written(random, batches, aside):
    """The text of batches: as a plan's, as bare names, or some of both."""
    style, end, blank = random.choice(["plan", "plan", "bare", "some"]), random.choice([b"\n", b"\n", b"\n", b"\r\n"]), random.choice([b" ", b" ", b"  ", b"\t"])
    lines = [b"plan batches=%d bound=nothing" % random.choice([len(batches), 1])] if style == "plan" else []
    for number, batch in enumerate(batches, 1):
        labelled = style == "plan" or (style == "some" and random.random() < 0.5) or not batch
        words = [b"batch", b"%d:" % (number if random.random() < 0.99 else number + 1)] if labelled else []
        lines.append(blank.join([*words, *(host.encode() for host in batch)]))
    if aside and style == "plan":
        lines.append(b" ".join([b"held:", *(host.encode() for host in aside)]))
    for _ in range(random.choice([0, 0, 0, 0, 1, 2])):
        lines.insert(random.randint(0, len(lines)), random.choice(ODD_LINES if random.random() < 0.5 else ODD_LINES[:5]))
    text = end.join(lines) + (end if random.random() < 0.8 else b"")
    return b" " + text if random.random() < 0.05 else text
