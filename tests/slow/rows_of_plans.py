"""Worked rows of `limits` and `plan`: an inventory, a playbook and the whole text, `/` standing for the end of a line."""

RACKS = (
    '{"all":{"children":{"eu":{"vars":{"max_down":3},"children":{"r1":{"vars":{"max_down":1},"hosts":{"a":null,"b":null,"c":null}},'
    '"r2":{"vars":{"max_down":2},"hosts":{"d":null,"e":null}}}}}}}'
)
WIDE_RACKS = RACKS.replace('"max_down":1', '"max_down":2')
HALF_RACKS = RACKS.replace('"max_down":1', '"max_down":"50%"')
THIRD_RACKS = RACKS.replace('"max_down":1', '"max_down":"33%"')
TEN = '{"all":{"hosts":{%s}}}' % ",".join(f'"h{place}":null' for place in range(10))
NONE_DOWN = '{"all":{"children":{"g":{"vars":{"max_down":0},"hosts":{"a":null}}}}}'
PAIR = '{"all":{"children":{"g":{"vars":{"max_down":1},"hosts":{"a":null,"b":null}}}}}'
CROSSING = (
    '{"all":{"children":{"row1":{"vars":{"max_down":2},"hosts":{"x":null}},"rb":{"vars":{"max_down":1}},'
    '"rack9":{"vars":{"max_down":1},"hosts":{"x":null}}}}}'
)
BESIDE = CROSSING.replace('"row1":{"vars":{"max_down":2},', '"web":{')
ROW = (
    '{"all":{"children":{"eu":{"vars":{"max_down":3},"hosts":{"d":null},"children":{"r1":{"vars":{"max_down":2},"hosts":{"a":null,"b":{"down":true}}},'
    '"row":{"children":{"r2":{"vars":{"max_down":1},"hosts":{"c":null}}}}}},"r3":{"vars":{"max_down":0}}}}}'
)
TWO_PLACES = '{"all":{"children":{"g":{"vars":{"max_down":1},"children":{"p":{"hosts":{"a":null}},"q":{"hosts":{"a":null}}}}}}}'


def play(keys="", hosts="all", command='"true"'):
    """A playbook of one play with one task that does nothing."""
    return '[{"hosts":"%s",%s"tasks":[{"command":%s}]}]' % (hosts, keys, command)


def down(inventory, *hosts):
    """The same inventory with some hosts down at the start."""
    for host in hosts:
        inventory = inventory.replace(f'"{host}":null', f'"{host}":{{"down":true}}')
    return inventory


THREE = "plan batches=3 bound=group r1 waiting=3 room=1 / batch 1: a d / batch 2: b e / batch 3: c"
ONE_EACH = "plan batches=10 bound=serial waiting=10 size=1 / " + " / ".join(f"batch {place + 1}: h{place}" for place in range(10))
EU_AND_R2 = "eu members=5 down=0 limit=3 room=3 / r1 members=3 down=0 limit={0} room={0} / r2 members=2 down=0 limit=2 room=2 / hosts=5 limited=3"

# What it shows, the inventory, the table or the fault, the status.
LIMITS = [
    ("the empty inventory", '{"all":{}}', "hosts=0 limited=0", 0),
    ("two racks in a region", RACKS, EU_AND_R2.format(1), 0),
    ("a share of half", HALF_RACKS, EU_AND_R2.format(1), 0),
    ("a share of nobody", THIRD_RACKS, EU_AND_R2.format(0), 0),
    ("one of two down", down(PAIR, "a"), "g members=2 down=1 limit=1 room=0 / hosts=2 limited=1", 0),
    ("both down", down(PAIR, "a", "b"), "rollout: 302 StartOver group=g down=2 limit=1", 1),
    ("a range of hosts", '{"all":{"hosts":{"www[01:50]":null}}}', "rollout: 101 BadName name=www[01:50]", 1),
    ("an unknown key", '{"all":{"x":1}}', "rollout: 203 UnknownKey at=all/x", 1),
    ("limits that cross", CROSSING, "rollout: 301 NotNested host=x first=rack9 second=row1", 1),
    (
        "an unlimited group beside a rack",
        BESIDE,
        "rack9 members=1 down=0 limit=1 room=1 / rb members=0 down=0 limit=1 room=1 / hosts=1 limited=2",
        0,
    ),
    ("a host at two places", TWO_PLACES, "g members=1 down=0 limit=1 room=1 / hosts=1 limited=1", 0),
    ("a text cut off", RACKS[:40], "rollout: 201 NotJson", 1),
    ("no bytes", "", "rollout: 201 NotJson", 1),
    (
        "a limit too large",
        '{"all":{"children":{"g":{"vars":{"max_down":65536}}}}}',
        "rollout: 204 BadLimit at=all/children/g/vars/max_down",
        1,
    ),
    (
        "the greatest limit",
        '{"all":{"children":{"g":{"vars":{"max_down":65535}}}}}',
        "g members=0 down=0 limit=65535 room=65535 / hosts=0 limited=1",
        0,
    ),
    (
        "a share of more than all",
        RACKS.replace('"max_down":1', '"max_down":"101%"'),
        "rollout: 204 BadLimit at=all/children/eu/children/r1/vars/max_down",
        1,
    ),
    ("a list of 200 levels in a variable", '{"all":{"vars":{"v":%s%s}}}' % ("[" * 200, "]" * 200), "rollout: 201 NotJson", 1),
    *((f"a text cut off at {at}", RACKS[:at], "rollout: 201 NotJson", 1) for at in range(1, len(RACKS))),
]

# What it shows, the inventory, the playbook, the plan or the fault, the status.
PLANS = [
    ("a plan of nobody", '{"all":{}}', play(), "plan batches=0 bound=nothing", 0),
    ("a plan that a rack bounds", RACKS, play(), THREE, 0),
    (
        "a plan that the region bounds",
        WIDE_RACKS,
        play(),
        "plan batches=2 bound=group eu waiting=5 room=3 / batch 1: a c e / batch 2: b d",
        0,
    ),
    (
        "batches of three",
        TEN,
        play('"serial":3,'),
        "plan batches=4 bound=serial waiting=10 size=3 / batch 1: h0 h4 h8 / batch 2: h1 h5 h9 / batch 3: h2 h6 / batch 4: h3 h7",
        0,
    ),
    ("batches of a share", TEN, play('"serial":"5%",'), ONE_EACH, 0),
    ("an unlimited group beside a rack", BESIDE, play(), "plan batches=1 bound=group rack9 waiting=1 room=1 / batch 1: x", 0),
    ("a host at two places", TWO_PLACES, play(), "plan batches=1 bound=group g waiting=1 room=1 / batch 1: a", 0),
    ("none may be down", NONE_DOWN, play(), "blocked group=g waiting=1", 3),
    (
        "a rack in a row without a limit counts with its region, and one of nobody bounds nothing",
        ROW,
        play(),
        "plan batches=2 bound=group eu waiting=3 room=2 / batch 1: d c / batch 2: a",
        0,
    ),
    ("a share of half", HALF_RACKS, play(), THREE, 0),
    ("a share of nobody", THIRD_RACKS, play(), "blocked group=r1 waiting=3", 3),
    ("a host set aside", NONE_DOWN, play('"on_blocked":"hold",'), "plan batches=0 bound=nothing / held: a", 3),
    ("no bound on a batch", TEN, play(), "plan batches=1 bound=one-host / batch 1: " + " ".join(f"h{place}" for place in range(10)), 0),
    ("a size of more than all", PAIR, play('"serial":65535,', "b"), "plan batches=1 bound=group g waiting=1 room=1 / batch 1: b", 0),
    (
        "a command with a quote",
        RACKS,
        '[{"hosts":"all","tasks":[{"command":"echo it\'s"}]}]',
        "rollout: 702 BadShape at=0/tasks/0/command",
        1,
    ),
    ("a filter in a word", RACKS, play(command='{"argv":["{{ v | x }}"]}'), "rollout: 602 BadBraces step=1", 1),
    ("blanks round the dot of a word", RACKS, play(command='{"argv":["{{ r\\t. rc }}"]}'), THREE, 0),
    ("a size below nought in a list", RACKS, play('"serial":[1,-1],'), "rollout: 706 BadSerial at=0/serial/1", 1),
    ("a name that nothing has", RACKS, play("", "r1:x*"), "rollout: 304 NoSuchName name=x*", 1),
    ("a pattern of a group and a host", RACKS, play("", "r1:d"), THREE.replace("b e", "b"), 0),
    (
        "a pattern with blanks and empty parts",
        RACKS,
        play("", " r2 ,, b"),
        "plan batches=1 bound=group eu waiting=3 room=3 / batch 1: b d e",
        0,
    ),
    *((f"a playbook cut off at {at}", RACKS, play()[:at], "rollout: 701 NotJson", 1) for at in range(len(play()))),
]
