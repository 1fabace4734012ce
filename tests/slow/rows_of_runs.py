"""Worked rows of `run` and `rehearse`. A recap line `a 1 1 0 0 0 updated` is short for `a ok=1 changed=1 failed=0 skipped=0 ignored=0 state=updated`."""

import json

from rows_of_plans import NONE_DOWN, PAIR, RACKS, TEN, THREE, WIDE_RACKS, play

HOST = "{{ inventory_hostname }}"
FOUR = '{"all":{"hosts":{"a":null,"b":null,"c":null,"d":null}}}'
SIX = '{"all":{"children":{"g":{"vars":{"max_down":2},"hosts":{"a":null,"b":null,"c":null,"d":null,"e":null,"f":null}}}}}'
THREE_OF_TWO = '{"all":{"children":{"g":{"vars":{"max_down":2},"hosts":{"a":null,"b":null,"c":null}}}}}'
HERE = '{"all":{"hosts":{"a":null}}}'
LAYERS = (
    '{"all":{"vars":{"v":1},"children":{"m":{"vars":{"v":2},"hosts":{"h":null},"children":{"k":{"vars":{"v":3},"hosts":{"h":null}}}},'
    '"z":{"vars":{"v":4},"hosts":{"h":null}}}}}'
)
OWN_VALUE = LAYERS.replace('"v":3},"hosts":{"h":null}', '"v":3},"hosts":{"h":{"v":5}}')
SEVEN = '{"all":{"children":{"eu":{"children":{"r1":{"hosts":{"a":{"v":7,"t":"{ {v}}"}}}}}}}}'
ONE_OFF = '{"all":{"hosts":{"a":null,"b":null,"c":null,"d":{"down":true}}}}'


def failing(*hosts, rc=1):
    """A command that answers a code on these hosts, and 0 on the others."""
    tests = "; ".join(f"test {HOST} != {host} || exit {rc}" for host in hosts)
    return {"argv": ["sh", "-c", tests]}


def noting(number, *hosts):
    """A step that writes its host and this number down, and fails on these hosts."""
    tests = "".join(f"; test {HOST} != {host} || exit 1" for host in hosts)
    return {"command": {"argv": ["sh", "-c", f"echo {HOST} {number} >>written{tests}"]}}


def comparing(word, wanted):
    """A playbook with one task that compares a word with another."""
    return playbook({"command": {"argv": ["test", word, "=", wanted]}})


def playbook(*steps, handlers=(), **keys):
    """A playbook of one play, on all hosts unless it names others."""
    play = {"hosts": "all", **keys, "tasks": list(steps)}
    if handlers:
        play["handlers"] = list(handlers)
    return json.dumps([play])


def one(*hosts, **keys):
    """One task that fails on these hosts."""
    return playbook({"command": failing(*hosts) if hosts else "true"}, **keys)


ABOVE = "boundary 1: plan batches=3 bound=group r1 waiting=3 room=1 / open: a d / "
SIX_RECAP = (
    "boundary 1: plan batches=3 bound=group g waiting=6 room=2 / open: a d / boundary 2: plan batches=2 bound=group g waiting=4 room=2 / "
    "open: b e / boundary 3: plan batches=1 bound=group g waiting=2 room=2 / open: c f / boundary 4: plan batches=0 bound=nothing / "
    "a 3 3 0 0 0 updated / b 3 3 0 0 0 updated / c 1 1 1 0 0 failed / d 3 3 0 0 0 updated / e 3 3 0 0 0 updated / f 3 3 0 0 0 updated / end finished"
)
ALONE = "boundary 1: plan batches=1 bound=one-host / open: a / boundary 2: plan batches=0 bound=nothing / "
TWO = "boundary 1: plan batches=1 bound=one-host / open: a b / boundary 2: plan batches=0 bound=nothing / "
ALL_FOUR = "boundary 1: plan batches=1 bound=one-host / open: a b c d / boundary 2: plan batches=0 bound=nothing / "
NOTIFYING = [{"command": "true", "notify": "H2"}, {"command": "true", "notify": ["H1", "H2"]}, {"command": failing("b")}]
LONG = "x" * 65_535
EARLIER_RESULT = json.dumps(
    [
        {"hosts": "all", "tasks": [{"command": "true", "when": False, "register": "x"}]},
        {"hosts": "all", "tasks": [{"command": "true", "when": "x is skipped and x.rc is not defined"}]},
    ]
)
OTHER_HOSTS = json.dumps([{"hosts": hosts, "tasks": [{"command": failing("a")}]} for hosts in ("a:b:d", "a:c:d")])
TWO_PLAYS = json.dumps([{"hosts": hosts, "tasks": [{"command": "true"}]} for hosts in ("a", "all")])
FIRST_FAILS = json.dumps([{"hosts": hosts, "tasks": [{"command": failing("a")}]} for hosts in ("a", "all")])
BOTH_ON_ALL = json.dumps([{"hosts": "all", "tasks": [{"command": command}]} for command in (failing("a"), "true")])

# What it shows, the inventory, the playbook, the recap, the status.
RUNS = [
    (
        "a failed host blocks its rack",
        RACKS,
        one("a"),
        ABOVE + "boundary 2: blocked group=r1 waiting=2 / a 0 0 1 0 0 failed / b 0 0 0 0 0 waiting / c 0 0 0 0 0 waiting / "
        "d 1 1 0 0 0 updated / e 0 0 0 0 0 waiting / end blocked group=r1",
        3,
    ),
    (
        "a failed host leaves room",
        WIDE_RACKS,
        one("a"),
        "boundary 1: plan batches=2 bound=group eu waiting=5 room=3 / open: a c e / boundary 2: plan batches=1 bound=group eu waiting=2 room=2 / "
        "open: b d / boundary 3: plan batches=0 bound=nothing / a 0 0 1 0 0 failed / b 1 1 0 0 0 updated / c 1 1 0 0 0 updated / "
        "d 1 1 0 0 0 updated / e 1 1 0 0 0 updated / end finished",
        2,
    ),
    ("none may be down", NONE_DOWN, one(), "boundary 1: blocked group=g waiting=1 / a 0 0 0 0 0 waiting / end blocked group=g", 3),
    (
        "half of the batch failed where half may",
        FOUR,
        playbook({"command": failing("a", "b")}, {"command": "true"}, max_fail_percentage=50),
        ALL_FOUR + "a 0 0 1 0 0 failed / b 0 0 1 0 0 failed / c 2 2 0 0 0 updated / d 2 2 0 0 0 updated / end finished",
        2,
    ),
    (
        "half of the batch failed where less may",
        FOUR,
        playbook({"command": failing("a", "b")}, {"command": "true"}, max_fail_percentage=49),
        ALL_FOUR + "a 0 0 1 0 0 failed / b 0 0 1 0 0 failed / c 1 1 0 0 0 halted / d 1 1 0 0 0 halted / end too-many-failed step=1 failed=2 size=4",
        4,
    ),
    (
        "handlers in the order in which they are written",
        '{"all":{"hosts":{"a":null,"b":null}}}',
        playbook(*NOTIFYING, handlers=[{"name": "H1", "command": "true"}, {"name": "H2", "command": "true"}]),
        TWO + "a 5 5 0 0 0 updated / b 2 2 1 0 0 failed / end finished",
        2,
    ),
    (
        "an ignored failure and its registered code",
        HERE,
        playbook(
            {"command": {"argv": ["sh", "-c", "exit 3"]}, "register": "r", "ignore_errors": True},
            {"command": "true", "when": "r.rc == 3 and not r is skipped"},
        ),
        ALONE + "a 2 2 0 0 1 updated / end finished",
        0,
    ),
    (
        "a name without a value fails its host",
        '{"all":{"hosts":{"a":{"v":1},"b":null}}}',
        playbook({"command": "true", "when": "v == 1"}),
        TWO + "a 1 1 0 0 0 updated / b 0 0 1 0 0 failed / end finished",
        2,
    ),
    (
        "a result that isn't registered",
        HERE,
        playbook({"command": "true", "when": "q is failed"}),
        "boundary 1: plan batches=1 bound=one-host / open: a / boundary 2: plan batches=0 bound=nothing / a 0 0 1 0 0 failed / end all-failed",
        4,
    ),
    (
        "what isn't evaluated can't be undefined",
        HERE,
        playbook({"command": "true", "when": "false or (x is defined and x.rc == 0)"}),
        ALONE + "a 0 0 0 1 0 updated / end finished",
        0,
    ),
    ("a failure at the second of three steps", SIX, playbook({"command": "true"}, {"command": failing("c")}, {"command": "true"}), SIX_RECAP, 2),
    (
        "a batch of one that fails",
        '{"all":{"hosts":{"h0":null,"h1":null,"h2":null}}}',
        one("h0", serial=1),
        "boundary 1: plan batches=3 bound=serial waiting=3 size=1 / open: h0 / boundary 2: plan batches=2 bound=serial waiting=2 size=1 / "
        "h0 0 0 1 0 0 failed / h1 0 0 0 0 0 waiting / h2 0 0 0 0 0 waiting / end all-failed",
        4,
    ),
    (
        "a program that isn't there",
        HERE,
        playbook({"command": {"argv": ["/no/such/program"]}}),
        ALONE + "a 0 0 1 0 0 failed / end all-failed",
        4,
    ),
    (
        "a program that a signal ends",
        HERE,
        playbook(
            {"command": {"argv": ["sh", "-c", "kill -9 $$"]}, "register": "r", "ignore_errors": True},
            {"command": "true", "when": "r.rc == -1"},
        ),
        ALONE + "a 2 2 0 0 1 updated / end finished",
        0,
    ),
    (
        "an output that is no text",
        HERE,
        playbook({"command": {"argv": ["sh", "-c", "printf '\\377'"]}, "register": "r"}, {"command": "true", "when": "r.stdout == '\ufffd'"}),
        ALONE + "a 2 2 0 0 0 updated / end finished",
        0,
    ),
    (
        "a list of sizes",
        TEN,
        one(serial=[1, "70%"]),
        "boundary 1: plan batches=10 bound=serial waiting=10 size=1 / open: h0 / boundary 2: plan batches=2 bound=serial waiting=9 size=7 / "
        "open: h1 h3 h5 h7 h9 / boundary 3: plan batches=1 bound=serial waiting=4 size=7 / open: h2 h4 h6 h8 / "
        "boundary 4: plan batches=0 bound=nothing / " + " / ".join(f"h{place} 1 1 0 0 0 updated" for place in range(10)) + " / end finished",
        0,
    ),
    (
        "hosts set aside where their rack has no room",
        RACKS,
        one("a", on_blocked="hold"),
        ABOVE + "boundary 2: plan batches=1 bound=group eu waiting=1 room=2 / held: b c / open: e / boundary 3: plan batches=0 bound=nothing / "
        "a 0 0 1 0 0 failed / b 0 0 0 0 0 held / c 0 0 0 0 0 held / d 1 1 0 0 0 updated / e 1 1 0 0 0 updated / end held",
        3,
    ),
    (
        "all hosts set aside",
        NONE_DOWN,
        one(on_blocked="hold"),
        "boundary 1: plan batches=0 bound=nothing / held: a / a 0 0 0 0 0 held / end held",
        3,
    ),
    (
        "two plays",
        PAIR,
        TWO_PLAYS,
        "play 1 / boundary 1: plan batches=1 bound=group g waiting=1 room=1 / open: a / boundary 2: plan batches=0 bound=nothing / "
        "a 1 1 0 0 0 updated / end finished / play 2 / boundary 1: plan batches=2 bound=group g waiting=2 room=1 / open: a / "
        "boundary 2: plan batches=1 bound=group g waiting=1 room=1 / open: b / boundary 3: plan batches=0 bound=nothing / "
        "a 1 1 0 0 0 updated / b 1 1 0 0 0 updated / end finished",
        0,
    ),
    (
        "a first play that fails",
        PAIR,
        FIRST_FAILS,
        "play 1 / boundary 1: plan batches=1 bound=group g waiting=1 room=1 / open: a / boundary 2: plan batches=0 bound=nothing / "
        "a 0 0 1 0 0 failed / end all-failed",
        4,
    ),
    (
        "a host that failed in the first play",
        THREE_OF_TWO,
        BOTH_ON_ALL,
        "play 1 / boundary 1: plan batches=2 bound=group g waiting=3 room=2 / open: a c / boundary 2: plan batches=1 bound=group g waiting=1 room=1 / "
        "open: b / boundary 3: plan batches=0 bound=nothing / a 0 0 1 0 0 failed / b 1 1 0 0 0 updated / c 1 1 0 0 0 updated / end finished / "
        "play 2 / boundary 1: plan batches=2 bound=group g waiting=2 room=1 / open: b / boundary 2: plan batches=1 bound=group g waiting=1 room=1 / "
        "open: c / boundary 3: plan batches=0 bound=nothing / a 0 0 0 0 0 failed / b 1 1 0 0 0 updated / c 1 1 0 0 0 updated / end finished",
        2,
    ),
    ("the value of the deepest group", LAYERS, comparing("{{ v }}", "3"), ALONE.replace(" a ", " h ") + "h 1 1 0 0 0 updated / end finished", 0),
    ("a host's own value", OWN_VALUE, comparing("{{ v }}", "5"), ALONE.replace(" a ", " h ") + "h 1 1 0 0 0 updated / end finished", 0),
    ("a word with two names", SEVEN, comparing("{{ inventory_hostname }}-{{v}}", "a-7"), ALONE + "a 1 1 0 0 0 updated / end finished", 0),
    ("braces apart are plain text", SEVEN, comparing("{ {v}}", "{{ t }}"), ALONE + "a 1 1 0 0 0 updated / end finished", 0),
    ("a word as long as may be", SEVEN, comparing(LONG + "{{v}}", LONG + "7"), ALONE + "a 1 1 0 0 0 updated / end finished", 0),
    ("a word of one byte more", SEVEN, comparing(LONG + "x{{v}}", LONG), ALONE + "a 0 0 1 0 0 failed / end all-failed", 4),
    (
        "a result of an earlier play",
        HERE,
        EARLIER_RESULT,
        f"play 1 / {ALONE}a 0 0 0 1 0 updated / end finished / play 2 / {ALONE}a 1 1 0 0 0 updated / end finished",
        0,
    ),
    (
        "a later play on other hosts",
        ONE_OFF,
        OTHER_HOSTS,
        "play 1 / boundary 1: plan batches=1 bound=one-host / open: a b / boundary 2: plan batches=0 bound=nothing / a 0 0 1 0 0 failed / "
        "b 1 1 0 0 0 updated / d 0 0 0 0 0 off / end finished / play 2 / boundary 1: plan batches=1 bound=one-host / open: c / "
        "boundary 2: plan batches=0 bound=nothing / a 0 0 0 0 0 failed / c 1 1 0 0 0 updated / d 0 0 0 0 0 off / end finished",
        2,
    ),
]

# What it shows, the inventory, the playbook, and what its programs write down where one runs at a time.
WRITTEN = [
    (
        "the second step where half of the batch may fail",
        FOUR,
        playbook(noting(1, "a", "b"), noting(2), max_fail_percentage=50),
        "a 1 / b 1 / c 1 / d 1 / c 2 / d 2",
    ),
    ("no second step where less may", FOUR, playbook(noting(1, "a", "b"), noting(2), max_fail_percentage=49), "a 1 / b 1 / c 1 / d 1"),
    (
        "handlers behind all tasks, not on a host that failed",
        '{"all":{"hosts":{"a":null,"b":null}}}',
        playbook(
            {**noting(1), "notify": "H2"},
            {**noting(2), "notify": ["H1", "H2"]},
            noting(3, "b"),
            handlers=[{"name": "H1", **noting(4)}, {"name": "H2", **noting(5)}],
        ),
        "a 1 / b 1 / a 2 / b 2 / a 3 / b 3 / a 4 / a 5",
    ),
    (
        "nothing where a step is skipped or a name has no value",
        '{"all":{"hosts":{"a":{"v":1},"b":{"v":2},"c":null}}}',
        playbook({**noting(1), "when": "v == 1"}, noting(2)),
        "a 1 / a 2 / b 2",
    ),
    ("the first batch alone where its rack is blocked then", RACKS, playbook(noting(1, "a")), "a 1 / d 1"),
    ("nothing where a later play is for a name that nothing has", FOUR, json.dumps([*json.loads(playbook(noting(1))), *json.loads(playbook(noting(2), hosts="a:x"))]), ""),
]

HALTING = "advanced: a b c d / a failed / b failed / c halted / d halted / end too-many-failed step=1 failed=2 size=4"
ALL_WAIT = "a waiting / b waiting / c waiting / d waiting / end none"

# What it shows, the inventory, the playbook, the lines, the answers, the fault behind them, the status.
REHEARSALS = [
    ("undo goes back to the start", RACKS, play(), "advance a / undo / plan", "advanced: a d / undone / " + THREE, "", 0),
    (
        "a blocked end, and back",
        RACKS,
        play(),
        "advance b / advance a / advance / show / undo / undo",
        "refused 831 NotInBatch host=b / advanced: a d / refused 832 Over / a failed / b waiting / c waiting / d updated / e waiting / "
        "end blocked group=r1 / undone / nothing to undo",
        "",
        0,
    ),
    ("a name that no host has", RACKS, play(), "advance x", "refused 304 NoSuchName name=x", "", 0),
    (
        "the hosts of a group, and nothing behind an end that is asked for",
        RACKS,
        play(),
        "hosts r1 / advance / hosts all / hosts a / quit / undo",
        "a state=waiting batch=1 / b state=waiting batch=2 / c state=waiting batch=3 / advanced: a d / a state=updated batch=- / b state=waiting batch=1 / "
        "c state=waiting batch=2 / d state=updated batch=- / e state=waiting batch=1 / refused 304 NoSuchName name=a",
        "",
        0,
    ),
    ("an advance behind the end", RACKS, play(), "advance a / advance a", "advanced: a d / refused 832 Over", "", 0),
    ("a word that is no command", RACKS, play(), "jump", "refused 905 BadCommand", "", 0),
    (
        "a halt, and back",
        FOUR,
        play('"max_fail_percentage":49,'),
        "advance a b / show / undo / show",
        HALTING + " / undone / " + ALL_WAIT,
        "",
        0,
    ),
    (
        "a batch of each size of a list",
        TEN,
        play('"serial":[1,"70%"],'),
        "advance / plan / advance h5 / plan / undo / advance / advance / show",
        "advanced: h0 / plan batches=2 bound=serial waiting=9 size=7 / batch 1: h1 h3 h5 h7 h9 / batch 2: h2 h4 h6 h8 / advanced: h1 h3 h5 h7 h9 / "
        "plan batches=1 bound=serial waiting=4 size=7 / batch 1: h2 h4 h6 h8 / undone / advanced: h1 h3 h5 h7 h9 / advanced: h2 h4 h6 h8 / "
        + " / ".join(f"h{number} updated" for number in range(10))
        + " / end finished",
        "",
        0,
    ),
    (
        "hosts held back, and freed again",
        RACKS,
        play('"on_blocked":"hold",'),
        "advance a / plan / show / advance / show / undo / undo / show",
        "advanced: a d / plan batches=1 bound=group eu waiting=1 room=2 / batch 1: e / a failed / b held / c held / d updated / e waiting / end none / "
        "advanced: e / a failed / b held / c held / d updated / e updated / end held / undone / undone / "
        "a waiting / b waiting / c waiting / d waiting / e waiting / end none",
        "",
        0,
    ),
    (
        "a line too long",
        FOUR,
        play(),
        "show / " + "x" * 65_537,
        ALL_WAIT,
        "rollout: 906 LongLine",
        1,
    ),
]
