"""Drawn programs and conditions of steps that are run: each program is one whose outcome `programs.py` knows."""

from draw_conditions import draw_condition
from draw_steps import AnyStyle
from json_draw import Members

HOST = "{{ inventory_hostname }}"
# What a script prints, and what is kept of it.
PRINTED = {
    "out": "out",
    "a-1": "a-1",
    "'a b'": "a b",
    "'a\\r\\n\\n'": "a",
    "'\\377'": "\ufffd",
    "'\\303\\251'": "\u00e9",
    "'b\\303'": "b\ufffd",
    "'x\\ny\\n'": "x\ny",
    "'\\n'": "",
    "1": "1",
}
OF_RESULTS = [
    "{0}.rc == 0",
    "{0}.rc != 0",
    "{0}.rc == 1",
    "{0}.rc == 3",
    "{0}.rc == -1",
    "{0}.rc != -1",
    "{0}.rc",
    "{0} is succeeded",
    "{0} is not succeeded",
    "{0} is failed",
    "{0} is not failed",
    "{0} is changed",
    "{0} is not changed",
    "{0} is skipped",
    "{0} is defined",
    "{0} is not defined",
    "{0}.rc is defined",
    "{0}.rc is not defined",
    "{0}.stdout is defined",
    "{0}.stdout",
    "{0}.stderr == ''",
    "{0}.changed",
    "not {0}.changed",
    "{0}.failed",
    "{0}.skipped == false",
    "{0} == {0}",
    "{0}",
    "{0} is not defined or {0}.rc == 0",
]
OF_VARIABLES = [
    "v == 1",
    "v == '1'",
    "v == true",
    "v != 'a'",
    "v",
    "w == 1",
    "w",
    "not v",
    "v == w",
    "v is defined",
    "v is defined and v == 1",
    "flag",
    "tier == 'True' or true",
]
OF_HOSTS = [
    "inventory_hostname != '{0}'",
    "inventory_hostname == '{0}' or inventory_hostname == 'c'",
    "'r1' in group_names",
    "'eu' not in group_names",
    "'all' in group_names",
    "false or (x is defined and x.rc == 0)",
    "not 1 == 2",
    "true or v == 1 and false",
    "false and v == 1 or true",
]


class RunStyle(AnyStyle):
    """Steps that are run on the hosts of an inventory, whose names are known: most succeed, some on some hosts alone."""

    chances = {"register": 0.6, "when": 0.4, "changed_when": 0.12, "failed_when": 0.1, "ignore_errors": 0.35, "notify": 0.8}

    def __init__(self, names):
        super().__init__(wrong=0)
        self.names = [*names[:8], "other"]
        self.printed = ["", "out"]
        # Whether the last output drawn is about as long as a word may be.
        self.long = False

    def condition(self, random, register=None):
        if register is not None and random.random() < 0.7:
            return self._of_result(random, register)
        kind = random.random()
        if kind < 0.5:
            name = random.choice(self.known) if self.known and random.random() < 0.95 else random.choice(["r", "x", "q"])
            return self._of_result(random, name)
        if kind < 0.7:
            return random.choice(OF_VARIABLES)
        if kind < 0.9:
            return random.choice(OF_HOSTS).format(random.choice(self.names))
        names = ["v", "w", "inventory_hostname", *self.known, random.choice(["r", "x", "tier"])]
        return draw_condition(random, names, safe=True)

    def _of_result(self, random, name):
        if random.random() < 0.4:
            text = random.choice(self.printed if random.random() < 0.8 else list(PRINTED.values()))
            return f"{name}.{random.choice(['stdout', 'stdout', 'stderr'])} {random.choice(['==', '==', '!='])} '{text}'"
        return random.choice(OF_RESULTS).format(name)

    def step(self, random):
        """Now and then a step at the bounds of words and programs, whose failure is ignored or asked for."""
        if random.random() > (0.5 if self.long else 0.1):
            return None
        if random.random() < 0.4 and not self.long:
            return self._judged(random)
        step = Members([("command", Members([("argv", random.choice(self._bounds(random)))])), ("ignore_errors", random.random() < 0.9), ("register", "r")])
        if random.random() < 0.3:
            step.append((random.choice(["failed_when", "changed_when"]), random.choice([True, False, "r.failed", "r.changed", "q == 1"])))
        return step

    def _judged(self, random):
        """A step whose result both conditions replace."""
        return Members(
            [
                ("command", self._choice(random)),
                ("register", "r"),
                ("changed_when", random.choice([False, True, "r.failed", "r.rc != 0", "q == 1"])),
                ("failed_when", random.choice(["r.changed", "not r.changed", "r is failed", "r.rc == 0", "q == 1", False, True])),
                ("ignore_errors", random.random() < 0.7),
            ]
        )

    def _bounds(self, random):
        """Words at the bounds; behind a long output those that take it up."""
        if self.long:
            self.long = False
            return [["echo", "{{ r.stdout }}"], ["echo", "{{ r.stdout }}"], ["echo", "{{ r.stdout }}x"]]
        self.long = random.random() < 0.2
        if self.long:
            return [["sh", "-c", f"head -c {random.choice([65_535, 65_536, 65_537, 70_000])} /dev/zero | tr '\\000' x"]]
        host = random.choice(self.names)
        return [
            ["echo", "x" * 65_536],
            ["echo", "x" * 65_537],
            ["echo", "x" * 65_537, "{{ q }}"],
            ["echo", "{{ q }}", "x" * 65_537],
            ["echo", "x" * 65_537 + "{{ q }}"],
            ["echo", "{{ r.stdout }}x"],
            ["/no/such/program"],
            [""],
            ["/dev/null", HOST],
            ["no-such-program"],
            ["tr\0ue"],
            ["{{ v }}"],
            ["sh", "-c", "kill -9 $$"],
            ["sh", "-c", f"test {HOST} != {host} || kill -9 $$"],
            ["sh", "-c", f"printf a; test {HOST} != {host} || kill -9 $$"],
        ]

    def command(self, random):
        kind = random.random()
        if kind < 0.25:
            return random.choice(["true", "/bin/true", "true", "true", "true", "true", "false"])
        if kind < 0.4:
            return self._choice(random)
        if kind < 0.45:
            return f"test {self._word(random)} {random.choice(['!=', '='])} {random.choice(['1', 'a', 'True', '0', 'out'])}"
        if kind < 0.55:
            return "echo " + " ".join(self._word(random) for _ in range(random.choice([1, 1, 2])))
        return Members([("argv", ["sh", "-c", self._script(random)])])

    def _word(self, random):
        """A word that mostly has a value, of a variable or of what was registered."""
        kind = random.random()
        if kind < 0.05:
            return random.choice(["{{ q }}", "{{ r }}", "{{ x.rc }}"])
        if kind < 0.35 and self.known:
            return f"{{{{ {random.choice(self.known)}.{random.choice(['rc', 'stdout', 'changed', 'failed', 'skipped', 'stderr'])} }}}}"
        return random.choice([HOST, "{{ v }}", "{{ w }}", "{{ v }}", "{{w}}", "a", "1", "}}"])

    def _choice(self, random):
        """A test that fails on one host, or now and then on all others."""
        return f"test {HOST} {random.choice(['!='] * 12 + ['='])} {random.choice(self.names)}"

    def _script(self, random):
        """A few simple commands behind each other."""
        script = self._part(random)
        for _ in range(random.choice([0, 0, 1, 2])):
            script += random.choice(["; ", "; ", "; ", " && ", " || "]) + self._part(random)
        if random.random() < 0.2:
            script += f"; {self._choice(random)} || exit {random.choice([0, 1, 3, 255])}"
        return script

    def _part(self, random):
        kind = random.random()
        if kind < 0.3:
            return self._choice(random)
        if kind < 0.75:
            written = random.choice(list(PRINTED))
            self.printed.append(PRINTED[written])
            return f"printf {written}" + random.choice(["", "", " >&2"])
        if kind < 0.85:
            return random.choice(["echo a b", f"echo {HOST}", f"echo {self._word(random)} >&2", f"echo {HOST} {self._word(random)}"])
        if kind < 0.9:
            return f"sleep 0.0{random.choice('12')}"
        return random.choice(["true", ":", f"{self._choice(random)} || exit 3", f"{self._choice(random)} || kill -9 $$"])
