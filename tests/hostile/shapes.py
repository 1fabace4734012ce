"""Hostile texts of about a given number of bytes: deep, wide, long, doubled, cut off; and what has to be said of each, by docs/FORMATS.md and docs/FAULTS.md.

usage: python3 tests/hostile/shapes.py NAME BYTES     prints the text
       python3 tests/hostile/shapes.py                lists the names

A text is an inventory or a playbook, and goes with a small one of the other kind. It is refused by a line, or accepted: then the host `h0` is in no limited group, and it is the
one host of each play. Some are what they are only from so many bytes on. A byte that is no UTF-8 stands in a text as Python's `surrogateescape` has it.
"""

import sys
from dataclasses import dataclass

MIB = 1 << 20
INVENTORY = '{"all":{"vars":{"v":"x"},"hosts":{"h0":null}}}'
PLAYBOOK = '[{"hosts":"h0","tasks":[{"command":"true"}]}]'
# As deep as JSON may go below a variable: the object itself, `all` and `vars` stand above it.
DEEP = 120


@dataclass
class Told:
    """What has to be said: the line of a fault; or else what `limits` prints, and of each play how many steps of `h0` run a program and how many are skipped."""

    fault: str = ""
    table: str = "hosts=1 limited=0"
    plays: tuple = ((1, 0),)


@dataclass
class Shape:
    name: str
    kind: str
    make: object
    in_gate: bool
    least: int

    def made(self, size):
        """The text, of about so many bytes, and what has to be told of it."""
        text, told = self.make(size)
        return text, told if isinstance(told, Told) else Told(fault=told)

    def files(self, size):
        """The inventory, the playbook, and what has to be told."""
        text, told = self.made(size)
        return (text, PLAYBOOK, told) if self.kind == "inventory" else (INVENTORY, text, told)


SHAPES = []


def shape(kind, name, make, in_gate=False, least=0):
    SHAPES.append(Shape(name, kind, make, in_gate, least))


def filled(size, unit, between=","):
    """So many units that they have about so many bytes; a unit is a text, or makes one of its number."""
    one = unit if isinstance(unit, str) else unit(0)
    count = max(1, size // (len(one.encode()) + len(between)))
    return between.join([unit] * count if isinstance(unit, str) else map(unit, range(count)))


# ---- inventories


def inventory(name, make, in_gate=False, least=0):
    shape("inventory", name, make, in_gate, least)


def variable(name, value, in_gate=False):
    """A variable of `all` with this value."""
    inventory(name, lambda size: ('{"all":{"vars":{"x":%s},"hosts":{"h0":null}}}' % value(size), Told()), in_gate)


def listed(unit, between=","):
    return lambda size: "[%s]" % filled(size, unit, between)


def text_of(letters):
    return lambda size: '"%s"' % filled(size, letters, "")


NESTED_KEYS = '{"a":' * DEEP + "0" + "}" * DEEP
variable("one-key objects, nested", listed(NESTED_KEYS), True)
variable('a list of {"a":1}', listed('{"a":1}'), True)
variable("a list of {}", listed("{}"))
variable("a list of []", listed("[]"), True)
variable("lists, nested", listed("[" * DEEP + "]" * DEEP), True)
variable("a list of 0", listed("0"), True)
variable("a list of 64-bit numbers", listed("-9223372036854775808"))
variable("a list of floats", listed("1.5e300"))
variable('a list of ""', listed('""'), True)
variable("a list of texts", listed('"twenty bytes of text"'))
variable("a list of null", listed("null"))
variable("an object of many keys", lambda size: "{%s}" % filled(size, lambda key: f'"k{key:07}":0'), True)
variable("an object of one key, again and again", lambda size: "{%s}" % filled(size, '"k":0'), True)
variable("a long key", lambda size: "{%s:0}" % text_of("k")(size))
variable("a long text", text_of("x"), True)
variable("a text of escapes", text_of("\\u0061"), True)
variable("a text of pairs of escapes", text_of("\\ud83d\\ude00"))
variable("a text of short escapes", text_of("\\n\\\\"))
variable("a text of letters of three bytes", text_of("€"))
variable("a number of many digits", lambda size: "0." + "3" * size)
variable("a number with a long exponent", lambda size: "1e-" + "9" * size)
variable("blanks", lambda size: " \t\r\n" * (size // 4) + "0")
variable("blanks between numbers", listed("0", " , "))


def hosts_with_variables(size):
    """4,096 hosts that share the text in variables."""
    most = 4096
    variables = filled(size // most - 14, lambda number: f'"n{number:04}":0')
    return '{"all":{"hosts":{%s}}}' % ",".join('"h%d":{%s}' % (host, variables) for host in range(most)), Told(table=f"hosts={most} limited=0")


def hosts_of_long_names(size):
    """16,384 rows, of hosts with the longest names, in four groups of 4,096, and what is left of the text in their variables; `h0` is one of them."""
    count = min(4096, size // (4 * 270))
    rows = "".join(',"%s":{"v":"%s"}' % (f"{host:0255}", "x" * max(0, size // (4 * count) - 270)) for host in range(1, count))
    groups = ",".join('"g%d":{"hosts":{"h0":null%s}}' % (group, rows) for group in range(4))
    return "{%s}" % groups, Told(table=f"hosts={count} limited=0")


def rows_in_groups(size):
    """4,096 hosts, each in four of 1,024 groups side by side, and what is left of the text in variables of the groups."""
    group = lambda number: ",".join(f'"h{(number * 4 + host) % 4096}":null' for host in range(16))
    left = max(0, size - 1023 * 230) // 1023
    named = lambda number: '"g%d":{"vars":{"t":"%s"},"hosts":{%s}}' % (number, "x" * left, group(number))
    return "{%s}" % ",".join(named(number) for number in range(1023)), Told(table="hosts=4096 limited=0")


def nested_groups(size):
    """31 groups within each other under `all`, each with as many variables as the others, of the same names."""
    variables = filled(size // 31 - 40, lambda number: f'"n{number:06}":0')
    text = '{"vars":{%s},"hosts":{"h0":null}}' % variables
    for group in range(30, 0, -1):
        text = '{"vars":{%s},"children":{"g%d":%s}}' % (variables, group, text)
    return '{"g0":%s}' % text, Told()


def rows_of_one_host(size):
    """One host in as many groups as may be, which share the text in its variables."""
    variables = filled(size // 1023 - 30, lambda number: f'"n{number:04}":0')
    return "{%s}" % ",".join('"g%04d":{"hosts":{"h0":{%s}}}' % (group, variables) for group in range(1023)), Told()


def crossing_limits(size):
    """As many limited groups as may be, each with the same hosts: any two of them cross."""
    hosts = ",".join(f'"h{host:02}":null' for host in range(16))
    groups = ",".join('"g%04d":{"vars":{"max_down":1},"hosts":{%s}}' % (group, hosts) for group in range(1023))
    return '{"all":{"vars":{"x":"%s"}},%s}' % ("x" * max(0, size - len(groups) - 30), groups), "301 NotNested host=h00 first=g0000 second=g0001"


def below(head, unit, tail, told, between=","):
    return lambda size: (head + filled(size, unit, between) + tail, told)


inventory("4,096 hosts with variables", hosts_with_variables, least=200_000)
inventory("hosts of long names in four groups", hosts_of_long_names)
inventory("many hosts in many groups", rows_in_groups, True, least=300_000)
inventory("a thousand limits that all cross", crossing_limits, True, least=300_000)
inventory("variables of nested groups", nested_groups, least=20_000)
inventory("a host with many variables", below('{"all":{"hosts":{"h0":{', lambda key: f'"k{key:07}":"v"', "}}}}", Told()))
inventory("a host again and again", below('{"all":{"hosts":{', '"h0":{"down":false}', "}}}", Told()))
inventory("all again and again", below("{", '"all":{"hosts":{"h0":null}}', "}", Told()))
inventory("too many hosts", below('{"all":{"hosts":{', lambda host: f'"h{host:07}":null', "}}}", "104 TooMany"), True, least=300_000)
inventory("too many groups", below("{", lambda group: f'"g{group:07}":{{}}', "}", "104 TooMany"), least=20_000)
inventory("too many rows, in groups", below("{", lambda group: '"g%05d":{"hosts":{%s}}' % (group, ",".join(f'"h{host}":null' for host in range(99))), "}", "104 TooMany"), least=300_000)
inventory("groups of one name", below("{", lambda group: f'"g{group:07}":{{"children":{{"g":null}}}}', "}", "102 TwicePlaced group=5"), least=1_000)
inventory("many bad names", below('{"all":{"hosts":{', lambda host: f'"h {host:07}":null', "}}}", "101 BadName name=h 0000000"))
inventory("many bad limits", below("{", lambda group: f'"g{group:07}":{{"vars":{{"max_down":-1}}}}', "}", "204 BadLimit at=g0000000/vars/max_down"))
inventory("unknown keys", below('{"all":{', lambda key: f'"k{key:07}":0', "}}", "203 UnknownKey at=all/k0000000"))
inventory("a long unknown key", lambda size: ('{"all":{"%s":0}}' % ("k" * size), "203 UnknownKey at=all/" + "k" * size))
inventory("a long name", lambda size: ('{"%s":null}' % ("n" * size), "101 BadName name=" + "n" * size))
inventory("a long name of other letters", lambda size: ('{"%s":null}' % ("é" * (size // 2)), "101 BadName name=" + "??" * (size // 2)))
inventory("a limit that is a long list", below('{"all":{"vars":{"max_down":[', NESTED_KEYS, "]}}}", "204 BadLimit at=all/vars/max_down"))
inventory("a long limit", lambda size: ('{"all":{"vars":{"max_down":"%s%%"}}}' % ("0" * size), "204 BadLimit at=all/vars/max_down"))
inventory("a list of hosts", below('{"all":{"hosts":[', '"h0"', "]}}", "202 BadShape at=all/hosts"))
inventory("open brackets", lambda size: ("[" * size, "201 NotJson"), True)
inventory("open objects", lambda size: ('{"a":' * (size // 5), "201 NotJson"))
inventory("groups too deep", lambda size: ('{"children":{"g":' * (size // 19) + "null" + "}}" * (size // 19), "201 NotJson"))
inventory("cut off", below('{"all":{"vars":{"x":[', NESTED_KEYS, "", "201 NotJson"))
inventory("bytes of no meaning", lambda size: ("\0" * size, "201 NotJson"))
inventory("no text at the end", below('{"all":{"vars":{"x":[', '{"a":1}', ',"\\ud800"]}}}', "201 NotJson"), True)
inventory("a number past all numbers", lambda size: ('{"all":{"vars":{"x":%s}}}' % ("9" * size), "201 NotJson"))
inventory("no UTF-8 at the end", below('{"all":{"vars":{"x":[', '{"a":1}', ',"\udcff"]}}}', "201 NotJson"), True)
inventory("a second text behind the end", lambda size: (INVENTORY + " " * size + "{}", "201 NotJson"))
inventory("blanks alone", lambda size: (" \t\r\n" * (size // 4), "201 NotJson"))
inventory("a list in place of an inventory", below("[", NESTED_KEYS, "]", "202 BadShape at="), True)
inventory("a text in place of an inventory", lambda size: ('"%s"' % ("x" * size), "202 BadShape at="))
inventory("a host in each of a thousand groups", rows_of_one_host, True, least=300_000)


# ---- playbooks


def playbook(name, make, in_gate=False, least=0):
    shape("playbook", name, make, in_gate, least)


def step(name, keys, told, in_gate=False):
    """A play of one step, which has these keys, made for a size, beside its command."""
    playbook(name, lambda size: ('[{"hosts":"h0","tasks":[{"command":"true",%s}]}]' % keys(size), told if isinstance(told, (Told, str)) else told(size)), in_gate)


def command(name, value, told, in_gate=False):
    """A play of one step with this command, which is never run."""
    playbook(name, lambda size: ('[{"hosts":"h0","tasks":[{"command":%s,"when":false}]}]' % value(size), told), in_gate)


def play(name, keys, told, in_gate=False):
    """A play with these keys before its hosts."""
    playbook(name, lambda size: ('[{%s,"hosts":"h0","tasks":[{"command":"true"}]}]' % keys(size), told if isinstance(told, (Told, str)) else told(size)), in_gate)


def conditions(key, one):
    """A list of this condition."""
    return lambda size: f'"{key}":' + listed(f'"{one}"')(size)


SKIPPED = Told(plays=((0, 1),))
RAN = Told()
OR_CHAIN = " or ".join(["true"] * 512)
AND_CHAIN = " and ".join(["x != 'a'"] * 300).replace("x", "v")
BRACKETS = ("(" * 32 + "v" + ")" * 32 + " or ") * 59 + "v"


def greatest(size):
    """16 plays of 256 steps, whose names share the text; no step runs a program."""
    name = "n" * max(1, size // 4096 - 50)
    steps = ",".join(['{"name":"%s","command":"true","when":false}' % name] * 256)
    return "[%s]" % ",".join(['{"hosts":"h0","tasks":[%s]}' % steps] * 16), Told(plays=((0, 256),) * 16)


def many_words(size):
    """256 steps of many words with holes; none runs a program."""
    words = filled(size // 256 - 40, "{{ v }}", " ")
    return '[{"hosts":"h0","tasks":[%s]}]' % ",".join(['{"command":"%s","when":false}' % words] * 256), Told(plays=((0, 256),))


def many_handlers(size):
    """255 handlers of long names, each notified over and over."""
    names = [f"h{number:03}" for number in range(255)]
    text = '[{"hosts":"h0","tasks":[{"command":"true","notify":[%s]}],"handlers":[%s]}]'
    return text % (filled(size, lambda number: '"%s"' % names[number % 255]), ",".join('{"name":"%s","command":"true","when":false}' % name for name in names)), Told(plays=((1, 255),))


step("when: 32 not", conditions("when", "not " * 32 + "v"), RAN, True)
step("when: or-chains", conditions("when", OR_CHAIN), RAN, True)
step("when: and-chains", conditions("when", AND_CHAIN), RAN)
step("when: brackets", conditions("when", BRACKETS), RAN, True)
step("when: names", conditions("when", "v"), RAN)
step("when: many names", lambda size: '"when":[%s]' % filled(size, lambda number: f'"n{number:07} is defined or v"'), RAN)
step("when: true", lambda size: '"when":' + listed("true")(size), RAN)
step("when: long texts", conditions("when", "'%s' == '%s'" % ("a" * 2000, "a" * 2000)), RAN)
step("when: groups", conditions("when", "'g' not in group_names"), RAN)
step("failed_when: numbers", conditions("failed_when", "7 == 8"), RAN)
step("changed_when: a long name", conditions("changed_when", "%s is not defined" % ("n" * 4000)), RAN)
step("when: a byte too long", lambda size: '"when":"%s"' % ("v" * max(size, 4097)), "504 TooLong step=1 key=when at=4096")
step("when: a bad token at the end", lambda size: '"when":[%s,"a ="]' % filled(size, '"%s"' % OR_CHAIN), "501 BadToken step=1 key=when at=2")
step("when: too deep at the end", lambda size: '"when":[%s,"%sv"]' % (filled(size, '"v"'), "(" * 4000), "503 TooDeep step=1 key=when at=32", True)
step("a long list of handlers that aren't there", lambda size: '"notify":' + listed('"n"')(size), "704 NoSuchHandler name=n")
step("many handlers that aren't there", lambda size: '"notify":[%s]' % filled(size, lambda number: f'"n{number:07}"'), "704 NoSuchHandler name=n0000000")
step("many bad conditions", conditions("when", "v ="), "501 BadToken step=1 key=when at=2")
step("a handler of a long name that isn't there", lambda size: '"notify":"%s"' % ("n" * size), lambda size: "704 NoSuchHandler name=" + "n" * size)
step("a name again and again", lambda size: filled(size, '"name":"n"'), RAN)
step("a long name of a result", lambda size: '"register":"%s"' % ("r" * size), RAN)
step("a long name of a step", lambda size: '"name":"%s"' % ("n" * size), RAN)
step("a long key of a step", lambda size: '"%s":0' % ("k" * size), lambda size: "703 UnknownKey at=0/tasks/0/" + "k" * size)
step("a name that is a long list", lambda size: '"name":' + listed(NESTED_KEYS)(size), "702 BadShape at=0/tasks/0/name")
command("a long word", text_of("w"), SKIPPED)
command("many words", text_of("w "), SKIPPED)
command("many words of a list", lambda size: '{"argv":%s}' % listed('"w"')(size), SKIPPED, True)
command("many words that are numbers", lambda size: '{"argv":%s}' % listed("7")(size), SKIPPED)
command("a word of holes", text_of("{{v}}"), SKIPPED, True)
command("words of holes", text_of("{{ v }} "), SKIPPED)
command("words of holes of results", text_of("{{ r.stdout }} "), SKIPPED)
command("openings", text_of("{{ "), "602 BadBraces step=1")
command("a bad brace at the end", lambda size: '"%s {%%"' % ("{{v}}" * (size // 5)), "602 BadBraces step=1")
command("a word of escapes", text_of("\\u0061"), SKIPPED)
command("a word of quotes", text_of("'"), "702 BadShape at=0/tasks/0/command")
play("a list of sizes that is too long", lambda size: '"serial":' + listed("1")(size), "706 BadSerial at=0/serial")
play("a size of many digits", lambda size: '"serial":"%s"' % ("0" * size), "706 BadSerial at=0/serial")
play("a percentage of many digits", lambda size: '"max_fail_percentage":0.%s' % ("0" * size), "707 BadPercent at=0/max_fail_percentage")
play("one-key objects, nested, that mean nothing", lambda size: '"gather_facts":' + listed(NESTED_KEYS)(size), RAN, True)
play('a list of {"a":1} that means nothing', lambda size: '"connection":' + listed('{"a":1}')(size), RAN)
playbook("a pattern of many parts", below('[{"hosts":"', "h0", '","tasks":[{"command":"true"}]}]', RAN, ":"), True)
playbook("a pattern of empty parts", below('[{"hosts":"', " ,", 'h0","tasks":[{"command":"true"}]}]', RAN, ":"))
playbook("a list of patterns", below('[{"hosts":[', '"h0"', '],"tasks":[{"command":"true"}]}]', RAN))
playbook("a pattern with a long name", lambda size: ('[{"hosts":"%s","tasks":[{"command":"true"}]}]' % ("n" * size), "304 NoSuchName name=" + "n" * size))
playbook("many unknown names in a pattern", below('[{"hosts":"', lambda number: f"n{number:07}", '","tasks":[{"command":"true"}]}]', "304 NoSuchName name=n0000000", ":"))
playbook("an unknown name behind many", below('[{"hosts":"', "h0", ':none","tasks":[{"command":"true"}]}]', "304 NoSuchName name=none", ","))
playbook("16 plays of 256 steps", greatest, True, least=300_000)
playbook("256 steps of holes", many_words, least=20_000)
playbook("255 handlers, notified over and over", many_handlers, True, least=20_000)
playbook("too many plays", below("[", PLAYBOOK[1:-1], "]", "708 ManyPlays"), True)
playbook("too many steps", below('[{"hosts":"h0","tasks":[', '{"command":"true"}', "]}]", "709 TooManySteps"), True, least=20_000)
playbook("too many handlers", below('[{"hosts":"h0","tasks":[{"command":"true"}],"handlers":[', '{"name":"h","command":"true"}', "]}]", "709 TooManySteps"), least=20_000)
playbook("an object in place of a playbook", below('{"hosts":"h0","tasks":[', '{"command":"true"}', "]}", "702 BadShape at="))
playbook("a playbook of blanks alone", lambda size: (" \t\r\n" * (size // 4), "701 NotJson"))
playbook("a playbook with no UTF-8 at the end", below('[{"hosts":"h0","tasks":[', '{"command":"true"}', ',{"command":"\udcff"}]}]', "701 NotJson"), True)
playbook("a playbook of blanks", lambda size: ('[{"hosts":"h0",%s"tasks":[{"command":"true"}]}]' % (" " * size), RAN))
playbook("an open playbook", lambda size: ('[{"hosts":' * (size // 10), "701 NotJson"))
playbook("a playbook that is cut off", below('[{"hosts":"h0","tasks":[', '{"command":{"argv":["a"]}}', "", "701 NotJson"))


def as_bytes(text):
    return text.encode("utf-8", "surrogateescape")


def named(name):
    return next(shape for shape in SHAPES if shape.name == name)


if __name__ == "__main__":
    if len(sys.argv) == 1:
        print(*(shape.name for shape in SHAPES), sep="\n")
    else:
        sys.stdout.buffer.write(as_bytes(named(sys.argv[1]).made(int(sys.argv[2]))[0]))
