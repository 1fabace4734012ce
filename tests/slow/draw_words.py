"""Drawn words: free-form texts and arguments with right and wrong braces."""

HOLES = [
    "{{ v }}", "{{v}}", "{{ inventory_hostname }}", "{{ r.rc }}", "{{\tr . stdout\n}}", "{{ flag }}", "{{ w }}", "{{ q }}",
    "{{ r.changed }}", "{{ r }}", "{{ tier }}",
]
WRONG = [
    "{{ v | x }}", "{{ true }}", "{{ inventory_hostname.rc }}", "{{ v.foo }}", "{{", "{{ v", "{{ v }", "{%", "{#", "{{{ v }}}",
    "{{}}", "{{ 1v }}", "{{\vv }}", "{{ v.rc.rc }}", "{{ r .}}", "{{ group_names }}",
]
PLAIN = ["echo", "a", "-n", "}}", "}", "{", "{ {", "x=1", "creates", "a\tb", "caf\u00e9", "$", "%}", "0", "it s"]
ENDS = ["creates=x", "removes=/tmp", "chdir=/", "stdin=a", "it's", '"a b"', "a\\b", "xcreates=", "echo creates=x"]


def draw_word(random, wrong=0.012):
    """A word of a few parts, which may have blanks in it."""
    parts = [_part(random, wrong) for _ in range(random.choice([1, 1, 1, 2, 3]))]
    return "".join(parts)


def draw_free_form(random, wrong=0.012):
    """A text of words with blanks between them."""
    words = [draw_word(random, wrong) for _ in range(random.choice([0, 1, 1, 2, 3]))]
    words.insert(0, random.choice(["echo", "true", "true", "/bin/true"]) if random.random() < 0.94 else random.choice(["", " ", "x", "x", "x", *ENDS]))
    if random.random() < wrong:
        words.insert(random.randint(0, len(words)), random.choice(ENDS))
    return random.choice([" ", " ", "  ", "\t", "\n"]).join(words) + random.choice(["", "", "", " ", "\n"])


def _part(random, wrong):
    kind = random.random()
    if kind < wrong:
        return random.choice(WRONG)
    return random.choice(HOLES if kind < 0.55 else PLAIN)
