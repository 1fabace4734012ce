"""Drawn conditions: by the grammar, by the grammar with a token too few or too many, and the longest and deepest."""

from words import FIELDS

REFS = ["v", "w", "tier", "flag", "x", "_n", "r", "q", "inventory_hostname", "failed"]
TEXTS = ["", "a", "b", "1", "True", "true", "eu", "r1", "web", "all", "g", "caf\u00e9", "b c", "it's"]
NUMBERS = ["0", "1", "-1", "7", "007", "-0", "3", "9223372036854775807", "-9223372036854775808"]
ODD = [
    "9223372036854775808", "-9223372036854775809", "$", "=", "!", "-", "'a", '"', "'a\\n'", "'\\'", '"b\\"', "is", "not", "in",
    "and", "or", "(", ")", ".", "==", "rc", "group_names", "true", "5", "'t'", "\u00e9", "{{", "5ab", "1-2", "\v", "defined",
    "inventory_hostname",
]


def draw_condition(random, names=REFS, safe=False):
    """The text of a condition; where `safe`, one of the grammar and not the longest."""
    kind = random.random()
    if safe or kind < 0.9:
        return _joined(_any(random, names, random.choice([0, 1, 1, 2, 3])), random, safe)
    if kind < 0.97:
        return _joined(_odd(_any(random, names, random.choice([0, 1, 2])), random), random, safe)
    return _greatest(random)


def _any(random, names, size):
    """The tokens of a condition of about so many operators."""
    if size == 0 or random.random() < 0.2:
        return _test(random, names)
    kind = random.choice(["or", "and", "or", "and", "not", "brackets"])
    if kind == "not":
        return ["not", *_any(random, names, size - 1)]
    if kind == "brackets":
        return ["(", *_any(random, names, size - 1), ")"]
    return [*_any(random, names, size - 1), kind, *_any(random, names, size - 1)]


def _test(random, names):
    kind = random.choice(["same", "same", "same", "result", "result", "defined", "defined", "group", "operand", "operand"])
    contrary = ["not"] if random.random() < 0.3 else []
    if kind == "result":
        return [random.choice([name for name in names if name != "inventory_hostname"]), "is", *contrary, random.choice(["failed", "changed", "skipped", "succeeded"])]
    if kind == "defined":
        return [*_ref(random, names), "is", *contrary, "defined"]
    if kind == "group":
        return [_text(random), *contrary, "in", "group_names"]
    if kind == "operand":
        return _operand(random, names)
    return [*_operand(random, names), random.choice(["==", "==", "!="]), *_operand(random, names)]


def _operand(random, names):
    kind = random.choice(["ref", "ref", "ref", "text", "number", "constant"])
    if kind == "ref":
        return _ref(random, names)
    if kind == "text":
        return [_text(random)]
    if kind == "number":
        return [random.choice(NUMBERS)]
    return [random.choice(["true", "false", "True", "False"])]


def _ref(random, names):
    name = random.choice(names)
    if name == "inventory_hostname" or random.random() < 0.6:
        return [name]
    return [name, ".", random.choice(FIELDS)]


def _text(random):
    text = random.choice(TEXTS)
    quote = '"' if "'" in text or random.random() < 0.3 else "'"
    return quote + text + quote


def _odd(tokens, random):
    tokens = list(tokens)
    for _ in range(random.choice([1, 1, 2])):
        place = random.randint(0, len(tokens))
        kind = random.choice(["add", "add", "drop", "put"])
        if kind == "add" or place == len(tokens):
            tokens.insert(place, random.choice(ODD))
        elif kind == "drop":
            del tokens[place]
        else:
            tokens[place] = random.choice(ODD)
    return tokens


def _joined(tokens, random, safe):
    """The tokens with blanks between them, or without where none are needed."""
    text = ""
    for token in tokens:
        needed = text and (text[-1].isalnum() or text[-1] == "_") and (token[0].isalnum() or token[0] in "_-")
        if needed or (text and token != "." and random.random() < 0.8 and not text.endswith(".")):
            text += random.choice([" ", " ", " ", "  ", "\t", "\n"])
        elif text and random.random() < 0.05:
            text += random.choice([" ", "\r", " " if safe else "\v"])
        text += token
    return text


def _greatest(random):
    """Depths and lengths at the bound, and just beyond it."""
    more = random.choice([0, 0, 1, 2])
    kind = random.choice(["brackets", "not", "both", "chain", "long", "long", "beside"])
    if kind == "brackets":
        return "(" * (32 + more) + "true" + ")" * (32 + more)
    if kind == "not":
        return "not " * (32 + more) + "false"
    if kind == "both":
        return "not (" * 16 + "not " * more + "true" + ")" * 16
    if kind == "chain":
        return "true or " * 500 + "true"
    if kind == "beside":
        return " and ".join(["(not (v is not defined))"] * 40)
    return " " * (4_092 + random.choice([0, 1, 1, 2])) + random.choice(["true", "(tru"])
