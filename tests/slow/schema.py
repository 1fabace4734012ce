"""Whether a text is one JSON value that docs/rollout.schema.json describes. Of JSON Schema it has what stands there, and refuses to go by more.

`python3 schema.py [PART] <TEXT` says what is wrong, and ends with 1 where something is; PART is a definition of the schema, as `plan`.
"""

import json
import re
import sys
from functools import lru_cache
from pathlib import Path

SCHEMA = Path(__file__).resolve().parents[2] / "docs" / "rollout.schema.json"
KINDS = {"object": dict, "array": list, "string": str, "integer": int, "null": type(None)}
# What says nothing of a value.
WORDS = {"$schema", "title", "description", "$defs"}


class Misfit(Exception):
    """What is wrong, and where."""


@lru_cache
def schema():
    return json.loads(SCHEMA.read_text())


def misfit(text, part=None):
    """What is wrong with a text: that it is no line of JSON, names a key twice, or isn't as the schema, or a part of it, says. None where nothing is."""
    try:
        if not text.endswith("\n") or text.count("\n") != 1:
            raise Misfit("it isn't one line")
        value = json.loads(text, object_pairs_hook=_once, parse_constant=_no_number)
        _check(value, {"$ref": f"#/$defs/{part}"} if part else schema(), "")
    except (ValueError, Misfit) as fault:
        return str(fault)
    return None


def misfit_of(said):
    """What is wrong with what a command said with `--json`: an object on one of both outputs, or on both; of a rehearsal one for each line that is answered, so several, or none."""
    *lines, last = said.out.splitlines(keepends=True) or [""]
    found = [misfit(line, "reply") for line in lines]
    found += [misfit(last, "reply" if lines else None)] if last else []
    found += [misfit(said.errors, "fault")] if said.errors else []
    return next((wrong for wrong in found if wrong), None)


def _once(pairs):
    value = dict(pairs)
    if len(value) < len(pairs):
        raise Misfit(f"a key stands twice in {pairs}")
    return value


def _no_number(word):
    raise Misfit(f"{word} is no number of JSON")


def _check(value, rule, at):
    """Raises what is wrong with a value at a path, by a rule of the schema."""
    for word, wanted in rule.items():
        if word not in WORDS:
            _CHECKS[word](value, wanted, at, rule)


def _fits(value, rule):
    try:
        _check(value, rule, "")
    except Misfit:
        return False
    return True


def _lack(holds, at, why):
    if not holds:
        raise Misfit(f"{at or '/'}: {why}")


def _ref(value, name, at, _):
    _check(value, schema()["$defs"][name.removeprefix("#/$defs/")], at)


def _type(value, kind, at, _):
    _lack(isinstance(value, KINDS[kind]) and not isinstance(value, bool), at, f"{value!r:.80} is no {kind}")


def _one_of(value, rules, at, _):
    count = sum(_fits(value, rule) for rule in rules)
    _lack(count == 1, at, f"{value!r:.200} fits {count} of {len(rules)} shapes")


def _properties(value, rules, at, _):
    for key, rule in rules.items():
        if isinstance(value, dict) and key in value:
            _check(value[key], rule, f"{at}/{key}")


def _closed(value, is_open, at, rule):
    more = sorted(set(value) - set(rule["properties"])) if isinstance(value, dict) and not is_open else []
    _lack(not more, at, f"no key is called {', '.join(more)}")


def _required(value, keys, at, _):
    missing = [key for key in keys if isinstance(value, dict) and key not in value]
    _lack(not missing, at, f"{', '.join(missing)} isn't there")


def _items(value, rule, at, _):
    for place, entry in enumerate(value if isinstance(value, list) else []):
        _check(entry, rule, f"{at}/{place}")


_CHECKS = {
    "$ref": _ref,
    "type": _type,
    "oneOf": _one_of,
    "properties": _properties,
    "additionalProperties": _closed,
    "required": _required,
    "items": _items,
    "const": lambda value, wanted, at, _: _lack(value == wanted and type(value) is type(wanted), at, f"{value!r:.80} isn't {wanted!r}"),
    "enum": lambda value, wanted, at, _: _lack(value in wanted and not isinstance(value, bool), at, f"{value!r:.80} is none of {wanted}"),
    "minimum": lambda value, least, at, _: _lack(not isinstance(value, int) or value >= least, at, f"{value!r} is less than {least}"),
    "minItems": lambda value, least, at, _: _lack(not isinstance(value, list) or len(value) >= least, at, f"fewer than {least} entries"),
    "pattern": lambda value, pattern, at, _: _lack(not isinstance(value, str) or re.search(rf"{pattern}(?!\n)", value), at, f"{value!r:.80} isn't as {pattern}"),
}


if __name__ == "__main__":
    found = misfit(sys.stdin.read(), *sys.argv[1:2])
    if found:
        print(found)
    sys.exit(1 if found else 0)
