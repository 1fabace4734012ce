"""events.py EVENTS: what a run told with `--json -v`, as the lines that `-v` alone has for it; what is no such event is said, with status 1.

Each line is one object of JSON without blanks between its tokens, with the members of its event and no others, in their order. Lines of a fault, and what stands
behind them in words, are written as they are.
"""

import json
import sys

WARNING = "its name stands where an option may: write -- before it"
# Of each event its members in their order, and which of them may be missing.
MEMBERS = {
    "play": ("play", ""),
    "held": ("hosts", ""),
    "open": ("waiting at hosts", ""),
    "begins": ("host step at name warning", "name warning"),
    "ends": (
        "host step verdict rc signal undefined not_started lost ms name stdout stderr error",
        "rc signal undefined not_started lost ms name stdout stderr error",
    ),
    "closed": ("updated failed halted ms at", ""),
    "descriptors": ("limit at_once", ""),
    "note": ("text", ""),
}
KINDS = {
    **dict.fromkeys("host verdict undefined name error warning text".split(), str),
    **dict.fromkeys("play step waiting at rc signal ms updated failed halted limit at_once".split(), int),
    **dict.fromkeys("hosts stdout stderr".split(), list),
    **dict.fromkeys("not_started lost".split(), bool),
}


class Wrong(Exception):
    """A line is no event."""


def members(event):
    """The members of an event beside its kind, each of its type."""
    kind, *names = event
    if kind != "event" or event["event"] not in MEMBERS:
        raise Wrong("no kind of event")
    known, left_out = (part.split() for part in MEMBERS[event["event"]])
    if names != [name for name in known if name in event] or not set(known) - set(names) <= set(left_out):
        raise Wrong("other members, or in another order")
    for name in names:
        value = event[name]
        if type(value) is not KINDS[name] or value is False or type(value) is list and not all(type(one) is str for one in value):
            raise Wrong(f"a member of another type: {name}")
        if name in left_out and value in ("", []):
            raise Wrong(f"an empty member: {name}")
    return {name: event[name] for name in names}


def ended(of):
    """The words of a line of a verdict."""
    words = [of["host"], f"step={of['step']}", of["verdict"]]
    words += [f"{name}={of[name]}" for name in ("rc", "signal", "undefined") if name in of]
    words += [word for name, word in (("not_started", "not-started"), ("lost", "lost")) if name in of]
    words += [f"ms={of['ms']}" for _ in range("ms" in of)]
    return " ".join([*words, f"name={of.get('name', '')}"])


def lines_of(kind, of):
    """The lines that `-v` has for an event."""
    if kind == "play":
        return [f"play {of['play']}"]
    if kind == "held":
        return [" ".join(["held:", *of["hosts"]])]
    if kind == "open":
        return [" ".join([f"waiting={of['waiting']}", f"at={of['at']}", "open:", *of["hosts"]])]
    if kind == "begins":
        begins = f"{of['host']} step={of['step']} begins at={of['at']} name={of.get('name', '')}"
        return [begins, *(f"  {of['host']} warning: {of[name]}" for name in ("warning",) if name in of)]
    if kind == "ends":
        beside = [(end, line) for end in ("stdout", "stderr") for line in of.get(end, [])]
        beside += [("error", line) for line in of.get("error", "").split("\n") if "error" in of]
        return [ended(of), *(f"  {of['host']} {end}: {line}" for end, line in beside)]
    if kind == "closed":
        return ["closed " + " ".join(f"{name}={of[name]}" for name in ("updated", "failed", "halted", "ms", "at"))]
    if kind == "descriptors":
        return [f"descriptors={of['limit']} at-once={of['at_once']}"]
    return [of["text"]]


def event_of(line):
    try:
        event = json.loads(line)
    except ValueError as error:
        raise Wrong(f"no JSON: {error}") from error
    if type(event) is not dict or json.dumps(event, separators=(",", ":"), ensure_ascii=False) != line:
        raise Wrong("not as an object of JSON is written")
    return event


def main():
    with open(sys.argv[1], newline="\n", encoding="utf-8") as file:
        text = file.read()
    if text and not text.endswith("\n"):
        print("the last line isn't ended")
        return 1
    plain = []
    for line in text.split("\n")[:-1]:
        if line.startswith("rollout: "):
            plain.append(line)
            continue
        try:
            event = event_of(line)
            plain += lines_of(event.get("event"), members(event))
        except Wrong as wrong:
            print(f"{line}: {wrong}")
            return 1
    sys.stdout.write("".join(line + "\n" for line in plain))
    return 0


if __name__ == "__main__":
    sys.exit(main())
