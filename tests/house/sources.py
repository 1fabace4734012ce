"""Reads the items of a source file: functions with their clauses, types, and what traits and models say in ghost items.

It knows no more of the language than where an item begins and ends: brackets, comments and texts. So it reads any revision.
"""

import functools
import re

NOT_CODE = re.compile(
    r"""//[^\n]*|/\*.*?\*/|b?r(?P<marks>\#*)".*?"(?P=marks)|b?"(?:\\.|[^"\\])*"|b?'(?:\\(?:x..|u\{[^}]*\}|.)|[^'\\\n])'""",
    re.S,
)
PAIRS = {"(": ")", "[": "]", "{": "}"}
HEAD = re.compile(r"(?P<seen>pub(?:\([^)]*\))?\s+)?(?:default\s+|const\s+|unsafe\s+|async\s+)*(?P<kind>fn|struct|enum|trait|impl|mod|type|const|static|use|ghost)\b")
CLAUSE = re.compile(r"\b(requires|ensures|decreases)\s*(\w+)?\s*$")


class Item:
    """A function, a type or a ghost item, with the type or trait that it stands in."""

    def __init__(self, kind, name, owner, is_public, said, clauses=()):
        self.kind, self.name, self.owner, self.is_public, self.said, self.clauses = kind, name, owner, is_public, said, list(clauses)

    def path(self):
        return f"{self.owner}::{self.name}" if self.owner else self.name


def blanked(text):
    """The text with a blank for each byte of a comment, a string or a character."""
    return NOT_CODE.sub(lambda found: re.sub(r"[^\n]", " ", found[0]), text)


def without_comments(text):
    """The text with no comment, its white space made one blank."""
    text = NOT_CODE.sub(lambda found: " " if found[0].startswith(("//", "/*")) else found[0], text)
    return re.sub(r"\s+", " ", text).strip()


def end_of(code, at):
    """The place behind the bracket that closes the one at this place."""
    depth = 0
    for place in range(at, len(code)):
        if code[place] in PAIRS:
            depth += 1
        elif code[place] in ")]}":
            depth -= 1
            if depth == 0:
                return place + 1
    return len(code)


@functools.cache
def items_of(text, is_test=False):
    """The items of a file, those of its test modules left out. A text is read once."""
    return list(_items(text, blanked(text), 0, len(text), "", None))


def _items(text, code, at, end, owner, seen):
    while at < end:
        if code[at].isspace() or code[at] in ";,":
            at += 1
            continue
        if code[at] == "#":
            close = end_of(code, code.index("[", at))
            if re.match(r"#\s*\[cfg\(test\)\]", code[at:close]):
                at = _skip(code, close, end)
            else:
                at = close
            continue
        head = HEAD.match(code, at, end)
        if not head:
            at = _skip(code, at, end)
            continue
        kind, is_public = head["kind"], (head["seen"] or "").strip() == "pub"
        if kind == "fn":
            item, at = _function(text, code, at, end, owner, is_public or seen == "pub")
            yield item
        elif kind in ("impl", "trait", "mod"):
            opens = _first(code, head.end(), end, "{;")
            if opens >= end or code[opens] == ";":
                at = opens + 1
                continue
            close = end_of(code, opens)
            said = without_comments(text[at:opens])
            if kind == "mod":
                yield from _items(text, code, opens + 1, close - 1, owner, None)
            elif kind == "trait":
                name = re.match(r"\s*(\w+)", code[head.end() :])[1]
                yield Item("trait", name, "", is_public, said)
                yield from _items(text, code, opens + 1, close - 1, name, "pub" if is_public else None)
            else:
                name, of = _subject(said)
                yield from _items(text, code, opens + 1, close - 1, f"<{name} as {of}>" if of else name, "pub" if of else None)
            at = close
        elif kind in ("struct", "enum"):
            name = re.match(r"\s*(\w+)", code[head.end() :])[1]
            opens = _first(code, head.end(), end, "{;")
            close = end_of(code, opens) if opens < end and code[opens] == "{" else opens + 1
            yield Item(kind, name, "", is_public, without_comments(text[at:close]))
            at = close
        elif kind == "ghost":
            close = _skip(code, at, end)
            said = without_comments(text[at:close]).rstrip(";,")
            name = re.match(r"ghost (\w+)", said)
            if name and name[1] != "use":
                yield Item("ghost", name[1], owner, seen == "pub" or bool(owner), said)
            at = close
        else:
            at = _skip(code, at, end)


def _first(code, at, end, marks):
    """The first of these marks outside of round and square brackets."""
    while at < end and code[at] not in marks:
        at = end_of(code, at) if code[at] in "([" else at + 1
    return at


def _skip(code, at, end):
    """The place behind an item that ends in a semicolon, a comma or a block."""
    opens = _first(code, at, end, "{;,")
    if opens < end and code[opens] == "{":
        close = end_of(code, opens)
        behind = re.match(r"\s*[;,]", code[close:end])
        return close + behind.end() if behind else close
    return opens + 1


def _subject(said):
    """Of the head of an impl the type and, where it is one of a trait, that trait."""
    said = re.sub(r"^impl\s*", "", said)
    if said.startswith("<"):
        depth = 0
        for place, mark in enumerate(said):
            depth += (mark == "<") - (mark == ">" and said[place - 1] not in "-=")
            if depth == 0:
                said = said[place + 1 :].strip()
                break
    said = re.sub(r"\bwhere\b.*", "", said)
    parts = re.split(r"\s+for\s+", said)
    last = lambda path: re.split(r"::", re.sub(r"<.*", "", path.strip()).replace("&", "").strip())[-1].strip()
    return (last(parts[1]), re.sub(r"\s+", " ", parts[0].strip()).split("::")[-1]) if len(parts) > 1 else (last(parts[0]), None)


def _function(text, code, at, end, owner, is_public):
    name = re.search(r"\bfn\s+(\w+)", code[at:end])[1]
    clauses, head_ends, place = [], None, at
    while True:
        opens = _first(code, place, end, "{;")
        clause = CLAUSE.search(code[place:opens]) if opens < end and code[opens] == "{" else None
        if head_ends is None:
            head_ends = place + clause.start() if clause else opens
        if not clause:
            break
        close = end_of(code, opens)
        clauses.append((clause[1], clause[2] or "", without_comments(text[opens + 1 : close - 1])))
        place = close
    close = end_of(code, opens) if opens < end and code[opens] == "{" else opens + 1
    return Item("fn", name, owner, is_public, without_comments(text[at:head_ends]), clauses), close
