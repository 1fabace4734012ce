#!/usr/bin/env python3
"""What `rollout explain WORD` prints of each fault, by its number, cut out of docs/FAULTS.md, and of each kind of `lint`'s notes, by its name, cut out of docs/NOTES.md: `make pages` makes
files of the crate hints from them, and tests/house.sh compares these.

The entry of a word is its row of the page's table, as `NUMBER NAME: what it says in short` or `KIND key=value ..: when it stands`, and below it what stands under the heading to which the row leads,
up to the next heading. A heading that is of several faults is the entry of each.
"""

import re

import tree

FAULTS, NOTES, KINDS = "docs/FAULTS.md", "docs/NOTES.md", "crates/lint_rules/src/rows.rt"
CRATE = "crates/hints"
ROW = re.compile(r"^\| \[([\w-]+)\]\(#([\w-]+)\) \| ([^|]+) \| (.*) \|$", re.M)


def entries_of(page):
    """The entries of a page, by the word of each, in their order there."""
    text = tree.read(page)
    bodies = bodies_of(text)
    return {word: f"{word} {name}: {short}\n\n{bodies[anchor]}\n" for word, anchor, name, short in ROW.findall(text) if anchor in bodies}


def kinds():
    """The names of the lint rules, as the program has them."""
    return re.findall(r'LintRule::\w+ => (?:warning|info)\(\s*"([\w-]+)"', tree.read("crates/lint_rules/src/rows.rt"))


def bodies_of(text):
    """What stands under each heading, by its anchor, up to the next heading of any level; lines of blocks of code are none."""
    bodies, anchor, inside = {}, None, False
    for line in text.split("\n"):
        inside ^= line.startswith("```")
        heading = None if inside else re.match(r"#+ (.*)", line)
        if heading:
            anchor = re.sub(r"[^\w\- ]", "", heading[1].lower()).replace(" ", "-")
            bodies[anchor] = ""
        elif anchor is not None:
            bodies[anchor] += line + "\n"
    return {anchor: body.strip("\n") for anchor, body in bodies.items()}


def made_files():
    """The texts of the crate's files."""
    groups = groups_of(entries_of(FAULTS), entries_of(NOTES))
    return {f"{CRATE}/src/entries.rt": made_table(groups), f"{CRATE}/specs/Listed.antt": made_list(groups)}


def groups_of(of_faults, of_notes):
    """The entries by their words, group by group: a look-up of all at once would be more than the prover goes through."""
    faults = [("inventories", "faults of inventories and fleets", "123"), ("playbooks", "faults of playbooks", "567"), ("commands", "faults of commands", "89")]
    return [*((name, what, {word: entry for word, entry in of_faults.items() if word[0] in digits}) for name, what, digits in faults), ("kinds", "kinds of notes", of_notes)]


def made_table(groups):
    """The look-up of an entry by its word."""
    own = "".join(f"""
/// The entries of {what}.
#[tactic(auto, unfolding(crate::specs::Listed::is_of_{name}))]
fn entry_of_{name}<'p>(word: &str) -> Option<&'p str>
    ensures begins {{ IfSome result (λ entry. IsEntryOf word.now entry.now) }}
    ensures listed {{ is_some result ≡ listed.is_of_{name} word.now }}
{{
    match word {{
{"".join(f'        "{word}" => Some({chr(10)}            "{quoted(entry)}",{chr(10)}        ),{chr(10)}' for word, entry in entries.items())}        _ => None,
    }}
}}
""" for name, what, entries in groups)
    first = "".join(f"""    if let Some(entry) = entry_of_{name}(word) {{
        return Some(entry);
    }}
""" for name, *_ in groups[:-1])
    return f"""//! The entries of docs/FAULTS.md and docs/NOTES.md by their words. `make pages` makes this file from those pages.
ghost use Rattle.std.specs.Prelude.{{◌≡◌, IfSome, is_some}};
ghost use Rattle.hints.specs.Entries.{{IsEntryOf}};
ghost use Rattle.hints.specs.Listed as listed;
ghost use Rattle.hints.specs.Listed.{{has_entry}};

/// The entry of the fault whose number is written so, or of the kind of notes that has this name. It begins with the word.
pub fn entry_of<'p>(word: &str) -> Option<&'p str>
    ensures begins {{ IfSome result (λ entry. IsEntryOf word.now entry.now) }}
    ensures listed {{ is_some result ≡ has_entry word.now }}
{{
{first}    entry_of_{groups[-1][0]}(word)
}}
{own}"""


def made_list(groups):
    """The definition of what has an entry."""
    head = ["-- What docs/FAULTS.md and docs/NOTES.md have entries of. `make pages` makes this file from those pages.", "use Rattle.std.specs.Prelude.{ℕ, Bool, ◌||◌, List, [], ◌∷◌, codes}", "use Rattle.std.specs.List.{list_any}", "use Rattle.std.specs.Str.{bytes_eq}"]
    own = [line for name, what, words in groups for line in ["", f"-- {what}", f"unfoldable pub is_of_{name} : List ℕ → Bool", f"is_of_{name} word = list_any (bytes_eq word) (", *listed(words)]]
    names = [f"is_of_{name} word" for name, *_ in groups]
    return "\n".join([*head, *own, "", "-- the word is one of those that have an entry", "abbrev pub has_entry : List ℕ → Bool", f"has_entry word = {' || ('.join(names[:-1])} || {names[-1]}{')' * (len(names) - 2)}", ""])


def listed(words):
    """The lines of a list of words, and of the bracket behind it."""
    lines, line = [], "   "
    for word in words:
        part = f' codes "{word}" ∷'
        if len(line + part) > 140:
            lines.append(line)
            line = "   "
        line += part
    return [*lines, f"{line} [])"]


def quoted(text):
    """A text as it stands between the quotes of a string."""
    return text.replace("\\", "\\\\").replace('"', '\\"').replace("\n", "\\n")
