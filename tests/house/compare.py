#!/usr/bin/env python3
"""Compares the pages with the tree: lists, counts, and the names of files, calls, scripts, targets and options. It proves nothing and runs nothing.

tests/house.sh runs it. Each comparison is a row; the last line counts them.
"""

import difflib
import json
import os
import re
import sys

import contracts
import definitions
import explained
import made
import tree
import usage
from sources import items_of

HANDLES = "Handles allowed: Threads, Wait, Processes.\n"
# `main` makes the history of all rolls from it.
MAY_NAME_THE_HANDLE = ("crates/rollout/src/main.rt", "crates/roll_core/src/history.rt")
# Numbers of papers, theorems and issues; the repository stands alone.
CITES = re.compile(r"(?<!\w)(?:R(?:1[0-6]|[1-9])|T[1-5]|D(?:1[0-9]|2[01]|[1-9])|W(?:1[0-9]|2[01]|[1-9])|[Dd]ocument 0[1-4]|[Ii]ssue #?\d+)(?!\w)")
# Faults of what has no form in JSON: of bad words, expectations and plans that are checked.
NOT_IN_JSON = {"901", "907", "908", "909"}
# Scripts that others share, or that a target of the Makefile is for.
NOT_IN_THE_GATE = {"all", "build", "common", "contracts", "crates", "edits", "gate", "install", "package", "test", "touched"}


class Count:
    """How many rows passed, and how many failed."""

    def __init__(self):
        self.passed = self.failed = 0

    def row(self, holds, what):
        if holds:
            self.passed += 1
        else:
            self.failed += 1
            print(f"FAILED: {what}")


def stands(path):
    """Whether a file stands in the tree; a word in capitals stands for any name, and so does a star."""
    pattern = re.sub(r"\b[A-Z]{3,}\b(?!\.md)", "*", path.rstrip("/"))
    return bool(tree.found(pattern)) or os.path.exists(os.path.join(tree.TOP, path))


def ticks(text):
    """What stands in backticks, outside of blocks of code."""
    return re.findall(r"`([^`\n]+)`", re.sub(r"^```.*?^```", "", text, flags=re.S | re.M))


def compare_made_parts(count):
    """`make pages` would change nothing, each part stands somewhere, and no row lacks what only its author can say."""
    pages, parts = made.made_pages()
    for name in made.MAKERS:
        count.row(len(parts.get(name, [])) == 1, f"the part {name} that `make pages` makes stands on one page, not on {parts.get(name, [])}")
    for path, text in pages.items():
        old = tree.read(path)
        lines = [line for line in difflib.unified_diff(old.split("\n"), text.split("\n"), lineterm="", n=0) if not line.startswith(("---", "+++", "@@"))]
        for line in lines[:6]:
            print("    " + line[:200])
        count.row(old == text, f"{path}: `make pages` changes {len(lines)} lines")
        for _, name, body, _ in made.PART.findall(text):
            for cells in made.rows_of(body):
                count.row(all(cells), f"{path}: the row '{cells[0]}' of {name} has an empty cell")
            for line in re.findall(r"^- .*", body, re.M):
                count.row(re.match(r"- \S+: \S", line), f"{path}: of {line[2:]} in {name} nothing is said")
    for line in pages[made.EDITS].split("\n")[1:-1]:
        cells = line.split("\t")
        count.row(all(cells) and re.fullmatch(r"\d{4}-\d\d-\d\d", cells[-1]), f"{made.EDITS}: the row of {cells[1]} in {cells[0]} lacks who refused it, the goal, or the date")
    for line in pages[made.BUGS].split("\n")[1:-1]:
        count.row(all(line.split("\t")), f"{made.BUGS}: the row of {line.split(chr(9))[0]} lacks what reports it, or the first row that does")
    for line in pages[made.RULES].split("\n")[1:-1]:
        count.row(re.fullmatch(r"[\w-]+\t\w+\t\d+", line), f"{made.RULES}: the row '{line}' lacks the kind of cases that tells the rule, or the first case")


def compare_entries(count):
    """Each fault with a number that FAULTS lists has an entry there, below its row's heading, which is what `rollout explain` prints; and so has each kind of notes in NOTES, in the program's order."""
    entries = explained.entries_of(explained.FAULTS)
    for front in made.faults_of_page():
        number = front.split(" ")[0]
        count.row(not number.isdigit() or number in entries, f"docs/FAULTS.md: fault {number} has no heading to which its row leads")
    kinds, noted = explained.kinds(), list(explained.entries_of(explained.NOTES))
    for kind in sorted({*kinds, *noted}):
        count.row(kind in noted, f"docs/NOTES.md: the kind {kind} has no row, or no heading to which its row leads")
        count.row(kind in kinds, f"docs/NOTES.md: {kind} is no kind of notes")
    for path in ("crates/command_line/src/option_conflict.rt", "crates/command_line/specs/Clashes.antt", *tree.found("completions/*")):
        text = tree.read(path)
        count.row(", ".join(kinds) in text or " ".join(kinds) in text, f"{path} has another list of the kinds of notes than the program")
    count.row(len(kinds) > 10 and noted == sorted(noted, key=lambda kind: kinds.index(kind) if kind in kinds else -1), "docs/NOTES.md: the kinds stand in another order than in the program")


def compare_schema(count):
    """The schema of what `--json` prints has each fault of FAULTS that comes with it, and its name, and no others; what a rehearsal answers has its own."""
    told = {front.split(" ")[0]: front.split(" ")[1] for front in made.faults_of_page() if front[0].isdigit()}
    parts = [part["properties"] for part in json.loads(tree.read("docs/rollout.schema.json"))["$defs"].values() if "number" in part.get("properties", {}) and "reply" not in part["properties"]]
    described = {}
    for part in parts:
        numbers, names = (part[key].get("enum", [part[key].get("const")]) for key in ("number", "kind"))
        for number in numbers:
            described[str(number)] = names
    described.pop("None", None)
    for number in sorted(told.keys() | described.keys()):
        if number in NOT_IN_JSON:
            count.row(number not in described, f"docs/rollout.schema.json has fault {number}, which never comes with --json")
        else:
            count.row(told.get(number) in described.get(number, []), f"docs/rollout.schema.json: fault {number} is {described.get(number)}, and {told.get(number)} by docs/FAULTS.md")


def compare_edits(count):
    """Each edit and each planted bug can be applied, and few enough edits are left to the gate."""
    edits = tree.edits()
    for (crate, name), (folder, pairs) in edits.items():
        why = tree.unfit(f"crates/{crate}", pairs)
        count.row(not why, f"crates/{crate}/{folder}/{name}.edit: {why}")
    for name, (pairs, by) in tree.bugs().items():
        why = tree.unfit("", pairs)
        count.row(not why, f"tests/planted/{name}.edit: {why}")
        script, crate = re.match(r"tests/\w+\.sh\b", by), re.match(r"the tests of (\w+)", by)
        told = script and stands(script[0]) or crate and stands(f"crates/{crate[1]}/src")
        count.row(told, f"tests/planted/{name}.edit: shown by '{by}', which isn't there")
    for by, row in made.rows_of_file(made.BUGS).values():
        crate, test = re.match(r"the tests of (\w+)", by), re.match(r"\w+(?:::\w+)*::(\w+)$", row)
        if crate:
            count.row(test, f"{made.BUGS}: the tests of {crate[1]} have no row '{row}'")
        if crate and test:
            holds = any(f"fn {test[1]}(" in tree.read(path) for path in tree.found(f"crates/{crate[1]}/src/**/*.rt"))
            count.row(holds, f"{made.BUGS}: {crate[1]} has no test {test[1]}")
    tried = [crate for (crate, _), (folder, _) in edits.items() if folder == "must-fail"]
    count.row(len(tried) <= made.MOST_EDITS, f"{len(tried)} edits in must-fail/, of at most {made.MOST_EDITS}")
    count.row(len(set(tried)) <= made.MOST_ROOMS, f"edits in must-fail/ of {len(set(tried))} crates, of at most {made.MOST_ROOMS}")


def compare_crates(count, crates):
    """Each folder of crates/ has its line, which names only what the crate's files name, and all that they use; each root says first what it is for."""
    folders = {path.split("/")[1] for path in tree.found("crates/*/src")}
    libraries = set(crates) | {below for name in crates for below in crates[name]}
    for name in folders | set(crates):
        count.row(name in folders, f"crates.txt has {name}, and crates/{name} has no src")
        count.row(name in crates, f"crates/{name} has no line in crates.txt")
    for name in folders & set(crates):
        count.row(tree.purpose(name), f"crates/{name}: the first line of its root doesn't say what it is for")
        words, used = set(), set()
        for path in tree.found(f"crates/{name}/**/*.rt", f"crates/{name}/**/*.antt"):
            text = tree.read(path)
            words.update(re.findall(r"\w+", text))
            used.update(re.findall(r"^\s*(?:pub )?use (\w+)::|\bRattle\.(?=(\w+)\.)", text, re.M))
        used = {library for each in used for library in each if library in libraries and not tree.found(f"crates/{name}/src/**/{library}.rt")}
        for below in crates[name]:
            count.row(below in words, f"crates.txt: {name} stands on {below}, which no file of it names")
        for below in used - {name}:
            count.row(below in crates[name], f"crates.txt: {name} uses {below}, and doesn't stand on it")


def section(text, heading):
    """What stands under a heading of the second level, up to the next one or to the end."""
    start = text.find(f"\n## {heading}\n")
    return "\n## " + text[start + 4 :].partition("\n## ")[0] if start >= 0 else ""


def places_in(cell):
    """Of each part of a cell, up to a semicolon: the files that it names in backticks, and the names that have to stand there."""
    for part in cell.split(";"):
        words = ticks(part)
        files = [word for word in words if re.match(r"crates/\w+/", word)]
        yield files, [word for word in words if word not in files and re.fullmatch(r"\w+", word)]


def is_defined(name, path):
    """Whether a function, a type or a definition of this name stands in the file."""
    stands_as = r"\b(?:fn|struct|enum|trait)" if path.endswith(".rt") else r"^\s*(?:(?:abbrev|pub|record|data|unfoldable|mutual|opaque)\s+)*(?:abbrev|pub|record|data)"
    return bool(re.search(rf"{stands_as}\s+{name}\b", tree.read(path), re.M)) if stands(path) and os.path.isfile(os.path.join(tree.TOP, path)) else False


def compare_rules(count):
    """Each row of ARCHITECTURE's table of rules names files, and what it names beside them is defined there."""
    rows = made.rows_of(section(tree.read("docs/ARCHITECTURE.md"), "Where to look"))
    count.row(rows, "docs/ARCHITECTURE.md: no table of where to look")
    for rule, *cells in rows:
        count.row(len(cells) == 2 and any(files for cell in cells for files, _ in places_in(cell)), f"docs/ARCHITECTURE.md: no file for '{rule}'")
        for files, names in (place for cell in cells for place in places_in(cell)):
            for name in names:
                count.row(any(is_defined(name, path) for path in files), f"docs/ARCHITECTURE.md: {rule}: no {name} in {', '.join(files) or 'any file'}")


def is_handed_out(call, crate, texts):
    """Whether a crate hands out the call: by its name or that of its type, or as a method of a type or trait that it hands out."""
    handed = contracts.handed_out(texts, crate)
    if handed is None or call.split("::")[0] in handed:
        return True
    items = [item for path in tree.found(f"crates/{crate}/src/**/*.rt") for item in items_of(tree.read(path))]
    return any(item.name == call and item.is_public and set(re.findall(r"\w+", item.owner)) & handed for item in items if item.kind == "fn")


def below(name, crates):
    """The crate and all that it stands on."""
    found = {name}
    for each in crates[name]:
        if each in crates:
            found |= below(each, crates)
    return found


def compare_promises(count, crates):
    """PROVED has a row of promises for each command. What carries one is in the file beside it, a public function with a contract or a public type, its crate hands it out, and `make` proves that crate."""
    program = below("rollout", crates)
    rows = made.rows_of(section(tree.read("docs/PROVED.md"), "Promises by command"))
    of = {re.match(r"`(\w+)`", cells[0])[1] for cells in rows if cells[0].startswith("`")}
    for path in tree.found("crates/rollout/src/commands/*.rt"):
        for command in re.findall(r"^//! The command `(\w+)`", tree.read(path), re.M):
            count.row(command in of, f"docs/PROVED.md: no promise of `{command}`")
    texts = {path: tree.read(path) for path in tree.found("crates/*/src/**/*.rt")}
    for cells in rows:
        calls = [(name, path) for files, names in places_in(cells[-1]) for name in names for path in files]
        count.row(calls, f"docs/PROVED.md: no call carries the promise of {cells[0]}")
        for name, path in calls:
            items = [item for item in items_of(texts.get(path, "")) if item.name == name and item.is_public]
            count.row(items, f"docs/PROVED.md: {path} has nothing public of the name {name}")
            count.row(any(item.kind != "fn" or item.clauses for item in items), f"docs/PROVED.md: {name} of {path} has no contract")
            count.row(is_handed_out(name, path.split("/")[1], texts), f"docs/PROVED.md: {path.split('/')[1]} doesn't hand out {name}")
            count.row(path.split("/")[1] in program, f"docs/PROVED.md: the program doesn't stand on {path.split('/')[1]}, so `make` doesn't prove {name}")


def compare_starting_points(count):
    """What PROVED names where it says where the contracts are is defined in the file beside it."""
    points = re.findall(r"`(\w+)` in\s+`(crates/[\w/]+\.\w+)`", section(tree.read("docs/PROVED.md"), "Where the contracts are"))
    count.row(points, "docs/PROVED.md: no contract with which to start")
    for name, path in points:
        count.row(is_defined(name, path), f"docs/PROVED.md: no {name} in {path}")


def compare_crates_of_proved(count, crates):
    """Each crate has a public function with a contract, unless PROVED names it among those without; and these are of the family of tests."""
    said = re.search(r"^\*\*Without contracts\*\*:(?:.+\n)+", tree.read("docs/PROVED.md"), re.M)
    said = set(ticks(said[0])) if said else set()
    for name in crates:
        items = (item for path in tree.found(f"crates/{name}/src/**/*.rt") for item in items_of(tree.read(path)))
        has = any(item.kind == "fn" and item.is_public and item.clauses for item in items)
        count.row(has or name in said, f"docs/PROVED.md doesn't say that {name} has no contracts")
    for name in said:
        count.row(name in tree.families().get("tests", []), f"docs/PROVED.md: {name} is no crate of tests, and said to have no contracts")


def names_by_place(crate, root, items):
    """The names that a crate hands out, by the module in which they stand: its root, or one that is public. A program hands out nothing."""
    uses = re.findall(r"^pub use ([^;]+);", root, re.M)
    leaves = [leaf for said in uses for leaf in re.sub(r"^.*\{|\}", "", said, flags=re.S).split(",")]
    places = {"": {re.split(r"::|\bas\b", leaf)[-1].strip() for leaf in leaves} | set(re.findall(r"^pub (?:fn|struct|enum|trait) (\w+)", root, re.M))}
    for module in re.findall(r"^pub mod (\w+)", root, re.M):
        places[module] = {item.name for path, item in items if re.match(rf"crates/{crate}/src/{module}(\.rt|/)", path) and not item.owner}
    return places


def compare_public_names(count, named):
    """Each row of DECISIONS's table of public names: the crate in which a name stands hands it out, one in which it doesn't hands out none of that name, and what is in
    backticks of its form stands in its declaration."""
    items = [(path, item) for path in tree.found("crates/*/src/**/*.rt") for item in items_of(tree.read(path)) if item.is_public]
    handed = {crate: names_by_place(crate, tree.read(path), items) for crate in named for path in tree.found(f"crates/{crate}/src/lib.rt")}
    rows = made.rows_of(section(tree.read("docs/DECISIONS.md"), "Public names"))
    count.row(rows, "docs/DECISIONS.md: no table of public names")
    for cells in rows:
        names, (stands, apart, other) = ticks(cells[0]), cells[1].partition("not ")
        count.row(len(cells) == 4 and names and cells[3] and (apart or cells[2]), f"docs/DECISIONS.md: of {cells[0]} nothing differs, or no reason stands there")
        for name in names:
            for place in ticks(stands):
                crate, _, module = place.partition("::")
                # What a crate only hands on is declared elsewhere.
                of = [(path, item.said) for path, item in items if item.path() == name]
                of = [each for each in of if each[0].startswith(f"crates/{crate}/")] or of
                count.row(of and name.split("::")[0] in handed.get(crate, {}).get(module, set()), f"docs/DECISIONS.md: {place} doesn't hand out {name}")
                for word in ticks(cells[2]):
                    holds = any(re.search(rf"(?<!\w){re.escape(word)}(?!\w)", said) for _, said in of)
                    count.row(holds, f"docs/DECISIONS.md: in the declaration of {name} stands no {word}")
            for place in ticks(other):
                count.row(name not in handed.get(place, {}).get("", set()), f"docs/DECISIONS.md: {place} does hand out {name}")


def compare_definitions(count, crates, named):
    """Each term of the glossary ends in brackets with a crate and names that it defines, or with a page, folder or file; each stands there once."""
    entries = re.findall(r"^- \*\*(.+?)\*\*(.*(?:\n  .*)*)", section(tree.read("docs/DEFINITIONS.md"), "Glossary"), re.M)
    count.row(len(entries) > 40, "docs/DEFINITIONS.md has no glossary")
    for term, said in entries:
        count.row([term for term, _ in entries].count(term) == 1, f"docs/DEFINITIONS.md has {term} more than once")
        place = re.search(r"\((?:`(\w+)`: ((?:`\w+`(?:, )?)+)|`[\w./]+`|\[[^\]]+\]\([^)]+\))\)$", said)
        count.row(place, f"docs/DEFINITIONS.md: {term} ends without a definition or a page")
        crate = place[1] if place else None
        count.row(not crate or crate in crates, f"docs/DEFINITIONS.md: {term}: {crate} is no crate")
        if crate in crates:
            defined = {name for _, found in definitions.definitions_of(crate).values() for name, _ in found} | named[crate].types
            for name in ticks(place[2]):
                count.row(name in defined, f"docs/DEFINITIONS.md: {term}: {crate} defines no {name}")


def compare_counts(count, crates):
    """Numbers of crates, bugs and rules in running text."""
    right = {"crates": len(crates), "bugs": len(tree.bugs()), "rules": len(tree.rules())}
    for path in tree.pages():
        text = made.PART.sub("", tree.read(path))
        for line in text.split("\n"):
            if not line.startswith("|"):
                for number, what in re.findall(r"\b(\d+) (?:planted |turned )?(crates|bugs|rules)\b", line):
                    count.row(int(number) == right[what], f"{path}: {number} {what}; the tree has {right[what]}")


def compare_paths(count):
    """Each file that a page names stands, and so does each target of `make`; each target is named by some page."""
    targets, named = tree.targets(), set()
    for path in tree.pages():
        text = tree.read(path)
        for name in sorted(set(re.findall(r"(?<![\w/.-])((?:crates|tests|bench|bin|docs|examples|man|completions|\.ci)/[\w*./-]*[\w*/])", text))):
            if "/out" not in name:
                count.row(stands(name), f"{path}: no file {name}")
        for target in sorted(set(re.findall(r"`make ([a-z_]+)", text) + re.findall(r"^(?:    |\$ )make ([a-z_]+)", text, re.M))):
            named.add(target)
            count.row(target in targets, f"{path}: the Makefile has no target {target}")
    for target in targets - {"build"}:
        count.row(target in named, f"no page names `make {target}`")


def anchors_of(path):
    """The anchors of a page's headings, and those that stand alone in a line."""
    text = re.sub(r"^```.*?^```", "", tree.read(path), flags=re.S | re.M)
    alone = re.findall(r'^<a id="([\w-]+)"></a>$', text, re.M)
    return {*alone, *(re.sub(r"[^\w\- ]", "", heading.lower()).replace(" ", "-") for heading in re.findall(r"^#+ (.*)$", text, re.M))}


def compare_links(count):
    """Each link of a page leads to a file, and its anchor to a heading there."""
    for path in tree.pages():
        text = re.sub(r"^```.*?^```", "", tree.read(path), flags=re.S | re.M)
        for link in sorted(set(re.findall(r"\]\(([^)\s]+)\)", text))):
            if "://" in link:
                continue
            name, _, anchor = link.partition("#")
            to = os.path.normpath(os.path.join(os.path.dirname(path), name)) if name else path
            count.row(stands(to), f"{path}: no file {link}")
            if anchor and to.endswith(".md") and stands(to):
                count.row(anchor in anchors_of(to), f"{path}: no heading of {link}")


def compare_files_of_crates(count, crates):
    """A file named as `src/..` or `specs/..` stands in a crate that the same line or its heading names."""
    for path in tree.pages():
        heading, before = [], []
        for line in tree.read(path).split("\n"):
            if line.startswith("#"):
                heading = [word for word in ticks(line) if word in crates]
                before = []
            here = [name for word in ticks(line) for name in re.findall(r"^(?:crates/)?(\w+)", word) if name in crates]
            cells = made.cells_of(line) if line.startswith("|") else []
            if cells and not cells[0] and not here:
                here = before
            if not line.strip() or re.match(r"[-*\d|]", line):
                before = here or (before if cells else [])
            else:
                before = here + before
            for word in ticks(line):
                file = re.fullmatch(r"((?:src|specs|proofs)/[\w/]+\.(?:rt|antt))", word)
                if file:
                    own = here + before + heading
                    count.row(any(stands(f"crates/{name}/{file[1]}") for name in own), f"{path}: no file {file[1]} in {', '.join(dict.fromkeys(own)) or 'any crate that stands with it'}")


def compare_names(count, crates, named):
    """Each name in backticks that looks like one of the sources (a_name, AName, a::name) stands in them."""
    words = set(crates)
    for path in tree.found("crates/*/src/**/*.rt", "crates/*/specs/**/*.antt", "tests/**/*.*", "bench/*", "examples/**/*.*", "Makefile", "crates.txt"):
        if os.path.isfile(os.path.join(tree.TOP, path)) and not path.endswith(".md"):
            words.update(re.findall(r"\w+", tree.read(path)))
    for path in tree.pages():
        if path == "docs/FROM_ANSIBLE.md":
            continue
        text = made.PART.sub("", tree.read(path))
        if path == "docs/GATE.md":
            # Its tables are of runs on a day, with the crates of that day.
            text = re.sub(r"^\|.*\n", "", text, flags=re.M)
        for word in sorted(set(ticks(text))):
            if re.search(r"[A-Z]{3,}", word):
                continue
            if re.fullmatch(r"[A-Za-z]\w*(?:::\w+)*(?:\(\))?", word) and (re.search(r"_|::", word) or re.search(r"[a-z][A-Z]", word)):
                parts = re.findall(r"\w+", word)
                holds = all(part in words for part in parts)
                if holds and len(parts) == 2 and parts[0] in named:
                    has = named[parts[0]]
                    holds = parts[1] in has.functions | has.public | has.types or any(parts[1] in tree.read(file) for file in tree.found(f"crates/{parts[0]}/src/**/*.rt"))
                count.row(holds, f"{path}: no {word} in the sources")


def compare_scripts(count):
    """Both lists of scripts have each script of tests/, and ARCHITECTURE names each; PROVED says what each shows, but for the one that compares pages."""
    scripts = {os.path.basename(path)[:-3] for path in tree.found("tests/*.sh")} - NOT_IN_THE_GATE
    architecture, proved = tree.read("docs/ARCHITECTURE.md"), tree.read("docs/PROVED.md")
    for path in ("tests/gate.sh", "tests/all.sh"):
        listed = re.search(r"(?:set --|gate\.sh\") ((?:[a-z_]+ ){3,}[a-z_]+)", tree.read(path))
        listed = set(listed[1].split()) if listed else set()
        for name in sorted(scripts | listed):
            count.row(name in scripts and name in listed, f"{path}: {name} is " + ("listed, and no script" if name in listed else "a script, and not listed"))
    tested = set(" ".join(re.findall(r"^(?:scripts|left)='([^']*)'", tree.read("tests/test.sh"), re.M)).split())
    for name in sorted(scripts | tested):
        count.row(name in scripts and name in tested, f"tests/test.sh: {name} is " + ("listed, and no script" if name in tested else "a script that it neither runs nor leaves out"))
    for name in sorted(scripts):
        count.row(f"tests/{name}.sh" in architecture, f"docs/ARCHITECTURE.md doesn't name tests/{name}.sh")
        count.row(f"tests/{name}.sh" in proved or name == "house", f"docs/PROVED.md doesn't name tests/{name}.sh")


def compare_folders(count):
    """Examples and measurements are named by the pages that list them."""
    examples = tree.read("examples/README.md")
    for path in tree.found("examples/*", "examples/*/*"):
        name = path[len("examples/") :]
        if name != "README.md" and os.path.isfile(os.path.join(tree.TOP, path)):
            count.row(name in examples, f"examples/README.md doesn't name {name}")
    speed = "".join(tree.read(path) for path in tree.pages())
    for path in tree.found("bench/*"):
        if os.path.isfile(os.path.join(tree.TOP, path)) and "." not in path:
            count.row(path in speed, f"no page names {path}")


def compare_trusted(count, crates):
    """PROVED says of each ported library that a crate stands on that it is trusted, and of no other."""
    trusted = re.search(r"^- \*\*Ported crates\*\*(?:.+\n)+", section(tree.read("docs/PROVED.md"), "What is trusted"), re.M)
    trusted = set(ticks(trusted[0])) if trusted else set()
    ported = {below for name in crates for below in crates[name]} - set(crates)
    for name in sorted(ported | trusted):
        count.row(name in ported and name in trusted, f"docs/PROVED.md: {name} is " + ("trusted, and no crate stands on it" if name in trusted else "not among what is trusted"))


def compare_texts(count):
    """HANDLES is its line, and no text cites a paper or an issue by number."""
    count.row(tree.read("HANDLES") == HANDLES, "HANDLES is not its exact line")
    for path in tree.found("**/*.rt", "**/*.antt", "**/*.md", "**/*.edit", "tests/*.tsv", "**/*.sh", "**/*.py", "bin/*", "man/*", "completions/*"):
        if path.startswith("tests/house/"):
            continue
        cite = CITES.search(tree.read(path))
        count.row(not cite, f"{path} cites by number: {cite[0] if cite else ''}")


def compare_handles(count, crates):
    """What makes a history is named where it is made, where that is written, and in crates of tests alone."""
    for path in tree.found("crates/*/src/**/*.rt"):
        crate = path.split("/")[1]
        if "HostRuntime" in tree.read(path):
            count.row(path in MAY_NAME_THE_HANDLE or crate.endswith("_tests"), f"{path} names HostRuntime")


def main():
    count, crates = Count(), tree.crates()
    named = {name: tree.Crate(name) for name in crates}
    compare_made_parts(count)
    compare_entries(count)
    compare_schema(count)
    compare_edits(count)
    compare_crates(count, crates)
    compare_rules(count)
    compare_promises(count, crates)
    compare_starting_points(count)
    compare_crates_of_proved(count, crates)
    compare_public_names(count, named)
    compare_definitions(count, crates, named)
    compare_counts(count, crates)
    compare_paths(count)
    compare_links(count)
    compare_files_of_crates(count, crates)
    compare_names(count, crates, named)
    compare_scripts(count)
    usage.compare_usage(count)
    compare_folders(count)
    compare_trusted(count, crates)
    compare_texts(count)
    compare_handles(count, crates)
    print(f"{count.passed} passed, {count.failed} failed")
    return 1 if count.failed or not count.passed else 0


if __name__ == "__main__":
    sys.exit(main())
