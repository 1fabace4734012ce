#!/usr/bin/env python3
"""Makes what the pages would else have to be kept by hand for: what stands between two lines

    <!-- made by `make pages`: NAME -->
    <!-- end of NAME -->

of a page, the exit statuses, faults and kinds of notes of the man page, which are those of FAULTS and NOTES, and what `rollout explain` prints of each of them, in files of the crate hints; and the tables tests/edits.tsv, tests/bugs.tsv and tests/rules.tsv. Words that only somebody who tried it can say (who refused an edit, which row told a bug,
which case tells a rule) are taken over from the rows of that name that stand there. What nobody said yet is left empty, and tests/house.sh asks for it.

    make pages
"""

import re
import sys

import explained
import tree

MAN, FAULTS, EDITS, BUGS, RULES = "man/rollout.1", "docs/FAULTS.md", "tests/edits.tsv", "tests/bugs.tsv", "tests/rules.tsv"
EDIT_COLUMNS = ["crate", "edit", "refused by", "goal of", "tried"]
BUG_COLUMNS = ["bug", "shown by", "first row"]
RULE_COLUMNS = ["rule", "cases of", "first"]
PART = re.compile(r"(<!-- made by `make pages`: (\w+) -->\n)(.*?)(<!-- end of \2 -->\n)", re.S)
MOST_EDITS, MOST_ROOMS = 80, 20


def table(head, rows):
    lines = ["| " + " | ".join(cells) + " |" for cells in rows]
    return "\n".join(["| " + " | ".join(head) + " |", "|" + "---|" * len(head), *lines]) + "\n"


def cells_of(line):
    """The cells of a row of a table; a `\\|` is no border."""
    return [cell.strip() for cell in re.split(r"(?<!\\)\|", line)[1:-1]]


def rows_of(text):
    """The rows of all tables, without their heads."""
    lines = text.split("\n")
    rows = [cells_of(line) for at, line in enumerate(lines) if line.startswith("|") and at + 1 < len(lines) and not lines[at + 1].startswith("|--") and not line.startswith("|--")]
    return [row for row in rows if row]


def gist(name):
    """What a crate is for, in short: the first sentence of its root, up to a colon; if the crate's name stands before the colon, what follows."""
    first = re.split(r"(?<=\.)\s", tree.purpose(name))[0].rstrip(".")
    head, _, rest = first.partition(": ")
    return rest if head == name and rest else head


def made_crates(_said):
    """Each crate, lowest first, with what it is for in short: under the heading of its family, if crates.txt has families."""
    crates, families = tree.crates(), tree.families()
    placed = {name for own in families.values() for name in own}
    lists = {"": [name for name in crates if name not in placed], **{family: [name for name in crates if name in own] for family, own in families.items()}}
    parts = [f"{len(crates)} crates."]
    for family, own in lists.items():
        if family:
            parts.append(f"### {family}")
        if own:
            parts.append("\n".join(f"- `{name}`: {gist(name)}" for name in own))
    return "\n\n".join(parts) + "\n"


def made_families(said):
    """The families of crates.txt. What one is about is taken over by its name. A crate of none stands in a row of its own, for somebody to say."""
    families = tree.families()
    about = dict(re.findall(r"^- \*\*(\w+)\*\*: (.+)$", said, re.M))
    placed = {name for own in families.values() for name in own}
    lost = [name for name in tree.crates() if name not in placed]
    return "".join([f"- **{family}**: {about.get(family, '')}".rstrip() + "\n" for family in families] + [f"- `{name}`\n" for name in lost])


def made_edits():
    """Each edit with who refused it, of which function a goal failed (`-` if nobody wrote that down), and when."""
    rows = [line.split("\t") for line in tree.read(EDITS).split("\n")[1:] if line]
    known, alone = {(crate, name): said for crate, name, *said in rows}, {}
    for _, name, *said in rows:
        alone.setdefault(name, []).append(said)
    lines = [EDIT_COLUMNS]
    for crate, name in sorted(tree.edits()):
        moved = alone.get(name, [])
        lines.append([crate, name, *(known.get((crate, name)) or (moved[0] if len(moved) == 1 else ["", "", ""]))])
    return "".join("\t".join(cells) + "\n" for cells in lines)


def made_edit_counts(_said):
    """How many edits the gate tries, and how many it leaves to `make edits`."""
    edits = tree.edits()
    tried = [crate for (crate, _), (folder, _) in edits.items() if folder == "must-fail"]
    rest = len(edits) - len(tried)
    return (
        f"{len(tried)} mutants are in `must-fail/` of {len(set(tried))} crates (limits: {MOST_EDITS} mutants, {MOST_ROOMS} crates); {rest} more are in `edits/` of "
        f"{len({crate for (crate, _), (folder, _) in edits.items() if folder == 'edits'})} crates.\n"
    )


def rows_of_file(path):
    """The rows of a table of tabs, by their first cell."""
    return {first: rest for first, *rest in (line.split("\t") for line in tree.read(path).split("\n")[1:] if line)}


def made_bugs():
    """Each seeded bug with what has to report it and the first row that does; a bug of which nobody said it has an empty row."""
    known = rows_of_file(BUGS)
    lines = [BUG_COLUMNS, *([name, by, known.get(name, ["", ""])[1]] for name, (_, by) in tree.bugs().items())]
    return "".join("\t".join(cells) + "\n" for cells in lines)


def made_bug_counts(_said):
    """How many bugs there are, and how many of them each script or crate has to report."""
    told = [re.sub(r"\btests/\w+\.sh|(?<=the tests of )\w+", lambda found: f"`{found[0]}`", by) for _, by in tree.bugs().values()]
    return f"{len(told)} bugs, of which these report: " + ", ".join(f"{by} {told.count(by)}" for by in sorted(set(told))) + ".\n"


def made_rules():
    """Each rule of the slow program with the kind of cases of which one tells it from the turned rule, and the first such case. What a rule says stands beside its name in the sources."""
    known = rows_of_file(RULES)
    lines = [RULE_COLUMNS, *([name, *known.get(name, ["", ""])] for name in tree.rules())]
    return "".join("\t".join(cells) + "\n" for cells in lines)


def made_rule_counts(_said):
    """How many rules can be turned, and how many of them are told by cases of each kind."""
    kinds = [line.split("\t")[1] for line in made_rules().split("\n")[1:] if line]
    return f"{len(kinds)} rules: " + ", ".join(f"{kinds.count(kind)} in cases of `{kind}`" for kind in sorted({*kinds} - {""})) + ".\n"


def made_chain(_said):
    """The longest chain of crates below the program, each standing on the one before it; of several the first."""
    crates = tree.crates()
    chains = {}
    for name, below in crates.items():
        chains[name] = max((chains[other] for other in below if other in chains), key=len, default=[]) + [name]
    chain = chains.get("rollout", [])
    return f"{len(chain)} of them: " + ", ".join(f"`{name}`" for name in chain) + ".\n"


MAKERS = {"families": made_families, "crates": made_crates, "chain": made_chain, "edit_counts": made_edit_counts, "bug_counts": made_bug_counts, "rule_counts": made_rule_counts}


def statuses_of_page():
    """What FAULTS says of each exit status."""
    text = tree.read(FAULTS)
    return dict(rows_of(text[text.index("\n## Exit statuses") : text.index("\n## Answers of a rehearsal")]))


def faults_of_page():
    """What FAULTS says of each fault in short, with the number, the name and what else stands before it."""
    rows = [cells_of(line) for line in tree.read(FAULTS).split("\n") if re.match(r"\| \[\w+\]\(", line)]
    return {" ".join(filter(None, [re.match(r"\[(\w+)\]", cells[0])[1], *cells[1:-1]])): cells[-1] for cells in rows}


def notes_of_page():
    """When NOTES has a note of each kind stand, with how its line goes."""
    return {f"{kind} {keys}": said for kind, _, keys, said in explained.ROW.findall(tree.read(explained.NOTES))}


def in_man(text):
    """A text of a page as the man page has it."""
    text = text.replace("\\|", "|").replace("\\", "\\e").replace("'", "\\(aq")
    return re.sub(r"^\.", r"\\&.", re.sub(r"`([^`]*)`", lambda found: "\\fB" + found[1].replace("-", "\\-") + "\\fR", text))


def made_man():
    """The man page, with the exit statuses and the faults of FAULTS, and the kinds of NOTES."""
    text = tree.read(MAN)
    for section, rows in (("EXIT STATUS", statuses_of_page()), ("FAULTS", faults_of_page()), ("NOTES OF LINT", notes_of_page())):
        fronts = {in_man(front.replace("`", "")).replace("-", "\\-"): said for front, said in rows.items()}
        items = "".join(f".TP\n.B {front}\n{in_man(said)}\n" for front, said in fronts.items())
        text = re.sub(rf"(^\.SH {section}\n(?:(?!\.TP|\.SH).*\n)*)(?:(?!\.SH).*\n)*", lambda found: found[1] + items, text, flags=re.M)
    return text


def made_pages():
    """The text of each page that has a made part, and of the other files that are made, as it should be; and which parts stand on which page."""
    texts = {path: tree.read(path) for path in tree.pages()}
    said, parts = {}, {}
    for path, text in texts.items():
        for _, name, body, _ in PART.findall(text):
            said[name] = said.get(name, "") + body
            parts.setdefault(name, []).append(path)
    # A part is made once, from all that was said in parts of its name.
    bodies = {name: MAKERS[name](said[name]) for name in said if name in MAKERS}
    made = {path: PART.sub(lambda part: part[1] + "\n" + bodies.get(part[2], part[3]).strip("\n") + "\n\n" + part[4], text) for path, text in texts.items()}
    return {**{path: text for path, text in made.items() if PART.search(text)}, MAN: made_man(), EDITS: made_edits(), BUGS: made_bugs(), RULES: made_rules(), **explained.made_files()}, parts


def main():
    made, _ = made_pages()
    for path, text in made.items():
        if text != tree.read(path):
            with open(f"{tree.TOP}/{path}", "w", encoding="utf-8") as page:
                page.write(text)
            print(path)
    return 0


if __name__ == "__main__":
    sys.exit(main())
