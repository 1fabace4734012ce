#!/usr/bin/env python3
"""Shows that tests/house.sh fails where the pages and the tree drift apart: each drift is put into a copy of the tree, alone, and has to be told there.

    make drifts

It takes the names that it changes from the pages as they stand. The last line counts the drifts that were told.
"""

import os
import re
import shutil
import subprocess
import sys
import tempfile
from concurrent.futures import ThreadPoolExecutor

import compare
import definitions
import explained
import made
import tree


class Copy:
    """A copy of the tree that is changed in one place."""

    def __init__(self, top):
        self.top = top

    def read(self, path):
        with open(os.path.join(self.top, path), encoding="utf-8") as file:
            return file.read()

    def write(self, path, text):
        with open(os.path.join(self.top, path), "w", encoding="utf-8") as file:
            file.write(text)

    def change(self, path, old, new, count=1):
        text = self.read(path)
        if old not in text or old == new:
            raise ValueError(f"{path} has no {old}")
        self.write(path, text.replace(old, new, count))

    def move(self, path, to):
        os.rename(os.path.join(self.top, path), os.path.join(self.top, to))


def page_of(part):
    """The page on which a made part stands, and its text."""
    path = made.made_pages()[1][part][0]
    return path, next(body for _, name, body, _ in made.PART.findall(tree.read(path)) if name == part)


def a_crate_left_out_of_architecture(copy):
    path, body = page_of("crates")
    copy.change(path, re.search(r"^- `\w+`: .*\n", body, re.M)[0], "")


def a_crate_of_no_family(copy):
    copy.change("crates.txt", re.search(r"^# \w+\n", copy.read("crates.txt"), re.M)[0], "")


def a_family_of_which_nothing_is_said(copy):
    path, body = page_of("families")
    copy.change(path, *re.search(r"^- (\*\*\w+\*\*: .*)\n()", body, re.M).groups())


def promises():
    """PROVED's table of promises."""
    return compare.section(tree.read("docs/PROVED.md"), "Promises by command")


def a_crate_without_contracts_of_which_proved_says_nothing(copy):
    copy.change("docs/PROVED.md", "**Without contracts**: `core_tests`, ", "**Without contracts**: ")


def a_crate_that_proved_calls_one_without_contracts(copy):
    copy.change("docs/PROVED.md", "**Without contracts**: ", "**Without contracts**: `plan_command`, ")


def a_promise_whose_call_its_crate_keeps(copy):
    copy.change("crates/resume_preview/src/lib.rt", "pub use limits::limits_from;\n", "")


def a_promise_whose_call_has_no_contract(copy):
    path = re.search(r"`\w+` in `(crates/\w+/src/laws\.rt)`", promises())[1]
    copy.write(path, re.sub(r"^    ensures .*\n", "", copy.read(path), flags=re.M))


def a_promise_that_make_does_not_prove(copy):
    lines = copy.read("crates.txt").splitlines(keepends=True)
    copy.write("crates.txt", "".join(line.replace(" run_forecast_laws", "") if line.startswith("resume_preview: ") else line for line in lines))


def a_script_of_which_proved_says_nothing(copy):
    copy.change("docs/PROVED.md", "`tests/programs.sh`, `tests/children.sh`", "`tests/programs.sh`")


def a_contract_to_start_with_that_is_gone(copy):
    copy.change("crates/rollout/specs/Runs.antt", "abbrev pub StartsSafely :", "abbrev pub StartsSafelyAnew :")


def row_of_public_name(copy, name):
    return re.search(rf"^\| .*`{name}`.* \|", compare.section(copy.read("docs/DECISIONS.md"), "Public names"), re.M)[0]


def a_public_name_in_another_crate(copy):
    row = row_of_public_name(copy, "plan_text")
    copy.change("docs/DECISIONS.md", row, row.replace("`plan_command`", "`run_command`", 1))


def a_public_name_that_came_where_one_looks_for_it(copy):
    copy.write("crates/recap/src/lib.rt", copy.read("crates/recap/src/lib.rt") + "pub use bounded_io::WriteFault;\n")


def a_public_name_that_its_crate_keeps(copy):
    copy.change("crates/roll_core/src/lib.rt", "pub use job::Job;\n", "")


def a_parameter_that_a_public_name_has_no_more(copy):
    row = row_of_public_name(copy, "rehearse_text")
    copy.change("docs/DECISIONS.md", row, row.replace("`prompt`", "`prompter`", 1))


def a_public_name_without_a_reason(copy):
    row = row_of_public_name(copy, "Limit")
    copy.change("docs/DECISIONS.md", row, row.rsplit(" | ", 1)[0] + " | |")


def a_command_without_a_promise(copy):
    copy.change("docs/PROVED.md", re.search(r"^\| `rehearse` \|.*\n", promises(), re.M)[0], "")


def a_library_that_proved_calls_trusted_no_more(copy):
    copy.change("docs/PROVED.md", "`serde_json`, ", "")


def a_crate_that_is_gone(copy):
    name = list(tree.crates())[-1]
    copy.write("crates.txt", re.sub(rf"^{name}:.*\n", "", copy.read("crates.txt"), flags=re.M))


def a_count_of_crates_off_by_one(copy):
    path, body = page_of("crates")
    number = re.search(r"(\d+) crates", body)[1]
    copy.change(path, f"{number} crates", f"{int(number) + 1} crates")


def a_count_of_bugs_off_by_one(copy):
    path, body = page_of("bug_counts")
    number = re.search(r"(\d+) bugs", body)[1]
    copy.change(path, f"{number} bugs", f"{int(number) - 1} bugs")


def a_function_renamed(copy):
    name, crate = re.search(r"`(\w+)` in `crates/(\w+)/", promises()).groups()
    changed = False
    for path in tree.found(f"crates/{crate}/src/**/*.rt"):
        source = copy.read(path)
        anew = re.sub(rf"\b{name}\b", name + "_anew", source)
        changed |= anew != source
        copy.write(path, anew)
    if not changed:
        raise ValueError(f"{crate} has no {name}")


def a_rule_that_stands_elsewhere(copy):
    said = compare.section(tree.read("docs/ARCHITECTURE.md"), "Where to look")
    path, name = re.search(r"`(crates/\w+/specs/\w+\.antt)`: `(\w+)`", said).groups()
    copy.write(path, re.sub(rf"(?<!\w){name}(?!\w)", name + "Anew", copy.read(path)))


def a_rule_without_a_file(copy):
    said = compare.section(tree.read("docs/ARCHITECTURE.md"), "Where to look")
    rule = re.search(r"^\| ([^|]*) \| `crates/.*\n", said, re.M)
    copy.change("docs/ARCHITECTURE.md", rule[0], f"| {rule[1]} | | |\n")


def an_edit_without_a_row(copy):
    path = tree.found("crates/*/edits/*.edit")[0]
    copy.write(os.path.join(os.path.dirname(path), "what_nobody_wrote_down.edit"), copy.read(path))


def a_row_without_an_edit(copy):
    os.remove(os.path.join(copy.top, tree.found("crates/*/edits/*.edit")[1]))


def an_edit_that_nobody_tried(copy):
    row = tree.read(made.EDITS).split("\n")[3]
    copy.change(made.EDITS, row, "\t".join(row.split("\t")[:2]) + "\t\t\t")


def an_edit_that_fits_no_more(copy):
    (crate, _), (_, pairs) = next(iter(tree.edits().items()))
    copy.change(f"crates/{crate}/{pairs[0][0]}", pairs[0][1], "")


def a_dependency_off(copy):
    crates = tree.crates()
    name = next(name for name, below in crates.items() if len(below) > 2)
    line = next(line for line in tree.read("crates.txt").split("\n") if line.startswith(name + ":"))
    copy.change("crates.txt", line, line.rsplit(" ", 1)[0])


def a_first_line_off(copy):
    root = tree.found("crates/*/src/lib.rt")[2]
    first = copy.read(root).split("\n")[0]
    copy.change(root, first, first.replace("//! ", "//! Anew, ", 1))


def a_scripts_name_off(copy):
    path = re.search(r"tests/(?!house)\w+\.sh", tree.read("docs/ARCHITECTURE.md"))[0]
    copy.move(path, path[:-3] + "_anew.sh")


def a_script_that_no_list_has(copy):
    copy.write("tests/anew.sh", "exit\n")


def a_target_off(copy):
    target = re.search(r"`make (\w+)", tree.read("docs/GATE.md"))[1]
    copy.write("Makefile", re.sub(rf"^{target}:", f"{target}_anew:", copy.read("Makefile"), flags=re.M))


def a_stale_file_name(copy):
    path = re.search(r"`(crates/\w+/(?:src|specs)/\w+\.\w+)`", tree.read("docs/ARCHITECTURE.md"))[1]
    folder, name = os.path.split(path)
    copy.move(path, f"{folder}/x{name}")


def a_heading_renamed(copy):
    path, anchor = re.search(r"\]\((docs/\w+\.md)#([\w-]+)\)", tree.read("README.md")).groups()
    heading = next(line for line in copy.read(path).split("\n") if line.startswith("#") and re.sub(r"[^\w\- ]", "", line.lstrip("# ").lower()).replace(" ", "-") == anchor)
    copy.change(path, heading, heading + " anew")


def a_definition_renamed(copy):
    crate, name = re.search(r"\(`(\w+)`: `(\w+)`\)$", tree.read("docs/DEFINITIONS.md"), re.M).groups()
    file = next(file for file, (_, found) in definitions.definitions_of(crate).items() if name in dict(found))
    path = f"crates/{crate}/specs/{file}"
    copy.write(path, re.sub(rf"(?<!\w){name}(?!\w)", name + "Anew", copy.read(path)))


def a_term_without_a_definition(copy):
    copy.change("docs/DEFINITIONS.md", re.search(r" \(`\w+`: `\w+`\)$", tree.read("docs/DEFINITIONS.md"), re.M)[0], "")


def a_term_that_stands_twice(copy):
    copy.change("docs/DEFINITIONS.md", "- **bound**: ", "- **plan**: ")


def a_bug_without_a_row(copy):
    path = tree.found("tests/planted/*.edit")[0]
    copy.write("tests/planted/what_nobody_wrote_down.edit", copy.read(path))


def a_bug_that_nobody_tried(copy):
    row = tree.read(made.BUGS).split("\n")[3]
    copy.change(made.BUGS, row, row.rpartition("\t")[0] + "\t")


def a_bugs_test_that_is_gone(copy):
    copy.change(made.BUGS, re.search(r"\tthe tests of \w+\t(?:\w+::)+(\w+)$", tree.read(made.BUGS), re.M)[1], "anew")


def a_rule_without_a_row(copy):
    path = "tests/slow/rules_of_inputs.py"
    copy.change(path, "JSON = {\n", 'JSON = {\n    "json-anew": "Anew.",\n')


def a_rule_that_no_case_tells(copy):
    row = tree.read(made.RULES).split("\n")[3]
    copy.change(made.RULES, row, row.split("\t")[0] + "\t\t")


def an_example_that_no_page_names(copy):
    copy.write("examples/anew.json", "{}\n")


def an_option_left_out_of_the_man_page(copy):
    copy.write("man/rollout.1", re.sub(r"^\.TP\n\.B \\-\\-quiet\n(?:[^.].*\n|\.B .*\n)*", "", copy.read("man/rollout.1"), flags=re.M))


def an_option_too_many_in_fish(copy):
    copy.change("completions/rollout.fish", "-l quiet -d", "-l silent -d")


def a_fault_left_out_of_the_man_page(copy):
    number = list(re.finditer(r"^\| \[(\d+)\]", tree.read("docs/FAULTS.md"), re.M))[3][1]
    copy.write("man/rollout.1", re.sub(rf"^\.TP\n\.B {number} .*\n.*\n", "", copy.read("man/rollout.1"), flags=re.M))


def a_fault_that_nothing_says(copy):
    copy.change("crates/rollout/specs/FaultRows.antt", "number_of Mixed = Some 822", "number_of Mixed = Some 823")


def a_status_told_otherwise_in_the_man_page(copy):
    copy.change("man/rollout.1", "\n.B 4\n", "\n.B 6\n")


def a_fault_explained_otherwise_than_on_its_page(copy):
    copy.change(f"{explained.CRATE}/src/entries.rt", "the inventory is not valid JSON", "the inventory is valid JSON")


def a_note_explained_otherwise_than_on_its_page(copy):
    copy.change(f"{explained.CRATE}/src/entries.rt", "no task of its play that might", "a task of its play that might")


def a_kind_of_notes_that_a_refusal_leaves_out(copy):
    copy.change("crates/command_line/src/option_conflict.rt", "near-key, ", "")


def a_kind_of_notes_that_zsh_lacks(copy):
    copy.change("completions/_rollout", "near-key ", "")


def a_word_that_is_explained_beside_the_pages(copy):
    copy.change(f"{explained.CRATE}/specs/Listed.antt", 'codes "918" ∷', 'codes "918" ∷ codes "919" ∷')


def a_fault_that_the_schema_lacks(copy):
    copy.change("docs/rollout.schema.json", "103, 104,", "103,")


def a_fault_of_another_kind_in_the_schema(copy):
    copy.change("docs/rollout.schema.json", '"TwicePlaced"', '"TwiceNamed"')


def a_fault_that_is_explained_nowhere(copy):
    copy.change(explained.FAULTS, "\n### 102 TwicePlaced\n", "\n### 102 Twice\n")


def a_kind_of_notes_that_is_explained_nowhere(copy):
    copy.change(explained.NOTES, "\n### near-key\n", "\n### near-keys\n")


def other_handles(copy):
    copy.write("HANDLES", "Handles allowed: none.\n")


def a_citation_by_number(copy):
    copy.change("docs/DECISIONS.md", "# Decisions\n", "# Decisions\n\nSee T" + "3.\n")


DRIFTS = [drift for name, drift in list(globals().items()) if getattr(drift, "__module__", None) == __name__ and callable(drift) and not isinstance(drift, type)]
DRIFTS = [drift for drift in DRIFTS if drift.__code__.co_varnames[:1] == ("copy",)]


def told(top):
    """What tests/house.sh says of a tree: the rows that fail, and whether it ended by its count."""
    said = subprocess.run(["sh", "tests/house.sh"], cwd=top, capture_output=True, text=True, stdin=subprocess.DEVNULL)
    rows = re.findall(r"^FAILED: (.*)$", said.stdout, re.M)
    return rows, bool(re.search(r"^\d+ passed, \d+ failed\n\Z", said.stdout, re.M)) and (said.returncode != 0) == bool(rows)


def try_drift(drift, source, work):
    copy = Copy(os.path.join(work, drift.__name__))
    shutil.copytree(source, copy.top)
    try:
        drift(copy)
        rows, ended = told(copy.top)
        return next((row for row in rows if ".md" in row), rows[0]) if rows and ended else None
    finally:
        shutil.rmtree(copy.top)


def main():
    passed = 0
    with tempfile.TemporaryDirectory(prefix="drifts-") as work, ThreadPoolExecutor(os.cpu_count()) as pool:
        source = os.path.join(work, "source")
        skip = shutil.ignore_patterns("out", ".git", "__pycache__")
        shutil.copytree(tree.TOP, source, ignore=skip)
        rows, ended = told(source)
        if rows or not ended:
            print(f"FAILED: without a drift: {rows[:1] or 'no count'}\n0 passed, {len(DRIFTS)} failed")
            return 1
        tries = [(drift.__name__.replace("_", " "), pool.submit(try_drift, drift, source, work)) for drift in DRIFTS]
        for name, tried in tries:
            try:
                row = tried.result()
            except (OSError, ValueError, TypeError, StopIteration) as error:
                row, name = None, f"{name} ({type(error).__name__}: {error})"
            passed += bool(row)
            print(f"{name}: {row}" if row else f"FAILED: {name}: nothing tells it", flush=True)
    print(f"{passed} passed, {len(DRIFTS) - passed} failed")
    return passed != len(DRIFTS)


if __name__ == "__main__":
    sys.exit(main())
