#!/usr/bin/env python3
"""The public functions of all crates with their clauses, from the sources; and what differs between two revisions.

    sh tests/contracts.sh                 those of the working tree
    sh tests/contracts.sh REV             those of a revision
    sh tests/contracts.sh REV tree        what differs from it in the working tree
    sh tests/contracts.sh REV1 REV2       what differs between two

A function is public where its crate hands it out, alone or as a method of a type or trait that it hands out. Of a type its parts stand there, and what a clause sees of it
(`Value`, `view`, `invariant`). White space and comments don't count, and of a path only its last name does: a call or definition that only moved shows no difference of
clauses. Behind the crates stand the definitions that clauses cite, with their texts: a clause may say less though not a letter of it differs.
"""

import io
import os
import re
import subprocess
import sys
import tarfile

import tree
from sources import items_of

DEFINES = re.compile(r"(?:(?:abbrev|pub|record|data|unfoldable|mutual|opaque)\s+)*(\w+)")


def sources(revision):
    """The sources and definitions of a revision, or of the working tree, by path."""
    if revision == "tree":
        return {path: tree.read(path) for path in tree.found("crates/*/src/**/*.rt", "crates/*/specs/**/*.antt")}
    packed = subprocess.run(["git", "-C", tree.TOP, "archive", revision, "crates"], capture_output=True)
    if packed.returncode:
        sys.exit(f"contracts: {packed.stderr.decode().strip()}")
    with tarfile.open(fileobj=io.BytesIO(packed.stdout)) as files:
        return {file.name: files.extractfile(file).read().decode() for file in files if file.isfile() and re.search(r"/src/.*\.rt$|/specs/.*\.antt$", file.name)}


def plain(text):
    """The text with each path made its last name, and with no blank or comma that a break of lines brings."""
    text = re.sub(r"\bRattle(?:\.\w+)*\.(?=[^\s.{])", "", text)
    text = re.sub(r"\b(?:crate|super|self)(?:::\w+)*::(?=\w)", "", text)
    text = re.sub(r"\s+", " ", text)
    text = re.sub(r",? (?=[)\]])|,? (?=>\()", "", text)
    return re.sub(r"(?<=[(\[]) |(?<=\w<) (?=\w+:)", "", text).strip()


def handed_out(texts, crate):
    """The names that a crate hands out; None for a program, which hands out nothing and shows all that is public."""
    root = texts.get(f"crates/{crate}/src/lib.rt")
    if root is None:
        return None
    names = set()
    for said in re.findall(r"^pub use ([^;]+);", root, re.M):
        names |= set(re.findall(r"\w+", said))
    for module in re.findall(r"^pub mod (\w+)", root, re.M):
        for path, text in texts.items():
            if re.match(rf"crates/{crate}/src/{module}(\.rt|/)", path):
                names |= set(re.findall(r"\bpub (?:fn|struct|enum|trait|const) (\w+)", text))
    return names | set(re.findall(r"^pub (?:fn|struct|enum|trait) (\w+)", root, re.M))


def contracts(texts):
    """For each crate its public items: by name the lines that say what each promises."""
    told = {}
    for path, text in sorted(texts.items()):
        crate = path.split("/")[1]
        if not path.endswith(".rt") or "/tests/" in path or path.endswith("/tests.rt"):
            continue
        if crate not in told:
            told[crate] = ({}, handed_out(texts, crate))
        items, names = told[crate]
        for item in items_of(text):
            of = re.match(r"<(\w+) as", item.owner)
            root = (of[1] if of else item.owner) or item.name
            if not item.is_public or names is not None and root not in names:
                continue
            if of and item.kind == "fn" and not item.clauses:
                # What the trait says of it stands at the trait.
                continue
            said = [plain(item.said)] + [f"{kind} {label} {{ {plain(clause)} }}".replace("  ", " ") for kind, label, clause in item.clauses]
            items.setdefault(plain(item.path()), said)
    return {crate: items for crate, (items, _) in told.items()}


def definitions(texts):
    """All definitions by name, each with its texts: several where crates have several of one name."""
    told = {}
    for path, text in sorted(texts.items()):
        if path.endswith(".antt"):
            text = re.sub(r"^ *--.*\n", "", text, flags=re.M)
            for block in re.split(r"\n(?=\S)|\n\n+", text):
                name = DEFINES.match(block)
                if name and not block.startswith("use"):
                    told.setdefault(name[1], []).append((path.split("/")[1], block))
    texts_of = {}
    for name, blocks in told.items():
        # The lines of one definition begin with its name, in one crate.
        joined = {}
        for crate, block in blocks:
            joined[crate] = f"{joined.get(crate, '')} {plain(block)}".strip()
        texts_of[name] = sorted(set(joined.values()))
    return texts_of


def cited(told, known):
    """The names of definitions that clauses cite, and those that their definitions cite."""
    words = {word for items in told.values() for said in items.values() for line in said for word in re.findall(r"\w+", line)}
    names, more = set(), words & set(known)
    while more:
        names |= more
        more = {word for name in more for text in known[name] for word in re.findall(r"\w+", text)} & set(known) - names
    return names


def show(told):
    for crate, items in told.items():
        print(f"# {crate}\n")
        for said in sorted(items.items()):
            print(said[0])
            for line in said[1]:
                print(f"    {line}")
        print()


def differ(old, new):
    """Prints what differs, and gives the counts: gone, new, moved, changed."""
    gone = {(crate, name) for crate in old for name in old[crate]} - {(crate, name) for crate in new for name in new[crate]}
    come = {(crate, name) for crate in new for name in new[crate]} - {(crate, name) for crate in old for name in old[crate]}
    moved = {}
    for crate, name in sorted(gone):
        to = [other for other, of in sorted(come) if of == name and (other, name) not in {(there, of) for (_, of), there in moved.items()}]
        if to:
            moved[crate, name] = next((other for other in to if new[other][name] == old[crate][name]), to[0])
    changed = 0
    for crate in sorted(set(old) | set(new)):
        lines = []
        for name in sorted(set(old.get(crate, {})) | set(new.get(crate, {}))):
            before, after = old.get(crate, {}).get(name), new.get(crate, {}).get(name)
            to = moved.get((crate, name))
            if before is not None and after is None:
                lines.append(f"moved {name} to {to}" if to else f"gone {name}")
                after = new[to][name] if to else None
                lines += [] if to else [f"    - {line}" for line in before]
            elif before is None and (crate, name) in come and crate not in [there for (_, of), there in moved.items() if of == name]:
                lines += [f"new {name}"] + [f"    + {line}" for line in after]
            if before is not None and after is not None and before != after:
                changed += 1
                lines.append(f"changed {name}")
                lines += [f"    - {line}" for line in before if line not in after] + [f"    + {line}" for line in after if line not in before]
        if lines:
            print("\n".join([f"# {crate}", "", *lines, ""]))
    return len(gone) - len(moved), len(come) - len(moved), len(moved), changed


def differ_in_definitions(old, new, names):
    """Prints the definitions of these names whose texts differ, and gives their number."""
    lines = []
    for name in sorted(names):
        before, after = old.get(name, []), new.get(name, [])
        if before and after and before != after:
            lines += [f"changed {name}"] + [f"    - {text}" for text in before if text not in after] + [f"    + {text}" for text in after if text not in before]
        elif before and not after:
            lines += [f"gone {name}"] + [f"    - {text}" for text in before]
    if lines:
        print("\n".join(["# definitions that clauses cite", "", *lines, ""]))
    return sum(not line.startswith(" ") for line in lines)


def main(revisions):
    if len(revisions) < 2:
        show(contracts(sources(revisions[0] if revisions else "tree")))
        return 0
    old, new = (sources(revision) for revision in revisions[:2])
    before, after = contracts(old), contracts(new)
    gone, come, moved, changed = differ(before, after)
    known = definitions(old)
    defined = differ_in_definitions(known, definitions(new), cited(before, known))
    print(f"{gone} gone, {come} new, {moved} moved, {changed} changed, {defined} definitions gone or changed")
    return 0


if __name__ == "__main__":
    sys.stdout.reconfigure(encoding="utf-8")
    try:
        sys.exit(main(sys.argv[1:]))
    except BrokenPipeError:
        os._exit(0)
