"""What the pages speak of, as the tree has it: crates and what they stand on, functions, edits, planted bugs, rules of the slow program."""

import glob
import os
import re
import sys

from sources import items_of

TOP = os.path.dirname(os.path.dirname(os.path.dirname(os.path.abspath(__file__))))
PAGES = ["*.md", "docs/*.md", "examples/README.md", "examples/*/README.md", "bench/README.md", "tests/*/README.md"]


def read(path):
    with open(os.path.join(TOP, path), encoding="utf-8") as file:
        return file.read()


def found(*patterns):
    """The files of these patterns, from the top, what is built left out."""
    names = [name for pattern in patterns for name in glob.glob(pattern, root_dir=TOP, recursive=True)]
    return sorted(name for name in names if "/out/" not in name and "__pycache__" not in name)


def pages():
    """All pages, each once."""
    return list(dict.fromkeys(found(*PAGES)))


def crates():
    """What each crate stands on, by crates.txt, each crate behind all that it stands on."""
    stands_on = {}
    for line in read("crates.txt").split("\n"):
        name, colon, below = line.partition("#")[0].partition(":")
        if colon:
            stands_on[name.split()[0]] = below.split()
    order = []
    while len(order) < len(stands_on):
        ready = [name for name in stands_on if name not in order and all(below in order or below not in stands_on for below in stands_on[name])]
        if not ready:
            raise ValueError("crates.txt: crates stand on each other")
        order.append(ready[0])
    return {name: stands_on[name] for name in order}


def families():
    """The crates of each family, in the order of crates.txt, where lines `# NAME` stand above them; none where no such line stands."""
    families, own = {}, []
    for line in read("crates.txt").split("\n"):
        heading = re.fullmatch(r"# (\w+)", line.strip())
        name, colon, _ = line.partition("#")[0].partition(":")
        if heading:
            own = families.setdefault(heading[1], [])
        elif colon:
            own.append(name.split()[0])
    return families


def purpose(crate):
    """What the root of a crate says first of it: the paragraph at its top."""
    root = next((path for path in (f"crates/{crate}/src/{name}.rt" for name in ("lib", "main")) if os.path.exists(os.path.join(TOP, path))), None)
    said = re.match(r"(?://! ?[^\n]+\n)+", read(root)) if root else None
    return " ".join(line[3:].strip() for line in said[0].strip().split("\n")) if said else ""


class Crate:
    """The names of a crate: `public` has its public functions, alone and as `Type::name`, `types` its types, `words` every word of its files."""

    def __init__(self, name):
        self.public, self.types, self.functions = set(), set(), set()
        for path in found(f"crates/{name}/src/**/*.rt"):
            for item in items_of(read(path)):
                if item.kind == "fn":
                    self.functions |= {item.name, item.path()}
                    if item.is_public:
                        self.public |= {item.name, item.path(), re.sub(r"<(\w+) as .*>", r"\1", item.path())}
                elif item.kind in ("struct", "enum", "trait"):
                    self.types.add(item.name)
        # What it hands on of others is its own, too.
        root = f"crates/{name}/src/lib.rt"
        if os.path.exists(os.path.join(TOP, root)):
            for handed in re.findall(r"^pub use ([^;]+);", read(root), re.M):
                self.public |= set(re.findall(r"\w+", handed))


def edits():
    """Each edit as (crate, name): its folder, and (file, old, new) of each of its pairs."""
    told = {}
    for path in found("crates/*/must-fail/*.edit", "crates/*/edits/*.edit"):
        _, crate, folder, name = path.split("/")
        told[crate, name[:-5]] = (folder, _pairs(path))
    return told


def bugs():
    """Each planted bug: (file, old, new) of each of its pairs, and what has to tell it."""
    return {os.path.basename(path)[:-5]: (_pairs(path), (re.findall(r"^shown by: (.*)$", read(path), re.M) or [""])[0]) for path in found("tests/planted/*.edit")}


def _pairs(path):
    """(file, old, new) of each pair of an edit."""
    file, old, pairs = "", None, []
    for line in read(path).split("\n"):
        if line.startswith("file: "):
            file = line[6:].strip()
        elif line.startswith("old: "):
            old = line[5:]
        elif line.startswith("new:") and old is not None:
            pairs.append((file, old, line[4:].removeprefix(" ")))
            old = None
    return pairs


def unfit(top, pairs):
    """What keeps pairs of an edit from being applied: the first old text that doesn't stand in its file exactly once."""
    texts = {}
    for file, old, new in pairs:
        if file not in texts:
            path = os.path.join(top, file)
            texts[file] = read(path) if os.path.exists(os.path.join(TOP, path)) else ""
        count = texts[file].count(old)
        if count != 1:
            return f"its old text stands {count} times in {path_of(top, file)}"
        texts[file] = texts[file].replace(old, new)
    return None if pairs else "it changes nothing"


def path_of(top, file):
    return f"{top}/{file}" if top else file


def rules():
    """The rules of the slow program that can be turned, each with what it says."""
    sys.path.insert(0, os.path.join(TOP, "tests/slow"))
    from rule_list import RULES

    return RULES


def targets():
    """The targets of the Makefile."""
    return set(re.findall(r"^([a-z_]+):", read("Makefile"), re.M))
