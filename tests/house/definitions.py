#!/usr/bin/env python3
"""Prints the definitions that contracts cite: crate by crate, file by file, each with the comment above it.

    make definitions                            of all crates
    make definitions CRATES="journal journal_writer"   of these
"""

import os
import re
import sys

import tree

HEAD = re.compile(r"(?:(?:abbrev|pub|unfoldable|record|data|opaque)\s+)++(?!use\b|mod\b|mutual\b)([^\s(:]+)")
# Definitions in such a block are indented. Anything else that is indented is part of a definition.
BLOCK = re.compile(r"(?:abbrev )?mutual$|module .* where$")


def definitions_of(crate):
    """For each file of a crate's specs: the comment at its top, and each definition with the comment above it."""
    return {os.path.basename(path): _definitions_in(tree.read(path)) for path in tree.found(f"crates/{crate}/specs/*.antt")}


def _definitions_in(text):
    about = re.match(r"(?:--.*\n)*", text)[0]
    found, comment, is_block = [], [], False
    for line in text[len(about) :].split("\n"):
        if line[:1].strip() and not line.startswith("--"):
            is_block = bool(BLOCK.match(line))
        line = line.removeprefix("  ") if is_block else line
        head = HEAD.match(line)
        if head:
            found.append((head[1], _joined(comment)))
        comment = comment + [line] if line.startswith("--") else []
    return _joined(about.split("\n")), found


def _joined(lines):
    return " ".join(line[2:].strip() for line in lines).strip()


def main(chosen):
    crates = tree.crates()
    for crate in chosen or crates:
        if crate not in crates:
            sys.exit(f"definitions: no crate {crate}")
        files = {file: said for file, said in definitions_of(crate).items() if said[1]}
        if files:
            print(f"# {crate}\n")
        for file, (about, found) in files.items():
            print(f"{file}: {about}".rstrip(": "), *(f"    {name}: {said}".rstrip(": ") for name, said in found), "", sep="\n")


if __name__ == "__main__":
    sys.stdout.reconfigure(encoding="utf-8")
    try:
        main(sys.argv[1:])
    except BrokenPipeError:
        os._exit(0)
