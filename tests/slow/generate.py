"""Writes the files of one drawn case into a folder, and prints the command: `python3 generate.py SEED NUMBER FOLDER`."""

import shlex
import sys
from pathlib import Path

from built import put_files
from cases import draw_case


def main(seed, number, folder):
    case = draw_case(seed, int(number))
    print(keep(case, Path(folder), "rollout"))


def keep(case, folder, program):
    """Writes a case's files; answers the command that runs it on a program."""
    folder.mkdir(parents=True, exist_ok=True)
    put_files(case, folder)
    (folder / "typed").write_bytes(case.typed)
    return f"cd {shlex.quote(str(folder))} && {program} {shlex.join(case.words)} <typed"


if __name__ == "__main__":
    main(*sys.argv[1:])
