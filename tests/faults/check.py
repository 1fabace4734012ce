"""Holds the built program against wrong files, of which each fault is told; the last line counts them.

`python3 check.py PROGRAM`
"""

import os
import re
import sys
import tempfile
from multiprocessing import Pool
from pathlib import Path

from bounds import bounds
from rows import UNPROVED, read_rows, wrong
from worked import worked

LEAST_ROWS = 120
FAULTS = Path(__file__).resolve().parents[2] / "docs" / "FAULTS.md"
# Faults of files have the numbers below this one.
OF_FILES = 800


def main(program):
    program = os.path.abspath(program)
    written = [row for path in sorted(Path(__file__).resolve().parent.glob("*.rows")) for row in read_rows(path)]
    table = [*written, *bounds()]
    rows = [row for row in (*table, *worked()) if not (UNPROVED and row.is_large)]
    if UNPROVED:
        print("left out on a program without proofs: faults of the largest files")
    failed = 0
    with Pool(len(os.sched_getaffinity(0))) as pool:
        for row, found in zip(rows, pool.imap(_try, [(program, row) for row in rows], chunksize=4)):
            failed += bool(found)
            for line in found[:1] and [f"FAILED: {row.what:.200}", *found[:6]]:
                print(line[:600], flush=True)
    if len(written) < LEAST_ROWS:
        print(f"FAILED: of {LEAST_ROWS} rows just {len(written)} were read")
        failed += 1
    listed = {number for number in re.findall(r"^\| \[(\d+)\]", FAULTS.read_text(), re.M) if int(number) < OF_FILES}
    for number in sorted(listed - {fault[:3] for row in table for fault, _ in row.faults}):
        print(f"FAILED: no row has fault {number}")
        failed += 1
    print(f"{len(rows) - failed} passed, {failed} failed")
    return 1 if failed else 0


def _try(work):
    with tempfile.TemporaryDirectory() as folder:
        return wrong(*work, folder)


if __name__ == "__main__":
    sys.exit(main(sys.argv[1]))
