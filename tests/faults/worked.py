"""The worked rows of two other scripts: of each text the first fault stands there; all faults are those that the slow program tells."""

import re
import sys
from pathlib import Path

from rows import Row

TESTS = Path(__file__).resolve().parent.parent
sys.path.insert(0, str(TESTS / "slow"))

from every import every_fault  # noqa: E402

FLEET = '{"all":{"hosts":{"a":null,"b":null}},"web":{"hosts":{"x":null}},"db":{"hosts":{"y":null}}}'
TASK = '[{"hosts":"a","tasks":[%s],"handlers":[{"name":"restart","command":"true"},{"name":"","command":"true"},{"name":"h","command":"true"}]}]'
HANDLER = '[{"hosts":"a","tasks":[{"command":"true"}],"handlers":[%s]}]'


def _tables(script):
    """The first faults and the texts of each table of a script."""
    text = (TESTS / script).read_text()
    return [[row.split(" | ", 1) for row in table.split("\n")] for table in re.findall(r"<<'FAULTS'\n(.*?)\nFAULTS\n", text, re.S)]


def worked():
    """The rows, and of each that the fault that stands there is the first one."""
    inventories, *_ = _tables("inventories.sh")
    for first, text in inventories:
        yield _row(first, text, None)
    for table, form in zip(_tables("playbooks.sh"), ("%s", TASK, HANDLER)):
        for first, text in table:
            yield _row(first, FLEET, form % text if form != "%s" else text)


def _row(first, inventory, playbook):
    found = every_fault(inventory.encode(), None if playbook is None else playbook.encode())
    row = Row(f"{first} | {playbook or inventory}", inventory.encode(), None if playbook is None else playbook.encode())
    row.faults = [(fault.words(), []) for fault in found]
    row.faults[0] = first, []
    return row
