"""Wrong files and the faults that are told of them: how rows are written, and what a row asks of the built program."""

import json
import os
import re
import subprocess
from dataclasses import dataclass, field
from pathlib import Path

FLEET = json.dumps(
    {
        "all": {"vars": {"release": "4.2"}},
        "web": {"vars": {"max_down": 2}, "hosts": {"web1": {"tier": "front"}, "web2": None, "web3": None}},
        "db": {"hosts": {"db1": None}},
    }
)
HANDLERS = [{"name": "restart-web", "command": "restart-web"}]
MOST_TOLD = 100
UNPROVED = bool(os.environ.get("UNPROVED"))
# A call that never ends is told. One with the largest files takes seconds, and without proofs minutes: these rows are then left out.
LONGEST_CALL = 900 if UNPROVED else 300


@dataclass
class Row:
    """Two texts, of which the second may be missing; each fault of them, with what the line that helps has to have; and steps that are written as such lines advise. Where `count` is more, just
    the first faults stand there. A large one is left to the proved program."""

    what: str
    inventory: bytes = FLEET.encode()
    playbook: bytes | None = None
    faults: list = field(default_factory=list)
    advised: list = field(default_factory=list)
    count: int | None = None
    is_large: bool = False


def read_rows(path):
    """The rows of a file."""
    blocks = re.split(r"\n{2,}(?=# )", path.read_text().strip("\n"))
    return [_read_row(block.split("\n")) for block in blocks]


def _read_row(lines):
    row, texts = Row(lines[0].removeprefix("# ")), {}
    for line in lines[1:]:
        sign, text = line[:1], line[2:]
        if sign == ">":
            fault, *helps = text.split(" ~ ")
            # Where a condition goes wrong stands in its text.
            row.faults.append((fault, [*helps, *(["<here>"] if fault[:3] in ("501", "502") else [])]))
        elif sign == "=":
            row.advised.append(_playbook("T" if text.startswith("{") else "W", text))
        elif line[1:2] == "|":
            texts[sign] = texts.get(sign, "") + text + "\n"
        else:
            texts["I" if sign == "I" else "P"] = text if sign in "IP" else _playbook(sign, text)
    row.inventory = texts.get("I", FLEET).encode()
    row.playbook = texts["P"].encode() if "P" in texts else None
    return row


def _playbook(sign, text):
    if sign == "K":
        return '[{"hosts": "web", "tasks": [{"command": "true"}], %s}]' % text
    task = {"T": text, "C": json.dumps({"command": text}), "W": json.dumps({"command": "true", "when": text})}[sign]
    return '[{"hosts": "web", "tasks": [%s], "handlers": %s}]' % (task, json.dumps(HANDLERS))


def wrong(program, row, folder):
    """What is wrong with what the program says of a row; nothing where all is right."""
    files = [Path(folder) / "inventory.json", *([Path(folder) / "playbook.json"] if row.playbook is not None else [])]
    for path, text in zip(files, (row.inventory, row.playbook)):
        path.write_bytes(text)
    lint = _call(program, "lint", *files)
    lines = lint.stdout.split("\n")
    of_faults = [place for place, line in enumerate(lines) if line.startswith("faults=")][:1] or [len(lines)]
    told, helps = lines[0 : of_faults[0] : 2], lines[1 : of_faults[0] : 2]
    counted = [line for line in lines[of_faults[0] :] if not line.startswith("  ")]
    wanted = [f"rollout: {fault}" for fault, _ in row.faults[:MOST_TOLD]]
    found = [f"  {line}" for line in _lines_that_differ(wanted, told)]
    ends = [f"faults={row.count or len(row.faults)}", ""]
    if counted != ends or lint.returncode != 1 or lint.stderr:
        found.append(f"it ends with {counted}, status {lint.returncode}, standard error {lint.stderr[:100]!r}")
    for (fault, wants), line in zip(row.faults, helps):
        if not re.fullmatch(r"  [!-~][ -~]{0,139}", line):
            found.append(f"{fault}: {line!r} is no line of two blanks and 1 to 140 bytes of printable ASCII")
        found += [f"{fault}: {want!r} isn't in {line!r}" for want in wants if want not in line]
    for playbook in row.advised:
        found += _refused(program, folder, playbook)
    return found + _of_first_alone(program, files, [*told, ""][0], [*helps, ""][0])


def _refused(program, folder, playbook):
    """What is written as advised is accepted."""
    files = [Path(folder) / "fleet.json", Path(folder) / "advised.json"]
    for path, text in zip(files, (FLEET, playbook)):
        path.write_text(text)
    said = _call(program, "plan", *files)
    return [] if (said.returncode, said.stderr) == (0, "") else [f"what is advised is refused: {playbook}: {said.stderr}"]


def _of_first_alone(program, files, line, helping):
    """The command that reads these files is refused by the first line alone; with `-v` what helps stands behind it."""
    command, found = "limits" if len(files) == 1 else "plan", []
    for options, wanted in (([], f"{line}\n"), (["-v"], f"{line}\n{helping}\n")):
        said = _call(program, command, *options, *files)
        if (said.returncode, said.stdout, said.stderr) != (1, "", wanted):
            found.append(f"{command} {' '.join(options)}: status {said.returncode}, {said.stdout[:100]!r}, {said.stderr!r:.500}")
    return found


def _call(program, *words):
    return subprocess.run([program, *words], stdin=subprocess.DEVNULL, capture_output=True, encoding="latin-1", timeout=LONGEST_CALL, check=False)


def _lines_that_differ(wanted, told):
    if wanted == told:
        return []
    place = next((place for place, pair in enumerate(zip(wanted, told)) if pair[0] != pair[1]), min(len(wanted), len(told)))
    return [f"fault {place + 1} is {[*told, None][place : place + 1]}, and {[*wanted, None][place : place + 1]} is wanted"]
