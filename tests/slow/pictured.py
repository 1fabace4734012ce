"""The course of a file of plays as a picture, in SVG, and drawn ones held against a program.

`python3 pictured.py PROGRAM [SEED [CASES]]` draws courses, has both programs draw their pictures, tells where they differ and whether each is well formed; its last line counts.
"""

import os
import subprocess
import sys
import tempfile
import xml.etree.ElementTree as tree

from cases import INVENTORY, PLAYBOOK, draw_grouped
from planning import deal_key, down

MOST_HOSTS = 256
STYLE = (
    "<style>svg{background:#fff}text{font:12px monospace;fill:#222}.group,.host{text-anchor:end}.group,.play{font-weight:bold}.head,.count{text-anchor:middle;font-size:9px}"
    "rect{stroke:#bbb;fill:#fff}.waiting{fill:#dbe9f6}.running,.updated{fill:#b8e0b4}.failed{fill:#d62728}.halted{fill:#ff9f40}.off{fill:#8a8a8a}.held{fill:#c9b3e6}"
    ".ran{stroke:#000}.updated.ran{fill:#2ca02c}.room{fill:#f4f4f4}.full{fill:#ffe08a}</style>\n"
)
LEGEND = [
    ("waiting", "waiting"),
    ("updated ran", "in batch"),
    ("updated", "updated"),
    ("failed", "failed"),
    ("halted", "halted"),
    ("off", "off"),
    ("held", "held"),
    ("full", "no room"),
]
REFERENCES = {"&": "&amp;", "<": "&lt;", ">": "&gt;", '"': "&quot;"}


def escaped(name):
    """The name as XML has it: what XML doesn't know is a question mark."""
    return "".join(REFERENCES.get(sign, sign if ord(sign) >= 32 and ord(sign) not in (0xFFFE, 0xFFFF) else "?") for sign in name)


def label(kind, x, y, words):
    return f'<text x="{x}" y="{y}" class="{kind}">{words}</text>\n'


def cell(kind, x, y):
    return f'<rect x="{x}" y="{y}" width="46" height="14" class="{kind}"/>\n'


def picture_text(fleet, courses):
    """The whole picture: a legend, and play by play a row for each limited group and for each host, where there are no more than 256 of them."""
    hosts = sorted(fleet.hosts, key=lambda host: deal_key(fleet, host)) if len(fleet.hosts) <= MOST_HOSTS else []
    height = 64 + 16 * (len(fleet.limited) + len(hosts))
    # The legend needs as much room as twelve columns.
    columns = max(12, *(len(course.boundaries) for course in courses))
    text = f'<svg xmlns="http://www.w3.org/2000/svg" width="{320 + 48 * columns}" height="{56 + height * len(courses)}">\n' + STYLE
    for place, (kind, words) in enumerate(LEGEND):
        text += cell(kind, 8 + 112 * place, 10) + label("entry", 58 + 112 * place, 21, words)
    for number, course in enumerate(courses):
        text += _play(fleet, hosts, course, number, 48 + height * number)
    return text + "</svg>\n"


def _play(fleet, hosts, course, number, top):
    """A play from this height on."""
    text = label("play", 8, top + 16, f"play {number + 1}")
    for column in range(len(course.states)):
        text += label("head", 331 + 48 * column, top + 36, column or "now")
    y = top + 42
    for place in fleet.limited:
        limit = fleet.limits[place.number]
        text += label("group", 300, y + 11, f"{escaped(place.name)} max_down={limit}")
        for column in range(len(course.states)):
            count = _down(fleet, course, column, place)
            text += cell("room" if count < limit else "full", 308 + 48 * column, y)
            text += label("count", 331 + 48 * column, y + 11, f"{count}/{limit}")
        y += 16
    for host in hosts:
        chain = fleet.chain(host)
        text += label("host", 300, y + 11, escaped(host) + (f": {escaped(chain[-1].name)}" if chain else ""))
        for column, state in enumerate(course.states):
            text += cell(state[host] + (" ran" if host in _batch(course, column) else ""), 308 + 48 * column, y)
        y += 16
    return text


def _batch(course, column):
    """The batch behind which the column shows the hosts: that of the boundary before."""
    return course.boundaries[column - 1].opened if column else []


def _down(fleet, course, column, place):
    """How many hosts of a group are down while that batch runs: those that were before, and its own."""
    before = down(fleet, course.states[max(column - 1, 0)], place)
    return before + len(set(_batch(course, column)) & set(fleet.members[place.number]))


def main(program, seed, cases):
    """Each drawn course that both accept."""
    from commands import accepted, names_to_fail, targeted
    from faults import Fault
    from foreseen import foresee

    same = differ = 0
    with tempfile.TemporaryDirectory() as folder:
        for number in range(cases):
            case = draw_grouped(seed, number)
            words = [word for word in case.words if word not in ("--groups", "--forecast")]
            try:
                fleet, plays, targets = accepted(case.inventory, case.playbook)
                courses = foresee(fleet, plays, targets, lambda target: targeted(fleet, target), fleet.target(names_to_fail(case.words)))
            except Fault:
                continue
            wanted = picture_text(fleet, courses)
            got = _drawn_by(program, folder, case, words)
            tree.fromstring(wanted)
            same, differ = (same + 1, differ) if got == wanted else (same, differ + 1)
            if got != wanted:
                print(f"case {number} of {seed} differs")
    print(f"{same} passed, {differ} failed")
    return 1 if differ else 0


def _drawn_by(program, folder, case, words):
    """What the program writes into the file of its option."""
    for name, content in ((INVENTORY, case.inventory), (PLAYBOOK, case.playbook)):
        with open(os.path.join(folder, name), "wb") as file:
            file.write(content)
    subprocess.run([program, *words, "--forecast", "--picture", "picture.svg"], cwd=folder, stdout=subprocess.DEVNULL, stderr=subprocess.DEVNULL, check=False)
    try:
        with open(os.path.join(folder, "picture.svg"), encoding="utf-8") as file:
            return file.read()
    except FileNotFoundError:
        return None
    finally:
        for name in os.listdir(folder):
            os.remove(os.path.join(folder, name))


if __name__ == "__main__":
    given = [*sys.argv[1:], "", ""]
    sys.exit(main(given[0], given[1] or "7", int(given[2] or 200)))
