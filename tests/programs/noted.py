"""Drawn playbooks whose programs write down when they begin and end, run by the built program at several forks; and what these notes must not show.

usage: python3 tests/programs/noted.py ROLLOUT FAIL.SO [SEED [CASES]]

Each program adds a line to one file as it begins, and another before it ends, with what it gives back, so the lines of that file stand in the order of time. By them, and by the batches
that the recap names:

- no group has more hosts down than its `max_down`: the hosts of a batch are down from the first begin in it to the last end, and from then on those that failed or were halted;
- never do more programs run at once than there are forks;
- on each host the steps of a play come in their order, and none twice; none comes behind one that failed;
- no program of a step begins before all of the batch's steps before it have ended, and none of a batch before all of the batch before it;
- each number of forks prints the same bytes, with `--verbose` too, which tells of each batch and each program once;
- the recap has each host as its programs ended, and counts what these make (kept.py); so has that of a run that its stop file ended, which a program makes, and of one that found no
  memory to start a program.
"""

import json
import os
import random
import re
import subprocess
import sys
import tempfile
from pathlib import Path

import kept

FORKS = (1, 2, 5, 64)
ENDED = {"failed", "halted"}


def draw_group(draw, names, depth, members):
    """A group under the next name: its hosts and groups below it. All its members are put down in `members`."""
    name = f"g{len(members)}"
    members[name] = own = []
    group = {"hosts": {}, "children": {}}
    for _ in range(draw.choice([0, 1, 2, 3, 4])):
        if names:
            host = names.pop()
            group["hosts"][host] = {"down": True} if draw.random() < 0.04 else None
            own.append(host)
    for _ in range(draw.choice([0, 1, 2, 3]) if depth < 3 else 0):
        below, body = draw_group(draw, names, depth + 1, members)
        group["children"][below] = body
        own += members[below]
    if own and draw.random() < 0.7:
        group["vars"] = {"max_down": draw.choice([1, 1, 2, 3, max(1, len(own) // 2)])}
    return name, group


def draw_inventory(draw):
    """An inventory, the members of each group, and the limit of each that has one."""
    names = [f"h{number:02}" for number in range(draw.choice([1, 6, 10, 14, 18]))]
    draw.shuffle(names)
    members, limits = {}, {}
    top = {}
    while names:
        name, group = draw_group(draw, names, 1, members)
        top[name] = group

    def look(name, group):
        if "vars" in group:
            limits[name] = group["vars"]["max_down"]
        for below, body in group["children"].items():
            look(below, body)

    for name, group in top.items():
        look(name, group)
    return {"all": {"children": top}}, members, limits


def script(draw, play, step, hosts, notes, stop):
    """A shell's line that notes its begin, does a little, and notes its end. One of a case makes the stop file, on one host."""
    note = f'echo "%s $0 {play} {step}%s" >>{notes}'
    parts = [note % ("+", "")]
    if (play, step) == stop[:2]:
        parts.append(f"test $0 != {stop[2]} || : >stop")
    if draw.random() < 0.25:
        parts.append(f"sleep 0.00{draw.choice([1, 2, 5])}")
    if draw.random() < 0.3:
        parts.append(draw.choice(["echo out", "echo bad >&2", "printf 'a\\nb\\n'", "echo $0"]))
    if draw.random() < 0.35:
        # On one host it fails, or is ended by a signal.
        end, code = draw.choice([("exit 1", " 1"), ("exit 3", " 3"), ("kill -9 $$", " -1")])
        parts.append(f'if test $0 = {draw.choice(hosts)}; then {note % ("-", code)}; {end}; fi')
    parts.append(note % ("-", " 0"))
    return "; ".join(parts)


def draw_step(draw, play, number, hosts, notes, stop, handlers):
    step = {"command": {"argv": ["sh", "-c", script(draw, play, number, hosts, notes, stop), "{{ inventory_hostname }}"]}}
    if draw.random() < 0.6:
        step["name"] = f"step {number}"
    if draw.random() < 0.3:
        step["register"] = "r"
    if draw.random() < 0.15:
        step["ignore_errors"] = True
    if draw.random() < 0.2:
        step["when"] = f"inventory_hostname != '{draw.choice(hosts)}'"
    if handlers and draw.random() < 0.4:
        step["notify"] = draw.choice(handlers)
    return step


def draw_play(draw, play, hosts, groups, notes, stop):
    tasks, count = [], draw.choice([1, 2, 3, 4])
    handlers = [f"handler {number}" for number in range(draw.choice([0, 0, 1, 2]))]
    for number in range(1, count + 1):
        tasks.append(draw_step(draw, play, number, hosts, notes, stop, handlers))
    text = {"hosts": draw.choice(["all", "all", "all", *groups, draw.choice(hosts)]), "tasks": tasks}
    if handlers:
        text["handlers"] = [{**draw_step(draw, play, count + 1 + place, hosts, notes, stop, []), "name": name} for place, name in enumerate(handlers)]
    if draw.random() < 0.5:
        text["serial"] = draw.choice([1, 2, 3, 5, "50%", [1, 2, "100%"]])
    if draw.random() < 0.2:
        text["max_fail_percentage"] = draw.choice([0, 30, 50])
    if draw.random() < 0.4:
        text["on_blocked"] = "hold"
    return text


def batches_of(recap):
    """The batches of a recap, each with the number of its play from 0, and the last status of each host behind each play."""
    batches, states, play = [], [{}], 0
    for line in recap.splitlines():
        begun = re.fullmatch("play ([0-9]+)", line)
        if begun:
            play = int(begun[1]) - 1
            while len(states) <= play:
                states.append({})
        elif line.startswith("open: "):
            batches.append((play, line.split()[1:]))
        elif " state=" in line:
            states[play][line.split()[0]] = line.rpartition("=")[2]
    return batches, states


def fault_of(notes, recap, members, limits, forks, off):
    """What is wrong with the notes of a run, if anything is."""
    batches, states = batches_of(recap)
    running, begun, down, steps = {}, set(), set(off), {}
    place, batch, ended, highest = -1, (None, []), set(), 0
    for line in notes:
        sign, host, play, step = line.split()[:4]
        play, step = int(play), int(step)
        if sign == "-":
            if running.pop(host, None) != (play, step):
                return f"{line}: it didn't run"
            continue
        if play != batch[0] or host not in batch[1]:
            if running:
                return f"{line}: a batch begins while {running} run"
            down -= {name for name in batch[1] if states[batch[0]].get(name) not in ENDED}
            # Batches in which no program is run have no notes.
            while True:
                place += 1
                if place == len(batches):
                    return f"{line}: no batch of the recap has it"
                batch = batches[place]
                ended |= {name for name in batches[place - 1][1] if place and states[batches[place - 1][0]].get(name) in ENDED}
                if batch[0] == play and host in batch[1]:
                    break
            highest = 0
            # All hosts of a batch are down while it is open.
            down.update(batch[1])
        if (play, host, step) in begun:
            return f"{line}: twice"
        if host in ended:
            return f"{line}: it had failed"
        if step < highest or (step > highest and running):
            return f"{line}: steps are not one behind the other, {running} run"
        if steps.get((play, host), 0) >= step:
            return f"{line}: a step behind a later one"
        begun.add((play, host, step))
        steps[play, host] = step
        highest = step
        running[host] = (play, step)
        if len(running) > forks:
            return f"{line}: {len(running)} run at {forks} forks"
        for group, limit in limits.items():
            count = len(down.intersection(members[group]))
            if count > limit:
                return f"{line}: {count} of {group} are down, of {limit}"
    return f"{running} have not ended" if running else None


def told_wrong(errors, notes, recap):
    """What is wrong with what `--verbose` told, if anything is."""
    batches, _ = batches_of(recap)
    opened = [line.partition(" open: ")[2].split() for line in errors if line.startswith("waiting=")]
    if opened != [hosts for _, hosts in batches]:
        return f"other batches are told of: {opened}"
    if len(opened) != sum(line.startswith("closed ") for line in errors):
        return "not each batch is closed once"
    noted = sorted((host, f"step={step}") for sign, host, _, step, *_ in map(str.split, notes) if sign == "+")
    for form in (r"begins at=[0-9]+ name=", r"(ok|changed|failed|ignored) (rc=-1 signal=[0-9]+|rc=[0-9]+|lost|not-started) ms=[0-9]+ name="):
        told = sorted(tuple(line.split()[:2]) for line in errors if re.match(rf"h[0-9]+ step=[0-9]+ {form}", line))
        if told != noted:
            return f"other programs are told of: {told}"
    return None


class Cases:
    def __init__(self, rollout, fail, seed, folder):
        self.rollout, self.fail, self.seed, self.folder = rollout, fail, seed, Path(folder)
        self.passed = self.failed = self.broken = 0

    def judge(self, number, what, fault):
        if fault is None:
            self.passed += 1
        else:
            self.failed += 1
            print(f"FAILED: seed {self.seed}, case {number}, {what}: {fault}")

    def run(self, forks, *words, **failing):
        """The notes of a run, what it printed, and what it told."""
        notes = self.folder / "notes"
        notes.write_text("")
        (self.folder / "stop").unlink(missing_ok=True)
        done = subprocess.run(
            [self.rollout, "run", "inventory", "playbook", "--forks", str(forks), *words],
            cwd=self.folder, env={**os.environ, **failing}, stdin=subprocess.DEVNULL, capture_output=True, timeout=300, check=False,
        )
        return notes.read_text().splitlines(), (done.stdout.decode(), done.returncode), done.stderr.decode().splitlines()

    def case(self, number):
        draw = random.Random(f"{self.seed} {number}")
        inventory, members, limits = draw_inventory(draw)
        hosts = sorted({host for own in members.values() for host in own})
        off = re.findall(r'"(h[0-9]+)": \{"down"', json.dumps(inventory))
        if any(len(set(off).intersection(members[group])) > limit for group, limit in limits.items()):
            return
        notes = self.folder / "notes"
        groups = [group for group, own in members.items() if own]
        # Which program makes the stop file, and which start finds no memory, is drawn by itself: the other cases of a seed stay what they are.
        own = random.Random(f"{self.seed} {number} broken off")
        stop = (own.choice([0, 0, 1]), own.choice([1, 1, 2, 3]), own.choice(hosts))
        plays = [draw_play(draw, play, hosts, groups, notes, stop) for play in range(draw.choice([1, 1, 1, 2, 3]))]
        (self.folder / "inventory").write_text(json.dumps(inventory))
        (self.folder / "playbook").write_text(json.dumps(plays))
        known = kept.Plays(inventory, plays)
        first = None
        for forks in FORKS:
            noted, printed, told = self.run(forks)
            first = first or printed
            fault = fault_of(noted, printed[0], members, limits, forks, off)
            fault = fault or kept.wrong_in(known, printed[0], noted)
            if told:
                fault = f"it told {told[0]}"
            if printed != first or printed[1] not in (0, 2, 3, 4):
                fault = f"it printed {printed[0]!r}, status {printed[1]}"
            self.judge(number, f"{forks} forks", fault)
        noted, printed, told = self.run(draw.choice(FORKS), draw.choice(["-v", "--verbose"]))
        fault = told_wrong(told, noted, printed[0]) if printed == first else f"it printed {printed[0]!r}"
        self.judge(number, "told of", fault)
        forks, start = own.choice(FORKS), own.randrange(1, 2 + sum(line.startswith("+") for line in noted))
        self.judge(number, f"stopped, {forks} forks", self.wrong_in_broken(known, first, (6, "rollout: 917 Stopped"), self.run(forks, "--stop-file", "stop")))
        memory = self.run(forks, LD_PRELOAD=self.fail, FAIL="posix_spawn", FAIL_AT=str(start), FAIL_HOW="12")
        self.judge(number, f"no memory for start {start}, {forks} forks", self.wrong_in_broken(known, first, (5, "rollout: memory"), memory))

    def wrong_in_broken(self, known, whole, broken, ran):
        """What is wrong with a run that may have been broken off, if anything is. No program's end is missing in its recap."""
        noted, (recap, status), told = ran
        if (recap, status) != whole or told:
            if status != broken[0] or told != [broken[1]] or not recap.endswith("end fault\n"):
                return f"it printed {recap!r}, status {status}, and told {told}"
            self.broken += 1
            if status == 6 and " state=running\n" in recap:
                return f"it was stopped, and a host is at work: {recap!r}"
        return kept.wrong_in(known, recap, noted)


def main():
    rollout = str(Path(sys.argv[1]).resolve())
    fail = str(Path(sys.argv[2]).resolve())
    seed = sys.argv[3] if len(sys.argv) > 3 and sys.argv[3] else "1"
    count = int(sys.argv[4]) if len(sys.argv) > 4 and sys.argv[4] else 304
    with tempfile.TemporaryDirectory(prefix="noted-") as folder:
        cases = Cases(rollout, fail, seed, folder)
        for number in range(count):
            cases.case(number)
    print(f"{cases.broken} runs were broken off")
    if not cases.broken:
        cases.judge("any", "none of its runs", "no run was broken off")
    print(f"{cases.passed} passed, {cases.failed} failed")
    sys.exit(1 if cases.failed or not cases.passed else 0)


main()
