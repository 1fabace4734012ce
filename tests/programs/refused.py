"""Runs of eight hosts whose calls are refused, one in each run, and what their programs wrote down held against what the run printed and told (kept.py).

usage: python3 tests/programs/refused.py ROLLOUT FOLDER CALL..     the folder has `act`, `fail.so` and, where nothing may outlive a run, `under`

Two racks in a region, of which each has a limit, and one host beside them; a host fails at its second step; a file of one play of three steps, and of two plays. A CALL is

    malloc             one allocation in six (STRIDE=1: each): the run is as it would be, or memory is wanting, and the recap says what the programs came to
    pthread_create     each thread: nothing is begun
    posix_spawn        each start: memory is wanting, also where standard output is full; or the program isn't started, and its host has failed
    read               each read of an output: the program's end can't be had, and its host has failed; or it is interrupted, and nothing is changed
    write              each write to standard output, behind each line too: what went out is the beginning, and with --verbose the hosts that are down are named
    stop               nothing: the run is ended by its stop file behind each batch

Of each recap of a run that broke off it is also shown that false ones, which are made of it, would be told.
"""

import json
import os
import re
import subprocess
import sys
import tempfile
import threading
import time
from concurrent.futures import ThreadPoolExecutor
from pathlib import Path

import kept
from told import parted

FORKS = (1, 2, 5)
JOBS = os.cpu_count() or 1
UNPROVED = bool(os.environ.get("UNPROVED"))
EPERM, EINTR, EIO, EAGAIN, ENOMEM, ENOSPC = 1, 4, 5, 11, 12, 28

FIRST_RACK, SECOND_RACK = ("a", "b", "c"), ("d", "e", "f", "g")
INVENTORY = {
    "all": {
        "vars": {"second": 0},
        "hosts": {"h": None},
        "children": {
            "eu": {
                "vars": {"max_down": 3},
                "children": {
                    "r1": {"vars": {"max_down": 1}, "hosts": dict.fromkeys(FIRST_RACK)},
                    "r2": {"vars": {"max_down": 2}, "hosts": {**dict.fromkeys(SECOND_RACK), "d": {"second": 3}}},
                },
            }
        },
    }
}


def step(play, number, code=0, **more):
    """A step whose program writes down its begin, writes something, makes a file of the step's own, and writes down its end."""
    at = f"{{{{ inventory_hostname }}}} {play} {number}"
    made = "{{ inventory_hostname }}" + f".{play}.{number}"
    return {"command": {"argv": ["./act", "adds", "notes", f"+ {at}", "out", "3", "err", "2", "adds", made, "x", "adds", "notes", f"- {at} {code}", "exit", f"{code}"]}, **more}


FIRST = {"hosts": "all", "tasks": [step(0, 1, register="r"), step(0, 2, "{{ second }}"), step(0, 3, when="inventory_hostname != ''")]}
SECOND = {"hosts": "eu", "tasks": [step(1, 1), step(1, 2, when="inventory_hostname != 'a'")]}

# The recaps, worked by hand: the region has room for three at first; d fails and stays down, so that two are left, and one of its rack. Hosts are dealt by rack and name, h first.
BATCHES = (("h c f", "a d g", "b e"), ("a e", "b f", "c g"))
BOUNDS = (("waiting=7 room=3", "waiting=5 room=3", "waiting=2 room=2"), ("waiting=6 room=2", "waiting=4 room=2", "waiting=2 room=2"))


def worked(play):
    """The recap of one play with nothing in its way."""
    for number, (batch, bound) in enumerate(zip(BATCHES[play], BOUNDS[play]), 1):
        yield f"boundary {number}: plan batches={4 - number} bound=group eu {bound}"
        yield f"open: {batch}"
    yield "boundary 4: plan batches=0 bound=nothing"
    for host in "abcdefgh" if play == 0 else "abcdefg":
        if host == "d":
            yield "d ok=1 changed=1 failed=1 skipped=0 ignored=0 state=failed" if play == 0 else "d ok=0 changed=0 failed=0 skipped=0 ignored=0 state=failed"
        else:
            went_well = 3 if play == 0 else 1 if host == "a" else 2
            skipped = int(play == 1 and host == "a")
            yield f"{host} ok={went_well} changed={went_well} failed=0 skipped={skipped} ignored=0 state=updated"
    yield "end finished"


PLAYBOOKS = {"one play": [FIRST], "two plays": [FIRST, SECOND]}
WHOLE = {"one play": "\n".join([*worked(0), ""]), "two plays": "\n".join(["play 1", *worked(0), "play 2", *worked(1), ""])}
WAITING = "".join(f"{host} ok=0 changed=0 failed=0 skipped=0 ignored=0 state=waiting\n" for host in "abcdefgh") + "end fault\n"


def plays_of(recap):
    """The recap of each play."""
    return [part for part in re.split(r"(?m)^(?=play \d+$)", recap) if part]


class Ran:
    """A run of one of the playbooks: how it ended, what it printed and told, what its programs wrote down, and the words of the program whose call was refused."""

    def __init__(self, status, out, errors, lines, words):
        self.status, self.out, self.errors, self.lines, self.words = status, out, errors, lines, words

    def spoilt(self, how):
        """The program whose call was refused, and that it ended so."""
        for word in self.words or ():
            if word.startswith("+ "):
                _, host, play, number = word.split()
                return {(host, int(play), int(number)): how}
        return {}


class Sweep:
    """Runs of one playbook at so many forks, in each of which one call is refused by one error."""

    def __init__(self, call, how, name, forks, words=(), stride=1, first=1, least=0, full=False):
        self.call, self.how, self.name, self.forks, self.words, self.stride, self.first, self.least = call, how, name, forks, list(words), stride, first, least
        # Whether a run breaks off by such a call, and its recap is seen; whether standard output is full.
        self.breaks, self.full = (how in (ENOMEM, EAGAIN) or call == "stop") and not full, full
        self.plays = kept.Plays(INVENTORY, PLAYBOOKS[name])
        self.several, self.seen = len(self.plays.plays) > 1, {}
        self.told = "-v" in words

    def what(self):
        error = f" ({os.strerror(self.how).lower()})" if self.how else ""
        return f"{self.call}{error}, {self.name}, {self.forks} forks{', told of' if self.told else ''}{', nothing can be written' if self.full else ''}"

    def row(self, number):
        if self.call == "pthread_create":
            return f"thread {number} of {self.forks} refused"
        return f"{self.what()}: call {number} refused" if self.how else f"{self.what()}: {number}"

    # -- judging

    def judge(self, ran):
        """What is wrong with a run, or None; and how many false recaps that were made of its own were told."""
        if ran.words is None and self.how:
            return (None if self.full else self.wrong_in_whole(ran)), 0
        if self.full and self.how:
            return self.judge_unwritten(ran), 0
        return getattr(self, f"judge_{self.call}")(ran)

    def wrong_in_whole(self, ran, status=2):
        if (ran.status, ran.out) != (status, WHOLE[self.name]):
            return f"status {ran.status}, another recap than with nothing in its way: {ran.out!r}"
        return self.wrong_in_lines(ran, "") or kept.wrong_in(self.plays, ran.out, ran.lines)

    def wrong_in_lines(self, ran, fault, recap=None):
        """What is wrong with what goes to standard error, or None: the line of the fault; with --verbose what is told before it, and what follows."""
        lines, rest = parted(ran.errors) if self.told else ("", ran.errors)
        if not rest.startswith(fault) or not self.told and rest != fault:
            return f"{ran.errors!r} goes to standard error"
        if not self.told:
            return None
        recap = ran.out if recap is None else recap
        wrong = kept.wrong_in_told(recap, lines.splitlines(), ran.lines, self.several)
        behind = rest[len(fault) :].splitlines()
        return wrong or (None if self.call in ("write", "nothing") else kept.wrong_behind(recap, behind, self.several))

    def wrong_in_recap(self, ran, spoilt=None, late=0):
        """What is wrong with a recap, or that a false one which is made of it wouldn't be told; and how many false ones were. Many runs break off alike: each such is looked at once."""
        known = (ran.out, tuple(ran.lines), tuple((spoilt or {}).items()))
        if known in self.seen:
            return self.seen[known]
        wrong, count = kept.wrong_in(self.plays, ran.out, ran.lines, spoilt, late), 0
        if not wrong:
            left, count = kept.untold(self.plays, ran.out, ran.lines, spoilt, late) if ran.out else ([], 0)
            wrong = f"false recaps aren't told: {left}, of {ran.out!r}" if left else None
        self.seen[known] = (wrong, 0)
        return wrong, count

    def judge_broken(self, ran, status, fault, late, at_boundary=False):
        """A run that broke off: its recap is that of its programs, begins as the whole one does, and false ones would be told."""
        if ran.status != status:
            return f"status {ran.status}, {ran.errors!r}", 0
        wrong, count = self.wrong_in_recap(ran, late=late)
        if wrong or not ran.out:
            return wrong or (None if ran.errors == fault else f"{ran.errors!r} goes to standard error"), 0
        if not ran.out.endswith("end fault\n") or at_boundary and " state=running\n" in ran.out:
            return f"the recap ends otherwise: {ran.out!r}", 0
        return self.wrong_beginning(ran.out) or self.wrong_in_lines(ran, fault), count

    def wrong_beginning(self, recap):
        """What is wrong with the plays before the last one, and its boundaries and batches: they are those of the whole recap."""
        sections, wholes = plays_of(recap), plays_of(WHOLE[self.name])
        boundaries = [[line for line in part.splitlines() if re.match("play|boundary|held|open", line)] for part in (sections[-1], wholes[len(sections) - 1])]
        if sections[:-1] != wholes[: len(sections) - 1] or boundaries[0] != boundaries[1][: len(boundaries[0])]:
            return f"the recap begins otherwise: {recap!r}"
        return None

    def judge_malloc(self, ran):
        # What is refused may be asked for again in another way, or be of something that is told.
        if ran.status == 2:
            return self.wrong_in_whole(ran), 0
        return self.judge_broken(ran, 5, "rollout: memory\n", 1)

    def judge_pthread_create(self, ran):
        begun = "play 1\n" if self.several else ""
        if (ran.status, ran.out, ran.lines) != (5, begun + WAITING, []):
            return f"status {ran.status}, {ran.out!r}, and programs wrote {ran.lines}", 0
        return self.wrong_in_lines(ran, "rollout: memory\n"), 0

    def judge_posix_spawn(self, ran):
        if self.how == ENOMEM:
            return self.judge_broken(ran, 5, "rollout: memory\n", 0)
        return self.judge_failed(ran, kept.NOT_STARTED)

    def judge_read(self, ran):
        return (self.wrong_in_whole(ran), 0) if self.how == EINTR else self.judge_failed(ran, kept.LOST)

    def judge_failed(self, ran, how):
        """The program whose call was refused counts as failed, and the run goes on."""
        spoilt = ran.spoilt(how)
        if not spoilt or ran.status not in (2, 3, 4):
            return f"status {ran.status}, {ran.words}, {ran.errors!r}", 0
        wrong, count = self.wrong_in_recap(ran, spoilt)
        return wrong or self.wrong_in_lines(ran, ""), count

    def judge_write(self, ran):
        whole, size = WHOLE[self.name], len(ran.out)
        fault = f"rollout: 904 Write written={size}\n"
        if ran.status != 1 or ran.out != whole[:size] or size == len(whole):
            return f"status {ran.status}, {ran.out!r}", 0
        if wrong := kept.wrong_in(self.plays, whole, ran.lines) or self.wrong_in_lines(ran, fault, whole):
            return wrong, 0
        # Of the last play that was begun.
        down = [line for line in whole.rpartition("play ")[2].splitlines() if line.endswith("=failed")]
        behind = ran.errors.partition(fault)[2].splitlines()
        return (f"{behind} follows, and these hosts are down: {down}" if behind != (down if self.told else []) else None), 0

    judge_nothing = judge_write

    def judge_unwritten(self, ran):
        """A run that broke off, and whose recap can't be written: the lines of the hosts that are down make a right recap, with the others as they are by the batch that was open."""
        fault = "rollout: 904 Write written=0\n"
        lines, rest = parted(ran.errors)
        if ran.status != 1 or not rest.startswith(fault):
            return f"status {ran.status}, {ran.errors!r}"
        recap = self.filled(ran, rest[len(fault) :].splitlines())
        return kept.wrong_in(self.plays, recap, ran.lines) or kept.wrong_in_told(recap, lines.splitlines(), ran.lines, self.several)

    def filled(self, ran, down):
        """The recap in which these lines of hosts are, and those of all that needn't be down: the program that wasn't started was one of the open batch."""
        _, host, play, _ = next(word for word in ran.words if word.startswith("+ ")).split()
        parts, batches = plays_of(WHOLE[self.name]), [batch.split() for batch in BATCHES[int(play)]]
        part, at = parts[int(play)].splitlines(), next(at for at, batch in enumerate(batches) if host in batch)
        boundaries = [line for line in part if re.match("play|boundary|open", line)]
        lines = boundaries[: boundaries.index("open: " + BATCHES[int(play)][at]) + 1]
        for line in (line for line in part if " state=" in line):
            name = line.split()[0]
            if any(name in batch for batch in batches[:at]) and not line.endswith("=failed"):
                down.append(line)
            elif any(name in batch for batch in batches[at + 1 :]):
                down.append(f"{name} ok=0 changed=0 failed=0 skipped=0 ignored=0 state=waiting")
        return "\n".join([*"".join(parts[: int(play)]).splitlines(), *lines, *sorted(down), "end fault", ""])

    def judge_stop(self, ran):
        return self.judge_broken(ran, 6, "rollout: 917 Stopped\n", 0, at_boundary=True)


class Sweeps:
    def __init__(self, rollout, folder, scratch):
        self.rollout, self.folder, self.scratch = rollout, Path(folder), Path(scratch)
        self.passed = self.failed = 0
        self.free, self.lock = [], threading.Lock()

    def place(self):
        """A folder that no other run uses."""
        with self.lock:
            if self.free:
                return self.free.pop()
            place = self.scratch / f"run{len(list(self.scratch.iterdir()))}"
            place.mkdir()
        (place / "act").symlink_to((self.folder / "act").resolve())
        (place / "inventory").write_text(json.dumps(INVENTORY))
        for name, playbook in PLAYBOOKS.items():
            (place / name).write_text(json.dumps(playbook))
        return place

    def run(self, sweep, number):
        place = self.place()
        for path in place.iterdir():
            if path.name in ("notes", "failed") or re.fullmatch(r"[a-h]\.\d\.\d", path.name):
                path.unlink()
        words = [self.rollout, "run", *sweep.words, "inventory", sweep.name, "--forks", str(sweep.forks)]
        environment, under = dict(os.environ), self.folder.resolve() / "under"
        if sweep.call == "stop":
            words += ["--stop-file", number]
        elif sweep.how:
            room = {"FAIL_AT": "1", "FAIL_ROOM": str(number)} if sweep.call == "write" else {"FAIL_AT": str(number)}
            library = str(self.folder.resolve() / "fail.so")
            environment.update(FAIL=sweep.call, FAIL_HOW=str(sweep.how), FAILED="failed", **room, **{"PRELOAD" if under.exists() else "LD_PRELOAD": library})
            words = [str(under), *words] if under.exists() else words
        with open("/dev/full" if sweep.full else place / "out", "wb") as out:
            done = subprocess.run(words, cwd=place, env=environment, stdin=subprocess.DEVNULL, stdout=out, stderr=subprocess.PIPE, timeout=300, check=False)
        notes, failed = place / "notes", place / "failed"
        ran = Ran(
            done.returncode,
            "" if sweep.full else (place / "out").read_text(),
            done.stderr.decode(),
            notes.read_text().splitlines() if notes.exists() else [],
            failed.read_text().splitlines() if failed.exists() else None,
        )
        with self.lock:
            self.free.append(place)
        return ran

    def one(self, sweep, number):
        """Judges one run. Whether its call was refused, whether it broke off, and how many false recaps of it were told."""
        try:
            ran = self.run(sweep, number)
            wrong, false = sweep.judge(ran)
        except (subprocess.TimeoutExpired, UnicodeDecodeError, ValueError, LookupError, kept.Wrong) as fault:
            ran, wrong, false = None, repr(fault), 0
        with self.lock:
            self.passed, self.failed = self.passed + (wrong is None), self.failed + (wrong is not None)
            if wrong is not None:
                print(f"FAILED: {sweep.row(number)}: {wrong}"[:1500], flush=True)
        return ran is not None and ran.words is not None, ran is not None and ran.out.endswith("end fault\n"), false

    def sweep(self, sweep, numbers=None):
        """Refuses each call in turn until there are no more, or those of these numbers."""
        refused = broken = false = 0
        with ThreadPoolExecutor(JOBS) as pool:
            number, more = sweep.first, True
            while more:
                batch = numbers if numbers is not None else range(number, number + 4 * JOBS * sweep.stride, sweep.stride)
                for is_refused, is_broken, told in pool.map(lambda at: self.one(sweep, at), batch):
                    refused, broken, false = refused + is_refused, broken + is_broken, false + told
                    more = more and is_refused and numbers is None
                number += 4 * JOBS * sweep.stride
        return refused, broken, false

    def sweeps(self, call):
        """All runs of a call. Each kind that is to break runs off has to break as many off."""
        runs, refused, broken, false, began = self.passed + self.failed, 0, 0, 0, time.monotonic()
        for sweep, numbers in sweeps_of(call):
            counts = self.sweep(sweep, numbers)
            least = sweep.least // sweep.stride if numbers is None else len(numbers)
            if (counts[0] < least and sweep.how) or (counts[1] < least and sweep.breaks):
                self.failed += 1
                print(f"FAILED: {sweep.what()}: {counts[0]} calls were refused, {counts[1]} broke a run off, and {least} have to")
            refused, broken, false = refused + counts[0], broken + counts[1], false + counts[2]
        runs = self.passed + self.failed - runs
        print(f"{call}: {runs} runs, {refused} calls refused, {broken} runs broken off, {false} false recaps told, in {time.monotonic() - began:.0f} s", flush=True)


def sweeps_of(call):
    """The sweeps of a call, each with the numbers of its calls where these are known. Where a program without proofs is slow, fewer are refused."""
    both = [(name, forks) for name in PLAYBOOKS for forks in FORKS]
    slow = 8 if UNPROVED else 1
    shifted = lambda stride, place: {"stride": stride, "first": 1 + place % stride}
    if call == "malloc":
        # A run makes 4,000 of them, and all take long: one in six is refused, and others in each of the six sweeps.
        stride = int(os.environ.get("STRIDE") or 6)
        return [(Sweep(call, ENOMEM, name, forks, least=100, **shifted(stride, place)), None) for place, (name, forks) in enumerate(both)]
    if call == "pthread_create":
        return [(Sweep(call, EAGAIN, name, forks, words), range(1, forks + 1)) for name, forks in both for words in ([], ["-v"])]
    if call == "posix_spawn":
        kinds = ((ENOMEM, [], False), (ENOMEM, ["-v"], False), (ENOMEM, ["-v"], True), (EPERM, ["-v"], False))
        return [
            (Sweep(call, how, name, forks, words, least=20, full=full, **shifted(slow, place)), None) for place, (name, forks) in enumerate(both) for how, words, full in kinds
        ]
    if call == "read":
        kinds = ((EIO, ["-v"], 1), (EINTR, [], 8))
        return [(Sweep(call, how, name, forks, words, least=80, **shifted(slow * each, place)), None) for place, (name, forks) in enumerate(both) for how, words, each in kinds]
    if call == "write":
        # Behind each line, dealt out to the numbers of forks.
        ends = {name: [0, *(found.end() for found in re.finditer("\n", whole))][:-1] for name, whole in WHOLE.items()}
        return [
            (Sweep(call, ENOSPC, name, forks, words), ends[name][place % len(FORKS) :: len(FORKS) * slow]) for place, (name, forks) in enumerate(both) for words in ([], ["-v"])
        ] + [(Sweep("nothing", 0, name, forks, words, full=True), ["/dev/full"]) for name, forks in both for words in ([], ["-v"])]
    if call == "stop":
        last = {"one play": ["c.0.3", "a.0.3"], "two plays": ["c.0.3", "a.0.3", "b.0.3", "e.1.2", "b.1.2"]}
        return [(Sweep(call, 0, name, forks, words), last[name]) for name, forks in both for words in ([], ["-v"])]
    raise ValueError(call)


def main(rollout, folder, *calls):
    with tempfile.TemporaryDirectory(prefix="refused-", dir=folder) as scratch:
        all_sweeps = Sweeps(str(Path(rollout).resolve()), folder, scratch)
        for call in calls:
            all_sweeps.sweeps(call)
    print(f"{all_sweeps.passed} passed, {all_sweeps.failed} failed")
    return 1 if all_sweeps.failed or not all_sweeps.passed else 0


if __name__ == "__main__":
    sys.exit(main(*sys.argv[1:]))
