#!/usr/bin/env python3
"""Runs that break off and go on, beside what their programs note: killed at drawn moments and at each write and sync, stopped, or ended by failures; and then resumed, again and again.

    resumed.py PROGRAM FOLDER PRELOAD SEED DRAWN

PRELOAD is disk.c as a library. It counts what passed. Nothing of the program is taken for what is wanted: who is down by a journal comes from journal.py, and how many may be down at once from the
inventory as it was drawn.
"""
import json
import os
import re
import signal
import subprocess
import sys
import time

sys.path.insert(0, os.path.dirname(os.path.abspath(__file__)))
import journal
import kept
from kept import Case, draw, fleet, judge, settle
from limits import over


def stamping(failing):
    """A task whose program notes when it begins and when it has ended, and how; a host of the list fails as long as no file of its name is there."""
    host = "{{ inventory_hostname }}"
    script = (
        f"echo $(date +%s%N) began {host} >>$NOTED; sleep 0.0{draw.randint(1, 3)}; "
        f"case ' {' '.join(failing)} ' in *' {host} '*) if [ ! -e $NOTED.{host} ]; then echo $(date +%s%N) failed {host} >>$NOTED; exit 1; fi ;; esac; "
        f"echo $(date +%s%N) ended {host} >>$NOTED"
    )
    return {"command": {"argv": ["sh", "-c", script]}}


class Rolled(Case):
    """A case whose limits are known, and of which is noted who was at work when."""

    def __init__(self, inventory, plays, racks, row, off):
        super().__init__(inventory, plays)
        self.racks, self.row, self.off = racks, row, off
        self.hosts = [host for hosts, _ in racks.values() for host in hosts]

    def stamps(self):
        if not os.path.exists(self.paths[3]):
            return []
        with open(self.paths[3]) as file:
            return [text.split() for text in file.read().splitlines()]

    def resume(self, *more, **environment):
        return subprocess.run(
            self.words("--resume", self.paths[2], *more), stdin=subprocess.DEVNULL, capture_output=True, env={**os.environ, "NOTED": self.paths[3], **environment}, timeout=300
        )

    def clear(self):
        super().clear()
        for name in os.listdir(os.path.dirname(self.paths[3])):
            if name.startswith("noted."):
                os.remove(os.path.join(os.path.dirname(self.paths[3]), name))


def drawn_case():
    """Racks in a row, hosts that are off or fail, sizes, limits, and one play or several."""
    count, size, row = draw.randint(1, 4), draw.randint(1, 4), draw.randint(1, 5)
    inventory = fleet(count, size, row)
    racks = {f"r{rack}": ([f"h{rack}-{place}" for place in range(size)], 1 + rack % 2) for rack in range(count)}
    off = set()
    for name, (hosts, limit) in racks.items():
        for host in hosts:
            if draw.random() < 0.1 and len(off & set(hosts)) < limit and len(off) < row:
                inventory["all"]["children"]["row"]["children"][name]["hosts"][host] = {"down": True}
                off.add(host)
    names = [host for hosts, _ in racks.values() for host in hosts]
    plays = []
    for _ in range(draw.choice([1, 1, 2])):
        play = {"hosts": draw.choice(["all", "all", "r0"]), "tasks": [stamping([name for name in names if draw.random() < 0.12] or ["-"])], "max_fail_percentage": draw.choice([0, 50, 100])}
        if draw.random() < 0.5:
            play["serial"] = draw.choice([1, 2, [1, 3], "50%"])
        if draw.random() < 0.4:
            play["on_blocked"] = "hold"
        plays.append(play)
    return Rolled(inventory, plays, racks, row, off)


def wrong_in_limits(case, mended_at):
    """At which moment more hosts of a rack or of the row were down than may be: a host is down from when its program begins to when it has ended well, or is mended; and while it is off."""
    moves = [(0, host, True) for host in case.off]
    for stamp, word, host in case.stamps():
        moves.append((int(stamp), host, word != "ended"))
    moves += [(stamp, host, False) for stamp, host in mended_at]
    return over({**case.racks, "the row": (case.hosts, case.row)}, [move[1:] for move in sorted(moves, key=lambda move: (move[0], move[2]))])


def updated_by(kept_, hosts):
    """The play that began last, and who is updated in it."""
    bodies = journal.bodies_of(kept_)
    return sum(body.startswith("play:") for body in bodies), {host for host, state in journal.states_of(kept_, hosts).items() if state == "updated"}


def is_over(kept_, plays):
    """Whether the last play has ended finished."""
    bodies = journal.bodies_of(kept_)
    return sum(body.startswith("play:") for body in bodies) == plays and bodies[-1] == "end finished"


def broken_off(case, whole):
    """Breaks a first run off somehow, and gives what its journal is, or nothing where it has none that is whole."""
    does = draw.choice(["kill", "kill_before", "kill_behind", "short_kill", "stop", "none"])
    forks = ("--forks", str(draw.choice([1, 3, 64])))
    if does == "kill":
        run = case.start(*forks)
        time.sleep(draw.random() * whole)
        try:
            os.killpg(run.pid, signal.SIGKILL)
        except ProcessLookupError:
            pass
        run.communicate()
    elif does == "none":
        case.ended(*forks)
    elif does == "stop":
        stop = case.paths[4]
        run = case.start(*forks, "--stop-file", stop)
        time.sleep(draw.random() * whole)
        open(stop, "w").close()
        run.communicate()
        os.remove(stop)
    else:
        case.ended(*forks, LD_PRELOAD=kept.PRELOAD, DISK_AT=str(draw.randint(1, 14)), DISK_DOES=does, DISK_IMAGE=case.paths[4])
        if os.path.exists(case.paths[4]):
            os.remove(case.paths[4])
    settle(case)
    return does


def resumed(count):
    """Each run that broke off goes on: over all of it no group is over its limit, and nobody who was updated is touched again by the same play."""
    for number in range(count):
        case = drawn_case()
        began = time.monotonic()
        case.ended("--forks", "3")
        whole = time.monotonic() - began
        does = broken_off(case, whole)
        text = case.kept()
        if not text or not journal.bodies_of(text):
            again = case.resume()
            judge(f"{number}: {does}: no journal", again.returncode != 1 and f"status {again.returncode}", case.kept() != text and "the journal is another")
            continue
        mended_at, wrongs = [], []
        for turn in range(4):
            before = case.kept()
            states = journal.states_of(before, case.hosts)
            play, updated = updated_by(before, case.hosts)
            goes_on = not is_over(before, play)
            down = sorted(host for host, state in states.items() if state in ("running", "failed", "halted")) + sorted(case.off)
            mended = [host for host in down if draw.random() < 0.5]
            now = time.time_ns()
            for host in mended:
                open(f"{case.paths[3]}.{host}", "w").close()
                mended_at.append((now, host))
                case.off.discard(host)
            told = len(case.stamps())
            more = ("--up", ",".join(mended)) if mended else ()
            ran = case.resume(*more, "--forks", str(draw.choice([1, 3, 64])))
            after = case.kept()
            whole_before = before[: before.rfind(b"\n") + 1]
            worked = {host for _, word, host in case.stamps()[told:]}
            again = sum(body.startswith("play:") for body in journal.bodies_of(after)) == play
            wrongs += [
                ran.returncode not in (0, 2, 3, 4) and f"turn {turn}: status {ran.returncode} {ran.stderr!r}",
                not after.startswith(whole_before) and f"turn {turn}: the journal doesn't go on",
                goes_on and again and worked & updated and f"turn {turn}: {worked & updated} were updated and ran again",
                worked & set(down) - set(mended) and f"turn {turn}: {worked & set(down) - set(mended)} were down, and nobody mended them",
                kept.wrong_in_standing(case, after) and f"turn {turn}: {kept.wrong_in_standing(case, after)}",
            ]
        # Where all is mended, a last turn updates everybody.
        wrongs.append(wrong_in_limits(case, mended_at))
        judge(f"{number}: {does}", *wrongs)


def main():
    resumed(int(sys.argv[5]))
    print(f"{kept.passed} passed, {kept.failed} failed")
    return kept.failed != 0


if __name__ == "__main__":
    sys.exit(main())
