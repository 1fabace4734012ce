#!/usr/bin/env python3
"""Runs that are kept, whole and broken off, beside what their programs note and what their recaps say.

    kept.py PROGRAM FOLDER PRELOAD SEED DRAWN KILLED

PRELOAD is disk.c as a library. DRAWN fleets and plays are drawn, and each is run with a journal and without; KILLED runs are killed at a drawn moment. It counts what passed.
"""
import json
import os
import random
import re
import signal
import subprocess
import sys
import time

HERE = os.path.dirname(os.path.abspath(__file__))
# What is here goes before what the slow program has, whose reader of journals is written beside the pages.
sys.path += [HERE, os.path.join(HERE, "../slow")]

import commands
import journal

PROGRAM, FOLDER, PRELOAD = sys.argv[1:4]
draw = random.Random(int(sys.argv[4]))
passed = failed = 0


def judge(what, *wrongs):
    """Counts a row, which is right where nothing is wrong."""
    global passed, failed
    wrong = [text for text in wrongs if text]
    if wrong:
        failed += 1
        print(f"FAILED: {what}: {'; '.join(wrong)[:600]}")
    else:
        passed += 1


class Case:
    """A fleet with its plays, in files of their own."""

    def __init__(self, inventory, plays):
        self.inventory = json.dumps(inventory).encode()
        self.playbook = json.dumps(plays).encode()
        self.plays = len(plays)
        self.paths = [os.path.join(FOLDER, name) for name in ("inventory.json", "playbook.json", "journal", "noted", "image")]
        for path, text in zip(self.paths, (self.inventory, self.playbook)):
            with open(path, "wb") as file:
                file.write(text)

    def clear(self):
        for path in self.paths[2:]:
            if os.path.lexists(path):
                os.remove(path)

    def words(self, *more):
        return [PROGRAM, "run", *self.paths[:2], *more]

    def start(self, *more, **environment):
        """Starts a kept run in a group of its own, with nothing of an earlier one."""
        self.clear()
        return subprocess.Popen(
            self.words("--journal", self.paths[2], *more), stdin=subprocess.DEVNULL, stdout=subprocess.PIPE, stderr=subprocess.PIPE, start_new_session=True, env={**os.environ, "NOTED": self.paths[3], **environment}
        )

    def ended(self, *more, **environment):
        run = self.start(*more, **environment)
        out, errors = run.communicate(timeout=300)
        return run.returncode, out.decode(), errors.decode()

    def kept(self, place=2):
        if not os.path.exists(self.paths[place]):
            return b""
        with open(self.paths[place], "rb") as file:
            return file.read()

    def noted(self):
        """Of whom a program began, and of whom the last one ended well."""
        if not os.path.exists(self.paths[3]):
            return set(), set()
        with open(self.paths[3]) as file:
            lines = [text.split() for text in file.read().splitlines()]
        return {host for word, host in lines if word == "began"}, {host for word, host in lines if word == "ended"}


def fleet(racks, size, limit):
    """Rows of racks, each with a limit, and one on all."""
    groups = {f"r{rack}": {"vars": {"max_down": 1 + rack % 2}, "hosts": {f"h{rack}-{place}": None for place in range(size)}} for rack in range(racks)}
    return {"all": {"children": {"row": {"vars": {"max_down": limit}, "children": groups}}}}


def noting(script):
    """A task whose program notes that it began and that it ended well."""
    host = "{{ inventory_hostname }}"
    return {"command": {"argv": ["sh", "-c", f"echo began {host} >>$NOTED; {script}; echo ended {host} >>$NOTED"]}}


def drawn_case():
    """A few racks, hosts that are down or fail, sizes, limits, and one play or several."""
    racks, size = draw.randint(1, 4), draw.randint(1, 4)
    inventory = fleet(racks, size, draw.randint(1, 5))
    names = [f"h{rack}-{place}" for rack in range(racks) for place in range(size)]
    for name in names:
        if draw.random() < 0.15:
            inventory["all"]["children"]["row"]["children"]["r" + name[1]]["hosts"][name] = {"down": True}
    plays = []
    for _ in range(draw.choice([1, 1, 2, 3])):
        failing = " ".join(name for name in names if draw.random() < 0.12) or "-"
        play = {
            "hosts": draw.choice(["all", "all", "r0", "all:!" + draw.choice(names)]),
            "max_fail_percentage": draw.choice([0, 50, 100]),
            "tasks": [noting(f"case ' {failing} ' in *' {{{{ inventory_hostname }}}} '*) exit 1 ;; esac")] * draw.randint(1, 2),
        }
        if draw.random() < 0.5:
            play["serial"] = draw.choice([1, 2, [1, 3], "50%"])
        if draw.random() < 0.5:
            play["on_blocked"] = draw.choice(["fail", "hold"])
        plays.append(play)
    return Case(inventory, plays)


def drawn(count):
    """A journal says what the recap does, and a run with one is as it is without."""
    for number in range(count):
        case = drawn_case()
        forks = ("--forks", str(draw.choice([1, 3, 64])))
        status, out, errors = case.ended(*forks)
        kept = case.kept()
        plain = subprocess.run(case.words(*forks), stdin=subprocess.DEVNULL, capture_output=True, env={**os.environ, "NOTED": "/dev/null"})
        refused = not out
        judge(
            f"drawn {number}",
            (status, out, errors) != (plain.returncode, plain.stdout.decode(), plain.stderr.decode()) and f"otherwise without a journal: {(status, errors, plain.returncode, plain.stderr)}",
            not refused and kept != journal.expected(case.inventory, case.playbook, case.plays, out) and f"kept {kept.decode()!r} of {out!r}",
            refused and os.path.lexists(case.paths[2]) and "a refused run left a journal",
            not refused and os.stat(case.paths[2]).st_mode & 0o777 != 0o600 and "others may read it",
        )


def wrong_in_states(case, kept, hosts):
    """What a journal, perhaps cut off, says otherwise than the programs noted: of whom one began was said before that a batch of his opens, and nobody else is down."""
    if not kept:
        began = case.noted()[0]
        return began and f"{began} began without a journal"
    states = journal.states_of(kept, hosts)
    began, ended = case.noted()
    opened = {host for host in hosts if states[host] in ("running", "updated", "failed", "halted")}
    updated = {host for host in hosts if states[host] == "updated"}
    return (not began <= opened and f"began, and not opened: {began - opened}") or (not updated <= ended and f"updated without an end: {updated - ended}")


def wrong_in_told(case, kept, hosts):
    """What `state` says otherwise of a journal, perhaps cut off, of a run of one play that nobody was down before."""
    told = subprocess.run([PROGRAM, "state", case.paths[0], case.paths[2]], stdin=subprocess.DEVNULL, capture_output=True)
    bodies = journal.bodies_of(kept)
    if not bodies:
        return (told.returncode, told.stdout, told.stderr) != (1, b"", b"rollout: 912 BadJournal line=1\n") and f"of no journal state says {told}"
    states = journal.states_of(kept, hosts)
    end = bodies[-1] if bodies[-1].startswith("end ") else "end broken-off"
    status = {"finished": 2 if "failed" in states.values() else 0, "held": 3, "blocked": 3, "broken-off": 6}.get(end.split()[1], 4)
    text = "".join(f"{host} state={state}\n" for host, state in sorted(states.items()) if state != "idle") + end + "\n"
    return (told.returncode, told.stdout.decode(), told.stderr) != (status, text, b"") and f"state says {told}, not {text!r} with {status}"


def wrong_in_standing(case, kept):
    """What `state` says otherwise than the slow reader of a journal that was gone on with."""
    told = subprocess.run([PROGRAM, "state", case.paths[0], case.paths[2]], stdin=subprocess.DEVNULL, capture_output=True)
    wanted = commands.state(case.inventory, kept)
    return (told.stdout.decode(), told.stderr.decode(), told.returncode) != (wanted.out, wanted.errors, wanted.status) and f"state says {told}, not {wanted}"


def forty():
    """Forty hosts in nested groups, of which two fail, up to five a batch."""
    tasks = [noting("sleep 0.01; case {{ inventory_hostname }} in h1-0 | h7-2) exit 1 ;; esac")]
    return Case(fleet(10, 4, 5), [{"hosts": "all", "max_fail_percentage": 100, "tasks": tasks}])


def settle(case):
    """Waits until no program of the run notes anything any more."""
    size = -1
    while size != (size := os.path.getsize(case.paths[3]) if os.path.exists(case.paths[3]) else 0):
        time.sleep(0.03)


def killed(count):
    """Killed at drawn moments with its programs."""
    case = forty()
    hosts = [f"h{rack}-{place}" for rack in range(10) for place in range(4)]
    began = time.monotonic()
    case.ended("--forks", "5")
    whole = time.monotonic() - began
    for number in range(count):
        run = case.start("--forks", "5")
        time.sleep(draw.random() * whole)
        try:
            os.killpg(run.pid, signal.SIGKILL)
        except ProcessLookupError:
            pass
        run.communicate()
        settle(case)
        kept = case.kept()
        judge(f"killed {number}", wrong_in_states(case, kept, hosts), os.path.exists(case.paths[2]) and wrong_in_told(case, kept, hosts))


def at_each_call():
    """Killed before and behind each write and each sync, or that call fails; and what is left of the journal where the power fails behind it."""
    case = forty()
    hosts = [f"h{rack}-{place}" for rack in range(10) for place in range(4)]
    status, out, errors = case.ended("--forks", "5", LD_PRELOAD=PRELOAD, DISK_IMAGE=case.paths[4])
    opened = out.count("\nopen:")
    calls = len(journal.bodies_of(case.kept())) + opened + 1
    judge("whole", status != 2 and f"status {status} {errors}", case.kept() != case.kept(4) and "the image is not whole")
    for at in range(1, calls + 1):
        for does in ("kill_before", "kill_behind", "short_kill", "fail", "short"):
            status, out, errors = case.ended("--forks", "5", LD_PRELOAD=PRELOAD, DISK_AT=str(at), DISK_DOES=does, DISK_IMAGE=case.paths[4])
            settle(case)
            kept = case.kept()
            wrongs = [wrong_in_states(case, kept, hosts), os.path.exists(case.paths[2]) and wrong_in_told(case, kept, hosts)]
            if os.path.exists(case.paths[4]) or case.noted()[0]:
                wrongs.append(wrong_in_states(case, case.kept(4), hosts))
            if does == "fail":
                wrongs.append((status != 6 or errors != "rollout: 911 JournalWrite\n") and f"status {status} {errors!r}")
                # What the recap has as opened is on the disk, but for nothing.
                recap = {host for names in re.findall(r"^open:(.*)$", out, re.M) for host in names.split()}
                states = journal.states_of(kept, hosts) if kept else {}
                wrongs.append(any(states.get(host) in (None, "idle", "waiting", "held") for host in recap) and "opened without a line")
                wrongs.append("state=running" in out and "somebody is half way")
            elif does == "short":
                wrongs.append((status != 2 or kept != journal.expected(case.inventory, case.playbook, 1, out)) and f"status {status}, {errors!r}: a short write is gone on with")
            else:
                wrongs.append(status not in (-9, 2) and f"status {status}")
            judge(f"{does} at call {at}", *wrongs)


def main():
    drawn(int(sys.argv[5]))
    killed(int(sys.argv[6]))
    at_each_call()
    print(f"{passed} passed, {failed} failed")
    return failed != 0


if __name__ == "__main__":
    sys.exit(main())
