#!/usr/bin/env python3
"""A play of forty hosts in nested groups that is killed at each moment, loses its power or its disk, and goes on to its end.

    moments.py PROGRAM FOLDER PRELOAD NOTE SEED DRAWN

PRELOAD is disk.c as a library, NOTE is note.c as a program: it notes what happened to its host, in the order in which it did. The run is broken off at each write, sync and cut of its journal,
behind what each program notes of its begin and its end, and at DRAWN drawn moments; and so is a run that goes on. Where DRAWN is less than 300, as many
fewer of the other moments are tried, by the seed. Each time what `state` tells is held against what the programs noted: of whom a program began a batch is open or over, who is updated came to his end, and nobody is down but
those of the open batch and those who failed. Then it goes on, at once and with those that are up by now, to its end. Over all runs no group was over its limit, and nobody who was updated ran
again; each host was restarted after its change, and once more after each repair. It counts what passed.
"""
import os
import random
import signal
import subprocess
import sys
import tempfile
import time
from multiprocessing import Pool

HERE = os.path.dirname(os.path.abspath(__file__))
# What is here goes before what the slow program has, which says what `state` prints.
sys.path += [HERE, os.path.join(HERE, "../slow")]

import commands
import journal
from limits import over
from roll import ALL_HOSTS, DOWN, FAILING, GROUPS, Roll, inventory

ALL = 300


def wrong_in_told(roll, before, told):
    """What `state` says otherwise than what the programs noted since the run stood so; `told` is what they had noted by then. It says nothing of a journal without a line."""
    text = roll.kept()
    ran = subprocess.run([roll.program, "state", roll.inventory, roll.journal], stdin=subprocess.DEVNULL, capture_output=True)
    since = roll.noted()[told:]
    began, ended, failed = ({host for word, host in since if word == wanted} for wanted in ("began", "ended", "failed"))
    bodies = journal.bodies_of(text)
    if not bodies:
        return (ran.returncode != 1 or ran.stdout) and f"of no journal state says {ran}" or began and f"{began} began without a journal"
    said = commands.state(inventory(), text)
    if (ran.stdout.decode(), ran.stderr.decode(), ran.returncode) != (said.out, said.errors, said.status):
        return f"state says {ran}, and not {said}"
    states = journal.states_of(text, ALL_HOSTS)
    of = {wanted: {host for host in ALL_HOSTS if states[host] in wanted} for wanted in (("updated",), DOWN, (*DOWN, "updated"))}
    opened = [body for body in bodies if body.startswith(("open:", "resumed:"))]
    batch = set(opened[-1].split()[1:]) if opened and opened[-1].startswith("open:") else set()
    was_down = {host for host in ALL_HOSTS if before.get(host) in DOWN}
    was_updated = {host for host in ALL_HOSTS if before.get(host) == "updated"}
    return (
        (not began <= of[*DOWN, "updated"] and f"began, and said to wait: {began - of[*DOWN, 'updated']}")
        or (not of["updated",] <= ended | was_updated and f"said to be updated without an end: {of['updated',] - ended - was_updated}")
        or (not of[DOWN] <= batch | failed | was_down and f"said to be down, and in no open batch: {of[DOWN] - batch - failed - was_down}")
        or (not was_updated <= of["updated",] and f"not updated any more: {was_updated - of['updated',]}")
    )


def go_on(roll, mended=(), wanted=(0, 2, 3, 4), **environment):
    """Goes on once, with these up by now, and gives what went wrong."""
    before, told = roll.kept(), len(roll.noted())
    states = journal.states_of(before, ALL_HOSTS)
    updated = {host for host, state in states.items() if state == "updated"}
    down = {host for host, state in states.items() if state in DOWN} - set(mended)
    for host in mended:
        roll.add("mended", host)
    status, errors = roll.ended("--resume", roll.journal, *(["--up", ",".join(mended)] if mended else []), **environment)
    worked = {host for word, host in roll.noted()[told:] if word == "began"}
    whole = before[: before.rfind(b"\n") + 1]
    return [
        status not in wanted and f"went on with status {status}: {errors}",
        not roll.kept().startswith(whole) and "the journal doesn't go on",
        worked & updated and f"updated, and ran again: {worked & updated}",
        worked & down and f"down and not mended, and ran again: {worked & down}",
        wrong_in_told(roll, {host: state for host, state in states.items() if host not in mended}, told),
    ]


def not_restarted(noted, word):
    """Hosts with such a note that no restart follows. What a first attempt has changed a second one doesn't, so that it owes the restart."""
    waiting = set()
    for said, host in noted:
        waiting = waiting - {host} if said == "restarted" else waiting | {host} if said == word else waiting
    return waiting and f"not restarted since they were noted as {word}: {waiting}"


def to_the_end(roll):
    """Goes on at once, and then with all that are down, until everybody is updated; where no line of the journal was left, nothing has begun."""
    if not journal.bodies_of(roll.kept()):
        status, errors = roll.ended("--resume", roll.journal)
        return [status != 1 and f"no journal, and status {status}", roll.noted() and "no journal, and programs began"]
    wrongs = go_on(roll)
    for _ in range(3):
        roll.settle()
        states = journal.states_of(roll.kept(), ALL_HOSTS)
        if set(states.values()) == {"updated"}:
            break
        wrongs += go_on(roll, sorted(host for host, state in states.items() if state in DOWN))
    states = journal.states_of(roll.kept(), ALL_HOSTS)
    wrongs.append(set(states.values()) != {"updated"} and f"in the end {states}")
    wrongs.append(over(GROUPS, [(host, word == "began") for word, host in roll.noted() if word in ("began", "restarted", "mended")]))
    return [*wrongs, *(not_restarted(roll.noted(), word) for word in ("ended", "mended"))]


def broken_off(roll, kind, *how):
    """Breaks a first run off, and gives what went wrong."""
    if kind == "call":
        at, does, power = how
        status, errors = roll.ended("--journal", roll.journal, **roll.disk(at, does))
        wanted = ((6,), b"rollout: 911 JournalWrite\n") if does in ("fail", "full") else ((-9,), b"")
        wrongs = [status not in wanted[0] and f"status {status}", not errors.startswith(wanted[1]) and f"{errors}"]
        if power is not None:
            roll.settle()
            roll.lose_power(power)
        return [*wrongs, wrong_in_told(roll, {}, 0)]
    if kind == "program":
        note, is_all = how
        status, _ = roll.ended("--journal", roll.journal, KILL_AT=note, **({"KILL_ALL": "1"} if is_all else {}))
        return [status != -9 and f"status {status}", wrong_in_told(roll, {}, 0)]
    run = roll.start("--journal", roll.journal)
    time.sleep(how[0])
    try:
        os.killpg(run.pid, signal.SIGKILL)
    except ProcessLookupError:
        pass
    run.communicate()
    return [wrong_in_told(roll, {}, 0)]


def try_moment(work):
    """A moment, and what went wrong at it."""
    program, preload, note, folder, (kind, *how) = work
    with tempfile.TemporaryDirectory(dir=folder) as own:
        roll = Roll(program, preload, note, own)
        if kind != "again":
            wrongs = broken_off(roll, kind, *how)
        else:
            first, at, does, power = how
            wrongs = broken_off(roll, "call", first, "short_kill", 1)
            roll.settle()
            wanted = (6,) if does in ("fail", "full") else (-9,)
            wrongs += go_on(roll, wanted=wanted, **roll.disk(at, does))
            if power is not None:
                roll.settle()
                roll.lose_power(power)
        return (kind, *how), [wrong for wrong in [*wrongs, *to_the_end(roll)] if wrong]


def moments(draw, drawn, calls, first, calls_again, took):
    """All moments, or about as large a part of them as 300 have been drawn."""
    found = []
    for at in range(1, calls + 1):
        # The last call is a sync: a disk that is full then has taken all.
        found += [("call", at, does, None) for does in ("kill_before", "kill_behind", "fail", "full") if does != "full" or at < calls]
        found += [("call", at, does, power) for does in ("kill_before", "kill_behind") for power in (0, draw.random())]
    for host in ALL_HOSTS:
        found += [("program", f"began {host}", draw.random() < 0.5)]
        found += [("program", f"{word} {host}", draw.random() < 0.5) for word in ("ended", "restarted") if host not in FAILING]
    for at in range(1, calls_again + 1):
        found += [("again", first, at, does, None) for does in ("kill_before", "kill_behind", "fail", "full") if does != "full" or at < calls_again]
        found += [("again", first, at, does, power) for does in ("kill_before", "kill_behind") for power in (0, draw.random())]
    draw.shuffle(found)
    return [("drawn", draw.random() * took) for _ in range(drawn)] + found[: max(1, len(found) * drawn // ALL)]


def calls_of(bodies):
    """The number of calls for these entries: each is a write, and each that opens a batch is synced, and so is an end."""
    return len(bodies) + sum(body.startswith(("open:", "end ")) for body in bodies)


def main(program, folder, preload, note, seed, drawn):
    draw = random.Random(int(seed))
    with tempfile.TemporaryDirectory(dir=folder) as own:
        roll = Roll(program, preload, note, own)
        began = time.monotonic()
        roll.ended("--journal", roll.journal)
        took = time.monotonic() - began
        bodies = journal.bodies_of(roll.kept())
    # A run that goes on is that which broke off in the line of the batch in its middle. It cuts and syncs before its first line.
    opened = [place for place, body in enumerate(bodies) if body.startswith("open:")]
    first = calls_of(bodies[: opened[len(opened) // 2]]) + 1
    with tempfile.TemporaryDirectory(dir=folder) as own:
        roll = Roll(program, preload, note, own)
        broken_off(roll, "call", first, "short_kill", None)
        whole = len(journal.bodies_of(roll.kept()))
        go_on(roll)
        calls_again = 2 + calls_of(journal.bodies_of(roll.kept())[whole:])
    calls = calls_of(bodies)
    work = [(program, preload, note, folder, moment) for moment in moments(draw, int(drawn), calls, first, calls_again, took)]
    passed = failed = 0
    with Pool(len(os.sched_getaffinity(0))) as pool:
        for moment, wrongs in pool.imap_unordered(try_moment, work):
            passed += not wrongs
            failed += bool(wrongs)
            if wrongs:
                print(f"FAILED: {moment}: {'; '.join(map(str, wrongs))[:600]}", flush=True)
    print(f"{passed} passed, {failed} failed")
    return 0 if passed and not failed else 1


if __name__ == "__main__":
    sys.exit(main(*sys.argv[1:]))
