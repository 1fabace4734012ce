"""The commands, from the bytes of their files to both outputs and the exit status."""

import json_form
from aftermath import left_out, why
from answers import Lines
from checking import judged, read_batches
from course import next_boundary
from entries import digest
from every import every_fault, fault_lines
from expecting import number_in_plan, number_in_table, read_expectations, unmet
from facts import accepted, coursed, gone_on, planned, plays_before, ran, status_of_plan, targeted, went_on
from faults import Fault
from fleet import Fleet, parts_of
from foreseen import foreseen_text
from foretold import foretold
from inventory import read_inventory
from json_answers import Objects
from linting import lint_lines, read_allowed
from missing import first_missed
from planning import start
from plays import recaps, status_of
from rehearsal import Rehearsal
from rehearsal import rehearse as answers
from repeated import key_notes
from rules import turned
from said import Said
from sizes import cap
from standing import read_journal
from surveyed import groups_lines, sight_of_plan
from telling import told
from texts import as_text, limits_text, plan_text


def command(words, files, typed):
    """What is said to a line of words, its files having been read; `typed` is standard input."""
    if json_form.is_wanted(words):
        if words[0] == "rehearse":
            return rehearse(*files, typed, Objects, json_form.refused)
        return json_form.said(words, files, names_to_fail(words), mended_names(words))
    try:
        expectations, allowed = expected_in(words), allowed_in(words)
    except Fault as fault:
        return refused(fault)
    if not words or words[0] == "limits":
        return limits(*files, expectations)
    if words[0] == "check":
        return check(*files)
    if words[0] == "lint":
        return lint(*files, allowed=allowed)
    if words[0] == "plan" and "--commands" in words:
        return words_of_plays(*files, "-v" in words)
    if words[0] == "plan" and "--forecast" in words:
        return course(*files, names_to_fail(words), "--groups" in words, wants_colours(words))
    if words[0] == "plan":
        return plan(*files, "--groups" in words, wants_colours(words), expectations)
    if words[0] == "run" and "--resume" in words:
        return resume(*files, mended_names(words), "--changed-inputs" in words)
    if words[0] == "run":
        return run(*files, is_verbose="-v" in words, is_strict="--strict" in words)
    if words[0] == "state":
        return state(*files)
    if words[0] == "rehearse":
        return rehearse(*files, typed)
    return refused(Fault(901, "BadLine"))


def limits(inventory, expectations=()):
    """The table of limits, and the first expectation that it doesn't meet."""
    try:
        fleet = Fleet(read_inventory(inventory))
    except Fault as fault:
        return refused(fault)
    return as_expected(Said(limits_text(fleet), "", 0), expectations, lambda name: number_in_table(fleet, name))


def plan(inventory, playbook, is_grouped=False, is_coloured=False, expectations=()):
    """The plan of the first play, once all plays were accepted; below it its groups, where they are asked for, and the full ones coloured where that is; and the first expectation that it
    doesn't meet."""
    try:
        fleet, state, boundary = planned(inventory, playbook)
    except Fault as fault:
        return refused(fault)
    groups = as_text(groups_lines(fleet, sight_of_plan(state, boundary.answer, boundary.aside), is_coloured)) if is_grouped else ""
    said = Said(plan_text(boundary.answer, boundary.aside) + groups, "", status_of_plan(boundary))
    return as_expected(said, expectations, lambda name: number_in_plan(boundary.answer, name))


def as_expected(said, expectations, number_of):
    """What is said, and behind it the first expectation that isn't met, if one isn't."""
    fault = unmet(expectations, number_of)
    return said if fault is None else Said(said.out, fault.line(), said.status if turned("expect-unmet-makes-status-one") else 1)


def words_of_plays(inventory, playbook, is_verbose=False):
    """Which words would run on which host, step by step, of all plays; and with `-v` who is left out."""
    try:
        fleet, plays, targets = accepted(inventory, playbook)
    except Fault as fault:
        return refused(fault)
    lines, is_sure = foretold(fleet, plays, targets)
    return Said(as_text(lines), left_out(fleet, targets) if is_verbose else "", 0 if is_sure or turned("foretold-failures-show-in-the-status") else 2)


def check(inventory, playbook, text):
    """Whether the text is a plan with which the first play begins, or what is wrong with it."""
    try:
        if turned("check-inputs-before-the-plan"):
            read_batches(text)
        fleet, plays, targets = accepted(inventory, playbook)
        batches = read_batches(text)
    except Fault as fault:
        return refused(fault)
    state = start(fleet, targets[0])
    bound = cap(plays[0].sizes, targeted(fleet, targets[0]), 1 if turned("check-first-size-counts") else 0)
    begun = dict(state)
    boundary = next_boundary(fleet, plays[0], state, bound)
    line, status = judged(fleet, begun if turned("check-held-hosts-do-not-wait") else state, bound, boundary.answer, batches)
    return Said(f"{line}\n", "", status)


def lint(inventory, playbook=None, allowed=()):
    """Every fault of the inventory, and of the playbook where there is one; where there is none, what is accepted and probably a mistake, but for rules that are suppressed."""
    faults = every_fault(inventory, playbook)
    if faults:
        return Said("".join(fault_lines(faults)), "", 0 if turned("faults-make-status-one") else 1)
    fleet, plays, targets = (Fleet(read_inventory(inventory)), [], []) if playbook is None else accepted(inventory, playbook)
    lines, count = lint_lines(key_notes(inventory, playbook), fleet, plays, targets, allowed)
    makes_one = bool(lines) if turned("lint-infos-make-no-status") else count > 0
    return Said(as_text([*lines, f"notes={count}"]), "", 1 if makes_one and not turned("lint-notes-make-status-one") else 0)


def check_line(words):
    """Refuses what of a line of words is refused before any file is read: a list of expectations, or of lint rules, that is none."""
    if not turned("expect-lists-before-files"):
        expected_in(words)
    if not turned("lint-lists-before-files"):
        allowed_in(words)


def expected_in(words):
    """The expectations that a line of words lists, if any."""
    lists = _values_behind("--expect", words)
    return read_expectations(",".join(lists[-1:] if turned("expect-all-lists-count") else lists)) if lists else []


def allowed_in(words):
    """The lint rules that a line of words suppresses."""
    lists = _values_behind("--allow", words)
    return read_allowed(",".join(lists[-1:] if turned("lint-all-lists-count") else lists))


def named_files(words):
    """The names of the files that a line of words gives, in the order in which they are read."""
    journal = [value for word, value in zip(words, words[1:]) if word == "--resume"]
    words = json_form.without(words)
    most = {"limits": 1, "check": 3, "lint": 2 if len(words) > 2 and not words[2].startswith("--") else 1}.get("".join(words[:1]), 2)
    return [*words[1 : 1 + most], *journal]


def wants_colours(words):
    """Whether the last `--color` asks for colours where standard output is no terminal."""
    asked = [word.removeprefix("--color=") for word in " ".join(words).replace("--color ", "--color=").split(" ") if word.startswith("--color=")]
    return asked[-1:] == ["always"]


def names_to_fail(words):
    """The names that `--failing` gives."""
    return _names_behind("--failing", words)


def mended_names(words):
    """The names that `--up` gives."""
    return _names_behind("--up", words)


def _names_behind(option, words):
    """The names that an option gives, in their order."""
    return [name for value in _values_behind(option, words) for name in parts_of(value)]


def _values_behind(option, words):
    """The values that an option gives, as words of their own or behind a `=`, in their order."""
    values, is_value = [], False
    for word in words:
        if is_value:
            values.append(word)
        elif word.startswith(f"{option}="):
            values.append(word.removeprefix(f"{option}="))
        is_value = word == option and not is_value
    return values


def course(inventory, playbook, names, is_grouped=False, is_coloured=False):
    """What a run would open to its end, where just the hosts of these names fail; below each play its groups, where they are asked for, and the full ones coloured where that is."""
    try:
        fleet, plays, courses = coursed(inventory, playbook, names)
    except Fault as fault:
        return refused(fault)
    return Said(foreseen_text(fleet, courses, len(plays) > 1, is_grouped, is_coloured), "", status_of(courses))


def run(inventory, playbook, is_verbose=False, is_strict=False):
    """The recap of a whole run. With `-v`, what is told before, meanwhile and behind it. A strict one begins where no step may look up a name in vain."""
    try:
        if is_strict:
            lack = first_missed(*accepted(inventory, playbook))
            if lack is not None:
                return refused(lack)
        fleet, plays, targets, courses = ran(inventory, playbook)
    except Fault as fault:
        return refused(fault)
    errors = left_out(fleet, targets) + told(plays, courses) + why(fleet, plays, courses) if is_verbose else ""
    return Said(recaps(courses, len(plays) > 1), errors, status_of(courses))


def state(inventory, journal):
    """Where a run stands by its journal, which began with the inventory."""
    try:
        standing = read_journal(Fleet(read_inventory(inventory)), journal, lambda inputs: inputs[0] == digest(inventory))
    except Fault as fault:
        return refused(fault, journal=journal)
    out, status = standing.told()
    return Said(out, "", status, journal)


def resume(inventory, playbook, journal, names, takes_others):
    """The recap of the rest of a run that broke off, and its journal, which goes on."""
    try:
        plays, rest, courses = went_on(inventory, playbook, journal, names, takes_others)
    except Fault as fault:
        return refused(fault, journal=journal)
    return Said(recaps(courses, len(plays) > 1, plays_before(rest)), "", status_of(courses), gone_on(journal, rest, courses))


def rehearse(inventory, playbook, typed, tell=Lines, say=None):
    """The answers to what is typed, for the first play, and how a fault is said."""
    say = say or refused
    try:
        fleet, plays, targets = accepted(inventory, playbook)
    except Fault as fault:
        return say(fault)
    state = start(fleet, targets[0])
    out, fault = answers(Rehearsal(fleet, plays[0], state, targeted(fleet, targets[0]), tell), typed)
    return say(fault, out=out) if fault else Said(out, "", 0)


def refused(fault, out="", journal=None):
    """What is said of a refused input, behind what went out before. A journal stays as it was."""
    return Said(out, fault.line(), 1, journal)


def unread(words, fault):
    """What is said where a line of words is refused before all of its files were read."""
    return json_form.refused(fault) if json_form.is_wanted(words) else refused(fault)
