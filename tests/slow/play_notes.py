"""What `lint` warns about in plays: first each play's hosts, its percentage and where it runs, then its steps."""

from course import next_boundary
from faults import by_bytes
from fleet_notes import printed
from hosts import layered
from local_commands import of_play, results_of
from missing import Outset
from planning import Plan, start
from rules import turned
from sizes import cap
from step_notes import of_steps, registered_by

# So many names are searched for one that was probably meant.
MOST_NEAR = 1_000


class Scene:
    """A play and what is known of it before anything runs: the hosts that wait, their variables, and what earlier plays register."""

    def __init__(self, fleet, plays, number, waiting, variables, earlier, outset_of):
        self.fleet, self.plays, self.number, self.play = fleet, plays, number, plays[number]
        self.waiting, self.variables, self.earlier, self.outset_of = waiting, variables, earlier, outset_of
        self.given, self.values, self.results = _given(fleet, plays), _values(fleet, waiting, variables), results_of(self)


def of_plays(fleet, plays, targets):
    variables = {host: layered(fleet, host) for host in fleet.hosts}
    if turned("lint-variables-of-groups-count"):
        variables = {host: {name: value for _, row in fleet.rows[host] for name, value in row.variables.items()} for host in fleet.hosts}
    earlier, outset_of = set(), _outsets(fleet, plays, targets)
    for number, (play, target) in enumerate(zip(plays, targets)):
        if turned("lint-all-plays") and number > 0:
            break
        down = [host for host in target if fleet.is_off(host)]
        waiting = target if turned("lint-down-hosts-do-not-wait") else [host for host in target if host not in down]
        scene = Scene(fleet, plays, number, waiting, variables, earlier, outset_of)
        steps = of_steps(scene)
        hosts = _of_hosts(number + 1, waiting, down)
        batches = [_limits_note(number + 1, fleet, waiting), _failure_note(number + 1, play, fleet, target), of_play(scene, target if turned("lint-who-waits-runs-here") else waiting, steps)]
        if turned("lint-percentages-before-places"):
            batches[1:] = batches[:0:-1]
        if turned("lint-limits-before-percentages"):
            batches[:2] = batches[1::-1]
        hosts = batches + hosts if turned("lint-hosts-before-batches") else hosts + batches
        yield from steps + hosts if turned("lint-hosts-before-steps") else hosts + steps
        if turned("lint-earlier-plays-register"):
            earlier = set()
        elif turned("lint-all-earlier-plays-register"):
            earlier = registered_by(play.tasks + play.handlers)
        else:
            earlier = earlier | registered_by(play.tasks if turned("lint-earlier-handlers-register") else play.tasks + play.handlers)


def _given(fleet, plays):
    """The names of which one may have been meant by another: those of variables, each once, as groups in preorder and the hosts of each give them, and behind them those that steps register."""
    variables = {}
    for place in fleet.places:
        rows = [] if turned("lint-hosts-give-near-names") else sorted(place.rows, key=lambda row: by_bytes(row.name))
        for held in (place.variables, *(row.variables for row in rows)):
            variables.update(dict.fromkeys(sorted(held, key=by_bytes)))
    results = [step.register for play in plays for step in (*play.tasks, *play.handlers) if step.register is not None]
    if turned("lint-steps-give-near-names"):
        results = []
    names = [*results, *variables] if turned("lint-variables-are-nearer-than-results") else [*variables, *results]
    return ["inventory_hostname" if not turned("lint-the-hostname-is-near") else "", *names][:MOST_NEAR]


def _values(fleet, waiting, variables):
    """The names to which the inventory gives a value anywhere: in groups and at hosts, also at hosts that don't wait."""
    held = [layer for place in fleet.places for layer in (place.variables, *(row.variables for row in place.rows))]
    if turned("lint-hosts-give-values"):
        held = [place.variables for place in fleet.places]
    if turned("lint-values-of-all-hosts-count"):
        held = [variables[host] for host in waiting]
    return {name for layer in held for name in layer}


def _outsets(fleet, plays, targets):
    """What is known of a host before anything runs, when a step comes to it: the tasks of the plays that are for it have run, and their handlers perhaps."""
    variables = {host: layered(fleet, host) for host in fleet.hosts}

    def before(number, place, host):
        steps = [*plays[number].tasks, *plays[number].handlers][:place]
        past = [play for play, target in zip(plays[:number], targets) if (host in target or turned("lint-results-of-other-hosts-are-not-there")) and not fleet.is_off(host)]
        sure = [task for play in past for task in play.tasks] + plays[number].tasks[:place]
        if turned("lint-handlers-may-not-have-run"):
            sure += [handler for play in past for handler in play.handlers]
        may = [step for play in past for step in (*play.tasks, *play.handlers)] + steps
        return Outset(host, fleet.groups_of(host), variables[host], registered_by(sure), registered_by(may))

    return before


def _of_hosts(number, waiting, down):
    """Of a play's hosts: that none waits, or that some are down."""
    number -= turned("lint-plays-from-one")
    found = []
    if not waiting:
        found.append(f"no-hosts play={number}")
    if down and (waiting or turned("lint-nobody-without-who-is-down")):
        found.append(f"down-hosts play={number} hosts={len(down)} host={down[-1 if turned('lint-first-down-host') else 0]}")
    return found


def _limits_note(number, fleet, waiting):
    """Of hosts that wait for a play: that these are in no group with a limit, and others are."""
    own = turned("lint-limits-of-groups-above-hold")
    limited = [{row.name for row in place.rows} if own else fleet.members[place.number] for place in fleet.places if place.limit is not None]
    free = [host for host in waiting if not any(host in members for members in limited)]
    if not free or (len(free) == len(waiting) and not turned("lint-plays-without-limits-are-meant")):
        return None
    return f"unlimited-hosts play={number} hosts={len(free)} of={len(waiting)} host={printed(free[-1 if turned('lint-first-host-without-a-limit') else 0])}"


def _failure_note(number, play, fleet, target):
    """Of a percentage above 0: that the smallest batch of several hosts in the first plan bears no failure."""
    percent = play.most_failed
    if not percent and not (percent == 0 and turned("lint-no-percent-bears-none")):
        return None
    planned = next_boundary(fleet, play, start(fleet, target), cap(play.sizes, len(target), 0)).answer
    if not isinstance(planned, Plan) or not planned.batches:
        return None
    sizes = [len(batch) for batch in planned.batches if len(batch) > 1 or turned("lint-one-host-is-all")]
    if not sizes:
        return None
    size = max(sizes) if turned("lint-the-smallest-batch-counts") else min(sizes)
    if 100 > percent * size or (turned("lint-equality-bears") and 100 == percent * size):
        return f"one-failure play={number} percent={percent} size={size}"
    return None
