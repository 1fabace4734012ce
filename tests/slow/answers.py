"""What a rehearsal answers, in lines."""

from plays import end_line
from texts import listed, plan_text

HELP = """advance NAMES  the next batch is over; these hosts failed in it (no names: none)
next N         the next N batches are over; just the marked hosts failed in them
finish         the same of all batches, to the end of the play
fail HOST      mark a host, which then fails as soon as its batch is over
undo           take the last of these back, whole
plan           the plan of the hosts that still wait
show           the state of each host, and the end of the play
hosts GROUP    the state of each host of a group, and its batch in the plan
help, ?        this list
quit           end the session
"""


class Lines:
    """How answers are told: in lines for people. Each kind of answer has its lines."""

    def refused(self, fault):
        return [f"refused {fault.words()}"]

    def advanced(self, batches):
        return [listed("advanced:", batch) for batch in batches]

    def marked(self, host):
        return [listed("marked:", [host])]

    def undone(self, is_done):
        return ["undone" if is_done else "nothing to undo"]

    def plan(self, found):
        return plan_text(found).splitlines()

    def show(self, hosts, end):
        """Hosts with their states, and the end, if there is one."""
        return [*(f"{host} {state}" for host, state in hosts), end_line(end)]

    def hosts(self, hosts):
        """Hosts with their states and the numbers of their batches."""
        return [f"{host} state={state} batch={number or '-'}" for host, state, number in hosts]

    def help(self):
        return HELP.splitlines()
