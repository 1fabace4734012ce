"""A journal by itself: its lines from a recap, and what a journal says that was cut off. Nothing here is of the program."""
import hashlib
import re


def line(body):
    """A line of this body: its length, its sum and itself."""
    data = body.encode()
    return b"%d %d %s\n" % (len(data), sum(place * byte for place, byte in enumerate(data, 1)), data)


def plays_of(recap):
    """Of each play of a recap its text; without numbers the whole is one."""
    parts = re.split(r"^play \d+\n", recap, flags=re.M)
    return parts[1:] if len(parts) > 1 else parts


def expected(inventory, playbook, plays, recap):
    """The journal of a run of these texts, of so many plays, which left this recap: what a batch came to is how its hosts stand in the end, since nobody stands in two batches of a play."""
    head = "rollout journal 1 inventory=%s playbook=%s plays=%d" % (hashlib.sha256(inventory).hexdigest(), hashlib.sha256(playbook).hexdigest(), plays)
    bodies = [head]
    for play in plays_of(recap):
        states = dict(re.findall(r"^(\S+) ok=.* state=(\w+)$", play, re.M))
        steps = re.findall(r"^(held|open):((?: \S+)+)$", play, re.M)
        opened = {host for word, names in steps if word == "open" for host in names.split()}
        bodies.append("play:" + "".join(" " + host for host in states if host in opened or states[host] in ("waiting", "held")))
        for word, names in steps:
            bodies.append(word + ":" + names)
            if word == "open" and not any(states[host] == "running" for host in names.split()):
                bodies.append("closed:" + "".join(f" {states[host]}:{host}" for host in names.split()))
        end = re.findall(r"^end .*$", play, re.M)[-1]
        if end != "end fault":
            bodies.append(end)
    return b"".join(map(line, bodies))


def bodies_of(text):
    """The bodies of the whole lines; a line that is not whole is no line, and only the last may be so."""
    *lines, torn = text.split(b"\n")
    found = []
    for whole in lines:
        length, weight, body = whole.split(b" ", 2)
        assert line(body.decode()) == whole + b"\n" and int(length) == len(body), whole
        found.append(body.decode())
    return found


def states_of(text, hosts):
    """How the hosts stand by a journal, which may be cut off; hosts that are down from the start are left out."""
    states = {host: "idle" for host in hosts}
    for body in bodies_of(text)[1:]:
        word, _, rest = body.partition(":")
        names = rest.split()
        if word == "play":
            states = {host: state if state in ("failed", "halted") else "idle" for host, state in states.items()}
            states.update({host: "waiting" for host in names})
        elif word == "resumed":
            rested = {"waiting": "idle", "held": "idle", "running": "halted"}
            states = {host: "idle" if host in names and state in ("running", "failed", "halted") else rested.get(state, state) for host, state in states.items()}
        elif word == "again":
            states.update({host: "waiting" for host in names})
        elif word == "held":
            states.update({host: "held" for host in names})
        elif word == "open":
            states.update({host: "running" for host in names})
        elif word == "closed":
            states.update({entry.split(":")[1]: entry.split(":")[0] for entry in names})
    return states
