"""told.py RECAP TOLD [BEHIND]: what is wrong with what a run told with `-v`, held against its recap; nothing where nothing is. What follows the last of these lines, as
the reasons for which hosts are down, is put into the file BEHIND.

- Each step of a host has one verdict, and the verdicts of a host are as many as the recap counts: those that went well are `ok`, `changed` and `ignored`.
- The lines of a host stand in the order of its steps, and none behind one that failed. A program begins just before its verdict, and only one with `ms=` began.
- Outputs stand just behind a verdict that is `failed` or `ignored`.
- Each batch of the recap is opened and closed once, in their order; its rows stand between, step behind step; what it closes with is what the recap has of its hosts.
- Times go forward.
"""

import re
import sys

OPENING = re.compile(r"waiting=(\d+) at=(\d+) open: (.*)")
CLOSING = re.compile(r"closed updated=(\d+) failed=(\d+) halted=(\d+) ms=(\d+) at=(\d+)")
BEGINS = re.compile(r"(\S+) step=(\d+) begins at=(\d+) name=(.*)")
PROGRAM = r"rc=-1 signal=\d+|rc=\d+|not-started|lost"
VERDICT = re.compile(rf"(\S+) step=(\d+) (ok|changed|failed|ignored|skipped)(?: ({PROGRAM}))?( undefined=\S+)?(?: ms=(\d+))? name=(.*)")
BESIDE = re.compile(r"  (\S+) (stdout|stderr|error|warning): (.*)")


class Wrong(Exception):
    """What was told is not what was done."""


class Batch:
    """A batch that is open: its hosts, the number of the step that is under way, and for each host its verdicts and the program that began last."""

    def __init__(self, hosts, at):
        self.hosts, self.at, self.step = hosts, at, 0
        self.verdicts = {host: [] for host in hosts}
        self.last = dict.fromkeys(hosts, 0)
        self.begun = {}

    def begins(self, host, step):
        self.goes_on(host, step)
        if host in self.begun:
            raise Wrong("two programs of one host are under way")
        self.begun[host] = step

    def goes_on(self, host, step):
        """A row of this step is due on the host."""
        if host not in self.hosts:
            raise Wrong("the host is not in the batch")
        if step < self.step:
            raise Wrong(f"step {self.step} was told of before")
        if step <= self.last[host]:
            raise Wrong("the host was past this step")
        if "failed" in self.verdicts[host]:
            raise Wrong("the host had failed")
        self.step = step

    def ends(self, host, step, verdict, ran):
        if ran and self.begun.pop(host, None) != step:
            raise Wrong("its program didn't begin")
        if not ran:
            self.goes_on(host, step)
            if host in self.begun:
                raise Wrong("another program of the host is under way")
        self.last[host] = step
        self.verdicts[host].append(verdict)


def plays_of(recap):
    """Of each play of a recap its batches, and of each host its counts and its state."""
    plays = []
    for line in recap.splitlines():
        if re.fullmatch(r"play \d+", line) or not plays:
            plays.append(([], {}))
        host = re.fullmatch(r"(\S+) ok=(\d+) changed=(\d+) failed=(\d+) skipped=(\d+) ignored=(\d+) state=(\w+)", line)
        if line.startswith("open: "):
            plays[-1][0].append(line.split()[1:])
        elif host:
            plays[-1][1][host[1]] = ([int(count) for count in host.groups()[1:6]], host[7])
    return plays


def is_told(line):
    """Whether a line is one of those that are told while a run goes on."""
    return bool(re.match(r"note: |waiting=|closed |\S+ step=\d+ |play \d+$|held: [^;]*$|  \S+ (stdout|stderr|error|warning): |descriptors=", line))


def parted(told):
    """What was told while the run went on, and what follows it."""
    lines = told.split("\n")
    first = next((place for place, line in enumerate(lines) if not is_told(line)), len(lines) - 1)
    return "".join(f"{line}\n" for line in lines[:first]), "\n".join(lines[first:])


def check(recap, told):
    plays = plays_of(recap)
    several = any(re.fullmatch(r"play \d+", line) for line in recap.splitlines())
    batches = [(number, hosts) for number, (opened, _) in enumerate(plays) for hosts in opened]
    batch, done, now, told_plays = None, [], 0, 0
    verdict, shown = None, {}
    for number, line in enumerate(told.split("\n")[:-1], 1):
        try:
            opening, closing, begins, ends, beside = (form.fullmatch(line) for form in (OPENING, CLOSING, BEGINS, VERDICT, BESIDE))
            if beside:
                look_behind(beside, verdict, shown)
                continue
            verdict, shown = None, {}
            for found, place in ((opening, 2), (closing, 5), (begins, 3)):
                if found and int(found[place]) < now:
                    raise Wrong("time goes backwards")
                now = int(found[place]) if found else now
            if opening:
                if batch is not None:
                    raise Wrong("a batch is open")
                batch = Batch(opening[3].split(), now)
                play, hosts = batches[len(done)] if len(done) < len(batches) else (0, [])
                if batch.hosts != hosts:
                    raise Wrong(f"the recap has the batch {hosts}")
                if several and told_plays != play + 1:
                    raise Wrong("the number of the play is missing")
            elif closing:
                close(batch, closing, plays[batches[len(done)][0]][1])
                if abs(now - batch.at - int(closing[4])) > 2:
                    raise Wrong(f"it was opened {now - batch.at} ms ago")
                done.append(batch)
                batch = None
            elif begins:
                verdict = ("begins", begins[1])
                batch.begins(begins[1], int(begins[2]))
            elif ends:
                ran = ends[6] is not None
                if ran != (ends[4] is not None) and not (ends[4] == "not-started" and ends[3] in ("failed", "ignored")):
                    raise Wrong("a program took no time, or none took some")
                if ends[3] == "skipped" and (ran or ends[5]):
                    raise Wrong("a skipped step ran")
                batch.ends(ends[1], int(ends[2]), ends[3], ran)
                verdict = (ends[3], ends[1])
                if ran and int(ends[6]) > 600_000:
                    raise Wrong("a program took ten minutes")
            elif re.fullmatch(r"play \d+", line) and several and batch is None:
                told_plays += 1
                if line != f"play {told_plays}":
                    raise Wrong("another play")
            elif line.startswith("note: ") and number == 1:
                continue
            elif not re.fullmatch(r"descriptors=\d+ at-once=\d+", line) and (not line.startswith("held: ") or batch is not None):
                raise Wrong("no such line")
        except (Wrong, LookupError, AttributeError) as wrong:
            raise Wrong(f"line {number}: {line!r}: {wrong!r}") from None
    if batch is not None or len(done) != len(batches):
        raise Wrong(f"{len(done)} batches were closed, of {len(batches)}")
    if several and told_plays != len(plays):
        raise Wrong(f"{told_plays} plays were told of, of {len(plays)}")
    for number, (_, hosts) in enumerate(plays):
        count(hosts, [closed for closed, (play, _) in zip(done, batches) if play == number])


def look_behind(beside, verdict, shown):
    """A line with two blanks stands where it may, behind others of its own host, and the errors behind the output."""
    kind, host = verdict or (None, None)
    if host != beside[1]:
        raise Wrong("it stands behind another host's line")
    if (kind == "begins") != (beside[2] == "warning") or kind not in ("begins", "failed", "ignored"):
        raise Wrong("it stands behind a line that has none")
    if beside[2] == "stdout" and "stderr" in shown:
        raise Wrong("the output stands behind the errors")
    shown[beside[2]] = True


def close(batch, closing, hosts):
    if batch.begun:
        raise Wrong(f"{batch.begun} are under way")
    states = [hosts[host][1] for host in batch.hosts]
    if [int(closing[place]) for place in (1, 2, 3)] != [states.count(state) for state in ("updated", "failed", "halted")]:
        raise Wrong(f"the recap has {states}")


def count(hosts, batches):
    """The verdicts of each host are those that the recap counts."""
    for host, ((ok, changed, failed, skipped, ignored), _) in hosts.items():
        told = [verdict for batch in batches for verdict in batch.verdicts.get(host, [])]
        has = {verdict: told.count(verdict) for verdict in ("ok", "changed", "failed", "skipped", "ignored")}
        if (has["ok"] + has["changed"] + has["ignored"], has["failed"], has["skipped"], has["ignored"]) != (ok, failed, skipped, ignored):
            raise Wrong(f"{host} has {has}, and the recap ok={ok} failed={failed} skipped={skipped} ignored={ignored}")
        if not has["changed"] <= changed <= has["changed"] + has["ignored"]:
            raise Wrong(f"{host} has {has}, and the recap changed={changed}")


def main(recap, told, behind=None):
    with open(recap, encoding="utf-8", newline="\n") as one, open(told, encoding="utf-8", newline="\n") as other:
        recap, (told, rest) = one.read(), parted(other.read())
    if behind is not None:
        with open(behind, "w", encoding="utf-8", newline="\n") as file:
            file.write(rest)
    try:
        if torn := [line for line in rest.split("\n") if is_told(line)]:
            raise Wrong(f"behind what is told stands {torn[0]!r}")
        check(recap, told)
    except Wrong as wrong:
        print(wrong)
        return 1
    return 0


if __name__ == "__main__":
    sys.exit(main(*sys.argv[1:]))
