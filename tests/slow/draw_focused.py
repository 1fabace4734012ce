"""Drawn plays that look closely: a few steps register something, and those behind them have conditions that tell what it was."""

from draw_programs import HOST, PRINTED, RunStyle
from json_draw import Members

VALUES = ["1", "'1'", "'a'", "true", "0", "2", "-1", "''", "'out'", "'True'", "w", "v"]


class FocusedStyle(RunStyle):
    """Steps of which nearly all go on to the last, so that each shows as ok or skipped."""

    def tasks(self, random):
        """The steps that register, and those that look."""
        tasks = [self._registering(random) for _ in range(random.choice([0, 1, 1, 2, 3]))]
        return tasks + [self._looking(random) for _ in range(random.choice([2, 3, 4, 6]))]

    def _registering(self, random):
        register = random.choice(["r", "r", "x", "v"])
        step = self.step(random) if random.random() < 0.25 else None
        if step is None:
            if random.random() < 0.7:
                command = Members([("argv", ["sh", "-c", self._telling(random)])])
            else:
                command, self.printed = f"echo {self._word(random)}", ["True", "True", "1", "a", "-1"]
            step = Members([("command", command), ("ignore_errors", True), ("register", register)])
            if random.random() < 0.3:
                step.append(("when", self._certain(random)))
        self.known.append(dict(step)["register"])
        return step

    def _telling(self, random):
        """A script that prints on one output or both, and may fail, everywhere or on one host."""
        written = random.choice(list(PRINTED))
        self.printed = [PRINTED[written], PRINTED[written], ""]
        script = f"printf {written}" + random.choice(["", "", "", " >&2", "; printf out >&2"])
        ends = [
            "", "", "", "; exit 1", "; exit 3", "; kill -9 $$", f"; {self._choice(random)}",
            f"; {self._choice(random)} || kill -9 $$", f"; {self._choice(random)} || exit 3",
        ]
        return script + random.choice(ends)

    def _looking(self, random):
        step = Members([("command", random.choice(["true", "true", "true", f"echo {HOST}", self._choice(random)])), ("when", self._certain(random))])
        if random.random() < 0.15:
            step.append(("when", [self._certain(random), random.random() < 0.5, self._certain(random)]))
            del step[1]
        if random.random() < 0.3:
            step.append(("changed_when", random.choice([False, self._certain(random)])))
        return step

    def _certain(self, random):
        """A condition that mostly has a value."""
        kind = random.random()
        if kind < 0.55 and self.known:
            return self._of_result(random, random.choice(self.known))
        if kind < 0.9:
            return f"{random.choice(['v', 'v', 'w'])} {random.choice(['==', '==', '!='])} {random.choice(VALUES)}"
        return self.condition(random)
