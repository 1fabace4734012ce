"""The seed and the numbers of the cases that the gate draws: of all commands, of runs that tell of themselves, of courses, of groups, of runs that go on, of runs that begin with hosts that are
up though they are marked as down, of words that are told beforehand, of plans that are checked, of expectations,
of what `lint` notes, of all faults that it tells, of strict runs, and of what is told as JSON."""

SEED = "1"
CASES = 5_000
TOLD = 2_000
FORESEEN = 3_000
GROUPED = 1_000
RESUMED = 1_000
MENDED = 500
WORDED = 500
CHECKED = 500
EXPECTED = 500
LINTED = 1_000
FAULTY = 300
STRICT = 300
FORMED = 300
