"""Draws runs from a seed, has both programs tell of each with `-v`, and tells where they differ: at one fork each line, its times left out, and at more forks the same
lines in the order of one at a time, in which each host's stand as they were told. The recap and the status are compared with them.

`python3 told.py PROGRAM [SEED [CASES]]`; its last line counts.
"""

import sys

from cases import draw_told
from drawn import main
from gate import SEED, TOLD

if __name__ == "__main__":
    words = [*sys.argv[1:], "", ""]
    sys.exit(main(words[0], words[1] or SEED, int(words[2] or TOLD), draw_told))
