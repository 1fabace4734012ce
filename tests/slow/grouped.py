"""Draws plans and courses that are asked for their groups from a seed, has both programs say them, and tells where they differ.

`python3 grouped.py PROGRAM [SEED [CASES]]`; its last line counts.
"""

import sys

from cases import draw_grouped
from drawn import main
from gate import GROUPED, SEED

if __name__ == "__main__":
    words = [*sys.argv[1:], "", ""]
    sys.exit(main(words[0], words[1] or SEED, int(words[2] or GROUPED), draw_grouped))
