"""Draws courses from a seed, has both programs say them, and tells where they differ.

`python3 courses.py PROGRAM [SEED [CASES]]`; its last line counts.
"""

import sys

from cases import draw_foreseen
from drawn import main
from gate import FORESEEN, SEED

if __name__ == "__main__":
    words = [*sys.argv[1:], "", ""]
    sys.exit(main(words[0], words[1] or SEED, int(words[2] or FORESEEN), draw_foreseen))
