"""Draws plans from a seed, right ones and spoiled ones, has both programs check each, and tells where they differ.

`python3 checked.py PROGRAM [SEED [CASES]]`; its last line counts.
"""

import sys

from draw_checked import draw_checked
from drawn import main
from gate import CHECKED, SEED

if __name__ == "__main__":
    words = [*sys.argv[1:], "", ""]
    sys.exit(main(words[0], words[1] or SEED, int(words[2] or CHECKED), draw_checked))
