"""Draws inventories and playbooks with many faults from a seed, has both programs tell all of them, and tells where they differ.

`python3 faulty.py PROGRAM [SEED [CASES]]`; its last line counts.
"""

import sys

from draw_faulty import draw_faulty
from drawn import main
from gate import FAULTY, SEED

if __name__ == "__main__":
    words = [*sys.argv[1:], "", ""]
    sys.exit(main(words[0], words[1] or SEED, int(words[2] or FAULTY), draw_faulty))
