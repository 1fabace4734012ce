"""Draws cases that are asked for JSON from a seed, has both programs say them, and tells where they differ, or where what is said isn't as docs/rollout.schema.json has it.

`python3 formed.py PROGRAM [SEED [CASES]]`; its last line counts.
"""

import sys

from draw_formed import draw_formed
from drawn import main
from gate import FORMED, SEED

if __name__ == "__main__":
    words = [*sys.argv[1:], "", ""]
    sys.exit(main(words[0], words[1] or SEED, int(words[2] or FORMED), draw_formed))
