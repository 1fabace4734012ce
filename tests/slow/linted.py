"""Draws inventories and plays from a seed, has both programs say what is accepted and probably not meant, and tells where they differ.

`python3 linted.py PROGRAM [SEED [CASES]]`; its last line counts.
"""

import sys

from draw_linted import draw_linted
from drawn import main
from gate import LINTED, SEED

if __name__ == "__main__":
    words = [*sys.argv[1:], "", ""]
    sys.exit(main(words[0], words[1] or SEED, int(words[2] or LINTED), draw_linted))
