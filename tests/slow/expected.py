"""Draws tables and plans of which something is expected from a seed, has both programs say whether it is met, and tells where they differ.

`python3 expected.py PROGRAM [SEED [CASES]]`; its last line counts.
"""

import sys

from draw_expected import draw_expected
from drawn import main
from gate import EXPECTED, SEED

if __name__ == "__main__":
    words = [*sys.argv[1:], "", ""]
    sys.exit(main(words[0], words[1] or SEED, int(words[2] or EXPECTED), draw_expected))
