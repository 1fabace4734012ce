"""Draws plays from a seed, has both programs tell beforehand which words would run on which host, and tells where they differ.

`python3 worded.py PROGRAM [SEED [CASES]]`; its last line counts.
"""

import sys

from draw_worded import draw_worded
from drawn import main
from gate import SEED, WORDED

if __name__ == "__main__":
    words = [*sys.argv[1:], "", ""]
    sys.exit(main(words[0], words[1] or SEED, int(words[2] or WORDED), draw_worded))
