"""Draws runs that broke off and go on from a seed, has both programs say of each where it stands and go on with it, and tells where they differ: in both outputs, in the status, or in
the journal that is left.

`python3 resumed.py PROGRAM [SEED [CASES]]`; its last line counts.
"""

import sys

from draw_resumed import draw_resumed
from drawn import main
from gate import RESUMED, SEED

if __name__ == "__main__":
    words = [*sys.argv[1:], "", ""]
    sys.exit(main(words[0], words[1] or SEED, int(words[2] or RESUMED), draw_resumed))
