#!/bin/sh
# Compares the pages with the tree: lists of crates, edits, bugs and rules, counts, and the names of files, calls, scripts, targets and options. It needs Python 3.11
# alone: nothing has to be built, and nothing is proved. `make pages` makes what it compares and nobody should keep by hand; `make drifts` shows that it can fail.
exec python3 "$(dirname "$0")/house/compare.py"
