#!/bin/sh
# Prints the public functions of all crates with their clauses, from the sources, and what differs between two revisions, so that a change shows whether a contract got
# weaker: `sh tests/contracts.sh REV tree`. It needs Python 3.11 alone.
#
#     sh tests/contracts.sh [REV]          the list, of a revision or of the working tree
#     sh tests/contracts.sh REV1 REV2      the differences, by crate: gone, new, moved to another crate, changed clauses; `tree` is the working tree
exec python3 "$(dirname "$0")/house/contracts.py" "$@"
