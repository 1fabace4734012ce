#!/bin/sh
# Runs drawn playbooks whose programs write down when they begin and end: no limit is broken, no step comes early, each number of forks prints the same, and
# the recap has each host as its programs ended, also of a run that broke off (tests/programs/kept.py). `SEED=7 CASES=1000 sh tests/noted.sh` draws others.
# It needs a C compiler, Python 3 and crates/rollout/out/rollout; ROLLOUT is another program.
. "$(dirname "$0")/common.sh"
quietly
${CC:-cc} -shared -fPIC -O1 -o "$work/fail.so" "$top/tests/programs/fail.c" -ldl || {
    fail 'no C compiler made fail.so'
    finish
    exit 1
}
counting python3 "$top/tests/programs/noted.py" "$rollout" "$work/fail.so" "${SEED:-}" "${CASES:-}"
finish
