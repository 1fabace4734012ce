#!/bin/sh
# Compares the built program with the slow program of tests/slow: both outputs, whole, and the exit status, on worked rows, on cases that are drawn
# from a seed, on drawn runs that tell of themselves, on drawn courses and tables of groups, on drawn runs that broke off and go on, on what is foreseen of such runs, on drawn runs that begin with hosts that are mended,
# on words that are told beforehand, on plans that are checked, on expectations, on what is noted of inventories and plays, on files with many faults, on strict runs, and on the greatest inputs; and courses with runs in which the same hosts fail. A case that differs is made smaller and printed as its files and a command. Of a command that the program
# doesn't have yet no case is tried. `SEED=7 CASES=30000 sh tests/drawn.sh` draws others; ROLLOUT is another program than that of crates/rollout/out.
set -u
top=$(cd "$(dirname "$0")/.." && pwd)
rollout=${ROLLOUT:-$top/crates/rollout/out/rollout}
work=$(mktemp -d)
trap 'rm -rf "$work"' EXIT
passed=0
failed=0

if [ ! -x "$rollout" ]; then
    echo "FAILED: $rollout isn't built: make builds it"
    echo '0 passed, 1 failed'
    exit 1
fi
# What is told of a failed run without options is telling.sh's.
${CC:-cc} -O1 -static -DPROGRAM="\"$rollout\"" -o "$work/quiet" "$top/tests/programs/quiet.c" || exit 1
rollout=$work/quiet

# counted SCRIPT WORDS: runs a script of tests/slow whose last line is its count, and adds that.
counted() {
    script=$1
    shift
    {
        python3 "$top/tests/slow/$script.py" "$@"
        echo $? >"$work/status"
    } >"$work/output"
    counts=$(tail -n 1 "$work/output" | sed -n 's/^\([0-9]*\) passed, \([0-9]*\) failed$/\1 \2/p')
    sed '$d' "$work/output"
    # Ending otherwise than by its count, or failing beside it, is a failure.
    set -- ${counts:-0 1}
    more=$2
    [ "$more" -eq 0 ] && [ "$(cat "$work/status")" -ne 0 ] && more=1
    echo "$script: $1 passed, $more failed"
    passed=$((passed + $1))
    failed=$((failed + more))
}

counted rows "$rollout"
counted leasts
if [ -z "${UNPROVED:-}" ]; then
    counted great "$rollout"
else
    echo 'left out on a program without proofs: what the greatest inputs take'
fi
counted drawn "$rollout" "${SEED:-}" "${CASES:-}"
counted told "$rollout" "${SEED:-}" "${CASES:+$((CASES * 2 / 5))}"
counted forecast "$rollout" "${SEED:-}" "${CASES:+$((CASES / 30 + 1))}"
counted courses "$rollout" "${SEED:-}" "${CASES:+$((CASES * 3 / 5))}"
counted grouped "$rollout" "${SEED:-}" "${CASES:+$((CASES / 5))}"
counted resumed "$rollout" "${SEED:-}" "${CASES:+$((CASES / 5))}"
counted mended "$rollout" "${SEED:-}" "${CASES:+$((CASES / 10))}"
counted outlook draw "$rollout" "${SEED:-1}" "$((${CASES:-5000} / 10))"
counted outlook run "$rollout" "${SEED:-1}" "$((${CASES:-5000} / 50))"
counted worded "$rollout" "${SEED:-}" "${CASES:+$((CASES / 10))}"
counted checked "$rollout" "${SEED:-}" "${CASES:+$((CASES / 10))}"
counted expected "$rollout" "${SEED:-}" "${CASES:+$((CASES / 10))}"
counted linted "$rollout" "${SEED:-}" "${CASES:+$((CASES / 5))}"
counted faulty "$rollout" "${SEED:-}" "${CASES:+$((CASES * 3 / 50))}"
counted strict "$rollout" "${SEED:-}" "${CASES:+$((CASES * 3 / 50))}"
counted followed "$rollout" "${SEED:-}" "${CASES:+$((CASES / 30 + 1))}"
echo "$passed passed, $failed failed"
[ "$failed" -eq 0 ]
