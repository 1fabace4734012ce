# What the scripts share: the built program (ROLLOUT is another), a folder of their own, and the count of what passed. UNPROVED says that the program was built
# without proofs, as `make look` does: then what can't be told of it is left out.
set -u
top=$(cd "$(dirname "$0")/.." && pwd)
rollout=${ROLLOUT:-$top/crates/rollout/out/rollout}
work=$(mktemp -d)
trap 'rm -rf "$work"' EXIT
passed=0
failed=0
newline='
'
# Two racks in a region.
racks='{"all":{"children":{"eu":{"vars":{"max_down":3},"children":{"r1":{"vars":{"max_down":1},"hosts":{"a":null,"b":null,"c":null}},"r2":{"vars":{"max_down":2},"hosts":{"d":null,"e":null}}}}}}}'

pass() {
    passed=$((passed + 1))
}

fail() {
    failed=$((failed + 1))
    echo "FAILED: $1"
}

# proved WHAT: whether rows of this can be told of the program: not where it was built without proofs.
proved() {
    [ -z "${UNPROVED:-}" ] && return
    echo "left out on a program without proofs: $1"
    false
}

# fewer MANY FEW: how many cases are tried: FEW of a program without proofs, which takes ten times as long.
fewer() {
    if [ -z "${UNPROVED:-}" ]; then echo "$1"; else echo "$2"; fi
}

# The last line, and the exit status.
finish() {
    echo "$passed passed, $failed failed"
    [ "$failed" -eq 0 ] && [ "$passed" -gt 0 ]
}

# counting WORD..: runs what counts for itself, and adds what it counted. Ending otherwise than by its count, or failing beside it, is a failure.
counting() {
    {
        "$@"
        echo $? >"$work/counting.status"
    } >"$work/counting"
    sed '$d' "$work/counting"
    counts=$(tail -n 1 "$work/counting" | sed -n 's/^\([0-9]*\) passed, \([0-9]*\) failed$/\1 \2/p')
    set -- ${counts:-0 1}
    [ "$2" -gt 0 ] || [ "$(cat "$work/counting.status")" -eq 0 ] || set -- "$1" 1
    passed=$((passed + $1))
    failed=$((failed + $2))
}

# From here on each `run` is given --quiet, which -v overrides: for scripts that are not about what is told of a failed run. `built` is the program itself.
built=$rollout
quietly() {
    ${CC:-cc} -O1 -static -DPROGRAM="\"$rollout\"" -o "$work/quiet" "$top/tests/programs/quiet.c" || fail 'no C compiler made the helpers'
    rollout=$work/quiet
}

# Runs the program, for `limit` seconds at most where that is set; `input` is its standard input.
input=/dev/null
limit=
run() {
    ${limit:+timeout -k 5 "$limit"} "$rollout" "$@" <"$input" >"$work/out" 2>"$work/errors"
    status=$?
}

# locked FILE WORD ..: runs the program while another holds the lock of a file.
locked() {
    python3 -c 'import fcntl, subprocess, sys
program, name, *words = sys.argv[1:]
with open(name) as file:
    fcntl.flock(file, fcntl.LOCK_EX)
    sys.exit(subprocess.call([program, *words]))' "$rollout" "$@" <"$input" >"$work/out" 2>"$work/errors"
    status=$?
}

# check WHAT STATUS OUT ERRORS: compares the last run's status and both outputs, whole, with what is expected.
check() {
    printf '%s' "$3" >"$work/out.expected"
    printf '%s' "$4" >"$work/errors.expected"
    if [ "$status" -eq "$2" ] && cmp -s "$work/out" "$work/out.expected" && cmp -s "$work/errors" "$work/errors.expected"; then
        pass
    else
        fail "$1: status $status, expected $2"
        diff "$work/out.expected" "$work/out" | head -20
        diff "$work/errors.expected" "$work/errors" | head -20
    fi
}

# Runs `limits` on a file of this text.
text() {
    printf '%s' "$1" >"$work/inventory.json"
    run limits "$work/inventory.json"
}

# refused WHAT TEXT LINE: the text is refused by this line.
refused() {
    text "$2"
    check "$1" 1 '' "$3$newline"
}

# printed WHAT TEXT TABLE: the text has this table.
printed() {
    text "$2"
    check "$1" 0 "$3$newline" ''
}

# both INVENTORY PLAYBOOK: runs `plan` on files of these texts.
both() {
    printf '%s' "$1" >"$work/inventory.json"
    printf '%s' "$2" >"$work/playbook.json"
    run plan "$work/inventory.json" "$work/playbook.json"
}

# planned WHAT INVENTORY PLAYBOOK PLAN: the two texts have this plan.
planned() {
    both "$2" "$3"
    check "$1" 0 "$4$newline" ''
}

# held_up WHAT INVENTORY PLAYBOOK PLAN: the same of a plan that leaves hosts out.
held_up() {
    both "$2" "$3"
    check "$1" 3 "$4$newline" ''
}

# unplanned WHAT INVENTORY PLAYBOOK LINE: one of the two texts is refused by this line.
unplanned() {
    both "$2" "$3"
    check "$1" 1 '' "$4$newline"
}

if [ ! -x "$rollout" ]; then
    fail "$rollout isn't built: make builds it"
    finish
    exit 1
fi
