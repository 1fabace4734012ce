#!/bin/sh
# What a build server asks of a change of an inventory or a playbook, before anybody runs it:
#
#     sh check-change.sh INV PLAY EXPECTED
#
# EXPECTED has lines NAME=VALUE, empty ones, and ones that begin with `#`. It stands beside the two files and is changed with them, so that whoever reads a change sees what
# it does to the fleet. A question of `limits`, `batches` or `plan` whose line is missing isn't asked, and that is said.
#
#     allow         lint rules whose warnings are intended, comma-separated
#     limits        what the table of limits has to say, as `--expect` reads it
#     batches       what the plan has to say, as `--expect` reads it
#     plan          the file of the plan that was agreed on, from the folder of EXPECTED; `rollout plan` makes it
#     failing       whose failure is asked for, one host at a time: their names, parted by commas, or `all` for each host that the roll opens; without this line those of
#                   the first batch
#     one_failure   how the roll may end where one of these fails: 2 it goes on to its end, 3 hosts have no room, 4 it ends there; 2 without this line
#
# `batches` and `plan` are of the first play, with the first size of its `serial`; the forecast and the failures are of all plays, with all sizes. A host fails at its first
# step, in the first play that opens it.
#
# All is asked, also where something was lost before. It ends with 0 where nothing is lost, with 1 where something is, with 2 where it was called otherwise, or EXPECTED has
# another line. Another program than the `rollout` of PATH is called by the name in ROLLOUT.
set -u
if [ $# -ne 3 ] || [ ! -r "$3" ]; then
    echo "usage: sh check-change.sh INV PLAY EXPECTED" >&2
    exit 2
fi
inventory=$1
playbook=$2
expected=$3
rollout=${ROLLOUT:-rollout}
found=0

# A name that is misspelled would be a question that nobody asks.
others=$(grep -Ev '^(allow|limits|batches|plan|failing|one_failure)=|^#|^[[:space:]]*$' "$expected")
if [ -n "$others" ]; then
    echo "$others" | sed "s|^|$expected has an unknown line: |" >&2
    exit 2
fi

# setting NAME: its value, the last one where it stands several times
setting() {
    sed -n "s/^$1=//p" "$expected" | tail -n 1
}

lost() {
    echo "LOST: $1"
    found=1
}

# ask WHAT WORD..: asks the program; whatever it answers otherwise than with status 0 is lost
ask() {
    what=$1
    shift
    echo "rollout $*"
    "$rollout" "$@" || lost "$what: status $?"
}

# What is refused here is refused by each question below, with the same fault.
echo "rollout lint $inventory $playbook"
notes=$("$rollout" lint --allow "$(setting allow)" -- "$inventory" "$playbook")
status=$?
[ -z "$notes" ] || echo "$notes"
if printf '%s\n' "$notes" | grep -q '^notes=' && ! printf '%s\n' "$notes" | grep -q '^faults='; then
    [ "$status" -eq 0 ] || lost 'something is probably not meant'
else
    lost 'the change is refused'
    exit 1
fi

for name in limits batches plan; do
    [ -n "$(setting "$name")" ] || echo "not asked: $name"
done
limits=$(setting limits)
[ -z "$limits" ] || ask 'the limits' limits --expect "$limits" -- "$inventory"
batches=$(setting batches)
[ -z "$batches" ] || ask 'the plan' plan --expect "$batches" -- "$inventory" "$playbook"
plan=$(setting plan)
[ -z "$plan" ] || ask 'the plan that was agreed on' check -- "$inventory" "$playbook" "$(dirname "$expected")/$plan"
ask 'the forecast' plan --forecast -- "$inventory" "$playbook"

# opened: the hosts of each batch, a line for each
opened() {
    "$rollout" plan --forecast -- "$inventory" "$playbook" | sed -n 's/^open: //p'
}
failing=$(setting failing)
case $failing in
'') failing=$(opened | head -n 1) ;;
all) failing=$(opened | tr ' ' '\n' | awk '!seen[$0]++') ;;
*) failing=$(echo "$failing" | tr ',' ' ') ;;
esac
ends=$(setting one_failure)
for host in $failing; do
    forecast=$("$rollout" plan --forecast --failing "$host" -- "$inventory" "$playbook")
    status=$?
    echo "if $host fails, $(echo "$forecast" | sed -n '/^held: /p; /^end /p; /^batches=/p' | paste -s -d ' ' -)"
    case " ${ends:-2} " in
    *" $status "*) ;;
    *) lost "one failure, of $host: status $status" ;;
    esac
done
exit "$found"
