#!/bin/sh
# What a run would open to its end, as `plan --forecast` prints it before anything runs: worked courses in full text. Drawn ones stand in tests/drawn.sh, beside the slow program and beside
# runs. It needs crates/rollout/out/rollout and Python.
. "$(dirname "$0")/common.sh"
quietly

# course WHAT STATUS INVENTORY PLAYBOOK TEXT WORD..: the two texts have this course, and it ends so.
course() {
    what=$1
    ends=$2
    printf '%s' "$3" >"$work/inventory.json"
    printf '%s' "$4" >"$work/playbook.json"
    text=$5
    shift 5
    run plan "$work/inventory.json" "$work/playbook.json" --forecast "$@"
    check "$what" "$ends" "$text$newline" ''
}

# unforeseen WHAT INVENTORY PLAYBOOK LINE WORD..: the course is refused by this line.
unforeseen() {
    what=$1
    printf '%s' "$2" >"$work/inventory.json"
    printf '%s' "$3" >"$work/playbook.json"
    line=$4
    shift 4
    run plan "$work/inventory.json" "$work/playbook.json" --forecast "$@"
    check "$what" 1 '' "$line$newline"
}

# play KEYS: a play of two tasks for all hosts, with these keys.
play() {
    printf '{"hosts":"all"%s,"tasks":[{"command":"true"},{"command":"true"}]}' "${1:+,$1}"
}

ten='{"all":{"hosts":{"h0":{},"h1":{},"h2":{},"h3":{},"h4":{},"h5":{},"h6":{},"h7":{},"h8":{},"h9":{}}}}'

course 'two racks: as many batches as the plan has' 0 "$racks" "[$(play)]" 'boundary 1: plan batches=3 bound=group r1 waiting=3 room=1
open: a d
boundary 2: plan batches=2 bound=group r1 waiting=2 room=1
open: b e
boundary 3: plan batches=1 bound=group eu waiting=1 room=3
open: c
boundary 4: plan batches=0 bound=nothing
end finished
batches=3'

course 'each batch has the size that is in force for it' 0 "$ten" "[$(play '"serial":[1,"20%","50%"]')]" 'boundary 1: plan batches=10 bound=serial waiting=10 size=1
open: h0
boundary 2: plan batches=5 bound=serial waiting=9 size=2
open: h1 h6
boundary 3: plan batches=2 bound=serial waiting=7 size=5
open: h2 h4 h7 h9
boundary 4: plan batches=1 bound=serial waiting=3 size=5
open: h3 h5 h8
boundary 5: plan batches=0 bound=nothing
end finished
batches=4'

course 'a failed host is down, and blocks its rack' 3 "$racks" "[$(play)]" 'boundary 1: plan batches=3 bound=group r1 waiting=3 room=1
open: a d
boundary 2: blocked group=r1 waiting=2
end blocked group=r1
batches=1' --failing a

course 'who waits in a full rack is set aside where the play holds' 3 "$racks" "[$(play '"on_blocked":"hold"')]" 'boundary 1: plan batches=3 bound=group r1 waiting=3 room=1
open: a d
boundary 2: plan batches=1 bound=group eu waiting=1 room=2
held: b c
open: e
boundary 3: plan batches=0 bound=nothing
end held
batches=2' --failing a

course 'so many failures as are allowed do not halt, and are told by the status' 2 "$ten" "[$(play '"serial":5,"max_fail_percentage":20')]" 'boundary 1: plan batches=2 bound=serial waiting=10 size=5
open: h0 h2 h4 h6 h8
boundary 2: plan batches=1 bound=serial waiting=5 size=5
open: h1 h3 h5 h7 h9
boundary 3: plan batches=0 bound=nothing
end finished
batches=2' --failing h4

course 'more of them halt the batch at its first step' 4 "$ten" "[$(play '"serial":5,"max_fail_percentage":20')]" 'boundary 1: plan batches=2 bound=serial waiting=10 size=5
open: h0 h2 h4 h6 h8
boundary 2: plan batches=1 bound=serial waiting=5 size=5
end too-many-failed step=1 failed=2 size=5
batches=1' --failing h4 --failing=h8,h1

course 'a batch of which all hosts fail ends the play; a group stands for its hosts' 4 "$racks" "[$(play)]" 'boundary 1: plan batches=3 bound=group r1 waiting=3 room=1
open: a d
boundary 2: blocked group=r1 waiting=2
end all-failed
batches=1' --failing 'r1, r2'

course 'hosts that are down at the start take room, and open no batch' 0 '{"all":{"children":{"g":{"vars":{"max_down":2},"hosts":{"a":{"down":true},"b":{},"c":{}}}}}}' "[$(play)]" 'boundary 1: plan batches=2 bound=group g waiting=2 room=1
open: b
boundary 2: plan batches=1 bound=group g waiting=1 room=1
open: c
boundary 3: plan batches=0 bound=nothing
end finished
batches=2' --failing a

course 'an empty fleet' 0 '{}' "[$(play)]" 'boundary 1: plan batches=0 bound=nothing
end finished
batches=0'

three='{"all":{"hosts":{"a":{},"b":{},"c":{}}}}'
course 'a later play begins where the one before it ended: who failed does not wait in it' 2 "$three" "[$(play '"serial":2'),{\"hosts\":\"a,b\",\"tasks\":[{\"command\":\"true\"}]},$(play '"serial":1')]" 'play 1
boundary 1: plan batches=2 bound=serial waiting=3 size=2
open: a c
boundary 2: plan batches=1 bound=serial waiting=1 size=2
open: b
boundary 3: plan batches=0 bound=nothing
end finished
play 2
boundary 1: plan batches=1 bound=one-host
open: b
boundary 2: plan batches=0 bound=nothing
end finished
play 3
boundary 1: plan batches=2 bound=serial waiting=2 size=1
open: b
boundary 2: plan batches=1 bound=serial waiting=1 size=1
open: c
boundary 3: plan batches=0 bound=nothing
end finished
batches=5' --failing a

course 'no play follows one that ends otherwise than finished' 3 "$racks" "[$(play),$(play)]" 'play 1
boundary 1: plan batches=3 bound=group r1 waiting=3 room=1
open: a d
boundary 2: plan batches=2 bound=group r1 waiting=2 room=1
open: b e
boundary 3: blocked group=r1 waiting=1
end blocked group=r1
batches=2' --failing b

course 'nobody is to fail where no name stands' 0 "$three" "[$(play)]" 'boundary 1: plan batches=1 bound=one-host
open: a b c
boundary 2: plan batches=0 bound=nothing
end finished
batches=1' --failing ' ,'

unforeseen 'a name that nobody has' "$three" "[$(play)]" 'rollout: 304 NoSuchName name=x' --failing a,x --failing y
unforeseen 'faults of the playbook come first' "$three" '[{"hosts":"all"}]' 'rollout: 702 BadShape at=0' --failing x
unforeseen 'and those of its patterns' "$three" '[{"hosts":"z","tasks":[{"command":"true"}]}]' 'rollout: 304 NoSuchName name=z' --failing x

# Who is left out is told of all plays.
printf '{"all":{"hosts":{"a":{"down":true},"b":{}}}}' >"$work/inventory.json"
printf '[{"hosts":"b","tasks":[{"command":"true"}]},%s]' "$(play)" >"$work/playbook.json"
run plan "$work/inventory.json" "$work/playbook.json" --forecast -v
check 'who is left out of a later play' 0 'play 1
boundary 1: plan batches=1 bound=one-host
open: b
boundary 2: plan batches=0 bound=nothing
end finished
play 2
boundary 1: plan batches=1 bound=one-host
open: b
boundary 2: plan batches=0 bound=nothing
end finished
batches=2
' "note: a is down and stays down: 1 host of the plays is left out$newline"

# The words: the options may stand anywhere, and names go with a course alone.
printf '%s' "$three" >"$work/inventory.json"
printf '[%s]' "$(play)" >"$work/playbook.json"
all='boundary 1: plan batches=1 bound=one-host
open: a b c
boundary 2: plan batches=0 bound=nothing
end finished
batches=1
'
run plan --forecast "$work/inventory.json" --forecast "$work/playbook.json"
check 'the option before the files, and twice' 0 "$all" ''
run plan --failing a "$work/inventory.json" "$work/playbook.json" --forecast
check 'names before it' 2 "$all" ''
run plan "$work/inventory.json" "$work/playbook.json" -v --forecast
check 'beside -v' 0 "$all" ''
bad() {
    what=$1
    shift
    run "$@"
    if [ "$status" -eq 1 ] && [ ! -s "$work/out" ] && [ "$(head -n 1 "$work/errors")" = 'rollout: 901 BadLine' ]; then pass; else fail "$what: status $status"; fi
}
bad 'names without a course' plan "$work/inventory.json" "$work/playbook.json" --failing a
bad 'names without a course, behind a sign' plan --failing=a "$work/inventory.json" "$work/playbook.json"
bad 'an option without its names' plan "$work/inventory.json" "$work/playbook.json" --forecast --failing
bad 'a course of a run' run "$work/inventory.json" "$work/playbook.json" --forecast
bad 'a course of one file' plan "$work/inventory.json" --forecast
bad 'behind the word that ends options' plan "$work/inventory.json" "$work/playbook.json" -- --forecast

if [ -w /dev/full ]; then
    "$rollout" plan "$work/inventory.json" "$work/playbook.json" --forecast >/dev/full 2>"$work/errors"
    status=$?
    : >"$work/out"
    check 'an output that takes nothing' 1 '' "rollout: 904 Write written=0$newline"
fi
finish
