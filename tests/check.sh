#!/bin/sh
# Whether a text from elsewhere is a plan with which a play begins, as `check` tells it: worked texts, whole. Drawn ones stand in tests/drawn.sh, beside the slow program. It needs
# crates/rollout/out/rollout.
. "$(dirname "$0")/common.sh"

# texts INVENTORY PLAYBOOK: those beside which plans are checked.
texts() {
    printf '%s' "$1" >"$work/inventory.json"
    printf '%s' "$2" >"$work/playbook.json"
}

# checked WHAT STATUS LINE PLAN: this line is told of the plan, a format of printf, and the status is this one.
checked() {
    # shellcheck disable=SC2059
    printf "$4" >"$work/plan.txt"
    run check "$work/inventory.json" "$work/playbook.json" "$work/plan.txt"
    check "$1" "$2" "$3$newline" ''
}

# unread WHAT LINE PLAN: the texts are refused by this line of a fault.
unread() {
    # shellcheck disable=SC2059
    printf "$3" >"$work/plan.txt"
    run check "$work/inventory.json" "$work/playbook.json" "$work/plan.txt"
    check "$1" 1 '' "$2$newline"
}

# play KEYS [HOSTS]: a playbook of one play with these keys, for all hosts if no others are named.
play() {
    printf '[{"hosts":"%s"%s,"tasks":[{"command":"true"}]}]' "${2:-all}" "${1:+,$1}"
}

texts "$racks" "$(play '')"
run plan "$work/inventory.json" "$work/playbook.json"
cp "$work/out" "$work/plan.txt"
run check "$work/inventory.json" "$work/playbook.json" "$work/plan.txt"
check 'the plan of the program itself' 0 "valid batches=3 least=3$newline" ''
checked 'a plan as it is printed' 0 'valid batches=3 least=3' 'plan batches=3 bound=group r1 waiting=3 room=1\nbatch 1: a d\nbatch 2: b e\nbatch 3: c\n'
checked 'another one, of bare names' 0 'valid batches=3 least=3' 'e c d\nb\na\n'
checked 'some lines with their numbers and some without; the first line may say anything' 0 'valid batches=3 least=3' 'plan batches=many\na\nbatch 2: b\nc d e\n'
checked 'more batches than are needed' 2 'valid batches=5 least=3' 'a\nb\nc\nd\ne\n'
checked 'one more' 2 'valid batches=4 least=3' 'a\nb\nc\nd e\n'
checked 'empty lines, blanks, carriage returns; no end of the last line' 0 'valid batches=3 least=3' '\r\n \t \r\nbatch\t1:  a\r\n\n  b\te \r\nbatch 3: c d'
checked 'lines of those that were set aside are passed over, wherever they stand' 0 'valid batches=3 least=3' 'held: x\na\nheld: b c !\nb\nheld:\nc d e\n'

checked 'a batch of nobody' 1 'empty batch=2' 'a d\nbatch 2:\nb e\nc\n'
checked 'a host twice in a batch' 1 'twice batch=1 host=d' 'd a d\nb e\nc\n'
checked 'a host in two batches' 1 'twice batch=2 host=a' 'a d\nb a\nc e\n'
checked 'a host that is missing: the first by name' 1 'missing host=b' 'd\na\nc\n'
checked 'nobody stands there, and hosts wait' 1 'missing host=a' ''
checked 'a name that no host has' 1 'unknown batch=2 host=f' 'a d\nb f\nc g\n'
checked 'a name of a group is none' 1 'unknown batch=1 host=r2' 'a r2\nb\nc\n'
checked 'two of a rack that has room for one' 1 'over batch=2 group=r1 hosts=2 room=1' 'd e\na b\nc\n'
checked 'of several groups the first in preorder' 1 'over batch=1 group=eu hosts=4 room=3' 'a b d e\nc\n'

checked 'an unknown name in a later batch is told first' 1 'unknown batch=3 host=f' 'a b\na\nf\n'
checked 'batch by batch: a group of the first before a host of the second' 1 'over batch=1 group=r1 hosts=2 room=1' 'a b\na d\nc e\n'
checked 'of a batch its hosts before its groups' 1 'twice batch=1 host=a' 'a b a\n'
checked 'who is missing last' 1 'empty batch=2' 'a\nbatch 2:\n'

unread 'a line of something else, by its number' 'rollout: 908 BadPlan line=3' 'a d\n\nb, e\nc\n'
unread 'a number that is another one' 'rollout: 908 BadPlan line=2' 'batch 1: a d\nbatch 3: b e\nbatch 3: c\n'
unread 'a number that is written otherwise' 'rollout: 908 BadPlan line=1' 'batch 01: a d\n'
unread 'the first line behind a batch' 'rollout: 908 BadPlan line=2' 'a d\nplan batches=3 bound=one-host\nb e\nc\n'
unread 'what a plan says that is blocked' 'rollout: 908 BadPlan line=1' 'blocked group=r1 waiting=3\n'
unread 'a course' 'rollout: 908 BadPlan line=1' 'boundary 1: plan batches=3 bound=group r1 waiting=3 room=1\nopen: a d\n'
unread 'a carriage return within a line' 'rollout: 908 BadPlan line=1' 'a\rd\nb e\nc\n'
unread 'bytes that are no name' 'rollout: 908 BadPlan line=2' 'a\n\303\251\n'
unread 'a byte of nought' 'rollout: 908 BadPlan line=1' 'a\000d\n'
long=$(head -c 255 /dev/zero | tr '\0' n)
unread 'a name of 256 bytes' 'rollout: 908 BadPlan line=1' "${long}n"
checked 'one of 255 bytes is one that nobody has' 1 "unknown batch=1 host=$long" "$long"
unread 'a bad line behind much that is wrong' 'rollout: 908 BadPlan line=4' 'f\na a\nbatch 3:\n%%\n'

# The first play, as it begins: its size, its hosts, who is down and who is set aside.
texts "$racks" "$(play '"serial":[2,1]')"
checked 'the first size bounds all batches' 0 'valid batches=3 least=3' 'a d\nb e\nc\n'
checked 'a batch of more hosts' 1 'size batch=2 hosts=3 size=2' 'a\nb d e\nc\n'
checked 'hosts before the size' 1 'twice batch=1 host=a' 'a d e a\n'
checked 'the size before groups' 1 'size batch=1 hosts=3 size=2' 'a b c\nd e\n'
texts "$racks" "$(play '"serial":"30%"')"
checked 'a size in percent is one host at least' 1 'size batch=1 hosts=2 size=1' 'a d\nb e\nc\n'
texts "$racks" "$(play '' 'a,d')"
checked 'a host that the play is not for' 1 'not-waiting batch=2 host=b' 'a d\nb\n'
checked 'the hosts of the play alone' 0 'valid batches=1 least=1' 'd a\n'
texts '{"g":{"vars":{"max_down":2},"hosts":{"a":{"down":true},"b":null,"c":null}}}' "$(play '')"
checked 'who is down takes room' 1 'over batch=1 group=g hosts=2 room=1' 'b c\n'
checked 'and waits for nothing' 1 'not-waiting batch=1 host=a' 'a\nb\nc\n'
checked 'without it' 0 'valid batches=2 least=2' 'c\nb\n'
checked 'a host that does not wait and one that stood before, in their order' 1 'twice batch=1 host=b' 'b b a\n'
full='{"g":{"vars":{"max_down":1},"hosts":{"a":{"down":true},"b":null}},"h":{"hosts":{"c":null}}}'
texts "$full" "$(play '"on_blocked":"hold"')"
checked 'who was set aside stands in no batch' 0 'valid batches=1 least=1' 'plan batches=1 bound=one-host\nbatch 1: c\nheld: b\n'
checked 'and does not wait' 1 'not-waiting batch=2 host=b' 'c\nb\n'
texts "$full" "$(play '')"
checked 'no plan is one where all are blocked' 3 'blocked group=g waiting=1' 'c\nb\n'
checked 'whatever stands there' 3 'blocked group=g waiting=1' 'x\nc c\n'
unread 'but for a bad line' 'rollout: 908 BadPlan line=2' 'c\nb:\n'
texts '{}' "$(play '')"
checked 'no hosts, and no batches' 0 'valid batches=0 least=0' ''
checked 'no hosts' 1 'unknown batch=1 host=a' 'a\n'
texts '{"all":{"hosts":{"batch":null,"plan":null,"held":null}}}' "$(play '"serial":1')"
checked 'hosts that have names of words' 0 'valid batches=3 least=3' 'batch\nplan\nheld\n'
checked 'behind a number too' 0 'valid batches=3 least=3' 'plan\nbatch 2: batch\nheld'
texts "$racks" '[{"hosts":"a","tasks":[{"command":"true"}]},{"hosts":"d","tasks":[{"command":"true"}]}]'
checked 'of several plays the first' 0 'valid batches=1 least=1' 'a\n'

# Faults, in their order.
texts '{"all":[]}' '[]'
unread 'of the inventory' 'rollout: 202 BadShape at=all' '!\n'
texts "$racks" '[]'
unread 'of the playbook' 'rollout: 702 BadShape at=' '!\n'
texts "$racks" '[{"hosts":"a","tasks":[{"command":"true"}]},{"hosts":"z","tasks":[{"command":"true"}]}]'
unread 'of the patterns of all plays' 'rollout: 304 NoSuchName name=z' '!\n'
texts '{"g":{"vars":{"max_down":0},"hosts":{"a":{"down":true}}}}' "$(play '')"
unread 'a group over its limit at the start' 'rollout: 302 StartOver group=g down=1 limit=0' '!\n'

# refused WHAT LINE WORD..: this fault is told, and nothing is printed.
refused() {
    what=$1
    line=$2
    shift 2
    run "$@"
    check "$what" 1 '' "$line$newline"
}
refused 'a plan that is not there is told before what stands in the others' "rollout: 902 File name=$work/missing" check "$work/inventory.json" "$work/playbook.json" "$work/missing"
refused 'files are read in the order of the line' "rollout: 902 File name=$work/missing" check "$work/inventory.json" "$work/missing" "$work/none"
head -c 16777217 /dev/zero >"$work/large"
refused 'a plan that is too large' 'rollout: 903 InputTooLarge' check "$work/inventory.json" "$work/playbook.json" "$work/large"
rm "$work/large"

texts "$racks" "$(play '')"
printf 'a d\nb e\nc\n' >"$work/plan.txt"
input=$work/plan.txt
run check "$work/inventory.json" "$work/playbook.json" /dev/stdin
check 'a plan from standard input' 0 "valid batches=3 least=3$newline" ''
input=/dev/null
run check -- "$work/inventory.json" "$work/playbook.json" "$work/plan.txt"
check 'behind the word that ends options' 0 "valid batches=3 least=3$newline" ''

bad() {
    what=$1
    shift
    run "$@"
    if [ "$status" -eq 1 ] && [ ! -s "$work/out" ] && [ "$(head -n 1 "$work/errors")" = 'rollout: 901 BadLine' ]; then pass; else fail "$what: status $status"; fi
}
bad 'two files' check "$work/inventory.json" "$work/playbook.json"
bad 'four files' check "$work/inventory.json" "$work/playbook.json" "$work/plan.txt" "$work/plan.txt"
bad 'no file' check
bad 'an option of plan' check --forecast "$work/inventory.json" "$work/playbook.json" "$work/plan.txt"
bad 'an expectation' check "$work/inventory.json" "$work/playbook.json" "$work/plan.txt" --expect batches=3

if [ -w /dev/full ]; then
    "$rollout" check "$work/inventory.json" "$work/playbook.json" "$work/plan.txt" >/dev/full 2>"$work/errors"
    status=$?
    : >"$work/out"
    check 'an output that takes nothing' 1 '' "rollout: 904 Write written=0$newline"
fi
finish
