#!/bin/sh
# How full each group is while each batch runs, as `plan --groups` prints it below the plan and below each play of a course: worked tables in full text. Drawn ones stand in tests/drawn.sh,
# beside the slow program. It needs crates/rollout/out/rollout and Python.
. "$(dirname "$0")/common.sh"

# groups WHAT STATUS INVENTORY PLAYBOOK TEXT WORD..: the plan of the two texts, or what these words ask for, has this text with its groups, and ends so.
groups() {
    what=$1
    ends=$2
    printf '%s' "$3" >"$work/inventory.json"
    printf '%s' "$4" >"$work/playbook.json"
    text=$5
    shift 5
    run plan "$work/inventory.json" "$work/playbook.json" --groups "$@"
    check "$what" "$ends" "$text$newline" ''
}

# play KEYS: a play of one task for all hosts, with these keys.
play() {
    printf '{"hosts":"all"%s,"tasks":[{"command":"true"}]}' "${1:+,$1}"
}

# many COUNT: so many hosts, h10 and on.
many() {
    python3 -c 'import json, sys; print(json.dumps({f"h{10 + number}": {} for number in range(int(sys.argv[1]))}))' "$1"
}

groups 'two racks in a region: the group that forces the number of batches is marked' 0 "$racks" "[$(play)]" 'plan batches=3 bound=group r1 waiting=3 room=1
batch 1: a d
batch 2: b e
batch 3: c
      now   1   2   3
eu  3 0/3 2/3 2/3 1/3
r1* 1 0/1 1/1 1/1 1/1
r2  2 0/2 1/2 1/2 0/2'

groups 'the same of its course' 0 "$racks" "[$(play)]" 'boundary 1: plan batches=3 bound=group r1 waiting=3 room=1
open: a d
boundary 2: plan batches=2 bound=group r1 waiting=2 room=1
open: b e
boundary 3: plan batches=1 bound=group eu waiting=1 room=3
open: c
boundary 4: plan batches=0 bound=nothing
end finished
      now   1   2   3
eu  3 0/3 2/3 2/3 1/3
r1* 1 0/1 1/1 1/1 1/1
r2  2 0/2 1/2 1/2 0/2
batches=3' --forecast

red=$(printf '\033[1;31m')
bare=$(printf '\033[0m')
groups 'full groups in bold red, where that is asked for' 0 "$racks" "[$(play)]" "plan batches=3 bound=group r1 waiting=3 room=1
batch 1: a d
batch 2: b e
batch 3: c
      now   1   2   3
eu  3 0/3 2/3 2/3 1/3
r1* 1 0/1 ${red}1/1${bare} ${red}1/1${bare} ${red}1/1${bare}
r2  2 0/2 1/2 1/2 0/2" --color always

hollow='{"x":{"vars":{"max_down":0}},"y":{"vars":{"max_down":10},"hosts":{"a":{"down":true},"b":{}}}}'
groups 'a limit of nought is full, without hosts too; what colours it takes no column' 0 "$hollow" '[{"hosts":"b","tasks":[{"command":"true"}]}]' "plan batches=1 bound=group y waiting=1 room=9
batch 1: b
       now    1
x   0  ${red}0/0${bare}  ${red}0/0${bare}
y* 10 1/10 2/10
down: a" --color=always

NO_COLOR=1
export NO_COLOR
groups 'which goes over NO_COLOR' 0 "$hollow" '[{"hosts":"b","tasks":[{"command":"true"}]}]' "plan batches=1 bound=group y waiting=1 room=9
batch 1: b
       now    1
x   0  ${red}0/0${bare}  ${red}0/0${bare}
y* 10 1/10 2/10
down: a" --color=never --color always
unset NO_COLOR
for words in --color=auto --color=never; do
    groups "no colour where standard output is no terminal, $words" 0 "$hollow" '[{"hosts":"b","tasks":[{"command":"true"}]}]' 'plan batches=1 bound=group y waiting=1 room=9
batch 1: b
       now    1
x   0  0/0  0/0
y* 10 1/10 2/10
down: a' "$words"
done

sixty='{"all":{"vars":{"max_down":"60%"},"hosts":{"h0":{},"h1":{},"h2":{},"h3":{},"h4":{},"h5":{},"h6":{},"h7":{},"h8":{},"h9":{}}}}'
groups 'a limit in percent, and a list of sizes: each batch has the size that is in force for it' 0 "$sixty" "[$(play '"serial":[1,"20%","50%"]')]" 'boundary 1: plan batches=10 bound=serial waiting=10 size=1
open: h0
boundary 2: plan batches=5 bound=serial waiting=9 size=2
open: h1 h6
boundary 3: plan batches=2 bound=group all waiting=7 room=6
open: h2 h4 h7 h9
boundary 4: plan batches=1 bound=group all waiting=3 room=6
open: h3 h5 h8
boundary 5: plan batches=0 bound=nothing
end finished
      now   1   2   3   4
all 6 0/6 1/6 2/6 4/6 3/6
batches=4' --forecast

groups 'a plan has the first size throughout; where no group forces the number none is marked' 0 "$sixty" "[$(play '"serial":[5,1]')]" 'plan batches=2 bound=group all waiting=10 room=6
batch 1: h0 h2 h4 h6 h8
batch 2: h1 h3 h5 h7 h9
       now   1   2
all* 6 0/6 5/6 5/6'
groups 'no group is marked where the size forces the number' 0 "$sixty" "[$(play '"serial":4')]" 'plan batches=3 bound=serial waiting=10 size=4
batch 1: h0 h3 h6 h9
batch 2: h1 h4 h7
batch 3: h2 h5 h8
      now   1   2   3
all 6 0/6 4/6 3/6 3/6'

down='{"all":{"children":{"eu":{"vars":{"max_down":3},"children":{"r1":{"vars":{"max_down":1},"hosts":{"a":{"down":true},"b":{},"c":{}}},"r2":{"vars":{"max_down":2},"hosts":{"d":{},"e":{}}}}}}}}'
groups 'who is down at the start counts in each column; who is set aside is told with the group that holds him' 3 "$down" "[$(play '"on_blocked":"hold"')]" 'plan batches=1 bound=group eu waiting=2 room=2
batch 1: d e
held: b c
      now   1
eu* 3 1/3 3/3
r1  1 1/1 1/1
r2  2 0/2 2/2
down: a
held b: r1
held c: r1'
groups 'a blocked plan has no batch' 3 "$down" "[$(play)]" 'blocked group=r1 waiting=2
     now
eu 3 1/3
r1 1 1/1
r2 2 0/2
down: a'

within='{"all":{"children":{"eu":{"vars":{"max_down":1},"children":{"r1":{"vars":{"max_down":1},"hosts":{"a":{"down":true},"b":{}}}}}}}}'
groups 'of several groups without room the outermost is told' 3 "$within" "[$(play '"on_blocked":"hold"')]" 'plan batches=0 bound=nothing
held: b
     now
eu 1 1/1
r1 1 1/1
down: a
held b: eu'

groups 'who is set aside on the way is told too, and a failed host counts behind its batch' 3 "$racks" "[$(play '"on_blocked":"hold"')]" 'boundary 1: plan batches=3 bound=group r1 waiting=3 room=1
open: a d
boundary 2: plan batches=1 bound=group eu waiting=1 room=2
held: b c
open: e
boundary 3: plan batches=0 bound=nothing
end held
      now   1   2
eu  3 0/3 2/3 2/3
r1* 1 0/1 1/1 1/1
r2  2 0/2 1/2 1/2
held b: r1
held c: r1
batches=2' --forecast --failing a

groups 'a course that is blocked from the start' 3 "$down" "[$(play)]" 'boundary 1: blocked group=r1 waiting=2
end blocked group=r1
     now
eu 3 1/3
r1 1 1/1
r2 2 0/2
down: a
batches=0' --forecast

two='{"all":{"children":{"g":{"vars":{"max_down":2},"hosts":{"a":{},"b":{},"c":{}}}}}}'
groups 'each play has a table, and who failed in an earlier one is down at its beginning' 2 "$two" "[$(play),$(play)]" 'play 1
boundary 1: plan batches=2 bound=group g waiting=3 room=2
open: a c
boundary 2: plan batches=1 bound=group g waiting=1 room=1
open: b
boundary 3: plan batches=0 bound=nothing
end finished
     now   1   2
g* 2 0/2 2/2 2/2
play 2
boundary 1: plan batches=2 bound=group g waiting=2 room=1
open: b
boundary 2: plan batches=1 bound=group g waiting=1 room=1
open: c
boundary 3: plan batches=0 bound=nothing
end finished
     now   1   2
g* 2 1/2 2/2 2/2
down: a
batches=4' --failing a --forecast

groups 'no play has a table that would not be begun' 4 "$two" "[$(play '"serial":1'),$(play)]" 'play 1
boundary 1: plan batches=3 bound=serial waiting=3 size=1
open: a
boundary 2: plan batches=2 bound=group g waiting=2 room=1
end all-failed
    now   1
g 2 0/2 1/2
batches=1' --forecast --failing a

groups 'the widest cell, limit and name decide' 0 '{"all":{"children":{"big":{"vars":{"max_down":10},"hosts":{"a0":{},"a1":{},"a2":{},"a3":{},"a4":{},"a5":{},"a6":{},"a7":{},"a8":{},"a9":{}}},"s":{"vars":{"max_down":2},"hosts":{"b0":{},"b1":{}}}}}}' "[$(play)]" 'plan batches=1 bound=group big waiting=10 room=10
batch 1: a0 a1 a2 a3 a4 a5 a6 a7 a8 a9 b0 b1
          now     1
big* 10  0/10 10/10
s     2   0/2   2/2'

groups 'an empty fleet has no group' 0 '{}' "[$(play)]" 'plan batches=0 bound=nothing
no limited group'
groups 'a group without hosts' 0 '{"all":{"vars":{"max_down":1}}}' "[$(play)]" 'plan batches=0 bound=nothing
      now
all 1 0/1'
groups 'who is down is told where no group is limited' 0 '{"all":{"hosts":{"a":{"down":true},"b":{}}}}' "[$(play)]" 'plan batches=1 bound=one-host
batch 1: b
no limited group
down: a'
groups 'nor is there one in the course' 0 '{"all":{"hosts":{"a":{"down":true},"b":{}}}}' "[$(play)]" 'boundary 1: plan batches=1 bound=one-host
open: b
boundary 2: plan batches=0 bound=nothing
end finished
no limited group
down: a
batches=1' --forecast

# tabled WHAT STATUS INVENTORY PLAYBOOK TEXT: the lines below those of the plan are these.
tabled() {
    printf '%s' "$3" >"$work/inventory.json"
    printf '%s' "$4" >"$work/playbook.json"
    run plan "$work/inventory.json" "$work/playbook.json" --groups
    grep -v '^plan \|^batch ' "$work/out" >"$work/table"
    mv "$work/table" "$work/out"
    check "$1" "$2" "$5$newline" ''
}

tabled 'a line has 100 characters at most, and the rest stands in a second block' 0 "{\"all\":{\"children\":{\"racks\":{\"vars\":{\"max_down\":1},\"hosts\":$(many 25)}}}}" "[$(play)]" '         now   1   2   3   4   5   6   7   8   9  10  11  12  13  14  15  16  17  18  19  20  21  22
racks* 1 0/1 1/1 1/1 1/1 1/1 1/1 1/1 1/1 1/1 1/1 1/1 1/1 1/1 1/1 1/1 1/1 1/1 1/1 1/1 1/1 1/1 1/1 1/1
          23  24  25
racks* 1 1/1 1/1 1/1'
tabled 'with a name of one letter more one column fewer fits' 0 "{\"all\":{\"children\":{\"racks1\":{\"vars\":{\"max_down\":1},\"hosts\":$(many 25)}}}}" "[$(play)]" '          now   1   2   3   4   5   6   7   8   9  10  11  12  13  14  15  16  17  18  19  20  21
racks1* 1 0/1 1/1 1/1 1/1 1/1 1/1 1/1 1/1 1/1 1/1 1/1 1/1 1/1 1/1 1/1 1/1 1/1 1/1 1/1 1/1 1/1 1/1
           22  23  24  25
racks1* 1 1/1 1/1 1/1 1/1'
tabled 'a last block that is full' 0 "{\"all\":{\"children\":{\"racks\":{\"vars\":{\"max_down\":1},\"hosts\":$(many 22)}}}}" "[$(play)]" '         now   1   2   3   4   5   6   7   8   9  10  11  12  13  14  15  16  17  18  19  20  21  22
racks* 1 0/1 1/1 1/1 1/1 1/1 1/1 1/1 1/1 1/1 1/1 1/1 1/1 1/1 1/1 1/1 1/1 1/1 1/1 1/1 1/1 1/1 1/1 1/1'
long=ggggggggggggggggggggggggggggggggggggggggggggggggggggggggggggggggggggggggggggggggggggggggggggggggggggg
blank='                                                                                                       '
tabled 'where no column fits one stands in each block' 0 "{\"all\":{\"children\":{\"$long\":{\"vars\":{\"max_down\":1},\"hosts\":{\"a\":{}}}}}}" "[$(play)]" "$blank  now
$long* 1 0/1
$blank    1
$long* 1 1/1"

# The words: the option may stand anywhere, and goes with a plan alone.
printf '%s' "$two" >"$work/inventory.json"
printf '[%s]' "$(play)" >"$work/playbook.json"
all='plan batches=2 bound=group g waiting=3 room=2
batch 1: a c
batch 2: b
     now   1   2
g* 2 0/2 2/2 1/2
'
run plan --groups "$work/inventory.json" --groups "$work/playbook.json"
check 'the option before the files, and twice' 0 "$all" ''
run plan "$work/inventory.json" --groups "$work/playbook.json" -v
check 'beside -v' 0 "$all" ''
printf '%s' "$down" >"$work/down.json"
run plan --groups "$work/down.json" "$work/playbook.json" -v
check 'who is left out is told beside it' 3 'blocked group=r1 waiting=2
     now
eu 3 1/3
r1 1 1/1
r2 2 0/2
down: a
' 'note: a is down and stays down: 1 host of the play is left out
'
bad() {
    what=$1
    shift
    run "$@"
    if [ "$status" -eq 1 ] && [ ! -s "$work/out" ] && [ "$(head -n 1 "$work/errors")" = 'rollout: 901 BadLine' ]; then pass; else fail "$what: status $status"; fi
}
bad 'groups of a run' run "$work/inventory.json" "$work/playbook.json" --groups
bad 'groups of a rehearsal' rehearse "$work/inventory.json" "$work/playbook.json" --groups
bad 'groups of the limits' limits "$work/inventory.json" --groups
bad 'groups of one file' plan "$work/inventory.json" --groups
bad 'a value' plan "$work/inventory.json" "$work/playbook.json" --groups=g
bad 'behind the word that ends options' plan "$work/inventory.json" "$work/playbook.json" -- --groups
bad 'colours at another time' plan "$work/inventory.json" "$work/playbook.json" --groups --color=red
bad 'colours without a time' plan "$work/inventory.json" "$work/playbook.json" --groups --color
bad 'colours at an empty time' plan "$work/inventory.json" "$work/playbook.json" --groups --color=
bad 'colours of a rehearsal' rehearse "$work/inventory.json" "$work/playbook.json" --color=never
bad 'names without a course' plan "$work/inventory.json" "$work/playbook.json" --groups --failing a
bad 'the option as the name that fails' plan "$work/inventory.json" "$work/playbook.json" --forecast --failing

# refused WHAT LINE WORD..: this fault is told, and nothing is printed.
refused() {
    what=$1
    line=$2
    shift 2
    run "$@"
    check "$what" 1 '' "$line$newline"
}
printf '[{"hosts":"z","tasks":[{"command":"true"}]}]' >"$work/nobody.json"
refused 'a name in a pattern that nobody has' 'rollout: 304 NoSuchName name=z' plan "$work/inventory.json" "$work/nobody.json" --groups
refused 'a name that is to fail and that nobody has' 'rollout: 304 NoSuchName name=--groups' plan "$work/inventory.json" "$work/playbook.json" --forecast --failing --groups
printf '{"all":{"vars":{"max_down":0},"hosts":{"a":{"down":true}}}}' >"$work/over.json"
refused 'a group over its limit at the start' 'rollout: 302 StartOver group=all down=1 limit=0' plan "$work/over.json" "$work/playbook.json" --groups
refused 'a file that is not there' "rollout: 902 File name=$work/missing.json" plan "$work/inventory.json" "$work/missing.json" --groups

if [ -w /dev/full ]; then
    for words in '' --forecast; do
        # shellcheck disable=SC2086
        "$rollout" plan "$work/inventory.json" "$work/playbook.json" --groups $words >/dev/full 2>"$work/errors"
        status=$?
        : >"$work/out"
        check "an output that takes nothing $words" 1 '' "rollout: 904 Write written=0$newline"
    done
fi
finish
