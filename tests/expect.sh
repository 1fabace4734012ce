#!/bin/sh
# What is expected of the table of limits and of a plan, by `--expect`: worked lists. Drawn ones stand in tests/drawn.sh, beside the slow program. It needs crates/rollout/out/rollout.
. "$(dirname "$0")/common.sh"

printf '%s' "$racks" >"$work/inventory.json"
printf '[{"hosts":"all","tasks":[{"command":"true"}]}]' >"$work/playbook.json"
table='eu members=5 down=0 limit=3 room=3
r1 members=3 down=0 limit=1 room=1
r2 members=2 down=0 limit=2 room=2
hosts=5 limited=3
'
planned='plan batches=3 bound=group r1 waiting=3 room=1
batch 1: a d
batch 2: b e
batch 3: c
'

# met WHAT WORD..: the table meets what these words expect.
met() {
    what=$1
    shift
    run limits "$work/inventory.json" "$@"
    check "$what" 0 "$table" ''
}

# unmet WHAT DETAILS WORD..: the table is printed, and then the fault with these details.
unmet() {
    what=$1
    details=$2
    shift 2
    run limits "$work/inventory.json" "$@"
    check "$what" 1 "$table" "rollout: 907 Unexpected $details$newline"
}

# met_by WHAT WORD.., unmet_by WHAT DETAILS WORD..: the same of the plan.
met_by() {
    what=$1
    shift
    run plan "$work/inventory.json" "$work/playbook.json" "$@"
    check "$what" 0 "$planned" ''
}
unmet_by() {
    what=$1
    details=$2
    shift 2
    run plan "$work/inventory.json" "$work/playbook.json" "$@"
    check "$what" 1 "$planned" "rollout: 907 Unexpected $details$newline"
}

met 'the numbers of the last line, and limits of groups' --expect hosts=5,limited=3,eu=3,r1=1,r2=2
met 'at most' --expect 'hosts<=5,limited<=4,r1<=65535'
met 'colons, blanks round a part, empty parts, leading noughts' --expect " hosts=00005:	limited=3 ,,: r1<=001,
"
met 'the value behind a sign' --expect=hosts=5
met 'several lists' --expect hosts=5 --expect=limited=3 --expect eu=3
unmet 'another number' 'name=hosts expected=6 found=5' --expect hosts=6
unmet 'more than at most' 'name=limited most=2 found=3' --expect 'limited<=2'
unmet 'the first of several, in their order' 'name=r1 expected=2 found=1' --expect hosts=5,r1=2,eu=4
unmet 'of several lists too' 'name=r2 most=1 found=2' --expect hosts=5 --expect 'r2<=1' --expect hosts=6
unmet 'numbers as numbers' 'name=hosts expected=4 found=5' --expect hosts=0004
unmet 'a group that is not there' 'name=web expected=3 found=none' --expect web=3
unmet 'a group without a limit, at most' 'name=all most=65535 found=none' --expect 'all<=65535'
unmet 'a host' 'name=a expected=1 found=none' --expect a=1
unmet 'the number of batches is one of a plan' 'name=batches expected=3 found=none' --expect batches=3
unmet 'names are told apart by their letters' 'name=Hosts expected=5 found=none' --expect Hosts=5

met_by 'the number of batches' --expect batches=3
met_by 'at most so many' --expect 'batches<=3'
unmet_by 'another number of them' 'name=batches expected=2 found=3' --expect batches=2
unmet_by 'more than at most so many' 'name=batches most=2 found=3' --expect 'batches<=2,hosts=9'
unmet_by 'the number of hosts is one of the table' 'name=hosts expected=5 found=none' --expect hosts=5
unmet_by 'a limit too' 'name=r1 expected=1 found=none' --expect batches=3 --expect r1=1
run plan --expect batches=3 "$work/inventory.json" --expect 'batches<=3' "$work/playbook.json"
check 'the option anywhere' 0 "$planned" ''

# A limit in percent stands for its number, and groups of the names of the last line for none.
printf '{"hosts":{"vars":{"max_down":"50%%"},"hosts":{"a":null,"b":null,"c":null}},"limited":{"vars":{"max_down":7}},"r1":{"vars":{"max_down":"67%%"},"hosts":{"d":null,"e":{"down":true},"f":null}}}' >"$work/inventory.json"
table='hosts members=3 down=0 limit=1 room=1
limited members=0 down=0 limit=7 room=7
r1 members=3 down=1 limit=2 room=1
hosts=6 limited=3
'
met 'a percentage rounded down; groups of the names of the last line' --expect hosts=6,limited=3,r1=2
unmet 'the percentage itself is no number' 'name=r1 expected=67 found=2' --expect r1=67
unmet 'nor is the limit of a group of that name' 'name=limited expected=7 found=3' --expect limited=7
printf '{}' >"$work/inventory.json"
table='hosts=0 limited=0
'
met 'nothing at all' --expect hosts=0,limited=0
unmet 'all has no limit' 'name=all expected=0 found=none' --expect all=0

# Plans that leave hosts out: where they are as expected the status is what it is.
printf '{"g":{"vars":{"max_down":1},"hosts":{"a":{"down":true},"b":null}},"h":{"hosts":{"c":null}}}' >"$work/inventory.json"
printf '[{"hosts":"all","on_blocked":"hold","tasks":[{"command":"true"}]}]' >"$work/playbook.json"
planned='plan batches=1 bound=one-host
batch 1: c
held: b
'
run plan "$work/inventory.json" "$work/playbook.json" --expect batches=1
check 'hosts that are set aside' 3 "$planned" ''
unmet_by 'the status is 1 where it is not as expected' 'name=batches expected=2 found=1' --expect batches=2
printf '[{"hosts":"all","tasks":[{"command":"true"}]}]' >"$work/playbook.json"
planned='blocked group=g waiting=1
'
unmet_by 'a plan that is blocked has no number of batches' 'name=batches most=9 found=none' --expect 'batches<=9'

# unlisted WHAT LIST WORD..: the list that these words give is none, and that is told before any file is read.
unlisted() {
    what=$1
    list=$2
    shift 2
    for files in "limits $work/missing" "plan $work/missing $work/missing"; do
        # shellcheck disable=SC2086
        run $files "$@"
        check "$what, ${files%% *}" 1 '' "rollout: 909 BadList name=$list$newline"
    done
}
unlisted 'an empty list' '' --expect ''
unlisted 'an empty list behind a sign' '' --expect=
unlisted 'empty parts alone' ' , :' --expect ' , :'
unlisted 'a name alone' hosts --expect hosts
unlisted 'no number' hosts= --expect hosts=
unlisted 'no name' =3 --expect =3
unlisted 'no name before <=' '<=3' --expect '<=3'
unlisted 'less than' 'hosts<3' --expect 'hosts<3'
unlisted 'at least' 'hosts>=3' --expect 'hosts>=3'
unlisted 'two signs' 'hosts==3' --expect 'hosts==3'
unlisted 'two signs of at most' 'hosts<<=3' --expect 'hosts<<=3'
unlisted 'a blank before the sign' 'hosts =3' --expect 'hosts =3'
unlisted 'a blank behind it' 'hosts= 3' --expect 'hosts= 3'
unlisted 'a number that is too large' hosts=65536 --expect hosts=65536
unlisted 'a number of six digits' hosts=000003 --expect hosts=000003
unlisted 'a sign before the number' hosts=-1 --expect hosts=-1
unlisted 'a percentage' r1=50% --expect r1=50%
unlisted 'a name of other letters' 'a b=1' --expect 'a b=1'
unlisted 'letters beyond ASCII, shown as question marks' 'caf??=1' --expect 'café=1'
unlisted 'a bad part behind good ones' 'hosts=1,x' --expect hosts=1,x
unlisted 'several lists, joined' 'hosts=1,,x<1' --expect hosts=1 --expect '' --expect 'x<1'
run limits "$work/inventory.json" --expect hosts=3 --expect ''
check 'an empty list beside another one adds nothing' 0 "g members=2 down=1 limit=1 room=0
hosts=3 limited=1
" ''

# refused WHAT LINE WORD..: this fault is told, and nothing is printed.
refused() {
    what=$1
    line=$2
    shift 2
    run "$@"
    check "$what" 1 '' "$line$newline"
}
refused 'a file that is not there' "rollout: 902 File name=$work/missing" limits "$work/missing" --expect hosts=1
printf '{"all":[]}' >"$work/bad.json"
refused 'a fault of the inventory' 'rollout: 202 BadShape at=all' limits "$work/bad.json" --expect hosts=1
refused 'one of the playbook' 'rollout: 702 BadShape at=' plan "$work/inventory.json" "$work/inventory.json" --expect batches=9

bad() {
    what=$1
    shift
    run "$@"
    if [ "$status" -eq 1 ] && [ ! -s "$work/out" ] && [ "$(head -n 1 "$work/errors")" = 'rollout: 901 BadLine' ]; then pass; else fail "$what: status $status"; fi
}
bad 'an option without its list' limits "$work/inventory.json" --expect
bad 'without a command' --expect hosts=1
bad 'of a run' run "$work/inventory.json" "$work/playbook.json" --expect batches=1
bad 'of a rehearsal' rehearse "$work/inventory.json" "$work/playbook.json" --expect batches=1
bad 'of a state' state "$work/inventory.json" "$top/examples/killed.journal" --expect hosts=1
bad 'behind the word that ends options' limits "$work/inventory.json" -- --expect=hosts=1
for words in '--forecast' '--forecast --failing a' '--groups' "--picture $work/picture.svg" '--commands' "--from $top/examples/killed.journal"; do
    # shellcheck disable=SC2086
    bad "a plan beside $words" plan "$work/inventory.json" "$work/playbook.json" --expect batches=1 $words
done
bad 'a table beside a journal' limits "$work/inventory.json" --expect hosts=1 --from "$top/examples/killed.journal"
bad 'a bad list on a bad line' limits "$work/inventory.json" --expect hosts --from "$top/examples/killed.journal"
[ ! -e "$work/picture.svg" ] && pass || fail 'a picture is drawn by a bad line'

# Many numbers: more than any test draws.
printf '{"all":{"hosts":{"a":null}}}' >"$work/one.json"
run limits "$work/one.json" --expect "$(python3 -c 'print("hosts=1," * 2000 + "limited=1")')"
check 'the last of two thousand numbers' 1 "hosts=1 limited=0$newline" "rollout: 907 Unexpected name=limited expected=1 found=0$newline"

if [ -w /dev/full ]; then
    for list in hosts=3 hosts=9; do
        "$rollout" limits "$work/inventory.json" --expect $list >/dev/full 2>"$work/errors"
        status=$?
        : >"$work/out"
        check "an output that takes nothing, $list" 1 '' "rollout: 904 Write written=0$newline"
    done
fi
finish
