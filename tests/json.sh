#!/bin/sh
# What `--json` prints of limits, plans, courses, runs, rehearsals and faults: worked texts, whole; the same with `jq`, where that is; what goes out beside it; and drawn ones beside the slow program, each held
# against docs/rollout.schema.json. CASES says how many, 300 if it doesn't, and SEED which. It needs crates/rollout/out/rollout and Python.
. "$(dirname "$0")/common.sh"
quietly

inventory=$work/inventory.json
playbook=$work/playbook.json

# fits WHAT PART FILE: the file is one object, as that part of the schema says
fits() {
    if python3 "$top/tests/slow/schema.py" "$2" <"$3" >"$work/said"; then
        pass
    else
        fail "$1: $(cat "$work/said")"
    fi
}

# texts INVENTORY [PLAYBOOK]: the two files.
texts() {
    printf '%s' "$1" >"$inventory"
    printf '%s' "${2:-}" >"$playbook"
}

# told WHAT STATUS PART JSON WORD..: the line of words prints this, which is as the schema has it, and ends with this status
told() {
    what=$1
    ends=$2
    part=$3
    json=$4
    shift 4
    run "$@"
    check "$what" "$ends" "$json$newline" ''
    fits "$what" "$part" "$work/out"
}

# refused WHAT FAULT WORD..: the line of words is refused by this fault, and prints nothing
refused() {
    what=$1
    fault=$2
    shift 2
    run "$@"
    check "$what" 1 '' "{\"fault\":{$fault}}$newline"
    fits "$what" fault "$work/errors"
}

# play TASKS [KEYS]: a play of these steps for all hosts.
play() {
    printf '{"hosts":"all","tasks":[%s]%s}' "$1" "${2:+,$2}"
}

true='{"command":"true"}'
one='{"all":{"hosts":{"a":null}}}'
# Fails on these hosts.
on() {
    printf '{"command":{"argv":["sh","-c","case $1 in %s) exit 1 ;; esac","sh","{{ inventory_hostname }}"]}}' "$1"
}
host() {
    printf '{"host":"%s","ok":%s,"changed":%s,"failed":%s,"skipped":%s,"ignored":%s,"state":"%s"}' "$@"
}
nothing='{"answer":{"batches":0,"bound":{"kind":"nothing"}},"held":[],"open":null}'

# ---- limits

texts "$racks"
told 'the table of two racks' 0 limits '{"limits":[{"group":"eu","members":5,"down":0,"limit":3,"room":3},{"group":"r1","members":3,"down":0,"limit":1,"room":1},{"group":"r2","members":2,"down":0,"limit":2,"room":2}],"hosts":5,"limited":3}' limits "$inventory" --json
told 'the option before the file' 0 limits "$(cat "$work/out")" limits --json "$inventory"
told 'twice' 0 limits "$(cat "$work/out")" limits --json "$inventory" --json
texts '{}'
told 'nothing at all' 0 limits '{"limits":[],"hosts":0,"limited":0}' limits --json "$inventory"
texts '{"A.b-c_9":{"vars":{"max_down":"67%"},"hosts":{"a":{"down":true},"b":null,"c":null}},"empty":{"vars":{"max_down":65535}}}'
told 'limits in percent, and groups without hosts' 0 limits '{"limits":[{"group":"A.b-c_9","members":3,"down":1,"limit":2,"room":1},{"group":"empty","members":0,"down":0,"limit":65535,"room":65535}],"hosts":3,"limited":2}' limits --json "$inventory"

# ---- plan

texts "$racks" "[$(play "$true")]"
told 'the plan of two racks' 0 plan '{"answer":{"batches":3,"bound":{"kind":"group","group":"r1","waiting":3,"room":1}},"batches":[["a","d"],["b","e"],["c"]],"held":[]}' plan "$inventory" "$playbook" --json
texts "$racks" "[$(play "$true" '"serial":1')]"
told 'by its serial' 0 plan '{"answer":{"batches":5,"bound":{"kind":"serial","waiting":5,"size":1}},"batches":[["a"],["b"],["c"],["d"],["e"]],"held":[]}' plan --json "$inventory" "$playbook"
texts "$one" "[$(play "$true")]"
told 'one host' 0 plan '{"answer":{"batches":1,"bound":{"kind":"one-host"}},"batches":[["a"]],"held":[]}' plan "$inventory" --json "$playbook"
texts '{"all":{"hosts":{"a":{"down":true}}}}' "[$(play "$true")]"
told 'nobody waits' 0 plan '{"answer":{"batches":0,"bound":{"kind":"nothing"}},"batches":[],"held":[]}' plan "$inventory" "$playbook" --json
full='{"r1":{"vars":{"max_down":1},"hosts":{"a":{"down":true},"b":null,"c":null}},"r2":{"hosts":{"d":null}}}'
texts "$full" "[$(play "$true")]"
told 'a group without room' 3 plan '{"answer":{"blocked":{"group":"r1","waiting":2}},"batches":[],"held":[]}' plan "$inventory" "$playbook" --json
told 'the course of it' 3 forecast '{"plays":[{"play":1,"boundaries":[{"answer":{"blocked":{"group":"r1","waiting":2}},"held":[],"open":null}],"end":{"kind":"blocked","group":"r1"}}],"batches":0}' plan "$inventory" "$playbook" --json --forecast
told 'the run of it' 3 recap "{\"plays\":[{\"play\":1,\"boundaries\":[{\"answer\":{\"blocked\":{\"group\":\"r1\",\"waiting\":2}},\"held\":[],\"open\":null}],\"hosts\":[$(host a 0 0 0 0 0 off),$(host b 0 0 0 0 0 waiting),$(host c 0 0 0 0 0 waiting),$(host d 0 0 0 0 0 waiting)],\"end\":{\"kind\":\"blocked\",\"group\":\"r1\"}}]}" run "$inventory" "$playbook" --json
texts "$full" "[$(play "$true" '"on_blocked":"hold"')]"
told 'hosts that are set aside' 3 plan '{"answer":{"batches":1,"bound":{"kind":"one-host"}},"batches":[["d"]],"held":["b","c"]}' plan "$inventory" "$playbook" --json

# ---- plan --forecast, and runs

held='{"answer":{"batches":1,"bound":{"kind":"one-host"}},"held":["b","c"],"open":["d"]}'
told 'the course that sets them aside' 3 forecast "{\"plays\":[{\"play\":1,\"boundaries\":[$held,$nothing],\"end\":{\"kind\":\"held\"}}],\"batches\":1}" plan --forecast --json "$inventory" "$playbook"
told 'the run' 3 recap "{\"plays\":[{\"play\":1,\"boundaries\":[$held,$nothing],\"hosts\":[$(host a 0 0 0 0 0 off),$(host b 0 0 0 0 0 held),$(host c 0 0 0 0 0 held),$(host d 1 1 0 0 0 updated)],\"end\":{\"kind\":\"held\"}}]}" run --json "$inventory" "$playbook"

texts "$racks" "[$(play "$(on 'b')")]"
first='{"answer":{"batches":3,"bound":{"kind":"group","group":"r1","waiting":3,"room":1}},"held":[],"open":["a","d"]}'
second='{"answer":{"batches":2,"bound":{"kind":"group","group":"r1","waiting":2,"room":1}},"held":[],"open":["b","e"]}'
stuck='{"answer":{"blocked":{"group":"r1","waiting":1}},"held":[],"open":null}'
told 'a course in which a host fails' 3 forecast "{\"plays\":[{\"play\":1,\"boundaries\":[$first,$second,$stuck],\"end\":{\"kind\":\"blocked\",\"group\":\"r1\"}}],\"batches\":2}" plan --forecast --failing b "$inventory" "$playbook" --json
halfway="{\"plays\":[{\"play\":1,\"boundaries\":[$first,$second,$stuck],\"hosts\":[$(host a 1 1 0 0 0 updated),$(host b 0 0 1 0 0 failed),$(host c 0 0 0 0 0 waiting),$(host d 1 1 0 0 0 updated),$(host e 1 1 0 0 0 updated)],\"end\":{\"kind\":\"blocked\",\"group\":\"r1\"}}]}"
for forks in 1 2 64; do
    told "a run in which it does, at $forks forks" 3 recap "$halfway" run "$inventory" "$playbook" --json --forks $forks
done

four='{"all":{"hosts":{"a":null,"b":null,"c":null,"d":null}}}'
texts "$four" "[$(play "{\"command\":\"false\",\"ignore_errors\":true},$true,{\"command\":\"true\",\"when\":false},$(on 'a|b')" '"serial":3,"max_fail_percentage":40')]"
told 'too many failed' 4 recap "{\"plays\":[{\"play\":1,\"boundaries\":[{\"answer\":{\"batches\":2,\"bound\":{\"kind\":\"serial\",\"waiting\":4,\"size\":3}},\"held\":[],\"open\":[\"a\",\"c\"]},{\"answer\":{\"batches\":1,\"bound\":{\"kind\":\"serial\",\"waiting\":2,\"size\":3}},\"held\":[],\"open\":null}],\"hosts\":[$(host a 2 2 1 1 1 failed),$(host b 0 0 0 0 0 waiting),$(host c 3 3 0 1 1 halted),$(host d 0 0 0 0 0 waiting)],\"end\":{\"kind\":\"too-many-failed\",\"step\":4,\"failed\":1,\"size\":2}}]}" run "$inventory" "$playbook" --json
told 'its course' 4 forecast '{"plays":[{"play":1,"boundaries":[{"answer":{"batches":2,"bound":{"kind":"serial","waiting":4,"size":3}},"held":[],"open":["a","c"]},{"answer":{"batches":1,"bound":{"kind":"serial","waiting":2,"size":3}},"held":[],"open":null}],"end":{"kind":"too-many-failed","step":1,"failed":1,"size":2}}],"batches":1}' plan "$inventory" "$playbook" --json --forecast --failing=a,b
texts "$one" "[$(play '{"command":"false"}'),$(play "$true")]"
opened='{"answer":{"batches":1,"bound":{"kind":"one-host"}},"held":[],"open":["a"]}'
told 'all failed, and a second play that does not begin' 4 recap "{\"plays\":[{\"play\":1,\"boundaries\":[$opened,$nothing],\"hosts\":[$(host a 0 0 1 0 0 failed)],\"end\":{\"kind\":\"all-failed\"}}]}" run "$inventory" "$playbook" --json
texts '{"g":{"hosts":{"a":null}},"all":{"hosts":{"b":null,"c":{"down":true}}}}' "[{\"hosts\":\"g\",\"tasks\":[$true]},$(play "$(on b),$true" '"serial":1')]"
one_by_one='{"answer":{"batches":2,"bound":{"kind":"serial","waiting":2,"size":1}},"held":[],"open":["a"]},{"answer":{"batches":1,"bound":{"kind":"serial","waiting":1,"size":1}},"held":[],"open":["b"]}'
told 'the course of two plays' 0 forecast "{\"plays\":[{\"play\":1,\"boundaries\":[$opened,$nothing],\"end\":{\"kind\":\"finished\"}},{\"play\":2,\"boundaries\":[$one_by_one,$nothing],\"end\":{\"kind\":\"finished\"}}],\"batches\":3}" plan "$inventory" "$playbook" --forecast --json
two_plays="{\"plays\":[{\"play\":1,\"boundaries\":[$opened,$nothing],\"hosts\":[$(host a 1 1 0 0 0 updated),$(host c 0 0 0 0 0 off)],\"end\":{\"kind\":\"finished\"}},{\"play\":2,\"boundaries\":[$one_by_one,$nothing],\"hosts\":[$(host a 2 2 0 0 0 updated),$(host b 0 0 1 0 0 failed),$(host c 0 0 0 0 0 off)],\"end\":{\"kind\":\"all-failed\"}}]}"
told 'a run of two plays; who is idle is left out' 4 recap "$two_plays" run "$inventory" "$playbook" --json
told 'the plan is that of the first' 0 plan '{"answer":{"batches":1,"bound":{"kind":"one-host"}},"batches":[["a"]],"held":[]}' plan "$inventory" "$playbook" --json

# ---- a run that is kept, and one that goes on

told 'a run that is kept' 4 recap "$two_plays" run "$inventory" "$playbook" --json --journal "$work/journal"
run run "$inventory" "$playbook" --journal "$work/plain"
cmp -s "$work/journal" "$work/plain" && pass || fail 'its journal is another one than without --json'
told 'it goes on with its second play, where nobody waits any more' 2 recap "{\"plays\":[{\"play\":2,\"boundaries\":[$nothing],\"hosts\":[$(host a 0 0 0 0 0 updated),$(host b 0 0 0 0 0 failed),$(host c 0 0 0 0 0 off)],\"end\":{\"kind\":\"finished\"}}]}" run "$inventory" "$playbook" --json --resume "$work/journal"
# A run on two racks that was killed while a program ran on web2, which is mended.
for journal in killed again; do
    cp "$top/examples/killed.journal" "$work/$journal"
done
run run "$top/examples/two-racks.json" "$top/examples/roll-anywhere.json" --resume "$work/killed" --up web2
rest='{"answer":{"batches":2,"bound":{"kind":"group","group":"web","waiting":2,"room":1}},"held":["web4"],"open":["web2"]},{"answer":{"batches":0,"bound":{"kind":"nothing"}},"held":["web3"],"open":null}'
told 'a run that was killed goes on' 4 recap "{\"plays\":[{\"play\":1,\"boundaries\":[$rest],\"hosts\":[$(host web1 0 0 0 0 0 updated),$(host web2 1 1 1 0 0 failed),$(host web3 0 0 0 0 0 held),$(host web4 0 0 0 0 0 held),$(host web5 0 0 0 0 0 off)],\"end\":{\"kind\":\"all-failed\"}}]}" run "$top/examples/two-racks.json" "$top/examples/roll-anywhere.json" --resume "$work/again" --up web2 --json
cmp -s "$work/killed" "$work/again" && pass || fail 'it leaves another journal than without --json'
texts '{"all":{"hosts":{"a":{"down":true}}}}' "[$(play "$true")]"
told 'a host that is up though the inventory has it as down' 0 recap "{\"plays\":[{\"play\":1,\"boundaries\":[$opened,$nothing],\"hosts\":[$(host a 1 1 0 0 0 updated)],\"end\":{\"kind\":\"finished\"}}]}" run "$inventory" --json "$playbook" --up a

# ---- what stands beside it

# beside WHAT WORD..: with --json each line of standard error is an event, and the status is that without it
beside() {
    what=$1
    shift
    run "$@"
    plain=$status
    run "$@" --json
    if [ "$status" -eq "$plain" ] && [ -s "$work/errors" ] && ! grep -qv '^{"event":".*}$' "$work/errors"; then
        pass
    else
        fail "$what: status $status, without --json $plain"
        head -n 5 "$work/errors"
    fi
}
texts '{"all":{"hosts":{"a":null,"b":{"down":true},"c":null}}}' "[$(play "$(on c)")]"
beside 'what a run tells of itself' run "$inventory" "$playbook" -v --forks 1
fits 'the recap of a run that tells of itself' recap "$work/out"
beside 'who is left out of a plan' plan "$inventory" "$playbook" -v
fits 'its plan' plan "$work/out"
told 'colours change nothing' 0 plan '{"answer":{"batches":1,"bound":{"kind":"one-host"}},"batches":[["a","c"]],"held":[]}' plan "$inventory" "$playbook" --json --color always
(cd "$work" && "$rollout" run "$inventory" "$playbook" --journal --json >"$work/out" 2>"$work/errors")
[ -e "$work/--json" ] && grep -q '^end finished$' "$work/out" && pass || fail 'a journal of that name'
(cd "$work" && "$rollout" limits -- --json >"$work/out" 2>"$work/errors")
status=$?
check 'behind the word that ends options it is a file' 1 '' "rollout: 201 NotJson$newline"

# ---- faults

refused 'a file that is not there' "\"number\":902,\"kind\":\"File\",\"name\":\"$work/missing\"" limits --json "$work/missing"
refused 'of a plan too' "\"number\":902,\"kind\":\"File\",\"name\":\"$work/missing\"" plan --json "$inventory" "$work/missing"
(cd "$work" && "$rollout" run --json "$inventory" 'a"b\c é' >"$work/out" 2>"$work/errors")
status=$?
check 'quotes, backslashes and what is not printable' 1 '' '{"fault":{"number":902,"kind":"File","name":"a\"b\\c ??"}}'"$newline"
fits 'such a fault' fault "$work/errors"
head -c 16777217 /dev/zero >"$work/large"
refused 'a file that is too large' '"number":903,"kind":"InputTooLarge"' limits --json "$work/large"
rm "$work/large"

# of_inventory WHAT TEXT FAULT: the inventory is refused so, by each command.
of_inventory() {
    texts "$2" "[$(play "$true")]"
    refused "$1, of limits" "$3" limits --json "$inventory"
    refused "$1, of a plan" "$3" plan --json "$inventory" "$playbook"
    refused "$1, of a course" "$3" plan --forecast --json "$inventory" "$playbook"
    refused "$1, of a run" "$3" run --json "$inventory" "$playbook"
}
of_inventory 'a bad name' '{"a b\u0001é":null}' '"number":101,"kind":"BadName","name":"a b???"'
of_inventory 'a name in quotes' '{"all":{"hosts":{"\"\\":null}}}' '"number":101,"kind":"BadName","name":"\"\\"'
of_inventory 'a group twice' '{"eu":{"children":{"web":null}},"us":{"children":{"web":null}}}' '"number":102,"kind":"TwicePlaced","group":5'
of_inventory 'no JSON' '{"all":' '"number":201,"kind":"NotJson"'
of_inventory 'a bad shape' '{"web":{"hosts":["a"]}}' '"number":202,"kind":"BadShape","at":"web/hosts"'
of_inventory 'an empty path' '[]' '"number":202,"kind":"BadShape","at":""'
of_inventory 'an unknown key' '{"web":{"host\n":{}}}' '"number":203,"kind":"UnknownKey","at":"web/host?"'
of_inventory 'a bad limit' '{"web":{"vars":{"max_down":"x"}}}' '"number":204,"kind":"BadLimit","at":"web/vars/max_down"'
of_inventory 'a bad mark' '{"all":{"hosts":{"a":{"down":1}}}}' '"number":205,"kind":"BadDown","at":"all/hosts/a/down"'
of_inventory 'groups that cross' '{"p":{"vars":{"max_down":1},"hosts":{"x":null}},"q":{"vars":{"max_down":1},"hosts":{"x":null}}}' '"number":301,"kind":"NotNested","host":"x","first":"p","second":"q"'
of_inventory 'too many down' '{"g":{"vars":{"max_down":1},"hosts":{"a":{"down":true},"b":{"down":true}}}}' '"number":302,"kind":"StartOver","group":"g","down":2,"limit":1'

# of_playbook WHAT TEXT FAULT [WORD..]: the playbook is refused so, by each command that reads one.
of_playbook() {
    what=$1
    fault=$3
    texts "$one" "$2"
    shift 3
    refused "$what, of a plan" "$fault" plan --json "$inventory" "$playbook" "$@"
    refused "$what, of a course" "$fault" plan --json "$inventory" "$playbook" --forecast "$@"
    refused "$what, of a run" "$fault" run --json "$inventory" "$playbook" "$@"
}
of_playbook 'nobody of that name' '[{"hosts":"a:web","tasks":[{"command":"true"}]}]' '"number":304,"kind":"NoSuchName","name":"web"'
of_playbook 'a sign that means nothing' "[$(play '{"command":"true","when":"tier = 1"}')]" '"number":501,"kind":"BadToken","step":1,"key":"when","at":5'
of_playbook 'a condition that ends early, in a second play' "[$(play "$true"),$(play "$true,{\"command\":\"true\",\"failed_when\":\"r.rc == 3 and\"}")]" '"number":502,"kind":"Unexpected","play":2,"step":2,"key":"failed_when","at":13'
of_playbook 'too many brackets' "[$(play "{\"command\":\"true\",\"changed_when\":\"$(printf 'not %.0s' $(seq 33))true\"}")]" '"number":503,"kind":"TooDeep","step":1,"key":"changed_when","at":128'
of_playbook 'a long condition' "[$(play "{\"command\":\"true\",\"when\":\"$(printf '%4097s' true)\"}")]" '"number":504,"kind":"TooLong","step":1,"key":"when","at":4096'
of_playbook 'braces' "[$(play '{"command":"echo {{ a | b }}"}')]" '"number":602,"kind":"BadBraces","step":1'
of_playbook 'braces in a second play' "[$(play "$true"),$(play '{"command":"echo {%"}')]" '"number":602,"kind":"BadBraces","play":2,"step":1'
of_playbook 'no JSON' '- hosts: web' '"number":701,"kind":"NotJson"'
of_playbook 'a bad shape' "[$(play '{"command":"it'"'"'s"}')]" '"number":702,"kind":"BadShape","at":"0/tasks/0/command"'
of_playbook 'an unknown key' "[$(play '{"shell \"x\"":"true"}')]" '"number":703,"kind":"UnknownKey","at":"0/tasks/0/shell \"x\""'
of_playbook 'no such handler' "[$(play '{"command":"true","notify":"restart {{ \"é\" }}"}')]" '"number":704,"kind":"NoSuchHandler","name":"restart {{ \"??\" }}"'
of_playbook 'a handler twice' "[$(play "$true" '"handlers":[{"name":"h","command":"true"},{"name":"h","command":"true"}]')]" '"number":705,"kind":"TwiceHandler","name":"h"'
of_playbook 'a bad serial' "[$(play "$true" '"serial":[1,-1]')]" '"number":706,"kind":"BadSerial","at":"0/serial/1"'
of_playbook 'a bad percentage' "[$(play "$true" '"max_fail_percentage":150')]" '"number":707,"kind":"BadPercent","at":"0/max_fail_percentage"'
of_playbook 'many plays' "[null$(printf ',null%.0s' $(seq 16))]" '"number":708,"kind":"ManyPlays"'
of_playbook 'many steps' "[{\"hosts\":\"all\",\"tasks\":[null$(printf ',null%.0s' $(seq 256))]}]" '"number":709,"kind":"TooManySteps"'

# Of runs alone.
texts "$one" "[$(play "$true")]"
: >"$work/there"
refused 'a journal that is there' '"number":910,"kind":"JournalThere"' run --json "$inventory" "$playbook" --journal "$work/there"
refused 'a journal that is none' '"number":912,"kind":"BadJournal","line":1' run --json "$inventory" "$playbook" --resume "$playbook"
cp "$top/examples/two-plays.journal" "$work/two-plays"
refused 'a journal of another run' '"number":913,"kind":"OtherInputs"' run --json "$inventory" "$playbook" --resume "$work/two-plays"
refused 'a result that is gone' '"number":914,"kind":"NeedsResult","name":"release"' run --json "$top/examples/two-racks.json" "$top/examples/two-plays.json" --resume "$work/two-plays"
if "$rollout" help run | grep -q -e --strict; then
    texts "$one" "[$(play '{"command":"echo {{ x }}"}')]"
    refused 'a name without a value' '"number":915,"kind":"NoValue","step":1,"host":"a","name":"x"' run --json --strict "$inventory" "$playbook"
    texts "$one" "[$(play "$true"),$(play "$true,{\"command\":\"true\",\"when\":\"x\"}")]"
    refused 'one of a second play' '"number":915,"kind":"NoValue","play":2,"step":2,"host":"a","name":"x"' run --json --strict "$inventory" "$playbook"
    texts "$one" "[$(play "$true")]"
fi
refused 'nobody is mended by that name' '"number":304,"kind":"NoSuchName","name":"b"' run --json "$inventory" "$playbook" --up b
if command -v flock >/dev/null; then
    flock "$inventory" "$rollout" run --json "$inventory" "$playbook" >"$work/out" 2>"$work/errors"
    status=$?
    check 'another run holds the inventory' 1 '' '{"fault":{"number":918,"kind":"Locked"}}'"$newline"
fi
if env --ignore-signal=CHLD true 2>/dev/null; then
    env --ignore-signal=CHLD "$rollout" run --json "$inventory" "$playbook" >"$work/out" 2>"$work/errors"
    status=$?
    check 'SIGCHLD is ignored' 1 '' '{"fault":{"number":916,"kind":"ChildrenIgnored"}}'"$newline"
fi

# broken_off WHAT FAULT WORD..: the run ends by this fault, and its recap says so
broken_off() {
    what=$1
    fault=$2
    shift 2
    run run --json "$inventory" "$playbook" "$@"
    check "$what" 6 "{\"plays\":[{\"play\":1,\"boundaries\":[{\"answer\":{\"batches\":1,\"bound\":{\"kind\":\"one-host\"}},\"held\":[],\"open\":null}],\"hosts\":[$(host a 0 0 0 0 0 waiting)],\"end\":{\"kind\":\"fault\"}}]}$newline" "{\"fault\":{$fault}}$newline"
    fits "$what" recap "$work/out"
    fits "$what" fault "$work/errors"
}
broken_off 'a stop file' '"number":917,"kind":"Stopped"' --stop-file "$inventory"
broken_off 'a journal that can not be made' '"number":911,"kind":"JournalWrite"' --journal "$work/none/journal"

if [ -w /dev/full ]; then
    for words in "limits $inventory" "plan $inventory $playbook" "plan $inventory $playbook --forecast" "run $inventory $playbook"; do
        # shellcheck disable=SC2086
        "$rollout" $words --json >/dev/full 2>"$work/errors"
        status=$?
        : >"$work/out"
        check "an output that takes nothing: ${words%% *}" 1 '' '{"fault":{"number":904,"kind":"Write","written":0}}'"$newline"
        fits "an output that takes nothing: ${words%% *}" fault "$work/errors"
    done
fi
# A file that takes a part: exactly the first bytes went out, and so many are told.
python3 -c 'import json; print(json.dumps({f"g{number}": {"vars": {"max_down": 1}, "hosts": {f"h{number:040}": None}} for number in range(500)}))' >"$work/many.json"
texts "$one" "[$(play "$true")]"
for words in "limits $work/many.json" "plan $work/many.json $playbook" "plan $work/many.json $playbook --forecast"; do
    # shellcheck disable=SC2086
    "$rollout" $words --json >"$work/whole" 2>"$work/errors"
    (
        trap '' XFSZ
        ulimit -f 16
        # shellcheck disable=SC2086
        exec "$rollout" $words --json >"$work/part" 2>"$work/errors"
    )
    status=$?
    written=$(wc -c <"$work/part")
    : >"$work/out"
    check "a file that takes a part: $words" 1 '' "{\"fault\":{\"number\":904,\"kind\":\"Write\",\"written\":$written}}$newline"
    [ "$written" -gt 0 ] && [ "$written" -lt "$(wc -c <"$work/whole")" ] && head -c "$written" "$work/whole" | cmp -s - "$work/part" && pass || fail "other bytes went out: $words"
done
if proved 'want of memory'; then
    head -c 16000000 /dev/zero >"$work/large"
    (ulimit -v 12000 && exec "$rollout" limits --json "$work/large") >"$work/out" 2>"$work/errors"
    status=$?
    check 'want of memory' 5 '' '{"fault":{"number":null,"kind":"memory"}}'"$newline"
    fits 'want of memory' fault "$work/errors"
fi

# ---- rehearse

# session WHAT STATUS TYPED OBJECT..: what is typed is answered by these objects, each on a line of its own and as the schema has it; $words stands beside the files
words=
session() {
    what=$1
    ends=$2
    printf "$3" >"$work/typed"
    shift 3
    said=
    for object in "$@"; do
        said=$said$object$newline
        printf '%s\n' "$object" >"$work/reply"
        fits "$what" reply "$work/reply"
    done
    input=$work/typed
    # shellcheck disable=SC2086
    run rehearse "$inventory" "$playbook" --json $words
    input=/dev/null
    check "$what" "$ends" "$said" ''
}

# refusing NUMBER KIND [MEMBER]: what is answered to a line that is refused
refusing() {
    printf '{"reply":"refused","number":%s,"kind":"%s"%s}' "$1" "$2" "${3:+,$3}"
}
at() {
    printf '{"host":"%s","state":"%s"}' "$@"
}
in_batch() {
    printf '{"host":"%s","state":"%s","batch":%s}' "$@"
}
first='{"answer":{"batches":3,"bound":{"kind":"group","group":"r1","waiting":3,"room":1}},"batches":[["a","d"],["b","e"],["c"]]}'
all='{"reply":"advanced","batches":[["a","d"],["b","e"],["c"]]}'

texts "$racks" "[$(play "$true")]"
session 'nothing is typed' 0 ''
session 'lines without an answer' 0 '\n \t\r\nquit\nshow\n'
session 'the plan' 0 'plan' "{\"reply\":\"plan\",${first#\{}"
session 'a batch in which a host fails, and back' 0 'advance a\nshow\nplan\nnext 1\nfinish\nfail b\nadvance\nundo\nundo\n' \
    '{"reply":"advanced","batches":[["a","d"]]}' \
    "{\"reply\":\"show\",\"hosts\":[$(at a failed),$(at b waiting),$(at c waiting),$(at d updated),$(at e waiting)],\"end\":{\"kind\":\"blocked\",\"group\":\"r1\"}}" \
    '{"reply":"plan","answer":{"blocked":{"group":"r1","waiting":2}},"batches":[]}' \
    "$(refusing 832 Over)" "$(refusing 832 Over)" "$(refusing 832 Over)" "$(refusing 832 Over)" '{"reply":"undone"}' '{"reply":"nothing-to-undo"}'
session 'a marked host' 0 'show\nfail c\nfail c\nfinish\nshow\nhosts r1\nundo\nundo\nundo\n' \
    "{\"reply\":\"show\",\"hosts\":[$(at a waiting),$(at b waiting),$(at c waiting),$(at d waiting),$(at e waiting)],\"end\":null}" \
    '{"reply":"marked","host":"c"}' '{"reply":"marked","host":"c"}' "$all" \
    "{\"reply\":\"show\",\"hosts\":[$(at a updated),$(at b updated),$(at c failed),$(at d updated),$(at e updated)],\"end\":{\"kind\":\"all-failed\"}}" \
    "{\"reply\":\"hosts\",\"hosts\":[$(in_batch a updated null),$(in_batch b updated null),$(in_batch c failed null)]}" \
    '{"reply":"undone"}' '{"reply":"undone"}' '{"reply":"nothing-to-undo"}'
session 'batches one by one, and several at once' 0 'advance\nnext 65535\nshow' '{"reply":"advanced","batches":[["a","d"]]}' '{"reply":"advanced","batches":[["b","e"],["c"]]}' \
    "{\"reply\":\"show\",\"hosts\":[$(at a updated),$(at b updated),$(at c updated),$(at d updated),$(at e updated)],\"end\":{\"kind\":\"finished\"}}"
session 'the hosts of a group, and of one below it' 0 'hosts eu\nnext 1\nhosts r2\n' \
    "{\"reply\":\"hosts\",\"hosts\":[$(in_batch a waiting 1),$(in_batch b waiting 2),$(in_batch c waiting 3),$(in_batch d waiting 1),$(in_batch e waiting 2)]}" \
    '{"reply":"advanced","batches":[["a","d"]]}' "{\"reply\":\"hosts\",\"hosts\":[$(in_batch d updated null),$(in_batch e waiting 1)]}"
session 'lines that are refused' 0 'advance a e b\nadvance nobody e\nfail r1\nhosts a\nnext\nnext 0\nshow me\n advance\t\nfail a\nfail d\n' \
    "$(refusing 831 NotInBatch '"host":"e"')" "$(refusing 304 NoSuchName '"name":"nobody"')" "$(refusing 304 NoSuchName '"name":"r1"')" "$(refusing 304 NoSuchName '"name":"a"')" \
    "$(refusing 905 BadCommand)" "$(refusing 905 BadCommand)" "$(refusing 905 BadCommand)" '{"reply":"advanced","batches":[["a","d"]]}' \
    "$(refusing 833 NotWaiting '"host":"a"')" "$(refusing 833 NotWaiting '"host":"d"')"
session 'names that have to be escaped, byte by byte' 0 'fail "a"\nfail \\\nhosts caf\303\251\001\177~\nadvance a "\\\n' \
    "$(refusing 304 NoSuchName '"name":"\"a\""')" "$(refusing 304 NoSuchName '"name":"\\"')" "$(refusing 304 NoSuchName '"name":"caf????~"')" "$(refusing 304 NoSuchName '"name":"\"\\"')"
listed=$(
    while read -r command does; do
        printf '%s{"command":"%s","does":"%s"}' "${listed:+,}" "$(printf '%s' "$command" | tr _ ' ')" "$does"
        listed=yes
    done <<'COMMANDS'
advance_NAMES the next batch is over; these hosts failed in it (no names: none)
next_N the next N batches are over; just the marked hosts failed in them
finish the same of all batches, to the end of the play
fail_HOST mark a host, which then fails as soon as its batch is over
undo take the last of these back, whole
plan the plan of the hosts that still wait
show the state of each host, and the end of the play
hosts_GROUP the state of each host of a group, and its batch in the plan
help,_? this list
quit end the session
COMMANDS
)
session 'the commands' 0 'help\n?\n' "{\"reply\":\"help\",\"commands\":[$listed]}" "{\"reply\":\"help\",\"commands\":[$listed]}"
words=--strict
session 'where none is to be refused, and none is' 0 'finish\nundo\nundo\n' "$all" '{"reply":"undone"}' '{"reply":"nothing-to-undo"}'
session 'where none is to be refused, and one is' 1 'nonsense\nfinish\n' "$(refusing 905 BadCommand)" "$all"
words=
texts '{"all":{"hosts":{"a":{"down":true},"b":null,"c":null}},"g":{"hosts":{"b":null}}}' "[{\"hosts\":\"g\",\"tasks\":[$true]}]"
session 'who is down, and who has no part' 0 'show\nhosts all\n' "{\"reply\":\"show\",\"hosts\":[$(at a off),$(at b waiting)],\"end\":null}" \
    "{\"reply\":\"hosts\",\"hosts\":[$(in_batch a off null),$(in_batch b waiting 1),$(in_batch c idle null)]}"
texts '{}' "[$(play "$true")]"
session 'nobody at all' 0 'plan\nshow\nhosts all\nnext 1\n' '{"reply":"plan","answer":{"batches":0,"bound":{"kind":"nothing"}},"batches":[]}' '{"reply":"show","hosts":[],"end":{"kind":"finished"}}' \
    '{"reply":"hosts","hosts":[]}' "$(refusing 832 Over)"
# A fault that ends a session stands behind the answers to the lines before.
texts "$one" "[$(play "$true")]"
{
    printf 'finish\n'
    head -c 65537 /dev/zero | tr '\0' x
} >"$work/typed"
input=$work/typed
run rehearse --json "$inventory" "$playbook"
input=/dev/null
check 'a line that is too long' 1 '{"reply":"advanced","batches":[["a"]]}'"$newline" '{"fault":{"number":906,"kind":"LongLine"}}'"$newline"
fits 'a line that is too long' fault "$work/errors"
texts "$one" '{'
refused 'a playbook that is none' '"number":701,"kind":"NotJson"' rehearse "$inventory" "$playbook" --json
if [ -e /dev/full ]; then
    printf 'help\n' | "$rollout" rehearse --json "$top/examples/two-racks.json" "$top/examples/restart-web.json" >/dev/full 2>"$work/errors"
    status=$?
    : >"$work/out"
    check 'answers that can not be written' 1 '' '{"fault":{"number":904,"kind":"Write","written":0}}'"$newline"
fi

# ---- where it doesn't stand

# A bad line is told in plain words: nobody knows in which form it was to be.
bad() {
    what=$1
    shift
    run "$@"
    if [ "$status" -eq 1 ] && [ ! -s "$work/out" ] && [ "$(head -n 1 "$work/errors")" = 'rollout: 901 BadLine' ]; then pass; else fail "$what: status $status, $(head -n 1 "$work/errors")"; fi
}
bad 'without a command' --json
bad 'with a value' limits --json=yes "$inventory"
bad 'of a state' state "$inventory" "$work/journal" --json
bad 'of a check' check "$inventory" "$playbook" "$playbook" --json
bad 'of notes' lint "$inventory" --json
bad 'of an explanation' explain 101 --json
bad 'beside an option that is none' limits "$inventory" --json --nothing
bad 'without a file' limits --json
for words in --groups '--forecast --groups' --commands "--picture $work/picture.svg" '--expect batches=1' "--from $top/examples/killed.journal"; do
    # shellcheck disable=SC2086
    bad "a plan beside $words" plan "$inventory" "$playbook" --json $words
done
for words in '--expect hosts=1' "--from $top/examples/killed.journal"; do
    # shellcheck disable=SC2086
    bad "a table beside $words" limits "$inventory" $words --json
done
bad 'a rehearsal that begins from a journal' rehearse "$inventory" "$playbook" --json --from "$top/examples/killed.journal"
[ ! -e "$work/picture.svg" ] && pass || fail 'a picture is drawn by a bad line'

# ---- read by others

if command -v jq >/dev/null; then
    # asked WHAT ANSWER FILTER WORD..: of what the line of words prints, jq finds this
    asked() {
        what=$1
        wanted=$2
        filter=$3
        shift 3
        found=$("$rollout" "$@" --json 2>"$work/errors" | jq -r "$filter")
        [ "$found" = "$wanted" ] && pass || fail "$what: $found"
    }
    fleet="$top/examples/two-racks.json"
    asked 'jq finds groups without room' rack2 '.limits[] | select(.room == 0).group' limits "$fleet"
    asked 'jq finds a batch' 'web2' '.batches[1][]' plan "$fleet" "$top/examples/restart-web.json"
    asked 'jq finds who failed' web2 '.plays[].hosts[] | select(.state == "failed").host' run "$fleet" "$top/examples/roll-anywhere.json"
    asked 'jq counts what is opened' 3 '[.plays[].boundaries[].open | select(.)] | length' plan "$fleet" "$top/examples/restart-web.json" --forecast
    PAGES=docs/JSON.md counting bash "$top/tests/readme.sh" jq
    "$rollout" limits --json "$top/examples/crossing-racks.json" 2>&1 | jq -e '.fault.number == 301' >/dev/null && pass || fail 'jq reads a fault'
else
    echo 'left out: no jq'
fi
# Where a reader of JSON Schema is, it finds the schema in order.
if python3 -c 'import jsonschema' 2>/dev/null; then
    python3 -c 'import json, jsonschema, sys; jsonschema.Draft202012Validator.check_schema(json.load(open(sys.argv[1])))' "$top/docs/rollout.schema.json" 2>"$work/said" && pass || fail "the schema: $(tail -n 1 "$work/said")"
fi
# What the schema refuses: a misfit of each kind.
misfits=$(python3 - "$top/tests/slow" <<'MISFITS'
import json, sys
sys.path.insert(0, sys.argv[1])
from schema import misfit

right = {"answer": {"batches": 1, "bound": {"kind": "one-host"}}, "batches": [["a"]], "held": []}
wrong = [
    {**right, "more": 1}, {key: right[key] for key in ("answer", "batches")}, {**right, "held": None}, {**right, "batches": [[]]}, {**right, "held": ["a b"]}, {**right, "held": [1]},
    {**right, "answer": {"batches": -1, "bound": {"kind": "one-host"}}}, {**right, "answer": {"batches": True, "bound": {"kind": "one-host"}}}, {**right, "answer": {"batches": 1, "bound": {"kind": "none"}}},
    {**right, "answer": {"batches": 1, "bound": {"kind": "group"}}}, {**right, "answer": {"batches": 1.5, "bound": {"kind": "one-host"}}}, [right], "plan", None,
]
texts = [json.dumps(right), "{}\n", '{"held":[],"held":[]}\n', json.dumps(right, indent=1) + "\n", json.dumps({**right, "held": [float("nan")]}) + "\n", *(json.dumps(value) + "\n" for value in wrong)]
print(misfit(json.dumps(right) + "\n"), [text for text in texts if misfit(text) is None])
MISFITS
)
[ "$misfits" = 'None []' ] && pass || fail "the schema takes what is none, or refuses what is one: $misfits"

counting python3 "$top/tests/slow/formed.py" "$rollout" "${SEED:-}" "${CASES:-$(fewer 300 40)}"
finish
