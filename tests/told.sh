#!/bin/sh
# What a run says that it does, with `-v`: each kind of end of a step has its verdict, as the recap counts it, at 1, 5 and 64 forks, and each batch is closed as its
# hosts ended; and which of the two outputs has what. It needs a C compiler, Python 3 and crates/rollout/out/rollout.
. "$(dirname "$0")/common.sh"
. "$top/tests/programs/steps.sh"

# held_against WHAT: what was told last, with its times, is that of its recap; what follows it is in `behind`
held_against() {
    cp "$work/errors" "$work/raw"
    wrong=$(python3 "$helpers/told.py" "$work/out" "$work/raw" "$work/behind" 2>&1) && pass || fail "$1: $wrong"
}

# ---- twelve steps, and each kind of end

printf '#!/bin/sh\necho no\n' >"$work/plain"
printf 'echo no\n' >"$work/bare"
chmod 755 "$work/bare"
printf '%065537d' 0 >"$work/long"
cat >"$work/ends.py" <<'PYTHON'
"""The inventory and the playbook of twelve steps: each host is named after how it ends."""

import json
import sys

work, act = sys.argv[1:]
host = "inventory_hostname"
own = {
    "-dash": {}, "changed-when": {}, "exec-format": {"program": f"{work}/bare"}, "failed-when": {}, "fine": {}, "killed": {"signal": 9},
    "long-word": {"filler": open(f"{work}/long").read()}, "no-file": {"program": "/no/such/program"}, "output": {},
    "permission": {"program": f"{work}/plain"}, "when": {}, "word": {},
}
inventory = {"all": {"vars": {"program": "true", "filler": "", "signal": 0}, "hosts": {name: {**({} if name == "word" else {"filled": 1}), **of} for name, of in own.items()}}}
shell = lambda text: {"argv": ["sh", "-c", text]}
tasks = [
    {"name": "ok", "command": "true", "changed_when": False},
    {"name": "when", "command": {"argv": ["true", "{{ inventory_hostname }}"]}, "when": f"{host} != 'when' or gone == 1", "notify": "handler"},
    {"name": "word", "command": {"argv": ["true", "--", "{{ inventory_hostname }}", "{{ filled }}"]}},
    {"name": "changed_when", "command": shell("echo out; echo err >&2"), "register": "r", "changed_when": f"{host} != 'changed-when' or r.stdout == gone"},
    {"name": "failed_when", "command": shell("echo out; exit 3"), "register": "r", "failed_when": f"{host} == 'failed-when' and gone.rc == 3"},
    {"name": "by its output", "command": shell("printf 'bad\\n\\n worse\\n'; echo oops >&2"), "failed_when": f"{host} == 'output'"},
    {"name": "not started, ignored", "command": "/no/such/program", "when": f"{host} == 'fine'", "ignore_errors": True},
    {"name": "ignored", "command": shell("echo passed over; echo err >&2; exit 4"), "ignore_errors": True},
    {"name": "skipped", "command": "true", "when": False},
    {"name": "starts", "command": {"argv": ["{{ program }}", "{{ filler }}"]}},
    {"name": "lives", "command": {"argv": [act, "out", "3", "err", "2", "raise", "{{ signal }}"]}},
]
handlers = [{"name": "handler", "command": "true", "changed_when": False}]
json.dump(inventory, open(f"{work}/ends.json", "w"))
json.dump([{"hosts": "all", "tasks": tasks, "handlers": handlers}], open(f"{work}/play.json", "w"))
PYTHON
python3 "$work/ends.py" "$work" "$act"

all='-dash changed-when exec-format failed-when fine killed long-word no-file output permission when word'
# some NAME..: all hosts but these
some() {
    left=" $all "
    for name; do
        left=$(echo "$left" | sed "s/ $name / /")
    done
    echo $left
}
# each HOSTS STEP NAME LINE..: on each of these hosts the program begins, and these words stand in its verdict's line; what stands behind it
each() {
    hosts=$1 step=$2 name=$3 words=$4
    shift 4
    for host in $hosts; do
        begun $host $step "$name"
        case $host$step in -dash2) echo '  -dash warning: its name stands where an option may: write -- before it' ;; esac
        echo "$host step=$step $words ms=N name=$name"
        for line; do
            echo "  $host $line"
        done
    done
}
# in_turn COMMAND..: hosts in the order of the batch, each with the block that one of these commands has for it
in_turn() {
    for command; do
        eval "$command"
    done >"$work/blocks"
    for host in $all; do
        awk -v host="$host" '/^[^ ]/ { its = ($1 == host) } its' "$work/blocks"
    done
}
up=$(some)
{
    echo "waiting=0 at=N open: $all"
    each "$up" 1 ok 'ok rc=0'
    up=$(some when)
    in_turn 'each "$up" 2 when "changed rc=0"' 'echo "when step=2 failed undefined=gone name=when"'
    up=$(some when word)
    in_turn 'each "$up" 3 word "changed rc=0"' 'echo "word step=3 failed undefined=filled name=word"'
    up=$(some when word changed-when)
    in_turn 'each "$up" 4 changed_when "changed rc=0"' 'each changed-when 4 changed_when "failed rc=0 undefined=gone" "stdout: out" "stderr: err"'
    up=$(some when word changed-when failed-when)
    in_turn 'each "$up" 5 failed_when "changed rc=3"' 'each failed-when 5 failed_when "failed rc=3 undefined=gone" "stdout: out"'
    up=$(some when word changed-when failed-when output)
    in_turn 'each "$up" 6 "by its output" "changed rc=0"' 'each output 6 "by its output" "failed rc=0" "stdout: bad" "stdout: " "stdout:  worse" "stderr: oops"'
    for host in $up; do
        case $host in
            fine) each fine 7 'not started, ignored' 'ignored not-started' 'error: /no/such/program: No such file or directory (os error 2)' ;;
            *) echo "$host step=7 skipped name=not started, ignored" ;;
        esac
    done
    each "$up" 8 ignored 'ignored rc=4' 'stdout: passed over' 'stderr: err'
    for host in $up; do
        echo "$host step=9 skipped name=skipped"
    done
    up=$(some when word changed-when failed-when output exec-format long-word no-file permission)
    in_turn 'each "$up" 10 starts "changed rc=0"' \
        'each exec-format 10 starts "failed not-started" "error: $work/bare: Exec format error (os error 8) (a script needs a first line with #!)"' \
        'each no-file 10 starts "failed not-started" "error: /no/such/program: No such file or directory (os error 2)"' \
        'each permission 10 starts "failed not-started" "error: $work/plain: Permission denied (os error 13)"' \
        'echo "long-word step=10 failed not-started name=starts"; echo "  long-word error: a word is longer than 65536 bytes"'
    up=$(some when word changed-when failed-when output exec-format long-word no-file permission killed)
    in_turn 'each "$up" 11 lives "changed rc=0"' 'each killed 11 lives "failed rc=-1 signal=9" "stdout: abc" "stderr: ab"'
    each "$up" 12 handler 'ok rc=0'
    closed 2 10 0
} >"$work/told"
cat >"$work/recap" <<RECAP
boundary 1: plan batches=1 bound=one-host
open: $all
boundary 2: plan batches=0 bound=nothing
-dash ok=10 changed=8 failed=0 skipped=2 ignored=1 state=updated
changed-when ok=3 changed=2 failed=1 skipped=0 ignored=0 state=failed
exec-format ok=7 changed=6 failed=1 skipped=2 ignored=1 state=failed
failed-when ok=4 changed=3 failed=1 skipped=0 ignored=0 state=failed
fine ok=11 changed=8 failed=0 skipped=1 ignored=2 state=updated
killed ok=8 changed=7 failed=1 skipped=2 ignored=1 state=failed
long-word ok=7 changed=6 failed=1 skipped=2 ignored=1 state=failed
no-file ok=7 changed=6 failed=1 skipped=2 ignored=1 state=failed
output ok=5 changed=4 failed=1 skipped=0 ignored=0 state=failed
permission ok=7 changed=6 failed=1 skipped=2 ignored=1 state=failed
when ok=1 changed=0 failed=1 skipped=0 ignored=0 state=failed
word ok=2 changed=1 failed=1 skipped=0 ignored=0 state=failed
end finished
RECAP
cat >"$work/reasons" <<'REASONS'
10 of 12 hosts failed
changed-when failed at step 4 (changed_when): rc=0, a name in changed_when has no value
exec-format failed at step 10 (starts): not started
failed-when failed at step 5 (failed_when): rc=3, judged by failed_when
killed failed at step 11 (lives): rc=-1 (ended by a signal)
long-word failed at step 10 (starts): not started
no-file failed at step 10 (starts): not started
output failed at step 6 (by its output): rc=0, judged by failed_when
permission failed at step 10 (starts): not started
when failed at step 2 (when): gone has no value
word failed at step 3 (word): filled has no value
next: mark in the inventory what is still down ("down": true), then run the rest by a narrower "hosts" (docs/DURING_AND_AFTER.md)
REASONS
LC_ALL=C sort "$work/told" >"$work/told.sorted"
for forks in 1 5 64; do
    run run -v "$work/ends.json" "$work/play.json" --forks "$forks"
    held_against "twelve steps, at $forks forks"
    cmp -s "$work/behind" "$work/reasons" && pass || { fail "twelve steps, at $forks forks: what follows the recap"; diff "$work/reasons" "$work/behind" | head -10; }
    timeless
    [ "$forks" -eq 1 ] || { LC_ALL=C sort "$work/errors" >"$work/sorted" && mv "$work/sorted" "$work/errors" && cp "$work/told.sorted" "$work/told"; }
    check "twelve steps, at $forks forks" 2 "$(cat "$work/recap")$newline" "$(cat "$work/told")$newline"
done

# ---- a program whose end is lost

# lost WHAT IGNORED STATUS LINE: the first read of a pipe fails
lost() {
    printf '[{"hosts":"all","tasks":[{"name":"x","command":{"argv":["sh","-c","echo some"]},"ignore_errors":%s}]}]' "$2" >"$work/play.json"
    timeout -k 5 "$limit" env FAIL=read FAIL_AT=1 FAIL_HOW=5 LD_PRELOAD="$work/fail.so" "$rollout" run -v "$work/one.json" "$work/play.json" --forks 1 >"$work/out" 2>"$work/errors" </dev/null
    status=$?
    held_against "$1"
    timeless
    check "$1" "$3" "$(cat "$work/out")$newline" "waiting=0 at=N open: a$newline$(begun a 1 x)$newline$4$newline"
}
lost 'a lost end' false 4 "a step=1 failed lost ms=N name=x$newline$(closed 0 1 0)"
lost 'a lost end that is ignored' true 0 "a step=1 ignored lost ms=N name=x$newline$(closed 1 0 0)"

# ---- batches

# A batch that is halted at its first step; nothing is told of it behind that.
printf '{"all":{"hosts":{"a":null,"b":null,"c":null,"d":null,"e":null}}}' >"$work/five.json"
printf '[{"hosts":"all","serial":[4],"max_fail_percentage":25,"tasks":[{"command":{"argv":["sh","-c","case $0 in a|c) exit 1; esac","{{ inventory_hostname }}"]}},{"command":"true"}]}]' >"$work/play.json"
for forks in 1 5 64; do
    run run -v "$work/five.json" "$work/play.json" --forks $forks
    held_against "a halted batch, at $forks forks"
    timeless
    { [ "$status" -eq 4 ] && grep -q '^closed updated=0 failed=2 halted=1 ' "$work/errors" && ! grep -q 'step=2' "$work/errors"; } && pass || fail "a halted batch, at $forks forks: $(tail -n 2 "$work/errors" | tr '\n' '|')"
done
# Two batches in each of two plays, of which the first sets a host aside.
printf '{"all":{"children":{"r":{"vars":{"max_down":1},"hosts":{"a":{"down":true},"b":null}},"s":{"hosts":{"c":null,"d":null}}}}}' >"$work/held.json"
printf '[{"hosts":"c:d","serial":1,"tasks":[{"name":"one","command":"true"}]},{"hosts":"all","serial":1,"on_blocked":"hold","tasks":[{"name":"two","command":"false","ignore_errors":true}]}]' >"$work/play.json"
run run -v "$work/held.json" "$work/play.json"
held_against 'two plays'
timeless
# step HOST NAME VERDICT CODE: a program of the first step
step() {
    begun "$1" 1 "$2"
    echo "$1 step=1 $3 rc=$4 ms=N name=$2"
}
check 'two plays' 3 "$(cat "$work/out")$newline" "note: a is down and stays down: 1 host of the plays is left out
play 1
waiting=1 at=N open: c
$(step c one changed 0)
$(closed 1 0 0)
waiting=0 at=N open: d
$(step d one changed 0)
$(closed 1 0 0)
play 2
held: b
waiting=1 at=N open: c
$(step c two ignored 1)
$(closed 1 0 0)
waiting=0 at=N open: d
$(step d two ignored 1)
$(closed 1 0 0)
"
# Where a run ends by its file the batches before that are told of, and none is open.
stop=$work/kept/stop
printf '[{"hosts":"all","serial":2,"tasks":[{"command":{"argv":["touch","%s"]}}]}]' "$stop" >"$work/play.json"
run run -v "$work/five.json" "$work/play.json" --stop-file "$stop"
rm -f "$stop"
grep -v '^rollout: 917 Stopped$' "$work/errors" >"$work/others"
mv "$work/others" "$work/errors"
held_against 'a run that its file ended'
# Many at once: each host's lines are its own, and each block is in one piece.
many 64 64 "{\"command\":{\"argv\":[\"sh\",\"-c\",\"echo \$0; echo \$0 >&2; exit 1\",\"{{ inventory_hostname }}\"]},\"ignore_errors\":true},{\"command\":{\"argv\":[\"sh\",\"-c\",\"sleep 0.0\$(printf %d 1)\"]}},{\"command\":\"false\"}"
for forks in 5 64; do
    run run -v "$work/hosts.json" "$work/play.json" --forks $forks
    held_against "64 hosts, at $forks forks"
    awk '/^  / { if ($1 != host || $3 != host) bad = 1; next } { host = $1 } END { exit bad }' "$work/raw" && pass || fail "64 hosts, at $forks forks: an output stands at another host"
done

# ---- times

# A program of half a second: its own time, and that of its batch, are at least that, and the run's clock goes on from batch to batch.
printf '[{"hosts":"all","serial":1,"tasks":[{"command":"sleep 0.5"}]}]' >"$work/play.json"
hosts 2 >"$work/two.json"
run run -v "$work/two.json" "$work/play.json"
awk '
    / begins at=/ { split($4, at, "="); began = at[2] }
    / changed rc=0 ms=/ { split($5, ms, "="); if (ms[2] < 500 || ms[2] > 5000) bad = 1; seen++ }
    /^waiting=/ { split($2, at, "="); if (seen == 1 && at[2] < 500) bad = 1; if (at[2] < last) bad = 1 }
    /^closed / { split($5, ms, "="); split($6, at, "="); if (ms[2] < 500 || at[2] < began + 500) bad = 1; last = at[2] }
    END { exit bad || seen != 2 || last < 1000 }
' "$work/errors" && pass || fail "times of programs of half a second: $(tr '\n' '|' <"$work/errors")"

# ---- what goes where

# With --quiet standard error has nothing, or a fault's line; without options failures, and what follows the recap, as `-v` has them. Standard output is the same.
printf '{"all":{"vars":{"max_down":1},"hosts":{"a":{"down":true},"b":null}}}' >"$work/full.json"
printf '[{"hosts":"all","serial":1,"tasks":[{"command":{"argv":["test","{{ inventory_hostname }}","!=","b"]}}]}]' >"$work/by-one.json"
printf '[{"hosts":"all","tasks":[{"command":{"argv":["test","{{ inventory_hostname }}","!=","b"]}}]}]' >"$work/at-once.json"
printf '[{"hosts":"all","max_fail_percentage":0,"tasks":[{"command":{"argv":["test","{{ inventory_hostname }}","!=","b"]}}]}]' >"$work/no-failure.json"
printf '[{"hosts":"all","on_blocked":"hold","tasks":[{"command":"true"}]}]' >"$work/hold.json"
printf '[{"hosts":"all","tasks":[{"command":"true","when":"gone"}]}]' >"$work/gone.json"
# quiet WHAT STATUS ERRORS WORD..: what such a run has on standard error, with an option to be quiet, with -v and without either, as a file and as a pipe
quiet() {
    what=$1 want=$2 line=$3
    shift 3
    run run --quiet "$@"
    cp "$work/out" "$work/plain.out"
    check "$what, asked to be quiet" "$want" "$(cat "$work/out")$newline" "$line"
    run run -v "$@"
    [ "$status" -eq "$want" ] && cmp -s "$work/out" "$work/plain.out" && pass || fail "$what, with -v: another recap"
    grep -q "$(printf '[\033\r]')" "$work/errors" && fail "$what, with -v: what is told would move a terminal about" || pass
    cp "$work/errors" "$work/loud"
    run run -v --quiet "$@"
    mv "$work/loud" "$work/errors.loud"
    timeless
    mv "$work/errors" "$work/both"
    cp "$work/errors.loud" "$work/errors"
    timeless
    cmp -s "$work/both" "$work/errors" || [ "$(LC_ALL=C sort "$work/both")" = "$(LC_ALL=C sort "$work/errors")" ] && pass || fail "$what: -v doesn't go before --quiet"
    grep ' failed \|^rollout: ' "$work/errors" | LC_ALL=C sort >"$work/failures"
    cp "$work/behind" "$work/behind.loud"
    run run "$@"
    failures_alone "$what"
    { timeout -k 5 "$limit" "$rollout" run "$@" 2>&1 >"$work/out" </dev/null; } | cat >"$work/errors"
    failures_alone "$what, to a pipe"
}
failures_alone() {
    timeless
    LC_ALL=C sort "$work/errors" | cmp -s - "$work/failures" && cmp -s "$work/behind" "$work/behind.loud" && cmp -s "$work/out" "$work/plain.out" && pass || fail "$1: $(cat "$work/timeless")"
}
quiet 'finished' 0 '' "$work/one.json" "$work/true.json"
quiet 'finished, with a failed host' 2 '' "$work/five.json" "$work/at-once.json"
quiet 'held' 3 '' "$work/full.json" "$work/hold.json"
quiet 'blocked' 3 '' "$work/full.json" "$work/true.json"
quiet 'all of a batch failed' 4 '' "$work/five.json" "$work/by-one.json"
quiet 'too many failed' 4 '' "$work/five.json" "$work/no-failure.json"
quiet 'a name without a value' 4 '' "$work/one.json" "$work/gone.json"
quiet 'stopped' 6 "rollout: 917 Stopped$newline" "$work/one.json" "$work/true.json" --stop-file /dev/null
run run "$work/one.json" "$work/none.json"
check 'no such playbook' 1 '' "rollout: 902 File name=$work/none.json$newline"
run run -v "$work/one.json" "$work/none.json"
check 'no such playbook, with -v' 1 '' "rollout: 902 File name=$work/none.json$newline  there is no file of this name, or a folder on the way to it may not be searched$newline"
run plan "$work/full.json" "$work/hold.json"
check 'a plan that leaves a host out' 3 "plan batches=0 bound=nothing${newline}held: b$newline" ''

# ---- who is left out, and why hosts are down

held_b="plan batches=0 bound=nothing${newline}held: b$newline"
left_out='note: a is down and stays down: 1 host of the play is left out'
for flag in -v --verbose; do
    run plan $flag "$work/full.json" "$work/hold.json"
    check "a plan that leaves a host out, with $flag" 3 "$held_b" "$left_out$newline"
    run plan "$work/full.json" "$work/hold.json" $flag
    check "a plan that leaves a host out, with $flag behind its files" 3 "$held_b" "$left_out$newline"
done
run plan -v "$work/one.json" "$work/true.json"
check 'a plan that leaves nobody out, with -v' 0 "plan batches=1 bound=one-host${newline}batch 1: a$newline" ''
run plan -v "$work/one.json" "$work/none.json"
check 'a plan of no playbook, with -v' 1 '' "rollout: 902 File name=$work/none.json$newline  there is no file of this name, or a folder on the way to it may not be searched$newline"
# Twelve hosts that are down, of which ten are named; one that no play names isn't; and several plays.
awk 'BEGIN { printf "{\"all\":{\"hosts\":{\"up\":null,\"other\":{\"down\":true}"; for (i = 0; i < 12; i++) printf ",\"h%02d\":{\"down\":true}", i; printf "}}}" }' >"$work/twelve.json"
twelve=$(awk 'BEGIN { for (i = 0; i < 12; i++) printf "%s\"h%02d\"", (i ? "," : ""), i }')
printf '[{"hosts":["up",%s],"tasks":[{"command":"true"}]}]' "$twelve" >"$work/play.json"
verbose "$work/twelve.json" "$work/play.json"
check 'twelve hosts are left out' 0 "$(cat "$work/out")$newline" "note: h00 h01 h02 h03 h04 h05 h06 h07 h08 h09 +2 are down and stay down: 12 hosts of the play are left out
waiting=0 at=N open: up
$(step up '' changed 0)
$(closed 1 0 0)
"
[ ! -s "$work/behind" ] && pass || fail "twelve hosts are left out: behind a run that did all stands $(head -n 1 "$work/behind")"
printf '[{"hosts":"up:h00","tasks":[{"command":"true"}]},{"hosts":"up:h01:h00","tasks":[{"command":"true"}]}]' >"$work/play.json"
verbose "$work/twelve.json" "$work/play.json"
[ "$(head -n 1 "$work/errors")" = 'note: h00 h01 are down and stay down: 2 hosts of the plays are left out' ] && pass || fail "two plays leave hosts out: $(head -n 1 "$work/errors")"

# follows WHAT STATUS LINES INVENTORY PLAYBOOK WORD..: these lines follow the recap of such a run, at each number of forks
next='next: mark in the inventory what is still down ("down": true), then run the rest by a narrower "hosts" (docs/DURING_AND_AFTER.md)'
follows() {
    what=$1 want=$2 lines=$3
    shift 3
    for forks in 1 5; do
        verbose "$@" --forks $forks
        [ "$status" -eq "$want" ] && [ "$(cat "$work/behind")" = "$lines" ] && pass || { fail "$what, at $forks forks: status $status"; echo "$lines" | diff - "$work/behind" | head -10; }
    done
}
follows 'all is done' 0 '' "$work/one.json" "$work/true.json"
follows 'blocked' 3 "off: a
waiting: b; group all has no room
$next" "$work/full.json" "$work/true.json"
follows 'held' 3 "off: a
held: b; group all has no room
$next" "$work/full.json" "$work/hold.json"
printf '[{"hosts":"all","serial":2,"max_fail_percentage":0,"tasks":[{"command":"true"},{"name":"caf\u00e9 \u001b[2J","command":{"argv":["test","{{ inventory_hostname }}","!=","d"]}}]}]' >"$work/play.json"
follows 'halted, and others wait' 4 "1 of 5 hosts failed
d failed at step 2 (caf?? ?[2J): rc=1
halted: a
waiting: b c e
$next" "$work/five.json" "$work/play.json"
printf '{"all":{"children":{"x":{"vars":{"max_down":2},"children":{"y":{"vars":{"max_down":1},"hosts":{"a":null,"b":null}},"z":{"hosts":{"c":null,"d":null}}}}}}}' >"$work/nested.json"
printf '[{"hosts":"all","serial":1,"tasks":[{"name":"first","command":"true"}]},{"hosts":"all","on_blocked":"hold","tasks":[{"name":"second","command":{"argv":["test","{{ inventory_hostname }}","!=","a"]},"changed_when":"true","failed_when":"inventory_hostname == %s"}]}]' "'a'" >"$work/play.json"
follows 'of two plays, and the inner group is full' 3 "1 of 4 hosts failed
a failed in play 2 at step 1 (second): rc=1, judged by changed_when and failed_when
held: b; group y has no room
$next" "$work/nested.json" "$work/play.json"
stop=$work/kept/stop
printf '[{"hosts":"all","serial":4,"tasks":[{"command":{"argv":["touch","%s"]}}]}]' "$stop" >"$work/play.json"
verbose "$work/five.json" "$work/play.json" --stop-file "$stop"
rm -f "$stop"
[ "$status" -eq 6 ] && [ "$(cat "$work/behind")" = "waiting: b d${newline}next: run the rest by a narrower \"hosts\" (docs/DURING_AND_AFTER.md)" ] && pass ||
    fail "a run that its file ended: behind it stands $(tr '\n' '|' <"$work/behind")"
# Of several plays the one that it broke off has what counts, whether anybody failed in it or not.
printf '[{"hosts":"all","tasks":[{"command":{"argv":["touch","%s"]}}]},{"hosts":"all","tasks":[{"command":"true"}]}]' "$stop" >"$work/play.json"
verbose "$work/one.json" "$work/play.json" --stop-file "$stop"
rm -f "$stop"
[ "$status" -eq 6 ] && [ "$(cat "$work/behind")" = "waiting: a${newline}next: run the rest by a narrower \"hosts\" (docs/DURING_AND_AFTER.md)" ] && pass ||
    fail "a second play that its file ended: behind it stands $(tr '\n' '|' <"$work/behind")"
hosts 3 >"$work/three.json"
printf '[{"hosts":"all","tasks":[{"command":"true"}]},{"hosts":"all","serial":2,"tasks":[{"command":{"argv":["touch","%s"]}},{"command":{"argv":["test","{{ inventory_hostname }}","!=","h0000"]}}]}]' "$stop" >"$work/play.json"
verbose "$work/three.json" "$work/play.json" --stop-file "$stop"
rm -f "$stop"
[ "$status" -eq 6 ] && [ "$(cat "$work/behind")" = "1 of 3 hosts failed${newline}h0000 failed in play 2 at step 2: rc=1${newline}waiting: h0001$newline$next" ] && pass ||
    fail "a host failed in a second play that its file ended: behind it stands $(tr '\n' '|' <"$work/behind")"
finish
