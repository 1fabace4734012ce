#!/bin/sh
# Runs that broke off go on, and runs begin though hosts are up that the inventory has as down: worked journals with the recap and the journal that come of them in full, and what
# refuses it. tests/journal.sh kills runs and has them go on.
# It needs Python and crates/rollout/out/rollout.
. "$(dirname "$0")/common.sh"
quietly

cd "$work" || exit 1
# A row that may lose two hosts, with two racks: r1 may lose one, r2 two.
printf '%s' '{"row":{"vars":{"max_down":2},"children":{"r1":{"vars":{"max_down":1},"hosts":{"a":null,"b":null,"c":null}},"r2":{"vars":{"max_down":2},"hosts":{"d":null,"e":{"down":true}}}}}}' >inventory
printf '%s' '[{"hosts":"all","serial":2,"tasks":[{"command":{"argv":["sh","-c","echo {{ inventory_hostname }} >>ran"]}}]}]' >one
printf '%s' '[{"hosts":"a:b","tasks":[{"command":"true","register":"r"}]},{"hosts":"all","serial":2,"tasks":[{"command":{"argv":["sh","-c","echo {{ inventory_hostname }} >>ran"]}}]}]' >two

# written PLAYBOOK BODY ..: the journal of these bodies; HEAD is the head of a run of the inventory and the playbook.
written() {
    python3 - "$top/tests/slow" "$@" <<'PYTHON' >journal
import json, sys
sys.path.append(sys.argv[1])
from entries import head, line
inventory, playbook = open("inventory", "rb").read(), open(sys.argv[2], "rb").read()
for body in sys.argv[3:]:
    sys.stdout.buffer.write(line(head(inventory, playbook, len(json.loads(playbook))) if body == "HEAD" else body))
PYTHON
    rm -f ran
}

# went WHAT STATUS RECAP RAN PLAYBOOK WORD ..: the run of the journal goes on, with this recap, but for what it says of plans, and these hosts ran.
went() {
    what=$1
    ends=$2
    recap=$3
    hosts=$4
    playbook=$5
    shift 5
    cp journal before
    run run inventory "$playbook" --resume journal "$@"
    grep -v '^boundary' out >left && mv left out
    check "$what" "$ends" "$recap$newline" ''
    [ "$(cat ran 2>/dev/null | sort | tr '\n' ' ')" = "$hosts" ] && pass || fail "$what: other hosts ran: $(cat ran)"
    size=$(wc -c <before)
    head -c "$size" journal | cmp -s - before && pass || fail "$what: the journal doesn't go on"
    rm -f ran
}

# added WHAT BODY ..: the journal has these bodies behind what it had.
added() {
    what=$1
    shift
    size=$(wc -c <before)
    tail -c +"$((size + 1))" journal | sed 's/^[0-9]* [0-9]* //' >bodies
    printf '%s\n' "$@" | cmp -s - bodies && pass || fail "$what: $(cat bodies)"
}

# refused WHAT FAULT PLAYBOOK WORD ..: nothing goes on, nothing is started, and the journal stays as it was.
refused() {
    what=$1
    fault=$2
    playbook=$3
    shift 3
    cp journal before
    run run inventory "$playbook" --resume journal "$@"
    check "$what" 1 '' "rollout: $fault$newline"
    cmp -s journal before && [ ! -e ran ] && pass || fail "$what: the journal changed, or something was started"
}

# With b and e down the row has no room.
written one HEAD 'play: a b c d' 'open: a' 'closed: updated:a' 'open: b'
went 'killed in a batch: who was at work stays down, and nobody of its row may go' 3 'a ok=0 changed=0 failed=0 skipped=0 ignored=0 state=updated
b ok=0 changed=0 failed=0 skipped=0 ignored=0 state=halted
c ok=0 changed=0 failed=0 skipped=0 ignored=0 state=waiting
d ok=0 changed=0 failed=0 skipped=0 ignored=0 state=waiting
e ok=0 changed=0 failed=0 skipped=0 ignored=0 state=off
end blocked group=row' '' one
added 'the journal of a run that can open nothing' 'resumed:' 'again: c d' 'end blocked group=row'

# Of b, c, d and e r1 may lose one and the row two: two batches, in turn.
went 'and goes on again, with those that are up by now' 0 'open: b d
open: c e
a ok=0 changed=0 failed=0 skipped=0 ignored=0 state=updated
b ok=1 changed=1 failed=0 skipped=0 ignored=0 state=updated
c ok=1 changed=1 failed=0 skipped=0 ignored=0 state=updated
d ok=1 changed=1 failed=0 skipped=0 ignored=0 state=updated
e ok=1 changed=1 failed=0 skipped=0 ignored=0 state=updated
end finished' 'b c d e ' one --up b,e
added 'the journal of a run that goes on' 'resumed: b e' 'again: b c d e' 'open: b d' 'closed: updated:b updated:d' 'open: c e' 'closed: updated:c updated:e' 'end finished'

went 'a run that is over has nothing left' 0 'a ok=0 changed=0 failed=0 skipped=0 ignored=0 state=updated
b ok=0 changed=0 failed=0 skipped=0 ignored=0 state=updated
c ok=0 changed=0 failed=0 skipped=0 ignored=0 state=updated
d ok=0 changed=0 failed=0 skipped=0 ignored=0 state=updated
e ok=0 changed=0 failed=0 skipped=0 ignored=0 state=updated
end finished' '' one
added 'the journal of a run that has nothing left' 'resumed:' 'again:' 'end finished'

# Who was mended and fails again may be mended again; who was set aside waits again.
written one HEAD 'play: a b c d' 'open: a' 'closed: failed:a' 'held: b c' 'open: d' 'closed: updated:d' 'end held'
went 'who was set aside waits again' 0 'open: a
open: b
open: c
a ok=1 changed=1 failed=0 skipped=0 ignored=0 state=updated
b ok=1 changed=1 failed=0 skipped=0 ignored=0 state=updated
c ok=1 changed=1 failed=0 skipped=0 ignored=0 state=updated
d ok=0 changed=0 failed=0 skipped=0 ignored=0 state=updated
e ok=0 changed=0 failed=0 skipped=0 ignored=0 state=off
end finished' 'a b c ' one --up=a

written one HEAD
printf '20 1234 play: a b' >>journal
run run inventory one --resume journal
[ "$status" -eq 0 ] && [ "$(sort ran | tr '\n' ' ')" = 'a b c d ' ] && [ "$(sed 's/^[0-9]* [0-9]* //' journal | sed -n 2,3p | tr '\n' ' ')" = 'resumed: play: a b c d ' ] && pass || fail "a line that broke off is cut off: $(cat journal)"

written two HEAD 'play: a b' 'open: a' 'closed: updated:a' 'end finished'
run run inventory two --resume journal
[ "$status" -eq 0 ] && [ "$(head -n 1 out)" = 'play 2' ] && [ "$(sort ran | tr '\n' ' ')" = 'a b c d ' ] && pass || fail "the next play comes under its own number: $(cat out)"

written two HEAD 'play: a b' 'open: a' 'closed: failed:a' 'open: b'
run run inventory two --resume journal --up=all
[ "$status" -eq 0 ] && [ "$(grep -c '^play' out)" = 2 ] && [ "$(sort ran | tr '\n' ' ')" = 'a b c d e ' ] && pass || fail "all are up by now: $(cat out)"

# A host that failed in an earlier play gets no more than the play that goes on, and the later ones.
written two HEAD 'play: a b' 'open: a' 'closed: failed:a' 'open: b' 'closed: updated:b' 'end finished' 'play: b c d' 'open: b'
went 'who failed in the play before and is mended waits in this one alone' 0 'play 2
open: a
open: b
open: c
open: d
a ok=1 changed=1 failed=0 skipped=0 ignored=0 state=updated
b ok=1 changed=1 failed=0 skipped=0 ignored=0 state=updated
c ok=1 changed=1 failed=0 skipped=0 ignored=0 state=updated
d ok=1 changed=1 failed=0 skipped=0 ignored=0 state=updated
e ok=0 changed=0 failed=0 skipped=0 ignored=0 state=off
end finished' 'a b c d ' two --up a,b
added 'and its journal has no earlier one' 'resumed: a b' 'again: a b c d' 'open: a' 'closed: updated:a' 'open: b' 'closed: updated:b' 'open: c' 'closed: updated:c' 'open: d' 'closed: updated:d' 'end finished'

# ---- who was at work when it broke off, and stays down

printf '%s' '{"row":{"vars":{"max_down":2},"hosts":{"a":null,"b":null}}}' >wide
cp inventory kept-inventory
cp wide inventory
written one HEAD 'play: a b' 'open: a'
went 'a run that finishes with a halted host is none that went well' 2 'open: b
a ok=0 changed=0 failed=0 skipped=0 ignored=0 state=halted
b ok=1 changed=1 failed=0 skipped=0 ignored=0 state=updated
end finished' 'b ' one
added 'its journal says so too' 'resumed:' 'again: b' 'open: b' 'closed: updated:b' 'end finished'
run state inventory journal
check 'and so does its state' 2 "a state=halted${newline}b state=updated${newline}end finished$newline" ''
written one HEAD 'play: a b' 'open: a b'
went 'nobody was updated' 2 'a ok=0 changed=0 failed=0 skipped=0 ignored=0 state=halted
b ok=0 changed=0 failed=0 skipped=0 ignored=0 state=halted
end finished' '' one
written two HEAD 'play: a b' 'open: a'
run run inventory two --resume journal
[ "$status" -eq 2 ] && [ "$(tail -n 1 out)" = 'end finished' ] && [ "$(cat ran)" = b ] && pass || fail "a host that was halted in the play before: $status, $(cat out)"
# said WHAT LINES WORD ..: with -v this stands on standard error, but for what happens on the way.
said() {
    what=$1
    lines=$2
    shift 2
    run run -v "$@"
    grep -v ' step=\| open: \|^closed ' errors >left
    [ "$(cat left)" = "$lines" ] && pass || fail "$what: $(cat errors)"
    rm -f ran
}
written one HEAD 'play: a b' 'open: a'
said 'why it is none that went well' 'halted: a
next: rollout run --resume journal --up a inventory one' inventory one --resume journal

# ---- who is mended is not told to stay down

cp kept-inventory inventory
written one HEAD 'play: a b c d' 'open: a b'
said 'who is off and was not mended is left out' 'note: e is down and stays down: 1 host of the play is left out' inventory one --resume journal --up a,b
written one HEAD 'play: a b c d' 'open: a b'
said 'who was mended is not' '' inventory one --resume journal --up a,b,e
said 'nor in a run that begins so' '' inventory one --up e
said 'who is not among them is' 'note: e is down and stays down: 1 host of the play is left out' inventory one --up d

# ---- what is told of plays behind others

printf '%s' '[{"hosts":"all","tasks":[{"command":"true"}]},{"hosts":"d","tasks":[{"command":{"argv":["sh","-c","exit 7"]}}]}]' >fails
written fails HEAD 'play: a b c d' 'open: a d' 'closed: updated:a updated:d' 'open: b' 'closed: updated:b' 'open: c' 'closed: updated:c' 'end finished'
said 'in which play a host failed, and nothing of the plays before' 'play 2
1 of 1 hosts failed
d failed in play 2 at step 1: rc=7
off: e
next: rollout run --resume journal --up d inventory fails' inventory fails --resume journal
mkfifo pipe
written one HEAD 'play: a b c d' 'open: a' 'closed: updated:a'
cat inventory >pipe &
run run pipe one -v --resume journal
wait
[ "$(head -n 1 errors)" = 'note: the inventory has no lock: another run of it is not kept out' ] && pass || fail "an inventory from a pipe has no lock: $(cat errors)"
rm -f pipe ran

# ---- runs that begin, though hosts are up by now that the inventory has as down

rm -f journal ran
run run inventory one --up e --journal journal
check 'who is mended is up, and waits' 0 'boundary 1: plan batches=3 bound=group row waiting=5 room=2
open: a d
boundary 2: plan batches=2 bound=group row waiting=3 room=2
open: b e
boundary 3: plan batches=1 bound=group row waiting=1 room=2
open: c
boundary 4: plan batches=0 bound=nothing
a ok=1 changed=1 failed=0 skipped=0 ignored=0 state=updated
b ok=1 changed=1 failed=0 skipped=0 ignored=0 state=updated
c ok=1 changed=1 failed=0 skipped=0 ignored=0 state=updated
d ok=1 changed=1 failed=0 skipped=0 ignored=0 state=updated
e ok=1 changed=1 failed=0 skipped=0 ignored=0 state=updated
end finished
' ''
: >before
added 'its journal has who is up by now behind its first line' "$(head -n 1 journal | sed 's/^[0-9]* [0-9]* //')" 'resumed: e' 'play: a b c d e' 'open: a d' 'closed: updated:a updated:d' 'open: b e' 'closed: updated:b updated:e' 'open: c' 'closed: updated:c' 'end finished'
run state inventory journal
check 'which state reads' 0 'a state=updated
b state=updated
c state=updated
d state=updated
e state=updated
end finished
' ''
mv journal kept-journal
rm -f ran
run run inventory one --up e
check 'the same without a journal' 0 "$(cat out)$newline" ''
[ "$(sort ran | tr '\n' ' ')" = 'a b c d e ' ] && pass || fail "other hosts ran: $(cat ran)"
rm -f journal
run run inventory two --up e --journal journal
run state inventory journal
[ "$status" -eq 0 ] && [ "$(tail -n 1 out)" = 'end finished' ] && pass || fail "a run of two plays that begins so is read back: $status, $(cat out errors)"
# It breaks off in its second batch.
head -n 6 kept-journal >journal
rm -f ran
run state inventory journal
check 'who is mended stands there as any other' 6 'a state=updated
b state=running
c state=waiting
d state=updated
e state=running
end broken-off
' ''
went 'and it goes on' 3 'a ok=0 changed=0 failed=0 skipped=0 ignored=0 state=updated
b ok=0 changed=0 failed=0 skipped=0 ignored=0 state=halted
c ok=0 changed=0 failed=0 skipped=0 ignored=0 state=waiting
d ok=0 changed=0 failed=0 skipped=0 ignored=0 state=updated
e ok=0 changed=0 failed=0 skipped=0 ignored=0 state=halted
end blocked group=row' '' one
head -n 6 kept-journal >journal
went 'with who is mended again' 0 'open: b e
open: c
a ok=0 changed=0 failed=0 skipped=0 ignored=0 state=updated
b ok=1 changed=1 failed=0 skipped=0 ignored=0 state=updated
c ok=1 changed=1 failed=0 skipped=0 ignored=0 state=updated
d ok=0 changed=0 failed=0 skipped=0 ignored=0 state=updated
e ok=1 changed=1 failed=0 skipped=0 ignored=0 state=updated
end finished' 'b c e ' one --up e,b
rm -f journal ran
run run inventory one --up all --journal journal
[ "$status" -eq 0 ] && [ "$(sort ran | tr '\n' ' ')" = 'a b c d e ' ] && sed 's/^[0-9]* [0-9]* //' journal | grep -qx 'resumed: a b c d e' && pass || fail "a group that is mended: $(cat out journal)"
rm -f journal ran
run run inventory one --up '' --journal journal
[ "$status" -eq 0 ] && [ "$(sort ran | tr '\n' ' ')" = 'a b c d ' ] && sed 's/^[0-9]* [0-9]* //' journal | grep -qx 'resumed:' && pass || fail "nobody is mended: $(cat out journal)"
# begun WHAT FAULT INVENTORY WORD ..: nothing begins, and no journal is made.
begun() {
    what=$1
    fault=$2
    of=$3
    shift 3
    rm -f journal ran
    run run "$of" one --journal journal "$@"
    check "$what" 1 '' "rollout: $fault$newline"
    [ ! -e journal ] && [ ! -e ran ] && pass || fail "$what: a journal was made, or something was started"
}
begun 'a name that nothing has, of a run that begins' '304 NoSuchName name=z' inventory --up e,z
printf '%s' '{"row":{"vars":{"max_down":0},"hosts":{"a":null,"e":{"down":true}}}}' >over
begun 'the inventory itself may not start over its limit' '302 StartOver group=row down=1 limit=0' over --up e
rm -f over

# ---- what refuses it

written one HEAD 'play: a b' 'open: a'
refused 'another playbook' '913 OtherInputs' two
cp inventory kept-inventory
printf ' ' >>inventory
refused 'another inventory' '913 OtherInputs' one
refused 'another inventory, by a playbook with more plays' '913 OtherInputs' two --changed-inputs
run run inventory one --resume journal --changed-inputs
[ "$status" -eq 0 ] || [ "$status" -eq 3 ] && pass || fail 'other inputs are meant'
cp kept-inventory inventory
written one HEAD 'play: a b' 'open: a'
refused 'a name that nothing has' '304 NoSuchName name=z' one --up a,z
printf '20 1234 play: a b' >>journal
refused 'a line that broke off stays where nothing goes on' '304 NoSuchName name=z' one --up a,z
printf '%s' '{"row":{"hosts":{"a":null,"c":null}}}' >inventory
refused 'another inventory, before a host that it lacks' '913 OtherInputs' one
refused 'a host that is there no more' '912 BadJournal line=2' one --changed-inputs
printf '%s' '{"row":{"hosts":{"a":null,"b":{"down":true}}}}' >inventory
refused 'a host that waited, and is marked as down now' '912 BadJournal line=2' one --changed-inputs
refused 'also where it is mended' '912 BadJournal line=2' one --changed-inputs --up b
printf '%s' '{"row":{"vars":{"max_down":0},"hosts":{"a":null,"b":null}}}' >inventory
refused 'a limit that is lower now' '302 StartOver group=row down=1 limit=0' one --changed-inputs
cp kept-inventory inventory
written two HEAD 'play: a b' 'end finished' 'play: a' 'open: a' 'closed: updated:a' 'end held'
refused 'fewer plays' '913 OtherInputs' one --changed-inputs
written one HEAD 'play: a b' 'open: a'
refused 'more plays, before a name of the journal that is down' '913 OtherInputs' two --changed-inputs
written two HEAD 'play: a b' 'open: a'
refused 'fewer plays, in the first one' '913 OtherInputs' one --changed-inputs
written one HEAD 'play: a' 'open: b'
refused 'a line that no run writes' '912 BadJournal line=3' one
: >journal
refused 'an empty file' '912 BadJournal line=1' one
refused 'a name that nothing has, before an empty file' '304 NoSuchName name=z' one --up z
printf '%s' '[{"hosts":"a","tasks":[{"command":"true","register":"r"}]},{"hosts":"a","tasks":[{"command":"echo {{ r.rc }}"}]}]' >needs
written needs HEAD 'play: a' 'open: a' 'closed: updated:a' 'end finished'
refused 'a step reads what an earlier play registered' '914 NeedsResult name=r' needs
written needs HEAD 'play: a' 'open: a'
run run inventory needs --resume journal --up a
[ "$status" -eq 0 ] && pass || fail "the play that registers it goes on: $(cat errors)"
# Who was updated in the play that goes on doesn't run it again: what it registered is gone.
printf '%s' '[{"hosts":"a:b","serial":1,"tasks":[{"command":"true","register":"r"}]},{"hosts":"a:b","tasks":[{"command":{"argv":["sh","-c","echo {{ inventory_hostname }} >>ran"]},"when":"r is changed"}]}]' >later
written later HEAD 'play: a b' 'open: a' 'closed: updated:a' 'open: b'
refused 'a later play reads what the play that goes on registered' '914 NeedsResult name=r' later --up b
refused 'before a group is told to be over its limit' '914 NeedsResult name=r' later
printf '%s' '[{"hosts":"a:b","serial":1,"tasks":[{"command":"true","register":"r"}]}]' >short
written short HEAD 'play: a b' 'open: a' 'closed: updated:a' 'open: b'
refused 'more plays, before a result that one of them reads' '913 OtherInputs' later --changed-inputs
written later HEAD 'play: a b' 'open: a' 'closed: failed:a' 'open: b'
went 'not where nobody was updated in it' 0 'play 1
open: a
open: b
a ok=1 changed=1 failed=0 skipped=0 ignored=0 state=updated
b ok=1 changed=1 failed=0 skipped=0 ignored=0 state=updated
e ok=0 changed=0 failed=0 skipped=0 ignored=0 state=off
end finished
play 2
open: a
open: b
a ok=1 changed=1 failed=0 skipped=0 ignored=0 state=updated
b ok=1 changed=1 failed=0 skipped=0 ignored=0 state=updated
e ok=0 changed=0 failed=0 skipped=0 ignored=0 state=off
end finished' 'a b ' later --up a,b
printf '%s' '[{"hosts":"a:b","tasks":[{"command":"true","register":"r"}]},{"hosts":"a:b","tasks":[{"command":"true","register":"r"},{"command":"true","when":"r is changed"}]}]' >own
written own HEAD 'play: a b' 'open: a' 'closed: updated:a' 'open: b'
run run inventory own --resume journal --up b
[ "$status" -eq 0 ] && pass || fail "what a play registers itself it may read: $(cat out errors)"
# Who failed or was at work and is mended owes the handlers of the play that goes on: what the attempt before changed is no change any more.
restarts() { printf '{"hosts":"a:b:d","tasks":[{"command":"true","changed_when":"false","notify":"restart"}],"handlers":[{"name":"restart","command":{"argv":["sh","-c","echo {{ inventory_hostname }} >>ran"]}}]}'; }
printf '[%s,%s]' "$(restarts)" "$(restarts)" >owed

# row HOST HANDLERS: the line of an updated host on which so many handlers ran
row() { printf '%s ok=%s changed=%s failed=0 skipped=0 ignored=0 state=updated\n' "$1" $(($2 + 1)) "$2"; }
# owed_recap PLAY A B D: what is left of the recap of a play that opens a, b and d one by one, on which so many handlers ran
owed_recap() {
    printf 'play %s\nopen: a\nopen: b\nopen: d\n' "$1"
    row a "$2" && row b "$3" && row d "$4"
    printf 'e ok=0 changed=0 failed=0 skipped=0 ignored=0 state=off\nend finished\n'
}
both() { owed_recap "$@" && owed_recap 2 0 0 0; }
written owed HEAD 'play: a b d' 'open: a' 'closed: failed:a' 'end all-failed'
cp journal tried
went 'who failed and is mended runs the handlers of the play that goes on, and not of the next one; nobody else does' 0 "$(both 1 1 0 0)" 'a ' owed --up a
cp out recap
cp tried journal
run plan inventory owed --forecast --from journal --up a
[ "$status" -eq 0 ] && [ "$(grep -v '^b' out)" = "$(grep -v ' state=' recap)" ] && pass || fail "a course has the batches and the ends of a run in which somebody owes handlers: $(cat out)"
run plan inventory owed --from journal --up a
[ "$status" -eq 0 ] && grep -q '^batch 1: a$' out && pass || fail "a plan says who is first where somebody owes handlers: $(cat out)"
printf 'next 3\nshow\n' | "$rollout" rehearse inventory owed --from journal --up a >out 2>errors
[ "$(grep '^advanced:' out)" = "$(printf 'advanced: a\nadvanced: b\nadvanced: d')" ] && grep -q '^end finished' out && pass || fail "a rehearsal opens the batches of a run in which somebody owes handlers: $(cat out errors)"
written owed HEAD 'play: a b d' 'open: a'
went 'who was at work does too' 0 "$(both 1 1 0 0)" 'a ' owed --up a
written owed HEAD 'play: a b d' 'open: a d' 'closed: failed:a halted:d' 'end too-many-failed step=1 failed=1 size=2'
went 'and who was halted' 0 "$(both 1 1 0 1)" 'a d ' owed --up a,d
written owed HEAD 'play: a b d' 'open: a' 'closed: failed:a' 'end all-failed' 'resumed: a' 'again: a b d'
went 'also where that attempt was stopped before the host had its turn' 0 "$(both 1 1 0 0)" 'a ' owed
written owed HEAD 'play: a b d' 'open: a' 'closed: failed:a' 'end all-failed' 'resumed: a' 'again: a b d'
went 'and where it is named again' 0 "$(both 1 1 0 0)" 'a ' owed --up a
written owed HEAD 'play: a b d' 'open: a' 'closed: failed:a' 'end all-failed' 'resumed: a' 'again: a b d' 'open: a'
went 'who is at work at the second stop runs them once' 0 "$(both 1 1 0 0)" 'a ' owed --up a
written owed HEAD 'play: a b d' 'open: a' 'closed: failed:a' 'end all-failed' 'resumed: a' 'again: a b d' 'open: a' 'closed: failed:a' 'end all-failed' 'resumed:' 'again: b d' 'open: b'
went 'who fails twice and is mended at a later stop runs them once' 0 "$(both 1 1 1 0)" 'a b ' owed --up a,b
written owed HEAD 'play: a b d' 'open: a' 'closed: failed:a' 'end all-failed' 'resumed: a' 'again: a b d' 'open: a' 'closed: updated:a' 'open: b' 'closed: updated:b' 'open: d' 'closed: updated:d' 'end finished' 'play: a b d'
went 'who owes in one play owes nothing in the next' 0 "$(owed_recap 2 0 0 0)" '' owed
written owed HEAD 'play: a b d' 'open: a' 'closed: failed:a' 'end all-failed' 'resumed: a' 'again: a b d' 'open: a' 'closed: updated:a'
run run inventory owed --resume journal
[ "$status" -eq 0 ] && [ ! -e ran ] && pass || fail "who is updated owes nothing any more: $(cat ran out)"
written owed HEAD 'play: a b d'
went 'who only waited owes nothing, named or not' 0 "$(both 1 0 0 0)" '' owed --up a,b
written owed HEAD 'play: a b d' 'open: a' 'closed: failed:a' 'end finished'
went 'nor does who failed in a play that is over' 0 "$(owed_recap 2 0 0 0)" '' owed --up a
written owed HEAD 'play: a b d' 'open: a' 'closed: failed:a' 'end all-failed'
run run inventory owed --resume journal
[ ! -e ran ] && grep -q '^a .* state=failed$' out && pass || fail "who is not mended owes nothing, since nothing is done on it: $(cat ran out)"
run run inventory owed --up e
[ "$status" -eq 0 ] && [ ! -e ran ] && pass || fail "without a journal nobody owes anything: $(cat ran out)"
rm -f ran
rm journal
run run inventory one --resume journal
check 'no journal' 1 '' "rollout: 902 File name=journal$newline"
[ ! -e journal ] && pass || fail 'a journal is made'
written one HEAD
ln -s journal link
run run inventory one --resume link
check 'a link' 6 '' "rollout: 911 JournalWrite$newline"
[ ! -e ran ] && pass || fail 'a link is gone on with'
# A pipe waits for its writer, and can't be added to.
mkfifo pipe
timeout 1 "$rollout" run inventory one --resume pipe >out 2>errors
[ "$?" -eq 124 ] && [ ! -s out ] && [ ! -s errors ] && [ ! -e ran ] && pass || fail 'a pipe without a writer is not waited for'
cat journal >pipe &
run run inventory one --resume pipe
wait
check 'a pipe' 6 '' "rollout: 911 JournalWrite$newline"
[ ! -e ran ] && pass || fail 'a pipe is gone on with'

# held FILE: goes on while somebody else holds the lock of a file
held() {
    locked "$1" run inventory one --resume journal
}
for file in inventory journal; do
    held $file
    check "somebody else holds the $file" 1 '' "rollout: 918 Locked$newline"
    [ ! -e ran ] && pass || fail "somebody else holds the $file, and something is started"
done
written one HEAD
held one
[ "$status" -eq 0 ] && pass || fail 'a playbook has no lock'

# A run that waits for its playbook holds the lock of the journal by then.
written one HEAD 'play: a b'
mkfifo playbook
"$rollout" run inventory playbook --no-lock --resume journal >first 2>&1 &
first=$!
{
    run run inventory one --no-lock --resume journal
    cat one
} >playbook
check 'a run of the same journal waits for its playbook' 1 '' "rollout: 918 Locked$newline"
wait "$first" && [ "$(sort ran | tr '\n' ' ')" = 'a b c d ' ] && pass || fail "a run that waited for its playbook: $(cat first)"

# The inventory is replaced meanwhile.
printf '[{"hosts":"a","tasks":[{"command":{"argv":["sh","-c","cp inventory new && mv new inventory"]}}]}]' >replacing
written replacing HEAD 'play: a'
"$built" run inventory replacing --resume journal >out 2>errors
status=$?
check 'the inventory is replaced while a run goes on' 0 "$(cat out)$newline" "note: the locked file was replaced while this run went on: another run of it was not kept out from then on$newline"

# While a run goes on, by a program of its own: a second one with the same journal, also one with a copy of the inventory, and a new one with a journal of its own.
cp inventory copied
cat >beside.sh <<'SCRIPT'
for words in 'inventory beside --resume journal' 'copied beside --resume journal' 'inventory beside --journal new'; do
    "$1" run $words >>beside.out 2>>beside.errors
    echo "$?" >>beside.status
done
cp journal journal.meanwhile
SCRIPT
printf '[{"hosts":"a","tasks":[{"command":{"argv":["sh","beside.sh","%s"]}}]}]' "$rollout" >beside
written beside HEAD 'play: a'
went 'runs beside one that goes on are refused' 0 'open: a
a ok=1 changed=1 failed=0 skipped=0 ignored=0 state=updated
e ok=0 changed=0 failed=0 skipped=0 ignored=0 state=off
end finished' '' beside
added 'runs beside it leave its journal as it is' 'resumed:' 'again: a' 'open: a' 'closed: updated:a' 'end finished'
[ "$(tr '\n' ' ' <beside.status)" = '1 1 1 ' ] && [ "$(sort -u beside.errors)" = 'rollout: 918 Locked' ] && [ ! -s beside.out ] && [ ! -e new ] && pass || fail "beside a run that goes on: $(cat beside.status beside.errors)"
[ "$(sed 's/^[0-9]* [0-9]* //' journal.meanwhile | tail -n 1)" = 'open: a' ] && pass || fail 'the journal meanwhile'
finish
