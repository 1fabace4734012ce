#!/bin/sh
# `limits`, `plan`, `plan --forecast` and `rehearse` from a journal: what a run that broke off would go on with, in full text; that a run which goes on does just that; and what refuses it.
# `tests/slow/outlook.py` draws more. It needs Python and crates/rollout/out/rollout.
. "$(dirname "$0")/common.sh"
quietly

cd "$work" || exit 1
# A row that may lose two hosts, with two racks: r1 may lose one, r2 two; e is down.
printf '%s' '{"row":{"vars":{"max_down":2},"children":{"r1":{"vars":{"max_down":1},"hosts":{"a":null,"b":null,"c":null}},"r2":{"vars":{"max_down":2},"hosts":{"d":null,"e":{"down":true}}}}}}' >inventory
printf '%s' '[{"hosts":"all","serial":2,"tasks":[{"command":{"argv":["sh","-c","echo {{ inventory_hostname }} >>ran"]}}]}]' >one
printf '%s' '[{"hosts":"a:b","tasks":[{"command":"true"}]},{"hosts":"all","serial":[1,2],"on_blocked":"hold","tasks":[{"command":"true"}]},{"hosts":"r1","tasks":[{"command":"true"}]}]' >three

# written PLAYBOOK BODY ..: the journal of these bodies; HEAD is the head of a run of the inventory and the playbook.
written() {
    python3 - "$top/tests/slow" "$@" <<'PYTHON' >journal
import json, sys
sys.path.append(sys.argv[1])
from entries import head, line
inventory, playbook = open("inventory", "rb").read(), open(sys.argv[2], "rb").read()
for body in sys.argv[3:]:
    sys.stdout.buffer.write(line(head(inventory, playbook, len(json.loads(playbook))) if body == "HEAD" else body))
PYTHON
}

# told STATUS TEXT WORD ..: this is printed and nothing else, nothing is started, and the journal stays as it was.
told() {
    ends=$1
    text=$2
    shift 2
    cp journal before
    run "$@"
    check "$*" "$ends" "$text$newline" ''
    cmp -s journal before && [ ! -e ran ] && pass || fail "$*: the journal changed, or something was started"
}

# refused FAULT WORD ..: the same of a line that is refused.
refused() {
    fault=$1
    shift
    cp journal before
    run "$@"
    check "$*" 1 '' "rollout: $fault$newline"
    cmp -s journal before && [ ! -e ran ] && pass || fail "$*: the journal changed, or something was started"
}

# typed LINES: what is typed in a rehearsal.
typed() {
    printf '%s\n' "$@" >typed
    input=typed
}

# ---- a run that was killed in a batch: a is updated, b was at work, e is off

written one HEAD 'play: a b c d' 'open: a' 'closed: updated:a' 'open: b'
told 0 'row members=5 down=1 limit=2 room=1
r1 members=3 down=0 limit=1 room=1
r2 members=2 down=1 limit=2 room=1
hosts=5 limited=3' limits inventory
told 0 'row members=5 down=2 limit=2 room=0
r1 members=3 down=1 limit=1 room=0
r2 members=2 down=1 limit=2 room=1
hosts=5 limited=3' limits inventory --from journal
told 0 'row members=5 down=1 limit=2 room=1
r1 members=3 down=0 limit=1 room=1
r2 members=2 down=1 limit=2 room=1
hosts=5 limited=3' limits inventory --from journal --up b
told 0 'row members=5 down=0 limit=2 room=2
r1 members=3 down=0 limit=1 room=1
r2 members=2 down=0 limit=2 room=2
hosts=5 limited=3' limits --up r1 --from=journal inventory --up=e,a
told 3 'blocked group=row waiting=2' plan inventory one --from journal
told 0 'plan batches=3 bound=group row waiting=3 room=1
batch 1: b
batch 2: c
batch 3: d' plan inventory one --from journal --up b
told 0 'plan batches=2 bound=group row waiting=4 room=2
batch 1: b d
batch 2: c e' plan --up b inventory --from nosuch one --up=e --from=journal
# Who is left out is not said.
told 0 'plan batches=3 bound=group row waiting=3 room=1
batch 1: b
batch 2: c
batch 3: d' plan -v inventory one --from journal --up b
told 0 'boundary 1: plan batches=3 bound=group row waiting=3 room=1
open: b
boundary 2: plan batches=2 bound=group row waiting=2 room=1
open: c
boundary 3: plan batches=1 bound=group row waiting=1 room=1
open: d
boundary 4: plan batches=0 bound=nothing
end finished
batches=3' plan inventory one --from journal --forecast --up b
told 3 'boundary 1: blocked group=r1 waiting=1
end blocked group=r1
batches=0' plan --forecast inventory one --from journal --up e
told 2 'boundary 1: plan batches=2 bound=group row waiting=4 room=2
open: b d
boundary 2: plan batches=1 bound=group row waiting=2 room=2
open: c e
boundary 3: plan batches=0 bound=nothing
end finished
batches=2' plan --forecast inventory one --from journal --up b,e --failing c
# Who is down by the journal is not touched, be it named or not.
told 3 'boundary 1: blocked group=row waiting=2
end blocked group=row
batches=0' plan --forecast --failing b inventory one --from journal
typed plan show 'advance c' 'advance b' 'hosts r1' 'fail d' finish show undo undo undo undo
told 0 'plan batches=3 bound=group row waiting=3 room=1
batch 1: b
batch 2: c
batch 3: d
a updated
b waiting
c waiting
d waiting
e off
end none
refused 831 NotInBatch host=c
advanced: b
a state=updated batch=-
b state=failed batch=-
c state=waiting batch=-
refused 832 Over
refused 832 Over
a updated
b failed
c waiting
d waiting
e off
end all-failed
undone
nothing to undo
nothing to undo
nothing to undo' rehearse inventory one --from journal --up b
typed 'fail d' finish show
told 0 'refused 832 Over
refused 832 Over
a updated
b halted
c waiting
d waiting
e off
end blocked group=row' rehearse inventory one --from journal
told 1 'refused 832 Over
refused 832 Over
a updated
b halted
c waiting
d waiting
e off
end blocked group=row' rehearse inventory one --from journal --strict
input=/dev/null

# A run that goes on does just what was foreseen.
cp journal kept-journal
run plan --forecast inventory one --from journal --up b,e
sed '$d' out >foreseen
run run inventory one --resume journal --up b,e
grep -v ' state=' out | cmp -s - foreseen && [ "$status" -eq 0 ] && pass || fail "another course: $(cat out)"
rm ran
# Then all is over, and a run that goes on has nothing left.
told 0 'row members=5 down=1 limit=2 room=1
r1 members=3 down=0 limit=1 room=1
r2 members=2 down=1 limit=2 room=1
hosts=5 limited=3' limits inventory --from kept-journal --up b
told 0 'row members=5 down=0 limit=2 room=2
r1 members=3 down=0 limit=1 room=1
r2 members=2 down=0 limit=2 room=2
hosts=5 limited=3' limits inventory --from journal
told 0 'plan batches=0 bound=nothing' plan inventory one --from journal
told 0 'boundary 1: plan batches=0 bound=nothing
end finished
batches=0' plan --forecast inventory one --from journal

# A run that would finish with a host that was at work when it broke off ends with 2.
printf '%s' '{"row":{"vars":{"max_down":2},"hosts":{"a":null,"b":null,"c":{"down":true}}}}' >wide
cp inventory kept-inventory
cp wide inventory
written one HEAD 'play: a b' 'open: a'
told 0 'row members=3 down=2 limit=2 room=0
hosts=3 limited=1' limits inventory --from journal
told 2 'boundary 1: plan batches=2 bound=group row waiting=2 room=1
open: b
boundary 2: plan batches=1 bound=group row waiting=1 room=1
open: c
boundary 3: plan batches=0 bound=nothing
end finished
batches=2' plan --forecast inventory one --from journal --up c
told 0 'boundary 1: plan batches=2 bound=group row waiting=3 room=2
open: a c
boundary 2: plan batches=1 bound=group row waiting=1 room=2
open: b
boundary 3: plan batches=0 bound=nothing
end finished
batches=2' plan --forecast inventory one --from journal --up c,a
cp kept-inventory inventory

# ---- of several plays, in the second

written three HEAD 'play: a b' 'open: a' 'closed: updated:a' 'open: b' 'closed: updated:b' 'end finished' 'play: a b c d' 'open: a' 'closed: failed:a'
told 3 'plan batches=0 bound=nothing
held: b c d' plan inventory three --from journal
told 3 'play 2
boundary 1: plan batches=0 bound=nothing
held: b c d
end held
batches=0' plan --forecast inventory three --from journal
told 0 'play 2
boundary 1: plan batches=4 bound=group row waiting=4 room=1
open: a
boundary 2: plan batches=3 bound=group row waiting=3 room=1
open: b
boundary 3: plan batches=2 bound=group row waiting=2 room=1
open: c
boundary 4: plan batches=1 bound=group row waiting=1 room=1
open: d
boundary 5: plan batches=0 bound=nothing
end finished
play 3
boundary 1: plan batches=3 bound=group row waiting=3 room=1
open: a
boundary 2: plan batches=2 bound=group row waiting=2 room=1
open: b
boundary 3: plan batches=1 bound=group row waiting=1 room=1
open: c
boundary 4: plan batches=0 bound=nothing
end finished
batches=7' plan --forecast inventory three --from journal --up a
# The sizes begin anew, and d fails in the play in which its batch comes first.
told 2 'play 2
boundary 1: plan batches=5 bound=serial waiting=5 size=1
open: a
boundary 2: plan batches=2 bound=group row waiting=4 room=2
open: b d
boundary 3: plan batches=2 bound=group row waiting=2 room=1
open: c
boundary 4: plan batches=1 bound=group row waiting=1 room=1
open: e
boundary 5: plan batches=0 bound=nothing
end finished
play 3
boundary 1: plan batches=3 bound=group row waiting=3 room=1
open: a
boundary 2: plan batches=2 bound=group row waiting=2 room=1
open: b
boundary 3: plan batches=1 bound=group row waiting=1 room=1
open: c
boundary 4: plan batches=0 bound=nothing
end finished
batches=7' plan --forecast inventory three --from journal --up all --failing d
# With a down r1 has no room, and the row has it for one host more.
typed plan finish show
told 0 'plan batches=2 bound=group row waiting=2 room=1
batch 1: d
batch 2: e
advanced: d
advanced: e
a failed
b held
c held
d updated
e updated
end held' rehearse inventory three --from journal --up e
input=/dev/null

# Behind a play that has finished the next one is planned, and where none has begun the first.
written three HEAD 'play: a b' 'open: a' 'closed: updated:a' 'open: b' 'closed: updated:b' 'end finished'
told 0 'plan batches=4 bound=group row waiting=4 room=1
batch 1: a
batch 2: b
batch 3: c
batch 4: d' plan inventory three --from journal
written three HEAD
told 0 'plan batches=2 bound=group row waiting=2 room=1
batch 1: a
batch 2: b' plan inventory three --from journal
printf '12 3 play: a' >>journal
told 0 'plan batches=2 bound=group row waiting=2 room=1
batch 1: a
batch 2: b' plan inventory three --from journal

# ---- other inputs

written one HEAD 'play: a b c d' 'open: a' 'closed: updated:a' 'open: b'
printf ' ' | cat inventory - >other
refused '913 OtherInputs' limits other --from journal
told 0 'row members=5 down=2 limit=2 room=0
r1 members=3 down=1 limit=1 room=0
r2 members=2 down=1 limit=2 room=1
hosts=5 limited=3' limits other --from journal --changed-inputs
refused '913 OtherInputs' plan other one --from journal
told 3 'blocked group=row waiting=2' plan other one --from journal --changed-inputs
printf ' ' | cat one - >another
refused '913 OtherInputs' plan inventory another --from journal
refused '913 OtherInputs' plan --forecast inventory another --from journal
refused '913 OtherInputs' rehearse inventory another --from journal
told 3 'blocked group=row waiting=2' plan --changed-inputs inventory another --from journal
refused '913 OtherInputs' plan --changed-inputs inventory three --from journal
refused '912 BadJournal line=2' limits wide --changed-inputs --from journal
sed 's/"max_down":2/"max_down":1/' inventory >low
# More are down than may be: the table says so, and a run that goes on is refused.
told 0 'row members=5 down=2 limit=1 room=0
r1 members=3 down=1 limit=1 room=0
r2 members=2 down=1 limit=2 room=1
hosts=5 limited=3' limits low --from journal --changed-inputs
refused '302 StartOver group=row down=2 limit=1' plan low one --from journal --changed-inputs
refused '302 StartOver group=row down=2 limit=1' plan --forecast low one --from journal --changed-inputs
refused '302 StartOver group=row down=2 limit=1' rehearse low one --from journal --changed-inputs
told 3 'blocked group=row waiting=3' plan low one --from journal --changed-inputs --up b

# ---- what refuses it, in its order

refused '304 NoSuchName name=z' limits inventory --from journal --up a,z
refused '304 NoSuchName name=z' plan inventory one --from journal --up z
refused '304 NoSuchName name=z' rehearse inventory one --from journal --up z
refused '304 NoSuchName name=z' plan --forecast inventory one --from journal --failing b,z
refused '302 StartOver group=row down=2 limit=1' plan --forecast low one --from journal --changed-inputs --failing z
refused '304 NoSuchName name=y' plan --forecast low one --from journal --changed-inputs --failing z --up y
refused '902 File name=nosuch' limits inventory --from nosuch
refused '902 File name=nosuch' plan inventory one --from nosuch --up z
refused '902 File name=nosuch' rehearse inventory one --from nosuch
refused '902 File name=nobody' plan nobody one --from nosuch
refused '902 File name=nobody' plan inventory nobody --from nosuch
refused '701 NotJson' plan inventory journal --from journal
refused '201 NotJson' limits journal --from journal --up z
printf '%s' '[{"hosts":"a","tasks":[{"command":"true","register":"r"}]},{"hosts":"a","tasks":[{"command":"echo {{ r.rc }}"}]}]' >needs
written needs HEAD 'play: a' 'open: a' 'closed: updated:a' 'end finished'
refused '914 NeedsResult name=r' plan inventory needs --from journal
refused '914 NeedsResult name=r' plan --forecast inventory needs --from journal --failing z
refused '914 NeedsResult name=r' rehearse inventory needs --from journal
told 0 'row members=5 down=1 limit=2 room=1
r1 members=3 down=0 limit=1 room=1
r2 members=2 down=1 limit=2 room=1
hosts=5 limited=3' limits inventory --from journal
written needs HEAD 'play: a b' 'open: a' 'closed: updated:a' 'open: b'
refused '914 NeedsResult name=r' plan inventory needs --from journal
written one HEAD 'play: a' 'open: b'
for words in 'limits inventory' 'plan inventory one' 'plan --forecast inventory one --failing z' 'rehearse inventory one'; do
    refused '912 BadJournal line=3' $words --from journal
done
: >journal
refused '912 BadJournal line=1' limits inventory --from journal
refused '902 File name=.' limits inventory --from .
run limits /dev/stdin --from journal <inventory
check 'standard input that is none' 1 '' "rollout: 201 NotJson$newline"

# ---- what it leaves alone

# The lock of neither file is asked for, and a link is followed.
written one HEAD 'play: a b c d' 'open: a' 'closed: updated:a' 'open: b'
ln -s journal link
for words in 'limits inventory' 'plan inventory one' 'plan --forecast inventory one' 'rehearse inventory one'; do
    for file in inventory journal; do
        locked "$file" $words --from link --up b
        [ "$status" -eq 0 ] && [ ! -s errors ] && pass || fail "$words asks for a lock of the $file: $(cat errors)"
    done
done
# full WORD ..: nothing can be written.
full() {
    "$rollout" "$@" </dev/null >/dev/full 2>errors
    [ "$?" -eq 1 ] && [ "$(cat errors)" = 'rollout: 904 Write written=0' ] && pass || fail "to a full disk: $*: $(cat errors)"
}
full limits inventory --from journal
full plan inventory one --from journal
full plan --forecast inventory one --from journal
cd "$top" || exit 1
finish
