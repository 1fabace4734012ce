#!/bin/sh
# What `state` tells of a run by its journal: worked journals in full, every front of one and each of its bytes changed, and drawn ones, beside a reader of journals in Python.
# It needs a C compiler, Python and crates/rollout/out/rollout.
. "$(dirname "$0")/common.sh"

reader=$top/tests/slow/journal.py
printf '%s' "$racks" >"$work/racks.json"

# written BODY ..: the journal of these bodies, each as a whole line; HEAD is the head of a run with two racks, HEAD2 of one of two plays.
written() {
    python3 "$reader" lines "$work/racks.json" "$@" >"$work/journal"
}

# told WHAT STATUS TEXT BODY ..: of the journal of these bodies this is told.
told() {
    what=$1
    ends=$2
    text=$3
    shift 3
    written "$@"
    run state "$work/racks.json" "$work/journal"
    check "$what" "$ends" "$text$newline" ''
}

# bad WHAT LINE BODY ..: this line is none of a journal.
bad() {
    what=$1
    line=$2
    shift 2
    written "$@"
    run state "$work/racks.json" "$work/journal"
    check "$what" 1 '' "rollout: 912 BadJournal line=$line$newline"
}

# seen WORD ..: what standard error has if it is a terminal.
seen() {
    python3 -c 'import os, pty, subprocess, sys
ours, theirs = pty.openpty()
subprocess.run(sys.argv[1:], stdin=subprocess.DEVNULL, stdout=subprocess.DEVNULL, stderr=theirs)
os.write(theirs, b"over\n")
shown = b""
while not shown.endswith(b"over\r\n"):
    shown += os.read(ours, 4096)
sys.stdout.write(shown.decode().replace("\r\n", "\n")[:-5])' "$rollout" "$@"
}

# Worked by hand: a length, and the sum of each byte times its place.
python3 -c 'import sys
body = b"end finished"
assert len(body) == 12
sys.stdout.write(f"{len(body)} {1*101+2*110+3*100+4*32+5*102+6*105+7*110+8*105+9*115+10*104+11*101+12*100} ")' >"$work/summed"
written 'end finished'
cut -d ' ' -f 1,2 "$work/journal" | tr '\n' ' ' >"$work/journal.front"
if cmp -s "$work/summed" "$work/journal.front"; then pass; else fail 'a line worked by hand'; fi

# A run holds the lock of its journal for as long as it goes on.
printf '[{"hosts":"all","tasks":[{"command":{"argv":["sh","-c","until [ -e %s ]; do sleep 0.1; done"]}}]}]' "$work/go" >"$work/going.json"
"$rollout" run --journal "$work/going" "$work/racks.json" "$work/going.json" >/dev/null 2>&1 &
runner=$!
until grep -q ' open: ' "$work/going" 2>/dev/null; do sleep 0.1; done
run state "$work/racks.json" "$work/going"
check 'a run that goes on' 7 'a state=running
b state=waiting
c state=waiting
d state=running
e state=waiting
end running
' ''
[ -z "$(seen state "$work/racks.json" "$work/going")" ] && pass || fail 'something is next while a run goes on'
cp "$work/going" "$work/copied"
run state "$work/racks.json" "$work/copied"
check 'a copy of its journal has no lock' 6 'a state=running
b state=waiting
c state=waiting
d state=running
e state=waiting
end broken-off
' ''
# It ends once its journal was read to the end, and is over before anything else is done.
cat >"$work/ends.c" <<'C'
#define _GNU_SOURCE
#include <dlfcn.h>
#include <fcntl.h>
#include <stdlib.h>
#include <sys/file.h>
#include <sys/stat.h>
#include <unistd.h>

ssize_t read(int fd, void *bytes, size_t count) {
    ssize_t (*real)(int, void *, size_t) = dlsym(RTLD_NEXT, "read");
    ssize_t got = real(fd, bytes, count);
    struct stat journal, found;
    if (got == 0 && !stat(getenv("JOURNAL"), &journal) && !fstat(fd, &found) && journal.st_ino == found.st_ino) {
        close(creat(getenv("GO"), 0600));
        int other = open(getenv("JOURNAL"), O_RDONLY);
        flock(other, LOCK_SH);
        close(other);
    }
    return got;
}
C
${CC:-cc} -shared -fPIC -O1 -o "$work/ends.so" "$work/ends.c" -ldl || fail 'no C compiler made ends.so'
GO="$work/go" JOURNAL="$work/going" LD_PRELOAD="$work/ends.so" "$rollout" state "$work/racks.json" "$work/going" >"$work/out" 2>"$work/errors"
status=$?
check 'a run that ends once its journal is read' 7 'a state=running
b state=waiting
c state=waiting
d state=running
e state=waiting
end running
' ''
[ -e "$work/go" ] && pass || fail 'the journal is not read to its end by the C library'
: >"$work/go"
wait "$runner"
run state "$work/racks.json" "$work/going"
check 'and once it has ended' 0 'a state=updated
b state=updated
c state=updated
d state=updated
e state=updated
end finished
' ''

told 'nothing has begun' 6 'end broken-off' HEAD
told 'a play began: all wait' 6 'a state=waiting
b state=waiting
c state=waiting
d state=waiting
e state=waiting
end broken-off' HEAD 'play: a b c d e'
told 'killed in a batch: its hosts may be down' 6 'a state=running
b state=waiting
d state=running
end broken-off' HEAD 'play: a b d' 'open: a d'
told 'killed between batches' 6 'a state=updated
b state=waiting
d state=failed
end broken-off' HEAD 'play: a b d' 'open: a d' 'closed: updated:a failed:d'
locked "$work/journal" state "$work/racks.json" "$work/journal"
check 'between batches, and it goes on' 7 'a state=updated
b state=waiting
d state=failed
end running
' ''
told 'ended well' 0 'a state=updated
d state=updated
end finished' HEAD 'play: a d' 'open: a d' 'closed: updated:a updated:d' 'end finished'
told 'ended, and one has failed' 2 'a state=failed
d state=updated
end finished' HEAD 'play: a d' 'open: a d' 'closed: failed:a updated:d' 'end finished'
told 'ended, and one was at work when it broke off' 2 'a state=halted
d state=updated
end finished' HEAD 'play: a d' 'open: a' 'resumed:' 'again: d' 'open: d' 'closed: updated:d' 'end finished'
told 'ended, and who was at work is up by now' 0 'd state=updated
end finished' HEAD 'play: a d' 'open: a' 'resumed: a' 'again: d' 'open: d' 'closed: updated:d' 'end finished'
told 'hosts were set aside' 3 'a state=failed
b state=held
end held' HEAD 'play: a b' 'open: a' 'closed: failed:a' 'held: b' 'end held'
told 'a group blocked it' 3 'a state=failed
b state=waiting
end blocked group=r1' HEAD 'play: a b' 'open: a' 'closed: failed:a' 'end blocked group=r1'
told 'too many failed' 4 'a state=failed
b state=halted
c state=waiting
end too-many-failed step=1 failed=1 size=2' HEAD 'play: a b c' 'open: a b' 'closed: failed:a halted:b' 'end too-many-failed step=1 failed=1 size=2'
told 'all failed' 4 'a state=failed
end all-failed' HEAD 'play: a' 'open: a' 'closed: failed:a' 'end all-failed'
told 'a play is to come' 6 'a state=updated
end broken-off' HEAD2 'play: a' 'open: a' 'closed: updated:a' 'end finished'
told 'in the second play who failed stays so, and who was updated is idle' 6 'a state=failed
c state=running
end broken-off' HEAD2 'play: a b' 'open: a b' 'closed: failed:a updated:b' 'end finished' 'play: c' 'open: c'
told 'both plays have ended' 2 'a state=failed
c state=updated
end finished' HEAD2 'play: a b' 'open: a b' 'closed: failed:a updated:b' 'end finished' 'play: c' 'open: c' 'closed: updated:c' 'end finished'

bad 'no head' 1 'play: a'
bad 'two heads' 2 HEAD HEAD
bad 'a batch before a play' 2 HEAD 'open: a'
bad 'a host that nobody is' 2 HEAD 'play: a nobody'
bad 'a host twice' 2 HEAD 'play: a a'
bad 'two spaces' 2 HEAD 'play:  a'
bad 'a space at the end' 2 HEAD 'play: a '
bad 'a batch of nobody' 3 HEAD 'play: a' 'open:'
bad 'a batch of one who does not wait' 3 HEAD 'play: a' 'open: b'
bad 'a batch while one is open' 4 HEAD 'play: a b' 'open: a' 'open: b'
bad 'an end while a batch is open' 4 HEAD 'play: a b' 'open: a' 'end finished'
bad 'a play while a batch is open' 4 HEAD2 'play: a b' 'open: a' 'play: b'
bad 'a batch over that was not open' 3 HEAD 'play: a' 'closed: updated:a'
bad 'a batch over without one of its hosts' 4 HEAD 'play: a b' 'open: a b' 'closed: updated:a'
bad 'a batch over in another order' 4 HEAD 'play: a b' 'open: a b' 'closed: updated:b updated:a'
bad 'a batch over of which a host waits' 4 HEAD 'play: a' 'open: a' 'closed: waiting:a'
bad 'a play behind the last' 4 HEAD 'play: a' 'end finished' 'play: b'
bad 'a play behind one that did not finish' 4 HEAD2 'play: a' 'end held' 'play: b'
bad 'a batch behind the end' 4 HEAD 'play: a' 'end finished' 'open: a'
bad 'who failed waits again' 6 HEAD2 'play: a' 'open: a' 'closed: failed:a' 'end finished' 'play: a'
bad 'an end that no run has' 3 HEAD 'play: a' 'end stopped'
bad 'a group that is not there' 3 HEAD 'play: a' 'end blocked group=r9'
bad 'a number with a zero in front' 3 HEAD 'play: a' 'end too-many-failed step=01 failed=1 size=1'
bad 'a word that no journal has' 2 HEAD 'plays: a'

# ---- runs that went on
told 'resumed: who was at work may be down, and nobody waits' 6 'a state=updated
b state=halted
end broken-off' HEAD 'play: a b c' 'open: a' 'closed: updated:a' 'open: b' 'resumed:'
told 'resumed, and one is up by now' 6 'a state=updated
c state=failed
end broken-off' HEAD 'play: a b c' 'open: a c' 'closed: updated:a failed:c' 'open: b' 'resumed: b'
told 'the play goes on: who was updated stays so' 6 'a state=updated
b state=running
c state=waiting
end broken-off' HEAD 'play: a b c' 'open: a' 'closed: updated:a' 'open: b' 'resumed: b' 'again: b c' 'open: b'
told 'who was set aside waits again' 6 'a state=failed
b state=waiting
end broken-off' HEAD 'play: a b' 'open: a' 'closed: failed:a' 'held: b' 'end held' 'resumed:' 'again: b'
told 'behind a play that finished the next one comes' 6 'a state=waiting
c state=failed
end broken-off' HEAD2 'play: a c' 'open: a c' 'closed: updated:a failed:c' 'end finished' 'resumed:' 'play: a'
told 'resumed twice' 6 'a state=halted
b state=halted
end broken-off' HEAD 'play: a b' 'open: a' 'resumed:' 'again: b' 'open: b' 'resumed:'
told 'resumed before anything' 0 'a state=updated
end finished' HEAD 'resumed: d' 'play: a' 'open: a' 'closed: updated:a' 'end finished'
bad 'resumed without a head' 1 'resumed:'
bad 'again without a play' 2 HEAD 'again: a'
bad 'again while a batch is open' 4 HEAD 'play: a b' 'open: a' 'again: b'
bad 'again with one who was updated' 6 HEAD 'play: a b' 'open: a' 'closed: updated:a' 'resumed:' 'again: a b'
bad 'again with one who is down' 5 HEAD 'play: a b' 'open: a' 'resumed:' 'again: a b'
bad 'a play that comes while one goes on' 4 HEAD2 'play: a' 'resumed:' 'play: b'
bad 'somebody else is up by now' 2 HEAD 'resumed: z'

# ---- a long one: a run of six hundred batches

python3 - "$top/tests/slow" "$work/long.json" "$work/long.journal" <<'PYTHON'
import json, sys
sys.path.append(sys.argv[1])
from entries import head, line
names = [f"h{place:03}" for place in range(600)]
inventory = json.dumps({"all": {"hosts": dict.fromkeys(names)}}).encode()
open(sys.argv[2], "wb").write(inventory)
bodies = [body for name in names for body in (f"open: {name}", f"closed: updated:{name}")]
playbook = b'[{"hosts":"all","serial":1,"tasks":[{"command":"true"}]}]'
open(sys.argv[3], "wb").write(b"".join(map(line, [head(inventory, playbook, 1), "play: " + " ".join(names), *bodies, "end finished"])))
PYTHON
run state "$work/long.json" "$work/long.journal"
check 'six hundred batches' 0 "$(seq 0 599 | sed 's/.*/00&/; s/.*\(...\)$/h\1 state=updated/')${newline}end finished$newline" ''

: >"$work/journal"
run state "$work/racks.json" "$work/journal"
check 'an empty file' 1 '' "rollout: 912 BadJournal line=1$newline"
printf 'no line feed' >"$work/journal"
run state "$work/racks.json" "$work/journal"
check 'no whole line' 1 '' "rollout: 912 BadJournal line=1$newline"

written HEAD 'play: a b'
printf '%s\n' "$racks" >"$work/other.json"
run state "$work/other.json" "$work/journal"
check 'another inventory, by a line feed' 1 '' "rollout: 913 OtherInputs$newline"
printf '{"all":{"hosts":{"z":null}}}' >"$work/other.json"
run state "$work/other.json" "$work/journal"
check 'another inventory, without the hosts' 1 '' "rollout: 913 OtherInputs$newline"

# ---- another inventory that is meant

# meant WHAT STATUS TEXT WORD ..: with the other inventory this is told of the journal.
meant() {
    what=$1
    ends=$2
    text=$3
    shift 3
    run state "$@" "$work/other.json" "$work/journal"
    check "$what" "$ends" "$text$newline" ''
}
written HEAD 'play: a b d' 'open: a' 'closed: updated:a' 'open: b'
printf '%s\n' "$racks" >"$work/other.json"
stands='a state=updated
b state=running
d state=waiting
end broken-off'
meant 'the same by a line feed' 6 "$stands" --changed-inputs
run state "$work/other.json" "$work/journal" --changed-inputs --changed-inputs
check 'the same, said behind the files and twice' 6 "$stands$newline" ''
run state "$work/racks.json" "$work/journal" --changed-inputs
check 'with the inventory that it began with nothing changes' 6 "$stands$newline" ''
locked "$work/journal" state --changed-inputs "$work/other.json" "$work/journal"
check 'the same by a line feed, of a run that goes on' 7 "${stands%broken-off}running$newline" ''
printf '{"r9":{"vars":{"max_down":1},"hosts":{"a":null,"b":null,"c":null,"d":null,"new":{"down":true}}}}' >"$work/other.json"
meant 'with other groups and limits, and a host more that is down' 6 'a state=updated
b state=running
d state=waiting
new state=off
end broken-off' --changed-inputs
# lost WHAT LINE INVENTORY: with this inventory this line is bad.
lost() {
    printf '%s' "$3" >"$work/other.json"
    run state --changed-inputs "$work/other.json" "$work/journal"
    check "$1" 1 '' "rollout: 912 BadJournal line=$2$newline"
}
lost 'a host that is there no more' 2 '{"r1":{"hosts":{"a":null,"b":null}}}'
lost 'a host that waited, and is marked as down now' 2 '{"r1":{"hosts":{"a":null,"b":{"down":true},"d":null}}}'
written HEAD 'play: a' 'open: a' 'closed: failed:a' 'end blocked group=r1'
lost 'a group that is there no more' 5 '{"r9":{"hosts":{"a":null}}}'
lost 'a host that failed, and is marked as down now' 2 '{"r1":{"hosts":{"a":{"down":true}}}}'
written 'play: a'
lost 'no head' 1 "$racks"
printf '{' >"$work/other.json"
run state --changed-inputs "$work/other.json" "$work/journal"
check 'another inventory that is none' 1 '' "rollout: 201 NotJson$newline"

written HEAD 'play: a b'
printf '{' >"$work/other.json"
run state "$work/other.json" "$work/journal"
check 'an inventory that is none' 1 '' "rollout: 201 NotJson$newline"
run state "$work/racks.json" "$work/nosuch"
check 'no journal' 1 '' "rollout: 902 File name=$work/nosuch$newline"
run state "$work/nosuch" "$work/journal"
check 'no inventory' 1 '' "rollout: 902 File name=$work/nosuch$newline"

# ---- what a terminal shows behind it

# shown WHAT LINES BODY ..: of the journal of these bodies standard error has these lines if it is a terminal.
shown() {
    what=$1
    lines=$2
    shift 2
    written "$@"
    seen state "$work/racks.json" "$work/journal" >"$work/errors"
    [ "$(cat "$work/errors")" = "$lines" ] && pass || fail "$what: a terminal shows $(cat "$work/errors")"
}
going_on="next: rollout run --resume $work/journal"
shown 'hosts are running, and one has failed' "note: programs may still run on the hosts that are running
$going_on --up b,c $work/racks.json PLAYBOOK" HEAD 'play: a b c' 'open: a c' 'closed: updated:a failed:c' 'open: b'
shown 'hosts wait' "$going_on $work/racks.json PLAYBOOK" HEAD 'play: a b' 'open: a' 'closed: updated:a'
shown 'a play is to come' "$going_on $work/racks.json PLAYBOOK" HEAD2 'play: a' 'open: a' 'closed: updated:a' 'end finished'
shown 'a host has failed' "$going_on --up a $work/racks.json PLAYBOOK" HEAD 'play: a' 'open: a' 'closed: failed:a' 'end all-failed'
shown 'nothing is left to do' '' HEAD 'play: a' 'open: a' 'closed: updated:a' 'end finished'

written HEAD2 'play: a b d' 'open: a d' 'closed: updated:a failed:d' 'held: b' 'end held'
counting python3 "$reader" try "$rollout" "$work/racks.json" "$work/journal"
counting python3 "$reader" draw "$rollout" 1 "$(fewer 300 40)"
finish
