#!/bin/sh
# Runs that are kept in a journal: what it says is what the recap says; a run that is killed at any moment, whose disk fails or that loses its power leaves a journal in which nobody is
# lost, and goes on to its end; and a file that is there already is not touched. It needs a C compiler, Python 3 and crates/rollout/out/rollout.
. "$(dirname "$0")/common.sh"
quietly
helpers=$top/tests/journal

cc -shared -fPIC -O1 -o "$work/disk.so" "$helpers/disk.c" -ldl || exit 1
mkdir "$work/kept"
counting python3 "$helpers/kept.py" "$rollout" "$work/kept" "$work/disk.so" "${SEED:-1}" "${DRAWN_JOURNALS:-$(fewer 60 10)}" "${KILLED_JOURNALS:-$(fewer 20 5)}"

# ---- runs that break off and go on

counting python3 "$helpers/resumed.py" "$rollout" "$work/kept" "$work/disk.so" "${SEED:-1}" "${RESUMED_RUNS:-$(fewer 60 10)}"

# ---- killed at each moment, and gone on with: MOMENTS=300 tries all of them

cc -O1 -o "$work/note" "$helpers/note.c" || exit 1
counting python3 "$helpers/moments.py" "$rollout" "$work/kept" "$work/disk.so" "$work/note" "${SEED:-1}" "${MOMENTS:-$(fewer 30 8)}"

# ---- files that are there already

printf '%s' "$racks" >"$work/racks.json"
printf '[{"hosts":"all","tasks":[{"command":"touch %s/began"}]}]' "$work" >"$work/play.json"
mkdir "$work/places"
cd "$work/places" || exit 1
echo kept >file
mkdir folder
mkfifo pipe
ln -s file link
for name in file folder pipe link /dev/null .; do
    run run "$work/racks.json" "$work/play.json" --journal "$name"
    check "a journal of the name $name" 1 '' "rollout: 910 JournalThere$newline"
done
[ "$(cat file)" = kept ] && [ ! -e "$work/began" ] && pass || fail 'a journal that is there is touched, or something is started'

# A link to nothing is there too, and is not followed; it is seen when the plays begin.
unopened() {
    [ ! -e "$work/began" ] && [ "$status" -eq 6 ] && [ "$(tail -n 1 "$work/out")" = 'end fault' ] && [ "$(cat "$work/errors")" = 'rollout: 911 JournalWrite' ] && ! grep -q '^open:' "$work/out" && pass || fail "$1"
}
ln -s nowhere lost
run run "$work/racks.json" "$work/play.json" --journal lost
unopened 'a link to nothing is followed'
[ ! -e nowhere ] && pass || fail 'what a link names is made'
run run "$work/racks.json" "$work/play.json" --journal none/journal
unopened 'a folder that is not there'
run run "$work/racks.json" "$work/play.json" --journal file/journal
unopened 'a folder that is a file'
run run "$work/racks.json" "$work/play.json" --journal file/
unopened 'a file as a folder'
run run "$work/racks.json" "$work/play.json" --journal ''
unopened 'no name'
# A run that begins with hosts that are mended makes its journal first: where it can't, nothing is printed.
for name in lost none/journal file/ ''; do
    run run "$work/racks.json" "$work/play.json" --up a --journal "$name"
    check "a run with hosts that are mended, and the journal '$name'" 6 '' "rollout: 911 JournalWrite$newline"
    [ ! -e "$work/began" ] && [ ! -e nowhere ] && pass || fail "something was started without a journal: '$name'"
done
mkdir unsynced
FOLDER_FAILS=1 LD_PRELOAD="$work/disk.so" "$rollout" run "$work/racks.json" "$work/play.json" --journal unsynced/journal >"$work/out" 2>"$work/errors"
status=$?
unopened 'a folder that is not synced'

# Whatever the mask lets others have, it is its owner's alone.
(
    umask 0
    "$rollout" run "$work/racks.json" "$work/play.json" --journal own >"$work/out" 2>"$work/errors" </dev/null
)
[ "$(stat -c %a own)" = 600 ] && pass || fail "others may read a journal: $(stat -c %a own)"
rm -f "$work/began"

# ---- what leaves none

echo '[]' >no-plays.json
for words in "$work/none.json $work/play.json" "no-plays.json $work/play.json" "$work/racks.json no-plays.json"; do
    run run $words --journal none-left
    [ "$status" -eq 1 ] && [ ! -e none-left ] && pass || fail "refused files leave a journal: $words"
done

# ---- beside other options

run run "$work/racks.json" "$work/play.json" --journal=first --journal second
[ "$status" -eq 0 ] && [ -e second ] && [ ! -e first ] && pass || fail 'the last journal counts'
run run "$work/racks.json" "$work/play.json" --stop-file file --journal stopped
[ "$status" -eq 6 ] && [ "$(cat "$work/errors")" = 'rollout: 917 Stopped' ] && [ "$(sed 's/^[0-9]* [0-9]* //; s/:.*//' stopped | tail -n 1)" = play ] && pass || fail 'a run that is stopped ends its journal'
run run -v "$work/racks.json" "$work/play.json" --journal told
[ "$status" -eq 0 ] && grep -q 'open: ' "$work/errors" && [ "$(sed 's/^[0-9]* [0-9]* //' told)" = "$(sed 's/^[0-9]* [0-9]* //' second)" ] && pass || fail 'with -v another journal is kept'

# ---- two runs at once: each run holds the inventory's lock

# held WORD..: runs the program while another holds the inventory's lock
held() {
    locked "$work/racks.json" "$@"
}
rm -f "$work/began"
held run "$work/racks.json" "$work/play.json" --journal locked
check 'another run holds the inventory' 1 '' "rollout: 918 Locked$newline"
held run "$work/racks.json" "$work/play.json"
check 'another run holds the inventory, of a run without a journal' 1 '' "rollout: 918 Locked$newline"
held run "$work/racks.json" "$work/play.json" --up a
check 'another run holds the inventory, of a run that begins with hosts that are mended' 1 '' "rollout: 918 Locked$newline"
held run "$work/racks.json" "$work/play.json" --journal second
check 'a journal that is there goes first' 1 '' "rollout: 910 JournalThere$newline"
held run "$work/racks.json" "$work/none.json"
check 'before the files are read' 1 '' "rollout: 918 Locked$newline"
[ ! -e locked ] && [ ! -e "$work/began" ] && pass || fail 'a run that is locked out made its journal, or started something'
held run "$work/racks.json" "$work/play.json" --no-lock
[ "$status" -eq 0 ] && pass || fail 'a run that is to lock nothing asks for a lock'
held run "$work/racks.json" "$work/play.json" --no-lock --lock-file "$work/racks.json"
[ "$status" -eq 0 ] && pass || fail 'a run that is to lock nothing asks for the lock of a lock file'
held run "$work/racks.json" "$work/play.json" --lock-file another
[ "$status" -eq 0 ] && [ -e another ] && [ ! -s another ] && pass || fail 'another file is locked in place of the inventory, and made'
for words in "limits $work/racks.json" "rehearse $work/racks.json $work/play.json" "state $work/racks.json second"; do
    held $words
    [ "$status" -eq 0 ] && pass || fail "it asks for a lock: $words"
done
held plan "$work/racks.json" "$work/play.json"
[ "$status" -eq 0 ] && pass || fail 'a plan asks for a lock'
# Whoever looks at it is told which file is locked, and the process that holds it if the system tells.
held run -v "$work/racks.json" "$work/play.json"
sed -E '2s/^  (process [0-9]+|another run) holds/  N holds/' "$work/errors" >"$work/told" && mv "$work/told" "$work/errors"
check 'who holds the lock' 1 '' "rollout: 918 Locked$newline  N holds the lock of $work/racks.json: wait for its end$newline"
# Of two files that are held by two processes each is told with its own.
cp "$work/racks.json" racks-too
python3 - "$built" "$work/play.json" "$work/racks.json" racks-too <<'PYTHON' && pass || fail 'who holds the lock of each of two files'
import os, subprocess, sys
program, play, *names = sys.argv[1:]
# Each ends with this program, which has its standard input.
hold = "import fcntl, sys\nwith open(sys.argv[1]) as file:\n    fcntl.flock(file, fcntl.LOCK_EX)\n    print(flush=True)\n    sys.stdin.read()"
holders = [subprocess.Popen([sys.executable, "-c", hold, name], stdin=subprocess.PIPE, stdout=subprocess.PIPE) for name in names]
for holder in holders:
    holder.stdout.readline()
listed = open("/proc/locks").read() if os.path.exists("/proc/locks") else ""
wrong = False
for name, holder in zip(names, holders):
    found = os.stat(name)
    line = f" {holder.pid} {os.major(found.st_dev):02x}:{os.minor(found.st_dev):02x}:{found.st_ino} "
    who = f"process {holder.pid}" if line in listed else "another run"
    said = subprocess.run([program, "run", "-v", name, play], stdin=subprocess.DEVNULL, capture_output=True, text=True).stderr
    if said != f"rollout: 918 Locked\n  {who} holds the lock of {name}: wait for its end\n":
        print(f"held by {holder.pid}: {said}")
        wrong = True
sys.exit(wrong)
PYTHON
# The inventory is read from the file that is locked: where another takes its name in the moment before, that one is locked and read.
cat >"$work/replace.c" <<'C'
#define _GNU_SOURCE
#include <dlfcn.h>
#include <errno.h>
#include <stdio.h>
#include <stdlib.h>
#include <string.h>
#include <sys/file.h>
#include <unistd.h>

static int locked = -1;

static void comes(const char *what) {
    if (!strcmp(getenv("REPLACE_AT"), what)) rename(getenv("REPLACE_BY"), getenv("REPLACED"));
}

int flock(int fd, int how) {
    int (*real)(int, int) = dlsym(RTLD_NEXT, "flock");
    if (getenv("NO_LOCKS")) {
        errno = ENOLCK;
        return -1;
    }
    if (how & LOCK_EX) {
        locked = fd;
        comes("lock");
    }
    return real(fd, how);
}

ssize_t read(int fd, void *bytes, size_t count) {
    ssize_t (*real)(int, void *, size_t) = dlsym(RTLD_NEXT, "read");
    if (fd == locked) comes("read");
    return real(fd, bytes, count);
}
C
${CC:-cc} -shared -fPIC -O1 -o "$work/replace.so" "$work/replace.c" -ldl || fail 'no C compiler made replace.so'
printf '{"all":{"hosts":{"old":null}}}' >replaced
printf '{"all":{"hosts":{"new":null}}}' >by
printf '[{"hosts":"all","tasks":[{"command":{"argv":["sh","-c","%s run --no-lock -v replaced one; %s run -v replaced one"]}}]}]' "$built" "$built" >inside
printf '[{"hosts":"all","tasks":[{"command":"true"}]}]' >one
REPLACE_AT=lock REPLACE_BY=by REPLACED=replaced LD_PRELOAD="$work/replace.so" "$built" run -v replaced inside >"$work/out" 2>"$work/errors"
[ $? -eq 4 ] && grep -q '^new ok=0 changed=0 failed=1 ' "$work/out" && grep -q '^  new stdout: new ok=1 ' "$work/errors" && grep -q '^  new stderr: rollout: 918 Locked$' "$work/errors" && pass ||
    fail "an inventory that is replaced before it is locked: $(cat "$work/out" "$work/errors")"
# Where another takes its name behind that moment, the locked one is read all the same.
printf '{"all":{"hosts":{"old":null}}}' >replaced
printf '{"all":{"hosts":{"new":null}}}' >by
REPLACE_AT=read REPLACE_BY=by REPLACED=replaced LD_PRELOAD="$work/replace.so" "$built" run replaced one >"$work/out" 2>"$work/errors"
[ $? -eq 0 ] && [ ! -e by ] && grep -q '^old ok=1 ' "$work/out" && ! grep -q '^new ' "$work/out" && pass || fail "an inventory that is replaced once it is locked: $(cat "$work/out" "$work/errors")"
# One that is replaced while the run goes on is told of in the end.
printf '[{"hosts":"all","tasks":[{"command":{"argv":["sh","-c","cp replaced by && mv by replaced"]}}]}]' >inside
"$built" run replaced inside >"$work/out" 2>"$work/errors"
status=$?
check 'the inventory is replaced meanwhile' 0 "$(cat "$work/out")$newline" "note: the locked file was replaced while this run went on: another run of it was not kept out from then on$newline"
"$built" run --quiet replaced inside >"$work/out" 2>"$work/errors"
[ $? -eq 0 ] && [ ! -s "$work/errors" ] && pass || fail "the same, and nothing is to be told: $(cat "$work/errors")"
# The program of a host finds the lock held, and behind the run it is free.
printf '[{"hosts":"a","tasks":[{"command":{"argv":["python3","-c","import fcntl\\ntry:\\n    fcntl.flock(open(\\"%s\\"), fcntl.LOCK_EX | fcntl.LOCK_NB)\\nexcept BlockingIOError:\\n    pass\\nelse:\\n    exit(1)"]}}]}]' "$work/racks.json" >"$work/asking.json"
run run "$work/racks.json" "$work/asking.json" --journal asking
[ "$status" -eq 0 ] && pass || fail 'the lock is not held while programs run'
run run "$work/racks.json" "$work/asking.json"
check 'a run without a journal' 0 'boundary 1: plan batches=1 bound=group eu waiting=1 room=3
open: a
boundary 2: plan batches=0 bound=nothing
a ok=1 changed=1 failed=0 skipped=0 ignored=0 state=updated
end finished
' ''
run run "$work/racks.json" "$work/asking.json" --up a
[ "$status" -eq 0 ] && pass || fail 'the lock is not held by a run that begins with hosts that are mended'
run run "$work/racks.json" "$work/asking.json" --no-lock
[ "$status" -eq 4 ] && pass || fail 'the lock is held by a run that is to lock nothing'
run run "$work/racks.json" "$work/asking.json" --lock-file "$work/racks.json"
[ "$status" -eq 0 ] && pass || fail 'the lock file is not locked'
run run "$work/racks.json" "$work/play.json" --lock-file /no/such/folder/file
check 'a lock file that can not be had' 1 '' "rollout: 902 File name=/no/such/folder/file$newline"
# A pipe has no lock, and is read once; with -v that is said.
unlocked="note: the inventory has no lock: another run of it is not kept out"
for words in '--journal piped' --quiet '-v --journal told-piped' -v '-v --quiet --up a' '-v --no-lock' '-v --lock-file another'; do
    cat "$work/racks.json" >pipe &
    run run pipe "$work/play.json" $words
    wait
    case $words in
    *lock*) said='' ;;
    -v*) said=$unlocked ;;
    *) said='' ;;
    esac
    [ "$status" -eq 0 ] && [ "$(grep '^note: ' "$work/errors")" = "$said" ] && pass || fail "an inventory from a pipe with $words: $(cat "$work/errors")"
done
[ -e piped ] && [ -e told-piped ] && pass || fail 'an inventory from a pipe, without a journal'
# A file has none where its file system has no locks.
NO_LOCKS=1 LD_PRELOAD="$work/replace.so" "$built" run -v "$work/racks.json" "$work/play.json" >"$work/out" 2>"$work/errors"
[ $? -eq 0 ] && [ "$(grep '^note: ' "$work/errors")" = "$unlocked" ] && pass || fail "a file system without locks: $(cat "$work/errors")"
# At a terminal it is said unasked, and not with --quiet.
seen() {
    python3 -c 'import os, pty, subprocess, sys
upper, lower = pty.openpty()
with open(sys.argv[1], "rb") as inventory:
    text = inventory.read()
subprocess.run(sys.argv[2:], input=text, stdout=subprocess.DEVNULL, stderr=lower)
os.close(lower)
said = b""
try:
    while more := os.read(upper, 65536):
        said += more
except OSError:
    pass
sys.stdout.buffer.write(said.partition(b"\r\n")[0])' "$work/racks.json" "$built" run /dev/stdin "$work/play.json" "$@"
}
[ "$(seen)" = "$unlocked" ] && [ -z "$(seen --quiet)" ] && [ "$(seen --quiet -v)" = "$unlocked" ] && pass || fail "at a terminal: $(seen)"
run run "$work/racks.json" "$work/play.json" -v
[ "$status" -eq 0 ] && ! grep -q '^note: ' "$work/errors" && pass || fail 'a lock that is held is told as none'

# A run that has a journal holds the lock of that too, whatever its inventory is: its program asks for a resume with a copy of the inventory, and from a pipe.
cp "$work/racks.json" copy.json
cat >meanwhile.sh <<'SCRIPT'
for inventory in "$2" copy.json /dev/stdin; do
    cat copy.json | "$1" run "$inventory" meanwhile.json --resume meanwhile >>meanwhile.out 2>>meanwhile.errors
    echo "$?" >>meanwhile.status
done
SCRIPT
printf '[{"hosts":"a","tasks":[{"command":{"argv":["sh","meanwhile.sh","%s","%s"]}}]}]' "$rollout" "$work/racks.json" >meanwhile.json
for words in '' '--up b'; do
    rm -f meanwhile meanwhile.out meanwhile.errors meanwhile.status
    run run "$work/racks.json" meanwhile.json --journal meanwhile $words
    [ "$status" -eq 0 ] && [ "$(tr '\n' ' ' <meanwhile.status)" = '1 1 1 ' ] && [ ! -s meanwhile.out ] && [ "$(sort -u meanwhile.errors)" = 'rollout: 918 Locked' ] && pass || fail "a resume beside a run that goes on: $(cat meanwhile.status meanwhile.errors)"
    run state "$work/racks.json" meanwhile
    check 'and its journal is whole' 0 "a state=updated${newline}end finished$newline" ''
done
cd "$top" || exit 1
finish
