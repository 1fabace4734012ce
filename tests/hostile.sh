#!/bin/sh
# Hostile texts and systems: texts that take much memory, with all of it and under small address spaces; a stack of 256 KB; files that are spoiled; inputs that change, stop or never end while
# they are read; outputs that take a byte at a time, don't block or end behind any byte; limits of file size; many runs side by side. What is said is right, or a fault that is true, and no signal
# ends the program. It needs a C compiler, Python 3 and crates/rollout/out/rollout. `SEED=7 CASES=30000 sh tests/hostile.sh` spoils the files of other cases.
. "$(dirname "$0")/common.sh"
quietly
. "$top/tests/programs/steps.sh"
helpers=$top/tests/hostile

# ---- texts, by what memory and stack there is

mkdir "$work/texts" "$work/pipes"
if proved 'hostile texts of a megabyte, with little memory or stack'; then
    counting python3 "$helpers/spaces.py" "$rollout" "$work/texts" v64 v128 v256 s256
else
    counting env BYTES=2000 python3 "$helpers/spaces.py" "$rollout" "$work/texts"
fi

# ---- files that are spoiled, beside the slow program

counting python3 "$helpers/spoiled.py" "$rollout" "${SEED:-}" "${CASES:-$(fewer 400 50)}"

# ---- pipes

counting python3 "$helpers/piped.py" "$rollout" "$work/pipes"

# ---- inputs that change while they are read

# Before the read CHANGE_AT of the file CHANGING, or each of its reads, the program has a shell do what CHANGE says. Where ONE_BYTE is set no read and no write takes more, and once
# one would have it makes that file. Behind OUT_ROOM bytes a write to standard output fails; where OUT_NOTHING is set it takes none.
cat >"$work/change.c" <<'C'
#define _GNU_SOURCE
#include <dlfcn.h>
#include <errno.h>
#include <fcntl.h>
#include <stdlib.h>
#include <sys/stat.h>
#include <unistd.h>

static const char *change, *one_byte, *out_room, *out_nothing;
static long change_at;
static size_t out_left;
static struct stat changing;

/* What is started has none of this. */
__attribute__((constructor)) static void alone(void) {
    change = getenv("CHANGE");
    change_at = change ? atol(getenv("CHANGE_AT")) : 0;
    if (change && stat(getenv("CHANGING"), &changing)) _exit(95);
    one_byte = getenv("ONE_BYTE");
    out_room = getenv("OUT_ROOM");
    out_left = out_room ? (size_t)atol(out_room) : 0;
    out_nothing = getenv("OUT_NOTHING");
    unsetenv("LD_PRELOAD");
}

static size_t taken(size_t count) {
    if (!one_byte || count <= 1) return count;
    close(open(one_byte, O_CREAT | O_WRONLY, 0600));
    return 1;
}

static int is_changing(int file) {
    struct stat is;
    return change && fstat(file, &is) == 0 && is.st_ino == changing.st_ino && is.st_dev == changing.st_dev;
}

ssize_t read(int file, void *bytes, size_t count) {
    static ssize_t (*real)(int, void *, size_t);
    static long calls;
    if (!real) real = (ssize_t (*)(int, void *, size_t))dlsym(RTLD_NEXT, "read");
    if (is_changing(file) && (++calls == change_at || change_at == 0) && system(change)) _exit(96);
    return real(file, bytes, taken(count));
}

ssize_t write(int file, const void *bytes, size_t count) {
    static ssize_t (*real)(int, const void *, size_t);
    if (!real) real = (ssize_t (*)(int, const void *, size_t))dlsym(RTLD_NEXT, "write");
    if (file != 1 || !out_room || count == 0) return real(file, bytes, taken(count));
    if (out_left == 0 && out_nothing) return 0;
    if (out_left == 0) {
        errno = ENOSPC;
        return -1;
    }
    ssize_t wrote = real(file, bytes, count < out_left ? count : out_left);
    if (wrote > 0) out_left -= wrote;
    return wrote;
}
C
${CC:-cc} -shared -fPIC -O1 -o "$work/change.so" "$work/change.c" -ldl || {
    fail 'no C compiler made change.so'
    finish
    exit 1
}

# sized BYTES HOST..: an inventory of so many bytes, blanks before its hosts
sized() {
    bytes=$1
    shift
    text=$(printf '"hosts":{%s}}}' "$(printf '"%s":null,' "$@" | sed 's/,$//')")
    {
        printf '{"all":{'
        head -c $((bytes - 8 - ${#text})) /dev/zero | tr '\0' ' '
        printf '%s' "$text"
    }
}
count=$(fewer 20000 10000)
sized $count a b >"$work/before.json"
sized $count a b c >"$work/after.json"
blocks=$(((count + 8191) / 8192))

# changing AT SCRIPT WORD..: the program, where this happens before that read of the first file
changing() {
    cp "$work/before.json" "$work/changing.json"
    at=$1
    script=$2
    shift 2
    timeout -k 5 "$limit" env CHANGING="$work/changing.json" CHANGE_AT="$at" CHANGE="cd '$work' && $script" LD_PRELOAD="$work/change.so" "$rollout" "$@" >"$work/out" 2>"$work/errors" </dev/null
    status=$?
}

# changed WHAT AT SCRIPT STATUS OUT ERRORS: what `limits` says of a file to which this happens before that read of it
changed() {
    changing "$2" "$3" limits "$work/changing.json"
    check "a file that is $1 before the read $2" "$4" "$5" "$6"
}
two="hosts=2 limited=0$newline"
three="hosts=3 limited=0$newline"
no_json="rollout: 201 NotJson$newline"
for at in $(seq 1 $((blocks + 1))); do
    changed 'renamed over' "$at" 'cp after.json new.json && mv new.json changing.json' 0 "$two" ''
    changed 'deleted' "$at" 'rm changing.json' 0 "$two" ''
    changed 'made longer by blanks' "$at" 'printf "  \n" >>changing.json' 0 "$two" ''
    # What was read by then is all that is read, or goes before what is new: the hosts stand in the last block.
    if [ "$at" -le "$blocks" ]; then
        changed 'emptied' "$at" ': >changing.json' 1 '' "$no_json"
        changed 'rewritten' "$at" 'cat after.json >changing.json' 0 "$three" ''
    else
        changed 'rewritten' "$at" 'cat after.json >changing.json' 0 "$two" ''
    fi
done
changed 'cut' 2 'truncate -s 8193 changing.json' 1 '' "$no_json"
if proved 'a file that grows as it is read'; then
    changed 'made longer' 0 'head -c 1000000 /dev/zero >>changing.json' 1 '' "rollout: 903 InputTooLarge$newline"
fi
# The playbook is opened behind the inventory, and what a run has read it goes by.
changing 2 'cp true.json late.json' plan "$work/changing.json" "$work/late.json"
check 'a playbook that comes as the inventory is read' 0 "plan batches=1 bound=one-host${newline}batch 1: a b$newline" ''
# A journal grows while its run is under way: whole lines count as far as they were there, and what broke off is passed over.
"$rollout" run "$work/one.json" "$work/true.json" --journal "$work/whole.journal" >/dev/null 2>&1 </dev/null
# growing WHAT AT SCRIPT STATUS OUT: what `state` says of a journal with the first three lines of the whole one, to which this happens before that read of it
growing() {
    head -n 3 "$work/whole.journal" >"$work/changing.json"
    timeout -k 5 "$limit" env CHANGING="$work/changing.json" CHANGE_AT="$2" CHANGE="cd '$work' && $3" LD_PRELOAD="$work/change.so" "$rollout" state "$work/one.json" "$work/changing.json" >"$work/out" 2>"$work/errors" </dev/null
    status=$?
    check "a journal that is $1 before the read $2" "$4" "$5" ''
}
open="a state=running${newline}end broken-off$newline"
for at in 1 2; do
    growing 'gone on with' $at 'tail -n 2 whole.journal >>changing.json' 0 "a state=updated${newline}end finished$newline"
    growing 'gone on with by half of a line' $at 'tail -n 2 whole.journal | head -c 9 >>changing.json' 6 "$open"
    growing 'gone on with by a line and a half' $at 'tail -n 2 whole.journal | head -c 32 >>changing.json' 6 "a state=updated${newline}end broken-off$newline"
    growing 'renamed over' $at 'cp whole.journal new && mv new changing.json' 6 "$open"
done
hosts 3 >"$work/kept/hosts.json"
printf '[{"hosts":"all","tasks":[{"command":{"argv":["sh","-c","rm -f %s"]}},{"command":"true"}]}]' "$work/kept/hosts.json $work/kept/play.json" >"$work/kept/play.json"
run run "$work/kept/hosts.json" "$work/kept/play.json"
check 'a run whose programs delete its files' 0 "$(all 3 'ok=2 changed=2 failed=0 skipped=0 ignored=0 state=updated' finished)$newline" ''

# ---- inputs that never end, or are no files

for command in plan run rehearse; do
    run "$command" "$work/one.json" "$work"
    check "$command: a folder as the playbook" 1 '' "rollout: 902 File name=$work$newline"
done
run check "$work/one.json" "$work/true.json" "$work"
check 'a folder as the plan that is checked' 1 '' "rollout: 902 File name=$work$newline"
run state "$work/one.json" "$work"
check 'a folder as the journal' 1 '' "rollout: 902 File name=$work$newline"
run lint "$work" "$work/true.json"
check 'lint: a folder as the inventory' 1 '' "rollout: 902 File name=$work$newline"
run check "$work/one.json" "$work/true.json" /dev/zero
check '/dev/zero as the plan that is checked' 1 '' "rollout: 903 InputTooLarge$newline"
run state "$work/one.json" /dev/zero
check '/dev/zero as the journal' 1 '' "rollout: 903 InputTooLarge$newline"
run check "$work/one.json" "$work/true.json" /dev/null
check 'the null device as the plan that is checked' 1 "missing host=a$newline" ''
run state "$work/one.json" /dev/null
check 'the null device as the journal' 1 '' "rollout: 912 BadJournal line=1$newline"
run limits /dev/null
check 'the null device' 1 '' "$no_json"
run plan "$work/one.json" /dev/null
check 'the null device as the playbook' 1 '' "rollout: 701 NotJson$newline"
for device in zero urandom; do
    run limits "/dev/$device"
    check "/dev/$device" 1 '' "rollout: 903 InputTooLarge$newline"
    run run "$work/one.json" "/dev/$device"
    check "/dev/$device as the playbook" 1 '' "rollout: 903 InputTooLarge$newline"
done
input=$work
run
check 'a folder as standard input' 1 '' "rollout: 902 File name=-$newline"
run rehearse "$work/one.json" "$work/true.json"
check 'a folder as the lines of a rehearsal' 1 '' "rollout: 902 File name=-$newline"
input=/dev/zero
run rehearse "$work/one.json" "$work/true.json"
check 'a line that never ends' 1 '' "rollout: 906 LongLine$newline"
input=/dev/null
mkdir "$work/gone"
(
    cd "$work/gone" || exit 1
    rmdir "$work/gone"
    timeout -k 5 "$limit" "$rollout" run "$work/one.json" "$work/true.json" </dev/null >"$work/out" 2>"$work/errors"
)
status=$?
told 'a run in a folder that is gone' 0 "ok=1 $updated" finished

# ---- a byte at a time, and closed files

# at_a_time WHAT WORD..: the same is said where each read and each write takes a byte
at_a_time() {
    what=$1
    shift
    run "$@"
    answered=$status
    mv "$work/out" "$work/out.whole"
    mv "$work/errors" "$work/errors.whole"
    rm -f "$work/cut"
    timeout -k 5 "$limit" env ONE_BYTE="$work/cut" LD_PRELOAD="$work/change.so" "$rollout" "$@" >"$work/out" 2>"$work/errors" <"$input"
    status=$?
    [ -e "$work/cut" ] && [ "$status" -eq "$answered" ] && cmp -s "$work/out" "$work/out.whole" && cmp -s "$work/errors" "$work/errors.whole" && pass || fail "$what, a byte at a time: status $status"
}
printf 'plan\nadvance a\nshow\njump\nquit\n' >"$work/lines"
printf '[{"hosts":"all","tasks":[{"command":"true","when":false}]}]' >"$work/skips.json"
sized 3000 a b >"$work/some.json"
printf '[{"hosts":"all","serial":1,"tasks":[{"command":"echo out","register":"r"},{"command":"true","when":"r.stdout == %s"}]}]' "'out'" >"$work/said.json"
at_a_time 'a table' limits "$work/some.json"
at_a_time 'a plan' plan "$work/some.json" "$work/said.json"
at_a_time 'a run' run "$work/some.json" "$work/said.json"
at_a_time 'a course' plan "$work/some.json" "$work/said.json" --forecast --failing b
at_a_time 'groups' plan "$work/some.json" "$work/said.json" --groups
at_a_time 'words' plan "$work/some.json" "$work/said.json" --commands
at_a_time 'a plan for programs' plan "$work/some.json" "$work/said.json" --json
at_a_time 'notes' lint "$work/some.json" "$work/skips.json"
printf '{"all":{"x":1,"y":2}}' >"$work/faulty.json"
at_a_time 'all faults' lint "$work/faulty.json" "$work/said.json"
printf 'a\nb\n' >"$work/plan.txt"
at_a_time 'a check' check "$work/some.json" "$work/said.json" "$work/plan.txt"
at_a_time 'where a run stands' state "$work/one.json" "$work/whole.journal"
at_a_time 'an explanation' explain 302
at_a_time 'a bad line' limits one two
at_a_time 'a missing file' limits "$work/none"
at_a_time 'the help' --help
input=$work/lines
at_a_time 'a rehearsal' rehearse "$work/some.json" "$work/said.json"
input=/dev/null

# cut STEP WORD..: behind each byte, or each STEP bytes, standard output takes no more: just the first ones of the text went out
cut() {
    step=$1
    shift
    run "$@"
    mv "$work/out" "$work/out.whole"
    size=$(wc -c <"$work/out.whole")
    for room in $(seq 0 "$step" $((size - 2))) $((size - 1)); do
        for way in OUT_ROOM="$room" "OUT_ROOM=$room OUT_NOTHING=yes"; do
            # shellcheck disable=SC2086
            timeout -k 5 "$limit" env $way LD_PRELOAD="$work/change.so" "$rollout" "$@" >"$work/out" 2>"$work/errors" <"$input"
            status=$?
            [ "$status" -eq 1 ] && head -c "$room" "$work/out.whole" | cmp -s - "$work/out" && [ "$(cat "$work/errors")" = "rollout: 904 Write written=$room" ] && pass ||
                fail "$* where standard output ends: $way, status $status, $(cat "$work/errors")"
        done
    done
}
each=$(fewer 1 40)
far=$(fewer 40 200)
printf '%s' "$racks" >"$work/two.json"
printf '[{"hosts":"all","tasks":[{"command":{"argv":["sh","-c","test {{ inventory_hostname }} != a"]}}]}]' >"$work/fails.json"
cut $each run "$work/two.json" "$work/fails.json"
cut $far plan "$work/two.json" "$work/true.json" --forecast --failing a
cut $far plan "$work/two.json" "$work/true.json" --groups
cut $far plan "$work/two.json" "$work/true.json" --commands
cut $far lint "$work/faulty.json" "$work/true.json"
cut 7 check "$work/some.json" "$work/said.json" "$work/plan.txt"
cut 7 state "$work/one.json" "$work/whole.journal"
cut $((far * 20)) explain 302

"$rollout" rehearse "$work/one.json" "$work/true.json" >/dev/full 2>"$work/errors" <"$work/lines"
status=$?
: >"$work/out"
check 'the answers of a rehearsal to a full disk' 1 '' "rollout: 904 Write written=0$newline"
# closed WORD..: each of its standard files is closed; the statuses of a right answer with all of them open, and of its input closed
closed() {
    for files in 0 1 2 01 02 12 012; do
        : >"$work/out"
        : >"$work/errors"
        from="<$input" to=">$work/out" told_to="2>$work/errors"
        case $files in *0*) from='<&-' ;; esac
        case $files in *1*) to='>&-' ;; esac
        case $files in *2*) told_to='2>&-' ;; esac
        eval "timeout -k 5 $limit \"\$rollout\" \"\$@\" $from $to $told_to"
        status=$?
        want=0 out=$answer fault=
        case $files in *1*) want=1 out= fault="rollout: 904 Write written=0$newline" ;; esac
        case $1$files in rehearse*0*) want=1 out= fault="rollout: 902 File name=-$newline" ;; esac
        case $files in *2*) fault= ;; esac
        check "$1, closed files $files" "$want" "$out" "$fault"
    done
}
answer="plan batches=1 bound=one-host${newline}batch 1: a$newline"
closed plan "$work/one.json" "$work/true.json"
echo a >"$work/plan.txt"
answer="boundary 1: plan batches=1 bound=one-host${newline}open: a${newline}boundary 2: plan batches=0 bound=nothing${newline}end finished${newline}batches=1$newline"
closed plan "$work/one.json" "$work/true.json" --forecast
answer="plan batches=1 bound=one-host${newline}batch 1: a${newline}no limited group$newline"
closed plan "$work/one.json" "$work/true.json" --groups
answer="a step=1 runs: true$newline"
closed plan "$work/one.json" "$work/true.json" --commands
answer="valid batches=1 least=1$newline"
closed check "$work/one.json" "$work/true.json" "$work/plan.txt"
answer="notes=0$newline"
closed lint "$work/one.json" "$work/true.json"
answer="a state=updated${newline}end finished$newline"
closed state "$work/one.json" "$work/whole.journal"
answer="hosts=1 limited=0$newline"
closed limits "$work/one.json"
answer="plan batches=1 bound=one-host${newline}batch 1: a$newline"
echo plan >"$work/lines"
input=$work/lines
closed rehearse "$work/one.json" "$work/true.json"
input=/dev/null

# ---- a limit of file size

# Each command's output is longer than the 8 KiB that a file may have. Where the signal is ignored the write fails; else it ends the program, as FORMATS says.
# of_8_kib SIGNAL WORD..: the program, whose files may have so much
of_8_kib() {
    handled=$1
    shift
    timeout -k 5 "$limit" env --"$handled"-signal=XFSZ sh -c 'ulimit -f 16; exec "$@"' sh "$rollout" "$@" <"$input"
}
hosts 2000 >"$work/hosts.json"
"$rollout" run "$work/hosts.json" "$work/skips.json" --journal "$work/hosts.journal" >/dev/null 2>&1 </dev/null
printf '[{"hosts":"all","serial":1,"tasks":[{"command":"true","when":"not a or b"}]}]' >"$work/many.json"
seq 9 | sed 's/.*/plan/' >"$work/lines"
# cut_at_8_kib WORD..: what goes out into such a file is the first of what goes out into any
cut_at_8_kib() {
    run "$@"
    mv "$work/out" "$work/out.whole"
    of_8_kib ignore "$@" >"$work/out" 2>"$work/errors"
    status=$?
    case $* in *--json*) fault='{"fault":{"number":904,"kind":"Write","written":8192}}' ;; *) fault='rollout: 904 Write written=8192' ;; esac
    check "$*: a file that may have 8 KiB" 1 "$(head -c 8192 "$work/out.whole")" "$fault$newline"
}
input=$work/lines
for command in plan run rehearse; do
    cut_at_8_kib "$command" "$work/hosts.json" "$work/skips.json"
done
input=/dev/null
cut_at_8_kib plan "$work/hosts.json" "$work/many.json" --forecast
cut_at_8_kib plan "$work/hosts.json" "$work/skips.json" --forecast --groups
cut_at_8_kib plan "$work/hosts.json" "$work/skips.json" --commands
cut_at_8_kib plan "$work/hosts.json" "$work/skips.json" --json
cut_at_8_kib state "$work/hosts.json" "$work/hosts.journal"
# What is told of a run is left out where it can't be written, and the run goes on.
run run "$work/hosts.json" "$work/skips.json"
mv "$work/out" "$work/out.whole"
{
    of_8_kib ignore run -v "$work/hosts.json" "$work/skips.json" 2>"$work/told"
    echo $? >"$work/status"
} | cat >"$work/out"
[ "$(cat "$work/status")" -eq 0 ] && cmp -s "$work/out" "$work/out.whole" && [ "$(wc -c <"$work/told")" -le 8192 ] && pass || fail "what is told has no room: status $(cat "$work/status")"

# ---- memory that is wanting as the first program is to be started

# Each allocation behind those of the plan is refused in turn. Where that of the first program's start is, just this is said, and nothing has been started.
printf '[{"hosts":"all","tasks":[{"command":{"argv":["sh","-c","echo >>%s"]}}]}]' "$work/begun" >"$work/begun.json"
recap="boundary 1: plan batches=3 bound=group r1 waiting=3 room=1${newline}open: a d${newline}"
for host in a b c d e; do
    case $host in a | d) state=running ;; *) state=waiting ;; esac
    recap="${recap}$host ok=0 changed=0 failed=0 skipped=0 ignored=0 state=$state$newline"
done
found=0
if proved 'memory that is wanting as the first program is to be started'; then
    number=0
    while [ "$number" -lt 5000 ]; do
        number=$((number + 1))
        rm -f "$work/begun" "$work/failed"
        timeout -k 5 "$limit" env FAIL=malloc FAIL_AT="$number" FAILED="$work/failed" LD_PRELOAD="$work/fail.so" "$rollout" run "$work/two.json" "$work/begun.json" --forks 1 >"$work/out" 2>"$work/errors" </dev/null
        status=$?
        [ -e "$work/failed" ] || break
        printf '%send fault\n' "$recap" | cmp -s - "$work/out" && [ "$status" -eq 5 ] && [ "$(cat "$work/errors")" = 'rollout: memory' ] && [ ! -e "$work/begun" ] && found=$((found + 1))
    done
    [ "$number" -gt 100 ] && [ "$number" -lt 5000 ] && [ "$found" -gt 0 ] && pass || fail "memory is wanting as the first program is to be started: of $number allocations $found"
fi

# ---- side by side

# Without locks. In each run the racks have room for one host, and the programs of a host write into a file of its run.
printf '{"all":{"children":{"r1":{"vars":{"max_down":1},"hosts":{"a":null,"b":null}},"r2":{"vars":{"max_down":1},"hosts":{"c":null,"d":null}}}}}' >"$work/racks.json"
printf '[{"hosts":"all","tasks":[{"command":{"argv":["sh","-c","echo $0 >>notes","{{ inventory_hostname }}"]}},{"command":"true"}]}]' >"$work/notes.json"
runs=$(fewer 200 20)
began=$(date +%s)
for number in $(seq $runs); do
    mkdir "$work/run$number"
    (
        cd "$work/run$number" || exit 1
        timeout -k 5 "$limit" "$rollout" run "$work/racks.json" "$work/notes.json" --no-lock --forks 8 </dev/null >out 2>errors
        echo $? >status
    ) &
done
wait
echo "$runs runs side by side in $(($(date +%s) - began)) s"
for number in $(seq $runs); do
    cp "$work/run$number/out" "$work/out"
    LC_ALL=C sort "$work/run$number/notes" >"$work/notes"
    cp "$work/run$number/errors" "$work/errors"
    status=$(cat "$work/run$number/status")
    check "run $number of $runs side by side" 0 "boundary 1: plan batches=2 bound=group r1 waiting=2 room=1
open: a c
boundary 2: plan batches=1 bound=group r1 waiting=1 room=1
open: b d
boundary 3: plan batches=0 bound=nothing
$(printf '%s ok=2 changed=2 failed=0 skipped=0 ignored=0 state=updated\n' a b c d)
end finished
" ''
    [ "$(cat "$work/notes")" = "a${newline}b${newline}c${newline}d" ] && pass || fail "run $number of $runs side by side: its programs wrote $(tr '\n' ' ' <"$work/notes")"
done

# As many with the lock that each run takes: all of a fleet of which one host may be down go through or are refused, and no two hosts are ever at work at once.
printf '{"all":{"vars":{"max_down":1},"hosts":{"a":null,"b":null}}}' >"$work/one_at_once.json"
printf '[{"hosts":"all","tasks":[{"command":{"argv":["sh","-c","mkdir %s || echo two >>%s; sleep 0.05; rmdir %s"]}}]}]' "$work/busy" "$work/twice" "$work/busy" >"$work/alone.json"
for number in $(seq $runs); do
    (
        cd "$work/run$number" || exit 1
        timeout -k 5 "$limit" "$rollout" run "$work/one_at_once.json" "$work/alone.json" </dev/null >out 2>errors
        echo "$? $(cat errors)" >status
    ) &
done
wait
cat "$work"/run*/status | sort | uniq -c >"$work/ends"
[ ! -e "$work/twice" ] && grep -q '^ *[0-9]* 0 $' "$work/ends" && [ "$(grep -cv '^ *[0-9]* \(0 \|1 rollout: 918 Locked\)$' "$work/ends")" -eq 0 ] && pass || fail "locked runs side by side: $(cat "$work/ends" "$work/twice" 2>&1)"
finish
