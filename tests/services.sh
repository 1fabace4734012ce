#!/bin/sh
# Runs as services start them: with few descriptors or processes, with descriptors closed, and with a signal ignored. It needs a C compiler and
# crates/rollout/out/rollout.
. "$(dirname "$0")/common.sh"
. "$top/tests/programs/steps.sh"

# ---- starts that are tried for long

# Runs that take ten seconds and more go on beside all others, and are looked at in the end.
# beside NAME WORD..: such a run
beside() {
    name=$1
    shift
    {
        timeout -k 5 "$limit" "$@" </dev/null >"$work/$name.out" 2>"$work/$name.errors"
        echo $? >"$work/$name.status"
    } &
}

# A program takes five descriptors for a moment, and two while it runs.
beside descriptors sh -c 'ulimit -n 6; exec "$@"' sh "$rollout" run -v "$work/one.json" "$work/true.json"
# Of 22 descriptors 16 are open already: there is room for one of two programs of eleven seconds, though the limit allows two.
printf '[{"hosts":"all","tasks":[{"command":"sleep 11"}]}]' >"$work/long.json"
hosts 2 >"$work/two.json"
beside turns sh -c 'ulimit -n 22; exec "$@"' sh "$act" opens 12 becomes "$rollout" run "$work/two.json" "$work/long.json" --forks 2
# The limit of processes counts all that a user runs, threads too, and doesn't hold root: it is asked of a user that nobody is.
someone=$((50000 + $$ % 10000))
as_user() {
    printf 'setpriv --reuid=%d --regid=%d --clear-groups' "$1" "$1"
}
cp "$rollout" "$work/rollout"
cp "$work/one.json" "$work/few.json"
as_others=yes
if $(as_user $someone) true 2>/dev/null; then
    beside processes prlimit --nproc=2 $(as_user $((someone + 1))) "$work/rollout" run -v "$work/few.json" "$work/true.json" --forks 1
else
    as_others=
    echo 'left out without the right to be another user: few processes'
fi

# ---- few descriptors

# with LIMIT WORD..: the program, or another, with so many descriptors; where `may_raise` is -S it may give itself more
may_raise=
with() {
    (
        ulimit $may_raise -n "$1"
        shift
        exec timeout -k 5 "$limit" "$@"
    ) <"$input" >"$work/out" 2>"$work/errors"
    status=$?
}

# Where `xargs` comes through with as many at once, each host is updated.
count=$(fewer 256 40)
hosts $count >"$work/hosts.json"
all $count "ok=1 $updated" finished >"$work/all"
seq $count >"$work/numbers"
for descriptors in 12 13 14 16 18 19 21 22 25 28 34 40 52 64; do
    for forks in 1 2 5 16 64; do
        input=$work/numbers
        with "$descriptors" xargs -P "$forks" -n 1 true
        input=/dev/null
        [ "$status" -eq 0 ] || continue
        with "$descriptors" "$rollout" run "$work/hosts.json" "$work/true.json" --forks "$forks"
        check "$descriptors descriptors, at $forks forks" 0 "$(cat "$work/all")$newline" ''
    done
done
# Others are open before the run begins, so that fewer are left than its limit says.
for opened in 10 20 29; do
    with 40 "$act" opens $opened becomes "$rollout" run "$work/hosts.json" "$work/true.json" --forks 64
    check "40 descriptors, of which $((opened + 3)) are open" 0 "$(cat "$work/all")$newline" ''
done

# What is told of it: once, where a program had to wait for another; and no more run at once than is said.
cat >"$work/note" <<'SH'
#!/bin/sh
echo + >>"$1"
sleep "$2"
echo - >>"$1"
SH
chmod 755 "$work/note"

# at_most DESCRIPTORS FORKS HOSTS COUNT LINE: at most COUNT programs run at once, and this line or none is told of it. They take longer than as many starts. The times that are told are
# their own, without what they waited for others: together they are about COUNT times that of the batch at most.
at_most() {
    rm -f "$work/kept/notes"
    taking=0.2
    [ "$2" -lt 64 ] || taking=1
    printf '[{"hosts":"all","tasks":[{"command":{"argv":["%s","%s","%s"]}}]}]' "$work/note" "$work/kept/notes" "$taking" >"$work/play.json"
    hosts "$3" >"$work/hosts.json"
    with "$1" "$rollout" run -v "$work/hosts.json" "$work/play.json" --forks "$2"
    lines=$(grep '^descriptors=' "$work/errors")
    awk -v most="$4" '/ step=1 changed rc=0 ms=/ { split($5, ms, "="); taken += ms[2] } /^closed / { split($5, ms, "="); batch = ms[2] } END { exit !taken || taken > 1.5 * most * batch }' "$work/errors" &&
        pass || fail "$1 descriptors, $2 forks: programs take $(sed -n 's/.* \(ms=[0-9]*\) .*/\1/p' "$work/errors" | tr '\n' ' ')"
    : >"$work/errors"
    check "$1 descriptors, $2 forks: what is told" 0 "$(all "$3" "ok=1 $updated" finished)$newline" ''
    [ "$lines" = "$5" ] && pass || fail "$1 descriptors, $2 forks: '$lines' is told"
    at_once=$(awk '$1 == "+" { now++ } $1 == "-" { now-- } now > most { most = now } END { print most + 0 }' "$work/kept/notes")
    [ "$at_once" -le "$4" ] && { [ "$4" -eq 1 ] || [ "$at_once" -gt 1 ]; } && pass || fail "$1 descriptors, $2 forks: $at_once programs at once"
}
at_most 12 3 5 1 'descriptors=12 at-once=1'
at_most 21 5 5 1 'descriptors=21 at-once=1'
at_most 22 6 6 2 'descriptors=22 at-once=2'
at_most 40 63 24 8 'descriptors=40 at-once=8'
at_most 40 9 24 8 'descriptors=40 at-once=8'
at_most 40 8 24 8 ''
at_most 64 63 40 16 'descriptors=64 at-once=16'
at_most 16 1 3 1 ''
at_most 40 63 4 4 ''
at_most 207 64 70 63 'descriptors=207 at-once=63'
at_most 208 64 70 64 ''
# What counts is how many it may have as it is.
may_raise=-S
at_most 22 6 6 2 'descriptors=22 at-once=2'
may_raise=
hosts 24 >"$work/hosts.json"
with 40 "$rollout" run "$work/hosts.json" "$work/play.json" --forks 64
check 'few descriptors, and nobody asks' 0 "$(all 24 "ok=1 $updated" finished)$newline" ''

# ---- few processes

# among_processes COUNT WORD..: the program, or another, with so many processes
among_processes() {
    allowed=$1
    shift
    timeout -k 5 "$limit" prlimit --nproc="$allowed" $(as_user $someone) "$@" <"$input" >"$work/out" 2>"$work/errors"
    status=$?
}
# The run itself has two: its own, and a worker's. Where all can't be had fewer work.
if [ -n "$as_others" ]; then
    hosts $count >"$work/hosts.json"
    for processes in 3 4 5 8 12 20 40 70 100 140; do
        for forks in 1 4 16 64; do
            input=$work/numbers
            among_processes "$processes" xargs -P "$forks" -n 1 true
            input=/dev/null
            [ "$status" -eq 0 ] || continue
            among_processes "$processes" "$work/rollout" run "$work/hosts.json" "$work/true.json" --forks "$forks"
            check "$processes processes, at $forks forks" 0 "$(cat "$work/all")$newline" ''
        done
    done
    among_processes 1 "$work/rollout" run -v "$work/one.json" "$work/true.json"
    check 'no process for a worker' 5 'a ok=0 changed=0 failed=0 skipped=0 ignored=0 state=waiting
end fault
' "rollout: memory
waiting: a
next: run the rest by a narrower \"hosts\" (docs/DURING_AND_AFTER.md)
"
fi

# ---- starts that fail

# unstarted_told TEXT: what is told of a program that is tried once and not started
unstarted_told() {
    printf 'waiting=0 at=N open: a\n%s\na step=1 failed not-started ms=N name=\n  a error: true: %s\n%s\n' "$(begun a 1)" "$1" "$(closed 0 1 0)"
}
none_started='boundary 1: plan batches=1 bound=one-host
open: a
boundary 2: plan batches=0 bound=nothing
a ok=0 changed=0 failed=1 skipped=0 ignored=0 state=failed
end all-failed
'
# Where descriptors or processes are wanting a start is tried again; where it fails for another reason it isn't.
# first_fails CALL HOW: the run of one program whose first such call fails
first_fails() {
    rm -f "$work/failed"
    timeout -k 5 "$limit" env FAIL="$1" FAIL_AT=1 FAIL_HOW="$2" FAILED="$work/failed" LD_PRELOAD="$work/fail.so" "$rollout" run -v "$work/one.json" "$work/true.json" --forks 1 >"$work/out" 2>"$work/errors" </dev/null
    status=$?
    [ -e "$work/failed" ] && pass || fail "no call of $1 fails"
    timeless
}
one_updated="boundary 1: plan batches=1 bound=one-host
open: a
boundary 2: plan batches=0 bound=nothing
a ok=1 $updated
end finished
"
for failing in 'pipe2 24' 'pipe2 23' 'open 24' 'open 23' 'posix_spawn 11'; do
    first_fails $failing
    check "a first start fails by $failing" 0 "$one_updated" "waiting=0 at=N open: a$newline$(begun a 1)${newline}a step=1 changed rc=0 ms=N name=$newline$(closed 1 0 0)$newline"
done
first_fails posix_spawn 1
check 'a first start is forbidden' 4 "$none_started" "$(unstarted_told 'Operation not permitted (os error 1)')$newline"
first_fails pipe2 5
check 'a pipe that an error forbids' 4 "$none_started" "$(unstarted_told 'Input/output error (os error 5)')$newline"

# ---- closed descriptors

# Each of them may be closed: what is registered is the program's own, and what is told goes nowhere else.
printf '[{"hosts":"all","tasks":[{"command":{"argv":["sh","-c","echo some; echo more >&2"]},"register":"r"},{"command":{"argv":["%s","open"]},"register":"s"},{"command":{"argv":["readlink","/proc/self/fd/0"]},"register":"t"},{"command":{"argv":["touch","%s/{{ inventory_hostname }}"]},"when":["r.stdout == %s","r.stderr == %s","s.stdout == %s","s.stderr == %s","t.stdout == %s"]}]}]' \
    "$act" "$work/kept" "'some'" "'more'" "'0 1 2 '" "''" "'/dev/null'" >"$work/play.json"
hosts 8 >"$work/hosts.json"
all 8 'ok=4 changed=4 failed=0 skipped=0 ignored=0 state=updated' finished >"$work/recap"
for closed in none 0 1 2 01 02 12 012; do
    for flag in '' -v; do
        what="closed descriptors $closed${flag:+, told of}"
        rm -f "$work/kept/"h*
        : >"$work/out"
        : >"$work/errors"
        from='</dev/null' to=">$work/out" told_to="2>$work/errors"
        case $closed in *0*) from='<&-' ;; esac
        case $closed in *1*) to='>&-' ;; esac
        case $closed in *2*) told_to='2>&-' ;; esac
        eval "timeout -k 5 $limit \"\$rollout\" run $flag \"\$work/hosts.json\" \"\$work/play.json\" --forks 8 $from $to $told_to"
        status=$?
        want=0 fault= recap=$(cat "$work/recap")$newline
        case $closed in *1*) want=1 recap= fault="rollout: 904 Write written=0$newline" ;; esac
        case $closed in *2*) fault= ;; esac
        lines=$(grep -c '^h000[0-7] step=[1-4] changed rc=0 ms=[0-9]* name=$\|^h000[0-7] step=[1-4] begins at=\|^waiting=0 at=[0-9]* open: h0000 \|^closed updated=8 ' "$work/errors")
        sed -i '/^waiting=/d; / step=[1-4] changed rc=0 ms=/d; / step=[1-4] begins /d; /^closed /d' "$work/errors"
        check "$what" "$want" "$recap" "$fault"
        case $closed$flag in *2* | *[!v]) all_lines=0 ;; *) all_lines=66 ;; esac
        [ "$lines" -eq "$all_lines" ] && pass || fail "$what: $lines lines are told"
        [ "$(find "$work/kept" -name 'h*' | wc -l)" -eq 8 ] && pass || fail "$what: other outputs are registered"
    done
done

# ---- a signal ignored

# ignoring WORD..: with SIGCHLD ignored; shells don't leave it so to what they start
ignoring() {
    timeout -k 5 30 env --ignore-signal=CHLD "$@" </dev/null >"$work/out" 2>"$work/errors"
    status=$?
}
refusal="rollout: 916 ChildrenIgnored
SIGCHLD is ignored here, so no program's end could be had. Start it with: env --default-signal=CHLD rollout run ..
"
printf '[{"hosts":"all","tasks":[{"command":{"argv":["touch","%s"]}}]}]' "$work/kept/begun" >"$work/play.json"
rm -f "$work/kept/begun"
for flag in '' -v; do
    ignoring "$rollout" run $flag "$work/one.json" "$work/play.json"
    check "SIGCHLD is ignored ${flag}" 1 '' "$refusal"
done
[ ! -e "$work/kept/begun" ] && pass || fail 'SIGCHLD is ignored: a program is started'
ignoring "$rollout" run "$work/none.json" "$work/none"
check 'SIGCHLD is ignored, and there are no inputs' 1 '' "$refusal"
mkfifo "$work/pipe"
ignoring "$rollout" run "$work/pipe" "$work/play.json"
check 'SIGCHLD is ignored, and the inventory would be waited for' 1 '' "$refusal"
ignoring "$rollout" run "$work/one.json" "$work/play.json" --stop-file /dev/null
check 'SIGCHLD is ignored, and a file would stop the run' 1 '' "$refusal"
ignoring "$rollout" plan "$work/one.json" "$work/play.json"
check 'a plan, with SIGCHLD ignored' 0 "plan batches=1 bound=one-host${newline}batch 1: a$newline" ''
ignoring "$rollout" limits "$work/one.json"
check 'limits, with SIGCHLD ignored' 0 "hosts=1 limited=0$newline" ''
ignoring env --default-signal=CHLD "$rollout" run "$work/one.json" "$work/play.json"
told 'SIGCHLD is ignored no more' 0 "ok=1 $updated" finished
timeout -k 5 "$limit" env --block-signal=CHLD "$rollout" run "$work/one.json" "$work/play.json" </dev/null >"$work/out" 2>"$work/errors"
status=$?
told 'SIGCHLD is held back' 0 "ok=1 $updated" finished
timeout -k 5 "$limit" env --ignore-signal=HUP --ignore-signal=INT --ignore-signal=USR1 --ignore-signal=TTOU "$rollout" run "$work/one.json" "$work/play.json" </dev/null >"$work/out" 2>"$work/errors"
status=$?
told 'other signals are ignored' 0 "ok=1 $updated" finished
if proved 'a run without /proc' && unshare -m sh -c 'mount -t tmpfs none /proc' 2>/dev/null; then
    timeout -k 5 "$limit" unshare -m sh -c 'mount -t tmpfs none /proc && exec "$@"' sh "$rollout" run "$work/one.json" "$work/play.json" </dev/null >"$work/out" 2>"$work/errors"
    status=$?
    told 'nothing says which signals are ignored' 0 "ok=1 $updated" finished
fi

# ---- starts that were tried for long

# came NAME: such a run has ended
came() {
    mv "$work/$1.out" "$work/out"
    mv "$work/$1.errors" "$work/errors"
    status=$(cat "$work/$1.status")
}

# waited WHAT TEXT: it was tried for ten seconds, and not started, for what the system says
waited() {
    taken=$(sed -n 's/^a step=1 failed not-started ms=\([0-9]*\) name=$/\1/p' "$work/errors")
    [ "${taken:-0}" -ge 10000 ] && [ "$taken" -lt 20000 ] && pass || fail "$1: a start was tried for ${taken:-no} ms"
    timeless
    check "$1" 4 "$none_started" "$(unstarted_told "$2")$newline"
}
wait
came descriptors
waited 'fewer descriptors than a program needs' 'Too many open files (os error 24)'
came turns
check 'a program that waits for another for over ten seconds' 0 "$(all 2 "ok=1 $updated" finished)$newline" ''
if [ -n "$as_others" ]; then
    came processes
    waited 'fewer processes than a program needs' 'Resource temporarily unavailable (os error 11)'
fi
finish
