#!/bin/sh
# Runs that a file stops between two batches: at each boundary, whatever kind of file it is, and in each way of naming it. It needs a C compiler and
# crates/rollout/out/rollout.
. "$(dirname "$0")/common.sh"
quietly
. "$top/tests/programs/steps.sh"

# ---- a file that stops the run

printf '{"all":{"hosts":{"a":null,"b":null,"c":null,"d":null,"e":null}}}' >"$work/five.json"
stop=$work/kept/stop

# one_by_one SCRIPT: a play of one host a batch, whose program is a shell's with this line
one_by_one() {
    printf '[{"hosts":"all","serial":1,"tasks":[{"command":{"argv":%s}}]}]' "$(shell "$1")" >"$work/play.json"
}

# stopped_at BOUNDARY: the recap of five hosts, one a batch, of a run that ended at this boundary; at the sixth it has finished
stopped_at() {
    awk -v last="$1" -v ending="ok=1 $updated" 'BEGIN {
        split("a b c d e", names, " ")
        for (i = 1; i <= last && i <= 5; i++) {
            printf "boundary %d: plan batches=%d bound=serial waiting=%d size=1\n", i, 6 - i, 6 - i
            if (i < last) print "open: " names[i]
        }
        if (last == 6) print "boundary 6: plan batches=0 bound=nothing"
        for (i = 1; i <= 5; i++) print names[i] " " (i < last ? ending : "ok=0 changed=0 failed=0 skipped=0 ignored=0 state=waiting")
        print "end " (last == 6 ? "finished" : "fault")
    }'
}

# stops WHAT BOUNDARY WORD..: the run ends at this boundary
stops() {
    what=$1
    boundary=$2
    shift 2
    run run "$work/five.json" "$work/play.json" "$@"
    if [ "$boundary" -eq 6 ]; then
        check "$what" 0 "$(stopped_at 6)$newline" ''
    else
        check "$what" 6 "$(stopped_at "$boundary")$newline" "rollout: 917 Stopped$newline"
    fi
    rm -rf "$stop"
}
boundary=1
for host in none a b c d e; do
    one_by_one "test {{ inventory_hostname }} != $host || : >$stop"
    for forks in 1 64; do
        [ "$host" != none ] || : >"$stop"
        stops "stopped at boundary $boundary, at $forks forks" "$boundary" --forks "$forks" --stop-file "$stop"
        [ "$host" != none ] || : >"$stop"
        stops "stopped at boundary $boundary, in one word" "$boundary" "--stop-file=$stop" --forks "$forks"
    done
    boundary=$((boundary + 1))
done
one_by_one true
stops 'no file comes' 6 --stop-file "$stop"
# A file that is there no more when a batch is due stops nothing.
one_by_one ": >$stop; rm $stop"
stops 'the file comes and goes' 6 --stop-file "$stop"

# Any kind of file is one.
one_by_one true
mkdir "$stop"
stops 'a folder' 1 --stop-file "$stop"
mkdir "$stop"
: >"$stop/in"
stops 'a file in a folder' 1 --stop-file "$stop/in"
mkfifo "$stop"
stops 'a named pipe' 1 --stop-file "$stop"
stops 'a device' 1 --stop-file /dev/null
ln -s /dev/null "$stop"
stops 'a link to a file' 1 --stop-file "$stop"
ln -s "$work" "$stop"
stops 'a link to a folder' 1 --stop-file "$stop"
ln -s "$work/none" "$stop"
stops 'a link to nothing' 6 --stop-file "$stop"
# One that could never be seen is refused before anything is read.
unseen() {
    run run "$work/five.json" "$work/none.json" --stop-file "$2"
    check "$1" 1 '' "rollout: 902 File name=$2$newline"
}
ln -s stop "$stop"
unseen 'a link to itself' "$stop"
rm "$stop"
unseen 'a file in a folder that is not there' "$work/none/stop"
unseen 'a file below a file' "$work/one.json/stop"
unseen 'a file without a name' ''
: >"$work/kept/a stop"
stops 'a file with a blank in its name' 1 --stop-file "$work/kept/a stop"
: >"$work/kept/-v"
cd "$work/kept" || exit 1
stops 'a file of this folder, with the name of a flag' 1 --stop-file -v
stops 'the same, in one word' 1 --stop-file=-v
cd "$top" || exit 1

# The last one counts, and it may stand anywhere behind `run` and before the dashes.
: >"$stop"
stops 'the last of two' 1 --stop-file "$work/none" --stop-file "$stop"
: >"$stop"
stops 'the last of two, which is not there' 6 --stop-file "$stop" --stop-file="$work/none"
: >"$stop"
run run --stop-file "$stop" "$work/five.json" "$work/play.json"
check 'behind the word run' 6 "$(stopped_at 1)$newline" "rollout: 917 Stopped$newline"
run run "$work/five.json" --stop-file "$stop" "$work/play.json" --
check 'between the inputs' 6 "$(stopped_at 1)$newline" "rollout: 917 Stopped$newline"
run run "$work/five.json" -- "$work/play.json" --stop-file "$stop"
[ "$status" -eq 1 ] && [ ! -s "$work/out" ] && [ "$(head -n 1 "$work/errors")" = 'rollout: 901 BadLine' ] && pass || fail 'a file behind the dashes'
run run "$work/five.json" "$work/play.json" --stop-file
[ "$status" -eq 1 ] && [ ! -s "$work/out" ] && [ "$(head -n 1 "$work/errors")" = 'rollout: 901 BadLine' ] && pass || fail 'no file is named'
run plan "$work/five.json" "$work/play.json" --stop-file "$stop"
[ "$status" -eq 1 ] && [ ! -s "$work/out" ] && [ "$(head -n 1 "$work/errors")" = 'rollout: 901 BadLine' ] && pass || fail 'a file that would stop a plan'
run run "$work/none.json" "$work/play.json" --stop-file "$stop"
check 'an input that is not there comes first' 1 '' "rollout: 902 File name=$work/none.json$newline"

# It is told of, and what is told before stays.
verbose "$work/five.json" "$work/play.json" --stop-file "$stop"
check 'stopped and told of' 6 "$(stopped_at 1)$newline" "rollout: 917 Stopped$newline"
rm -f "$stop"
one_by_one "test {{ inventory_hostname }} != b || : >$stop"
verbose "$work/five.json" "$work/play.json" --stop-file "$stop"
check 'stopped and told of, behind two batches' 6 "$(stopped_at 3)$newline" "waiting=4 at=N open: a
$(begun a 1)
a step=1 changed rc=0 ms=N name=
$(closed 1 0 0)
waiting=3 at=N open: b
$(begun b 1)
b step=1 changed rc=0 ms=N name=
$(closed 1 0 0)
rollout: 917 Stopped
"
rm -f "$stop"

# A step of a batch that is open isn't broken off, and a host that failed before is down.
printf '[{"hosts":"all","serial":2,"tasks":[{"command":{"argv":%s}},{"command":{"argv":["test","{{ inventory_hostname }}","!=","d"]}}]}]' "$(shell ": >$stop")" >"$work/play.json"
run run "$work/five.json" "$work/play.json" --stop-file "$stop"
check 'the steps of the open batch are done' 6 "boundary 1: plan batches=3 bound=serial waiting=5 size=2
open: a d
boundary 2: plan batches=2 bound=serial waiting=3 size=2
a ok=2 changed=2 failed=0 skipped=0 ignored=0 state=updated
b ok=0 changed=0 failed=0 skipped=0 ignored=0 state=waiting
c ok=0 changed=0 failed=0 skipped=0 ignored=0 state=waiting
d ok=1 changed=1 failed=1 skipped=0 ignored=0 state=failed
e ok=0 changed=0 failed=0 skipped=0 ignored=0 state=waiting
end fault
" "rollout: 917 Stopped$newline"
rm -f "$stop"

# Of several plays the second is stopped before its first batch, or between two.
in_second() {
    printf '[{"hosts":"all","tasks":[{"command":"true"}]},{"hosts":"all","serial":1,"tasks":[{"command":{"argv":%s}}]}]' "$(shell "test {{ inventory_hostname }} != $1 || : >$stop")" >"$work/play.json"
}
first_play="play 1
boundary 1: plan batches=1 bound=one-host
open: a b c d e
boundary 2: plan batches=0 bound=nothing
$(printf "%s ok=1 $updated\n" a b c d e)
end finished
play 2
"
boundary=2
for host in a b c d; do
    in_second "$host"
    run run "$work/five.json" "$work/play.json" --stop-file "$stop"
    check "the second play is stopped at boundary $boundary" 6 "$first_play$(stopped_at "$boundary")$newline" "rollout: 917 Stopped$newline"
    rm -f "$stop"
    boundary=$((boundary + 1))
done
in_second e
run run "$work/five.json" "$work/play.json" --stop-file "$stop"
check 'the second play has finished' 0 "$first_play$(stopped_at 6)$newline" ''
rm -f "$stop"
printf '[{"hosts":"all","tasks":[{"command":{"argv":["touch","%s"]}}]},{"hosts":"all","serial":1,"tasks":[{"command":"true"}]}]' "$stop" >"$work/play.json"
run run "$work/five.json" "$work/play.json" --stop-file "$stop"
check 'stopped between two plays' 6 "$first_play$(stopped_at 1)$newline" "rollout: 917 Stopped$newline"
rm -f "$stop"

# Where no batch would be opened nothing is asked: there is no host that waits, or none that may go down.
: >"$stop"
printf '{"all":{"hosts":{"a":{"down":true}}}}' >"$work/off.json"
run run "$work/off.json" "$work/true.json" --stop-file "$stop"
check 'nobody waits, and the file is there' 0 'boundary 1: plan batches=0 bound=nothing
a ok=0 changed=0 failed=0 skipped=0 ignored=0 state=off
end finished
' ''
printf '{"all":{"vars":{"max_down":1},"hosts":{"a":{"down":true},"b":null}}}' >"$work/off.json"
run run "$work/off.json" "$work/true.json" --stop-file "$stop"
check 'the run is blocked, and the file is there' 3 'boundary 1: blocked group=all waiting=1
a ok=0 changed=0 failed=0 skipped=0 ignored=0 state=off
b ok=0 changed=0 failed=0 skipped=0 ignored=0 state=waiting
end blocked group=all
' ''
rm -f "$stop"
finish
