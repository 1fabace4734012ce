#!/bin/sh
# A program that has ended is over, whatever it left behind: some forty kinds of children that outlive it with its outputs open. Each run returns soon behind the
# program's end, at 1, 5 and 64 forks, and keeps all that the program wrote, byte by byte. And ten thousand programs that write to their last moment, of which no
# byte is lost. It needs a C compiler and crates/rollout/out/rollout.
. "$(dirname "$0")/common.sh"
quietly
. "$top/tests/programs/steps.sh"

# What may pass behind the program's own time: 0.1 s until its end is seen, 0.2 s in which an end of its outputs is waited for, and the rest for a busy machine;
# twice that where 64 share a few processors.
allowed=$(fewer 1500 400000)
fleets=$(fewer '1 5 64' 4)
NUMBERS=$work/kept/numbers
export NUMBERS
minute=$(fewer 60000 600000)

# What is left of the programs is ended, by the numbers that they wrote down.
tidy() {
    [ ! -e "$work/kept/numbers" ] || while read -r number; do
        [ ! "/proc/$number/exe" -ef "$act" ] || kill -9 "$number" 2>/dev/null
    done <"$work/kept/numbers"
    rm -f "$work/kept/numbers"
}
trap 'tidy; rm -rf "$work"' EXIT
trap 'exit 130' INT TERM

# ---- children that outlive their program

# left WHAT CODE OUT ERR OWN HOW WORDS: on each host of each fleet the program of these words takes OWN milliseconds and gives back CODE, and the next step is
# given the first OUT and ERR letters of it, among dots or as they are.
left() {
    ignored=0
    [ "$2" -eq 0 ] || ignored=1
    tasks="{\"command\":{\"argv\":$7},\"register\":\"r\",\"ignore_errors\":true},{\"command\":{\"argv\":[\"$act\",\"$6\",\"$3\",\"{{ r.stdout }}\",\"$6\",\"$4\",\"{{ r.stderr }}\"]},\"when\":\"r.rc == $2\"}"
    for forks in $fleets; do
        most=$(($5 + allowed * (1 + forks / 64)))
        # A run that waits for what is left is broken off.
        limit=$((most / 1000 + 5))
        began=$(date +%s%N)
        many "$forks" "$forks" "$tasks"
        taken=$((($(date +%s%N) - began) / 1000000))
        check "$1, at $forks forks" 0 "$(all "$forks" "ok=2 changed=2 failed=0 skipped=0 ignored=$ignored state=updated" finished)$newline" ''
        [ "$taken" -le "$most" ] && pass || fail "$1, at $forks forks: the run took $taken ms, of which the program took $5"
        tidy
    done
}

# leaves WHAT CODE OUT ERR OWN HOW WORD..: the same of what act does.
leaves() {
    what=$1 code=$2 out=$3 err=$4 own=$5 how=$6
    shift 6
    left "$what" "$code" "$out" "$err" "$own" "$how" "$(words "$act" "$@")"
}

for size in 0 1 16384 60000 65536 65537 200000; do
    leaves "holds both outputs, and is silent, behind $size bytes" 0 "$size" 0 0 is child rest $minute meanwhile out "$size"
done
leaves 'holds both outputs, behind many bytes of both' 0 60000 60000 0 is child rest $minute meanwhile both 60000
leaves 'holds both outputs, behind errors' 0 0 60000 0 is child rest $minute meanwhile err 60000
leaves 'holds the output alone' 0 60000 10 0 is child close 2 rest $minute meanwhile out 60000 err 10
leaves 'holds the errors alone' 0 10 60000 0 is child close 1 rest $minute meanwhile out 10 err 60000
leaves 'closes the output early, and holds the errors' 0 60000 60000 50 is child rest 20 close 1 rest $minute meanwhile rest 50 both 60000
leaves 'the program closes both itself, and goes on' 0 60000 5 200 is child rest $minute meanwhile err 5 out 60000 close 1 close 2 rest 200
leaves 'the program goes on for a while' 0 60000 0 300 is child rest $minute meanwhile out 30000 rest 300 out 30000

# children that write: each byte of theirs is a dot, which may be kept or not
leaves 'writes an output each 20 ms' 0 60000 0 0 among child dots 1 20 meanwhile out 60000
leaves 'writes errors each 50 ms' 0 60000 60000 0 among child dots 2 50 meanwhile both 60000
leaves 'writes an output each 150 ms' 0 60000 0 0 among child dots 1 150 meanwhile out 60000
leaves 'writes an output each 250 ms' 0 60000 0 100 among child dots 1 250 meanwhile out 30000 rest 100 out 30000
leaves 'two that write both by turns' 0 60000 60000 0 among child dots 1 20 meanwhile child dots 2 30 meanwhile both 60000
leaves 'begins to write once the program has ended' 0 60000 0 0 among child orphan dots 1 20 meanwhile out 60000
leaves 'writes without a rest once the program has ended' 0 60000 0 0 among child orphan flood 1 meanwhile out 60000
leaves 'writes errors without a rest once the program has ended' 0 60000 60000 0 among child orphan flood 2 meanwhile both 60000
leaves 'two that write both without a rest' 0 60000 60000 0 among child orphan flood 1 meanwhile child orphan flood 2 meanwhile both 60000
leaves 'writes without a rest, where the program wrote nothing' 0 0 0 0 among child orphan flood 1 meanwhile
leaves 'writes on where nobody reads' 0 60000 0 0 among child deaf orphan dots 1 20 meanwhile out 60000
leaves 'writes once, while an end is waited for' 0 60000 0 0 among child orphan rest 50 dots 1 $minute meanwhile out 60000
leaves 'writes once, too late' 0 60000 60000 0 is child orphan rest 1000 dots 1 $minute meanwhile both 60000

# children that close what they hold, or end
leaves 'closes both 100 ms late' 0 60000 0 0 is child orphan rest 100 close 1 close 2 rest $minute meanwhile out 60000
leaves 'closes both 200 ms late' 0 60000 0 0 is child orphan rest 200 close 1 close 2 rest $minute meanwhile out 60000
leaves 'closes both 400 ms late' 0 60000 0 0 is child orphan rest 400 close 1 close 2 rest $minute meanwhile out 60000
leaves 'closes one 50 ms late, and holds the other' 0 60000 60000 0 is child orphan rest 50 close 1 rest $minute meanwhile both 60000
leaves 'ends 10 ms late' 0 60000 60000 0 is child orphan rest 10 meanwhile both 60000
leaves 'ends 150 ms late' 0 60000 60000 0 is child orphan rest 150 meanwhile both 60000

# other families
leaves 'a child of a child, whose parent has ended' 0 60000 0 0 is child heirs 1 rest $minute meanwhile out 60000
leaves 'ten generations, of which the last lives' 0 60000 0 0 is child heirs 10 rest $minute meanwhile out 60000
leaves 'ten generations, all of which live' 0 60000 0 0 is child line 10 rest $minute meanwhile out 60000
leaves 'the program is the first of ten that ended' 0 60000 0 0 is out 60000 heirs 10 rest $minute
leaves 'a session of its own' 0 60000 0 0 is child session rest $minute meanwhile out 60000
leaves 'a daemon: a session of its own, and another child' 0 60000 60000 0 is child session heirs 1 rest $minute meanwhile both 60000
leaves 'a daemon that writes' 0 60000 0 0 among child session heirs 1 dots 1 20 meanwhile out 60000
leaves 'is stopped' 0 60000 0 0 is child stopped meanwhile out 60000
leaves 'is stopped, in a session of its own' 0 60000 60000 0 is child session stopped meanwhile both 60000

# other ends of the program
leaves 'the program ends with 3' 3 60000 60000 0 is child rest $minute meanwhile both 60000 exit 3
for signal in 9 11 15; do
    leaves "signal $signal ends the program" -1 60000 60000 0 is child rest $minute meanwhile both 60000 raise "$signal"
done
leaves 'signal 9 ends the program, and its child writes' -1 60000 0 0 among child dots 1 20 meanwhile out 60000 raise 9

# as shells leave them
left 'a shell leaves one in the background' 0 60000 0 0 is "$(shell "$act rest $minute & $act out 60000")"
left 'a shell leaves one with nohup' 0 60000 0 0 is "$(shell "nohup $act rest $minute & $act out 60000")"
left 'a shell leaves one with setsid' 0 60000 0 0 is "$(shell "setsid $act rest $minute & $act out 60000")"
left 'a shell leaves one, and is another program then' 0 60000 0 0 is "$(shell "$act rest $minute & exec $act out 60000")"
left 'a shell leaves a pipe of two' 4 60000 0 0 is "$(shell "$act out 60000; $act rest $minute | $act rest $minute & exit 4")"

limit=600
# A program that leaves nothing behind isn't held up: its outputs have an end.
began=$(date +%s%N)
played "$(seq 1 20 | sed 's/.*/{"command":"true"}/' | paste -sd, -)"
taken=$((($(date +%s%N) - began) / 1000000))
told 'twenty programs that leave nothing behind' 0 'ok=20 changed=20 failed=0 skipped=0 ignored=0 state=updated' finished
! proved 'how long twenty programs take' || { [ "$taken" -lt 2000 ] && pass || fail "twenty programs that leave nothing behind took $taken ms"; }

# ---- no byte is lost

# Each of the steps writes to its last moment; what it wrote is held against what the first one did, and that against the letters.
unset NUMBERS
if proved '10,000 programs of 60,000 bytes'; then
    first="{\"command\":{\"argv\":[\"$act\",\"out\",\"60000\"]},\"register\":\"first\"}"
    same=$(seq 1 99 | sed "s|.*|,{\"command\":{\"argv\":[\"$act\",\"out\",\"60000\"]},\"register\":\"r\",\"failed_when\":\"r.stdout != first.stdout or r.stderr != ''\"}|" | tr -d '\n')
    for forks in 5 64; do
        many 100 "$forks" "$first$same,{\"command\":{\"argv\":[\"$act\",\"is\",\"60000\",\"{{ first.stdout }}\"]}}"
        check "10,000 programs of 60,000 bytes, at $forks forks" 0 "$(all 100 'ok=101 changed=101 failed=0 skipped=0 ignored=0 state=updated' finished)$newline" ''
    done
    # The same where a child holds the outputs, so that the end that is seen is the program's alone.
    held="{\"command\":{\"argv\":$(words "$act" child rest 2000 meanwhile both 60000)},\"register\":\"r\"},{\"command\":{\"argv\":[\"$act\",\"is\",\"60000\",\"{{ r.stdout }}\",\"is\",\"60000\",\"{{ r.stderr }}\"]}}"
    many 64 64 "$held$(seq 1 9 | sed "s|.*|,$held|" | tr -d '\n')"
    check '640 programs of twice 60,000 bytes, whose children hold their outputs' 0 "$(all 64 'ok=20 changed=20 failed=0 skipped=0 ignored=0 state=updated' finished)$newline" ''
fi
finish
