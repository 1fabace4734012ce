#!/bin/sh
# Runs under bin/rollout-supervise: what it passes on, and what real signals to it do, in a pipe under each shell that is here, as the first process of a container, and at a terminal, which is
# tmux's, or that of `script` if there is no tmux (TERMINAL=script chooses it).
# Whoever starts this may ignore signals, and no shell can trap one that was ignored when it started.
[ -n "${SIGNALS:-}" ] || exec env --default-signal=HUP,INT,QUIT,TERM SIGNALS=default sh "$0" "$@"
. "$(dirname "$0")/common.sh"
case $rollout in /*) ;; *) rollout=$top/$rollout ;; esac
quietly
supervise=$top/bin/rollout-supervise
mkdir "$work/temporary" "$work/bin" "$work/bare"
ln -s "$rollout" "$work/bin/rollout"
export ROLLOUT="$rollout" TMPDIR="$work/temporary"
limit=30

# A program notes its session and process group, and runs until it may go on.
cat >"$work/step" <<'SH'
#!/bin/sh
here=${0%/*}
[ "$1" != stubborn ] || trap '' TERM
ps -o sid= -o pgid= -p $$ >>"$here/begun"
[ "$1" != apart ] || exec timeout 300 sleep 300
while [ -d "$here" ] && [ ! -e "$here/go" ]; do sleep 0.1; done
SH
chmod +x "$work/step"
printf '{"all":{"hosts":{"a":null,"b":null,"c":null}}}' >"$work/three.json"
# plays FILE KIND: a play of one host a batch, whose programs are of this kind
plays() {
    printf '[{"hosts":"all","serial":1,"tasks":[{"command":{"argv":["%s","%s"]}}]}]' "$work/step" "$2" >"$1"
}
plays "$work/play.json" plain
plays "$work/stubborn.json" stubborn
plays "$work/apart.json" apart

# ---- what is waited for

# comes COMMAND WORD..: the command succeeds within seconds; otherwise that is a failure
comes() {
    turns=$((limit * 10))
    until "$@"; do
        turns=$((turns - 1))
        [ "$turns" -gt 0 ] || {
            fail "it never comes: $*"
            return 1
        }
        sleep 0.1
    done
}
says() {
    grep -qF -- "$1" "$work/errors"
}
has_ended() {
    case $(ps -o stat= -p "$runner") in '' | Z*) ;; *) false ;; esac
}
# lead: the process of `rollout`, whose process group the run has
lead() {
    tail -n 1 "$work/begun" | awk '{ print $2 }'
}
# programs: how many processes the run still has, in its session, or where it has none of its own, in its group
programs() {
    ps -A -o sid= -o pgid= -o stat= | cat "$work/begun" - | awk 'NR == 1 { session = $1; group = $2; next } $3 != "" && $3 !~ /^Z/ && (session == group ? $1 == session : $2 == group) { count++ } END { print count + 0 }'
}

# start WORD..: the script in the background, without a terminal, until the first program runs. `shell` runs it, `before` is put before that.
shell=
before=
start() {
    rm -f "$work/begun" "$work/go" "$work/journal"
    : >"$work/errors"
    setsid env --default-signal=INT,QUIT $before $shell "$supervise" "$@" <"$input" >"$work/out" 2>"$work/errors" &
    runner=$!
    comes test -s "$work/begun" || cat "$work/errors"
}
send() {
    kill -s "$1" "$runner"
}
# ends WHAT STATUS OUT ERRORS: it ends so, within seconds, and leaves no temporary folder. What -v tells is passed over.
ends() {
    comes has_ended || {
        fail "$1: it goes on"
        kill -s KILL "$runner" "-$(lead)"
    }
    wait "$runner"
    status=$?
    sed -i '/^waiting=/d; /^a step=/d' "$work/errors"
    check "${shell:-sh}: $1" "$2" "$3" "$4"
    [ -z "$(ls -A "$TMPDIR")" ] && pass || fail "$1: $(ls "$TMPDIR") is left"
}
gone_by_itself() {
    [ "$(programs)" -eq 0 ]
}
# gone WHAT: no process of the run is left
gone() {
    [ "$(programs)" -eq 0 ] && pass || fail "${shell:-sh}: $1: $(programs) processes are left"
}

waits='another INT or TERM ends its programs at once'
stops="the run ends once its open batch is done; $waits"
repair='rollout-supervise: repair what is down, then resume with the hosts that are back up as HOSTS:'
in_batch='a state=running
b state=waiting
c state=waiting
end broken-off'
stopped="boundary 1: plan batches=3 bound=serial waiting=3 size=1
open: a
boundary 2: plan batches=2 bound=serial waiting=2 size=1
a ok=1 changed=1 failed=0 skipped=0 ignored=0 state=updated
b ok=0 changed=0 failed=0 skipped=0 ignored=0 state=waiting
c ok=0 changed=0 failed=0 skipped=0 ignored=0 state=waiting
end fault
"

# ---- without a signal

# as_run WHAT WORD..: the script prints what `rollout run` prints, and exits as it does
as_run() {
    what=$1
    shift
    "$rollout" run "$@" <"$input" >"$work/out.expected" 2>"$work/errors.expected"
    awaited=$?
    "$supervise" run "$@" <"$input" >"$work/out" 2>"$work/errors"
    status=$?
    if [ "$status" -eq "$awaited" ] && cmp -s "$work/out" "$work/out.expected" && cmp -s "$work/errors" "$work/errors.expected" && [ -z "$(ls -A "$TMPDIR")" ]; then
        pass
    else
        fail "$what: status $status, expected $awaited"
        diff "$work/errors.expected" "$work/errors" | head -n 5
    fi
}
printf '[{"hosts":"all","tasks":[{"command":"test {{ inventory_hostname }} != b"}]}]' >"$work/it fails.json"
printf '[{"hosts":"all","tasks":[{"command":"true"}]}]' >"$work/true.json"
as_run 'a run that finishes' "$work/three.json" "$work/true.json"
as_run 'a run with a failure, and blanks in a name' --forks 2 "$work/three.json" "$work/it fails.json" --quiet
as_run 'a run that is held' "$top/examples/two-racks.json" "$top/examples/roll-anywhere.json"
as_run 'a batch that fails' "$work/three.json" "$work/it fails.json" --forks=1
as_run 'an inventory that is not there' -- "$work/none.json" "$work/play.json"
as_run 'an option that is not known' "$work/three.json" "$work/play.json" --none
as_run 'a stop file that is there' --stop-file "$work/step" "$work/three.json" "$work/play.json"
as_run 'the same in one word' "--stop-file=$work/step" "$work/three.json" "$work/play.json"
as_run 'the help' --help
input="$work/it fails.json"
as_run 'a playbook that is read from standard input' "$work/three.json" /dev/stdin
input=/dev/null
# What a shell starts in the background ignores INT; a program of a run must not.
printf '[{"hosts":"all","tasks":[{"command":{"argv":["sh","-c","kill -s INT $$; kill -s QUIT $$"]}}]}]' >"$work/interrupts.json"
as_run 'a program that interrupts itself' "$work/three.json" "$work/interrupts.json"
run run "$work/three.json" "$work/it fails.json"
"$supervise" run "$work/three.json" "$work/it fails.json" <&- >"$work/out.closed" 2>"$work/errors"
[ $? -eq "$status" ] && cmp -s "$work/out" "$work/out.closed" && pass || fail "a closed standard input: $(cat "$work/errors")"
for word in '' plan --help; do
    "$supervise" $word "$work/three.json" "$work/play.json" >"$work/out" 2>"$work/errors" </dev/null
    status=$?
    check "the word '$word' instead of run" 1 '' "usage: rollout-supervise run [OPTIONS] INV PLAY$newline"
done
# The program next to the script, then the one in PATH.
cp "$supervise" "$work/bin/rollout-supervise"
(unset ROLLOUT && "$work/bin/rollout-supervise" run --help) >"$work/out" 2>&1
(unset ROLLOUT && PATH=$work/bin:$PATH "$supervise" run --help) >"$work/errors" 2>&1
grep -q '^Usage: rollout run' "$work/out" && cmp -s "$work/out" "$work/errors" && pass || fail 'another program is found'
# It knows each option that has a value: the word after another one would be the inventory.
for option in $("$rollout" help run | sed -n 's/.*\(--[a-z-]*\) <.*/\1/p'); do
    grep -q "^    /--forks .*/$option[ )]\|^    /$option " "$supervise" && pass || fail "$option has a value, and is not among those of the script"
done

# ---- signals, in a pipe

# one_signal NAME: the open batch goes through its steps, and no other opens
one_signal() {
    start run --journal "$work/journal" "$work/three.json" "$work/play.json"
    send "$1"
    comes says "rollout-supervise: $1: "
    touch "$work/go"
    ends "one $1" 6 "$stopped" "rollout-supervise: $1: $stops${newline}rollout: 917 Stopped$newline"
    gone "one $1"
}
# two_signals NAME NAME STATUS [PLAY]: all programs end at once, and what is told says how to resume
two_signals() {
    play=$work/${4:-play}.json
    start run --forks 2 --journal "$work/journal" "$work/three.json" "$play"
    send "$1"
    comes says "rollout-supervise: $1: $stops"
    send "$2"
    ends "$1 and then $2" "$3" '' "rollout-supervise: $1: $stops
rollout-supervise: $2: ending the programs of the run
$in_batch
$repair
rollout run --resume $work/journal --up HOSTS --forks 2 $work/three.json $play
"
    gone "$1 and then $2"
}
# killed SIGNAL NUMBER: something else kills `rollout` itself
killed() {
    start run "--journal=$work/journal" "$work/three.json" "$work/play.json" -v
    kill -s "$1" "$(lead)"
    ends "rollout is killed by $1" $((128 + $2)) '' "rollout-supervise: rollout was killed by signal $2: ending its programs
$in_batch
$repair
rollout run --resume $work/journal --up HOSTS -v $work/three.json $work/play.json
"
    gone "rollout is killed by $1"
}
for shell in sh dash bash 'busybox sh' mksh ksh; do
    command -v ${shell% *} >/dev/null || continue
    [ "$shell" != dash ] || [ "$(readlink -f "$(command -v sh)")" != "$(readlink -f "$(command -v dash)")" ] || continue
    one_signal TERM
    two_signals INT TERM 143
    killed KILL 9
done
shell=
one_signal INT
one_signal HUP
two_signals TERM INT 130
two_signals HUP TERM 143
killed TERM 15
# Programs that ignore TERM end by KILL; one that makes a process group of its own is found by its session.
two_signals INT INT 130 stubborn
two_signals INT INT 130 apart
start run "$work/three.json" "$work/play.json"
send QUIT
ends 'QUIT' 131 '' 'rollout-supervise: QUIT: ending the programs of the run
rollout-supervise: no journal records what the run did
'
gone QUIT
# A terminal that closes sends HUP, and so does its shell. PIPE changes nothing.
start run "$work/three.json" "$work/play.json"
send PIPE
send HUP
comes says "HUP: $stops"
send HUP
touch "$work/go"
ends 'HUP twice' 6 "$stopped" "rollout-supervise: HUP: $stops${newline}rollout: 917 Stopped$newline"

# Where the script itself is killed after a signal, the stop file stays: the run ends after its batch all the same.
start run "$work/three.json" "$work/play.json"
send TERM
comes says "TERM: $stops"
send KILL
wait "$runner" 2>/dev/null
touch "$work/go"
comes gone_by_itself
printf '%s' "$stopped" | cmp -s - "$work/out" && pass || fail "the script is killed: $(cat "$work/out")"
rm -r "$TMPDIR"/*

# A stop file of one's own is made, whatever its name, and stays.
for word in --stop-file "--stop-file=$work/a stop"; do
    case $word in *=*) start run "$word" "$work/three.json" "$work/play.json" ;; *) start run "$word" "$work/a stop" "$work/three.json" "$work/play.json" ;; esac
    send TERM
    comes says TERM:
    touch "$work/go"
    ends "the stop file of $word" 6 "$stopped" "rollout-supervise: TERM: $stops; remove $work/a stop before the next run${newline}rollout: 917 Stopped$newline"
    [ -f "$work/a stop" ] && [ ! -s "$work/a stop" ] && pass || fail "$word: the stop file is not there"
    rm -f "$work/a stop"
done
start run --stop-file /proc/stop --journal "$work/journal" "$work/three.json" "$work/play.json"
send TERM
comes says 'TERM: '
says "rollout-supervise: TERM: the stop file cannot be made; $waits" && pass || fail "a stop file that can't be made: $(cat "$work/errors")"
send TERM
comes has_ended && gone 'a stop file that cannot be made'
wait "$runner"

# The line that resumes is one that a shell reads, whatever the names are.
odd="$work/it's \"one\" \$(of) these
two"
mkdir "$odd"
cp "$work/three.json" "$odd/-i.json"
plays "$odd/p l.json" plain
(
    cd "$odd" || exit 1
    start run --journal "$odd/the journal" --no-lock --forks 2 -- -i.json "$odd/p l.json"
    send QUIT
    comes has_ended
    sed '1,/^rollout-supervise: repair /d; s/ --up HOSTS / --up a /' "$work/errors" >"$work/resume"
    touch "$work/go"
    PATH=$work/bin:$PATH sh "$work/resume" >"$work/out" 2>"$work/errors" </dev/null
    grep -q -- ' --no-lock --forks 2 -- -i.json ' "$work/resume" && [ "$(tail -n 1 "$work/out")" = 'end finished' ]
) && pass || fail "the line that resumes: $(cat "$work/resume" "$work/errors")"

# Nobody reads what it says: it goes on all the same.
mkfifo "$work/pipe"
: <"$work/pipe" &
setsid env --default-signal=INT,QUIT sh -c 'exec "$@" 2>"$0"' "$work/pipe" "$supervise" run --journal "$work/j" "$work/three.json" "$work/play.json" >"$work/out" </dev/null &
runner=$!
rm -f "$work/begun" "$work/go"
comes test -s "$work/begun"
send TERM
touch "$work/go"
comes has_ended
wait "$runner"
[ $? -eq 6 ] && printf '%s' "$stopped" | cmp -s - "$work/out" && pass || fail "a pipe that nobody reads: $(cat "$work/out")"

# ---- as the first process of a container

if unshare --pid --fork --mount-proc true 2>/dev/null; then
    before='unshare --pid --fork --mount-proc'
    start run --journal "$work/journal" "$work/three.json" "$work/play.json"
    runner=$(ps -A -o pid= -o ppid= | awk -v parent="$runner" '$2 == parent { print $1 }')
    send TERM
    comes says "TERM: $stops"
    touch "$work/go"
    comes has_ended
    printf '%s' "$stopped" | cmp -s - "$work/out" && pass || fail "the first process of a container: $(cat "$work/out")"
    before=
else
    echo 'left out: no right to make a process namespace'
fi

# ---- without setsid

# Where there is neither that nor job control, nothing is run; some shells have job control without a terminal.
for name in awk cat date env mktemp ps rm sed sh sleep sort stty test timeout touch tr true; do
    ln -s "$(command -v $name)" "$work/bare/$name"
done
if [ "$(setsid sh -c 'set -m; echo $-' 2>/dev/null | tr -dc m)" = m ]; then
    before="env PATH=$work/bare"
    two_signals INT INT 130
    before=
else
    PATH=$work/bare "$(command -v setsid)" "$work/bare/sh" "$supervise" run "$work/three.json" "$work/play.json" >"$work/out" 2>"$work/errors" </dev/null
    status=$?
    sed -i 1d "$work/errors"
    check 'neither setsid nor job control' 1 '' "rollout-supervise: nothing is run without setsid or job control$newline"
fi

# ---- at a terminal

# The shell of a terminal dies as that closes, and with it whatever has no handler; one below it notes the exit status.
cat >"$work/at_terminal" <<'SH'
trap : INT
sh "$HERE/noting"
while [ -d "$HERE" ] && [ ! -e "$HERE/seen" ]; do sleep 0.1; done
SH
cat >"$work/noting" <<'SH'
trap : HUP INT
PATH=${BARE:-$PATH}
"$SUPERVISE" run --journal "$HERE/journal" "$HERE/three.json" "$HERE/play.json" >"$HERE/out"
echo $? >"$HERE/status"
SH
export SUPERVISE="$supervise" HERE="$work"
if [ -z "${TERMINAL:-}" ]; then
    ! command -v script >/dev/null || TERMINAL=script
    ! command -v tmux >/dev/null || TERMINAL=tmux
fi
case ${TERMINAL:=none} in
tmux)
    opens() { TERM=xterm tmux -S "$work/tmux" -f /dev/null new-session -d -x 160 -y 40 "sh '$work/at_terminal'"; }
    interrupts() { tmux -S "$work/tmux" send-keys C-c; }
    shows() { tmux -S "$work/tmux" capture-pane -pJ | grep -qxF -- "$1"; }
    closes() { tmux -S "$work/tmux" kill-server; }
    ;;
script)
    mkfifo "$work/keys"
    opens() {
        TERM=xterm env --default-signal=INT,QUIT script -qfc "sh '$work/at_terminal'" "$work/typescript" <"$work/keys" >/dev/null 2>&1 &
        terminal=$!
        exec 4>"$work/keys"
    }
    interrupts() { printf '\003' >&4; }
    # What is written over stands before a line's own text.
    shows() { tr -d '\r' <"$work/typescript" | sed "s/.*$(printf '\033')\[K//" | grep -qxF -- "$1"; }
    closes() {
        kill -s KILL "$terminal"
        exec 4>&-
    }
    ;;
esac

# opened: the script at a terminal, until the first program runs
opened() {
    rm -f "$work/begun" "$work/go" "$work/journal" "$work/status" "$work/seen"
    opens
    comes test -s "$work/begun"
}
# noted WHAT STATUS: the shell at the terminal notes this status, and no process of the run is left
noted() {
    comes test -s "$work/status" && [ "$(cat "$work/status")" -eq "$2" ] && pass || fail "at a terminal: $1: status $(cat "$work/status")"
    gone "at a terminal: $1"
    touch "$work/seen"
}
stops_itself() {
    [ -n "$(find "$TMPDIR" -name stop)" ]
}
at_terminal() {
    opened
    interrupts
    comes shows "rollout-supervise: INT: $stops"
    touch "$work/go"
    noted 'Ctrl-C' 6
    printf '%s' "$stopped" | cmp -s - "$work/out" && pass || fail 'at a terminal: Ctrl-C: another recap'
    closes 2>/dev/null
    opened
    interrupts
    comes shows "rollout-supervise: INT: $stops"
    interrupts
    comes shows "rollout run --resume $work/journal --up HOSTS $work/three.json $work/play.json"
    noted 'Ctrl-C twice' 130
    closes 2>/dev/null
    opened
    closes 2>/dev/null
    comes stops_itself
    touch "$work/go"
    noted 'a terminal that closes' 6
    printf '%s' "$stopped" | cmp -s - "$work/out" && pass || fail 'at a terminal that closes: another recap'
}
if [ "$TERMINAL" = none ]; then
    echo 'left out: neither tmux nor script'
else
    at_terminal
    # With job control in place of setsid.
    export BARE="$work/bare"
    at_terminal
fi
finish
