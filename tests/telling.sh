#!/bin/sh
# What a run tells of a program on standard error: how it ended or why it wasn't started, names that may be taken for options, characters that would move a
# terminal about, and what stands there where the recap can't be written. It needs a C compiler, Python 3 and crates/rollout/out/rollout.
. "$(dirname "$0")/common.sh"
. "$top/tests/programs/steps.sh"

# ---- a recap that can't be written

printf '{"all":{"hosts":{"a":null,"b":null,"c":null,"d":{"down":true},"e":null}}}' >"$work/down.json"
printf '[{"hosts":"all","serial":3,"max_fail_percentage":0,"tasks":[{"command":{"argv":["test","{{ inventory_hostname }}","!=","b"]}},{"command":"true"}]}]' >"$work/play.json"
verbose "$work/down.json" "$work/play.json" --forks 1
cp "$work/errors" "$work/before"
grep ' state=\(running\|failed\|halted\|off\)$' "$work/out" >"$work/down"
[ "$(cut -d ' ' -f 1 "$work/down" | paste -sd ' ' -)" = 'b d e' ] && pass || fail 'other hosts are down'
for to in full closed; do
    for flag in --quiet '' -v; do
        : >"$work/errors"
        case $to in
            full) timeout -k 5 "$limit" "$rollout" run $flag "$work/down.json" "$work/play.json" --forks 1 </dev/null >/dev/full 2>"$work/errors" ;;
            closed) timeout -k 5 "$limit" "$rollout" run $flag "$work/down.json" "$work/play.json" --forks 1 </dev/null >&- 2>"$work/errors" ;;
        esac
        status=$?
        : >"$work/out"
        timeless
        wanted="rollout: 904 Write written=0$newline"
        cp "$work/down" "$work/down.here"
        case $flag in
            --quiet) : >"$work/down.here" ;;
            -v) wanted="$(cat "$work/before")$newline$wanted" ;;
            *) wanted="b step=1 failed rc=1 ms=N name=$newline$wanted" ;;
        esac
        check "an output that is $to ${flag}" 1 '' "$wanted"
        grep ' state=' "$work/behind" | cmp -s - "$work/down.here" && pass || fail "an output that is $to ${flag}: behind the fault stands $(head -n 3 "$work/behind" | tr '\n' '|')"
    done
done
# Of several plays the last that was begun has what counts.
printf '[{"hosts":"all","tasks":[{"command":{"argv":["test","{{ inventory_hostname }}","!=","c"]}}]},{"hosts":"all","serial":1,"tasks":[{"command":"true"},{"command":{"argv":["test","{{ inventory_hostname }}","!=","b"]}}]}]' >"$work/play.json"
verbose "$work/down.json" "$work/play.json"
sed '1,/^play 2$/d' "$work/out" | grep ' state=\(running\|failed\|halted\|off\)$' >"$work/down"
timeout -k 5 "$limit" "$rollout" run -v "$work/down.json" "$work/play.json" </dev/null >/dev/full 2>"$work/errors"
[ -s "$work/down" ] && sed '1,/^rollout: 904 Write written=0$/d' "$work/errors" | grep ' state=' | cmp -s - "$work/down" && pass || fail "two plays, an output that is full: $(tail -n 3 "$work/errors" | tr '\n' '|')"
# The same of a run that its stop file ended behind its first batch.
stop=$work/kept/stop
printf '[{"hosts":"all","serial":2,"tasks":[{"command":{"argv":["touch","%s"]}},{"command":{"argv":["test","{{ inventory_hostname }}","!=","a"]}}]}]' "$stop" >"$work/play.json"
timeout -k 5 "$limit" "$rollout" run -v "$work/down.json" "$work/play.json" --stop-file "$stop" </dev/null >/dev/full 2>"$work/errors"
status=$?
rm -f "$stop"
timeless
tail -n 1 "$work/errors" | cat - "$work/behind" >"$work/ends"
mv "$work/ends" "$work/errors"
: >"$work/out"
check 'a run that its file ended, and an output that is full' 1 '' 'rollout: 904 Write written=0
a ok=1 changed=1 failed=1 skipped=0 ignored=0 state=failed
d ok=0 changed=0 failed=0 skipped=0 ignored=0 state=off
'
# Where no host is down nothing follows.
timeout -k 5 "$limit" "$rollout" run -v "$work/one.json" "$work/true.json" </dev/null >/dev/full 2>"$work/errors"
[ "$(tail -n 1 "$work/errors")" = 'rollout: 904 Write written=0' ] && pass || fail 'no host is down, and an output is full'

# ---- what is told of a program

# tells WHAT STATUS LINES WORDS: these lines are told of a program behind that of its batch and its beginning
tells() {
    printf '[{"hosts":"all","tasks":[{"name":"x","command":{"argv":%s}}]}]' "$4" >"$work/play.json"
    verbose "$work/one.json" "$work/play.json"
    : >"$work/out"
    last=$(closed 1 0 0)
    [ "$2" -eq 0 ] || last=$(closed 0 1 0)
    check "$1" "$2" '' "waiting=0 at=N open: a$newline$(begun a 1 x)$newline$3$newline$last$newline"
}
for signal in 1 2 3 4 6 8 9 10 11 13 14 15 24 31 34 64; do
    tells "signal $signal" 4 "a step=1 failed rc=-1 signal=$signal ms=N name=x" "$(words "$act" raise "$signal")"
done
tells 'a signal, behind outputs' 4 'a step=1 failed rc=-1 signal=9 ms=N name=x
  a stdout: abc
  a stderr: ab' "$(words "$act" out 3 err 2 raise 9)"
tells 'a return code above 128' 4 'a step=1 failed rc=137 ms=N name=x' "$(words "$act" exit 137)"
tells 'a program that ends well' 0 'a step=1 changed rc=0 ms=N name=x' "$(words "$act" out 3 err 2)"

# unstarted_for WHAT TEXT WORDS: the program isn't started, for what the system says
unstarted_for() {
    tells "$1" 4 "a step=1 failed not-started ms=N name=x$newline  a error: $(printf %s "$3" | sed 's/^\["\([^"]*\)".*/\1/'): $2" "$3"
}
printf 'echo no\n' >"$work/bare"
printf '#!/bin/sh\necho no\n' >"$work/plain"
printf '#!/no/such/interpreter\n' >"$work/lost"
: >"$work/empty"
ln -s round "$work/round"
chmod 755 "$work/bare" "$work/lost" "$work/empty"
unstarted_for 'no such file' 'No such file or directory (os error 2)' '["/no/such/program"]'
unstarted_for 'no such name' 'No such file or directory (os error 2)' '["no-such-program"]'
unstarted_for 'a script whose interpreter is not there' 'No such file or directory (os error 2)' "[\"$work/lost\"]"
unstarted_for 'a folder' 'Permission denied (os error 13)' "[\"$work\"]"
unstarted_for 'a file that may not be run' 'Permission denied (os error 13)' "[\"$work/plain\"]"
unstarted_for 'below a file' 'Not a directory (os error 20)' "[\"$act/none\"]"
unstarted_for 'a link to itself' 'Too many levels of symbolic links (os error 40)' "[\"$work/round\"]"
unstarted_for 'a name that is too long' 'File name too long (os error 36)' "[\"/$(printf '%0300d' 0)\"]"
unstarted_for 'a script without a first line' 'Exec format error (os error 8) (a script needs a first line with #!)' "[\"$work/bare\"]"
unstarted_for 'an empty file' 'Exec format error (os error 8) (a script needs a first line with #!)' "[\"$work/empty\"]"

# ---- what a log has without options

# logged WHAT LINES WORDS: these lines come of a program that fails, before the summary
logged() {
    printf '[{"hosts":"all","tasks":[{"name":"x","command":{"argv":%s}}]}]' "$3" >"$work/play.json"
    run run "$work/one.json" "$work/play.json"
    timeless
    : >"$work/out"
    check "$1, in a log" 4 '' "$2$newline"
}
failing='a step=1 failed rc=1 ms=N name=x'
logged 'the last line of errors' "$failing
  a stderr: two" '["sh","-c","echo out; echo one >&2; echo two >&2; exit 1"]'
logged 'blank lines behind it' "$failing
  a stderr: two" '["sh","-c","printf \"one\\ntwo \\t\\n\\n \\n\" >&2; exit 1"]'
logged 'no line feed behind it' "$failing
  a stderr: one" '["sh","-c","printf one >&2; exit 1"]'
logged 'errors of blanks alone' "$failing
  a stdout: out" '["sh","-c","echo first; echo out; echo >&2; exit 1"]'
logged 'an output alone' "$failing
  a stdout: out" '["sh","-c","echo out; exit 1"]'
logged 'no output' "$failing" '["false"]'
logged 'characters that would move a terminal' "$failing
  a stderr: ?[1mbold?" '["sh","-c","printf \"\\033[1mbold\\342\\200\\256\" >&2; exit 1"]'
logged '300 bytes' "$failing
  a stderr: $(printf '%0300d' 0)" "[\"sh\",\"-c\",\"echo $(printf '%0300d' 0) >&2; exit 1\"]"
logged 'more of them' "$failing
  a stderr: $(printf '%0300d' 0)" "[\"sh\",\"-c\",\"echo $(printf '%0301d' 0) >&2; exit 1\"]"
logged 'no half a character' "$failing
  a stderr: $(printf '%0299d' 0)" "[\"sh\",\"-c\",\"echo $(printf '%0299d' 0)é >&2; exit 1\"]"
logged 'no such program' 'a step=1 failed not-started ms=N name=x
  a error: /no/such: No such file or directory (os error 2)' '["/no/such"]'
logged 'a signal' 'a step=1 failed rc=-1 signal=9 ms=N name=x' "$(words "$act" raise 9)"
# With --json the object that -v has.
printf '[{"hosts":"all","tasks":[{"command":{"argv":["sh","-c","echo one; echo two; exit 3"]}}]}]' >"$work/play.json"
run run --json "$work/one.json" "$work/play.json"
sed 's/"ms":[0-9]*/"ms":0/' "$work/errors" | head -n 1 >"$work/lines"
echo '{"event":"ends","host":"a","step":1,"verdict":"failed","rc":3,"ms":0,"stdout":["one","two"]}' >"$work/wanted"
cmp -s "$work/lines" "$work/wanted" && pass || fail "an object in a log: $(cat "$work/lines")"
# What is no failure isn't told: hosts that are left out, names that may be options, failures that are ignored.
printf '{"all":{"hosts":{"-a":null,"b":{"down":true},"c":null}}}' >"$work/quiet.json"
printf '[{"hosts":"all","tasks":[{"command":{"argv":["true","{{ inventory_hostname }}"]}},{"command":"false","ignore_errors":true}]}]' >"$work/play.json"
run run "$work/quiet.json" "$work/play.json"
: >"$work/out"
check 'a run without a failure, in a log' 0 '' ''

# ---- names that begin with a dash

printf '{"all":{"hosts":{"-Fevil":null,"a":null}}}' >"$work/dash.json"
# warned WHAT ARGUMENTS WARNING: what is told of a program of these arguments on each of two hosts
warned() {
    printf '[{"hosts":"all","tasks":[{"command":{"argv":["true"%s]}}]}]' "$2" >"$work/play.json"
    verbose "$work/dash.json" "$work/play.json" --forks 1
    : >"$work/out"
    check "$1" 0 '' "waiting=0 at=N open: -Fevil a$newline$(begun -Fevil 1)$newline${3:+$3$newline}-Fevil step=1 changed rc=0 ms=N name=
$(begun a 1)
a step=1 changed rc=0 ms=N name=
$(closed 2 0 0)
"
}
warning='  -Fevil warning: its name stands where an option may: write -- before it'
warned 'a name as the second word' ',"{{ inventory_hostname }}"' "$warning"
warned 'a name behind other words' ',"-o","BatchMode=yes","{{ inventory_hostname }}","uptime"' "$warning"
warned 'a name twice' ',"{{ inventory_hostname }}","{{ inventory_hostname }}"' "$warning"
warned 'a name before the dashes, and behind them' ',"{{ inventory_hostname }}","--","{{ inventory_hostname }}"' "$warning"
warned 'a name behind the dashes' ',"--","{{ inventory_hostname }}"' ''
warned 'a name behind a word and the dashes' ',"-q","--","{{ inventory_hostname }}","uptime"' ''
warned 'a part of a word' ',"root@{{ inventory_hostname }}"' ''
warned 'no name' ',"-q"' ''
printf '[{"hosts":"all","tasks":[{"command":{"argv":["{{ inventory_hostname }}"]},"ignore_errors":true}]}]' >"$work/play.json"
verbose "$work/dash.json" "$work/play.json" --forks 1
grep -q warning "$work/errors" && fail 'a name as the first word: a warning' || pass
printf '[{"hosts":"all","tasks":[{"command":{"argv":["true","{{ inventory_hostname }}"]}}]}]' >"$work/play.json"
run run "$work/dash.json" "$work/play.json"
[ "$status" -eq 0 ] && [ ! -s "$work/errors" ] && pass || fail 'a name that begins with a dash, and nobody asks'

# ---- characters that move a terminal about

# Each one is a question mark; their neighbours are as they are.
shown() {
    cat >"$work/characters.py" <<'PYTHON'
import sys

hidden = {*range(0x80, 0xA0), 0x61C, 0x200E, 0x200F, *range(0x2028, 0x202F), *range(0x2066, 0x206A)}
beside = [0x7E, 0xA0, 0xA1, 0xE9, 0x61B, 0x61D, 0x200B, 0x200D, 0x2010, 0x2027, 0x202F, 0x2065, 0x206A, 0x20AC, 0x2E80, 0xFF0E, 0xFFFD, 0x1F600, 0x10202A, 0x1200E]
text = "".join(f"{chr(code)}{place % 10}" for place, code in enumerate(sorted(hidden) + beside))
if sys.argv[1] == "text":
    sys.stdout.buffer.write(text.encode())
elif sys.argv[1] == "json":
    sys.stdout.write("".join(f"\\u{int.from_bytes(pair, 'big'):04x}" for unit in [text.encode("utf-16-be")] for pair in zip(unit[::2], unit[1::2])))
else:
    sys.stdout.buffer.write("".join("?" if ord(one) in hidden else one for one in text).encode())
PYTHON
    python3 "$work/characters.py" "$1"
}
shown text >"$work/characters"
hidden=$(shown hidden)
tells 'characters of an output' 4 "a step=1 failed rc=3 ms=N name=x
  a stdout: $hidden
  a stderr: $hidden" "$(shell "cat $work/characters; cat $work/characters >&2; exit 3")"
printf '[{"hosts":"all","tasks":[{"name":"%s","command":"true"}]}]' "$(shown json)" >"$work/play.json"
verbose "$work/one.json" "$work/play.json"
: >"$work/out"
check 'characters of the name of a step' 0 '' "waiting=0 at=N open: a$newline$(begun a 1 "$hidden")${newline}a step=1 changed rc=0 ms=N name=$hidden$newline$(closed 1 0 0)$newline"
tells 'characters that are cut short' 4 "a step=1 failed rc=3 ms=N name=x
  a stdout: $(printf '\357\277\275x\357\277\275y\357\277\275')" "$(shell 'printf "\302x\342\200y\342\201"; exit 3')"
tells 'bytes below 32, and 127' 4 "a step=1 failed rc=3 ms=N name=x
  a stdout: ?$(printf '\t')?[31m???" "$(shell 'printf "\001\t\033[31m\r\177\013"; exit 3')"
# What is registered has them all.
printf '[{"hosts":"all","tasks":[{"command":{"argv":["cat","%s"]},"register":"r"},{"command":{"argv":["%s","{{ r.stdout }}",""]}}]}]' "$work/characters" "$work/keep" >"$work/play.json"
verbose "$work/one.json" "$work/play.json"
cmp -s "$work/kept/out" "$work/characters" && pass || fail 'what is registered has other characters'

# ---- at a terminal

# at_terminal WHAT SHOWN WORD..: of a run whose standard error is a terminal this is left there in the end
at_terminal() {
    what=$1
    seen=$2
    shift 2
    TERM=xterm timeout -k 5 "$limit" python3 "$helpers/screen.py" 200 "$work/recap.seen" "$work/raw" "$@" >"$work/out" 2>"$work/errors" </dev/null
    status=$?
    check "$what" "${want:-0}" "$seen" ''
}
run run "$work/dash.json" "$work/true.json"
at_terminal 'nothing to tell' '' "$rollout" run "$work/dash.json" "$work/true.json"
printf '[{"hosts":"all","tasks":[{"command":{"argv":["true","{{ inventory_hostname }}"]}}]}]' >"$work/play.json"
at_terminal 'a name that begins with a dash' "$warning$newline" "$rollout" run "$work/dash.json" "$work/play.json"
hosts 24 >"$work/hosts.json"
printf '[{"hosts":"all","tasks":[{"command":{"argv":["sleep","0.2"]}}]}]' >"$work/play.json"
at_terminal 'few descriptors' "descriptors=40 at-once=8$newline" /bin/sh -c 'ulimit -n 40; exec "$@"' sh "$rollout" run "$work/hosts.json" "$work/play.json" --forks 64
printf '[{"hosts":"all","tasks":[{"command":{"argv":["test","{{ inventory_hostname }}","!=","b"]}}]}]' >"$work/play.json"
TERM=xterm timeout -k 5 "$limit" python3 "$helpers/screen.py" 200 /dev/full "$work/raw" "$rollout" run "$work/down.json" "$work/play.json" >"$work/screen" 2>"$work/errors" </dev/null
status=$?
sed -n 's/ ms=[0-9]* name=/ ms=N name=/; / step=\|^rollout: \| state=/p' "$work/screen" >"$work/out"
check 'a recap that can'"'"'t be written' 1 'b step=1 failed rc=1 ms=N name=
rollout: 904 Write written=0
b ok=0 changed=0 failed=1 skipped=0 ignored=0 state=failed
d ok=0 changed=0 failed=0 skipped=0 ignored=0 state=off
' ''
finish
