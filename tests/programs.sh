#!/bin/sh
# Runs plays whose programs do what programs do: each kind of output, of end and of start that can't be had, with the texts that are kept of
# it compared byte by byte; many programs at once; and each call by which a program is run failing in turn. Each recap of a run that broke off is held against
# what the programs wrote down of their begins and ends (tests/programs/kept.py), which is shown to tell false ones. It needs a C compiler, Python 3 and
# crates/rollout/out/rollout. While that has no command `run`, all is passed over.
. "$(dirname "$0")/common.sh"
quietly
. "$top/tests/programs/steps.sh"

# ---- outputs: their first 65,536 bytes are kept

most=65536
for size in 0 1 65535 65536 65537 1000000 16777216; do
    kept=$size
    [ "$kept" -le "$most" ] || kept=$most
    acted "$size bytes of output" 0 "$kept" 0 out "$size"
    acted "$size bytes of errors" 0 0 "$kept" err "$size"
done
acted 'as many of both, by turns' 0 "$most" "$most" both 65536
acted 'one more of both, by turns' 0 "$most" "$most" both 65537
acted 'a million of both, by turns' 0 "$most" "$most" both 1000000
acted 'first the output, then the errors' 0 "$most" "$most" out 1000000 err 1000000
acted 'first the errors, then the output' 0 "$most" "$most" err 1000000 out 1000000
acted 'errors in the midst of an output' 0 300 5 out 100 err 5 out 200
acted 'an output in small pieces, with rests' 0 6 0 out 1 rest 20 out 2 rest 20 out 3
acted 'all that is read of an output, behind many errors' 0 "$most" "$most" err 16000000 out 16777216

# ---- at most 16,777,216 bytes of an output are read; then nobody reads either

acted 'an output that is not read to its end' -1 "$most" 0 out 20971520
acted 'errors that are not read to their end' -1 0 "$most" err 20971520
acted 'two outputs that are not read to their ends' -1 "$most" "$most" both 20971520
acted 'an output that is not read to its end, behind many errors' -1 "$most" "$most" err 10000000 out 20971520
acted 'nobody reads, and the program heeds it' 7 "$most" 0 ignore out 20971520
acted 'nobody reads, and the program goes on' 3 "$most" 0 deaf out 20971520 rest 50 exit 3
acted 'nobody reads the errors either' 7 "$most" 0 deaf out 20971520 ignore err 1 exit 4
played '{"command":"cat /dev/zero"}'
told 'an output without an end' 4 'ok=0 changed=0 failed=1 skipped=0 ignored=0 state=failed' all-failed

# ---- texts

says 'one line' 'a line' "$(shell 'echo "a line"')"
says 'line ends of all kinds at the end' "a
b" "$(shell 'printf "a\nb\r\n\n\r\r\n"')"
says 'line ends alone' '' "$(shell 'printf "\r\n\n\r"')"
says 'line ends and blanks at the end' 'a
 ' "$(shell 'printf "a\n \n"')"
says 'line ends at the front' '
a' "$(shell 'printf "\na"')"
printf 'x\357\277\275y' >"$work/want.out"
ran 'a byte that is no UTF-8' 0 "$(shell 'printf "x\377y\n"')"
printf '\357\277\275' >"$work/want.out"
ran 'half a character' 0 "$(shell 'printf "\342\202"')"
printf '\357\277\275\357\277\275' >"$work/want.err"
ran 'two bytes of no character, as errors' 0 "$(shell 'printf "\300\200\n" >&2')"
printf 'caf\303\251 \342\202\254 \360\237\230\200' >"$work/want.out"
ran 'characters of two, three and four bytes' 0 "$(shell 'printf "caf\303\251 \342\202\254 \360\237\230\200\r\n"')"
"$act" out 65530 >"$work/want.out"
ran 'line ends at the end of what is kept' 0 "$(shell "$act out 65530; printf '\n\n\r\n\n\n'; echo more")"
awk 'BEGIN { for (i = 0; i < 21845; i++) printf "\357\277\275" }' >"$work/want.out"
ran 'as many bytes of no UTF-8 as make a word' 0 "$(shell 'head -c 21845 /dev/zero | tr "\0" "\377"')"
# A text may be longer than a word: each bad byte takes three. The step that is to have it isn't started.
overlong() {
    played "{\"command\":{\"argv\":$2},\"register\":\"r\"},{\"command\":{\"argv\":[\"true\",\"{{ r.stdout }}\"]},\"register\":\"s\",\"ignore_errors\":true},{\"command\":\"true\",\"when\":\"s is failed and s.rc is not defined\"}"
    told "$1" 0 'ok=3 changed=2 failed=0 skipped=0 ignored=1 state=updated' finished
}
overlong 'one byte of no UTF-8 too many for a word' "$(shell 'head -c 21846 /dev/zero | tr "\0" "\377"')"
overlong 'a character cut in two where what is kept ends' "$(shell "$act out 65535; printf '\303\251'")"
overlong 'all that is kept is no UTF-8' "$(shell 'head -c 70000 /dev/zero | tr "\0" "\377"')"

# ---- return codes

for code in 0 1 2 3 100 126 127 128 129 254 255; do
    ran "return code $code" "$code" "$(words "$act" exit "$code")"
done
ran 'a return code above 255' 1 "$(shell 'exit 257')"

# ---- signals

for signal in 1 2 3 4 6 7 8 9 10 11 12 13 14 15 24 25 31; do
    acted "signal $signal, behind an output" -1 1000 10 out 1000 err 10 raise "$signal"
done
says 'a signal that ends a child alone' '137' "$(shell '(sh -c "kill -9 \$\$"; echo $?) 2>/dev/null')"
acted 'stops, and is made to go on' 0 30 0 child rest 100 continue meanwhile out 10 raise 19 out 20

# ---- ends and outputs apart

acted 'closes its outputs and goes on' 5 10 20 out 10 err 20 close 1 close 2 rest 300 exit 5
acted 'closes its output alone' 0 10 "$most" out 10 close 1 err 70000 rest 50 err 1
acted 'closes its errors alone' 0 "$most" 3 err 3 close 2 rest 50 out 100000
acted 'a child that it leaves behind writes too late' 0 5 0 child rest 1000 out 9 meanwhile out 5
acted 'a child that it leaves behind writes errors too late' 6 0 4 child close 1 rest 1000 err 9 meanwhile err 4 exit 6
acted 'is ended by a signal, and a child writes too late' -1 8 0 child rest 1000 out 8 meanwhile out 8 raise 9
before=$(date +%s)
acted 'a child that it leaves behind holds nothing' 0 4 0 alone rest 20000 meanwhile out 4
[ $(($(date +%s) - before)) -lt 15 ] && pass || fail 'a child that holds nothing is waited for'
acted 'ends before it is read' 0 60000 0 out 60000

# ---- starts

unstarted 'no such file' '["/no/such/program"]'
unstarted 'no such name' '["no-such-program"]'
unstarted 'a folder' "[\"$work\"]"
unstarted 'below a file' "[\"$act/none\"]"
printf '#!/bin/sh\necho no\n' >"$work/plain"
unstarted 'a file that may not be run' "[\"$work/plain\"]"
printf 'echo no\n' >"$work/bare"
chmod 755 "$work/bare"
unstarted 'a script that names no interpreter' "[\"$work/bare\"]"
printf '#!/no/such/interpreter\n' >"$work/lost"
chmod 755 "$work/lost"
unstarted 'a script whose interpreter is not there' "[\"$work/lost\"]"
: >"$work/empty"
chmod 755 "$work/empty"
unstarted 'an empty file' "[\"$work/empty\"]"
unstarted 'an empty first word' '[""]'
unstarted 'a first word of a blank' '[" "]'
unstarted 'a NUL in the first word' '["true\u0000"]'
unstarted 'a NUL in an argument' '["true","a\u0000b"]'
unstarted 'no path of so many bytes' "[\"/$(head -c 5000 /dev/zero | tr '\0' x)\"]"
long=$(head -c 65536 /dev/zero | tr '\0' x)
says 'a word of 65,536 bytes' 65536 "[\"sh\",\"-c\",\"printf %s \\\"\$0\\\" | wc -c\",\"$long\"]"
says '200,000 bytes of words' 200000 "[\"sh\",\"-c\",\"printf %s \\\"\$@\\\" | wc -c\",\"x\",\"$long\",\"$long\",\"$long\",\"$(printf '%.3392s' "$long")\"]"
unstarted 'a word of 65,537 bytes' "[\"true\",\"x$long\"]"
! proved 'eight million bytes of words' || unstarted 'more bytes of words than the system takes' "[\"true\"$(for i in $(seq 1 120); do printf ',"%s"' "$long"; done)]"
# A command of many words, and a play of as many steps as there may be.
says 'two thousand words' '2000 w1 w2000' "[\"sh\",\"-c\",\"echo \$# \$1 \${2000}\",\"x\",$(seq 2000 | sed 's/.*/"w&"/' | paste -sd, -)]"
played "$(seq 255 | sed 's/.*/{"command":"false","when":false}/' | paste -sd, -),{\"command\":\"true\"}"
told '256 steps' 0 'ok=1 changed=1 failed=0 skipped=255 ignored=0 state=updated' finished
mkdir "$work/bin"
printf '#!/bin/sh\necho found\n' >"$work/bin/ours"
chmod 755 "$work/bin/ours"
kept_path=$PATH
PATH=$work/bin:$PATH
says 'a program that PATH names' found '["ours"]'
PATH=$kept_path
unstarted 'the same, and PATH does not name it' '["ours"]'

# ---- what a program sees

says 'nothing to read' '0' "$(shell 'wc -c | tr -d " "')"
ran 'a read of nothing' 1 "$(shell 'read -r line')"
says 'the null device as its input' /dev/null '["readlink","/proc/self/fd/0"]'
echo typed >"$work/typed"
input=$work/typed
says 'nothing to read, where the one that started it has something' '0' "$(shell 'wc -c | tr -d " "')"
input=/dev/null
says 'words as they are, without a shell' "\$HOME|*|a b|it's|\"|\\|;|>x||caf$(printf '\303\251')" '["sh","-c","IFS=\"|\"; printf %s \"$*\"","x","$HOME","*","a b","it'"'"'s","\"","\\","\u003b",">x","","caf\u00e9"]'
says 'a word of two lines' 'a
b' '["printf","a\nb"]'
says 'its own name' sh '["sh","-c","echo $0"]'
says 'three descriptors' '0 1 2 ' "[\"$act\",\"open\"]"
says 'no signal is ignored or held back' '' "[\"$act\",\"signals\"]"
GREETING='a b'
export GREETING
says 'its environment' 'a b' '["printenv","GREETING"]'
cd "$work/kept" || exit 1
says 'its folder' "$(pwd -P)" '["pwd","-P"]'
cp "$work/bin/ours" "$work/kept/here"
says 'a program of its folder' found '["./here"]'
played "{\"command\":{\"argv\":$(shell 'cd / && pwd')},\"register\":\"r\"},{\"command\":{\"argv\":[\"test\",\"$(pwd -P)\",\"-ef\",\".\"]},\"when\":\"r.stdout == '/'\"}"
told 'a program that changes its folder, and the next one' 0 'ok=2 changed=2 failed=0 skipped=0 ignored=0 state=updated' finished
cd "$top" || exit 1

# ---- many at once

for forks in 1 2 7 64; do
    many 300 "$forks" '{"command":{"argv":["test","{{ inventory_hostname }}","!=","h0007"]}}'
    check "one of 300 fails, at $forks forks" 2 "$(all 300 "ok=1 $updated" finished 7 'ok=0 changed=0 failed=1 skipped=0 ignored=0 state=failed')$newline" ''
done
many 4096 64 '{"command":"true"}'
check '4,096 hosts' 0 "$(all 4096 "ok=1 $updated" finished)$newline" ''
# one host a batch, so as many boundaries as hosts, and one more
hosts 600 >"$work/hosts.json"
printf '[{"hosts":"all","serial":1,"tasks":[{"command":"true"}]}]' >"$work/play.json"
run run "$work/hosts.json" "$work/play.json"
check '601 boundaries' 0 "$(awk -v count=600 -v ending="ok=1 $updated" 'BEGIN {
    for (i = 0; i < count; i++) printf "boundary %d: plan batches=%d bound=serial waiting=%d size=1\nopen: h%04d\n", i + 1, count - i, count - i, i
    printf "boundary %d: plan batches=0 bound=nothing\n", count + 1
    for (i = 0; i < count; i++) printf "h%04d %s\n", i, ending
    print "end finished"
}')$newline" ''
# over a million events: each host is claimed and reports at each step, though no program is started
if proved 'half a million steps'; then
    many 4096 64 "$(seq 1 128 | sed 's/.*/{"command":"true","when":false}/' | paste -sd, -)"
    check '4,096 hosts, each of which skips 128 steps' 0 "$(all 4096 'ok=0 changed=0 failed=0 skipped=128 ignored=0 state=updated' finished)$newline" ''
fi
twice='ok=2 changed=2 failed=0 skipped=0 ignored=0 state=updated'
many 64 64 '{"command":{"argv":["sh","-c","yes $0 | head -c 60000; yes $0.err | head -c 60000 >&2","{{ inventory_hostname }}"]},"register":"r"},{"command":{"argv":["sh","-c","test \"$(yes $0 | head -c 60000)\" = \"$1\" -a \"$(yes $0.err | head -c 60000)\" = \"$2\"","{{ inventory_hostname }}","{{ r.stdout }}","{{ r.stderr }}"]}}'
check 'each of 64 at once keeps its own outputs' 0 "$(all 64 "$twice" finished)$newline" ''
many 64 64 "{\"command\":{\"argv\":[\"$act\",\"both\",\"20971520\"]},\"ignore_errors\":true,\"register\":\"r\"},{\"command\":\"true\",\"when\":\"r.rc == -1\"}"
check '64 at once whose outputs are not read to their ends' 0 "$(all 64 'ok=2 changed=2 failed=0 skipped=0 ignored=1 state=updated' finished)$newline" ''
says_open=$(words "$act" open)
many 64 64 "{\"command\":{\"argv\":$says_open},\"register\":\"r\"},{\"command\":\"true\",\"when\":\"r.stdout == '0 1 2 '\"}"
check 'none of 64 at once has descriptors of another' 0 "$(all 64 "$twice" finished)$newline" ''

# Each program writes down its begin and its end: never do more run at once than there are forks, and several do.
cat >"$work/note" <<'SH'
#!/bin/sh
echo + >>"$1"
sleep 0.1
echo - >>"$1"
SH
chmod 755 "$work/note"
for forks in 1 3 16; do
    rm -f "$work/kept/notes"
    many 16 "$forks" "{\"command\":{\"argv\":[\"$work/note\",\"$work/kept/notes\"]}}"
    check "programs that take a while, at $forks forks" 0 "$(all 16 "ok=1 $updated" finished)$newline" ''
    at_once=$(awk '$1 == "+" { now++ } $1 == "-" { now-- } now > most { most = now } END { print most + 0 }' "$work/kept/notes")
    if [ "$at_once" -le "$forks" ] && { [ "$forks" -eq 1 ] || [ "$at_once" -gt 1 ]; }; then
        pass
    else
        fail "$at_once programs at once, at $forks forks"
    fi
done

# ---- told while it runs

# What is told of a play that fails on one host, but for the times.
printf '{"all":{"hosts":{"a":null,"b":null,"c":null}}}' >"$work/three.json"
printf '[{"hosts":"all","serial":2,"tasks":[{"name":"greet","command":{"argv":%s},"register":"r"},{"command":"/no/such/program","ignore_errors":true},{"name":"a\\tb\\nc","command":"true","when":"inventory_hostname == %s"}]}]' \
    "$(shell 'echo hello; echo oops >&2; test {{ inventory_hostname }} != b || { printf "one\n\ttwo\033[31m\n\n"; exit 3; }')" "'c'" >"$work/play.json"
recap='boundary 1: plan batches=2 bound=serial waiting=3 size=2
open: a c
boundary 2: plan batches=1 bound=serial waiting=1 size=2
open: b
boundary 3: plan batches=0 bound=nothing
a ok=2 changed=1 failed=0 skipped=1 ignored=1 state=updated
b ok=0 changed=0 failed=1 skipped=0 ignored=0 state=failed
c ok=3 changed=2 failed=0 skipped=0 ignored=1 state=updated
end all-failed
'
told="waiting=1 at=N open: a c
$(begun a 1 greet)
a step=1 changed rc=0 ms=N name=greet
$(begun c 1 greet)
c step=1 changed rc=0 ms=N name=greet
$(begun a 2)
a step=2 ignored not-started ms=N name=
  a error: /no/such/program: No such file or directory (os error 2)
$(begun c 2)
c step=2 ignored not-started ms=N name=
  c error: /no/such/program: No such file or directory (os error 2)
a step=3 skipped name=a$(printf '\t')b?c
$(begun c 3 "a$(printf '\t')b?c")
c step=3 changed rc=0 ms=N name=a$(printf '\t')b?c
$(closed 2 0 0)
waiting=0 at=N open: b
$(begun b 1 greet)
b step=1 failed rc=3 ms=N name=greet
  b stdout: hello
  b stdout: one
  b stdout: $(printf '\t')two?[31m
  b stderr: oops
$(closed 0 1 0)
"
run run "$work/three.json" "$work/play.json" --forks 1
check 'nothing is told where nobody asks' 4 "$recap" ''
verbose "$work/three.json" "$work/play.json" --forks 1
check 'what is told' 4 "$recap" "$told"
# A step takes at least as long as its program.
played '{"command":"sleep 0.3"}'
run run -v "$work/one.json" "$work/play.json"
taken=$(sed -n 's/^a step=1 changed rc=0 ms=\([0-9]*\) name=$/\1/p' "$work/errors")
[ "${taken:-0}" -ge 300 ] && [ "$taken" -lt 5000 ] && pass || fail "a program of 0.3 s took $taken ms"
# Each of five programs of 0.1 s is told with its part of a second.
played "$(seq 1 5 | sed 's/.*/{"command":"sleep 0.1"}/' | paste -sd, -)"
run run -v "$work/one.json" "$work/play.json"
[ "$(sed -n 's/^a step=[1-5] changed rc=0 ms=\([0-9]*\) name=$/\1/p' "$work/errors" | awk '$1 >= 100 && $1 < 5000' | wc -l)" -eq 5 ] && pass || fail "five programs of 0.1 s: $(grep -o 'ms=[0-9]*' "$work/errors" | tr '\n' ' ')"
# Each play is told of under the names of its own steps.
printf '[{"hosts":"all","tasks":[{"name":"first","command":"true"}]},{"hosts":"all","tasks":[{"name":"second","command":"true"},{"name":"third","command":"true"}]}]' >"$work/plays.json"
verbose "$work/one.json" "$work/plays.json"
check 'what is told of a second play' 0 "$(cat "$work/out")$newline" "play 1
waiting=0 at=N open: a
$(begun a 1 first)
a step=1 changed rc=0 ms=N name=first
$(closed 1 0 0)
play 2
waiting=0 at=N open: a
$(begun a 1 second)
a step=1 changed rc=0 ms=N name=second
$(begun a 2 third)
a step=2 changed rc=0 ms=N name=third
$(closed 1 0 0)
"
# Nobody reads what is told, or it can't be written: the run goes on.
run run "$work/three.json" "$work/play.json"
cp "$work/out" "$work/unwatched"
for to in full closed; do
    case $to in
        full) timeout 60 "$rollout" run -v "$work/three.json" "$work/play.json" >"$work/out" 2>/dev/full </dev/null ;;
        closed) timeout 60 "$rollout" run -v "$work/three.json" "$work/play.json" >"$work/out" 2>&- </dev/null ;;
    esac
    cmp -s "$work/out" "$work/unwatched" && pass || fail "told to nobody ($to): another recap"
done
{ timeout 60 "$rollout" run -v "$work/three.json" "$work/play.json" 2>&1 >"$work/out" </dev/null; } | true
cmp -s "$work/out" "$work/unwatched" && pass || fail 'told to a closed pipe: another recap'
# Outputs of many that fail at once: each line is whole, and each block in one piece.
many 64 64 "{\"command\":{\"argv\":[\"sh\",\"-c\",\"yes \$0.out | head -n 3000; yes \$0.err | head -n 3000 >&2; exit 1\",\"{{ inventory_hostname }}\"]},\"ignore_errors\":true}"
run run --verbose "$work/hosts.json" "$work/play.json" --forks 64
awk '
    /^waiting=|^closed |^h[0-9]* step=1 begins / { next }
    /^h[0-9]* step=1 ignored rc=1 ms=[0-9]* name=$/ { if (block && lines != 6000) bad = 1; block = $1; lines = 0; seen++; next }
    { lines++; end = lines <= 3000 ? "out" : "err"; if ($0 != "  " block " std" end ": " block "." end) bad = 1 }
    END { exit bad || lines != 6000 || seen != 64 }
' "$work/errors" && pass || fail 'what is told of 64 at once is mixed'

# ---- the examples

# Each playbook on each inventory, with stand-ins for the programs that would go to hosts: a run refuses what `plan` refuses, and where none of
# its programs fails, it opens as many batches as the plan has.
for stand_in in ssh curl; do
    printf '#!/bin/sh\n:\n' >"$work/bin/$stand_in"
    chmod 755 "$work/bin/$stand_in"
done
cp "$work/bin/ssh" "$work/kept/reboot-and-wait"
cd "$work/kept" || exit 1
PATH=$work/bin:$PATH
for inventory in two-racks two-regions crossing-racks ansible/racks ansible/zones; do
    for playbook in roll-anywhere restart-web everywhere ansible/restart; do
        what="$playbook on $inventory"
        run plan "$top/examples/$inventory.json" "$top/examples/$playbook.json"
        planned=$status
        mv "$work/out" "$work/plan"
        mv "$work/errors" "$work/refusal"
        for forks in 1 64; do
            run run "$top/examples/$inventory.json" "$top/examples/$playbook.json" --forks $forks
            case $planned$playbook in
                1*) [ "$status" -eq 1 ] && [ ! -s "$work/out" ] && cmp -s "$work/errors" "$work/refusal" ;;
                *roll-anywhere | *ansible/restart) [ "$status" -le 4 ] && [ ! -s "$work/errors" ] && grep -q "^boundary 1: $(head -n 1 "$work/plan")$" "$work/out" ;;
                *) [ "$status" -eq "$planned" ] && [ ! -s "$work/errors" ] && grep -q "^boundary 1: $(head -n 1 "$work/plan")$" "$work/out" &&
                    [ "$(grep -c '^batch ' "$work/plan")" -eq "$(grep -c '^open: ' "$work/out")" ] && ! grep -q 'state=failed' "$work/out" ;;
            esac && pass || fail "$what at $forks forks: status $status, $(head -n 1 "$work/errors")"
            [ "$forks" -eq 64 ] || mv "$work/out" "$work/alone"
        done
        cmp -s "$work/alone" "$work/out" && pass || fail "$what: other bytes at 64 forks"
    done
done
PATH=$kept_path
cd "$top" || exit 1

# ---- nothing is left behind

# What the program that started this has open, its threads, its memory, and how many of its children have ended: looked at while nothing
# else runs, and once its ends of what this one has are closed.
cat >"$work/look" <<'SH'
#!/bin/sh
sleep 0.3
{
    ls /proc/$PPID/fd | wc -l
    sed -n 's/^Threads:[^0-9]*//p' /proc/$PPID/status
    sed -n 's/^VmRSS:[^0-9]*\([0-9]*\).*/\1/p' /proc/$PPID/status
    ps -o stat= --ppid $PPID | awk '/^Z/ { ended++ } END { print ended + 0 }'
} >"$1"
SH
chmod 755 "$work/look"
look() {
    printf '{"command":{"argv":["%s","%s"]},"when":"inventory_hostname == '"'h0000'"'"}' "$work/look" "$work/kept/$1"
}
trues=$(seq 1 99 | sed 's/.*/,{"command":"true"}/' | tr -d '\n')
if proved '10,000 programs'; then
    many 100 64 "{\"command\":\"true\"},$(look early)$trues,$(look late)"
    check '10,000 programs' 0 "$(all 100 'ok=100 changed=100 failed=0 skipped=2 ignored=0 state=updated' finished 0 'ok=102 changed=102 failed=0 skipped=0 ignored=0 state=updated')$newline" ''
    early=$(head -n 2 "$work/kept/early" | tr '\n' ' ')
    late=$(head -n 2 "$work/kept/late" | tr '\n' ' ')
    [ "$early" = "$late" ] && pass || fail "descriptors and threads behind 100 programs: $early, behind 10,000: $late"
    [ "$(sed -n 4p "$work/kept/early")$(sed -n 4p "$work/kept/late")" = 00 ] && pass || fail 'an ended program is not waited for'
    more=$(($(sed -n 3p "$work/kept/late") - $(sed -n 3p "$work/kept/early")))
    [ "$more" -lt 16384 ] && pass || fail "9,900 programs more take $more KiB"
fi

# ---- calls that fail

# failing CALL AT HOW: the program with one call failing; `more` are further words of its line.
more=
failing() {
    rm -f "$work/failed"
    timeout -k 5 120 env FAIL="$1" FAIL_AT="$2" FAIL_HOW="$3" FAILED="$work/failed" LD_PRELOAD="$work/fail.so" "$rollout" run "$work/one.json" "$work/play.json" --forks 1 $more >"$work/out" 2>"$work/errors" </dev/null
    status=$?
}

# The program makes a file when it ends, also where nobody reads what it writes: it is waited for, whatever fails.
printf '[{"hosts":"all","tasks":[{"command":{"argv":["sh","-c","trap : PIPE; echo some; sleep 0.2; echo more; : >%s"]},"register":"r","ignore_errors":true},{"command":"true","when":["r is failed","not r is changed","r.rc is not defined","r.stdout == %s"]}]}]' "$work/kept/done" "''" >"$work/play.json"

# gone WHAT CALL AT HOW: nothing is had of a program that ran to its end.
gone() {
    rm -f "$work/kept/done"
    failing "$2" "$3" "$4"
    told "$1" 0 'ok=2 changed=1 failed=0 skipped=0 ignored=1 state=updated' finished
    [ -e "$work/failed" ] && [ -e "$work/kept/done" ] && pass || fail "$1: the program is not waited for"
}

# none WHAT CALL AT HOW: the program isn't started.
none() {
    rm -f "$work/kept/done"
    failing "$2" "$3" "$4"
    told "$1" 0 'ok=2 changed=1 failed=0 skipped=0 ignored=1 state=updated' finished
    [ -e "$work/failed" ] && [ ! -e "$work/kept/done" ] && pass || fail "$1: the program is started"
}

# nothing WHAT CALL AT HOW: it makes no difference.
nothing() {
    rm -f "$work/kept/done"
    failing "$2" "$3" "$4"
    told "$1" 0 'ok=1 changed=1 failed=0 skipped=1 ignored=0 state=updated' finished
    [ -e "$work/failed" ] && [ -e "$work/kept/done" ] && pass || fail "$1: the program is not waited for"
}

errno_interrupted=4
errno_io=5
errno_no_child=10
errno_again=11
errno_memory=12
errno_access=13
errno_files=24
for at in 1 2; do
    nothing "wait $at for an output interrupted" poll $at $errno_interrupted
    gone "wait $at for an output fails" poll $at $errno_io
    nothing "read $at interrupted" read $at $errno_interrupted
    gone "read $at fails" read $at $errno_io
    none "pipe $at can't be made" pipe2 $at $errno_io
    nothing "pipe $at can't be made at first" pipe2 $at $errno_files
done
nothing 'the wait for the end interrupted' waitpid 1 $errno_interrupted
failing waitpid 1 $errno_no_child
told 'the end of a program is another'"'"'s' 0 'ok=2 changed=1 failed=0 skipped=0 ignored=1 state=updated' finished
# That one runs on, since it can't be waited for: what it does is none of the next row's.
sleep 1
none 'the null device can'"'"'t be opened' open 1 $errno_access
nothing 'the null device can'"'"'t be opened at first' open 1 $errno_files
nothing 'no process can be had at first' posix_spawn 1 $errno_again

# Want of memory: the run of this play with all of it, or one that a fault broke off. A program that was started is waited for all the same.
# It writes down that it begins, and that it ends; so does the next one.
notes=$work/kept/notes
add() {
    printf 'echo %s >>%s' "$1" "$notes"
}
printf '[{"hosts":"all","tasks":[{"command":{"argv":["sh","-c","trap : PIPE; %s; head -c 70000 /dev/zero | tr %s x; echo some >&2; exec >&- 2>&-; sleep 0.1; %s"]},"register":"r"},{"command":{"argv":["sh","-c","%s; %s"]},"when":"r.rc == 0"}]}]' \
    "$(add '+ a 0 1')" "'\\\\0'" "$(add '- a 0 1 0')" "$(add '+ a 0 2')" "$(add '- a 0 2 0')" >"$work/play.json"
whole='boundary 1: plan batches=1 bound=one-host
open: a
boundary 2: plan batches=0 bound=nothing
a ok=2 changed=2 failed=0 skipped=0 ignored=0 state=updated
end finished'
# compared NUMBER: this run is one of those whose recaps are to be held against what programs wrote down
compared() {
    cp "$work/out" "$work/compared/$1.out"
    [ ! -e "$notes" ] || mv "$notes" "$work/compared/$1.notes"
}
mkdir "$work/compared"
if proved 'want of memory'; then
    wants=0
    number=0
    while [ "$number" -lt 5000 ]; do
        number=$((number + 1))
        rm -f "$notes"
        failing malloc "$number" $errno_memory
        [ -e "$work/failed" ] || break
        grep -qs '^- a 0 1 0$' "$notes" || [ ! -e "$notes" ] || fail "allocation $number refused: the program is not waited for"
        compared "$number"
        case $status in
            0) [ "$(cat "$work/out")" = "$whole" ] && [ ! -s "$work/errors" ] ;;
            5) [ "$(cat "$work/errors")" = 'rollout: memory' ] && { [ ! -s "$work/out" ] || [ "$(tail -n 1 "$work/out")" = 'end fault' ]; } ;;
            *) false ;;
        esac || {
            wants=$((wants + 1))
            fail "allocation $number refused: status $status"
        }
    done
    [ "$wants" -eq 0 ] && [ "$number" -gt 100 ] && [ "$number" -lt 5000 ] && pass || fail "$number allocations refused in turn"
    counting python3 "$helpers/kept.py" "$work/one.json" "$work/play.json" "$work/compared"
    rm -f "$work/compared/"*
fi
printf '[{"hosts":"all","tasks":[{"name":"a step","command":{"argv":["sh","-c","%s; %s"]}},{"command":{"argv":["sh","-c","%s; %s"]}}]}]' \
    "$(add '+ a 0 1')" "$(add '- a 0 1 0')" "$(add '+ a 0 2')" "$(add '- a 0 2 0')" >"$work/play.json"
if proved 'want of memory for what is told'; then
    # Where memory is wanting for what is told, the run is as it would be untold. Where it is for the run, what is told behind its fault says what became of the host.
    more=-v
    untold=0
    number=0
    while [ "$number" -lt 5000 ]; do
        number=$((number + 1))
        rm -f "$notes"
        failing malloc "$number" $errno_memory
        [ -e "$work/failed" ] || break
        compared "$number"
        case $status in
            0) [ "$(cat "$work/out")" = "$whole" ] && { grep -q '^a step=1 changed rc=0 ms=[0-9]* name=a step$' "$work/errors" || untold=$((untold + 1)); } ;;
            5) grep -qx 'rollout: memory' "$work/errors" && ! sed '1,/^rollout: memory$/d' "$work/errors" | grep -qvx 'running: a\|next: .*' && { [ ! -s "$work/out" ] || [ "$(tail -n 1 "$work/out")" = 'end fault' ]; } ;;
            *) false ;;
        esac || fail "told, allocation $number refused: status $status"
    done
    [ "$untold" -gt 0 ] && pass || fail 'no allocation is one for what is told'
    more=
    counting python3 "$helpers/kept.py" "$work/one.json" "$work/play.json" "$work/compared"
fi
if proved 'want of memory behind a program that is handed out'; then
    # The workers come late. Where memory is wanting before the second host's program is handed out, that of the first one, which nobody has taken yet, is called back: nothing is started.
    hosts 2 >"$work/pair.json"
    printf '[{"hosts":"all","tasks":[{"command":{"argv":["touch","%s/{{ inventory_hostname }}"]}}]}]' "$work/kept" >"$work/touch.json"
    called_back=0
    for number in 1 2 3 4 5 6; do
        rm -f "$work/kept/"h*
        timeout -k 5 120 env LATE=200 FAIL=malloc FAIL_BEHIND=' begins ' FAIL_AT="$number" FAIL_HOW="$errno_memory" LD_PRELOAD="$work/fail.so" "$rollout" run -v "$work/pair.json" "$work/touch.json" --forks 2 >"$work/out" 2>"$work/errors" </dev/null
        [ "$?" -eq 5 ] && grep -q '^h0000 step=1 begins ' "$work/errors" && ! grep -q '^h0001 step=1 begins ' "$work/errors" || continue
        called_back=$((called_back + 1))
        [ ! -e "$work/kept/h0000" ] && pass || fail "allocation $number behind a program that is handed out is refused, and it is started"
    done
    [ "$called_back" -gt 0 ] && pass || fail 'no allocation is one for the next host'
fi
failing posix_spawn 1 $errno_memory
check 'no memory for a process' 5 'boundary 1: plan batches=1 bound=one-host
open: a
a ok=0 changed=0 failed=0 skipped=0 ignored=0 state=running
end fault
' "rollout: memory$newline"

# ---- what a recap says of a run that broke off

# Eight hosts in two racks, one play and two, at 1, 2 and 5 forks: each start, each read of an output and each write of the recap is refused, and a stop file made behind each batch.
counting python3 "$helpers/kept.py" --selftest
counting python3 "$helpers/refused.py" "$rollout" "$work" posix_spawn read write stop

# ---- from outside

# Stopped and made to go on, while it waits.
printf '[{"hosts":"all","tasks":[{"command":{"argv":["sh","-c","echo some; sleep 0.6; echo more"]},"register":"r"},{"command":"true","when":"r.rc == 0"}]}]' >"$work/play.json"
"$rollout" run "$work/one.json" "$work/play.json" >"$work/out" 2>"$work/errors" </dev/null &
runner=$!
sleep 0.2
kill -STOP $runner
sleep 0.2
kill -CONT $runner
wait $runner
status=$?
told 'stopped and made to go on' 0 'ok=2 changed=2 failed=0 skipped=0 ignored=0 state=updated' finished

# alive GROUP: how many processes of the group have not ended.
alive() {
    ps -eo pgid=,stat= | awk -v group="$1" '$1 == group && $2 !~ /^Z/' | wc -l
}

# comes_to GROUP COUNT: waits until so many are alive, ten seconds at most; false where it never comes to that.
comes_to() {
    for _turn in $(seq 100); do
        [ "$(alive "$1")" -eq "$2" ] && return
        sleep 0.1
    done
    return 1
}

# A signal to its process group ends its programs with it. What a script starts beside itself would not heed SIGINT.
for signal in INT TERM; do
    printf '[{"hosts":"all","tasks":[{"command":{"argv":["sleep","43"]}}]}]' >"$work/play.json"
    setsid env --default-signal=INT "$rollout" run "$work/one.json" "$work/play.json" >"$work/out" 2>"$work/errors" </dev/null &
    runner=$!
    comes_to $runner 2 || fail "SIG$signal: the program doesn't run"
    env kill -$signal -- "-$runner"
    wait $runner 2>/dev/null
    comes_to $runner 0 && pass || fail "SIG$signal: $(alive $runner) are left"
done

# ---- very many

# One worker takes each of over a hundred thousand programs, here of a word that none can be started with.
if proved '102,400 programs'; then
    many 400 1 "$(seq 256 | sed 's/.*/{"command":{"argv":["true\\u0000"]},"ignore_errors":true}/' | paste -sd, -)"
    check '102,400 programs, at one fork' 0 "$(all 400 'ok=256 changed=0 failed=0 skipped=0 ignored=256 state=updated' finished)$newline" ''
fi
finish
