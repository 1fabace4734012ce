#!/bin/sh
# What a run tells with `--json -v`: an object of JSON a line, each with the facts of the line that `-v` alone has there. It needs a C compiler, Python 3 and
# crates/rollout/out/rollout.
. "$(dirname "$0")/common.sh"
. "$top/tests/programs/steps.sh"

# timed: a text of `-v`, whose times are N
timed() {
    sed 's/^\([^ ]* step=[0-9]* .*\) ms=[0-9]* name=/\1 ms=N name=/; s/^\(waiting=[0-9]*\) at=[0-9]* open:/\1 at=N open:/
        s/^\([^ ]* step=[0-9]* begins\) at=[0-9]* name=/\1 at=N name=/; s/^\(closed .*\) ms=[0-9]* at=[0-9]*$/\1 ms=N at=N/' "$1"
}
# same WHAT WORD..: this run tells the same with `--json -v` as with `-v`, and ends alike. What it tells stays in `events`.
same() {
    what=$1
    shift
    run run -v "$@"
    plain=$status
    timed "$work/errors" >"$work/plain"
    run run --json -v "$@"
    cp "$work/errors" "$work/events"
    if ! python3 "$helpers/events.py" "$work/events" >"$work/told"; then
        fail "$what: $(tail -n 1 "$work/told")"
    elif [ "$status" -ne "$plain" ] || [ ! -s "$work/plain" ]; then
        fail "$what: status $status, without JSON $plain"
    elif timed "$work/told" | cmp -s - "$work/plain"; then
        pass
    else
        fail "$what: other facts"
        timed "$work/told" | diff "$work/plain" - | head -10
    fi
}
# stands WHAT LINE: this line stands among the events, whose times are N
stands() {
    sed 's/"\(ms\|at\)":[0-9]*/"\1":N/g' "$work/events" | grep -qxF -- "$2" && pass || {
        fail "$1: no such line among"
        head -3 "$work/events"
    }
}
# step WHAT STEP LINE: a run of this step on one host has this event
step() {
    printf '[{"hosts":"all","tasks":[%s]}]' "$2" >"$work/play.json"
    same "$1" "$work/one.json" "$work/play.json"
    stands "$1, its line" "$3"
}

# ---- one event of each kind

step 'a program' '{"name":"x","command":"true"}' '{"event":"ends","host":"a","step":1,"verdict":"changed","rc":0,"ms":N,"name":"x"}'
stands 'it begins' '{"event":"begins","host":"a","step":1,"at":N,"name":"x"}'
stands 'its batch' '{"event":"open","waiting":0,"at":N,"hosts":["a"]}'
stands 'its batch is closed' '{"event":"closed","updated":1,"failed":0,"halted":0,"ms":N,"at":N}'
step 'no name' '{"command":"true","changed_when":false}' '{"event":"ends","host":"a","step":1,"verdict":"ok","rc":0,"ms":N}'
stands 'no name as it begins' '{"event":"begins","host":"a","step":1,"at":N}'
step 'a step that is skipped' '{"name":"x","command":"true","when":false}' '{"event":"ends","host":"a","step":1,"verdict":"skipped","name":"x"}'
step 'a name without a value' '{"command":"true","when":"gone == 1"}' '{"event":"ends","host":"a","step":1,"verdict":"failed","undefined":"gone"}'
stands 'why' '{"event":"note","text":"a failed at step 1: gone has no value"}'
step 'a name without a value, behind a program' '{"command":"true","failed_when":"gone == 1"}' '{"event":"ends","host":"a","step":1,"verdict":"failed","rc":0,"undefined":"gone","ms":N}'
step 'a signal' "{\"command\":{\"argv\":$(words "$act" out 3 err 2 raise 9)}}" \
    '{"event":"ends","host":"a","step":1,"verdict":"failed","rc":-1,"signal":9,"ms":N,"stdout":["abc"],"stderr":["ab"]}'
step 'no such program' '{"command":"/no/such/program"}' \
    '{"event":"ends","host":"a","step":1,"verdict":"failed","not_started":true,"ms":N,"error":"/no/such/program: No such file or directory (os error 2)"}'
step 'no such program, ignored' '{"command":"/no/such/program","ignore_errors":true}' \
    '{"event":"ends","host":"a","step":1,"verdict":"ignored","not_started":true,"ms":N,"error":"/no/such/program: No such file or directory (os error 2)"}'
step 'a program of two lines' '{"command":{"argv":["/no\nsuch"]}}' \
    '{"event":"ends","host":"a","step":1,"verdict":"failed","not_started":true,"ms":N,"error":"/no\nsuch: No such file or directory (os error 2)"}'
printf '%065537d' 0 >"$work/long"
printf '{"all":{"hosts":{"a":{"filler":"%s"}}}}' "$(cat "$work/long")" >"$work/long.json"
printf '[{"hosts":"all","tasks":[{"command":{"argv":["true","{{ filler }}"]}}]}]' >"$work/play.json"
same 'a word that is too long' "$work/long.json" "$work/play.json"
stands 'a word that is too long, its line' '{"event":"ends","host":"a","step":1,"verdict":"failed","not_started":true,"error":"a word is longer than 65536 bytes"}'

# The first read of a pipe fails.
printf '[{"hosts":"all","tasks":[{"command":{"argv":["sh","-c","echo some"]}}]}]' >"$work/play.json"
plain_program=$rollout
cat >"$work/failing" <<SH
#!/bin/sh
FAIL=read FAIL_AT=1 FAIL_HOW=5 LD_PRELOAD=$work/fail.so exec "$plain_program" "\$@"
SH
chmod 755 "$work/failing"
rollout=$work/failing
same 'a lost end' "$work/one.json" "$work/play.json" --forks 1
rollout=$plain_program
stands 'a lost end, its line' '{"event":"ends","host":"a","step":1,"verdict":"failed","lost":true,"ms":N}'

# ---- outputs, and bytes that a text of JSON doesn't hold as they are

printf 'one\n\n three\n\n' >"$work/lines"
step 'outputs of several lines' "{\"command\":{\"argv\":$(shell "cat $work/lines; echo oops >&2; exit 3")}}" \
    '{"event":"ends","host":"a","step":1,"verdict":"failed","rc":3,"ms":N,"stdout":["one",""," three"],"stderr":["oops"]}'
printf '"\\\t/{}\001\033[31m\177\302\205\342\200\256\303\251\360\237\230\200\302x"' >"$work/bytes"
step 'bytes of an output' "{\"command\":{\"argv\":$(shell "cat $work/bytes; exit 3")}}" \
    "$(printf '{"event":"ends","host":"a","step":1,"verdict":"failed","rc":3,"ms":N,"stdout":["\\"\\\\\\t/{}??[31m???\303\251\360\237\230\200\357\277\275x\\""]}')"
step 'bytes of a name' '{"name":"a \"b\"\\c\td\ne\u0001\u007f\u0085\u202e\u00e9","command":"true"}' \
    "$(printf '{"event":"ends","host":"a","step":1,"verdict":"changed","rc":0,"ms":N,"name":"a \\"b\\"\\\\c\\td?e????\303\251"}')"

# ---- names that begin with a dash, batches, plays

printf '{"all":{"hosts":{"-Fevil":null,"a":null}}}' >"$work/dash.json"
printf '[{"hosts":"all","tasks":[{"name":"x","command":{"argv":["true","{{ inventory_hostname }}"]}}]}]' >"$work/play.json"
same 'a name that begins with a dash' "$work/dash.json" "$work/play.json" --forks 1
stands 'its warning' '{"event":"begins","host":"-Fevil","step":1,"at":N,"name":"x","warning":"its name stands where an option may: write -- before it"}'
stands 'a name without a dash' '{"event":"begins","host":"a","step":1,"at":N,"name":"x"}'

printf '{"all":{"hosts":{"a":null,"b":null,"c":null,"d":null,"e":null}}}' >"$work/five.json"
printf '[{"hosts":"all","serial":[4],"max_fail_percentage":25,"tasks":[{"command":{"argv":["sh","-c","case $0 in a|c) exit 1; esac","{{ inventory_hostname }}"]}},{"command":"true"}]}]' >"$work/play.json"
same 'a halted batch' "$work/five.json" "$work/play.json" --forks 1
stands 'a halted batch is opened' '{"event":"open","waiting":2,"at":N,"hosts":["a","c","e"]}'
stands 'a halted batch is closed' '{"event":"closed","updated":0,"failed":2,"halted":1,"ms":N,"at":N}'

printf '{"all":{"children":{"r":{"vars":{"max_down":1},"hosts":{"a":{"down":true},"b":null}},"s":{"hosts":{"c":null,"d":null}}}}}' >"$work/held.json"
printf '[{"hosts":"c:d","serial":1,"tasks":[{"name":"one","command":"true"}]},{"hosts":"all","serial":1,"on_blocked":"hold","tasks":[{"name":"two","command":"false","ignore_errors":true}]}]' >"$work/play.json"
same 'two plays' "$work/held.json" "$work/play.json"
stands 'a note' '{"event":"note","text":"note: a is down and stays down: 1 host of the plays is left out"}'
stands 'the second play' '{"event":"play","play":2}'
stands 'a host that is set aside' '{"event":"held","hosts":["b"]}'
printf '[{"hosts":"all","tasks":[{"command":"true"}]}]' >"$work/play.json"
same 'one play' "$work/five.json" "$work/play.json" --forks 1
grep -q '"event":"play"' "$work/events" && fail 'one play is numbered' || pass

# ---- few descriptors

hosts 24 >"$work/hosts.json"
printf '[{"hosts":"all","tasks":[{"command":{"argv":["sleep","0.2"]}}]}]' >"$work/play.json"
(ulimit -n 40 && run run --json -v "$work/hosts.json" "$work/play.json" --forks 64)
python3 "$helpers/events.py" "$work/errors" >"$work/told" && grep -qx 'descriptors=40 at-once=8' "$work/told" && pass || fail "few descriptors: $(tail -n 1 "$work/told")"
[ "$(grep -cx '{"event":"descriptors","limit":40,"at_once":8}' "$work/errors")" -eq 1 ] && pass || fail 'few descriptors, and no event of them'

# ---- who is told nothing, or lines

printf '[{"hosts":"all","tasks":[{"command":"false"}]}]' >"$work/play.json"
run run --json --quiet "$work/one.json" "$work/play.json"
[ "$status" -eq 4 ] && [ ! -s "$work/errors" ] && pass || fail 'nobody asks for events'
run run --json -v --quiet "$work/one.json" "$work/play.json"
[ "$status" -eq 4 ] && grep -q '^{"event":"ends",' "$work/errors" && pass || fail 'events beside --quiet'
cp "$work/out" "$work/recap"
run run --json "$work/one.json" "$work/play.json"
cmp -s "$work/out" "$work/recap" && pass || fail 'the recap is another where events are told'
# A recap that can't be written: its lines of hosts that are down are notes behind the line of the fault.
run run -v "$work/one.json" "$work/play.json"
timeout -k 5 "$limit" "$rollout" run --json -v "$work/one.json" "$work/play.json" </dev/null >/dev/full 2>"$work/errors"
[ "$(tail -n 2 "$work/errors")" = '{"fault":{"number":904,"kind":"Write","written":0}}
{"event":"note","text":"a ok=0 changed=0 failed=1 skipped=0 ignored=0 state=failed"}' ] && pass || fail "a recap that can't be written: $(tail -n 2 "$work/errors" | tr '\n' '|')"
finish
