#!/bin/sh
# Which words would run on which host, as `plan --commands` tells them before anything runs: worked texts, whole. What is told in a shell's quotes is read back by a shell. Drawn ones stand in
# tests/drawn.sh, beside the slow program. It needs crates/rollout/out/rollout, bash and Python.
. "$(dirname "$0")/common.sh"

# told WHAT STATUS INVENTORY PLAYBOOK TEXT WORD..: of the two texts these words are told, and the status is this one.
told() {
    what=$1
    ends=$2
    printf '%s' "$3" >"$work/inventory.json"
    printf '%s' "$4" >"$work/playbook.json"
    text=${5:+$5$newline}
    shift 5
    run plan "$work/inventory.json" "$work/playbook.json" --commands "$@"
    check "$what" "$ends" "$text" ''
}

# untold WHAT INVENTORY PLAYBOOK LINE: one of the two texts is refused by this line.
untold() {
    printf '%s' "$2" >"$work/inventory.json"
    printf '%s' "$3" >"$work/playbook.json"
    run plan "$work/inventory.json" "$work/playbook.json" --commands
    check "$1" 1 '' "$4$newline"
}

# play TASKS [HANDLERS [HOSTS]]: a play of these steps, for all hosts if no others are named.
play() {
    printf '{"hosts":"%s","tasks":[%s],"handlers":[%s]}' "${3:-all}" "$1" "${2:-}"
}

one='{"all":{"hosts":{"a":null}}}'
two='{"all":{"vars":{"release":42,"is_new":true},"hosts":{"a":null,"b":{"release":"4 3"}}}}'

told 'what variables give is filled in, host by host' 0 "$two" "[$(play '{"command":{"argv":["ssh","{{inventory_hostname}}","install","{{ release }}"]}},{"command":"echo new={{ is_new }}"}')]" "a step=1 runs: ssh a install 42
a step=2 runs: echo new=True
b step=1 runs: ssh b install '4 3'
b step=2 runs: echo new=True"

told 'what was filled in is not read again' 0 '{"all":{"vars":{"v":"{{ release }}"},"hosts":{"a":null}}}' "[$(play '{"command":"echo {{ v }}"}')]" "a step=1 runs: echo '{{ release }}'"

told 'a registered result stays a hole, as a whole and by its fields, written alike' 0 "$one" "[$(play '{"command":"uname","register":"r"},{"command":{"argv":["echo","{{r}}","{{  r . stdout }}:{{r.rc}}","{{ r.changed}}{{ r.failed}}{{ r.skipped}}","{{ r.stderr }}"]}}')]" "a step=1 runs: uname
a step=2 runs: echo '{{ r }}' '{{ r.stdout }}:{{ r.rc }}' '{{ r.changed }}{{ r.failed }}{{ r.skipped }}' '{{ r.stderr }}'"

told 'so it does where a variable has that name, and before it is registered the variable stands' 0 '{"all":{"vars":{"r":7},"hosts":{"a":null}}}' "[$(play '{"command":"echo {{ r }}","register":"r"},{"command":"echo {{ r }}"}')]" "a step=1 runs: echo 7
a step=2 runs: echo '{{ r }}'"

told 'a condition that mentions such a name is undecided, also behind what would decide it' 0 "$one" "[$(play '{"command":"uname","register":"r"},{"command":"b","when":"r.rc == 0"},{"command":"c","when":"false and r is failed"},{"command":"d","when":[true,"not r is changed"]},{"command":"e","when":"r is defined"}')]" 'a step=1 runs: uname
a step=2 may-run: b
a step=3 may-run: c
a step=4 may-run: d
a step=5 may-run: e'

told 'a condition of variables, groups and the name of the host is decided' 0 '{"all":{"vars":{"tier":1},"children":{"g":{"hosts":{"a":null}}},"hosts":{"b":{"tier":2}}}}' "[$(play "{\"command\":\"p\",\"when\":\"tier == 1\"},{\"command\":\"q\",\"when\":\"'g' in group_names\"},{\"command\":\"r\",\"when\":\"inventory_hostname != 'a'\"},{\"command\":\"s\",\"when\":false},{\"command\":\"t\",\"when\":\"x is not defined\"},{\"command\":\"u\",\"when\":[]}")]" 'a step=1 runs: p
a step=2 runs: q
a step=3 skipped
a step=4 skipped
a step=5 runs: t
a step=6 runs: u
b step=1 skipped
b step=2 skipped
b step=3 runs: r
b step=4 skipped
b step=5 runs: t
b step=6 runs: u'

told 'a name without a value makes the step fail: in its condition, in its words, of a field before the dot' 2 '{"all":{"vars":{"v":1},"hosts":{"a":null}}}' "[$(play '{"command":"a","when":"x"},{"command":"echo {{ v }} {{ y }} {{ z }}"},{"command":"echo {{ v.stdout }}"},{"command":"b","when":"v is failed"},{"command":"{{ w }}","when":"x == 1"}')]" 'a step=1 fails undefined=x
a step=2 fails undefined=y
a step=3 fails undefined=v
a step=4 fails undefined=v
a step=5 fails undefined=x'

told 'what is skipped needs no words, and what is not looked up no value' 0 "$one" "[$(play '{"command":"echo {{ x }}","when":false},{"command":"a","when":"true or x"},{"command":"b","when":"x is defined"}')]" 'a step=1 skipped
a step=2 runs: a
a step=3 skipped'

told 'a step that may run may fail, and that is no failure yet' 0 "$one" "[$(play '{"command":"uname","register":"r"},{"command":"echo {{ r.rc }} {{ x }}","when":"r is changed"}')]" 'a step=1 runs: uname
a step=2 may-fail undefined=x'

told 'the result of a step itself, and of a later one, is not there' 2 "$one" "[$(play '{"command":"a","register":"r","when":"r is failed"},{"command":"b","when":"q is defined","register":"q"},{"command":"echo {{ p }}"},{"command":"c","register":"p"}')]" 'a step=1 fails undefined=r
a step=2 skipped
a step=3 fails undefined=p
a step=4 runs: c'

told 'handlers may run, or are skipped, or may fail; their steps are counted behind the tasks' 0 "$one" "[$(play '{"command":"a","notify":["h","i","j","k"]}' '{"name":"h","command":"b"},{"name":"i","command":"c","when":false},{"name":"j","command":"echo {{ x }}"},{"name":"k","command":"d","when":"y"}')]" 'a step=1 runs: a
a step=2 may-run: b
a step=3 skipped
a step=4 may-fail undefined=x
a step=5 may-fail undefined=y'

told 'what a handler registers is known behind it alone: to handlers, and to later plays' 0 '{"all":{"vars":{"r":1},"hosts":{"a":null}}}' "[$(play '{"command":"echo {{ r }}","notify":"h"}' '{"name":"h","command":"echo {{ r }}","register":"r"},{"name":"i","command":"echo {{ r }}"}'),$(play '{"command":"echo {{ r }}","when":"r == 1"}')]" "play 1
a step=1 runs: echo 1
a step=2 may-run: echo 1
a step=3 may-run: echo '{{ r }}'
play 2
a step=1 may-run: echo '{{ r }}'"

told 'several plays, each with its hosts, also where one has none; what an earlier one registers stays a hole' 0 "$two" "[$(play '{"command":"uname","register":"r"}' '' a),$(play '{"command":"echo {{ r.stdout }} {{ release }}"},{"command":"b","when":"r.rc == 0"}' '' b),$(play '{"command":"c","when":"release == 42"}')]" "play 1
a step=1 runs: uname
play 2
b step=1 runs: echo '{{ r.stdout }}' '4 3'
b step=2 may-run: b
play 3
a step=1 runs: c
b step=1 skipped"

down='{"all":{"hosts":{"a":null,"b":{"down":true},"c":null,"d":{"down":true}},"children":{"none":null}}}'
told 'hosts that are down at the start are left out, and so are those of no play' 0 "$down" "[$(play '{"command":"p"}' '' 'c:b'),$(play '{"command":"q"}' '' none)]" 'play 1
c step=1 runs: p
play 2'
told 'nobody waits' 0 "$down" "[$(play '{"command":"p"}' '' b)]" ''
run plan -v "$work/inventory.json" "$work/playbook.json" --commands
check 'with -v the hosts that are left out are told' 0 '' "note: b is down and stays down: 1 host of the play is left out$newline"
printf '[%s,%s]' "$(play '{"command":"p"}' '' 'a:b')" "$(play '{"command":"q"}' '' 'd')" >"$work/playbook.json"
run plan "$work/inventory.json" --commands "$work/playbook.json" --verbose
check 'those of all plays' 0 "play 1${newline}a step=1 runs: p${newline}play 2${newline}" "note: b d are down and stay down: 2 hosts of the plays are left out$newline"

told 'limits, sizes and who is set aside make no difference' 0 '{"g":{"vars":{"max_down":0},"hosts":{"a":null,"b":null}}}' '[{"hosts":"all","serial":1,"on_blocked":"hold","tasks":[{"command":"p"}]}]' 'a step=1 runs: p
b step=1 runs: p'
told 'so does what is made of the result' 0 "$one" "[$(play '{"command":"p","register":"r","changed_when":"x","failed_when":"r.rc == 3","ignore_errors":true}')]" 'a step=1 runs: p'

# Words as a shell reads them: by hand, and read back by one.
cat >"$work/words.json" <<'WORDS'
["printf","","a b","it's","'","$HOME","a*b","~","#","a;b","!","\"","\\","@%+=:,./_-","Az09","\n","a\tb","\r","\u0001","\u001f","\u007f","it's\\\n\"","\u0001a","é","\u0080","caf\u00e9\u202e's","\u061c\u200e","\u2028a","a\u2029","\u2027","\u2069","-n",7,"}}"]
WORDS
cat >"$work/expected.words" <<'WORDS'
printf '' 'a b' 'it'\''s' ''\''' '$HOME' 'a*b' '~' '#' 'a;b' '!' '"' '\' @%+=:,./_- Az09 $'\n' $'a\tb' $'\r' $'\x01' $'\x1f' $'\x7f' $'it\'s\\\n"' $'\x01a' 'é' $'\xc2\x80' $'café\xe2\x80\xae\'s' $'\xd8\x9c\xe2\x80\x8e' $'\xe2\x80\xa8a' $'a\xe2\x80\xa9' '‧' $'\xe2\x81\xa9' -n 7 '}}'
WORDS
quoted=$(cat "$work/expected.words")
told 'each word stands as a shell reads it' 0 "$one" "[{\"hosts\":\"all\",\"tasks\":[{\"command\":{\"argv\":$(cat "$work/words.json")}}]}]" "a step=1 runs: $quoted"
sed 's/^a step=1 runs: //' "$work/out" >"$work/line"
bash --norc -c 'eval "set -- $(cat "$1")"; printf "%s\0" "$@"' read "$work/line" >"$work/read" 2>&1
if python3 - "$work/words.json" "$work/read" <<'READ'; then pass; else fail 'a shell reads other words'; fi
import json, sys
words = [str(word) for word in json.load(open(sys.argv[1], encoding="utf-8"))]
sys.exit(open(sys.argv[2], "rb").read() != "".join(word + "\0" for word in words).encode())
READ

# What is told to run, given to a shell, is what a run starts. With one fork: two programs that append to one file at once mix their writes.
cat >"$work/playbook.json" <<'PLAYBOOK'
[{"hosts": "all", "tasks": [
  {"command": {"argv": ["sh", "-c", "{ printf '<%s>' \"$@\"; echo; } >>\"$WRITTEN\"", "it's", "{{ inventory_hostname }}", "", "{{ v }}", "a\tb", "\u0001 \\n", "*", "$HOME"]}},
  {"command": {"argv": ["sh", "-c", "echo \"$1 $2\" >>\"$WRITTEN\"", "-", "{{ v }}", "~"]}, "when": "v == 'x y'"}
]}]
PLAYBOOK
printf '{"all":{"vars":{"v":"it\\u0027s \\"\\\\"},"hosts":{"a":null,"b":{"v":"x y"}}}}' >"$work/inventory.json"
run plan "$work/inventory.json" "$work/playbook.json" --commands
[ "$(grep -c ' runs: ' "$work/out")" -eq 3 ] && [ "$(grep -c ' skipped$' "$work/out")" -eq 1 ] && pass || fail 'what is told to run'
sed -n 's/^[ab] step=[12] runs: //p' "$work/out" | WRITTEN=$work/told bash --norc
WRITTEN=$work/ran
export WRITTEN
run run "$work/inventory.json" "$work/playbook.json" --forks 1
unset WRITTEN
sort "$work/told" >"$work/told.sorted"
sort "$work/ran" >"$work/ran.sorted"
if [ -s "$work/ran" ] && cmp -s "$work/told.sorted" "$work/ran.sorted"; then
    pass
else
    fail 'a shell does otherwise than a run'
    diff "$work/told.sorted" "$work/ran.sorted"
fi

# Long words: at the bound, and beyond it.
letters() {
    head -c "$1" /dev/zero | tr '\0' y
}
long=$(letters 65536)
told 'a word of 65,536 bytes' 0 "$one" "[$(play "{\"command\":\"echo $long\"}")]" "a step=1 runs: echo $long"
told 'a longer one, which quotes do not make' 2 "$one" "[$(play "{\"command\":\"echo $long\"},{\"command\":\"echo ${long}y\"},{\"command\":{\"argv\":[\"${long%y} \"]}}")]" "a step=1 runs: echo $long
a step=2 too-long
a step=3 runs: '${long%y} '"
told 'a hole has the length with which it is told' 2 "$one" "[$(play "{\"command\":\"uname\",\"register\":\"r\"},{\"command\":\"echo {{r}}$(letters 65529)\"},{\"command\":\"echo {{r}}$(letters 65530)\"}")]" "a step=1 runs: uname
a step=2 runs: echo '{{ r }}$(letters 65529)'
a step=3 too-long"
told 'of several words that have no text the first decides; what may run is too long as well' 2 "$one" "[$(play "{\"command\":\"uname\",\"register\":\"r\"},{\"command\":\"echo ${long}y {{ x }}\"},{\"command\":\"echo {{ x }} ${long}y\"},{\"command\":\"echo ${long}y{{ x }}\"},{\"command\":\"echo ${long}y\",\"when\":\"r is changed\"}")]" 'a step=1 runs: uname
a step=2 too-long
a step=3 fails undefined=x
a step=4 fails undefined=x
a step=5 too-long'

# As many variables as anybody has.
told 'two thousand variables' 0 "{\"all\":{\"vars\":{$(seq 2000 | sed 's/.*/"v&":&/' | paste -sd, -)},\"hosts\":{\"a\":null}}}" "[$(play '{"command":"echo {{ v1 }} {{ v2000 }}"}')]" 'a step=1 runs: echo 1 2000'

# Both texts are refused as a plan of them is, and then nothing is told.
untold 'a fault of the inventory comes first' '{"all":[]}' '[]' 'rollout: 202 BadShape at=all'
untold 'then those of all plays' "$one" "[$(play '{"command":"p"}'),{\"hosts\":\"all\"}]" 'rollout: 702 BadShape at=1'
untold 'then those of their patterns' "$one" "[$(play '{"command":"p"}'),$(play '{"command":"p"}' '' z)]" 'rollout: 304 NoSuchName name=z'
untold 'a group over its limit at the start' '{"all":{"vars":{"max_down":0},"hosts":{"a":{"down":true}}}}' "[$(play '{"command":"p"}')]" 'rollout: 302 StartOver group=all down=1 limit=0'

printf '%s' "$one" >"$work/inventory.json"
printf '[%s]' "$(play '{"command":"p"}')" >"$work/playbook.json"
run plan --commands "$work/inventory.json" "$work/missing.json"
check 'a file that is not there' 1 '' "rollout: 902 File name=$work/missing.json$newline"
run plan --commands "$work/inventory.json" "$work/playbook.json"
check 'the option before the files' 0 "a step=1 runs: p$newline" ''
run plan "$work/inventory.json" "$work/playbook.json" --commands --color always
check 'colours change nothing' 0 "a step=1 runs: p$newline" ''
run plan "$work/inventory.json" "$work/playbook.json" --commands
before=$(cat "$work/out")
run run "$work/inventory.json" "$work/playbook.json"
[ "$before" = 'a step=1 runs: p' ] && grep -q '^a ok=0 changed=0 failed=1 ' "$work/out" && pass || fail 'a program that is not there is told like any other'

bad() {
    what=$1
    shift
    run "$@"
    if [ "$status" -eq 1 ] && [ ! -s "$work/out" ] && [ "$(head -n 1 "$work/errors")" = 'rollout: 901 BadLine' ]; then pass; else fail "$what: status $status"; fi
}
bad 'words of one file' plan "$work/inventory.json" --commands
bad 'words of the limits' limits "$work/inventory.json" --commands
bad 'words of a run' run "$work/inventory.json" "$work/playbook.json" --commands
bad 'words of a rehearsal' rehearse "$work/inventory.json" "$work/playbook.json" --commands
bad 'a value' plan "$work/inventory.json" "$work/playbook.json" --commands=all
bad 'behind the word that ends options' plan "$work/inventory.json" "$work/playbook.json" -- --commands
bad 'beside a course' plan "$work/inventory.json" "$work/playbook.json" --commands --forecast
bad 'beside a course with names' plan "$work/inventory.json" "$work/playbook.json" --commands --forecast --failing a
bad 'beside names' plan "$work/inventory.json" "$work/playbook.json" --commands --failing a
bad 'beside groups' plan "$work/inventory.json" "$work/playbook.json" --groups --commands
bad 'beside colours at another time' plan "$work/inventory.json" "$work/playbook.json" --commands --color red
bad 'beside a picture' plan "$work/inventory.json" "$work/playbook.json" --commands --picture "$work/picture.svg"
bad 'beside a journal' plan "$work/inventory.json" "$work/playbook.json" --commands --from "$top/examples/killed.journal"
bad 'beside what is expected' plan "$work/inventory.json" "$work/playbook.json" --commands --expect batches=1
[ ! -e "$work/picture.svg" ] && pass || fail 'a picture is drawn by a bad line'

# Many registers: more than any test draws, each read in a later play.
python3 - >"$work/many.json" <<'PY'
import json

names = [f"r{number}" for number in range(3000)]
plays = [{"hosts": "all", "tasks": [{"command": "true", "register": name} for name in names[first : first + 250]]} for first in range(0, 3000, 250)]
print(json.dumps([*plays, {"hosts": "all", "tasks": [{"command": f"echo {{{{ {name}.rc }}}}"} for name in names[:250]]}]))
PY
printf '{"all":{"hosts":{"a":null}}}' >"$work/one.json"
run plan "$work/one.json" "$work/many.json" --commands
[ "$status" -eq 0 ] && [ "$(grep -c 'runs: true$' "$work/out")" -eq 3000 ] && [ "$(tail -n 1 "$work/out")" = "a step=250 runs: echo '{{ r249.rc }}'" ] && pass || fail "three thousand registers: status $status, $(tail -n 1 "$work/out")"

if [ -w /dev/full ]; then
    "$rollout" plan "$work/inventory.json" "$work/playbook.json" --commands >/dev/full 2>"$work/errors"
    status=$?
    : >"$work/out"
    check 'an output that takes nothing' 1 '' "rollout: 904 Write written=0$newline"
fi
finish
