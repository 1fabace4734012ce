#!/bin/sh
# What `lint` warns about: worked rows, each with all that is printed but the texts of the hints. tests/drawn.sh compares random cases with the reference program. It needs crates/rollout/out/rollout.
. "$(dirname "$0")/common.sh"

inventory=$work/inventory.json
playbook=$work/playbook.json
# The rules in the order of their hints, and the last line behind these.
kinds='repeated-key near-key group-down zero-limit empty-limit loose-limit unfilled-placeholder no-hosts unlimited-hosts local-command undefined-name unknown-group constant-test idle-step idle-handler changed-guard shell-word dash-name down-hosts one-failure'
trailer='  `rollout explain KIND` has an example; `--allow KIND,..` suppresses a rule'

# texts INVENTORY PLAYBOOK: the two files.
texts() {
    printf '%s' "$1" >"$inventory"
    printf '%s' "$2" >"$playbook"
}

# without_hints: what the last run printed, without the hints, where these have the right form: of each rule that is printed one of at most 140 printable bytes, in their order, and then the last line.
without_hints() {
    LC_ALL=C awk -v kinds="$kinds" -v trailer="$trailer" '
        BEGIN { count = split(kinds, order, " ") }
        { line[NR] = $0 }
        !counted { printed[$1] = 1 }
        !counted && /^notes=[0-9]+$/ { counted = NR }
        END {
            at = counted
            for (place = 1; place <= count; place++)
                if (order[place] in printed) {
                    front = "  " order[place] ": "
                    hint = substr(line[++at], length(front) + 1)
                    if (index(line[at], front) != 1 || hint !~ /^[!-~][ -~]*$/ || length(hint) > 140) bad = 1
                }
            if (at > counted && line[++at] != trailer) bad = 1
            if (at != NR || !counted) bad = 1
            for (place = 1; place <= (bad ? NR : counted); place++) print line[place]
        }' "$work/out" >"$work/lines"
    mv "$work/lines" "$work/out"
}

# said WHAT LINES: the last run printed these lines, and how many of them are warnings; the status says whether any is.
said() {
    without_hints
    count=$(printf '%s' "${2:+$2$newline}" | grep -cv '^\(down-hosts\|one-failure\) ')
    check "$1" "$((count > 0))" "${2:+$2$newline}notes=$count$newline" ''
}

# all_noted WHAT INVENTORY PLAYBOOK LINES [WORD..]: the lines on the two files.
all_noted() {
    what=$1
    texts "$2" "$3"
    lines=$4
    shift 4
    run lint "$inventory" "$playbook" "$@"
    said "$what" "$lines"
}

# noted: the same without what most of these short files have: commands that run here, and hosts without a limit.
noted() {
    all_noted "$@" --allow local-command,unlimited-hosts
}

# noted_alone WHAT INVENTORY LINES: the lines on the inventory alone.
noted_alone() {
    texts "$2" ''
    run lint "$inventory"
    said "$1" "$3"
}

# told LINES: the last run printed these faults, each with a line that helps behind it, how many they are, and nothing else.
told() {
    sed -i '/^rollout: /{n;/^  /d;}' "$work/out"
    check "$1" 1 "$2${newline}faults=$(($(printf '%s' "$2" | wc -l) + 1))$newline" ''
}

# refused WHAT INVENTORY PLAYBOOK LINES: the two files have these faults.
refused() {
    texts "$2" "$3"
    run lint "$inventory" "$playbook"
    told "$1" "$4"
}

# play TASKS [HANDLERS [HOSTS]]: a play of these steps, for all hosts if no others are named.
play() {
    printf '{"hosts":"%s","tasks":[%s],"handlers":[%s]}' "${3:-all}" "$1" "${2:-}"
}

# task KEYS: a step that runs `true`, with these keys.
task() {
    printf '{"command":"true",%s}' "$1"
}

# tasks KEY VALUE..: a step that runs `true` for each of these values of a key.
tasks() {
    key=$1
    shift
    for value in "$@"; do
        printf '%s{"command":"true","%s":%s}' "${between:-}" "$key" "$value"
        between=,
    done
    between=
}

# each LINE WORD..: the line once for each word, in the place of `%`.
each() {
    line=$1
    shift
    for word in "$@"; do
        printf '%s\n' "$line" | sed "s|%|$word|g"
    done
}

one='{"all":{"hosts":{"a":null}}}'
two='{"all":{"vars":{"v":1},"hosts":{"a":null,"b":null}}}'
# Each of three hosts has `v`, two have `w`, one has `x`; none has `y`, and a value that is no variable is none.
three='{"all":{"vars":{"v":1,"y":null},"hosts":{"a":{"z":[1]},"b":{"w":"","z":{"z":1}}},"children":{"g":{"vars":{"w":false},"hosts":{"c":{"x":0}}}}}}'
some='{"all":{"hosts":{"a":{"down":true},"b":{"w":1},"c":{"down":true,"w":1}},"children":{"up":{"hosts":{"d":null}},"off":{"hosts":{"a":null,"e":{"down":true}}},"none":null}}}'

noted 'nothing' "$racks" "[$(play '{"command":"true"}')]" ''
noted 'nothing of no hosts, but that none waits' '{}' "[$(play '{"command":"true"}')]" 'no-hosts play=1'
texts "$one" "[$(play "{\"command\":\"touch $work/touched\"}")]"
run lint "$inventory" "$playbook"
said 'a command that is not started' ''
[ ! -e "$work/touched" ] && pass || fail 'lint runs a command'
input=$inventory
run lint /dev/stdin "$playbook"
said 'the inventory from standard input, as a file' ''
input=/dev/null

# Undefined names.
noted 'what each host has, its own or its groups'"'" "$three" "[$(play '{"command":"echo {{ v }}"}')]" ''
noted 'a name that no host has' "$three" "[$(play '{"command":"echo {{ y }}"}')]" 'undefined-name at=0/tasks/0 name=y'
noted 'a name that some hosts have: how many have not, and the first of them' "$three" "[$(play '{"command":"echo {{ w }} {{ x }}"}')]" 'undefined-name at=0/tasks/0 name=w hosts=1 of=3 host=a
undefined-name at=0/tasks/0 name=x hosts=2 of=3 host=a'
noted 'only hosts of the play count' "$three" "[$(play '{"command":"echo {{ w }} {{ x }}"}' '' b:c),$(play '{"command":"echo {{ w }} {{ x }}"}' '' g),$(play '{"command":"echo {{ w }} {{ x }}"}' '' a)]" 'undefined-name at=0/tasks/0 name=x hosts=1 of=2 host=b
undefined-name at=2/tasks/0 name=w
undefined-name at=2/tasks/0 name=x'
noted 'values that are no variables' "$three" "[$(play '{"command":"echo {{ z }}"}')]" 'undefined-name at=0/tasks/0 name=z'
noted 'a limit is a variable of its group, and `down` one of its host' '{"all":{"vars":{"max_down":1},"hosts":{"a":{"down":false}}}}' "[$(play '{"command":"echo {{ max_down }} {{ down }}"}')]" ''
noted 'in the order of reading: when, words, changed_when, failed_when' "$one" "[$(play '{"failed_when":"e","changed_when":["d","c == d"],"command":"echo {{ c }} {{ b }}","when":"b or a"}')]" "$(each 'undefined-name at=0/tasks/0 name=%' b a c d e)"
noted 'each name once a step, and at each step again' "$one" "[$(play '{"command":"echo {{ u }}{{ u }} {{ u.rc }}","when":"u","failed_when":"u"},{"command":"echo {{ u }}"}' "$(task '"name":"H","when":"u"')")]" 'undefined-name at=0/tasks/0 name=u
undefined-name at=0/tasks/1 name=u
undefined-name at=0/handlers/0 name=u
idle-handler at=0/handlers/0'
noted 'a field is one of the name before the dot; the first word has placeholders too' "$one" "[$(play '{"command":{"argv":["{{p}}","{{ q . stdout }}"]},"when":"not (s.rc == 0 and \"t\" != u.stdout)"}')]" "$(each 'undefined-name at=0/tasks/0 name=%' s u p q)"
# A name is printed where a step may come to read it, with the hosts on which it may.
noted 'a name before `is defined` is not read' "$three" "[$(play "$(tasks when '"y is defined"' '"y is not defined"' '"not (y is defined)"' '["w is defined","not (x is not defined) or true"]')")]" ''
noted 'what it guards is not read where it is undefined' "$three" "[$(play "$(tasks when '"x is defined and x == 0"' '["x is defined","x == 0"]' '"not (x is not defined or x == 1)"' '"x is not defined or x == 1"' '"y is defined and y == 1 and z"' '["y is defined","z or y"]' '"y is not defined or z"')")]" ''
noted 'but where the guard is the other way round, or behind it' "$three" "[$(play "$(tasks when '"x is not defined and x == 0"' '"x is defined or x == 0"' '["x is not defined","w == \"\""]' '["x == 0","x is defined"]' '"y or y is defined"')")]" 'undefined-name at=0/tasks/0 name=x hosts=2 of=3 host=a
undefined-name at=0/tasks/1 name=x hosts=2 of=3 host=a
undefined-name at=0/tasks/2 name=w hosts=1 of=3 host=a
undefined-name at=0/tasks/3 name=x hosts=2 of=3 host=a
undefined-name at=0/tasks/4 name=y'
noted 'words are filled where `when` may hold' "$three" "[$(play '{"command":"echo {{ x }} {{ w }} {{ y }}","when":"x is defined"},{"command":"echo {{ x }}","when":"x is not defined"},{"command":"echo {{ w }}","when":["w is defined",false]},{"command":"echo {{ y }}","when":"y is defined"}')]" 'undefined-name at=0/tasks/0 name=y
undefined-name at=0/tasks/1 name=x hosts=2 of=3 host=a'
noted 'and so is what judges the end read' "$three" "[$(play "$(task '"when":"x is defined","changed_when":"x == 0","failed_when":"y"'),$(task '"when":"w is not defined","changed_when":"x is defined and x","failed_when":["x is defined","y"]'),$(task '"changed_when":"x is defined and x == 0","failed_when":"x is not defined and w == \"\""')")]" 'undefined-name at=0/tasks/0 name=y
undefined-name at=0/tasks/2 name=w hosts=1 of=3 host=a'
noted 'behind what is known to decide nothing is read: booleans, values, groups, the name of the host' "$three" "[$(play "$(tasks when '"true or y"' '"false and y"' '["v == 2","y"]' '"v == 1 or y"' '"\"g\" in group_names and y"' '"inventory_hostname != \"b\" or y"' '"\"1\" == 1 or v and y"')")]" "$(each 'undefined-name at=0/tasks/% name=y' 4 5 6)"
only_b='inventory_hostname == \"b\"'
noted 'a name that no host has is printed alone, though only some read it' '{"all":{"hosts":{"a":null,"b":{"u":null,"v":[1]}}}}' "[$(play "{\"command\":\"echo {{ u }}\",\"when\":\"$only_b\"}")]" 'undefined-name at=0/tasks/0 name=u'
for given in '"hosts":{"a":{"u":1},"b":null}' '"hosts":{"a":null,"b":null,"c":{"u":1,"down":true}}' '"hosts":{"a":null,"b":null},"children":{"none":{"vars":{"u":""}}}'; do
    noted 'where any host or group has it these are counted, and not where all that wait lack it' "{\"all\":{$given}}" \
        "[$(play "{\"command\":\"echo {{ u }}\",\"when\":\"$only_b\"}" '' a:b),$(play '{"command":"echo {{ u }}"}' '' b)]" 'undefined-name at=0/tasks/0 name=u hosts=1 of=2 host=b
undefined-name at=1/tasks/0 name=u'
done
noted 'what a program says decides nothing beforehand, nor a result that may not exist' "$one" "[$(play "$(task '"register":"r","notify":"H"'),$(tasks when '"r.rc == 0 and y"' '"r is skipped or y"' '"r is defined or y"' '"r is not defined and y"' '"r.stdout is defined or y"' '"r.rc is defined or y"')" "$(task '"name":"H","register":"h"'),$(task '"name":"I","when":"h is defined and y"')")]" 'undefined-name at=0/tasks/1 name=y
undefined-name at=0/tasks/2 name=y
undefined-name at=0/tasks/6 name=y
undefined-name at=0/handlers/1 name=y
idle-handler at=0/handlers/1'
noted 'strings, groups, numbers, booleans and the name of the host are no names' "$racks" "[$(play '{"command":"echo {{ inventory_hostname }}","when":["\"eu\" in group_names","inventory_hostname != \"a\"","inventory_hostname is defined","1 == 1 or True"]}')]" ''

# Results are there for the steps behind those that register them.
noted 'behind the step, and not before' "$one" "[$(play "$(task '"when":"r"'),$(task '"register":"r"'),$(task '"when":"r is skipped"')")]" 'undefined-name at=0/tasks/0 name=r'
noted 'its own result a step has where it is judged, and not before' "$one" "[$(play '{"command":"echo {{ r.rc }}","register":"r","changed_when":"q","failed_when":"r.rc == 2 or q"}')]" 'undefined-name at=0/tasks/0 name=r
undefined-name at=0/tasks/0 name=q'
noted 'handlers have what all tasks register, and perhaps what the handlers before them do' "$one" "[$(play "$(task '"notify":["G","H"],"when":"s"'),$(task '"register":"r"')" "$(task '"name":"G","when":["r","s","t"],"register":"s"'),$(task '"name":"H","when":"s","register":"t"')")]" 'undefined-name at=0/tasks/0 name=s
undefined-name at=0/handlers/0 name=s
undefined-name at=0/handlers/0 name=t
undefined-name at=0/handlers/1 name=s hosts=1 of=1 host=a'
noted 'so have later plays, and none has what later plays register' "$one" "[$(play "$(task '"register":"r","notify":"H","when":"q"')" "$(task '"name":"H","register":"s"')"),$(play "$(task '"when":"r and s and q"')"),$(play "$(task '"when":"r and s","register":"q"')")]" 'undefined-name at=0/tasks/0 name=q
undefined-name at=1/tasks/0 name=q
undefined-name at=1/tasks/0 name=s hosts=1 of=1 host=a
undefined-name at=2/tasks/0 name=s hosts=1 of=1 host=a'
pair='{"all":{"vars":{"v":1},"hosts":{"a":null,"b":null,"c":null}}}'
noted 'of plays for other hosts' "$pair" "[$(play "$(task '"register":"r"')" '' b),$(play '{"command":"echo {{ r.stdout }}"}'),$(play "$(task '"when":"r.rc == 0"')" '' b),$(play "$(task '"register":"r"')" '' a),$(play '{"command":"echo {{ r.stdout }}"}')]" 'undefined-name at=1/tasks/0 name=r hosts=2 of=3 host=a
undefined-name at=4/tasks/0 name=r hosts=1 of=3 host=c'
noted 'only hosts that wait count' '{"all":{"hosts":{"a":{"down":true},"b":null,"c":null}}}' "[$(play "$(task '"register":"r"')" '' b),$(play '{"command":"echo {{ r.rc }}"}'),$(play '{"command":"echo {{ r.rc }}"}' '' a)]" 'down-hosts play=2 hosts=1 host=a
undefined-name at=1/tasks/0 name=r hosts=1 of=2 host=c
no-hosts play=3'
noted 'a task of the same play is enough for a field, also where it may be skipped; a word without one is printed' "$pair" "[$(play '{"command":"true","register":"r","when":"v == 1"},{"command":"echo {{ r.rc }}","when":"r"},{"command":"echo {{ r }}"}')]" 'undefined-name at=0/tasks/2 name=r hosts=3 of=3 host=a'
noted 'the code of a step that is skipped is not printed' "$pair" "[$(play "$(task '"register":"r","when":"inventory_hostname == \"a\""'),$(task '"when":"r.rc == 0"')")]" ''
noted 'who asks first is not printed, unless a word has the whole result' "$pair" "[$(play "$(task '"register":"r"')" '' b),$(play "$(tasks when '"r is defined and r.rc == 0"' '["r is defined","r is failed"]' '"r is not defined and r.rc == 0"'),{\"command\":\"echo {{ r.rc }}\",\"when\":\"r.stdout is defined\"},{\"command\":\"echo {{ r }}\",\"when\":\"r is defined\"}")]" 'undefined-name at=1/tasks/4 name=r hosts=1 of=3 host=b'
noted 'nor is a host that is known not to read it' "$pair" "[$(play "$(task '"register":"r"')" '' b),$(play '{"command":"echo {{ r.rc }}","when":"inventory_hostname == \"b\""},{"command":"echo {{ r.rc }}","when":"inventory_hostname != \"a\""}')]" 'undefined-name at=1/tasks/1 name=r hosts=1 of=3 host=c'
noted 'a variable of that name is enough in a condition, and not in a word' "$pair" "[$(play "$(task '"notify":"H"')" "$(task '"name":"H","register":"v"')"),$(play "$(task '"when":"v == 1"'),{\"command\":\"echo {{ v }}\"},$(task '"when":"v.rc == 1"')")]" 'undefined-name at=1/tasks/1 name=v hosts=3 of=3 host=a
undefined-name at=1/tasks/2 name=v hosts=3 of=3 host=a'
noted 'results come behind other names, as they are read, and before who runs the step' "$pair" "[$(play "$(task '"register":"p"'),$(task '"register":"q"'),$(task '"register":"s"')" '' b),$(play '{"failed_when":"s.rc == 0 or p.rc == 0","command":"echo {{ q.rc }} {{ p.rc }}","when":["p.rc == 0","u == 5","v == 2"]}')]" 'undefined-name at=1/tasks/0 name=u
undefined-name at=1/tasks/0 name=p hosts=2 of=3 host=a
idle-step at=1/tasks/0'

# The name that was probably meant.
near_tasks="[$(play '{"command":"echo {{ version }}"}')]"
# near WHAT INVENTORY [NAME]: of the name `version`, which no host has, this one is near; none where none is given.
near() {
    noted "$1" "$2" "$near_tasks" "undefined-name at=0/tasks/0 name=version${3:+ near=$3}"
}
near 'a variable of a host' '{"g":{"hosts":{"a":null,"b":{"verison":1}}}}' verison
near 'also of a group without hosts' '{"g":{"vars":{"verison":1}},"h":{"hosts":{"a":null}}}' verison
near 'a value that is no variable is none' '{"g":{"vars":{"verison":null},"hosts":{"a":{"versions":[1]}}}}'
near 'capitals go before an edit' '{"g":{"vars":{"versio":1},"hosts":{"a":null}},"h":{"vars":{"VERSION":1}}}' VERSION
near 'and one edit before two' '{"g":{"vars":{"vercion1":1},"hosts":{"a":null}},"h":{"vars":{"versio":1}}}' versio
near 'of two that are as near the first by name, in the groups in preorder' '{"h":{"vars":{"versiox":1,"versioa":1},"hosts":{"a":null}},"g":{"vars":{"versioz":1}}}' versioz
near 'the variables of a group before those of its hosts, and these before those of the groups below it' '{"all":{"hosts":{"a":{"versiox":1}},"children":{"g":{"vars":{"versioa":1}}}}}' versiox
near 'three edits are too many' '{"g":{"vars":{"vercian1":1},"hosts":{"a":null}}}'
near 'its bytes, as those of all names' '{"g":{"vars":{"versi\u00f6n":1},"hosts":{"a":null}}}' 'versi??n'
noted 'what a step registers, before it or behind, behind all variables' '{"g":{"hosts":{"a":{"released":1}}}}' "[$(play '{"command":"echo {{ version }} {{ release }}"}'),$(play '{"command":"true","register":"versionx"},{"command":"true","register":"releases"}'),$(play '{"command":"true","register":"versiona"}')]" 'undefined-name at=0/tasks/0 name=version near=versionx
undefined-name at=0/tasks/0 name=release near=released'
noted 'a name that only some lack has none, nor is one near itself' '{"g":{"hosts":{"a":null,"b":{"version":1,"versions":1}}}}' "[$(play '{"command":"echo {{ version }}"}'),$(play '{"command":"echo {{ release }}"},{"command":"true","register":"release"}')]" 'undefined-name at=0/tasks/0 name=version hosts=1 of=2 host=a
undefined-name at=1/tasks/0 name=release'
for count in 998 999; do
    python3 -c 'import json, sys; print(json.dumps({"g": {"vars": {**{f"a{place:04}": 1 for place in range(int(sys.argv[1]))}, "verison": 1}, "hosts": {"a": None}}}))' "$count" >"$work/near.json"
    [ "$count" -eq 998 ] && found=verison || found=
    near "behind $count others" "$(cat "$work/near.json")" "$found"
done
hundred=$(seq 100 199 | sed 's/^1/version/')
noted 'the first hundred lines alone have one' '{"g":{"vars":{"version":1},"hosts":{"a":null}}}' "[$(play "{\"command\":\"echo $(printf '%s\n' "$hundred" versionxx | sed 's/.*/{{ & }}/' | paste -sd ' ')\"}")]" "$(printf '%s\n' "$hundred" | sed 's/.*/undefined-name at=0\/tasks\/0 name=& near=version/')
undefined-name at=0/tasks/0 name=versionxx"

# Hosts.
noted 'hosts that are down are an info, and read no names' "$some" "[$(play '{"command":"echo {{ w }} {{ u }}"}')]" 'down-hosts play=1 hosts=3 host=a
undefined-name at=0/tasks/0 name=w hosts=1 of=2 host=d
undefined-name at=0/tasks/0 name=u'
noted 'an info alone makes no status' "$some" "[$(play '{"command":"true"}')]" 'down-hosts play=1 hosts=3 host=a'
noted 'where all are down, or there are none, no name is printed' "$some" "[$(play '{"command":"echo {{ u }}"}' '' off),$(play '{"command":"echo {{ u }} ; x"}' '' none)]" 'no-hosts play=1
no-hosts play=2
shell-word at=1/tasks/0 word=;'
noted 'of each play its own hosts' "$some" "[$(play '{"command":"true"}' '' d),$(play '{"command":"true"}' '' 'off, b'),$(play '{"command":"true"}' '' none:c),$(play '{"command":"true"}' '' up:c)]" 'down-hosts play=2 hosts=2 host=a
no-hosts play=3
down-hosts play=4 hosts=1 host=c'
noted_alone 'hosts of an inventory alone are not printed' "$some" ''

# Hosts without a limit.
limits='{"web":{"children":{"r":{"vars":{"max_down":1},"children":{"t":{"hosts":{"a":null,"b":null}}}},"s":{"hosts":{"c":null,"d":{"down":true}}}}}}'
by_host='{"command":"echo {{ inventory_hostname }}"}'
all_noted 'some have one, from a group above their own, and one has none; where all have one, or none, nothing' "$limits" "[$(play "$by_host"),$(play "$by_host" '' t),$(play "$by_host" '' s)]" 'down-hosts play=1 hosts=1 host=d
unlimited-hosts play=1 hosts=1 of=3 host=c
down-hosts play=3 hosts=1 host=d'

# A percentage that one failure exceeds.
# failing WHAT KEYS LINE: a play for seven hosts, with these keys.
failing() {
    noted "$1" '{"g":{"hosts":{"a":null,"b":null,"c":null,"d":null,"e":null,"f":null,"h":null}}}' "[{\"hosts\":\"all\",$2,\"tasks\":[{\"command\":\"true\"}]}]" "$3"
}
failing 'one of seven is more than 14 of a hundred, an info' '"max_fail_percentage":14' 'one-failure play=1 percent=14 size=7'
failing 'and no more than 15' '"max_fail_percentage":15' ''
failing 'the smallest batch counts' '"max_fail_percentage":30,"serial":4' 'one-failure play=1 percent=30 size=3'
failing 'but not one of a single host' '"max_fail_percentage":49,"serial":2' 'one-failure play=1 percent=49 size=2'
failing 'of single hosts alone there is none' '"max_fail_percentage":49,"serial":1' ''
failing 'a percentage of 0 is meant' '"max_fail_percentage":0' ''
blocked='{"g":{"vars":{"max_down":1},"hosts":{"a":{"down":true},"b":null}},"f":{"hosts":{"c":null,"d":null}}}'
all_noted 'a play that a group blocks has no plan; where its hosts are held there is one; behind hosts without a limit' "$blocked" "[{\"hosts\":\"all\",\"max_fail_percentage\":1,\"tasks\":[$by_host]},{\"hosts\":\"all\",\"max_fail_percentage\":1,\"on_blocked\":\"hold\",\"tasks\":[$by_host]}]" 'down-hosts play=1 hosts=1 host=a
unlimited-hosts play=1 hosts=2 of=3 host=c
down-hosts play=2 hosts=1 host=a
unlimited-hosts play=2 hosts=2 of=3 host=c
one-failure play=2 percent=1 size=2'

# Limits of groups.
noted_alone 'groups in preorder: no hosts, none that may be down, or more than there are' '{"all":{"vars":{"max_down":9},"children":{"z":{"vars":{"max_down":0},"hosts":{"a":null},"children":{"y":{"hosts":{"a":null,"b":null}}}},"x":{"vars":{"max_down":"33%"},"hosts":{"c":null,"d":null,"e":null}},"w":{"vars":{"max_down":"50%"},"hosts":{"f":null,"g":null}},"u":{"vars":{"max_down":0}},"t":{"vars":{"max_down":5},"children":{"s":{"vars":{"max_down":"100%"}}}},"r":{"vars":{"max_down":1},"hosts":{"h":null}}}}}' 'loose-limit group=all limit=9 members=8
empty-limit group=t
empty-limit group=s
empty-limit group=u
zero-limit group=x members=3
zero-limit group=z members=2'
noted_alone 'a limit of just as many hosts, or a percentage, is meant; a group without a limit may have none' '{"g":{"vars":{"max_down":2},"hosts":{"a":null,"b":null}},"h":{"vars":{"max_down":"100%"},"hosts":{"c":null}},"e":null}' ''
noted_alone 'hosts of groups below count once, and so do those that are down' '{"all":{"vars":{"max_down":65535},"hosts":{"a":{"down":true}},"children":{"g":{"vars":{"max_down":3},"hosts":{"a":null,"b":null}}}}}' 'loose-limit group=all limit=65535 members=2
loose-limit group=g limit=3 members=2'

# Names that are nearly keys.
# named NAMES GIVEN: the variables of these names, a line each, with this value.
named() {
    printf '%s\n' "$1" | sed "s/.*/\"&\":$2/" | paste -sd ,
}
near_names='Down
MAXDOWN
MAX_DOWN
Max_Down
_max_down_
amx_down
ax_down
d_own
do-wn
down.
down_
maxOffline
max down
max-down
max.down
max_dow
max_down_hosts
max_downs
max_dwn
max_unavailable
maxdown
mmax_down
mux_down'
noted_alone 'variables that are nearly keys, in the order of their bytes' "{\"g\":{\"vars\":{$(named "$near_names" 1)},\"hosts\":{\"a\":null}}}" "$(printf '%s\n' "$near_names" | LC_ALL=C sort | sed 's/^/near-key group=g name=/')"
noted_alone 'and others' "{\"g\":{\"vars\":{$(named "$(printf '%s\n' town dawn own downs dwon donw down_at max_up min_down max_dow_s max_downed amx_donw maxdowns max_dwonn max is_down max_unavailable_hosts)" '"true"')},\"hosts\":{\"a\":null}}}" ''
near_bools='IS-DOWN
don
donw
dow
down1
dwon
is_down
own
town'
noted_alone 'of a boolean more are near, at hosts too' "{\"g\":{\"vars\":{$(named "$near_bools" true)},\"hosts\":{\"a\":{$(named "$near_bools" false)}}}}" "$(printf '%s\n' "$near_bools" | sed 's/^/near-key group=g name=/')
$(printf '%s\n' "$near_bools" | sed 's/^/near-key group=g host=a name=/')"
noted_alone 'and others' "{\"g\":{\"vars\":{$(named "$(printf '%s\n' dwno was_down is_dwon downed DWON Own dw up is_up)" true)},\"hosts\":{\"a\":null}}}" ''
noted_alone 'as its bytes are shown' '{"g":{"vars":{"max\tdown":1,"max_dow\u007f":1,"max_d\u00f6wn":1},"hosts":{"a":{"\nDown":1}}}}' 'near-key group=g name=max?down
near-key group=g name=max_dow?
near-key group=g host=a name=?Down'
noted_alone 'a limit of a group at a host; values that are no variables are none' '{"all":{"vars":{"maxdown":null,"Down":{},"max-down":1.5},"hosts":{"a":{"Down":1,"max_down":1,"down":true,"max-down":null}}},"g":{"hosts":{"a":{"v":1},"b":{"max_down":"x"}}}}' 'near-key group=all host=a name=Down
near-key group=all host=a name=max_down
near-key group=g host=b name=max_down'
noted_alone 'a variable `down` of a group, and placeholders in values, by name, behind the limit and what a name is nearly; hosts behind all groups' '{"g":{"vars":{"max_down":0,"max-down":"{{ x }}","down":1,"u":"a{% b","n":"{ { }}"},"hosts":{"a":{"x":"{#","max_down":"{{"}}},"h":{"vars":{"max_down":1,"down":""}}}' 'zero-limit group=g members=1
group-down group=g
near-key group=g name=max-down
unfilled-placeholder group=g name=max-down
unfilled-placeholder group=g name=u
empty-limit group=h
group-down group=h
near-key group=g host=a name=max_down
unfilled-placeholder group=g host=a name=max_down
unfilled-placeholder group=g host=a name=x'

# Words of a shell.
shell='| || & && ; > >> < 2>&1'
words=$(for word in $shell; do printf '{"command":"echo a %s b"},' "$word"; done)
lists=$(for word in $shell; do printf '{"command":{"argv":["%s","%s"]}},' "$word" "$word"; done)
noted 'words of a shell, in a string or a list, and not as a program' "$one" "[$(play "$words${lists%,},{\"command\":{\"argv\":[\"|\",\"a\"]}}")]" "$(place=0; for word in $shell $shell; do printf 'shell-word at=0/tasks/%s word=%s\n' "$place" "$word"; place=$((place + 1)); done)"
noted 'behind ssh a shell reads them' "$one" "[$(play '{"command":"ssh -- {{ inventory_hostname }} ps | grep x $HOME"},{"command":"/usr/bin/ssh {{ inventory_hostname }} a ; b"},{"command":"sudo -n ssh {{ inventory_hostname }} a ; b"}')]" ''
noted 'the first of a step alone, and only complete words' "$one" "[$(play '{"command":{"cmd":"ps | grep x > /dev/null 2>&1"}},{"ansible.builtin.command":"a ; b | c"},{"command":"echo a;b; 2> >/dev/null <in >| 1>&2 |& *.rpm `id` x|y &&& >>> ;;"}')]" 'shell-word at=0/tasks/0 word=|
shell-word at=0/tasks/1 word=;'
noted 'a variable of the shell, in braces, and a command; a home' "$one" "[$(play '{"command":"echo $HOME"},{"command":"echo a${B}c"},{"command":"echo $(x)"},{"command":"echo ~/x"},{"command":"echo $_"},{"command":"echo $1 $ a$ $$ ${1} ~ ~x a~/b $-"},{"command":{"argv":["sh","-c","echo $HOME | x"]}}')]" 'shell-word at=0/tasks/0 word=$HOME
shell-word at=0/tasks/1 word=a${B}c
shell-word at=0/tasks/2 word=$(x)
shell-word at=0/tasks/3 word=~/x
shell-word at=0/tasks/4 word=$_'
noted 'in a word with whitespace three capital letters, unless it is a script' "$one" "[$(play '{"command":{"argv":["rsync","-e","ssh -i $HOME/id"]}},{"command":{"argv":["awk","{ print $NF }"]}},{"command":{"argv":["sh","-c","echo $HOME x","$USER y"]}},{"command":{"argv":["bash","-lc","cd $HOME; x"]}},{"command":{"argv":["x","a ${HOME} $(b) ~/c"," $1ABC $$ $AB C $Abc"]}},{"command":{"argv":["x","a $AB b $ABCd"]}},{"command":{"argv":["ssh","h","echo $HOME x"]}}')]" 'shell-word at=0/tasks/0 word=ssh -i $HOME/id
shell-word at=0/tasks/2 word=$USER y
shell-word at=0/tasks/5 word=a $AB b $ABCd'
noted 'a program of several words, behind the first word of a shell' "$one" "[$(play '{"command":{"argv":["a b","|"]}},{"command":{"argv":["a\tb {{ inventory_hostname }}"]}},{"command":{"argv":["{{ inventory_hostname }} a"]}},{"command":{"argv":["a{b c"]}}')]" 'shell-word at=0/tasks/0 word=|
shell-word at=0/tasks/0 word=a b
shell-word at=0/tasks/1 word=a?b {{ inventory_hostname }}'
noted 'a variable that a shell would set, in place of a program' "$one" "[$(play '{"command":"KUBECONFIG=x kubectl get"},{"command":"env A=b c"},{"command":"a b=c"}')]" 'shell-word at=0/tasks/0 word=KUBECONFIG=x'
noted 'a script of several words for ssh, the first of each step' "$one" "[$(play '{"command":{"argv":["ssh","h","sh","-c","a b"]}},{"command":{"argv":["/usr/bin/ssh","h","psql","-c","a {{ inventory_hostname }}"]}},{"command":{"argv":["sudo","ssh","h","sh","-lc","a","-ec","b c","-xc","d e"]}}')]" 'shell-word at=0/tasks/0 word=a b
shell-word at=0/tasks/1 word=a {{ inventory_hostname }}
shell-word at=0/tasks/2 word=b c'
noted 'not in quotes, of one word, behind another option, with whitespace in a placeholder alone, or for another program' "$one" "[$(play '{"command":{"argv":["ssh","h","sh","-c","\"a b\""]}},{"command":{"argv":["ssh","h","sh","-c","a"]}},{"command":{"argv":["ssh","h","sh","-x","a b"]}},{"command":{"argv":["ssh","h","sh","-c","{{ inventory_hostname }} b"]}},{"command":{"argv":["ssh","h","-c"]}},{"command":{"argv":["sh","-c","a b"]}}')]" ''

# Tests of a field that come out the same each time.
soft=$(task '"register":"r","ignore_errors":true')
noted 'a field beside a value of another kind, on either side, in each condition, the first of each' "$one" "[$(play "$soft,$(task '"register":"s","ignore_errors":true'),$(tasks when "\"r.rc == '0'\"" '"r.stdout != 0"' '"0 == r.stderr"' "\"r.failed == 'True'\"" '"true != r.rc"' '"not (r.skipped == 1 and r is changed)"' "\"s.rc == 0 or s.rc == '1' or r.rc == '2'\""),$(task "\"register\":\"t\",\"changed_when\":\"t.changed == 'no'\",\"failed_when\":\"t.rc != '0'\"")")]" "$(each 'constant-test at=0/tasks/% key=when name=r' 2 3 4 5 6 7)
constant-test at=0/tasks/8 key=when name=s
constant-test at=0/tasks/9 key=changed_when name=t
constant-test at=0/tasks/9 key=failed_when name=t"
noted 'not beside one of its kind, another field, or what is no field' "$one" "[$(play "$soft,$(tasks when '"r.rc == -1"' "\"r.stdout == '0'\"" '"r.stderr != r.rc"' '"r.changed == false"' "\"'1' == 1\"" '"r.rc"' '"r.stdout"')")]" ''
noted 'the failure of a step that ends its host' "$one" "[$(play "$(task '"register":"r"'),$(tasks when '"r.rc != 0"' '"r.rc == 2"' '"1 == r.rc"' '"0 != r.rc"' '"r is failed"' '["r.rc == 0","r is changed or r is failed"]'),{\"command\":\"true\",\"notify\":\"H\"}" "$(task '"name":"H","when":"r is failed"')")]" "$(each 'constant-test at=0/tasks/% key=when name=r' 1 2 3 4 5 6)
changed-guard at=0/tasks/6 name=r
constant-test at=0/handlers/0 key=when name=r"
noted 'not a success, nor a failure that is denied, or asked for by what judges a step' "$one" "[$(play "$(task '"register":"r"'),$(tasks when '"r.rc == 0"' '"r.rc != 5"' '"r is not failed"' '"not r.rc != 0"' '"not (r is failed or r.rc == 1)"' '"r is succeeded"' '"r.failed"'),$(task '"register":"r","failed_when":"r.rc != 0","changed_when":"r is failed"')")]" ''
noted 'nor of a step after which the host goes on, a handler, or an earlier play' "$one" "[$(play "$soft,$(task '"register":"s","failed_when":"s.rc == 9"'),$(task '"register":"t"'),$(task '"register":"t","failed_when":false'),$(tasks when '"r is failed"' '"s.rc != 0"' '"t.rc == 1"'),{\"command\":\"true\",\"notify\":[\"H\",\"I\"]}" "$(task '"name":"H","register":"u"'),$(task '"name":"I","when":"u is defined and u is failed"')"),$(play "$(task '"when":"t is failed"')")]" ''

# Handlers.
noted 'a handler that no task notifies' "$one" "[$(play '{"command":"true","notify":["C","A"],"when":false},{"command":"true","notify":"C"}' "$(tasks name '"A"' '"B"' '"C"' '"a"')"),$(play '{"command":"true"}' "$(task '"name":"A"')")]" 'idle-handler at=0/handlers/1
idle-handler at=0/handlers/3
idle-handler at=1/handlers/0'
noted 'nor by one whose `changed_when`, or a part of it, is false' "$one" "[$(play "$(task '"notify":"A","changed_when":false'),$(task '"notify":"A","changed_when":"False"'),$(task '"notify":"A","register":"r","changed_when":["r.rc == 0",false]'),$(task '"notify":"B","changed_when":"not true"'),$(task '"notify":"C","changed_when":"false or r.rc == 0"'),$(task '"notify":"D","changed_when":true,"when":false')" "$(tasks name '"A"' '"B"' '"C"' '"D"')")]" 'idle-handler at=0/handlers/0'

# Groups and hosts that don't exist.
there='{"all":{"vars":{"v":"x"},"hosts":{"a":null,"B":{"down":true},"c":null}},"g":{"hosts":{"a":null}}}'
noted 'in each condition the first group that does not exist' "$there" "[$(play '{"command":"echo {{ inventory_hostname }}","when":"inventory_hostname is not defined or \"x\" in group_names or \"y\" in group_names","changed_when":"not (\"all\" in group_names and \"y\" not in group_names)","failed_when":["\"g\" in group_names","\"z\" in group_names"]}' '' a)]" 'unknown-group at=0/tasks/0 key=when group=x
unknown-group at=0/tasks/0 key=changed_when group=y
unknown-group at=0/tasks/0 key=failed_when group=z'
noted 'a host, on either side of a comparison, also where something else decides' "$there" "[$(play "$(tasks failed_when "\"inventory_hostname == 'd'\"" "\"'d' != inventory_hostname or v == 'e'\"" "[\"v == 'x'\",\"not (v == 'e' or inventory_hostname == 'd')\"]" "\"inventory_hostname != 'a' and 'd' == inventory_hostname and inventory_hostname != 'e'\"" "\"true or inventory_hostname == 'd'\"")" '' a)]" "$(each 'unknown-group at=0/tasks/% key=failed_when host=d' 0 1 2 3 4)"
noted 'capitals count, and groups are no hosts; hosts that are down, or of other plays, exist' "$there" "[$(play "$(tasks failed_when "\"inventory_hostname != 'b'\"" "\"inventory_hostname != 'g'\"" "\"inventory_hostname != 'all'\"" "\"inventory_hostname != ''\"" '"inventory_hostname != \"caf\u00e9\t\""' "\"inventory_hostname != 'a' and inventory_hostname != 'B' and inventory_hostname != 'c'\"" "\"v == 'd' or inventory_hostname == v\"")" '' a)]" "unknown-group at=0/tasks/0 key=failed_when host=b
unknown-group at=0/tasks/1 key=failed_when host=g
unknown-group at=0/tasks/2 key=failed_when host=all
unknown-group at=0/tasks/3 key=failed_when host=
unknown-group at=0/tasks/4 key=failed_when host=caf???"

# Strings with placeholders in conditions.
noted 'the first such string of a condition, wherever it is' '{"all":{"vars":{"v":"x","w":"y"},"hosts":{"a":null}}}' "[$(play "$(tasks changed_when "\"v == '{{ w }}'\"" "\"not ('{{ w }}' == v or w)\"" "[\"v == 'a'\",true,\"w != '{{ w }}'\"]" "\"v == 'a' and '{{ w }}'\"" "\"true or '{{ w }}' == v\"" "\"'{{ w }}' == '{{ v }}'\"" "\"'{{ v }}' in group_names or v == '{{ w }}'\"" "\"v == '{% if v %}'\"" "\"v == 'a{#'\"" "\"v == 'caf\\u00e9 {{\\t'\"" "\"v == '{ {' or '}}' == v or '{x}'\"")")]" "$(each 'unfilled-placeholder at=0/tasks/% key=changed_when word={{ w }}' 0 1 2 3 4 5)
unknown-group at=0/tasks/6 key=changed_when group={{ v }}
unfilled-placeholder at=0/tasks/6 key=changed_when word={{ w }}
unfilled-placeholder at=0/tasks/7 key=changed_when word={% if v %}
unfilled-placeholder at=0/tasks/8 key=changed_when word=a{#
unfilled-placeholder at=0/tasks/9 key=changed_when word=caf?? {{?"
noted 'condition by condition: the group, the host, the string; behind the names, before who runs the step; also where no host waits' '{"all":{"hosts":{"a":{"down":true}}}}' "[$(play "$(task "\"when\":\"inventory_hostname == 'b' and 'x' in group_names and '{{ q }}'\",\"failed_when\":\"inventory_hostname != 'e' and 'y' in group_names\",\"changed_when\":\"'c' != inventory_hostname\"")")]" 'no-hosts play=1
unknown-group at=0/tasks/0 key=when group=x
unknown-group at=0/tasks/0 key=when host=b
unfilled-placeholder at=0/tasks/0 key=when word={{ q }}
unknown-group at=0/tasks/0 key=changed_when host=c
unknown-group at=0/tasks/0 key=failed_when group=y
unknown-group at=0/tasks/0 key=failed_when host=e'

# Steps that no host runs.
many='{"all":{"vars":{"n":15,"t":"15","b":true},"hosts":{"a":{"x":0},"b":{"x":1},"c":{"x":1,"y":"p"}},"children":{"g":{"hosts":{"a":null,"b":null,"c":null}},"h":{"hosts":{"a":null}},"e":null}}}'
noted 'what no host meets' "$many" "[$(play "$(tasks when '"n == 16"' '"15 != n"' "\"t != '15'\"" '"n == t"' "\"n == '15'\"" '"n != n"' '"not (n == 15 or false)"' "\"'e' in group_names\"" "\"'g' not in group_names\"" '"x == 2"' '["x == 0","x != 0"]' "\"x == 0 and 'h' not in group_names\"" '[false,"n == 15"]' '"1 == inventory_hostname"')")]" "$(each 'idle-step at=0/tasks/%' $(seq 0 13))"
noted 'what some host may meet, or that only asks what is true or defined' "$many" "[$(play "$(tasks when '"n == 15"' '"x == 0"' "\"'h' in group_names\"" "\"'e' not in group_names\"" '"x == 2 or b"' "\"y is defined and y == 'p'\"" "\"inventory_hostname == 'c'\"" '"not b"' '["b","not b"]' '"x is not defined"' '"b != true"' '"b and not b or n == 16"' "\"not b and 'g' in group_names\"" '"b == false and n == 16"' '"1 == 2"' false)")]" ''
noted 'what a program will have said is not known, but what is joined to it may decide' "$many" "[$(play "$(task '"register":"r","ignore_errors":true'),$(tasks when '"r.rc == 99"' '"r.stdout == \"x\" and n == 15"' '["r.rc == 0","n == 16"]' '"r.rc == 0 or n == 16"' '"r == 1"')")]" 'idle-step at=0/tasks/3
idle-step at=0/tasks/5'
noted 'of a host without such a variable it is not known; only hosts of the play that wait count' '{"all":{"hosts":{"a":{"down":true,"v":1},"b":{"v":2},"c":null}}}' "[$(play "$(task '"when":"v == 1"')"),$(play "$(task '"when":"v == 1"')" '' a:b),$(play "$(task '"when":"v == 2"')" '' a)]" 'down-hosts play=1 hosts=1 host=a
undefined-name at=0/tasks/0 name=v hosts=1 of=2 host=c
down-hosts play=2 hosts=1 host=a
idle-step at=1/tasks/0
no-hosts play=3'
noted 'a handler too, before that none notifies it; other conditions keep no host from running it' "$many" "[$(play "$(task '"changed_when":"n == 16","failed_when":"n == 16"')" "$(task '"name":"H","when":"n == 16"')")]" 'idle-step at=0/handlers/0
idle-handler at=0/handlers/0'

# Changes that guard steps.
noted 'a change that is not denied, the first of a step' "$one" "[$(play "$(task '"register":"r","ignore_errors":true'),$(task '"register":"s"'),$(tasks when '"r is changed"' '"s is changed or r is changed"' '["r is failed","(s is changed and r is changed)"]' '"r is not changed or s is changed"' '"not (r is changed) or s is changed"')")]" 'changed-guard at=0/tasks/2 name=r
changed-guard at=0/tasks/3 name=s
changed-guard at=0/tasks/4 name=s
changed-guard at=0/tasks/5 name=s
changed-guard at=0/tasks/6 name=s'
noted 'not one that is denied, a field, another state, or in what judges a step' "$one" "[$(play "$(task '"register":"r","ignore_errors":true'),$(tasks when '"r is not changed"' '"not r is changed"' '"not not r is changed"' '"not (r is changed or r is failed)"' '"r.changed"' '"r is failed or r is skipped or r is succeeded"'),$(task '"failed_when":"r is changed","changed_when":"r is changed"')")]" ''
noted 'directly behind that no host runs it, and before its words; a handler too' "$many" "[$(play "$(task '"register":"r"'),{\"command\":\"echo ;\",\"when\":[\"n == 16\",\"r is changed\"],\"notify\":\"H\"}" "$(task '"name":"H","when":"r is changed"')")]" 'idle-step at=0/tasks/1
changed-guard at=0/tasks/1 name=r
shell-word at=0/tasks/1 word=;
changed-guard at=0/handlers/0 name=r'

# Commands that run here, or all at one target.
local='{"all":{"vars":{"v":1},"hosts":{"a":null,"b":{"w":1},"c":{"w":2,"d":"x"}}}}'
all_noted 'a play of which no step has to do with its host, by how many wait' '{"all":{"hosts":{"a":null,"b":null,"c":{"down":true}}}}' "[$(play '{"command":"true"},{"command":{"argv":["ssh-x","sh","ssh",7]}}'),$(play '{"command":"true"}' '' a),$(play '{"command":"true"}' '' c)]" 'down-hosts play=1 hosts=1 host=c
local-command play=1 hosts=2
no-hosts play=3'
all_noted 'a word that differs has to do with it: the name, a variable, one that some lack, a result of an earlier play' "$local" "[$(play '{"command":"true"},{"command":"x {{ inventory_hostname }}"}'),$(play '{"command":"x {{ w }}"}' '' b:c),$(play '{"command":"x","when":"d is defined"},{"command":"x {{ d }}","when":"d is defined","register":"r"}'),$(play '{"command":"x {{ v }}","notify":"H"}' '{"name":"H","command":"{{ r.stdout }}/x"}')]" ''
all_noted 'a value that is the same on all that wait does not, nor do other braces, nor conditions that ask nothing' "$local" "[$(play '{"command":"x {{ v }}","when":true,"changed_when":"v == 1"},{"command":"echo }} {x}"}'),$(play '{"command":"x {{ w }}"}' '' b)]" 'local-command play=1 hosts=3'
all_noted 'a condition that asks does' "$local" "[$(play '{"command":"true","when":"inventory_hostname == \"a\""}'),$(play '{"command":"true"},{"command":"true","when":"v == 1"}')]" ''
all_noted 'a program here where another step calls ssh, by a path too, or a handler' "$two" "[$(play '{"command":"uptime"},{"command":"/usr/bin/ssh {{ inventory_hostname }} true"},{"command":"snore {{ v }}"}'),$(play '{"command":"uptime","notify":"H"}' '{"name":"H","command":"{{ inventory_hostname }}/ssh y"}'),$(play '{"command":"uptime"},{"command":"sssh {{ inventory_hostname }}"},{"command":"ssh/x {{ v }}"},{"command":"SSH y"}')]" 'local-command at=0/tasks/0 word=uptime
local-command at=0/tasks/2 word=snore
local-command at=1/tasks/0 word=uptime'
serving='curl wget kubectl helm consul nomad vault aws gcloud az psql mysql redis-cli sleep true false test echo printf date'
all_noted 'not one that talks to another machine, waits or only tells, by a path too; but where all is the same' "$two" "[$(play "$(for program in $serving; do printf '{"command":"%s x"},' "$program"; done){\"command\":\"sudo -n /usr/bin/curl x\"},{\"command\":\"curls x\"},{\"command\":\"git pull\"},{\"command\":\"ssh {{ inventory_hostname }}\"}"),$(play '{"command":"curl x"},{"command":"sleep 9"}')]" 'local-command at=0/tasks/21 word=curls
local-command at=0/tasks/22 word=git
local-command play=2 hosts=2'
all_noted 'a result differs if its command does, by its own results too; of several under one name each counts' "$two" "[$(play '{"command":"echo {{ v }}","register":"same"},{"command":"ssh h {{ same.stdout }}","register":"again"},{"command":"ssh h {{ again.rc }}"},{"command":"echo {{ inventory_hostname }}","register":"own"},{"command":"ssh h {{ own.stdout }}","register":"next"},{"command":"ssh h {{ next.rc }}","notify":"H"},{"command":"echo","register":"twice"},{"command":"echo {{ own.stdout }}","register":"twice"},{"command":"echo","register":"twice"},{"command":"ssh h {{ twice.stdout }}"}' '{"name":"H","command":"ssh h {{ same.stdout }}"}')]" 'local-command at=0/tasks/1 hosts=2
local-command at=0/tasks/2 hosts=2
local-command at=0/handlers/0 hosts=2'
all_noted 'programs that change a machine where no step does; the play is not printed then' "$two" "[$(play '{"command":"systemctl restart web"},{"command":"/usr/bin/systemctl restart {{ v }}"},{"command":"true"}'),$(for program in service apt apt-get yum dnf docker reboot shutdown; do printf '{"command":"%s x"},' "$program"; done | sed 's/,$//' | { read -r steps; play "$steps"; }),$(play '{"command":"systemctl -H {{ inventory_hostname }} restart web"},{"command":"systemctl/x y"},{"command":"aptitude x"}')]" "local-command at=0/tasks/0 word=systemctl
local-command at=0/tasks/1 word=/usr/bin/systemctl
$(place=0; for program in service apt apt-get yum dnf docker reboot shutdown; do echo "local-command at=1/tasks/$place word=$program"; place=$((place + 1)); done)"
all_noted 'behind sudo, timeout, env and nice, with their options' "$two" "[$(play '{"command":"sudo reboot"},{"command":"/usr/bin/sudo -n -u root reboot"},{"command":"timeout 9 reboot"},{"command":"env A=b C=d reboot"},{"command":"nice -n 5 reboot"},{"command":"sudo env A=b timeout 1m nice reboot"},{"command":"time reboot"},{"command":"echo {{ inventory_hostname }}"}')]" "$(each 'local-command at=0/tasks/% word=reboot' 0 1 2 3 4 5)"
all_noted 'ssh behind these is ssh' "$two" "[$(play '{"command":"sudo -u deploy ssh {{ inventory_hostname }} true"},{"command":"sudo uptime"}'),$(play '{"command":"timeout 9 ssh lb true"}')]" 'local-command at=0/tasks/1 word=uptime
local-command at=1/tasks/0 hosts=2'
all_noted 'one target for several hosts' "$local" "[$(play '{"command":"ssh -- web1 systemctl restart web","notify":"H"},{"command":"ssh {{ inventory_hostname }}"},{"command":"ssh }} { x"},{"command":"ssh web1 {{ v }}"},{"command":"ssh web1 {{ w }}"}' '{"name":"H","command":"./ssh"}' b:c),$(play '{"command":"ssh x"}' '' a)]" 'local-command at=0/tasks/0 hosts=2
local-command at=0/tasks/2 hosts=2
local-command at=0/tasks/3 hosts=2
local-command at=0/handlers/0 hosts=2'
all_noted 'only hosts that may run a step count, and one alone is meant' "$local" "[$(play '{"command":"ssh x","when":"inventory_hostname != \"a\""},{"command":"ssh x","when":"inventory_hostname == \"a\""},{"command":"ssh x","when":false},{"command":"uptime","register":"r","ignore_errors":true},{"command":"reboot","when":"r is failed"},{"command":"reboot","when":"inventory_hostname == \"c\""},{"command":"reboot","when":"inventory_hostname != \"c\""}'),$(play '{"command":"reboot"},{"command":"ssh {{ inventory_hostname }}"}' '' a)]" 'local-command at=0/tasks/0 hosts=2
local-command at=0/tasks/3 word=uptime
local-command at=0/tasks/4 word=reboot
local-command at=0/tasks/6 word=reboot'
all_noted 'its bytes, as those of all names; behind the words of a shell' "$two" "[$(play '{"command":{"argv":["caf\u00e9\u001b x","|"]}},{"command":"ssh {{ inventory_hostname }}"},{"command":{"argv":["ssh","sh","-c","a b"]}}')]" 'shell-word at=0/tasks/0 word=|
shell-word at=0/tasks/0 word=caf??? x
local-command at=0/tasks/0 word=caf??? x
shell-word at=0/tasks/2 word=a b
local-command at=0/tasks/2 hosts=2'
all_noted 'a play behind its percentage, and before its steps' "$two" '[{"hosts":"all","max_fail_percentage":9,"tasks":[{"command":"echo ;"}]}]' 'one-failure play=1 percent=9 size=2
local-command play=1 hosts=2
shell-word at=0/tasks/0 word=;'

# Hosts whose names begin with a dash.
dashed='{"all":{"hosts":{"a":null,"-b":null,"-c":null,"--":{"down":true},"_":null}}}'
dash=$(for words in '"ping","{{ inventory_hostname }}"' '"rsync","-a","{{inventory_hostname}}:/srv"' '"ping","x","{{ \t inventory_hostname\n}}"' '"ssh","{{ inventory_hostname }}","--","{{ inventory_hostname }}"' '"ssh","--x","---","-","{{ inventory_hostname }}"' '"--","{{ inventory_hostname }}"' \
    '"ping","x{{ inventory_hostname }}"," {{ inventory_hostname }}"' '"{{ inventory_hostname }}","x"' '"ssh","-v","--","{{ inventory_hostname }}"' '"ping","{{ r.stdout }}","x{{ inventory_hostname }}"'; do
    printf '{"command":{"argv":[%s]},"register":"r"},' "$words"
done)
noted 'a word that begins with the name, behind the program and before `--`: the first host by name' "$dashed" "[$(play "${dash%,}"),$(play '{"command":"ping {{ inventory_hostname }}"}' '' a,_),$(play '{"command":"ping {{ inventory_hostname }}"}' '' -c)]" "down-hosts play=1 hosts=1 host=--
$(each 'dash-name at=0/tasks/% host=-b' 0 1 2 3 4 5)
dash-name at=2/tasks/0 host=-c"

# Keys that stand more than once.
noted_alone 'each once; those of an object in the order in which they first stand, then those within its members, the lost ones too' '{"g":{"hosts":{"a":{"v":1,"v":2},"b":null,"a":null}},"f":null,"g":{"vars":{"w":1,"w":2}},"f":null,"g":null}' 'repeated-key inventory=g
repeated-key inventory=f
repeated-key inventory=g/hosts/a
repeated-key inventory=g/hosts/a/v
repeated-key inventory=g/vars/w'
noted_alone 'a key is what its letters say; places in lists count from 0' '{"g":{"hosts":{"a":{"v":[1,[{"x":1,"x":2}],{"y":[],"y":{}}]},"\u0061":null,"A":null}}}' 'repeated-key inventory=g/hosts/a
repeated-key inventory=g/hosts/a/v/1/0/x
repeated-key inventory=g/hosts/a/v/2/y'
noted_alone 'as its bytes are shown, and an empty one' '{"all":{"vars":{"caf\u00e9":1,"café":2,"\t":1,"\u0009":1,"":1,"":2,"a/b":1,"a/b":2}}}' 'repeated-key inventory=all/vars/caf??
repeated-key inventory=all/vars/?
repeated-key inventory=all/vars/
repeated-key inventory=all/vars/a/b'
long=$(printf '%255s' '' | tr ' ' k)
noted_alone 'keys of 255 bytes are printed, of longer ones these are' "{\"all\":{\"vars\":{\"$long\":{\"$long\":1,\"$long\":1},\"x$long\":{\"${long}x\":1,\"${long}x\":1}}}}" "repeated-key inventory=all/vars/$long/$long
repeated-key inventory=all/vars/x${long%k}../$long.."
noted_alone 'the first hundred' "{\"all\":{\"vars\":{$(seq 101 201 | sed 's/.*/"v&":1,"v&":2/' | paste -sd ,)}}}" "$(seq -f 'repeated-key inventory=all/vars/v%.0f' 101 200)"
noted 'of both files, the inventory first, and all before the groups' '{"g":{"vars":{"max_down":0,"max_down":0},"hosts":{"a":null}}}' '[{"hosts":"none","hosts":"g","name":{"n":[{},{"m":1,"m":2}]},"tasks":[{"shell":{"x":1,"x":2}}],"tasks":[{"command":"true","when":"x","when":true}]}]' 'repeated-key inventory=g/vars/max_down
repeated-key playbook=0/hosts
repeated-key playbook=0/tasks
repeated-key playbook=0/name/n/1/m
repeated-key playbook=0/tasks/0/shell/x
repeated-key playbook=0/tasks/0/when
zero-limit group=g members=1'

# All rules at once, in their order; and then each of them suppressed.
full='{"all":{"children":{"full":{"vars":{"max_down":0},"hosts":{"a":null,"b":{"w":1}}},"empty":{"vars":{"max_down":3,"down":1}},"off":{"vars":{"max_down":2},"hosts":{"n":{"down":true}}},"free":{"vars":{"maxdown":1,"url":"{{ x }}"},"hosts":{"-d":null,"-e":null,"-d":null}}}}}'
first='{"hosts":"full:off","serial":8,"serial":9,"tasks":[{"command":"echo {{ w }} {{ u }} | x","register":"r"},{"command":"true","when":"r is changed and q"}],"handlers":[{"name":"H","command":"echo > {{ u }}"}]}'
last='{"hosts":"free","max_fail_percentage":5,"tasks":[{"command":"uptime","when":true},{"command":"ssh {{ inventory_hostname }}"},{"command":"ssh -- x","when":"inventory_hostname == 1"}]}'
mixed='{"command":"echo x{{ inventory_hostname }}","when":"\"nobody\" not in group_names","register":"m","changed_when":"m.stdout == 0","failed_when":"m.stdout == \"{{ x }}\" or inventory_hostname == \"h\""},{"command":{"argv":["ssh","x","sh","-c","c d"]}}'
plays="[$first,$(play '{"command":"echo {{ r.rc }} ;"}' '' off),$last,$(play "$(task '"changed_when":"r.rc == 0"')" '' free),$(play "$mixed" '' full:free)]"
cat >"$work/all" <<'NOTES'
repeated-key inventory=all/children/free/hosts/-d
repeated-key playbook=0/serial
empty-limit group=empty
group-down group=empty
near-key group=free name=maxdown
unfilled-placeholder group=free name=url
zero-limit group=full members=2
loose-limit group=off limit=2 members=1
down-hosts play=1 hosts=1 host=n
undefined-name at=0/tasks/0 name=w hosts=1 of=2 host=a
undefined-name at=0/tasks/0 name=u
shell-word at=0/tasks/0 word=|
undefined-name at=0/tasks/1 name=q
changed-guard at=0/tasks/1 name=r
undefined-name at=0/handlers/0 name=u
shell-word at=0/handlers/0 word=>
idle-handler at=0/handlers/0
no-hosts play=2
shell-word at=1/tasks/0 word=;
one-failure play=3 percent=5 size=2
local-command at=2/tasks/0 word=uptime
dash-name at=2/tasks/1 host=-d
idle-step at=2/tasks/2
local-command play=4 hosts=2
undefined-name at=3/tasks/0 name=r hosts=2 of=2 host=-d
unlimited-hosts play=5 hosts=2 of=4 host=-d
unknown-group at=4/tasks/0 key=when group=nobody
constant-test at=4/tasks/0 key=changed_when name=m
unknown-group at=4/tasks/0 key=failed_when host=h
unfilled-placeholder at=4/tasks/0 key=failed_when word={{ x }}
shell-word at=4/tasks/1 word=c d
local-command at=4/tasks/1 hosts=4
NOTES
all_noted 'all rules, in their order' "$full" "$plays" "$(cat "$work/all")"
[ "$(sed 's/ .*//' "$work/all" | sort -u)" = "$(echo "$kinds" | tr ' ' '\n' | sort)" ] && pass || fail 'these are not all rules'
run lint "$inventory"
said 'of the inventory alone' "$(head -n 8 "$work/all" | grep -v playbook=)"

# allowed WHAT KINDS WORD..: the lines of these rules, as a pattern of their names, are suppressed.
allowed() {
    what=$1
    left=$(grep -v -E "^($2) " "$work/all")
    shift 2
    run lint "$inventory" "$playbook" "$@"
    said "$what" "$left"
}
for kind in $kinds; do
    allowed "$kind is suppressed" "$kind" --allow "$kind"
done
allowed 'an empty list suppresses nothing' nothing --allow ' ,, :'
allowed 'whitespace round a name, empty parts and colons' 'undefined-name|no-hosts' --allow " undefined-name	,,$newline:no-hosts:,"
allowed 'several lists count together, also behind a sign' 'shell-word|zero-limit|no-hosts' --allow shell-word --allow=zero-limit,no-hosts --allow shell-word
all_kinds=$(echo "$kinds" | tr ' ' ',')
run lint "$inventory" --allow "$all_kinds" "$playbook"
said 'all rules are suppressed, by an option between the files' ''
run lint "$inventory" "$playbook" --allow "${all_kinds%,down-hosts*}"
said 'all but the infos, which make no status' "$(grep '^\(down-hosts\|one-failure\) ' "$work/all")"
run lint --allow=zero-limit,empty-limit,down-hosts,shell-word -- "$inventory" "$playbook"
said 'files behind the word that ends options' "$(grep -v -E '^(zero-limit|empty-limit|down-hosts|shell-word) ' "$work/all")"

# unlisted WHAT LIST WORD..: the list that these words give is none, which is printed before any file is read.
unlisted() {
    what=$1
    list=$2
    shift 2
    run lint "$work/missing" "$work/missing" "$@"
    check "$what" 1 '' "rollout: 909 BadList name=$list$newline"
}
unlisted 'a rule that is none' shell-words --allow shell-words
unlisted 'one that was' missing-name --allow missing-name
unlisted 'in other letters' Shell-Word --allow=Shell-Word
unlisted 'a rule and something behind it' 'undefined-name=v' --allow undefined-name=v
unlisted 'a bad name behind good ones' 'no-hosts,zero-limit,all' --allow no-hosts,zero-limit,all
unlisted 'bytes that are not printed' 'caf???' --allow "$(printf 'caf\303\251\033')"
unlisted 'several lists, joined' 'no-hosts,,all,' --allow no-hosts --allow '' --allow=all,

# Where a file has faults these are printed, and nothing else; more of them stand in tests/faults.sh.
run lint "$work/missing" "$work/other"
check 'the inventory is read first' 1 '' "rollout: 902 File name=$work/missing$newline"
run lint "$inventory" "$work/other"
check 'then the playbook' 1 '' "rollout: 902 File name=$work/other$newline"
ok="[$(play '{"command":"echo ;"}')]"
crossing='{"f":{"vars":{"max_down":1},"hosts":{"a":null}},"g":{"vars":{"max_down":0,"maxdown":1},"hosts":{"a":null}}}'
crossed='rollout: 301 NotNested host=a first=f second=g'
refused 'no JSON, in both' '{' '[' "rollout: 201 NotJson${newline}rollout: 701 NotJson"
refused 'the walk of the inventory, before the playbook' '{"g":{"host":null,"vars":{"maxdown":1}}}' '[]' "rollout: 203 UnknownKey at=g/host${newline}rollout: 702 BadShape at="
refused 'then what keeps it from being a fleet: limits that cross' "$crossing" '[]' "$crossed${newline}rollout: 702 BadShape at="
refused 'a group over its limit' '{"g":{"vars":{"max_down":0},"hosts":{"a":{"down":true}}}}' "$ok" 'rollout: 302 StartOver group=g down=1 limit=0'
refused 'which is not looked for beside faults of the inventory' '{"f":{"vars":{"max_down":1},"hosts":{"a":null}},"g":{"vars":{"max_down":0},"hosts":{"a":{"down":true}},"host":{}}}' "$ok" 'rollout: 203 UnknownKey at=g/host'
refused 'names of patterns that match nothing, play by play' "$one" "[$(play '{"command":"echo ;"}' '' web:a:b),$(play '{"command":"true"}' '' web)]" "rollout: 304 NoSuchName name=web${newline}rollout: 304 NoSuchName name=b${newline}rollout: 304 NoSuchName name=web"
refused 'which are not looked for beside faults of the playbook' "$one" "[$(play '{"command":"echo ;","x":1}' '' web)]" 'rollout: 703 UnknownKey at=0/tasks/0/x'
refused 'nor beside faults of the inventory' '{"g":{"hosts":{"a":{"down":null}}}}' "[$(play '{"command":"true"}' '' web)]" 'rollout: 205 BadDown at=g/hosts/a/down'
refused 'nor beside limits that cross' "$crossing" "[$(play '{"command":"true"}' '' web)]" "$crossed"
refused 'beside a fault of the playbook the inventory is not looked at further' '{"g":{"vars":{"max_down":0,"max_down":0},"hosts":{"a":null}}}' "[$(play '{"command":"true","when":"rc > 0"}')]" 'rollout: 501 BadToken step=1 key=when at=3'
texts "$crossing" ''
run lint "$inventory"
told 'an inventory alone' "$crossed"
run lint "$inventory" --allow near-key
told 'faults are not suppressed' "$crossed"
run lint "$inventory" /dev/null
told 'an empty playbook' "$crossed${newline}rollout: 701 NotJson"

texts "$one" ''
python3 -c 'import json; print(json.dumps([{"hosts": "all", "tasks": [{"command": "echo ;", "x": 1}] * 101}]))' >"$playbook"
run lint "$inventory" "$playbook"
[ "$status" -eq 1 ] && [ "$(grep -c '^rollout: 703' "$work/out")" -eq 100 ] && [ "$(tail -n 1 "$work/out")" = faults=101 ] && pass || fail "a hundred of 101 faults: $(tail -n 1 "$work/out")"

# The hints of two rules, as they are.
texts "$one" "[$(play '{"command":"echo {{ p }} ;"}')]"
run lint "$inventory" "$playbook"
[ "$status" -eq 1 ] && [ "$(sed -n '3,$p' "$work/out" | sed 's/: .*//')" = "notes=2$newline  undefined-name$newline  shell-word$newline$trailer" ] && pass || fail "the hints: $(sed -n '3,$p' "$work/out")"

bad() {
    what=$1
    shift
    run "$@"
    if [ "$status" -eq 1 ] && [ ! -s "$work/out" ] && [ "$(head -n 1 "$work/errors")" = 'rollout: 901 BadLine' ]; then pass; else fail "$what: status $status"; fi
}
bad 'without a file' lint
bad 'with a list alone' lint --allow no-hosts
bad 'with a third file' lint "$inventory" "$playbook" "$playbook" --allow all
bad 'an option without its list' lint "$inventory" --allow
bad 'without a command' --allow no-hosts "$inventory"
bad 'behind the word that ends options' lint "$inventory" "$playbook" -- --allow=no-hosts
for words in '-v' '--quiet' '--forecast' '--groups' '--commands' '--expect hosts=1' '--failing a' '--strict' '--forks 1' '--up a' '--changed-inputs' "--from $top/examples/killed.journal" '--allowed no-hosts'; do
    # shellcheck disable=SC2086
    bad "with $words" lint "$inventory" "$playbook" $words
done
for command in limits plan run rehearse state; do
    set -- "$inventory" "$playbook"
    [ "$command" != limits ] || shift
    bad "lint rules for $command" "$command" "$@" --allow no-hosts
done

# Many lines: one for each step of the most plays.
python3 -c '
import json
print(json.dumps([{"hosts": "all", "tasks": [{"command": "echo | cat"}] * 256}] * 16))' >"$work/many.json"
printf '%s' "$one" >"$work/one.json"
run lint "$work/one.json" "$work/many.json"
without_hints
[ "$status" -eq 1 ] && [ "$(tail -n 1 "$work/out")" = notes=4096 ] && [ "$(grep -c ' word=|$' "$work/out")" -eq 4096 ] && pass || fail "4,096 lines: status $status, $(tail -n 1 "$work/out")"

if [ -w /dev/full ]; then
    for files in "$inventory" "$inventory $playbook"; do
        # shellcheck disable=SC2086
        "$rollout" lint $files >/dev/full 2>"$work/errors"
        status=$?
        : >"$work/out"
        check 'an output that takes nothing' 1 '' "rollout: 904 Write written=0$newline"
    done
fi
finish
