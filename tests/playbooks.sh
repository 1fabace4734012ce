#!/bin/sh
# Worked playbooks: which of several faults `plan` tells, and where it stands; what accepted ones make of the hosts; the largest playbooks, and the
# least that are too large. It needs crates/rollout/out/rollout.
. "$(dirname "$0")/common.sh"
quietly

# four hosts in no limited group
fleet='{"all":{"hosts":{"a":null,"b":null}},"web":{"hosts":{"x":null}},"db":{"hosts":{"y":null}}}'
lines() {
    printf '%s' "$1" | sed 's/; /\n/g'
}
one_batch='plan batches=1 bound=one-host; batch 1:'

# ---- whole playbooks: the lines of the plan, and the text

while IFS= read -r row; do
    planned "$row" "$fleet" "${row#* | }" "$(lines "${row%% | *}")"
done <<'PLANS'
plan batches=1 bound=one-host; batch 1: a b x y | [{"hosts":"all","tasks":[{"command":"true"}]}]
plan batches=1 bound=one-host; batch 1: a | [ {"tasks":[{"ansible.builtin.command":"true"}],"name":7,"gather_facts":[],"connection":null,"hosts":"a"} ]
plan batches=1 bound=one-host; batch 1: b | [{"hosts":"a","tasks":[{"command":"true"}],"hosts":"b"}]
plan batches=1 bound=one-host; batch 1: x y | [{"hosts":["web:db"," x","y"],"tasks":[{"command":"true"}]}]
plan batches=1 bound=serial waiting=1 size=3; batch 1: a | [{"hosts":"a","tasks":[{"command":"true"}],"serial":3}]
plan batches=1 bound=one-host; batch 1: a | [{"hosts":"a","tasks":[{"command":"true"}],"serial":"00000"}]
plan batches=1 bound=serial waiting=1 size=65535; batch 1: a | [{"hosts":"a","tasks":[{"command":"true"}],"serial":"65535"}]
plan batches=1 bound=serial waiting=1 size=1; batch 1: a | [{"hosts":"a","tasks":[{"command":"true"}],"serial":"000%"}]
plan batches=1 bound=serial waiting=1 size=1; batch 1: a | [{"hosts":"a","tasks":[{"command":"true"}],"serial":[1,"70%","0"]}]
plan batches=1 bound=one-host; batch 1: a | [{"hosts":"a","tasks":[{"command":"true"}],"max_fail_percentage":0}]
plan batches=1 bound=one-host; batch 1: a | [{"hosts":"a","tasks":[{"command":"true"}],"max_fail_percentage":100,"on_blocked":"hold"}]
plan batches=1 bound=one-host; batch 1: a | [{"hosts":"a","tasks":[{"command":"true"}],"on_blocked":"stop","handlers":null}]
plan batches=1 bound=one-host; batch 1: a | [{"hosts":"a","tasks":[{"command":"true"}],"handlers":[]}]
plan batches=1 bound=one-host; batch 1: a | [{"hosts":"a","handlers":[{"name":"h","command":"c"},{"name":"","command":"d"}],"tasks":[{"name":"x","command":"a","notify":["","h",""]},{"command":"b","notify":[]}]}]
plan batches=1 bound=one-host; batch 1: a | [{"hosts":"a","handlers":[{"name":"h","command":"b"},{"name":"h ","command":"c"},{"name":"H","command":"d"}],"tasks":[{"command":"a"}]}]
plan batches=1 bound=one-host; batch 1: a | [{"hosts":"a","tasks":[{"command":{"argv":["a","{{ v }}-7",8]}}]}]
plan batches=1 bound=one-host; batch 1: a | [{"hosts":"a","tasks":[{"command":{"cmd":" a\t}}\nb"}}]}]
plan batches=1 bound=one-host; batch 1: a | [{"hosts":"a","tasks":[{"command":"a","register":"r","when":"v","changed_when":false,"failed_when":["r.rc == 3","v"],"ignore_errors":true}]}]
plan batches=1 bound=one-host; batch 1: a | [{"hosts":"a","tasks":[{"command":"a","when":null,"changed_when":[],"failed_when":null,"ignore_errors":false}]}]
plan batches=1 bound=one-host; batch 1: a | [{"hosts":"a","handlers":[{"name":"h","command":"b","register":"q","when":true,"ignore_errors":true}],"tasks":[{"command":"a"}]}]
plan batches=1 bound=one-host; batch 1: a | [{"hosts":"a","tasks":[{"command":"x"}]},{"hosts":"all","serial":2,"on_blocked":"hold","tasks":[{"command":"y"}]}]
PLANS

# the first fault: what is told of it, and the text
while IFS= read -r row; do
    unplanned "$row" "$fleet" "${row#* | }" "rollout: ${row%% | *}"
done <<'FAULTS'
701 NotJson | [{"hosts":"a","tasks":[{"command":"true"}]}] x
701 NotJson | [{"hosts":"a","tasks":[{"command":"true"}],"name":1e999,"name":1}]
701 NotJson | [{"hosts":"a","tasks":[{"command":"\ud800"}]}]
702 BadShape at= | {}
702 BadShape at= | null
702 BadShape at= | []
702 BadShape at= | {"hosts":"a","tasks":[{"command":"true"}]}
702 BadShape at=0 | [null]
702 BadShape at=0 | [[]]
702 BadShape at=1 | [{"hosts":"a","tasks":[{"command":"true"}]},"b"]
703 UnknownKey at=0/vars | [{"hosts":"a","tasks":[{"command":"true"}],"vars":{}}]
703 UnknownKey at=0/Hosts | [{"roles":[],"Hosts":"a","hosts":null}]
703 UnknownKey at=0/ | [{"":0}]
703 UnknownKey at=1/a/b | [{"hosts":"a","tasks":[{"command":"true"}]},{"a/b":1}]
702 BadShape at=0 | [{"serial":null,"tasks":[{"command":"true"}]}]
702 BadShape at=0/hosts | [{"hosts":null,"serial":null,"tasks":[{"command":"true"}]}]
702 BadShape at=0/hosts | [{"hosts":[],"tasks":[{"command":"true"}]}]
702 BadShape at=0/hosts | [{"hosts":" ,:","tasks":[{"command":"true"}]}]
702 BadShape at=0/hosts | [{"hosts":["",","],"tasks":[{"command":"true"}]}]
702 BadShape at=0/hosts/1 | [{"hosts":["",7],"tasks":[{"command":"true"}]}]
706 BadSerial at=0/serial | [{"hosts":"a","serial":null,"max_fail_percentage":101,"tasks":[{"command":"true"}]}]
706 BadSerial at=0/serial | [{"hosts":"a","serial":65536,"tasks":[{"command":"true"}]}]
706 BadSerial at=0/serial | [{"hosts":"a","serial":1.0,"tasks":[{"command":"true"}]}]
706 BadSerial at=0/serial | [{"hosts":"a","serial":"000001","tasks":[{"command":"true"}]}]
706 BadSerial at=0/serial | [{"hosts":"a","serial":"101%","tasks":[{"command":"true"}]}]
706 BadSerial at=0/serial | [{"hosts":"a","serial":[],"tasks":[{"command":"true"}]}]
706 BadSerial at=0/serial/1 | [{"hosts":"a","serial":[1,-1],"tasks":[{"command":"true"}]}]
706 BadSerial at=0/serial/0 | [{"hosts":"a","serial":[[1]],"tasks":[{"command":"true"}]}]
707 BadPercent at=0/max_fail_percentage | [{"hosts":"a","max_fail_percentage":101,"on_blocked":null,"tasks":[{"command":"true"}]}]
707 BadPercent at=0/max_fail_percentage | [{"hosts":"a","max_fail_percentage":null,"tasks":[{"command":"true"}]}]
707 BadPercent at=0/max_fail_percentage | [{"hosts":"a","max_fail_percentage":"30","tasks":[{"command":"true"}]}]
702 BadShape at=0/on_blocked | [{"hosts":"a","on_blocked":"wait","tasks":[]}]
702 BadShape at=0/on_blocked | [{"hosts":"a","on_blocked":null,"tasks":[{"command":"true"}]}]
702 BadShape at=0 | [{"hosts":"a","handlers":{}}]
702 BadShape at=0/tasks | [{"hosts":"a","tasks":[],"handlers":{}}]
702 BadShape at=0/tasks | [{"hosts":"a","tasks":null}]
702 BadShape at=0/handlers | [{"hosts":"a","tasks":[null],"handlers":{}}]
702 BadShape at=0/tasks/1 | [{"hosts":"a","tasks":[{"command":"a"},"b"]}]
703 UnknownKey at=0/tasks/0/Loop | [{"hosts":"a","tasks":[{"loop":[],"Loop":[],"name":7}]}]
702 BadShape at=0/tasks/0/name | [{"hosts":"a","tasks":[{"name":null}]}]
702 BadShape at=0/tasks/0 | [{"hosts":"a","tasks":[{"register":"is"}]}]
702 BadShape at=0/tasks/0 | [{"hosts":"a","tasks":[{"command":"a","ansible.builtin.command":"a"}]}]
702 BadShape at=0/tasks/0/command | [{"hosts":"all","tasks":[{"command":"echo it's"}]}]
702 BadShape at=0/tasks/0/ansible.builtin.command | [{"hosts":"a","tasks":[{"ansible.builtin.command":"a creates=b"}]}]
702 BadShape at=0/tasks/0/command/argv/1 | [{"hosts":"a","tasks":[{"command":{"argv":["a",null]}}]}]
602 BadBraces step=1 | [{"hosts":"a","tasks":[{"command":"a {% b","register":"is"}]}]
602 BadBraces step=2 | [{"hosts":"a","tasks":[{"command":"a"},{"command":{"argv":["{{ v | x }}"]},"when":7}]}]
602 BadBraces play=2 step=3 | [{"hosts":"a","tasks":[{"command":"a"}]},{"hosts":"a","tasks":[{"command":"a"},{"command":"b"}],"handlers":[{"name":"h","command":"${#x}"}]}]
702 BadShape at=0/tasks/0/register | [{"hosts":"a","tasks":[{"command":"a","register":"is","when":7}]}]
702 BadShape at=0/tasks/0/when/1 | [{"hosts":"a","tasks":[{"command":"a","when":["a b",null],"changed_when":7}]}]
501 BadToken step=1 key=when at=8 | [{"hosts":"a","tasks":[{"command":"a","when":"r.rc == '3","changed_when":7}]}]
502 Unexpected step=1 key=changed_when at=4 | [{"hosts":"a","tasks":[{"command":"a","when":"x","changed_when":"x is","failed_when":7}]}]
502 Unexpected step=1 key=failed_when at=2 | [{"hosts":"a","tasks":[{"command":"a","failed_when":["a","a b","$"],"ignore_errors":null}]}]
503 TooDeep step=1 key=when at=32 | [{"hosts":"a","tasks":[{"command":"a","when":"(((((((((((((((((((((((((((((((((a)))))))))))))))))))))))))))))))))"}]}]
502 Unexpected play=1 step=2 key=when at=0 | [{"hosts":"a","tasks":[{"command":"a"},{"command":"a","when":""}]},{"hosts":null}]
702 BadShape at=0/tasks/0/ignore_errors | [{"hosts":"a","tasks":[{"command":"a","ignore_errors":"yes","notify":7}]}]
702 BadShape at=0/tasks/0/notify | [{"hosts":"a","tasks":[{"command":"a","notify":null}]}]
702 BadShape at=0/tasks/0/notify/1 | [{"hosts":"a","tasks":[{"command":"a","notify":["h",7]}]}]
704 NoSuchHandler name=h | [{"hosts":"a","tasks":[{"command":"a","notify":["h","i"]},null]}]
704 NoSuchHandler name=i | [{"hosts":"a","tasks":[{"command":"a","notify":["h","i","j"]}],"handlers":[{"name":"h","command":"b"}]}]
704 NoSuchHandler name= | [{"hosts":"a","tasks":[{"command":"a","notify":""}],"handlers":[{"name":"h","command":"b"}]}]
704 NoSuchHandler name=H | [{"hosts":"a","tasks":[{"command":"a"}],"handlers":[{"name":"H","command":"b"}]},{"hosts":"a","tasks":[{"command":"a","notify":"H"}]}]
702 BadShape at=0/handlers/0 | [{"hosts":"a","tasks":[null],"handlers":[{"command":"b"}]}]
702 BadShape at=0/handlers/0/name | [{"hosts":"a","tasks":[null],"handlers":[{"name":7}]}]
703 UnknownKey at=0/handlers/0/loop | [{"hosts":"a","tasks":[null],"handlers":[{"notify":"h","loop":1}]}]
703 UnknownKey at=0/handlers/0/notify | [{"hosts":"a","tasks":[null],"handlers":[{"name":"h","command":"a","notify":[]}]}]
705 TwiceHandler name=h | [{"hosts":"a","tasks":[null],"handlers":[{"name":"h","command":"a"},{"name":"i","command":"a"},{"name":"h","command":"a"},null]}]
703 UnknownKey at=0/handlers/1/x | [{"hosts":"a","tasks":[null],"handlers":[{"name":"h","command":"a"},{"name":"h","x":1}]}]
501 BadToken step=3 key=failed_when at=0 | [{"hosts":"a","tasks":[null,null],"handlers":[{"name":"h","command":"a","failed_when":"9223372036854775808"},null]}]
706 BadSerial at=0/serial | [{"hosts":"a","serial":-0}]
702 BadShape at=0/on_blocked | [{"hosts":"a","on_blocked":"Hold"}]
FAULTS
smallest='[{"hosts":"all","tasks":[{"command":"true"}]}]'
for bytes in $(seq 1 $((${#smallest} - 1))); do
    unplanned "the first $bytes bytes of a playbook" "$fleet" "$(printf '%s' "$smallest" | head -c "$bytes")" 'rollout: 701 NotJson'
done
unplanned 'no bytes' "$fleet" '' 'rollout: 701 NotJson'

# ---- tasks and handlers

# task STEP: a playbook of this task, with handlers for what it may notify
task() {
    printf '[{"hosts":"a","tasks":[%s],"handlers":[{"name":"restart","command":"true"},{"name":"","command":"true"},{"name":"h","command":"true"}]}]' "$1"
}
handler() {
    printf '[{"hosts":"a","tasks":[{"command":"true"}],"handlers":[%s]}]' "$1"
}
while IFS= read -r step; do
    planned "$step" "$fleet" "$(task "$step")" "$(lines "$one_batch a")"
done <<'TASKS'
{"command":"true"}
{"ansible.builtin.command":"true"}
{"command":" deploy\t{{ v }}x \r\nnow"}
{"command":{"argv":["a",-7,9223372036854775807,"b c"]}}
{"ansible.builtin.command":{"cmd":"a b"}}
{"command":"{{ r . rc }} }}"}
{"command":"true","name":""}
{"command":"true","name":"two words"}
{"command":"true","register":"_r1"}
{"command":"true","when":null,"changed_when":[],"failed_when":null}
{"command":"true","when":true,"changed_when":false}
{"command":"true","when":"v == 1"}
{"command":"true","when":["true or true",false]}
{"command":"true","failed_when":["not false","true"]}
{"command":"true","ignore_errors":true}
{"command":"true","ignore_errors":false}
{"command":"true","notify":"restart"}
{"command":"true","notify":["restart","restart",""]}
{"command":"true","notify":[]}
{"command":"no","command":"true","name":7,"name":"m"}
{"when":true,"register":"r","notify":["h"],"name":"n","ignore_errors":true,"failed_when":"true","command":"a b","changed_when":"false"}
{"command":"a}} b"}
{"command":{"argv":["a","b c",7,-8," "]}}
{"command":{"argv":["a","","é"]}}
{"command":{"argv":["it's"]}}
{"command":{"argv":["creates=x"]}}
{"command":"true","when":["a or b","c",false]}
{"command":{"argv":["echo"]}}
{"command":{"argv":["{{ inventory_hostname }}-{{v}}"]}}
{"command":{"argv":["{{\t\r\n v\t}}"]}}
{"command":{"argv":["{{ r . rc }}"]}}
{"command":{"argv":["{{r.rc}}"]}}
{"command":{"argv":["é{{v}}東京"]}}
{"command":{"argv":["{{v}}}"]}}
{"command":{"argv":["a }} b"]}}
{"command":{"argv":["{ v }"]}}
{"command":{"argv":["{{ _9 }}"]}}
{"command":{"argv":["{{ isolated }}"]}}
TASKS
while IFS= read -r row; do
    unplanned "$row" "$fleet" "$(task "${row#* | }")" "rollout: ${row%% | *}"
done <<'FAULTS'
702 BadShape at=0/tasks/0 | null
702 BadShape at=0/tasks/0 | [{"command":"true"}]
702 BadShape at=0/tasks/0 | "true"
702 BadShape at=0/tasks/0 | 7
703 UnknownKey at=0/tasks/0/x | {"command":"true","x":null}
703 UnknownKey at=0/tasks/0/A | {"b":1,"command":"true","A":2}
703 UnknownKey at=0/tasks/0/Command | {"Command":"true"}
703 UnknownKey at=0/tasks/0/creates | {"command":"true","creates":"x"}
703 UnknownKey at=0/tasks/0/ | {"command":"true","":1}
702 BadShape at=0/tasks/0/name | {"command":"true","name":null}
702 BadShape at=0/tasks/0/name | {"command":"true","name":7}
702 BadShape at=0/tasks/0/name | {"command":"true","name":["n"]}
702 BadShape at=0/tasks/0 | {}
702 BadShape at=0/tasks/0 | {"name":"n"}
702 BadShape at=0/tasks/0 | {"command":"true","ansible.builtin.command":"true"}
702 BadShape at=0/tasks/0 | {"command":null,"ansible.builtin.command":"true"}
702 BadShape at=0/tasks/0/command | {"command":null}
702 BadShape at=0/tasks/0/command | {"command":["a"]}
702 BadShape at=0/tasks/0/command | {"command":7}
702 BadShape at=0/tasks/0/ansible.builtin.command | {"ansible.builtin.command":true}
702 BadShape at=0/tasks/0/command | {"command":""}
702 BadShape at=0/tasks/0/command | {"command":" \t\r\n"}
702 BadShape at=0/tasks/0/command | {"command":"echo it's"}
702 BadShape at=0/tasks/0/command | {"command":"a \"b\""}
702 BadShape at=0/tasks/0/command | {"command":"a \\ b"}
702 BadShape at=0/tasks/0/command | {"command":"{{ 'v' }}"}
702 BadShape at=0/tasks/0/command | {"command":"a creates=x"}
702 BadShape at=0/tasks/0/command | {"command":"removes=x a"}
702 BadShape at=0/tasks/0/command | {"command":"a chdir=x"}
702 BadShape at=0/tasks/0/command | {"command":"a stdin="}
702 BadShape at=0/tasks/0/command | {"command":"echo {{ v creates=x"}
702 BadShape at=0/tasks/0/command | {"command":{}}
702 BadShape at=0/tasks/0/command | {"command":{"argv":["a"],"cmd":"a"}}
702 BadShape at=0/tasks/0/command | {"command":{"argv":["a"],"chdir":"b"}}
702 BadShape at=0/tasks/0/command | {"command":{"chdir":"b"}}
702 BadShape at=0/tasks/0/command/argv | {"command":{"argv":[]}}
702 BadShape at=0/tasks/0/command/argv | {"command":{"argv":"a"}}
702 BadShape at=0/tasks/0/command/argv | {"command":{"argv":null}}
702 BadShape at=0/tasks/0/command/argv/1 | {"command":{"argv":["a",null,7.5]}}
702 BadShape at=0/tasks/0/command/argv/0 | {"command":{"argv":[1.0]}}
702 BadShape at=0/tasks/0/ansible.builtin.command/argv/0 | {"ansible.builtin.command":{"argv":[9223372036854775808]}}
702 BadShape at=0/tasks/0/command/argv/0 | {"command":{"argv":[["a"]]}}
702 BadShape at=0/tasks/0/command/cmd | {"command":{"cmd":7}}
702 BadShape at=0/tasks/0/command/cmd | {"command":{"cmd":"it's"}}
702 BadShape at=0/tasks/0/command/cmd | {"command":{"cmd":""}}
602 BadBraces step=1 | {"command":"echo {{ v"}
602 BadBraces step=1 | {"command":"{% v %}"}
602 BadBraces step=1 | {"command":{"argv":["true","{#"]}}
602 BadBraces step=1 | {"command":"{{ v.foo }}"}
602 BadBraces step=1 | {"command":"{{ true }}"}
602 BadBraces step=1 | {"command":"{{ inventory_hostname.rc }}"}
602 BadBraces step=1 | {"command":{"argv":["${#x}"]}}
702 BadShape at=0/tasks/0/register | {"command":"true","register":null}
702 BadShape at=0/tasks/0/register | {"command":"true","register":"is"}
702 BadShape at=0/tasks/0/register | {"command":"true","register":"1r"}
702 BadShape at=0/tasks/0/register | {"command":"true","register":""}
702 BadShape at=0/tasks/0/register | {"command":"true","register":"r.rc"}
702 BadShape at=0/tasks/0/when | {"command":"true","when":7}
702 BadShape at=0/tasks/0/when | {"command":"true","when":{}}
702 BadShape at=0/tasks/0/when/1 | {"command":"true","when":["a b",null]}
702 BadShape at=0/tasks/0/when/0 | {"command":"true","when":[["a"]]}
501 BadToken step=1 key=when at=2 | {"command":"true","when":"a $"}
501 BadToken step=1 key=when at=5 | {"command":"true","when":["a","b == 'c"]}
502 Unexpected step=1 key=when at=2 | {"command":"true","when":["a","a b"]}
502 Unexpected step=1 key=when at=0 | {"command":"true","when":""}
503 TooDeep step=1 key=when at=32 | {"command":"true","when":"(((((((((((((((((((((((((((((((((a)))))))))))))))))))))))))))))))))"}
702 BadShape at=0/tasks/0/changed_when | {"command":"true","changed_when":"x","changed_when":0}
502 Unexpected step=1 key=changed_when at=2 | {"command":"true","changed_when":"a b"}
702 BadShape at=0/tasks/0/failed_when/2 | {"command":"true","failed_when":["a",true,0]}
502 Unexpected step=1 key=failed_when at=1 | {"command":"true","failed_when":"1-2"}
702 BadShape at=0/tasks/0/ignore_errors | {"command":"true","ignore_errors":null}
702 BadShape at=0/tasks/0/ignore_errors | {"command":"true","ignore_errors":"yes"}
702 BadShape at=0/tasks/0/ignore_errors | {"command":"true","ignore_errors":1}
702 BadShape at=0/tasks/0/notify | {"command":"true","notify":null}
702 BadShape at=0/tasks/0/notify | {"command":"true","notify":{}}
702 BadShape at=0/tasks/0/notify/1 | {"command":"true","notify":["h",7]}
702 BadShape at=0/tasks/0/notify/0 | {"command":"true","notify":[["h"]]}
703 UnknownKey at=0/tasks/0/x | {"x":1,"name":7,"command":7}
702 BadShape at=0/tasks/0/name | {"name":7,"register":7}
702 BadShape at=0/tasks/0/command | {"command":7,"register":7,"when":7}
602 BadBraces step=1 | {"command":"{%","register":7,"when":7}
702 BadShape at=0/tasks/0/register | {"command":"true","register":7,"when":"a b"}
502 Unexpected step=1 key=when at=2 | {"command":"true","when":"a b","changed_when":7}
502 Unexpected step=1 key=changed_when at=2 | {"command":"true","changed_when":"a b","failed_when":7}
502 Unexpected step=1 key=failed_when at=2 | {"command":"true","failed_when":"a b","ignore_errors":7}
702 BadShape at=0/tasks/0/ignore_errors | {"command":"true","ignore_errors":7,"notify":7}
602 BadBraces step=1 | {"command":{"argv":["{{ v | x }}"]}}
602 BadBraces step=1 | {"command":{"argv":["{{{v}}"]}}
602 BadBraces step=1 | {"command":{"argv":["{{"]}}
602 BadBraces step=1 | {"command":{"argv":["a{%b"]}}
602 BadBraces step=1 | {"command":{"argv":["{{ true }}"]}}
602 BadBraces step=1 | {"command":{"argv":["{{ v.foo }}"]}}
602 BadBraces step=1 | {"command":{"argv":["{{ inventory_hostname.rc }}"]}}
602 BadBraces step=1 | {"command":{"argv":["{{ 9v }}"]}}
602 BadBraces step=1 | {"command":{"argv":["{{ é }}"]}}
FAULTS
while IFS= read -r step; do
    planned "$step" "$fleet" "$(handler "$step")" "$(lines "$one_batch a")"
done <<'HANDLERS'
{"name":"restart","command":{"argv":["service","web"]}}
{"name":"","ansible.builtin.command":"true","register":"r","when":true,"changed_when":false,"failed_when":true,"ignore_errors":true}
HANDLERS
while IFS= read -r row; do
    unplanned "$row" "$fleet" "$(handler "${row#* | }")" "rollout: ${row%% | *}"
done <<'FAULTS'
702 BadShape at=0/handlers/0 | null
702 BadShape at=0/handlers/0 | {}
702 BadShape at=0/handlers/0 | {"command":7}
703 UnknownKey at=0/handlers/0/notify | {"command":"true","notify":"h"}
703 UnknownKey at=0/handlers/0/notify | {"name":"h","command":"true","notify":[],"z":1}
703 UnknownKey at=0/handlers/0/listen | {"name":"h","command":"true","listen":"x","notify":[]}
702 BadShape at=0/handlers/0/name | {"name":null,"command":7}
702 BadShape at=0/handlers/0 | {"name":"h"}
602 BadBraces step=2 | {"name":"h","command":"{#","register":"is"}
702 BadShape at=0/handlers/0/register | {"name":"h","command":"true","register":"not","when":7}
501 BadToken step=2 key=when at=0 | {"name":"h","command":"true","when":"'a\\'","ignore_errors":7}
702 BadShape at=0/handlers/0/ignore_errors | {"name":"h","command":"true","ignore_errors":[]}
FAULTS

# ---- patterns of hosts

pattern() {
    printf '[{"hosts":"%s","tasks":[{"command":"true"}]}]' "$1"
}
region='{"all":{"children":{"eu":{"children":{"r1":{"hosts":{"a":null,"b":null,"c":null}},"r2":{"hosts":{"d":null,"e":null}}}}}}}'
while IFS= read -r row; do
    planned "$row" "$region" "$(pattern "${row#* | }")" "$(lines "$one_batch ${row%% | *}")"
done <<'HOSTS'
a b c d | r1:d
a b c d | r1,d
b d e |  r2 ,, b
a b c d e | all
a b c d e | eu
d e | e,r2:e:r2
a b | b:a:b
a b | \r\n\ta\t\r\n: b 
a | :a,
HOSTS
while IFS= read -r row; do
    unplanned "$row" "$region" "$(pattern "${row#* | }")" "rollout: 304 NoSuchName name=${row%% | *}"
done <<'NAMES'
x* | r1:x*
y | y:b:z
a b | a b
www[01 | www[01:50]
?a? | \u000ca\u000b,\u00a0b\u3000
?? | é : ü , 東京
NAMES
# groups that have the names of hosts
hidden='{"all":{"hosts":{"w":null,"x":null},"children":{"x":{"hosts":{"y":null}},"w":null}}}'
planned 'a group hides the host of its name' "$hidden" "$(pattern x)" "$(lines "$one_batch y")"
planned 'a group of nobody hides the host of its name' "$hidden" "$(pattern w)" 'plan batches=0 bound=nothing'
planned 'hosts that groups hide are in the group of all' "$hidden" "$(pattern all)" "$(lines "$one_batch w x y")"

# ---- bounds

# listed ELEMENT COUNT: the element so often, as the elements of a list
listed() {
    awk -v element="$1" -v count="$2" 'BEGIN { for (i = 0; i < count; i++) printf "%s%s", (i > 0 ? "," : ""), element }'
}
# handlers COUNT: handlers of different names
handlers() {
    awk -v count="$1" 'BEGIN { for (i = 0; i < count; i++) printf "%s{\"name\":\"h%d\",\"command\":\"true\"}", (i > 0 ? "," : ""), i }'
}
runs_true='{"command":"true"}'
for counts in '256 0' '200 56' '1 255'; do
    set -- $counts
    planned "$1 tasks and $2 handlers" "$fleet" "[{\"hosts\":\"a\",\"tasks\":[$(listed "$runs_true" "$1")],\"handlers\":[$(handlers "$2")]}]" "$(lines "$one_batch a")"
done
for counts in '257 0' '200 57' '1 256'; do
    set -- $counts
    unplanned "$1 tasks and $2 handlers" "$fleet" "[{\"hosts\":\"a\",\"tasks\":[$(listed null "$1")],\"handlers\":[$(listed null "$2")]}]" 'rollout: 709 TooManySteps'
done
one="{\"hosts\":\"a\",\"tasks\":[$runs_true]}"
planned '16 plays' "$fleet" "[$(listed "$one" 16)]" "$(lines "$one_batch a")"
unplanned 'bad braces in the last of 16 plays' "$fleet" "[$(listed "$one" 15),{\"hosts\":\"a\",\"tasks\":[{\"command\":\"{%\"}]}]" 'rollout: 602 BadBraces play=16 step=1'
sized() {
    printf '[{"hosts":"a","tasks":[{"command":"true"}],"serial":[%s,%s]}]' "$(listed 1 "$1")" "$2"
}
planned '64 sizes' "$fleet" "$(sized 63 7)" "$(lines 'plan batches=1 bound=serial waiting=1 size=1; batch 1: a')"
unplanned 'the last of 64 sizes' "$fleet" "$(sized 63 -1)" 'rollout: 706 BadSerial at=0/serial/63'
unplanned '65 sizes' "$fleet" "$(sized 64 7)" 'rollout: 706 BadSerial at=0/serial'
unplanned '65 sizes before the last of them' "$fleet" "$(sized 64 -1)" 'rollout: 706 BadSerial at=0/serial'
name=$(head -c 4096 /dev/zero | tr '\0' n)
planned 'two conditions as long as may be' "$fleet" "[{\"hosts\":\"a\",\"tasks\":[{\"command\":\"b\",\"when\":[\"$name\",\"$name\"]}]}]" "$(lines "$one_batch a")"
unplanned 'a condition one byte longer' "$fleet" "[{\"hosts\":\"a\",\"tasks\":[{\"command\":\"b\",\"when\":\"${name}n\"}]}]" 'rollout: 504 TooLong step=1 key=when at=4096'
# a search to the end of the text at each of them would take many minutes of a processor
awk 'BEGIN { printf "[{\"hosts\":\"a\",\"tasks\":[{\"command\":\""; for (i = 0; i < 1000000; i++) printf "{{ "; printf "\"}]}]" }' >"$work/openings.json"
printf '%s' "$fleet" >"$work/inventory.json"
(
    ulimit -t 60
    "$rollout" plan "$work/inventory.json" "$work/openings.json" >"$work/out" 2>"$work/errors" </dev/null
)
status=$?
check 'a million openings without an end' 1 '' "rollout: 602 BadBraces step=1$newline"
finish
