#!/bin/sh
# Worked inventories: which of several faults `limits` tells, and where it stands; what accepted texts say; the largest inventories, and the least
# that are too large. It needs crates/rollout/out/rollout.
. "$(dirname "$0")/common.sh"

# ---- the first fault: what is told of it, and the text

while IFS= read -r row; do
    refused "$row" "${row#* | }" "rollout: ${row%% | *}"
done <<'FAULTS'
201 NotJson | {
201 NotJson | nul
201 NotJson | {"all":null}x
201 NotJson | {"all":null,}
201 NotJson | {'all':null}
201 NotJson | {"all":{"vars":{"x":1e999}}}
201 NotJson | {"all":{"vars":{"x":"\ud800"}}}
202 BadShape at= | null
202 BadShape at= | []
202 BadShape at= | "all"
202 BadShape at= | 7
202 BadShape at=all | {"all":[]}
202 BadShape at=all | {"all":1}
202 BadShape at=all | {"all":"x"}
202 BadShape at=all | {"all":false}
202 BadShape at=web | {"web":[]}
202 BadShape at=all/children/web | {"all":{"children":{"web":7}}}
202 BadShape at=web/children/a/children/b | {"web":{"children":{"a":{"children":{"b":true}}}}}
203 UnknownKey at=all/x | {"all":{"x":1}}
203 UnknownKey at=all/host | {"all":{"host":null}}
203 UnknownKey at=all/y | {"all":{"z":1,"y":2}}
203 UnknownKey at=all/B | {"all":{"b":1,"B":2}}
203 UnknownKey at=web/Hosts | {"web":{"Hosts":null}}
203 UnknownKey at=all/ | {"all":{"":null}}
203 UnknownKey at=all/children/web/a/b | {"all":{"children":{"web":{"a/b":1}}}}
203 UnknownKey at=all/x | {"all":{"hosts":[],"x":1}}
203 UnknownKey at=all/x | {"all":{"vars":{"max_down":-1},"x":1}}
202 BadShape at=all/vars | {"all":{"vars":[]}}
202 BadShape at=all/hosts | {"all":{"hosts":["a"]}}
202 BadShape at=all/children | {"all":{"children":"web"}}
202 BadShape at=all/vars | {"all":{"children":3,"hosts":2,"vars":1}}
202 BadShape at=all/hosts | {"all":{"children":3,"hosts":2}}
202 BadShape at=all/children | {"all":{"children":3,"vars":{"max_down":-1}}}
202 BadShape at=all/hosts/a | {"all":{"hosts":{"a":[]}}}
202 BadShape at=all/hosts/a | {"all":{"hosts":{"a":0}}}
202 BadShape at=web/hosts/a | {"web":{"hosts":{"b":"x","a":true}}}
204 BadLimit at=all/vars/max_down | {"all":{"vars":{"max_down":65536}}}
204 BadLimit at=all/vars/max_down | {"all":{"vars":{"max_down":-1}}}
204 BadLimit at=all/vars/max_down | {"all":{"vars":{"max_down":1.0}}}
204 BadLimit at=all/vars/max_down | {"all":{"vars":{"max_down":1e2}}}
204 BadLimit at=all/vars/max_down | {"all":{"vars":{"max_down":-0}}}
204 BadLimit at=all/vars/max_down | {"all":{"vars":{"max_down":null}}}
204 BadLimit at=all/vars/max_down | {"all":{"vars":{"max_down":"3"}}}
204 BadLimit at=all/vars/max_down | {"all":{"vars":{"max_down":"101%"}}}
204 BadLimit at=all/vars/max_down | {"all":{"vars":{"max_down":"256%"}}}
204 BadLimit at=all/vars/max_down | {"all":{"vars":{"max_down":"0007%"}}}
204 BadLimit at=all/vars/max_down | {"all":{"vars":{"max_down":"%"}}}
204 BadLimit at=all/vars/max_down | {"all":{"vars":{"max_down":""}}}
204 BadLimit at=all/vars/max_down | {"all":{"vars":{"max_down":"5"}}}
204 BadLimit at=all/vars/max_down | {"all":{"vars":{"max_down":" 5%"}}}
204 BadLimit at=all/vars/max_down | {"all":{"vars":{"max_down":"5 %"}}}
204 BadLimit at=all/vars/max_down | {"all":{"vars":{"max_down":"5% "}}}
204 BadLimit at=all/vars/max_down | {"all":{"vars":{"max_down":"+5%"}}}
204 BadLimit at=all/vars/max_down | {"all":{"vars":{"max_down":"-5%"}}}
204 BadLimit at=all/vars/max_down | {"all":{"vars":{"max_down":"5.0%"}}}
204 BadLimit at=all/vars/max_down | {"all":{"vars":{"max_down":"٣%"}}}
204 BadLimit at=all/vars/max_down | {"all":{"vars":{"max_down":"5%%"}}}
204 BadLimit at=all/vars/max_down | {"all":{"vars":{"max_down":true}}}
204 BadLimit at=all/vars/max_down | {"all":{"vars":{"max_down":[]}}}
204 BadLimit at=all/vars/max_down | {"all":{"vars":{"max_down":9223372036854775808}}}
204 BadLimit at=all/vars/max_down | {"all":{"vars":{"max_down":18446744073709551616}}}
204 BadLimit at=web/children/r/vars/max_down | {"web":{"children":{"r":{"vars":{"max_down":{}}}}}}
204 BadLimit at=all/vars/max_down | {"all":{"hosts":{"a":{"down":1}},"vars":{"max_down":-1}}}
205 BadDown at=all/hosts/a/down | {"all":{"hosts":{"a":{"down":1}}}}
205 BadDown at=all/hosts/a/down | {"all":{"hosts":{"a":{"down":null}}}}
205 BadDown at=all/hosts/a/down | {"all":{"hosts":{"a":{"down":"true"}}}}
205 BadDown at=all/hosts/a/down | {"all":{"hosts":{"b":{"down":1},"a":{"down":0}}}}
205 BadDown at=all/children/web/hosts/h/down | {"all":{"children":{"web":{"hosts":{"h":{"down":[]}}}}}}
101 BadName name= | {"":null}
101 BadName name=web 1 | {"web 1":null}
101 BadName name=?? | {"é":null}
101 BadName name=www[01:50] | {"all":{"hosts":{"www[01:50]":null}}}
101 BadName name=a b | {"all":{"hosts":{"\u0061 b":null}}}
101 BadName name=a/b | {"all":{"hosts":{"a/b":7}}}
101 BadName name=a b | {"all":{"children":{"a b":7}}}
102 TwicePlaced group=2 | {"all":{"children":{"all":null}}}
102 TwicePlaced group=3 | {"all":{"children":{"web":null}},"web":null}
102 TwicePlaced group=3 | {"a":{"children":{"a":null}}}
102 TwicePlaced group=5 | {"a":{"children":{"x":null}},"b":{"children":{"x":null}}}
102 TwicePlaced group=4 | {"b":{"children":{"c":null}},"c":{"children":{"b":null}}}
102 TwicePlaced group=4 | {"all":{"children":{"b":{"children":{"a":null}}}},"a":null,"b":null}
202 BadShape at=all | {"a b":null,"all":7}
202 BadShape at=all/children | {"a b":7,"all":{"children":[]}}
204 BadLimit at=a/vars/max_down | {"z":{"x":1},"a":{"vars":{"max_down":-1}}}
203 UnknownKey at=a/children/b/x | {"b":7,"a":{"children":{"b":{"x":1}}}}
203 UnknownKey at=a/y | {"all":{"children":{"b":{"x":1}}},"a":{"y":1}}
203 UnknownKey at=b/x | {"a":{"children":{"c":{"children":{"d":null}}}},"b":{"x":1}}
203 UnknownKey at=a/children/f/x | {"a":{"children":{"c":{"children":{"d":null}},"f":{"x":1}}}}
203 UnknownKey at=all/children/a/x | {"a":{"y":1},"all":{"children":{"a":{"x":1}}}}
203 UnknownKey at=all/children/c/x | {"d":{"y":1},"a":null,"all":{"children":{"c":{"x":1}}}}
101 BadName name=z z | {"a":{"children":{"a":null}},"z z":null}
205 BadDown at=z/hosts/h/down | {"a":{"children":{"a":null}},"z":{"hosts":{"h":{"down":1}}}}
205 BadDown at=all/hosts/a/down | {"all":{"hosts":{"b c":null,"a":{"down":1}}}}
101 BadName name=a c | {"all":{"hosts":{"b":{"down":1},"a c":null}}}
101 BadName name=a b | {"all":{"hosts":{"a":null,"a b":{"down":1}}}}
202 BadShape at=all | {"all":{"x":1},"all":7}
203 UnknownKey at=all/x | {"all":7,"all":{"x":1}}
205 BadDown at=all/hosts/a/down | {"all":{"hosts":{"a":{"down":true,"down":1}}}}
204 BadLimit at=a/vars/max_down | {"a":{"vars":{"max_down":1,"max_down":"1"}}}
302 StartOver group=g down=1 limit=0 | {"all":{"children":{"g":{"vars":{"max_down":"33%"},"hosts":{"a":{"down":true},"b":null,"c":null}}},"hosts":{"d":null}}}
FAULTS
for bytes in $(seq 1 $((${#racks} - 1))); do
    refused "the first $bytes bytes of an inventory" "$(printf '%s' "$racks" | head -c "$bytes")" 'rollout: 201 NotJson'
done
refused 'bytes that are no UTF-8' "$(printf '{"all":{"hosts":{"a\377":null}}}')" 'rollout: 201 NotJson'

# ---- what accepted texts say: the lines of the table, and the text

while IFS= read -r row; do
    printed "$row" "${row#* | }" "$(printf '%s' "${row%% | *}" | sed 's/; /\n/g')"
done <<'TABLES'
hosts=0 limited=0 | {}
hosts=0 limited=0 |  {"all": null}  
hosts=0 limited=0 | {"all":{"hosts":null,"vars":null,"children":null}}
hosts=2 limited=0 | {"b":{"hosts":{"h":null}},"all":{"hosts":{"h":{},"g":null},"children":{"c":null,"a":null}}}
Y members=0 down=0 limit=65535 room=65535; z members=0 down=0 limit=0 room=0; hosts=0 limited=2 | {"z":{"vars":{"max_down":0}},"Y":{"vars":{"max_down":65535}}}
a members=0 down=0 limit=0 room=0; b members=0 down=0 limit=0 room=0; hosts=0 limited=2 | {"a":{"vars":{"max_down":"33%"}},"b":{"vars":{"max_down":"007%"}}}
a members=0 down=0 limit=0 room=0; b members=0 down=0 limit=0 room=0; hosts=0 limited=2 | {"a":{"vars":{"max_down":"100%"}},"b":{"vars":{"max_down":"0%"}}}
hosts=0 limited=0 | {"all":{"vars":{"t":"x","i":-7,"b":true,"n":null,"f":1.5,"l":[1],"o":{},"z":-0,"big":9223372036854775808,"down":"maybe"}}}
hosts=1 limited=0 | {"all":{"hosts":{"h":{"max_down":"any","down":true,"odd name":2}}}}
hosts=1 limited=0 | {"all":{"hosts":{"a":null}},"all":{"hosts":{"b":{"down":false,"down":true}}}}
g members=2 down=2 limit=2 room=0; hosts=2 limited=1 | {"all":{"children":{"g":{"vars":{"max_down":2},"hosts":{"a":{"down":true},"b":{"down":true}}}}}}
g members=3 down=1 limit=1 room=0; hosts=4 limited=1 | {"all":{"children":{"g":{"vars":{"max_down":"34%"},"hosts":{"a":{"down":true},"b":null,"c":null}}},"hosts":{"d":null}}}
g members=3 down=1 limit=1 room=0; hosts=4 limited=1 | {"all":{"children":{"g":{"vars":{"max_down":"66%"},"hosts":{"a":{"down":true},"b":null,"c":null}}},"hosts":{"d":null}}}
g members=3 down=1 limit=2 room=1; hosts=4 limited=1 | {"all":{"children":{"g":{"vars":{"max_down":"67%"},"hosts":{"a":{"down":true},"b":null,"c":null}}},"hosts":{"d":null}}}
g members=3 down=1 limit=2 room=1; hosts=4 limited=1 | {"all":{"children":{"g":{"vars":{"max_down":"99%"},"hosts":{"a":{"down":true},"b":null,"c":null}}},"hosts":{"d":null}}}
g members=3 down=1 limit=3 room=2; hosts=4 limited=1 | {"all":{"children":{"g":{"vars":{"max_down":"100%"},"hosts":{"a":{"down":true},"b":null,"c":null}}},"hosts":{"d":null}}}
TABLES

# ---- bounds; where several are passed, a name at two places is told before the depth, and the depth before the number

refused 'lists in lists' "{\"all\":{\"vars\":{\"x\":$(printf '[%.0s' $(seq 200))$(printf ']%.0s' $(seq 200))}}}" 'rollout: 201 NotJson'

# entries COUNT: so many, each null
entries() {
    awk -v count="$1" 'BEGIN { for (i = 0; i < count; i++) printf "%s\"n%d\":null", (i > 0 ? "," : ""), i }'
}
refused 'as many rows as may be, of more hosts than a fleet has' "{\"all\":{\"hosts\":{$(entries 16384)}}}" 'rollout: 303 TooManyHosts'
refused 'one row too many' "{\"all\":{\"hosts\":{$(entries 16385)}}}" 'rollout: 104 TooMany'

# beside_a_chain COUNT DEPTH INNERMOST: so many groups below `all`, and after them a chain of groups, the innermost of this name
beside_a_chain() {
    printf '{%s' "$(entries "$1")"
    awk -v depth="$2" -v name="$3" 'BEGIN { for (i = 1; i < depth; i++) printf "%s\"z%d\":{\"children\":", (i > 1 ? "{" : ","), i; printf "{\"%s\":null", name; for (i = 1; i < depth; i++) printf "}}"; printf "}" }'
}
refused 'a name twice, too deep, among too many' "$(beside_a_chain 1024 32 n0)" 'rollout: 102 TwicePlaced group=1057'
refused 'a group too deep, among too many' "$(beside_a_chain 1024 32 n)" 'rollout: 103 TooDeep'
refused 'too many groups, as deep as may be' "$(beside_a_chain 1024 31 n)" 'rollout: 104 TooMany'
printed 'as many groups as may be, as deep as may be' "$(beside_a_chain 992 31 n)" 'hosts=0 limited=0'
printed 'a variable of two megabytes' "{\"all\":{\"vars\":{\"note\":\"$(head -c 2097152 /dev/zero | tr '\0' n)\"}}}" 'hosts=0 limited=0'
longest=$(printf 'n%.0s' $(seq 255))
printed 'a name as long as may be' "{\"$longest\":null}" 'hosts=0 limited=0'
refused 'a name one longer' "{\"n$longest\":null}" "rollout: 101 BadName name=n$longest"

# ---- the largest fleets: 4,096 hosts and 1,024 groups

# The hosts of these numbers, whose names are in the order of their numbers, each null or what `value` holds of the last.
hosts='function hosts(first, count,   i) {
    printf "\"hosts\":{"
    for (i = 1000 + first; i < 1000 + first + count; i++) printf "%s\"h%d\":%s", (i > 1000 + first ? "," : ""), i, (i == 5095 && value ? value : "null")
    printf "}"
}'

# Eighteen limited groups inside each other, and in the innermost racks of sixteen hosts of which the next has twelve: 16,384 rows.
awk "$hosts"'
BEGIN {
    printf "{\"all\":{"
    hosts(3792, 304)
    for (i = 17; i > 0; i--) printf ",\"children\":{\"region%d\":{\"vars\":{\"max_down\":\"50%%\"}", i
    printf ",\"children\":{\"region\":{\"vars\":{\"max_down\":4000},\"children\":{"
    for (rack = 0; rack < 1005; rack++) {
        printf "%s\"rack%d\":{", (rack > 0 ? "," : ""), rack
        hosts(4 * rack, 16)
        printf "}"
    }
    printf "}}}"
    for (i = 17; i > 0; i--) printf "}}"
    printf "}}"
}' >"$work/deepest.json"
deepest_table=$(
    for region in $(seq 17 -1 1); do echo "region$region members=4032 down=0 limit=2016 room=2016"; done
    echo 'region members=4032 down=0 limit=4000 room=4000'
    echo 'hosts=4096 limited=18'
)
run limits "$work/deepest.json"
check 'eighteen limited groups inside each other' 0 "$deepest_table$newline" ''

# dealt BATCHES: the hosts on standard input, in their order, dealt out over so many batches
dealt() {
    awk -v batches="$1" '{ batch[NR % batches] = batch[NR % batches] " " $1 } END { for (i = 1; i <= batches; i++) printf "batch %d:%s\n", i, batch[i % batches] }'
}

# a pattern with a part for each host and each group; the hosts that are in no limited group are dealt out first
printf '[{"hosts":"%sall,%s%s","tasks":[{"command":"true"}]}]' "$(seq -f 'h%g:' 1000 5095 | tr -d '\n')" "$(seq -f 'region%g,' 17 | tr -d '\n')" "$(seq -f 'rack%g,' 0 1004 | tr -d '\n')region" >"$work/names.json"
deepest_plan=$(
    echo 'plan batches=2 bound=group region17 waiting=4032 room=2016'
    {
        seq -f 'h%g' 5032 5095
        seq -f 'h%g' 1000 5031
    } | dealt 2
)
run plan "$work/deepest.json" "$work/names.json"
check 'a pattern of thousands of parts' 0 "$deepest_plan$newline" ''

# A thousand limited racks side by side, with four hosts each, the last of which is down.
awk -v value='{"down":true}' "$hosts"'
BEGIN {
    printf "{\"all\":{"
    hosts(0, 4)
    printf ",\"children\":{"
    for (rack = 1; rack < 1024; rack++) {
        printf "%s\"rack%d\":{\"vars\":{\"max_down\":2},", (rack > 1 ? "," : ""), rack
        hosts(4 * rack, 4)
        printf "}"
    }
    printf "}}}"
}' >"$work/widest.json"
racks_by_name() {
    seq -f 'rack%g' 1023 | LC_ALL=C sort
}
widest_table=$(
    racks_by_name | sed 's/$/ members=4 down=0 limit=2 room=2/; s/^\(rack1023 members=4\) .*/\1 down=1 limit=2 room=1/'
    echo 'hosts=4096 limited=1023'
)
run limits "$work/widest.json"
check 'a thousand limited racks' 0 "$widest_table$newline" ''
printf '[{"hosts":"all","tasks":[{"command":"true"}]}]' >"$work/all.json"
widest_plan=$(
    echo 'plan batches=3 bound=group rack1023 waiting=3 room=1'
    {
        seq -f 'h%g' 1000 1003
        racks_by_name | sed 's/rack//' | awk '{ for (i = 0; i < 4; i++) print "h" 1000 + 4 * $1 + i }'
    } | grep -v h5095 | dealt 3
)
run plan "$work/widest.json" "$work/all.json"
check 'a plan of a thousand limited racks' 0 "$widest_plan$newline" ''

# one host in as many groups as there may be
everywhere=$(awk 'BEGIN { printf "{\"all\":{\"vars\":{\"max_down\":1},\"children\":{"; for (i = 1; i < 1024; i++) printf "%s\"g%d\":{\"hosts\":{\"a\":null}}", (i > 1 ? "," : ""), i; printf "}}}" }')
printed 'a host in every group' "$everywhere" "all members=1 down=0 limit=1 room=1${newline}hosts=1 limited=1"
finish
