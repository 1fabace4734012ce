#!/bin/sh
# What `explain` prints of each fault, and of each lint rule: its row of docs/FAULTS.md or docs/NOTES.md, and what stands there under its heading, cut out here by awk. It needs
# crates/rollout/out/rollout.
. "$(dirname "$0")/common.sh"
faults=$top/docs/FAULTS.md
notes=$top/docs/NOTES.md

# entry WORD PAGE: what the page has of this fault or rule.
entry() {
    sed -n "s/^| \[$1\]([^)]*) | \([^|]*\) | \(.*\) |\$/$1 \1: \2/p" "$2"
    echo
    # An empty line is printed before the next one that isn't, so that none stands at the end.
    awk -v word="$1" '
        /^```/ { code = !code }
        /^#/ && !code { inside = $0 ~ "^### (.*, )?" word "( |$)"; below = 0; next }
        !inside { next }
        /^$/ { below = below && 1; empty = 1; next }
        { if (empty && below) print ""; empty = 0; below = 1; print }
    ' "$2"
}

numbers=$(sed -n 's/^| \[\([0-9]*\)\](.*/\1/p' "$faults")
for number in $numbers; do
    run explain "$number"
    check "the fault $number" 0 "$(entry "$number" "$faults")$newline" ''
done
[ "$(echo $numbers | wc -w)" -gt 40 ] && pass || fail 'few faults are found on the page'
kinds=$(sed -n 's/^| \[\([a-z-]*\)\](.*/\1/p' "$notes")
for kind in $kinds; do
    run explain "$kind"
    check "the rule $kind" 0 "$(entry "$kind" "$notes")$newline" ''
    printf '{"a":{"hosts":{"h":null}}}' >"$work/empty"
    run lint "$work/empty" --allow "$kind"
    check "the rule $kind, suppressed" 0 "notes=0$newline" ''
done
[ "$(echo $kinds | wc -w)" -eq 20 ] && pass || fail 'other than 20 lint rules are found on the page'

# By hand.
run explain 301
check 'one of them, by hand' 0 '301 NotNested: two limited groups share a host, and neither contains the other

```
$ rollout limits examples/crossing-racks.json
rollout: 301 NotNested host=web-1 first=rack9 second=row1
```

The host is in both groups, both have a limit, and neither contains the other.

- If the host is in one of them by mistake, remove it there.
- If one group has all hosts of the other, nest the other below it
  ([racks and services](FROM_ANSIBLE.md#racks-and-services)).
- Otherwise keep `max_down` on one kind of group, such as racks, for every pair that `lint` reports. Remove
  it from the other kind, or nest parts of that kind below the first.
' ''
run explain idle-step
[ "$(head -n 1 "$work/out")" = "idle-step at=PATH: the \`when\` of the step holds on no waiting host" ] && pass || fail "the rule idle-step, by hand: $(head -n 1 "$work/out")"
run explain 504
said=$(cat "$work/out")
run explain 503
if [ "$(sed 1d "$work/out")" = "$(echo "$said" | sed 1d)" ]; then pass; else fail 'two faults of one heading have different texts'; fi

bad() {
    what=$1
    shift
    run "$@"
    if [ "$status" -eq 1 ] && [ ! -s "$work/out" ] && [ "$(head -n 1 "$work/errors")" = 'rollout: 901 BadLine' ]; then pass; else fail "$what: status $status"; fi
}
for word in 0 1 100 106 300 905 999 0301 65535 65536 4294967397 -1 x memory BadName 301x ' 301' '' no-host no-hostss No-Hosts no_hosts NoHosts 'no-hosts ' no-hosts,near-key 301,302 'zero-limit group=G'; do
    bad "no number of a fault and no kind of notes, '$word'" explain "$word"
done
# What there is stands behind the line of the fault, in one line.
run explain undefined-nam
check 'a word that is nearly a kind' 1 '' "rollout: 901 BadLine${newline}error: explain goes with the number of a fault, as 302, or a kind of notes: $(echo $kinds | sed 's/ /, /g')$newline"
bad 'no number' explain
bad 'two numbers' explain 301 302
bad 'an option of another command' explain 301 --forecast
bad 'behind the word that ends options, two numbers' explain -- 301 302
run explain -- 301
check 'behind the word that ends options' 0 "$(entry 301 "$faults")$newline" ''
run explain shell-word --
check 'before the word that ends options' 0 "$(entry shell-word "$notes")$newline" ''

if [ -w /dev/full ]; then
    "$rollout" explain 301 >/dev/full 2>"$work/errors"
    status=$?
    : >"$work/out"
    check 'an output that takes nothing' 1 '' "rollout: 904 Write written=0$newline"
fi
finish
