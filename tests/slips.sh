#!/bin/sh
# Which of 30 slips `lint` tells, and that it tells nothing of 12 correct pairs but what is known. Each folder of tests/slips has an inventory, a playbook, and what its operator meant; tests/slips/told.txt
# has the rules that are printed of each: none of a slip that isn't told. They were written before the rules were read. It needs crates/rollout/out/rollout.
. "$(dirname "$0")/common.sh"

slips=$top/tests/slips
ls -d "$slips"/[0-9]* "$slips"/pairs/[0-9]* | sed "s|^$slips/||" >"$work/names"
[ "$(sed 's/ .*//' "$slips/told.txt")" = "$(cat "$work/names")" ] && pass || fail 'tests/slips/told.txt has other names than the folders'
while read -r name expected; do
    run lint "$slips/$name/inventory.json" "$slips/$name/playbook.json"
    rules=$(sed '/^notes=/,$d; s/ .*//; /^down-hosts$/d; /^one-failure$/d' "$work/out" | sort -u | paste -sd ' ' -)
    if [ "$rules" = "$expected" ] && [ ! -s "$work/errors" ]; then pass; else fail "$name: '$rules', expected '$expected'"; fi
done <"$slips/told.txt"
finish
