#!/bin/sh
# Wrong files, of which `lint` tells each fault and what helps behind it, and the other commands the first one: a table of them (tests/faults/README.md), worked ones of other scripts, and files at
# the bounds; and where the files come from and the lines go to. Drawn ones stand in tests/drawn.sh, beside the slow program. It needs Python 3.11 and crates/rollout/out/rollout; ROLLOUT is another
# program.
. "$(dirname "$0")/common.sh"
counting python3 "$top/tests/faults/check.py" "$rollout"

inventory=$work/inventory.json
playbook=$work/playbook.json
printf '{"web": {"hosts": {"web1": {"down": 1}}}}' >"$inventory"
printf '[{"hosts": "web", "tasks": [{"command": "true", "when": "web_size > 3"}]}]' >"$playbook"
down='rollout: 205 BadDown at=web/hosts/web1/down'
when='rollout: 501 BadToken step=1 key=when at=9'

# without_help: the last run's output, without the lines that help; `helped` counts these.
without_help() {
    helped=$(sed '/^faults=/,$d' "$work/out" | grep -c '^  [^ ]')
    sed -i '/^  [^ ]/d' "$work/out"
}

run lint "$inventory" "$playbook"
without_help
check 'faults of both files' 1 "$down$newline$when${newline}faults=2$newline" ''
run lint "$inventory" "$playbook" --allow no-hosts,undefined-name
without_help
check 'rules that are suppressed suppress no fault' 1 "$down$newline$when${newline}faults=2$newline" ''
run lint "$inventory"
without_help
check 'the inventory alone' 1 "$down${newline}faults=1$newline" ''

# A pipe is read once: lint helps all the same, and the others say nothing behind the fault.
cat "$inventory" | "$rollout" lint /dev/stdin "$playbook" >"$work/out" 2>"$work/errors"
status=$?
without_help
check 'an inventory from a pipe' 1 "$down$newline$when${newline}faults=2$newline" ''
[ "$helped" -eq 2 ] && pass || fail "an inventory from a pipe: $helped lines help"
cat "$inventory" | "$rollout" plan -v /dev/stdin "$playbook" >"$work/out" 2>"$work/errors"
status=$?
check 'a plan of an inventory from a pipe' 1 '' "$down$newline"
cat "$inventory" | "$rollout" limits -v /dev/stdin >"$work/out" 2>"$work/errors"
status=$?
check 'limits of an inventory from a pipe' 1 '' "$down$newline"

# Only the file that has the fault is to be read once more.
printf '{"web": {"hosts": {"web1": null}}}' >"$work/right.json"
cat "$work/right.json" | "$rollout" plan -v /dev/stdin "$playbook" >"$work/out" 2>"$work/errors"
status=$?
[ "$status" -eq 1 ] && [ ! -s "$work/out" ] && [ "$(head -n 1 "$work/errors")" = "$when" ] && [ "$(sed 1d "$work/errors" | grep -c '^  [^ ]')" -eq 1 ] && [ "$(wc -l <"$work/errors")" -eq 2 ] && pass ||
    fail "a fault of the playbook, and an inventory from a pipe: status $status, $(cat "$work/errors")"
cat "$playbook" | "$rollout" plan -v "$work/right.json" /dev/stdin >"$work/out" 2>"$work/errors"
status=$?
check 'a fault of a playbook from a pipe' 1 '' "$when$newline"
# A name in a pattern is compared with those of all groups and all hosts, from the first to the last.
printf '{"web": {"hosts": {"alpha": null, "omega": null}}, "zoo": null}' >"$work/names.json"
for names in 'alpah alpha' 'omgea omega' 'wbe web' 'zooo zoo'; do
    set -- $names
    printf '[{"hosts": "%s", "tasks": [{"command": "true"}]}]' "$1" >"$work/pattern.json"
    run plan -v "$work/names.json" "$work/pattern.json"
    [ "$status" -eq 1 ] && [ "$(head -n 1 "$work/errors")" = "rollout: 304 NoSuchName name=$1" ] && sed -n 2p "$work/errors" | grep -q "^  0/hosts \"$1\": did you mean $2?" && pass || fail "a name close to $2: $(cat "$work/errors")"
done

# What keeps a file from being read goes to standard error, alone.
run lint "$inventory" "$work/missing"
check 'a playbook that is not there, beside an inventory with faults' 1 '' "rollout: 902 File name=$work/missing$newline"
head -c 16777217 /dev/zero >"$work/large"
run lint "$inventory" "$work/large"
check 'a playbook that is too large' 1 '' "rollout: 903 InputTooLarge$newline"

for command in 'run -v' 'rehearse -v'; do
    # shellcheck disable=SC2086
    run $command "$inventory" "$playbook"
    [ "$(head -n 1 "$work/errors")" = "$down" ] && [ "$(wc -l <"$work/errors")" -eq 2 ] && [ "$status" -eq 1 ] && pass || fail "$command: status $status, $(cat "$work/errors")"
done
for command in plan run rehearse; do
    run "$command" "$inventory" "$playbook"
    check "$command says the first fault alone" 1 '' "$down$newline"
done
if [ -w /dev/full ]; then
    "$rollout" lint "$inventory" "$playbook" >/dev/full 2>"$work/errors" </dev/null
    status=$?
    : >"$work/out"
    check 'an output that takes nothing' 1 '' "rollout: 904 Write written=0$newline"
fi
finish
