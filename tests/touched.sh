#!/bin/sh
# What a developer runs before a merge:
#
#     make touched SINCE=REV
#
# It proves the crates that changed since REV, in the working tree too, and those above them, over what earlier checks kept; runs their tests; tries their
# edits of must-fail/; builds the program where it is among them, or missing; and runs the scripts on it.
#
# Tests are run as `rt try --test` runs them, without a proof: what a test shows it shows by running, and proving the tests of all crates takes nearly as long
# as proving the crates. So rows of memory.sh and workers.sh that want a proved program of tests are passed over where that isn't built; the gate has all.
. "$(dirname "$0")/crates.sh"

# part NAME: how long it took since the last one.
part() {
    now=$(date +%s)
    echo "$1: $(((now - began) / 60)) min $(((now - began) % 60)) s"
    began=$now
}

if [ -z "${SINCE:-}" ]; then
    fail 'say since when: make touched SINCE=main'
    finish
    exit 1
fi
began=$(date +%s)
names=$(touched_since "$SINCE") || exit 1
names=$(echo $names)
program=crates/rollout/out/rollout
if [ -z "$names" ] && git diff --quiet "$SINCE" && [ -z "$(git ls-files --others --exclude-standard)" ]; then
    echo "nothing changed since $SINCE"
    finish
    exit
fi
echo "$(echo $names | wc -w) crates: $names"

if [ -n "$names" ]; then
    prove "$names"
    for name in $names; do
        if grep -qx "$name: ok" "$work/proofs"; then
            passed=$((passed + 1))
        else
            fail "$name is not proved"
        fi
    done
    part 'proofs'
    if [ "$failed" -gt 0 ]; then
        tail -n 60 "$work/proofs"
        finish
        exit 1
    fi

    # Several at once: `rt try` waits for no other.
    with_tests=$(for name in $names; do grep -rlq '#\[test\]' "crates/$name/src" && echo "$name"; done)
    printf '%s\n' $with_tests | xargs -r -P "$jobs" -I NAME sh -c 'cd crates/NAME && rt try --test >"$0/try.NAME" 2>&1 && : >"$0/tried.NAME"' "$work"
    for name in $with_tests; do
        if [ -e "$work/tried.$name" ]; then
            passed=$((passed + 1))
        else
            tail -n 20 "$work/try.$name"
            fail "the tests of $name"
        fi
    done
    part 'tests'

    try_edits "$names"
    part 'edits'
fi

case " $names " in *' rollout '*) build=yes ;; *) build= ;; esac
if [ -n "$build" ] || [ ! -x "$program" ]; then
    if (cd crates/rollout && rt run -- limits ../../examples/two-racks.json) >"$work/build" 2>&1; then
        passed=$((passed + 1))
    else
        tail -n 20 "$work/build"
        fail 'the program is not built'
    fi
    part 'program'
fi

scripts='cli inventories playbooks words check expect lint explain broken memory programs children services stops supervise telling noted rehearsal drawn readme examples deb installed completions house'
case " $names " in *' roll_core '* | *' ticket_channel '*) scripts="$scripts once" ;; esac
case " $names " in *' pool_tests '*) scripts="$scripts workers" ;; esac
sh tests/gate.sh $scripts >"$work/scripts" 2>&1
counts=$(tail -n 1 "$work/scripts" | sed -n 's/^\([0-9]*\) passed, \([0-9]*\) failed$/\1 \2/p')
set -- ${counts:-0 1}
[ "$2" -eq 0 ] || grep -v 'allocations refused in turn$' "$work/scripts"
passed=$((passed + $1))
failed=$((failed + $2))
part 'scripts'
finish
