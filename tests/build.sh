#!/bin/sh
# Proves what the program stands on, builds the program, leaves it as crates/rollout/out/rollout, and runs it on the README's first example. Where
# nothing changed since, it is only run.
#
# `rt run` in crates/rollout takes one crate after the other, and most crates keep fewer than two processors at work. `rt ci` has several crates at work, those
# first behind which the longest way of others waits, and up to four processors at one where no other can begin. (`rt all check --jobs 4` has several at work
# too, but one processor a crate, and that long way is what the build takes.) So `rt ci` is called in a copy of those crates alone, without their edits; none
# of them has tests of its own. What it proves is kept beside the kit, by the sums of all that was read: a later `make` and the gate prove only what
# changed. `rt check` takes nothing from it, and begins by itself.
. "$(dirname "$0")/crates.sh"

program=crates/rollout/out/rollout
names=$(echo $(crates_by below rollout))

# What the program is made from, and the program itself.
made_from() {
    {
        rt version
        cat HANDLES
        for name in $names; do
            grep "^$name:" crates.txt
            find "crates/$name" \( -name out -o -name must-fail -o -name edits \) -prune -o -type f -exec sha256sum {} +
        done
        sha256sum "$program"
    } 2>/dev/null | LC_ALL=C sort | sha256sum
}

if [ -x "$program" ] && [ "$(made_from)" = "$(cat "$program.made" 2>/dev/null)" ]; then
    "$program" limits examples/two-racks.json
    exit
fi

copy=$work/copy
mkdir -p "$copy/.git"
cp HANDLES "$copy"
for name in $names; do
    mkdir -p "$copy/crates/$name"
    grep "^$name:" crates.txt >>"$copy/crates.txt"
    for part in "crates/$name"/*; do
        case ${part##*/} in out | must-fail | edits) ;; *) cp -R "$part" "$copy/crates/$name" ;; esac
    done
done

# ready 'NAME ..': where these crates are proved, those that can be proved next: all that they stand on is.
ready() {
    awk -v proved="$1" '
        BEGIN { for (n = split(proved, list, " "); n > 0; n--) is[list[n]] }
        { name = $1; sub(/:.*/, "", name); sub(/^[^:]*:/, ""); uses[name] = $0; order[++count] = name }
        END {
            for (i = 1; i <= count; i++) {
                waits = order[i] in is
                for (n = split(uses[order[i]], list, " "); n > 0; n--) waits = waits || (list[n] in uses) && !(list[n] in is)
                if (!waits) { printf "%s%s", between, order[i]; between = ", " }
            }
        }' crates.txt
}

# A line a crate, with the minutes and seconds since the beginning; where a minute passes without one, what all others wait for.
began=$(date +%s)
said=$began
count=0
proved=
all=$(echo $names | wc -w)
echo "$all crates to prove, with $(nproc) processors; what an earlier run proved on this machine is kept. Where nothing was, it takes up to two hours with four"
echo 'processors. `make look` builds the program without proofs in four minutes.'
cd "$copy" || exit 1
{
    while sleep 2; do echo 'a while'; done &
    ticks=$!
    rt ci 2>&1
    status=$?
    kill "$ticks"
    echo "ended $status"
} | while IFS= read -r line; do
    now=$(date +%s)
    seconds=$((now - began))
    case $line in
    'a while')
        if [ $((now - said)) -ge 60 ]; then
            said=$now
            printf '%3d:%02d  waiting for %s\n' $((seconds / 60)) $((seconds % 60)) "$(ready "$proved")"
        fi
        continue
        ;;
    esac
    printf '%s\n' "$line" >>"$work/log"
    case $line in
    'rt: '*' proved' | 'rt: '*' is kept: '*) ;;
    *) continue ;;
    esac
    name=${line#rt: }
    name=${name%% *}
    case $name in *:) continue ;; esac
    count=$((count + 1))
    proved="$proved $name"
    said=$now
    line=${line#rt: }
    printf '%3d:%02d  %2d of %d  %s\n' $((seconds / 60)) $((seconds % 60)) "$count" "$all" "${line%%: an earlier run*}"
done
cd "$top" || exit 1

if ! grep -qx 'ended 0' "$work/log" || [ ! -x "$copy/$program" ]; then
    grep -E 'error: |: not proved|: no proof' "$work/log" | head -n 20
    grep -v '^so far: \|^statements ' "$work/log" | tail -n 40
    echo 'FAILED: the program is not built' >&2
    exit 1
fi
mkdir -p crates/rollout/out
cp "$copy/$program" "$program.new"
mv "$program.new" "$program"
made_from >"$program.made"
"$program" limits examples/two-racks.json
