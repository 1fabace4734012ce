#!/bin/sh
# Forty hosts over ssh: examples/forty-hosts starts an sshd for each on the loopback, and a roll, its failures and its going on are what the page there says; a host dies in a step, one answers
# no more, one has another's key; and nothing is left behind. Where there is no sshd, all of that is left out. It needs crates/rollout/out/rollout, and sshd, as Debian's openssh-server has it.
. "$(dirname "$0")/common.sh"
cd "$top" || exit 1
case $rollout in /*) ;; *) rollout=$PWD/$rollout ;; esac
export ROLLOUT="$rollout"
examples=$top/examples/forty-hosts
folder=$work/forty
trap '[ ! -e "$folder" ] || "$examples/down" "$folder"; rm -rf "$work"' EXIT

# refuses WHAT LINE WORD..: the command refuses, with this line
refuses() {
    what=$1
    printf '%s\n' "$2" >"$work/expected"
    shift 2
    "$@" >"$work/found" 2>&1
    if [ $? -eq 1 ] && cmp -s "$work/expected" "$work/found"; then pass; else fail "$what: $(head -n 3 "$work/found")"; fi
}

# holds WHAT WORD..: the command succeeds
holds() {
    what=$1
    shift
    if "$@" >"$work/said" 2>&1; then
        pass
    else
        fail "$what"
        head -n 20 "$work/said"
    fi
}

refuses 'up without a folder' 'up: usage: up FOLDER [NAME..]' "$examples/up"
refuses 'down without a folder' 'down: usage: down FOLDER [NAME..]' "$examples/down"
mkdir "$work/other"
refuses 'down of what up did not make' "down: $work/other was not made by up" "$examples/down" "$work/other"
[ -d "$work/other" ] && pass || fail 'down removes a folder that up did not make'
if [ -z "$(PATH=$PATH:/usr/local/sbin:/usr/sbin command -v sshd)" ]; then
    refuses 'up without sshd' 'up: there is no sshd' "$examples/up" "$folder"
    [ ! -e "$folder" ] && pass || fail 'up makes a folder all the same'
    echo 'left out: no sshd, and so no hosts'
    finish
    exit
fi
refuses 'a folder that is there' "up: $work/other is there already, or can't be made" "$examples/up" "$work/other"

refuses 'a folder whose path means something else' "up: $work/a b has letters that mean something else to ssh" "$examples/up" "$work/a b"
long=$(printf '%041d' 0)
refuses 'a folder with a long path' "up: $work/$long is too long for the paths of sockets" "$examples/up" "$work/$long"
[ ! -e "$work/a b" ] && [ ! -e "$work/$long" ] && pass || fail 'a folder that is refused is made'
refuses 'a host of a folder that is not there' "up: there is no $folder" "$examples/up" "$folder" web01

# ---- the page

# files_of_ssh: what this user has for ssh already
files_of_ssh() {
    ls -ld "$HOME"/.ssh "$HOME"/.ssh/* 2>&1
}
kept=$(files_of_ssh)
if [ -e /tmp/forty-hosts ]; then
    echo 'left out: somebody has hosts in /tmp/forty-hosts, where the page has its own'
else
    LIMIT=600 PAGES=examples/forty-hosts/README.md counting bash "$top/tests/readme.sh" sshd
    [ ! -e /tmp/forty-hosts ] && pass || fail 'the page leaves its folder behind'
fi

# ---- a host that dies in a step, one that answers no more, and one with another's key

holds 'forty hosts' "$examples/up" "$folder"
cd "$folder" || exit 1
cat >steps.json <<'STEPS'
[{"hosts": "web01:web07:web12", "tasks": [{"command": {"argv": ["ssh", "-F", "examples/ssh.conf", "--", "{{ inventory_hostname }}", "echo up; touch began; test ! -e waits || sleep 90"]}}]}]
STEPS
# Each is in another rack, so that they go at once.
touch hosts/web07/disk/waits
kill -STOP "$(cat hosts/web12/pid)"
"$rollout" run -v examples/forty/fleet.json steps.json >"$work/out" 2>"$work/errors" &
run=$!
tries=0
until [ -e hosts/web07/disk/began ] || [ $tries -gt 600 ]; do
    sleep 0.1
    tries=$((tries + 1))
done
began=$(date +%s)
"$examples/down" . web07
wait $run
status=$?
[ $status -eq 2 ] && [ $(($(date +%s) - began)) -lt 60 ] && pass || fail "a host died in its step: status $status, after $(($(date +%s) - began)) s"
kill -CONT "$(cat hosts/web12/pid)"
grep '^web.* state=[^o]' "$work/out" >"$work/found"
cat >"$work/expected" <<'RECAP'
web01 ok=1 changed=1 failed=0 skipped=0 ignored=0 state=updated
web07 ok=0 changed=0 failed=1 skipped=0 ignored=0 state=failed
web12 ok=0 changed=0 failed=1 skipped=0 ignored=0 state=failed
RECAP
holds 'one died, one answers no more' diff "$work/expected" "$work/found"
[ "$(grep -c '^web[01][72] step=1 failed rc=255 ' "$work/errors")" -eq 2 ] && pass || fail "their programs end otherwise: $(grep ' failed ' "$work/errors")"
holds 'it is up again' "$examples/up" . web07
holds 'and is reached' ssh -F examples/ssh.conf -- web07 true
if ssh -F examples/ssh.conf -o ControlPath=none -o Port="$(cat hosts/web05/port)" -- web04 true >"$work/said" 2>&1; then
    fail 'a host with the key of another one is taken for it'
else
    grep -q 'Host key verification failed' "$work/said" && pass || fail "a host with another key: $(tail -n 1 "$work/said")"
fi
refuses 'a host that is not there' 'down: there is no host web99' "$examples/down" . web99

# ---- nothing is left

cd "$top" || exit 1
holds 'all go down' "$examples/down" "$folder"
[ ! -e "$folder" ] && pass || fail 'the folder is left'
sleep 1
left=$(ps -A -o args= | grep -F "$folder" | grep -v grep)
[ -z "$left" ] && pass || fail "these are left: $left"
[ "$kept" = "$(files_of_ssh)" ] && pass || fail "$HOME/.ssh is changed"
finish
