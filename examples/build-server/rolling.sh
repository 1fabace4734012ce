#!/bin/sh
# A roll that nobody watches, as cron starts it:
#
#     sh rolling.sh INV PLAY FOLDER
#
# Of each run stand in FOLDER, under the time at which it began, its journal, recap and log, and its inventory as it was then. A new one begins only where the one before has
# ended with all well: whoever that one left down is marked nowhere, and would not be counted. `touch FOLDER/stop` ends a run before its next batch. It prints nothing
# where all went well. Another program than the `rollout` of PATH is called by the name in ROLLOUT.
set -u
if [ $# -ne 3 ]; then
    echo "usage: sh rolling.sh INV PLAY FOLDER" >&2
    exit 2
fi
inventory=$1
playbook=$2
folder=$3
rollout=${ROLLOUT:-rollout}
mkdir -p "$folder" || exit 2

# their names are times: the last one is the latest
last=$(find "$folder" -name '*.journal' | LC_ALL=C sort | tail -n 1)
if [ -n "$last" ]; then
    before=${last%.journal}
    stand=$("$rollout" state -- "$before.inventory" "$last")
    status=$?
    if [ "$status" -ne 0 ]; then
        echo "not begun: the run before goes on, or has ended with status $status"
        echo "$stand" | grep -v ' state=updated$'
        echo "next: mend what is down, then rollout run --resume $last --up HOSTS $inventory $playbook"
        exit 1
    fi
fi

name=$folder/$(date +%Y-%m-%dT%H-%M-%S)
cp -- "$inventory" "$name.inventory" || exit 2
"$rollout" run -v --stop-file "$folder/stop" --journal "$name.journal" -- "$inventory" "$playbook" >"$name.recap" 2>"$name.log"
status=$?
if [ "$status" -ne 0 ]; then
    echo "ended with status $status"
    grep '^rollout: ' "$name.log"
    grep '^end \| state=' "$name.recap" | grep -v ' state=updated$'
    echo "all that happened stands in $name.log"
fi
exit "$status"
