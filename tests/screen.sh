#!/bin/sh
# What a terminal shows while a run goes on, without `-v`: one line that is written over, and each failure above it; what it shows when the run is over; that nothing of
# that goes anywhere else; and where full groups are coloured. The terminals are Python's, and what they show is made out by tests/programs/screen.py. It needs a C compiler, Python 3 and
# crates/rollout/out/rollout.
. "$(dirname "$0")/common.sh"
. "$top/tests/programs/steps.sh"
TERM=xterm-256color
unset COLUMNS
export TERM

# shown COLUMNS WORD..: runs `rollout run` with a terminal of so many columns; what it shows in the end is in `screen`, the bytes in `raw`, the recap in `out`
shown() {
    columns=$1
    shift
    timeout -k 5 "$limit" python3 "$helpers/screen.py" "$columns" "$work/out" "$work/raw" "$rollout" run "$@" >"$work/screen" 2>"$work/faults" </dev/null
    status=$?
}
# over: each text of the line that is written over, one behind the other
over() {
    python3 -c '
import re, sys
for text in re.findall(r"\r([^\r\n\x1b]+)\x1b\[K", open(sys.argv[1], encoding="utf-8", newline="\n").read()):
    print(text)
' "$work/raw"
}
# above: the lines of what the terminal shows that are told while the run goes on, without their times
above() {
    sed -n 's/ ms=[0-9]* name=/ ms=N name=/; /^[^ ]* step=[0-9]* \|^  [^ ]* \(stdout\|stderr\|error\|warning\): \|^descriptors=/p' "$work/screen"
}
# moves: whether what is in this file would move a terminal about
moves() {
    grep -q "$(printf '[\033\r]')" "$1"
}

# ---- sixty hosts, of which three fail

hosts 60 >"$work/hosts.json"
printf '[{"hosts":"all","serial":10,"tasks":[{"name":"look","command":"sleep 0.02"},{"name":"try","command":{"argv":%s}}]}]' \
    "$(shell 'case {{ inventory_hostname }} in h0007|h0023|h0041) echo "{{ inventory_hostname }} is bad"; echo oops >&2; exit 3;; esac')" >"$work/play.json"
run run --quiet "$work/hosts.json" "$work/play.json"
cp "$work/out" "$work/recap"
[ ! -s "$work/errors" ] && pass || fail 'something is told where nobody asks'
failures=
for host in h0007 h0023 h0041; do
    failures="$failures$host step=2 failed rc=3 ms=N name=try
  $host stdout: $host is bad
  $host stderr: oops
"
done
for columns in 80 40; do
    shown $columns --forks 5 "$work/hosts.json" "$work/play.json"
    [ "$status" -eq 2 ] && pass || fail "a terminal of $columns columns: status $status, $(cat "$work/faults")"
    cmp -s "$work/out" "$work/recap" && pass || fail "a terminal of $columns columns: another recap"
    [ "$(above | LC_ALL=C sort)" = "$(printf %s "$failures" | LC_ALL=C sort)" ] && pass || fail "a terminal of $columns columns shows: $(above | tr '\n' '|')"
    # What follows the recap says why each is down.
    [ "$(grep -c '^h00[0-9]* failed at step 2 (try): rc=3$' "$work/screen")" -eq 3 ] && tail -n 1 "$work/screen" | grep -q '^next: ' && pass || fail "a terminal of $columns columns shows in the end: $(tail -n 2 "$work/screen" | tr '\n' '|')"
    over >"$work/over"
    grep -q '^batch [1-6] of [1-6], [0-9]* of 60 updated' "$work/over" && pass || fail "a terminal of $columns columns: the line is '$(tail -n 1 "$work/over")'"
    # Each of the plans has ten hosts a batch, so there will be six of them from the first one on.
    grep -qv '^batch [1-6] of 6, ' "$work/over" && fail "a terminal of $columns columns: other batches are ahead: $(grep -v '^batch [1-6] of 6, ' "$work/over" | head -n 1)" || pass
    # It counts forth, is there for each batch, and is gone in the end.
    awk '{ split($0, part, /[ ,]+/); if (part[2] < batch || part[5] < updated) bad = 1; batch = part[2]; updated = part[5]; if (!(batch in seen)) count++; seen[batch] }
        END { exit bad || count != 6 || updated < 40 }' "$work/over" && pass || fail "a terminal of $columns columns: the line doesn't count forth: $(tail -n 3 "$work/over" | tr '\n' '|')"
    grep -q '^batch ' "$work/screen" && fail "a terminal of $columns columns: the line is left: $(tail -n 1 "$work/screen")" || pass
    [ "$(wc -l <"$work/over")" -ge 12 ] && pass || fail "a terminal of $columns columns: the line is written $(wc -l <"$work/over") times"
    # What is written last takes the line away: behind it there is no text on it.
    awk -v columns="$columns" 'length($0) >= columns { bad = 1 } length($0) == columns - 1 { full++ } END { exit bad || (columns == 40 && !full) }' "$work/over" && pass || fail "a terminal of $columns columns: $(awk '{ print length($0) }' "$work/over" | sort -n | tail -n 1) characters"
done
shown 80 --forks 5 "$work/hosts.json" "$work/play.json"
over >"$work/over"
grep -q ', on h00[0-9][0-9] h00[0-9][0-9] +3, ' "$work/over" && pass || fail 'no five hosts are named'
grep -q ', [1-3] failed' "$work/over" && pass || fail 'no failure is counted'
grep ' +[0-9]' "$work/over" | grep -vq ' +[1-3], ' && fail "more hosts are named than there are forks: $(grep ' +[0-9]' "$work/over" | grep -v ' +[1-3], ' | head -n 1)" || pass
# Who has worked longest stands first: of four hosts the first one ends long before the others.
printf '{"all":{"hosts":{"a":null,"b":null,"c":null,"d":null}}}' >"$work/four.json"
printf '[{"hosts":"all","tasks":[{"command":{"argv":%s}}]}]' "$(shell 'test {{ inventory_hostname }} = a || sleep 0.7')" >"$work/four-play.json"
shown 80 --forks 4 "$work/four.json" "$work/four-play.json"
over >"$work/over"
{ grep -q ', on a b +2, ' "$work/over" && grep -q ', on b c +1, ' "$work/over"; } && pass || fail "of four hosts the first one ended: $(tr '\n' '|' <"$work/over")"
# Other widths: one that has no room for anything, the widest, and one that the terminal doesn't know.
for columns in 1 2 10 500 0; do
    shown $columns --forks 5 "$work/hosts.json" "$work/play.json"
    what="a terminal of $columns columns"
    if [ "$columns" -eq 0 ]; then
        grep -q '^[1-9][0-9]* characters in 0 columns' "$work/faults" && status=2
    fi
    [ "$status" -eq 2 ] && cmp -s "$work/out" "$work/recap" && pass || fail "$what: status $status, $(head -n 1 "$work/faults")"
done
# With several plays it says which.
printf '[{"hosts":"all","serial":30,"tasks":[{"command":"sleep 0.02"}]},{"hosts":"all","serial":20,"tasks":[{"command":"sleep 0.02"}]}]' >"$work/plays.json"
shown 80 "$work/hosts.json" "$work/plays.json"
over >"$work/over"
{ grep -q '^play 1 of 2, batch 2 of 2, ' "$work/over" && grep -q '^play 2 of 2, batch 3 of 3, ' "$work/over"; } && pass || fail "two plays: $(tail -n 1 "$work/over")"
[ ! -s "$work/screen" ] && pass || fail "two plays that finished: the terminal shows '$(cat "$work/screen")'"

# ---- what a terminal is told nothing of

# without WHAT WORD..: nothing moves the cursor, nothing is written over, and the recap is the same
without() {
    what=$1
    shift
    shown 80 "$@"
    cmp -s "$work/out" "$work/recap" && pass || fail "$what: another recap"
    moves "$work/raw" && fail "$what: the cursor is moved" || pass
    grep -q '^batch ' "$work/raw" && fail "$what: the line is written" || pass
}
without 'asked to be quiet' --quiet "$work/hosts.json" "$work/play.json"
[ ! -s "$work/raw" ] && pass || fail "asked to be quiet: $(head -n 1 "$work/raw")"
TERM=dumb
without 'a dumb terminal' "$work/hosts.json" "$work/play.json"
[ "$(above | LC_ALL=C sort)" = "$(printf %s "$failures" | LC_ALL=C sort)" ] && tail -n 1 "$work/screen" | grep -q '^next: ' && pass || fail "a dumb terminal: $(head -n 2 "$work/screen" | tr '\n' '|')"
TERM=xterm-256color
without 'told of line by line' -v "$work/hosts.json" "$work/play.json"
grep -q '^closed ' "$work/raw" && pass || fail 'told of line by line: nothing is told'
for flag in --quiet -v; do
    run run $flag "$work/hosts.json" "$work/play.json"
    moves "$work/errors" && fail "a file of errors ${flag}: the cursor is moved" || pass
    { timeout -k 5 "$limit" "$rollout" run $flag "$work/hosts.json" "$work/play.json" 2>&1 >"$work/out" </dev/null; } | cat >"$work/piped"
    moves "$work/piped" && fail "a pipe of errors ${flag}: the cursor is moved" || pass
    cmp -s "$work/out" "$work/recap" && pass || fail "a pipe of errors ${flag}: another recap"
    [ "$flag" = -v ] || { [ ! -s "$work/errors" ] && [ ! -s "$work/piped" ]; } && pass || fail 'something is told where nobody asks'
done

# ---- full groups

# Where standard output is a terminal full groups are coloured, as long as neither it nor the line nor `NO_COLOR` says otherwise.
echo '{"g":{"vars":{"max_down":1},"hosts":{"a":null,"b":null}}}' >"$work/pair.json"
echo '[{"hosts":"g","tasks":[{"command":"true"}]}]' >"$work/pair-play.json"
# tabled WHAT CELL WORD..: behind these words `plan --groups` shows the full cells so
tabled() {
    what=$1 cell=$2
    shift 2
    timeout -k 5 "$limit" python3 "$helpers/screen.py" 80 "$work/out" "$work/raw" /bin/sh -c 'exec "$@" >&2' sh "$@" "$rollout" plan "$work/pair.json" "$work/pair-play.json" --groups $words \
        >"$work/screen" 2>"$work/faults" </dev/null
    printf 'plan batches=2 bound=group g waiting=2 room=1\nbatch 1: a\nbatch 2: b\n     now   1   2\ng* 1 0/1 %s %s\n' "$cell" "$cell" >"$work/wanted"
    cmp -s "$work/raw" "$work/wanted" && pass || { fail "full groups, $what"; diff "$work/wanted" "$work/raw" | cat -v | head -8; }
}
red=$(printf '\033[1;31m1/1\033[0m')
for words in '' --color=auto '--color never --color auto' --color=always; do
    tabled "a terminal, '$words'" "$red" env -u NO_COLOR
done
words=
tabled 'a NO_COLOR that is empty' "$red" env NO_COLOR=
tabled 'NO_COLOR' 1/1 env NO_COLOR=1
tabled 'NO_COLOR, and a long one' 1/1 env NO_COLOR=123456789
tabled 'a dumb terminal' 1/1 env -u NO_COLOR TERM=dumb
words='--color always --color=never'
tabled never 1/1 env -u NO_COLOR
words='--color always'
tabled 'always, over NO_COLOR' "$red" env NO_COLOR=1
tabled 'always, over a dumb terminal' "$red" env -u NO_COLOR TERM=dumb
words='--color auto'
tabled 'NO_COLOR beside auto' 1/1 env NO_COLOR=1

# Standard output decides it, whatever standard error is.
printf 'plan batches=2 bound=group g waiting=2 room=1\nbatch 1: a\nbatch 2: b\n     now   1   2\ng* 1 0/1 1/1 1/1\n' >"$work/wanted"
timeout -k 5 "$limit" python3 "$helpers/screen.py" 80 "$work/table" "$work/raw" /bin/sh -c 'unset NO_COLOR; exec "$@"' sh "$rollout" plan "$work/pair.json" "$work/pair-play.json" --groups >"$work/screen" 2>"$work/faults" </dev/null
cmp -s "$work/table" "$work/wanted" && [ ! -s "$work/raw" ] && pass || fail "full groups, in a file, and errors at a terminal: $(cat -v "$work/table" "$work/raw" | tail -n 3 | tr '\n' '|')"

# ---- no words

# Whoever starts the program without words at a terminal is told what is read; nobody else is.
note='note: an inventory is read from standard input, to its end (Ctrl-D); rollout --help lists the commands'
# typed WHAT ON_SCREEN WORD..: the terminal is standard input, and this is what it shows
typed() {
    what=$1 seen=$2
    shift 2
    TYPED='{}' timeout -k 5 "$limit" python3 "$helpers/screen.py" 200 "$work/table" "$work/raw" "$@" >"$work/out" 2>"$work/errors"
    status=$?
    [ "$(cat "$work/table")" = 'hosts=0 limited=0' ] && pass || fail "$what: $(cat "$work/table")"
    check "$what" 0 "$seen" ''
}
typed 'no words at a terminal' "$note$newline" "$rollout"
typed 'no words, and errors go to a file' '' /bin/sh -c 'exec "$@" 2>"$0"' "$work/said" "$rollout"
[ ! -s "$work/said" ] && pass || fail "no words, and errors go to a file: $(cat "$work/said")"
typed 'an inventory that is named' '' "$rollout" limits /dev/stdin
input=$work/empty.json
echo '{}' >"$input"
run
check 'no words, and no terminal' 0 "hosts=0 limited=0$newline" ''
input=/dev/null

# ---- texts that would move the cursor

printf '{"all":{"hosts":{"-dash":null,"a":{"program":"/no/such/\\u001b[2Jprogram\\r\\n"},"b":null}}}' >"$work/odd.json"
printf '[{"hosts":"-dash","tasks":[{"name":"x\\u001b[2J\\r\\u009b1Ay","command":{"argv":["sh","-c","printf %s; exit 1","{{ inventory_hostname }}"]}}]},{"hosts":"a:b","tasks":[{"command":"true"}]}]' \
    "'\\\\033[2J\\\\033[H\\\\rover\\\\b\\\\b\\\\007 \\\\302\\\\233 \\\\342\\\\200\\\\256txt\\\\nnext'" >"$work/odd-play.json"
shown 80 "$work/odd.json" "$work/odd-play.json"
[ "$status" -eq 4 ] && pass || fail "outputs that move the cursor: status $status, $(head -n 2 "$work/faults" | tr '\n' '|')"
above >"$work/above"
cat >"$work/wanted" <<'WANTED'
  -dash warning: its name stands where an option may: write -- before it
-dash step=1 failed rc=1 ms=N name=x?[2J??1Ay
  -dash stdout: ?[2J?[H?over??? ? ?txt
  -dash stdout: next
WANTED
cmp -s "$work/above" "$work/wanted" && pass || { fail 'outputs that move the cursor'; diff "$work/wanted" "$work/above" | cat -A | head -8; }
printf '[{"hosts":"a:b","tasks":[{"name":"start","command":{"argv":["{{ program }}"]}}]}]' >"$work/odd-play.json"
shown 80 "$work/odd.json" "$work/odd-play.json"
[ "$status" -eq 4 ] && pass || fail "a program whose name moves the cursor: status $status, $(head -n 2 "$work/faults" | tr '\n' '|')"
{ above | grep -q '^a step=1 failed not-started ms=N name=start$' && above | grep -q '^  a error: /no/such/?\[2Jprogram' && above | grep -q '^b step=1 failed undefined=program name=start$'; } &&
    pass || fail "a program whose name moves the cursor: $(above | tr '\n' '|')"
finish
