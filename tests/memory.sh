#!/bin/sh
# Refuses each allocation in turn, of the built program: what it answers is what it answers with all memory, or want of memory and nothing else; of a run
# the recap of what it came to goes out beside that. The opening of a file is refused for want of memory too, as a system does that has none left, and the start of a
# thread. Each recap of a run that broke off is held against what the programs wrote down of their begins and ends (tests/programs/kept.py), and the journal of one that is kept
# against its recap.
# Those of the tests too that hold whatever one allocation is refused. It needs a C compiler, Python 3, crates/rollout/out/rollout, and
# what rt ci (or rt test) leaves in the out/ of each crate named below. Those that left nothing are passed over, but where ALL_BUILT is set.
. "$(dirname "$0")/common.sh"
quietly
helpers=$top/tests/programs

cat >"$work/refuse.c" <<'C'
#define _GNU_SOURCE
#include <dlfcn.h>
#include <errno.h>
#include <fcntl.h>
#include <stdarg.h>
#include <stdatomic.h>
#include <stdlib.h>
#include <string.h>
#include <unistd.h>

/* What is started has none of this. */
__attribute__((constructor)) static void alone(void) {
    unsetenv("LD_PRELOAD");
}

/* Whether this call is the one that the variable numbers, from 1. Where it is, the file REFUSED is made. */
static int is_chosen(const char *variable, atomic_long *calls) {
    const char *number = getenv(variable);
    if (!number || atomic_fetch_add(calls, 1) + 1 != atol(number)) return 0;
    const char *made = getenv("REFUSED");
    if (made) close(open(made, O_CREAT | O_WRONLY, 0600));
    return 1;
}

/* Whether this allocation is refused. */
static int refused(void) {
    static atomic_long calls;
    return is_chosen("REFUSE", &calls);
}

void *malloc(size_t size) {
    static void *(*real)(size_t);
    if (!real) real = (void *(*)(size_t))dlsym(RTLD_NEXT, "malloc");
    return refused() ? NULL : real(size);
}

void *realloc(void *old, size_t size) {
    static void *(*real)(void *, size_t);
    if (!real) real = (void *(*)(void *, size_t))dlsym(RTLD_NEXT, "realloc");
    return refused() ? NULL : real(old, size);
}

void *aligned_alloc(size_t alignment, size_t size) {
    static void *(*real)(size_t, size_t);
    if (!real) real = (void *(*)(size_t, size_t))dlsym(RTLD_NEXT, "aligned_alloc");
    return refused() ? NULL : real(alignment, size);
}

int posix_memalign(void **out, size_t alignment, size_t size) {
    static int (*real)(void **, size_t, size_t);
    if (!real) real = (int (*)(void **, size_t, size_t))dlsym(RTLD_NEXT, "posix_memalign");
    return refused() ? ENOMEM : real(out, alignment, size);
}

/* The file that REFUSE_OPEN names can't be opened for want of memory. */
int open(const char *path, int flags, ...) {
    static int (*real)(const char *, int, ...);
    if (!real) real = (int (*)(const char *, int, ...))dlsym(RTLD_NEXT, "open");
    const char *refused_path = getenv("REFUSE_OPEN");
    if (refused_path && strcmp(path, refused_path) == 0) {
        errno = ENOMEM;
        return -1;
    }
    va_list rest;
    va_start(rest, flags);
    int mode = va_arg(rest, int);
    va_end(rest);
    return real(path, flags, mode);
}
C
{ ${CC:-cc} -shared -fPIC -O1 -o "$work/refuse.so" "$work/refuse.c" -ldl && ${CC:-cc} -O1 -o "$work/act" "$helpers/act.c" && ${CC:-cc} -shared -fPIC -O1 -o "$work/fail.so" "$helpers/fail.c" -ldl; } || {
    fail "no C compiler made refuse.so"
    finish
    exit 1
}

# Runs the words with one allocation refused, for at most ten seconds; false where there were fewer allocations.
refusing() {
    number=$1
    shift
    rm -f "$work/refused"
    timeout -k 5 10 env REFUSE="$number" REFUSED="$work/refused" LD_PRELOAD="$work/refuse.so" "$@" >"$work/out" 2>"$work/errors" <"$input"
    status=$?
    [ -e "$work/refused" ]
}

# Whether nothing went out; of a text that is written as it is made, marked by `fronts`, its first bytes may have.
unwritten() {
    [ ! -s "$work/out" ] || { [ -n "${fronts:-}" ] && head -c "$(wc -c <"$work/out")" "$work/out.answered" | cmp -s - "$work/out"; }
}

# each_refused WORDS: the program's answer is the same, or want of memory
each_refused() {
    run "$@"
    answered=$status
    mv "$work/out" "$work/out.answered"
    mv "$work/errors" "$work/errors.answered"
    number=1
    while refusing "$number" "$rollout" "$@"; do
        if [ "$status" -eq 5 ] && unwritten && [ "$(cat "$work/errors")" = 'rollout: memory' ]; then
            pass
        # what is refused may be asked for again in another way
        elif [ "$status" -eq "$answered" ] && cmp -s "$work/out" "$work/out.answered" && cmp -s "$work/errors" "$work/errors.answered"; then
            pass
        else
            fail "allocation $number of '$*' refused: status $status, $(cat "$work/errors")"
        fi
        number=$((number + 1))
    done
    echo "$*: $((number - 1)) allocations refused in turn"
}

# run_refused WORDS: the same of a run, which want of memory may also break off. Then its recap goes out as far as the run came, and has each host as its programs ended. These
# write down that they begin, and how they end, in the file `notes` of this folder.
run_refused() {
    rm -rf "$work/compared"
    mkdir "$work/compared"
    cd "$work" || exit 1
    rm -f kept
    run run "$@"
    answered=$status
    mv "$work/out" "$work/out.answered"
    mv "$work/errors" "$work/errors.answered"
    number=1
    while rm -f notes kept && refusing "$number" "$rollout" run "$@"; do
        cp out "compared/$number.out"
        [ ! -e notes ] || mv notes "compared/$number.notes"
        if broken_off; then
            [ ! -s "$work/out" ] || { begins_so && [ "$(tail -n 1 "$work/out")" = 'end fault' ]; } || last_unkept
        else
            [ "$status" -eq "$answered" ] && cmp -s "$work/out" "$work/out.answered" && cmp -s "$work/errors" "$work/errors.answered"
        fi && pass || fail "allocation $number of 'run $*' refused: status $status, $(cat "$work/errors")"
        [ ! -e kept ] || kept_so "$1"
        number=$((number + 1))
    done
    [ "$number" -gt 100 ] || fail "'run $*' asks for little memory"
    counting python3 "$helpers/kept.py" "$1" "$2" "$work/compared"
    cd "$top" || exit 1
    echo "run $*: $((number - 1)) allocations refused in turn"
}

# resume_refused INVENTORY PLAYBOOK WORDS: the same of a run that goes on by the journal `front`, in which everybody may be updated. Where it was refused before it went on, the journal is as it
# was, but for a line that broke off, and nothing was started; by the journal that is left it goes on to its end, and nobody who is updated by it runs again.
resume_refused() {
    cd "$work" || exit 1
    head -n "$(wc -l <front)" front >front.whole
    cp front kept
    rm -f notes
    run run "$@" --resume kept
    answered=$status
    mv out out.answered
    mv errors errors.answered
    number=1
    while cp front kept && rm -f notes && refusing "$number" "$rollout" run "$@" --resume kept; do
        if broken_off; then
            [ ! -s out ] || { begins_so && [ "$(tail -n 1 out)" = 'end fault' ]; } || last_unkept
        else
            [ "$status" -eq "$answered" ] && cmp -s out out.answered && cmp -s errors errors.answered
        fi && pass || fail "allocation $number of 'run $* --resume' refused: status $status, $(cat errors)"
        if [ -s out ]; then
            head -c "$(wc -c <front.whole)" kept | cmp -s - front.whole
        else
            [ ! -e notes ] && { cmp -s kept front || cmp -s kept front.whole; }
        fi && pass || fail "allocation $number: the journal doesn't go on"
        "$rollout" state "$1" kept 2>/dev/null | sed -n 's/ state=updated$/ /p' >updated
        rm -f notes
        run run "$@" --resume kept --up all
        "$rollout" state "$1" kept >states 2>&1
        [ "$status" -eq 0 ] && ! grep -v 'state=updated$' states | grep -qv '^end finished$' && ! { [ -e notes ] && grep -qFf updated notes; } && pass || fail "allocation $number: the rest ends with $status"
        number=$((number + 1))
    done
    [ "$number" -gt 100 ] || fail "'run $* --resume' asks for little memory"
    cd "$top" || exit 1
    echo "run $* --resume: $((number - 1)) allocations refused in turn"
}

# Whether want of memory is what the run tells: of one that is kept, that a line of its journal was not taken for it, or that none was made before it began.
broken_off() {
    case $status,$(cat "$work/errors") in
    '5,rollout: memory') true ;;
    "6,rollout: 911 JournalWrite") [ -e kept ] || [ ! -s out ] ;;
    *) false ;;
    esac
}

# Whether only the journal's last line was not taken: the run had ended by then.
last_unkept() {
    [ "$status" -eq 6 ] && cmp -s "$work/out" "$work/out.answered"
}

# kept_so INVENTORY: of a run of one play, whom the journal tells to have been in a closed batch ended as the recap has it, and whom the recap tells to have been in one is told so, or runs.
kept_so() {
    "$rollout" state "$1" kept >states 2>/dev/null
    sed -nE 's/^([^ ]+) .*state=(updated|failed|halted)$/\1 state=\2/p' out | sort >ended
    grep -E 'state=(updated|failed|halted)$' states | sort >told
    grep 'state=running$' states | sed 's/running$//' >running
    comm -13 ended told >invented
    comm -23 ended told | grep -vFf running >lost
    [ ! -s invented ] && [ ! -s lost ] && pass || fail "allocation $number: the journal tells $(cat invented), and not $(cat lost)"
}

# Whether the boundaries that a broken off run tells of are the first of those that it tells of with all memory.
begins_so() {
    grep -E '^(play|boundary|held:|open:)' "$work/out" >"$work/boundaries"
    grep -E '^(play|boundary|held:|open:)' "$work/out.answered" | head -n "$(wc -l <"$work/boundaries")" | cmp -s "$work/boundaries" -
}

each_refused limits "$top/examples/two-regions.json"
each_refused limits "$top/examples/crossing-racks.json"
each_refused state "$top/examples/two-racks.json" "$top/examples/killed.journal"
each_refused limits "$top/examples/two-racks.json" --from "$top/examples/killed.journal" --up web2
each_refused plan "$top/examples/two-racks.json" "$top/examples/roll-anywhere.json" --from "$top/examples/killed.journal" --up web2
each_refused plan "$top/examples/two-racks.json" "$top/examples/roll-anywhere.json" --from "$top/examples/killed.journal" --up web2,web5 --forecast --failing web3
each_refused plan "$top/examples/two-racks.json" "$top/examples/two-plays.json" --from "$top/examples/two-plays.journal"
each_refused plan "$top/examples/two-racks.json" "$top/examples/restart-web.json"
each_refused plan "$top/examples/two-racks.json" "$top/examples/restart-web.json" --groups
each_refused plan "$top/examples/two-regions.json" "$top/examples/everywhere.json"
# variables, a host that is down, and a group beside `all`
printf '{"web":{"vars":{"max_down":1,"tier":"front"},"hosts":{"a":{"down":true},"b":null}},"all":{"children":{"db":null}}}' >"$work/web.json"
each_refused limits "$work/web.json"
# a plan that sets a host aside
printf '{"all":{"children":{"eu":{"vars":{"max_down":3},"children":{"r1":{"vars":{"max_down":1},"hosts":{"a":{"down":true},"b":{"v":[1]}}},"r2":{"vars":{"max_down":2},"hosts":{"d":null,"e":null}}}}}}}' >"$work/racks.json"
printf '[{"hosts":["eu","r1:d"],"serial":[1,"50%%"],"on_blocked":"hold","tasks":[{"name":"t","command":"echo {{ v }}","when":"v is defined","notify":"h"}],"handlers":[{"name":"h","command":"true"}]}]' >"$work/held.json"
each_refused plan "$work/racks.json" "$work/held.json"
each_refused plan "$work/racks.json" "$work/held.json" --forecast --groups --failing d
# numbers that are expected, a plan from elsewhere, notes, and the words of the steps
each_refused limits "$top/examples/two-racks.json" --expect 'hosts=5,limited<=3' --expect web=2
each_refused limits "$top/examples/two-racks.json" --expect 'hosts=5,rack1=2'
each_refused limits "$top/examples/two-racks.json" --expect 'hosts,web=2'
each_refused plan "$work/racks.json" "$work/held.json" --expect 'batches<=7'
"$rollout" plan "$work/racks.json" "$work/held.json" >"$work/plan.txt"
each_refused check "$work/racks.json" "$work/held.json" "$work/plan.txt"
printf 'batch 1: b x\n' >"$work/plan.txt"
each_refused check "$work/racks.json" "$work/held.json" "$work/plan.txt"
each_refused lint "$work/racks.json"
each_refused lint "$work/racks.json" "$work/held.json"
each_refused lint "$work/racks.json" "$work/held.json" --allow 'undefined-name,down-hosts'
printf '[{"hosts":["eu","r1:d"],"tasks":[{"command":"echo {{ v }}","when":"v is defined","notify":"h"},{"command":"make it","register":"r"},{"command":"echo {{ r.stdout }}{{ n }}"}],"handlers":[{"name":"h","command":"true"}]},{"hosts":"d","tasks":[{"command":"true","when":"r is changed"}]}]' >"$work/worded.json"
fronts=yes
each_refused plan "$work/racks.json" "$work/worded.json" --commands
fronts=
# each key of a play and of a step, and faults that are told late
while IFS= read -r playbook; do
    printf '%s' "$playbook" >"$work/playbook.json"
    each_refused plan "$work/web.json" "$work/playbook.json"
done <<'PLAYBOOKS'
[{"hosts":["a","b"],"serial":[1,"50%"],"tasks":[{"name":"t","command":"a {{ v }} b","register":"r","when":["v",true],"changed_when":"r.rc == 3","notify":["h","i"]}],"handlers":[{"name":"h","command":{"argv":["c",7]}},{"name":"i","command":"d"}]},{"hosts":"all","tasks":[{"command":"true"}]}]
[{"hosts":"a","tasks":[{"command":"a","notify":["h"]}]}]
[{"hosts":"a","tasks":[{"command":{"argv":[null]}}]}]
[{"hosts":"a","tasks":[{"command":"a","when":"a b"}]}]
[{"hosts":"a,x*","tasks":[{"command":"a"}]}]
[{"hosts":"a","tasks":[{"command":"a","when":["(v == 7 or not r.rc == 3) and 'rack' in group_names and r is failed","not (not (v or (zero and empty)) or both is skipped)","r.stdout != r.stderr or true"]}]}]
[{"hosts":"a","tasks":[{"command":"a"}],"x":1}]
PLAYBOOKS
# runs: words and conditions that name variables and results, a list of sizes, handlers, a failure that is ignored, a host that is down, two
# plays; a play that sets hosts aside; a step that is not started
# noting PLAY STEP CODE WORD..: the words of a program that writes down its begin, does what these words say, and writes down its end with this code
noting() {
    at="{{ inventory_hostname }} $1 $2"
    code=$3
    shift 3
    printf '{"argv":["%s","adds","notes","+ %s"' "$work/act" "$at"
    [ $# -eq 0 ] || printf ',"%s"' "$@"
    printf ',"adds","notes","- %s %s","exit","%s"]}' "$at" "$code" "$code"
}
printf '[{"hosts":"all","serial":[1,2],"tasks":[{"command":%s,"register":"r","notify":"h"},{"command":%s,"register":"s","when":"r.rc == 0 and v is defined","ignore_errors":true},{"command":%s,"changed_when":"s is failed","failed_when":["s is skipped",true]}],"handlers":[{"name":"h","command":%s}]},{"hosts":"b:d","tasks":[{"command":%s,"when":"r is changed"}]}]' \
    "$(noting 0 1 0 text '{{ inventory_hostname }} {{ v }}')" "$(noting 0 2 1)" "$(noting 0 3 0 text '{{ r.stdout }}')" "$(noting 0 4 0)" "$(noting 1 1 0 text '{{ v }}')" >"$work/twice.json"
printf '{"all":{"vars":{"v":1},"hosts":{"a":{"down":true},"b":null},"children":{"g":{"vars":{"max_down":1,"v":"two"},"hosts":{"c":null,"d":{"v":1}}}}}}' >"$work/few.json"
run_refused "$work/few.json" "$work/twice.json" --forks 1
printf '[{"hosts":"all","on_blocked":"hold","tasks":[{"command":{"argv":["sh","-c","echo + $0 0 1 >>notes; test $0 = d; code=$?; echo - $0 0 1 $code >>notes; exit $code","{{ inventory_hostname }}"]}}]}]' >"$work/holding.json"
run_refused "$work/racks.json" "$work/holding.json" --forks 2
run_refused "$work/racks.json" "$work/holding.json" --forks 2 --journal kept
run_refused "$work/racks.json" "$work/holding.json" --forks 2 --journal kept --up e --lock-file held
# It broke off in a line of its journal, while a batch was open.
printf '{"eu":{"vars":{"max_down":2},"children":{"r1":{"vars":{"max_down":1},"hosts":{"a":null,"b":null}},"r2":{"hosts":{"d":null,"e":null}}}}}' >"$work/even.json"
printf '[{"hosts":"all","serial":1,"tasks":[{"command":{"argv":["sh","-c","echo + $0 0 1 >>notes","{{ inventory_hostname }}"]}}]}]' >"$work/each.json"
python3 - "$top/tests/slow" "$work/even.json" "$work/each.json" <<'PYTHON' >"$work/front"
import sys
sys.path.append(sys.argv[1])
from entries import head, line
inventory, playbook = (open(name, "rb").read() for name in sys.argv[2:])
sys.stdout.buffer.write(b"".join(map(line, [head(inventory, playbook, 1), "play: a b d e", "open: a", "closed: updated:a", "open: d"])) + line("closed: updated:d")[:-1])
PYTHON
resume_refused "$work/even.json" "$work/each.json" --forks 2 --up b
printf '[{"hosts":"a","tasks":[{"command":"/no/such/program"}]}]' >"$work/absent.json"
run_refused "$work/few.json" "$work/absent.json"

# rehearsal_refused WORDS: the same of a rehearsal of the lines of $work/commands, which want of memory may end behind any of its answers.
rehearsal_refused() {
    count=$(wc -l <"$work/commands")
    for lines in $(seq 0 "$count"); do
        head -n "$lines" "$work/commands" >"$work/first"
        input=$work/first
        run rehearse "$@"
        mv "$work/out" "$work/out.$lines"
    done
    answered=$status
    mv "$work/errors" "$work/errors.answered"
    [ "$answered" -eq 0 ] && [ -s "$work/out.$count" ] && pass || fail "a rehearsal of $count lines: status $answered"
    number=1
    broken=0
    while refusing "$number" "$rollout" rehearse "$@"; do
        if [ "$status" -eq 5 ] && [ "$(cat "$work/errors")" = 'rollout: memory' ] && answers_so; then
            [ ! -s "$work/out" ] || broken=$((broken + 1))
            pass
        elif [ "$status" -eq "$answered" ] && cmp -s "$work/out" "$work/out.$count" && cmp -s "$work/errors" "$work/errors.answered"; then
            pass
        else
            fail "allocation $number of 'rehearse $*' refused: status $status, $(cat "$work/errors")"
        fi
        number=$((number + 1))
    done
    [ "$broken" -gt "$count" ] && pass || fail "$broken refused allocations ended a rehearsal of $count lines behind an answer"
    echo "rehearse $*: $((number - 1)) allocations refused in turn, $broken behind an answer"
    input=/dev/null
}

# Whether these are the answers to the first of the lines, each whole.
answers_so() {
    for lines in $(seq 0 "$count"); do
        cmp -s "$work/out" "$work/out.$lines" && return
    done
    return 1
}

printf 'plan\nadvance a d\nshow\nadvance b b\nundo\n\nadvance\nplan\nundo\nundo\nundo\nadvance x\nadvance e\nshow\nadvance\nadvance\njump\n' >"$work/commands"
rehearsal_refused "$work/few.json" "$work/twice.json"
rehearsal_refused "$work/racks.json" "$work/held.json"
printf 'plan\nadvance web2\nshow\nundo\nadvance\nfail web3\nfinish\nhosts web\nundo\njump\n' >"$work/commands"
rehearsal_refused "$top/examples/two-racks.json" "$top/examples/roll-anywhere.json" --from "$top/examples/killed.journal" --up web2,web5
input=$top/examples/two-regions.json
each_refused
input=/dev/null
each_refused --help
each_refused --version
each_refused limits one two

# opening_refused FILE WORDS: the system wants memory to open the file, which is no fault of the file
opening_refused() {
    file=$1
    shift
    REFUSE_OPEN=$file LD_PRELOAD="$work/refuse.so" "$rollout" "$@" >"$work/out" 2>"$work/errors" <"$input"
    status=$?
    check "$file not opened for want of memory" 5 '' "rollout: memory$newline"
}
opening_refused "$top/examples/two-regions.json" limits "$top/examples/two-regions.json"
opening_refused "$top/examples/everywhere.json" plan "$top/examples/two-regions.json" "$top/examples/everywhere.json"
# ---- runs

# Runs a program, over the library that PRELOAD names, for ten seconds at most, and ends as it does: but with 98 where it took longer, and with 99 where
# it ended before a program that it had started, or hadn't waited for one.
cat >"$work/under.c" <<'C'
#define _GNU_SOURCE
#include <signal.h>
#include <stdlib.h>
#include <sys/prctl.h>
#include <sys/wait.h>
#include <unistd.h>

static pid_t program;
static volatile sig_atomic_t late;

static void end(int signal) {
    (void)signal;
    late = 1;
    kill(program, SIGKILL);
}

int main(int count, char **words) {
    int how = 0;
    if (count < 2 || prctl(PR_SET_CHILD_SUBREAPER, 1) < 0 || (program = fork()) < 0) return 97;
    if (program == 0) {
        setenv("LD_PRELOAD", getenv("PRELOAD"), 1);
        execv(words[1], words + 1);
        _exit(97);
    }
    signal(SIGALRM, end);
    alarm(10);
    waitpid(program, &how, 0);
    if (late) return 98;
    /* Who has lost the one that started him is a child of this one. */
    if (waitpid(-1, NULL, WNOHANG) >= 0) return 99;
    return WIFEXITED(how) ? WEXITSTATUS(how) : 128 + WTERMSIG(how);
}
C
${CC:-cc} -O1 -o "$work/under" "$work/under.c" || {
    fail "no C compiler made under"
    finish
    exit 1
}

# Of runs of eight hosts one allocation in six (STRIDE=1: each) and each thread is refused, and each recap held against what the programs wrote down.
counting python3 "$helpers/refused.py" "$rollout" "$work" malloc pthread_create

# ---- tests

# crate and test, which holds whatever one allocation is refused
while read -r crate name; do
    tests=$top/crates/$crate/out/${crate}_tests
    if [ ! -x "$tests" ]; then
        [ -z "${ALL_BUILT:-}" ] && echo "$crate isn't built: passed over" || fail "$tests isn't built"
        continue
    fi
    number=1
    while refusing "$number" "$tests" "$name"; do
        if [ "$status" -eq 0 ]; then pass; else fail "allocation $number of $crate $name refused: status $status"; fi
        number=$((number + 1))
    done
    [ "$number" -gt 1 ] || fail "$crate $name asks for no memory"
    echo "$crate $name: $((number - 1)) allocations refused in turn"
done <<'TESTS'
core_tests refused::a_batch_comes_to_its_end_whatever_is_refused
pool_tests gathered::what_was_put_is_what_all_took
pool_tests memory::a_roll_ends_or_memory_is_wanting
TESTS
finish
