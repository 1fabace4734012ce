#!/bin/sh
# The workers, many times over: programs that have to run at once do, one that takes long holds up no other, the recap is the same at every number of forks and whoever
# ends first, and each thread refused in turn is want of memory. Runs of the program show it, and of what no command reaches, steps on pools of their own and workers
# that find no memory, the tests of pool_tests. Each time all ends within the time that is given, and each thread that was started has ended.
# It needs a C compiler, crates/rollout/out/rollout, and crates/pool_tests/out/pool_tests_tests, which rt ci (or rt test) leaves. Where that isn't there its rows are passed
# over, but where ALL_BUILT is set.
. "$(dirname "$0")/common.sh"
quietly

cat >"$work/refuse.c" <<'C'
#define _GNU_SOURCE
#include <dlfcn.h>
#include <errno.h>
#include <fcntl.h>
#include <pthread.h>
#include <stdatomic.h>
#include <stdio.h>
#include <stdlib.h>
#include <sys/syscall.h>
#include <unistd.h>

typedef struct {
    void *(*start)(void *);
    void *argument;
} Begin;

static atomic_long begun, ended;

static void *counted(void *given) {
    Begin begin = *(Begin *)given;
    free(given);
    void *answer = begin.start(begin.argument);
    atomic_fetch_add(&ended, 1);
    return answer;
}

/* The thread that REFUSE numbers, from 1, can't be made. Where one was refused, the file REFUSED is made. */
int pthread_create(pthread_t *thread, const pthread_attr_t *attributes, void *(*start)(void *), void *argument) {
    static int (*real)(pthread_t *, const pthread_attr_t *, void *(*)(void *), void *);
    static long left = -1;
    if (!real) real = (int (*)(pthread_t *, const pthread_attr_t *, void *(*)(void *), void *))dlsym(RTLD_NEXT, "pthread_create");
    if (left < 0) left = getenv("REFUSE") ? atol(getenv("REFUSE")) : 0;
    if (left > 0 && --left == 0) {
        if (getenv("REFUSED")) close(open(getenv("REFUSED"), O_CREAT | O_WRONLY, 0600));
        return EAGAIN;
    }
    Begin *begin = malloc(sizeof *begin);
    if (!begin) return EAGAIN;
    *begin = (Begin){start, argument};
    atomic_fetch_add(&begun, 1);
    int answer = real(thread, attributes, counted, begin);
    if (answer) {
        atomic_fetch_sub(&begun, 1);
        free(begin);
    }
    return answer;
}

/* At the end, how many threads were begun, and how many have not ended, goes into the file THREADS; nothing from a program that a run started and that has none. A thread
   that was joined may need a moment to its last line. The program calls this by its name. */
void _exit(int status) {
    for (int turn = 0; turn < 1000 && atomic_load(&ended) < atomic_load(&begun); turn++) usleep(1000);
    FILE *file = atomic_load(&begun) && getenv("THREADS") ? fopen(getenv("THREADS"), "w") : NULL;
    if (file) {
        fprintf(file, "%ld %ld\n", atomic_load(&begun), atomic_load(&begun) - atomic_load(&ended));
        fclose(file);
    }
    syscall(SYS_exit_group, status);
    __builtin_unreachable();
}
C
${CC:-cc} -shared -fPIC -O1 -o "$work/refuse.so" "$work/refuse.c" -ldl -lpthread || {
    fail "no C compiler made refuse.so"
    finish
    exit 1
}

# ---- runs of the program, whose plays share one pool

updated='failed=0 skipped=0 ignored=0 state=updated'

# play LINE..: a play of all hosts, a step a line of a shell, which has its host as $0 and its number as $1. A line holds nothing that a JSON text would have to hide.
play() {
    number=0
    between=
    {
        printf '[{"hosts":"all","tasks":['
        for line; do
            number=$((number + 1))
            printf '%s{"command":{"argv":["sh","-c","%s","{{ inventory_hostname }}","%s"]}}' "$between" "$line" "$number"
            between=,
        done
        printf ']}]'
    } >"$work/play.json"
}

# rolled WHAT FORKS HOSTS STATUS LINES: a run over these hosts, which makes one batch of them, has these lines of hosts behind its boundaries, and leaves no thread.
rolled() {
    rm -rf "$work/threads" "$work/ends"
    mkdir "$work/ends"
    printf '{"all":{"hosts":{%s}}}' "$(printf '"%s":null\n' $3 | paste -sd, -)" >"$work/hosts.json"
    (cd "$work" && exec timeout -k 5 60 env THREADS="$work/threads" LD_PRELOAD="$work/refuse.so" "$rollout" run hosts.json play.json --forks "$2") >"$work/out" 2>"$work/errors" </dev/null
    status=$?
    begun= left=
    [ ! -e "$work/threads" ] || read -r begun left <"$work/threads"
    check "$1, at $2 forks" "$4" "boundary 1: plan batches=1 bound=one-host
open: $3
boundary 2: plan batches=0 bound=nothing
$5
end finished$newline" ''
    [ "${begun:-0}" -gt 0 ] && [ "$left" -eq 0 ] && pass || fail "$1, at $2 forks: ${left:-?} of ${begun:-no} threads are left"
}

# until_there COUNT: the words of a shell that waits for so many files of programs, for 20 seconds at most; it fails where they don't come.
until_there() {
    echo "turn=0; until set -- ends/*; [ \$# -ge $1 ]; do turn=\$((turn + 1)); [ \$turn -lt 400 ] || exit 1; sleep 0.05; done"
}

for count in 2 5 64; do
    hosts=$(seq -f 'h%02g' -s ' ' "$count")
    lines=$(printf "%s ok=1 changed=1 $updated\n" $hosts)
    play "echo >ends/\$0; $(until_there "$count")"
    for turn in 1 2 3 4 5; do rolled "$count programs, each of which waits for all others to begin" "$count" "$hosts" 0 "$lines"; done
done
hosts='h1 h2 h3 h4 h5'
lines=$(printf "%s ok=1 changed=1 $updated\n" $hosts)
play "test \$0 = h1 || { echo >ends/\$0; exit; }; $(until_there 4)"
for forks in 2 5; do
    for turn in 1 2 3 4 5; do rolled 'the first of five waits for all others to end' "$forks" "$hosts" 0 "$lines"; done
done
# Of each two the first ends behind the second, where both run at once; one host fails at the second step.
hosts='a a2 b b2 c c2'
lines=$(printf "%s ok=3 changed=3 $updated\n" $hosts | sed 's/^c ok=3 changed=3 failed=0\(.*\)updated/c ok=1 changed=1 failed=1\1failed/')
paced='turn=0; case $0 in *2) ;; *) until [ -e ends/${0}2.$1 ] || [ $turn -eq 20 ]; do turn=$((turn + 1)); sleep 0.01; done ;; esac; echo >ends/$0.$1; test $0.$1 != c.2'
play "$paced" "$paced" "$paced"
for forks in 1 2 5 64; do
    for turn in 1 2 3 4 5; do rolled 'of each two the first ends behind the second' "$forks" "$hosts" 2 "$lines"; done
done

# ---- what no command reaches

tests=$top/crates/pool_tests/out/pool_tests_tests
if [ ! -x "$tests" ]; then
    [ -z "${ALL_BUILT:-}" ] && echo "pool_tests isn't built: its rows are passed over" || fail "$tests isn't built"
    finish
    exit
fi

# tried TEST NUMBER: the test passes within ten seconds and leaves no thread, also where the thread of this number is refused; 0 refuses none
tried() {
    rm -f "$work/refused" "$work/threads"
    timeout 10 env REFUSE="$2" REFUSED="$work/refused" THREADS="$work/threads" LD_PRELOAD="$work/refuse.so" "$tests" "$1" >"$work/out" 2>&1
    status=$?
    begun= left=
    [ ! -e "$work/threads" ] || read -r begun left <"$work/threads"
    [ "$status" -eq 0 ] && [ "${begun:-0}" -gt 0 ] && [ "$left" -eq 0 ]
}

# often COUNT TEST: the test passes so often
often() {
    turn=0
    while [ "$turn" -lt "$1" ]; do
        tried "$2" 0 || {
            fail "$2, turn $turn: status $status, ${left:-?} threads left: $(tail -n 3 "$work/out")"
            return
        }
        turn=$((turn + 1))
        pass
    done
    echo "$2: $1 times"
}

often 200 gate::gate_two_at_once
# the same rows at forks 1, 2, 5 and 64
often 1000 memory::a_roll_ends_or_memory_is_wanting
often 1000 by_hand::want_of_memory_stops_a_step

# each thread refused in turn
for name in gate::a_step_ends_or_a_worker_is_wanting memory::a_roll_ends_or_memory_is_wanting; do
    number=1
    while
        tried "$name" "$number"
        passes=$?
        [ -e "$work/refused" ]
    do
        if [ "$passes" -eq 0 ]; then pass; else fail "thread $number of $name refused: status $status, ${left:-?} threads left"; fi
        number=$((number + 1))
    done
    [ "$number" -gt 1 ] || fail "$name starts no thread"
    echo "$name: $((number - 1)) threads refused in turn"
done
finish
