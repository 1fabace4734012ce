#!/bin/sh
# Breaks off each output after each number of bytes, and each input: by a call that fails, and by one that is interrupted, which is a fault too and
# isn't tried again. What went out before a break is what would have gone out, and the fault tells how much that was. It needs a C compiler and
# crates/rollout/out/rollout.
. "$(dirname "$0")/common.sh"
quietly

cat >"$work/break.c" <<'C'
#define _GNU_SOURCE
#include <dlfcn.h>
#include <errno.h>
#include <stdlib.h>
#include <unistd.h>

/* How many bytes may still pass: the variable's number less what has passed, or no bound where there is no such variable. */
static size_t room(const char *variable, size_t passed) {
    const char *number = getenv(variable);
    return number ? (size_t)atol(number) - passed : (size_t)-1;
}

/* Whether a call that has so much room fails. Where INTERRUPT is set, one call is interrupted, and the next would go on. */
static int fails(size_t left, int how, int *over) {
    if (left > 0 || *over) return 0;
    *over = getenv("INTERRUPT") != NULL;
    errno = *over ? EINTR : how;
    return 1;
}

ssize_t write(int file, const void *bytes, size_t count) {
    static ssize_t (*real)(int, const void *, size_t);
    static size_t passed[3];
    static int over[3];
    if (!real) real = (ssize_t (*)(int, const void *, size_t))dlsym(RTLD_NEXT, "write");
    if ((file != 1 && file != 2) || count == 0) return real(file, bytes, count);
    size_t left = room(file == 1 ? "OUT_ROOM" : "ERROR_ROOM", passed[file]);
    if (fails(left, ENOSPC, &over[file])) return -1;
    ssize_t wrote = real(file, bytes, over[file] || count < left ? count : left);
    if (wrote > 0) passed[file] += wrote;
    return wrote;
}

/* All inputs have one bound: a run that is broken off has read no second one. */
ssize_t read(int file, void *bytes, size_t count) {
    static ssize_t (*real)(int, void *, size_t);
    static size_t passed;
    static int over;
    if (!real) real = (ssize_t (*)(int, void *, size_t))dlsym(RTLD_NEXT, "read");
    size_t left = room("IN_ROOM", passed);
    if (fails(left, EIO, &over)) return -1;
    ssize_t got = real(file, bytes, over || count < left ? count : left);
    if (got > 0) passed += got;
    return got;
}
C
${CC:-cc} -shared -fPIC -O1 -o "$work/break.so" "$work/break.c" -ldl || {
    fail "no C compiler made break.so"
    finish
    exit 1
}

# Runs the program with one variable of break.so set.
breaking() {
    variable=$1
    shift
    env "$variable" LD_PRELOAD="$work/break.so" "$rollout" "$@" >"$work/out" 2>"$work/errors" <"$input"
    status=$?
}

# same WHAT STATUS: the last run ended so, with the outputs that the files out.expected and errors.expected hold
same() {
    if [ "$status" -eq "$2" ] && cmp -s "$work/out" "$work/out.expected" && cmp -s "$work/errors" "$work/errors.expected"; then
        pass
    else
        fail "$1: status $status, expected $2"
    fi
}

# Behind each byte, or behind each so many.
step=$(fewer 1 9)

# answered WORDS: what the program answers with nothing in its way; the two outputs are kept.
answered() {
    run "$@"
    answer=$status
    cp "$work/out" "$work/out.whole"
    cp "$work/errors" "$work/errors.whole"
}

# output_broken WORDS: standard output takes fewer bytes than there are.
output_broken() {
    answered "$@"
    for room in $(seq 0 "$step" $(($(wc -c <"$work/out.whole") - 1))); do
        breaking OUT_ROOM="$room" "$@"
        head -c "$room" "$work/out.whole" >"$work/out.expected"
        echo "rollout: 904 Write written=$room" >"$work/errors.expected"
        same "$room bytes of the output of '$*'" 1
    done
}

# report_broken WORDS: standard error takes fewer bytes than the fault has; the status tells it nevertheless.
report_broken() {
    answered "$@"
    for room in $(seq 0 "$step" $(($(wc -c <"$work/errors.whole") - 1))); do
        breaking ERROR_ROOM="$room" "$@"
        : >"$work/out.expected"
        head -c "$room" "$work/errors.whole" >"$work/errors.expected"
        same "$room bytes of the report of '$*'" "$answer"
    done
}

# input_broken NAME SIZE WORDS: the first input, which the report calls so, can't be read to its end.
input_broken() {
    name=$1
    size=$2
    shift 2
    for room in $(seq 0 "$step" "$size"); do
        breaking IN_ROOM="$room" "$@"
        : >"$work/out.expected"
        echo "rollout: 902 File name=$name" >"$work/errors.expected"
        same "$room bytes read of '$name'" 1
    done
}

# session_broken INV PLAY: the lines of a rehearsal can't be read to their end; those that came whole are answered. (With no byte of them the end of
# the playbook can't be seen.)
session_broken() {
    lines=$input
    files=$(($(wc -c <"$1") + $(wc -c <"$2")))
    for room in $(seq 1 "$step" "$(wc -c <"$lines")"); do
        head -c "$room" "$lines" >"$work/part"
        head -n "$(wc -l <"$work/part")" "$work/part" >"$work/whole"
        input=$work/whole
        answered rehearse "$1" "$2"
        mv "$work/out.whole" "$work/out.expected"
        echo "rollout: 902 File name=-" >"$work/errors.expected"
        input=$lines
        breaking IN_ROOM="$((files + room))" rehearse "$1" "$2"
        same "$room bytes read of a rehearsal's lines" 1
    done
}

# journal_broken SIZE WORDS: behind so many bytes of other inputs the journal can't be read to its end.
journal_broken() {
    files=$1
    shift
    for room in $(seq 1 "$step" "$(wc -c <"$work/journal")"); do
        breaking IN_ROOM="$((files + room))" "$@" --from "$work/journal"
        : >"$work/out.expected"
        echo "rollout: 902 File name=$work/journal" >"$work/errors.expected"
        same "$room bytes read of the journal of '$*'" 1
    done
}

printf '{"all":{"children":{"r1":{"vars":{"max_down":1},"hosts":{"a":null,"b":null}},"r2":{"hosts":{"d":null}}}}}' >"$work/racks.json"
printf '[{"hosts":"all","tasks":[{"command":"true"}]}]' >"$work/all.json"
printf '[' >"$work/cut.json"
printf 'advance a\nshow\nundo\n\nadvance d x\nplan\nadvance b\njump' >"$work/lines"
size=$(wc -c <"$work/racks.json")
python3 - "$top/tests/slow" "$work/racks.json" "$work/all.json" <<'PYTHON' >"$work/journal"
import sys
sys.path.append(sys.argv[1])
from entries import head, line
inventory, playbook = (open(name, "rb").read() for name in sys.argv[2:])
sys.stdout.buffer.write(b"".join(map(line, [head(inventory, playbook, 1), "play: a b d", "open: a d"])))
PYTHON

# Each break, as the environment has it.
each_broken() {
    output_broken limits "$work/racks.json"
    output_broken plan "$work/racks.json" "$work/all.json"
    output_broken limits "$work/racks.json" --from "$work/journal"
    output_broken plan "$work/racks.json" "$work/all.json" --from "$work/journal" --up d
    output_broken plan "$work/racks.json" "$work/all.json" --from "$work/journal" --up all --forecast --failing b
    journal_broken "$size" limits "$work/racks.json"
    journal_broken "$((size + $(wc -c <"$work/all.json")))" plan "$work/racks.json" "$work/all.json"
    output_broken --version
    report_broken limits "$work/cut.json"
    report_broken limits one two
    input_broken "$work/racks.json" "$size" limits "$work/racks.json"
    input=$work/racks.json
    input_broken - "$size"
    input=$work/lines
    output_broken rehearse "$work/racks.json" "$work/all.json"
    session_broken "$work/racks.json" "$work/all.json"
    input=/dev/null
}

each_broken
INTERRUPT=1
export INTERRUPT
each_broken
finish
