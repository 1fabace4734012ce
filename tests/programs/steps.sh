# What the scripts share that run programs: the helpers made, and plays of one host or of many. Where the program has no command `run`, all is passed over.
helpers=$top/tests/programs

# The program is not to hang.
limit=120
[ -z "${UNPROVED:-}" ] || limit=600

printf '{"all":{"hosts":{"a":null}}}' >"$work/one.json"
printf '[{"hosts":"all","tasks":[{"command":"true"}]}]' >"$work/true.json"
run run "$work/one.json" "$work/true.json"
if [ "$status" -eq 1 ] && head -n 1 "$work/errors" | grep -q '^rollout: 901 BadLine'; then
    echo 'the program has no command "run" yet: its programs are passed over'
    pass
    finish
    exit
fi

{ ${CC:-cc} -O1 -o "$work/act" "$helpers/act.c" && ${CC:-cc} -shared -fPIC -O1 -o "$work/fail.so" "$helpers/fail.c" -ldl; } || {
    fail 'no C compiler made the helpers'
    finish
    exit 1
}
chmod 755 "$work"
mkdir -m 777 "$work/kept"
act=$work/act

# What a step keeps of another: its two words, each in a file of its own.
cat >"$work/keep" <<'SH'
#!/bin/sh
printf '%s' "$1" >"${0%/*}/kept/out"
printf '%s' "$2" >"${0%/*}/kept/err"
SH
chmod 755 "$work/keep"

# words WORD..: these as the words of a command. They hold nothing that a JSON text would have to hide.
words() {
    between=
    printf '['
    for word; do
        printf '%s"%s"' "$between" "$word"
        between=,
    done
    printf ']'
}

# shell TEXT: the words of a shell that runs this line, which may hold quotes.
shell() {
    printf '["sh","-c","%s"]' "$(printf '%s' "$1" | sed 's/\\/\\\\/g; s/"/\\"/g')"
}

# played STEPS: runs a play of these steps on one host.
played() {
    printf '[{"hosts":"all","tasks":[%s]}]' "$1" >"$work/play.json"
    run run "$work/one.json" "$work/play.json"
}

# told WHAT STATUS ENDING END: the last run ended so, as did its host.
told() {
    check "$1" "$2" "boundary 1: plan batches=1 bound=one-host
open: a
boundary 2: plan batches=0 bound=nothing
a $3
end $4
" ''
}

# ran WHAT CODE WORDS: the program gives back CODE, and the two texts of it that are kept are those in want.out and want.err.
: >"$work/want.out"
: >"$work/want.err"
ran() {
    rm -f "$work/kept/out" "$work/kept/err"
    played "{\"command\":{\"argv\":$3},\"register\":\"r\",\"ignore_errors\":true},{\"command\":{\"argv\":[\"$work/keep\",\"{{ r.stdout }}\",\"{{ r.stderr }}\"]},\"when\":\"r.rc == $2\"}"
    ignored=0
    [ "$2" -eq 0 ] || ignored=1
    told "$1" 0 "ok=2 changed=2 failed=0 skipped=0 ignored=$ignored state=updated" finished
    if cmp -s "$work/kept/out" "$work/want.out" && cmp -s "$work/kept/err" "$work/want.err"; then
        pass
    else
        fail "$1: other texts are kept"
        cmp "$work/kept/out" "$work/want.out" | head -n 1
        cmp "$work/kept/err" "$work/want.err" | head -n 1
    fi
    : >"$work/want.out"
    : >"$work/want.err"
}

# acted WHAT CODE OUT ERR WORDS..: the same of what act does, of which so many first bytes of each output are kept.
acted() {
    what=$1
    code=$2
    "$act" out "$3" >"$work/want.out"
    "$act" out "$4" >"$work/want.err"
    shift 4
    ran "$what" "$code" "$(words "$act" "$@")"
}

# says WHAT TEXT WORDS: the program ends well, and this text is kept of its output.
says() {
    printf '%s' "$2" >"$work/want.out"
    ran "$1" 0 "$3"
}

# unstarted WHAT WORDS: there is no such program to start.
unstarted() {
    played "{\"command\":{\"argv\":$2},\"register\":\"r\",\"ignore_errors\":true},{\"command\":\"true\",\"when\":[\"r is failed and not r is changed and not r is skipped\",\"r.rc is not defined\",\"r.stdout == '' and r.stderr == ''\"]}"
    told "$1" 0 'ok=2 changed=1 failed=0 skipped=0 ignored=1 state=updated' finished
}

# hosts COUNT: an inventory of so many hosts.
hosts() {
    awk -v count="$1" 'BEGIN { printf "{\"all\":{\"hosts\":{"; for (i = 0; i < count; i++) printf "%s\"h%04d\":null", (i ? "," : ""), i; printf "}}}" }'
}

# all COUNT ENDING END [NUMBER ENDING]: the recap of so many hosts, in one batch, of which one may have another ending.
all() {
    awk -v count="$1" -v ending="$2" -v end="$3" -v other="${4:--1}" -v otherwise="${5:-}" 'BEGIN {
        print "boundary 1: plan batches=1 bound=one-host"
        printf "open:"
        for (i = 0; i < count; i++) printf " h%04d", i
        print "\nboundary 2: plan batches=0 bound=nothing"
        for (i = 0; i < count; i++) printf "h%04d %s\n", i, (i == other ? otherwise : ending)
        print "end " end
    }'
}

# many COUNT FORKS STEPS: runs a play of these steps on so many hosts.
many() {
    hosts "$1" >"$work/hosts.json"
    printf '[{"hosts":"all","tasks":[%s]}]' "$3" >"$work/play.json"
    run run "$work/hosts.json" "$work/play.json" --forks "$2"
}

# How a host ends that went through its one step.
updated='changed=1 failed=0 skipped=0 ignored=0 state=updated'

# timeless: what was told while the run went on, and the line of a fault, without times. What follows that, as the reasons for which hosts are down, is put into `behind`.
timeless() {
    sed 's/ ms=[0-9]* name=/ ms=N name=/; s/^\(waiting=[0-9]*\) at=[0-9]* open:/\1 at=N open:/
        s/^\([^ ]* step=[0-9]* begins\) at=[0-9]* name=/\1 at=N name=/; s/^\(closed .*\) ms=[0-9]* at=[0-9]*$/\1 ms=N at=N/' "$work/errors" >"$work/timeless"
    : >"$work/errors"
    : >"$work/behind"
    awk -v told="$work/errors" -v behind="$work/behind" '
        !/^(note: |waiting=|closed |[^ ]+ step=[0-9]+ |play [0-9]+$|held: |  [^ ]+ (stdout|stderr|error|warning): |descriptors=|rollout: )/ { is_behind = 1 }
        { print > (is_behind ? behind : told) }
    ' "$work/timeless"
}

# verbose WORD..: a run that tells of itself, without its times
verbose() {
    run run -v "$@"
    timeless
}

# begun HOST STEP [NAME]: the line of a program that begins. closed UPDATED FAILED HALTED: the line of a batch that is closed.
begun() {
    echo "$1 step=$2 begins at=N name=${3:-}"
}
closed() {
    echo "closed updated=$1 failed=$2 halted=$3 ms=N at=N"
}
