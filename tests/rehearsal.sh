#!/bin/sh
# Rehearsals as somebody at a terminal sees them: each answer comes before the next line is typed, a prompt stands before it, and a session ends as soon as it has
# to. What is answered is shown by tests/drawn.sh. It needs crates/rollout/out/rollout and Python.
. "$(dirname "$0")/common.sh"

printf '%s' "$racks" >"$work/inventory.json"
printf '[{"hosts":"all","tasks":[{"command":"true"}]}]' >"$work/playbook.json"
cat >"$work/typed.py" <<'PYTHON'
"""typed.py PROGRAM ENDED WORD..: types the lines of standard input, each as `> LINE`, and looks for the lines `ANSWER` behind it before the next one is typed;
a line `.` ends the input; from a line `|` on nobody reads the answers; a last line `! STATUS ERROR` tells how the program ends. With `ended` for ENDED the input is ended before that, else it is left open."""
import os
import select
import subprocess
import sys

program = subprocess.Popen([sys.argv[1], *sys.argv[3:]], stdin=subprocess.PIPE, stdout=subprocess.PIPE, stderr=subprocess.PIPE, bufsize=0)


def read(count):
    """So many bytes of the answers, or fewer where no more come within ten seconds."""
    got = b""
    while len(got) < count and select.select([program.stdout], [], [], 10)[0]:
        more = os.read(program.stdout.fileno(), count - len(got))
        if not more:
            break
        got += more
    return got


for line in sys.stdin.read().splitlines():
    if line.startswith("> "):
        program.stdin.write(eval(line[2:]))
    elif line == ".":
        program.stdin.close()
    elif line == "|":
        program.stdout.close()
    elif line.startswith("! "):
        if sys.argv[2] == "ended":
            program.stdin.close()
        try:
            status = program.wait(10)
        except subprocess.TimeoutExpired:
            program.kill()
            sys.exit(f"expected {line[2:]!r}, and it goes on")
        said = f"{status} {program.stderr.read().decode().rstrip()}".rstrip()
        rest = b"" if program.stdout.closed else read(1)
        if said != line[2:] or rest:
            sys.exit(f"expected {line[2:]!r}, ended with {said!r} and {rest!r}")
        sys.exit()
    else:
        wanted = line.encode() + b"\n"
        got = read(len(wanted))
        if got != wanted:
            program.kill()
            sys.exit(f"expected {wanted!r}, got {got!r}")
PYTHON

# typed WHAT ENDED: the session on standard input goes so
typed() {
    if python3 "$work/typed.py" "$rollout" "$2" rehearse "$work/inventory.json" "$work/playbook.json" 2>"$work/said"; then
        pass
    else
        fail "$1: $(cat "$work/said")"
    fi
}

typed 'an answer before the next line' ended <<'LINES'
> b"advance a\n"
advanced: a d
> b"show\n"
a failed
b waiting
c waiting
d updated
e waiting
end blocked group=r1
> b"undo\n"
undone
> b"undo\n"
nothing to undo
> b"plan\n"
plan batches=3 bound=group r1 waiting=3 room=1
batch 1: a d
batch 2: b e
batch 3: c
! 0
LINES
typed 'a line in pieces, and several at once' ended <<'LINES'
> b"adv"
> b"ance"
> b" b\r\nunder"
refused 831 NotInBatch host=b
> b"stood\nadvance\nundo\n"
refused 905 BadCommand
advanced: a d
undone
! 0
LINES
typed 'a last line that no line feed ends' ended <<'LINES'
> b"advance\nundo"
advanced: a d
.
undone
! 0
LINES
typed 'a line too long, told before it ends' open <<'LINES'
> b"advance\n" + b"a" * 65536
advanced: a d
> b"a"
! 1 rollout: 906 LongLine
LINES
typed 'a line as long as may be' open <<'LINES'
> b"show" + b" " * 65532 + b"\n"
a waiting
b waiting
c waiting
d waiting
e waiting
end none
> b" " * 65537
! 1 rollout: 906 LongLine
LINES
help='advance NAMES  the next batch is over; these hosts failed in it (no names: none)
next N         the next N batches are over; just the marked hosts failed in them
finish         the same of all batches, to the end of the play
fail HOST      mark a host, which then fails as soon as its batch is over
undo           take the last of these back, whole
plan           the plan of the hosts that still wait
show           the state of each host, and the end of the play
hosts GROUP    the state of each host of a group, and its batch in the plan
help, ?        this list
quit           end the session'
typed 'the list of commands' ended <<LINES
> b"help\n"
$help
> b" ?\t\r\n"
$help
! 0
LINES
typed 'the hosts of a group, with their states and batches' ended <<'LINES'
> b"hosts r1\n"
a state=waiting batch=1
b state=waiting batch=2
c state=waiting batch=3
> b"advance\nhosts all\n"
advanced: a d
a state=updated batch=-
b state=waiting batch=1
c state=waiting batch=2
d state=updated batch=-
e state=waiting batch=1
> b"advance b\nhosts r1\nplan\n"
advanced: b e
a state=updated batch=-
b state=failed batch=-
c state=waiting batch=-
blocked group=r1 waiting=1
> b"undo\nundo\nhosts  r2\t\n"
undone
undone
d state=waiting batch=1
e state=waiting batch=2
! 0
LINES
typed 'several batches at once, taken back at once' ended <<'LINES'
> b"next 2\n"
advanced: a d
advanced: b e
> b"show\nundo\nplan\n"
a updated
b updated
c waiting
d updated
e updated
end none
undone
plan batches=3 bound=group r1 waiting=3 room=1
batch 1: a d
batch 2: b e
batch 3: c
> b"advance\nnext 00065\nnext 1\nundo\nundo\nundo\n"
advanced: a d
advanced: b e
advanced: c
refused 832 Over
undone
undone
nothing to undo
! 0
LINES
typed 'all batches, to the end' ended <<'LINES'
> b"advance\nfinish\nshow\n"
advanced: a d
advanced: b e
advanced: c
a updated
b updated
c updated
d updated
e updated
end finished
> b"finish\nundo\nhosts r1\n"
refused 832 Over
undone
a state=updated batch=-
b state=waiting batch=1
c state=waiting batch=2
! 0
LINES
typed 'a host that fails when its batch comes' ended <<'LINES'
> b"fail b\nshow\n"
marked: b
a waiting
b waiting
c waiting
d waiting
e waiting
end none
> b"advance\nfinish\nshow\n"
advanced: a d
advanced: b e
a updated
b failed
c waiting
d updated
e updated
end blocked group=r1
> b"undo\nadvance\nshow\n"
undone
advanced: b e
a updated
b failed
c waiting
d updated
e updated
end blocked group=r1
> b"undo\nundo\nundo\nfinish\n"
undone
undone
undone
advanced: a d
advanced: b e
advanced: c
! 0
LINES
typed 'hosts that are marked beside those that are named' ended <<'LINES'
> b"fail d\nfail d\nadvance a\nshow\n"
marked: d
marked: d
advanced: a d
a failed
b waiting
c waiting
d failed
e waiting
end all-failed
> b"undo\nundo\nundo\n"
undone
undone
nothing to undo
! 0
LINES
typed 'hosts that cannot be marked' ended <<'LINES'
> b"fail x\nfail r1\nfail\nfail a b\n"
refused 304 NoSuchName name=x
refused 304 NoSuchName name=r1
refused 905 BadCommand
refused 905 BadCommand
> b"advance\nfail a\nfail x\nadvance b\nfail c\nfail a\nfail x\n"
advanced: a d
refused 833 NotWaiting host=a
refused 304 NoSuchName name=x
advanced: b e
refused 832 Over
refused 832 Over
refused 304 NoSuchName name=x
! 0
LINES
typed 'numbers of batches that there are not' ended <<'LINES'
> b"next\nnext 0\nnext x\nnext 65536\nnext 000001\nnext +1\nnext 1 1\nfinish 1\n"
refused 905 BadCommand
refused 905 BadCommand
refused 905 BadCommand
refused 905 BadCommand
refused 905 BadCommand
refused 905 BadCommand
refused 905 BadCommand
refused 905 BadCommand
> b"next 65535\n"
advanced: a d
advanced: b e
advanced: c
! 0
LINES
typed 'groups that there are not' ended <<'LINES'
> b"hosts r3\n"
refused 304 NoSuchName name=r3
> b"hosts a\n"
refused 304 NoSuchName name=a
> b"hosts Eu\n"
refused 304 NoSuchName name=Eu
> b"hosts r1:r2\n"
refused 304 NoSuchName name=r1:r2
> b"hosts r\xc3\xa91\xff\n"
refused 304 NoSuchName name=r??1?
! 0
LINES
typed 'words that are missing, or one too many' ended <<'LINES'
> b"hosts\n"
refused 905 BadCommand
> b"hosts r1 r2\n"
refused 905 BadCommand
> b"help undo\n? ?\n"
refused 905 BadCommand
refused 905 BadCommand
> b"quit now\nQuit\nquit\r\r\nexit\n"
refused 905 BadCommand
refused 905 BadCommand
refused 905 BadCommand
refused 905 BadCommand
! 0
LINES
typed 'an end that is asked for' open <<'LINES'
> b"advance\n"
advanced: a d
> b"quit\n"
! 0
LINES
typed 'nothing behind an end that is asked for' open <<'LINES'
> b"advance\n \tquit \r\nundo\njump\n"
advanced: a d
! 0
LINES
typed 'an end that is asked for, without a line feed' ended <<'LINES'
> b"undo\nquit"
nothing to undo
.
! 0
LINES
typed 'an end that is asked for while nobody reads the answers' open <<'LINES'
> b"advance\n"
advanced: a d
|
> b"undo\nquit\n"
! 1 rollout: 904 Write written=14
LINES
typed 'answers that nobody reads any more' open <<'LINES'
> b"advance\n"
advanced: a d
|
> b"undo\nadvance\n"
! 1 rollout: 904 Write written=14
LINES
if proved '16 million lines of commands'; then
    typed 'more commands than may be, of which nobody reads the last answers' open <<'LINES'
> b"\n" * 16777200 + b"undo\n"
nothing to undo
|
> b"undo\n" * 3
! 1 rollout: 904 Write written=16
LINES
    typed 'more commands than may be, told before they end' open <<'LINES'
> b"\n" * 16777211 + b"undo\n"
nothing to undo
> b"\n"
! 1 rollout: 903 InputTooLarge
LINES
fi

cat >"$work/terminal.py" <<'PYTHON'
"""terminal.py SEEN PROGRAM WORD..: types `undo` and the end of input at a terminal, which standard input and error are, and standard output too unless its answers
go to the file OUTPUT; SEEN is all that the terminal then shows, in Python's way of writing."""
import os
import pty
import select
import sys

child, terminal = pty.fork()
if child == 0:
    if os.environ.get("OUTPUT"):
        os.dup2(os.open(os.environ["OUTPUT"], os.O_WRONLY | os.O_CREAT | os.O_TRUNC), 1)
    if os.environ.get("ERRORS"):
        os.dup2(os.open(os.environ["ERRORS"], os.O_WRONLY | os.O_CREAT | os.O_TRUNC), 2)
    if os.environ.get("INPUT"):
        os.dup2(os.open(os.environ["INPUT"], os.O_RDONLY), 0)
    os.execv(sys.argv[2], sys.argv[2:])


def read(wanted):
    """What the terminal shows, as far as it is wanted; whatever comes within ten seconds."""
    seen = b""
    while not seen.endswith(wanted) and select.select([terminal], [], [], 10)[0]:
        try:
            seen += os.read(terminal, 4096)
        except OSError:
            break
    return seen


wanted = eval(sys.argv[1])
first, _, rest = wanted.partition(b"undo\r\n")
seen = read(first) if first and not os.environ.get("INPUT") else b""
if not os.environ.get("INPUT"):
    os.write(terminal, b"undo\n")
    seen += read(b"undo\r\n" + rest)
    os.write(terminal, b"\x04")
seen += read(b"\0")
status = os.waitstatus_to_exitcode(os.waitpid(child, 0)[1])
if seen != wanted or status:
    sys.exit(f"expected {wanted!r}, got {seen!r}, status {status}")
PYTHON

# terminal WHAT SEEN: a terminal shows this of a session there
terminal() {
    if python3 "$work/terminal.py" "$2" "$rollout" rehearse "$work/inventory.json" "$work/playbook.json" 2>"$work/said"; then
        pass
    else
        fail "$1: $(cat "$work/said")"
    fi
}
terminal 'a prompt at a terminal' 'b"> undo\r\nnothing to undo\r\n> "'
OUTPUT=$work/answers
export OUTPUT
terminal 'no prompt where the answers go to a file' 'b"undo\r\n"'
unset OUTPUT
ERRORS=$work/told
export ERRORS
terminal 'no prompt where errors go to a file' 'b"undo\r\nnothing to undo\r\n"'
unset ERRORS
[ ! -s "$work/told" ] && pass || fail "a file of errors: $(cat "$work/told")"
printf 'undo\n' >"$work/commands"
INPUT=$work/commands
export INPUT
terminal 'no prompt where the commands come from a file' 'b"nothing to undo\r\n"'
unset INPUT
printf 'nothing to undo\n' | cmp -s - "$work/answers" && pass || fail "a file of answers: $(cat "$work/answers")"
finish
