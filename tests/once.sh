#!/bin/sh
# What may be done once alone, or not at all: a second use of a leave, a claim, a `Done` or a ticket, a leave that is kept after its ticket went, a
# tally that is forgotten, a job with other words; a second board with a history, one that is copied, one that is made where no `HostRuntime` is, and one that
# is kept beside its board, are refused before any proof.
# It needs `rt`; nothing has to be built.
set -u
top=$(cd "$(dirname "$0")/.." && pwd)
work=$(mktemp -d)
trap 'rm -rf "$work"' EXIT
passed=0
failed=0

# A repository of roll_core and ticket_channel, of what they stand on, and of a crate that uses them.
mkdir -p "$work/crates/once/src"
cp "$top/HANDLES" "$work"
(cd "$work" && git init -q .)
: >"$work/crates.txt"
add() {
    [ -e "$work/crates/$1" ] && return
    line=$(grep "^$1:" "$top/crates.txt") || return
    mkdir "$work/crates/$1"
    for part in src specs proofs; do
        [ -d "$top/crates/$1/$part" ] && cp -r "$top/crates/$1/$part" "$work/crates/$1"
    done
    echo "$line" >>"$work/crates.txt"
    for below in ${line#*:}; do
        add "$below"
    done
}
add roll_core
add ticket_channel
echo 'once: domains fleet_states host_vars play_model roll_core ticket_channel' >>"$work/crates.txt"

# tried WANTED: what `rt` says first of a crate with the function on standard input
tried() {
    {
        cat <<'SOURCE'
//! A worker.
#![tactic(auto)]

ghost use Rattle.roll_core.specs.Leaves.{IsGoOf};

use domains::Fleet;
use fleet_states::Status;
use host_vars::Vars;
use play_model::Play;
use roll_core::{Board, Claim, Done, Go, History, Job, Outcome, Runner, Tally, NoObserver};
use std::alloc::{AllocError, Global};
use std::process::{Processes, SystemProcess};
use std::sync::Wait;
use std::sync::ledger::{Blank, Ledger};
use std::thread::Threads;
use ticket_channel::ChannelSender;

#[cfg(test)]
mod tests {
    #[test]
    fn it_is_read() {}
}

SOURCE
        cat
    } >"$work/crates/once/src/lib.rt"
    said=$(cd "$work/crates/once" && rt try --test 2>&1)
    if echo "$said" | grep -q "$1"; then
        passed=$((passed + 1))
    else
        failed=$((failed + 1))
        echo "FAILED: $1 is not said"
        echo "$said" | tail -5
    fi
}

tried 'test tests::it_is_read ... ok' <<'E2'
pub fn report_once<R: Runner>(done: Done<'_, R>) -> Done<'_, R> {
    done
}
E2
tried 'error\[borrow-e0382\]: use of moved value: `go`' <<'E2'
pub fn run_twice<R: Runner, H: Threads + Wait + Processes<Started = SystemProcess> + Sync>(
    runner: &R,
    rt: &H,
    alloc: Global,
    go: Go,
    job: &Job,
) -> Result<(Outcome, Outcome), AllocError>
    requires { IsGoOf go job.now }
{
    let first = runner.run(rt, alloc, go, job)?;
    let second = runner.run(rt, alloc, go, job)?;
    Ok((first, second))
}
E2
tried 'error\[borrow-e0382\]: use of moved value: `claim`' <<'E2'
pub fn claim_twice(claim: Claim) -> (Claim, Claim) {
    (claim, claim)
}
E2
tried 'error\[borrow-e0382\]: use of moved value: `done`' <<'E2'
pub fn report_twice<'r, R: Runner>(done: Done<'r, R>) -> (Done<'r, R>, Done<'r, R>) {
    (done, done)
}
E2
tried 'error\[borrow-e0382\]: use of moved value: `ticket`' <<'E2'
pub fn put_twice<T: Drop, H: Wait>(end: &mut ChannelSender<T>, rt: &H, ticket: T) {
    let _ = end.put(rt, ticket);
    let _ = end.put(rt, ticket);
}
E2
tried 'error\[borrow-e0382\]: use of moved value: `go`' <<'E2'
pub fn keep_the_leave<H: Wait>(end: &mut ChannelSender<(Claim, Go)>, rt: &H, claim: Claim, go: Go) -> Go {
    let _ = end.put(rt, (claim, go));
    go
}
E2
tried 'error\[linear-value-let-go\]: `_tally` is let go where its block ends, and `Tally<L>` is not `Drop`' <<'E2'
pub fn forget<L: Ledger>(_tally: Tally<L>) {}
E2
tried 'error\[private-field\]: field `words` of struct `Job` is private' <<'E2'
pub fn run_other_words(alloc: Global, job: &Job) -> Job {
    Job { host: job.host(), step: job.step(), words: Vec::new(alloc) }
}
E2
tried 'error\[borrow-e0382\]: use of moved value: `history`' <<'E2'
pub fn two_boards<'f, R: Runner, L: Ledger>(
    alloc: Global,
    fleet: &'f Fleet,
    play: &'f Play,
    runner: &'f R,
    start: &'f [Status],
    vars: &'f [Vars],
    blanks: (Blank, Blank),
    history: History,
) {
    let (one, other) = blanks;
    let _first = Board::<R, L, NoObserver>::new(
        alloc, fleet, play, runner, 1, start, vars, one, NoObserver, history,
    );
    let _second = Board::<R, L, NoObserver>::new(
        alloc, fleet, play, runner, 1, start, vars, other, NoObserver, history,
    );
}
E2
tried 'error\[borrow-e0382\]: use of moved value: `history`' <<'E2'
pub fn beside_its_board<'f, R: Runner, L: Ledger>(
    alloc: Global,
    fleet: &'f Fleet,
    play: &'f Play,
    runner: &'f R,
    start: &'f [Status],
    vars: &'f [Vars],
    blank: Blank,
    history: History,
) -> History {
    let _board = Board::<R, L, NoObserver>::new(
        alloc, fleet, play, runner, 1, start, vars, blank, NoObserver, history,
    );
    history
}
E2
tried 'error\[unsupported-method\]: `History` is not `Clone`' <<'E2'
pub fn copied(history: &History) -> History {
    history.clone()
}
E2
tried 'error\[mismatched-types\]: expected `&LibcRuntime`, found `&H`' <<'E2'
pub fn made_anywhere<H: Threads + Wait + Processes<Started = SystemProcess> + Sync>(rt: &H) -> History {
    History::new(rt)
}
E2

echo "$passed passed, $failed failed"
[ "$failed" -eq 0 ]
