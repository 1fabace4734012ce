"""What the benches of readers share: a program that reads a text as often as it is told, and the table of its times and memory
against serde_json alone on the same bytes."""
import os
import subprocess
import time

from scratch import build, resident

PROGRAM = """\
//! Reads a text as often as it is told, and prints the least time in nanoseconds and the answer.
#![tactic(auto)]

use USED;
use serde_json::Value;
use std::alloc::Global;
use std::time::Instant;
use std::{env, fs, io};

/// The number of the fault; 0 where there is none, 1 for want of memory.
fn document(json: Global, text: &[u8]) -> u16 {
    match CALLED {
        Ok(_read) => 0,
        Err(fault) => fault.number().unwrap_or(1),
    }
}

fn value(json: Global, text: &[u8]) -> u16 {
    match Value::from_slice(json, text) {
        Ok(_value) => 0,
        Err(_fault) => 1,
    }
}

fn main(rt: HostRuntime) -> io::Result<()> {
    let mut words = env::args(&rt)?;
    let _program = words.next();
    let (Some(what), Some(path), Some(runs)) = (words.next(), words.next(), words.next()) else {
        return Ok(());
    };
    let text = fs::read(&rt, path)?;
    let mut least = u128::MAX;
    let mut answer = 0;
    for _run in 0..runs.parse::<u8>().unwrap_or(1) {
        let start = Instant::now(&rt)?;
        answer = if what.as_str() == "value" {
            value(rt.alloc(), text.as_slice())
        } else {
            document(rt.alloc(), text.as_slice())
        };
        least = least.min(start.elapsed(&rt)?.as_nanos());
    }
    println!(rt; "{least} {answer}")?;
    // It stays until its standard input ends, so that its greatest size can be read.
    let _end = fs::read(&rt, "/dev/stdin")?;
    Ok(())
}
"""


def run(program, what, path, runs):
    """The least time in seconds, the answer, and the greatest resident size in MiB, of which the process is asked while it lives."""
    child = subprocess.Popen([program, what, path, str(runs)], stdin=subprocess.PIPE, stdout=subprocess.PIPE)
    words = child.stdout.readline().split()
    size = resident(child.pid)
    child.communicate()
    return int(words[0]) / 1e9, words[1].decode(), size


def take_turns(program, path):
    """The least times in seconds of the document and of its value, and the answer. Both run again and again by turns for some seconds, so
    that what others do on the machine slows both alike."""
    least = {"document": float("inf"), "value": float("inf")}
    answer, rounds, began = None, 0, time.monotonic()
    while rounds < 5 or time.monotonic() - began < 5:
        for what in least:
            seconds, said, _ = run(program, what, path, 3)
            least[what] = min(least[what], seconds)
            answer = said if what == "document" else answer
        rounds += 1
    return least["document"], least["value"], answer


def compare(folder, crates, needs, used, called, cases):
    """Builds the program over these crates and prints a line for each case: its name, and a text that is made when its turn comes."""
    path = os.path.join(folder, "text")
    blank = os.path.join(folder, "empty")
    with open(blank, "w") as empty:
        empty.write("{}")
    source = PROGRAM.replace("USED", used).replace("CALLED", called)
    program = build(folder, crates, "bench_read", f"{needs} serde_json", source, ["document", blank, "1"])
    base = {what: run(program, what, blank, 1)[2] for what in ("document", "value")}
    print(f"{'case':28} {'bytes':>9} {'answer':>6} {'read s':>8} {'json s':>8} {'ratio':>6} {'read MiB':>9} {'json MiB':>9} {'ratio':>6}")
    for name, text_of in cases:
        with open(path, "w") as text:
            text.write(text_of())
        length = os.path.getsize(path)
        seconds, plain, answer = take_turns(program, path)
        # the text itself stands in both
        room = run(program, "document", path, 1)[2] - base["document"]
        plain_room = run(program, "value", path, 1)[2] - base["value"]
        print(
            f"{name:28} {length:9} {answer:>6} {seconds:8.4f} {plain:8.4f} {seconds / plain:6.2f}"
            f" {room:9.1f} {plain_room:9.1f} {room / plain_room if plain_room >= 1 else float('nan'):6.2f}",
            flush=True,
        )
